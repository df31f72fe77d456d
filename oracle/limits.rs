// Tries the work limit of each framed request on standard input, ours through the text entry and the oracle's by its
// list. limits SEED
// With n evaluations of its own, a limit L of n or more changes nothing, and a smaller one is `refused 3 L 0` after
// the first L evaluations of the same list.
// Every L up to n + 2 where n is at most 3000, else some. Exit status: 1 a difference, 2 bad usage.
use answers::{Evaluation, Seen};
use std::io::Read;

/// The most that a request may ask for.
const LIMIT: usize = 20_000_000;
const SMALL: usize = 3000;

unsafe extern "C" {
    fn probit_text(text: *const u8, text_len: usize, out: *mut u8, out_len: usize) -> u64;
}

fn fail(message: &str) -> ! {
    eprintln!("limits: {message}");
    std::process::exit(2)
}

fn ours(text: &str) -> String {
    let mut out = [0u8; 4096];
    let n = unsafe { probit_text(text.as_ptr(), text.len(), out.as_mut_ptr(), out.len()) };
    String::from_utf8_lossy(&out[..(n as usize).min(out.len())]).into_owned()
}

/// The request's text with another limit; the last line then tells of another byte.
fn limited(text: &str, limit: usize) -> String {
    let mut lines: Vec<String> = text.lines().map(str::to_string).collect();
    let kept = lines[5].rsplit_once(' ').map_or("", |(kept, _)| kept).to_string();
    lines[5] = format!("{kept} {limit}");
    let start: usize = lines[..7].iter().map(|line| line.len() + 1).sum();
    let last = lines.len() - 1;
    lines[last] = format!("rows {} at {start}", lines.len() - 8);
    lines.iter().map(|line| format!("{line}\n")).collect()
}

fn oracle(text: &str) -> (String, Seen) {
    let request = answers::read(text.as_bytes()).unwrap_or_else(|line| fail(&format!("line {line} departs:\n{text}")));
    answers::run(&request, true).unwrap_or_else(|e| fail(&format!("{e}\n{text}")))
}

fn alike(a: &[Evaluation], b: &[Evaluation]) -> bool {
    a.len() == b.len() && a.iter().zip(b).all(|(a, b)| (a.litter, a.alone, a.bits) == (b.litter, b.alone, b.bits))
}

fn wrong(text: &str, what: &str, expected: &str, found: &str) -> ! {
    print!("limits: {what}\n{text}expected\n{expected}found\n{found}");
    std::process::exit(1)
}

/// Numbers that are the same in each run of a seed.
struct Draw(u64);
impl Draw {
    fn below(&mut self, n: usize) -> usize {
        self.0 = self.0.wrapping_mul(6364136223846793005).wrapping_add(1442695040888963407);
        (self.0 >> 33) as usize % n
    }
}

fn main() {
    let seed = std::env::args().nth(1).and_then(|w| w.parse().ok()).unwrap_or_else(|| fail("usage: limits SEED < REQUESTS"));
    let mut input = Vec::new();
    std::io::stdin().read_to_end(&mut input).unwrap_or_else(|e| fail(&e.to_string()));
    let mut draw = Draw(seed);
    let (mut at, mut whole, mut some, mut checked, mut tried) = (0, 0, 0, 0, 0u64);
    while let Some((text, after)) = answers::next(&input, at).unwrap_or_else(|e| fail(&e)) {
        at = after;
        if answers::read(text).is_err() {
            continue;
        }
        let free = limited(&String::from_utf8_lossy(text), LIMIT);
        let (answer, seen) = oracle(&free);
        let n = seen.count;
        if n == 0 || answer.starts_with("refused 3") {
            checked += 1;
            continue;
        }
        let limits: Vec<usize> = if n <= SMALL {
            whole += 1;
            (1..=n + 2).collect()
        } else {
            some += 1;
            [n - 1, n, n + 1, 1, 2].into_iter().chain((0..4).map(|_| 1 + draw.below(n - 1))).collect()
        };
        for limit in limits {
            let text = limited(&free, limit);
            let expected = if limit >= n { answer.clone() } else { format!("refused 3 {limit} 0\n") };
            let (said, told) = oracle(&text);
            if said != expected {
                wrong(&text, "the oracle's answer", &expected, &said);
            }
            if !alike(&told.list, &seen.list[..limit.min(n)]) {
                wrong(&text, "the oracle's list is not the first part of the whole", &expected, &said);
            }
            let found = ours(&text);
            if found != expected {
                wrong(&text, "our answer", &expected, &found);
            }
            tried += 1;
        }
    }
    println!("limits: {tried} limits of {} requests, every limit of {whole} of them; {checked} more do no work or too much; no difference", whole + some);
}
