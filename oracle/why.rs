// Asks for every trial of each framed request on standard input, and one number past the last, and for its ending:
// ours through probit_why, the module's by the hooks.
// Beside each the fit is that of probit_fit, byte for byte. A slope that is a zero may have the other sign in the
// module, whose sums start at minus zero: counted, not a difference.
// Exit status: 1 a difference, 2 bad usage.
use std::collections::BTreeMap;
use std::io::Read;

const REASONS: usize = 7;

unsafe extern "C" {
    fn probit_fit(
        bounds: *const f64, bounds_len: usize, tolerance: f64, evaluations: u64, iterations: u64, quadrature: u64, litters: *const u32, litters_len: usize,
        numbers: *mut f64, numbers_len: usize, counts: *mut u64, counts_len: usize,
    ) -> u64;
    fn probit_why(
        bounds: *const f64, bounds_len: usize, tolerance: f64, evaluations: u64, iterations: u64, quadrature: u64, litters: *const u32, litters_len: usize, number: u64,
        numbers: *mut f64, numbers_len: usize, counts: *mut u64, counts_len: usize, reasons: *mut u64, reasons_len: usize,
    ) -> u64;
}

fn fail(message: &str) -> ! {
    eprintln!("why: {message}");
    std::process::exit(2)
}

fn wrong(text: &[u8], what: &str, expected: &str, found: &str) -> ! {
    print!("why: {what}\n{}expected {expected}\nfound {found}\n", String::from_utf8_lossy(text));
    std::process::exit(1)
}

type Bytes = (u64, Vec<u64>, Vec<u64>);

fn main() {
    let mut input = Vec::new();
    std::io::stdin().read_to_end(&mut input).unwrap_or_else(|e| fail(&e.to_string()));
    let (mut at, mut requests, mut asked, mut zeros) = (0, 0u64, 0u64, 0u64);
    let (mut kinds, mut endings): (BTreeMap<u64, u64>, BTreeMap<String, u64>) = Default::default();
    let mut smallest: Option<String> = None;
    while let Some((text, after)) = answers::next(&input, at).unwrap_or_else(|e| fail(&e)) {
        at = after;
        let Ok(request) = answers::read(text) else { continue };
        let (answer, seen) = answers::run(&request, false).unwrap_or_else(|e| fail(&e));
        let refusal: Vec<u64> = answer.strip_prefix("refused ").map_or(Vec::new(), |r| r.split_whitespace().filter_map(|w| w.parse().ok()).collect());
        let bounds: Vec<f64> = (0..2)
            .flat_map(|i| [request.mean_bounds[i][0], request.mean_bounds[i][1], request.initial_means[i]])
            .chain((0..2).flat_map(|i| [request.sd_bounds[i][0], request.sd_bounds[i][1], request.initial_sds[i]]))
            .collect();
        let litters: Vec<u32> = request.observations.iter().flat_map(|l| [l.successes, l.total, l.group as u32]).collect();
        let limits = [request.max_evaluations as u64, request.max_iterations as u64, request.max_quadrature_evaluations as u64];
        let bits = |numbers: &[f64]| numbers.iter().map(|x| x.to_bits()).collect::<Vec<u64>>();
        let alone: Bytes = {
            let (mut numbers, mut counts) = ([0f64; 28], [0u64; 10]);
            let value = unsafe {
                probit_fit(
                    bounds.as_ptr(), bounds.len(), request.gradient_tolerance, limits[0], limits[1], limits[2], litters.as_ptr(), litters.len(),
                    numbers.as_mut_ptr(), numbers.len(), counts.as_mut_ptr(), counts.len(),
                )
            };
            (value, bits(&numbers), counts.to_vec())
        };
        let made = seen.trials.len() as u64;
        let last = made + u64::from(seen.refused);
        // InvalidInput has no litter, nor has a sum that is not finite.
        let (test, litter) = match refusal.first() {
            None => (u64::from(seen.test), 0),
            Some(1) => (0, 0),
            Some(_) => (0, if seen.reason == 6 { 0 } else { u64::from(seen.litter) }),
        };
        if refusal.is_empty() && test == 0 {
            fail("no hook told what ended the fit");
        }
        *endings.entry(match refusal.first() {
            None => format!("test {test}"),
            Some(e) => format!("refusal {e}{}{}", if litter == 0 { "" } else { " at a litter" }, if seen.refused { ", of a trial" } else { "" }),
        }).or_default() += 1;
        requests += 1;
        for number in 0..=last + 1 {
            let mut expected = [0, 0, 0, 0, 0, test, litter];
            match number {
                n if n >= 1 && n <= made => {
                    let trial = seen.trials[n as usize - 1];
                    (expected[0], expected[1]) = (u64::from(trial.kind), trial.bits);
                }
                n if n >= 1 && n <= last => (expected[0], expected[2], expected[3], expected[4]) = (7, refusal[0], refusal[1], refusal[2]),
                _ => expected[2] = 1,
            }
            *kinds.entry(expected[0]).or_default() += 1;
            let (mut numbers, mut counts, mut reasons) = ([0f64; 28], [0u64; 10], [0u64; REASONS]);
            let value = unsafe {
                probit_why(
                    bounds.as_ptr(), bounds.len(), request.gradient_tolerance, limits[0], limits[1], limits[2], litters.as_ptr(), litters.len(), number,
                    numbers.as_mut_ptr(), numbers.len(), counts.as_mut_ptr(), counts.len(), reasons.as_mut_ptr(), reasons.len(),
                )
            };
            asked += 1;
            let beside: Bytes = (value, bits(&numbers), counts.to_vec());
            if beside != alone {
                wrong(text, &format!("the fit beside trial {number}"), &format!("{alone:?}"), &format!("{beside:?}"));
            }
            if expected[0] == 1 && expected[1] == (-0f64).to_bits() && reasons[1] == 0 {
                expected[1] = 0;
                zeros += 1;
                if smallest.as_ref().is_none_or(|s| s.len() > text.len()) {
                    smallest = Some(format!("{}trial {number}\n", String::from_utf8_lossy(text)));
                }
            }
            if reasons != expected {
                wrong(text, &format!("trial {number} of {last}"), &format!("{expected:x?}"), &format!("{reasons:x?}"));
            }
        }
    }
    if let (Some(text), true) = (&smallest, std::env::args().nth(1).is_some()) {
        print!("why: the shortest request with a zero of the other sign:\n{text}");
    }
    println!("why: {asked} numbers of {requests} requests, {zeros} slopes that are a zero of the other sign; no other difference");
    println!("why: kinds (0 none, 7 refused) {kinds:?}");
    println!("why: endings {endings:?}");
}
