// Holds our reading of an f64 against Rust's parse::<f64> behind the rules of number.rs: the same texts are taken,
// and each as the same bits.
// decimals SEED NUMBER. Each token is read alone and before the end of a line. A difference is printed and ends the
// run with 1.
use std::collections::BTreeMap;
mod number;
use number::number;

mod draw;
use draw::Draw;

unsafe extern "C" {
    fn inner_value(text: *const u8, text_len: usize, out: *mut u64, out_len: usize) -> u64;
}

/// The bits that ours reads, where the whole token is taken.
fn ours(text: &[u8], token: usize) -> Option<u64> {
    let mut out = [0; 2];
    match unsafe { inner_value(text.as_ptr(), text.len(), out.as_mut_ptr(), 2) } {
        0 => (out[1] == token as u64).then_some(out[0]),
        2 => None,
        status => panic!("decimals: status {status}"),
    }
}

impl Draw {
    fn sign(&mut self) -> &'static str {
        if self.below(2) == 0 { "" } else { "-" }
    }
    fn digits(&mut self, n: u64) -> String {
        (0..n).map(|_| char::from(b'0' + self.below(10) as u8)).collect()
    }
}

/// The whole part and the first digits of M / 2^s behind the point, and whether nothing follows them.
fn cut(m: u64, s: u32, places: usize) -> (u64, String, bool) {
    let (mut rest, mut digits) = (u128::from(m) & ((1 << s) - 1), String::new());
    for _ in 0..places {
        rest *= 10;
        digits.push(char::from(b'0' + (rest >> s) as u8));
        rest &= (1 << s) - 1;
    }
    ((u128::from(m) >> s) as u64, digits, rest == 0)
}

/// The number with its last digit moved by one.
fn moved(token: &str, up: bool) -> String {
    let mut bytes = token.as_bytes().to_vec();
    for c in bytes.iter_mut().rev().filter(|c| c.is_ascii_digit()) {
        match (*c, up) {
            (b'9', true) => *c = b'0',
            (b'0', false) => *c = b'9',
            (_, true) => { *c += 1; break }
            (_, false) => { *c -= 1; break }
        }
    }
    String::from_utf8(bytes).unwrap()
}

/// The middle of two f64s beside each other, cut off where seventeen digits end: exact, or just below it, or with the
/// last digit one more.
fn middle(d: &mut Draw) -> (&'static str, String) {
    // The middle is m / 2^s: m is odd and has 54 binary digits, from 2^53 down to 2^-53 and less.
    let m = 1 << 53 | d.next() >> 11 | 1;
    let s = match d.below(4) {
        0 => 0,
        1 => d.below(4) as u32,
        _ => d.below(108) as u32,
    };
    let whole = (u128::from(m) >> s).to_string().len();
    if whole > 16 {
        return drawn(d);
    }
    let (w, places, exact) = cut(m, s, 17 - whole);
    let token = format!("{}{w}.{places}", d.sign());
    match d.below(3) {
        0 if exact => ("tie", token),
        0 => ("below a middle", token),
        1 => ("above a middle", moved(&token, true)),
        _ => (if exact { "below a middle" } else { "one digit lower" }, moved(&token, false)),
    }
}

fn drawn(d: &mut Draw) -> (&'static str, String) {
    let before = 1 + d.below(16);
    let behind = 1 + d.below(17 - before);
    let sign = d.sign();
    // Zeros in front of either side, now and then.
    let whole = if d.below(3) == 0 { "0".repeat(before as usize) } else { d.digits(before) };
    let zeros = if d.below(3) == 0 { d.below(behind) } else { 0 };
    ("drawn", format!("{sign}{whole}.{}{}", "0".repeat(zeros as usize), d.digits(behind - zeros)))
}

/// The shortest decimal of an f64, which may have too many digits for us.
fn shortest(d: &mut Draw) -> (&'static str, String) {
    let x = f64::from_bits((1023 - 56 + d.below(112)) << 52 | d.next() >> 12);
    let token = format!("{}{x}", d.sign());
    ("shortest", if token.contains('.') { token } else { token + ".0" })
}

fn hexadecimal(d: &mut Draw) -> (&'static str, String) {
    // Decimal digits alone, too: those begin like a decimal.
    ("hexadecimal", if d.below(2) == 0 { format!("{:016x}", d.next()) } else { d.digits(16) })
}

/// A byte put in, taken out or changed; or bytes from nowhere.
fn damaged(d: &mut Draw) -> (&'static str, String) {
    const BYTES: &[u8] = b"0123456789..--+eEabcdefxF ,_";
    let byte = |d: &mut Draw| BYTES[d.below(BYTES.len() as u64) as usize];
    if d.below(4) == 0 {
        let n = d.below(22);
        return ("damaged", (0..n).map(|_| char::from(byte(d))).collect());
    }
    let mut token = match d.below(3) { 0 => hexadecimal(d).1, 1 => shortest(d).1, _ => drawn(d).1 }.into_bytes();
    let at = d.below(token.len() as u64) as usize;
    match d.below(3) {
        0 => token.insert(at, byte(d)),
        1 => drop(token.remove(at)),
        _ => token[at] = byte(d),
    }
    ("damaged", String::from_utf8(token).unwrap())
}

fn check(token: &str) -> bool {
    let want = number(token.as_bytes()).map(f64::to_bits);
    for text in [token.to_string(), format!("{token}\n")] {
        let got = ours(text.as_bytes(), token.len());
        if got != want {
            println!("decimals: {token:?} is read as {got:x?} and not as {want:x?}");
            std::process::exit(1);
        }
    }
    want.is_some()
}

fn main() {
    let words: Vec<u64> = std::env::args().skip(1).filter_map(|w| w.parse().ok()).collect();
    let [seed, count] = words[..] else {
        eprintln!("usage: decimals SEED NUMBER");
        std::process::exit(2)
    };
    let mut met: BTreeMap<String, u64> = BTreeMap::new();
    for (token, bits) in [
        ("-0.0", 0x8000_0000_0000_0000), ("-0.00", 0x8000_0000_0000_0000), ("0.0", 0), ("9007199254740993.0", 0x4340_0000_0000_0000),
        ("9007199254740995.0", 0x4340_0000_0000_0002), ("4503599627370496.5", 0x4330_0000_0000_0000), ("0.1", 0x3fb9_9999_9999_999a),
    ] {
        assert_eq!(number(token.as_bytes()).map(f64::to_bits), Some(bits), "{token}");
        check(token);
    }
    for token in ["1.", ".5", "+1.0", "--1.0", "1e3", "1.0e3", "1.0.0", "0.00000000000000001", "-3fb999999999999a", "-.5", "inf", ""] {
        assert!(!check(token), "{token}");
    }
    let mut d = Draw(seed);
    for _ in 0..count {
        let (kind, token) = match d.below(16) {
            0..6 => middle(&mut d),
            6..10 => drawn(&mut d),
            10..13 => shortest(&mut d),
            13 => hexadecimal(&mut d),
            _ => damaged(&mut d),
        };
        let taken = if check(&token) { "taken" } else { "refused" };
        *met.entry(format!("{kind}, {taken}")).or_default() += 1;
    }
    for (name, times) in &met {
        println!("  {times:>9}  {name}");
    }
    println!("decimals: {count} tokens of seed {seed}, no difference");
}
