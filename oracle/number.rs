// An f64 in a request, by the rules of documents 01 and 02 §1: sixteen lower-case hexadecimal digits of its bits, or
// a decimal, which Rust's own parse reads.

pub fn number(word: &[u8]) -> Option<f64> {
    if word.contains(&b'.') { decimal(word) } else { hexadecimal(word) }
}

fn hexadecimal(word: &[u8]) -> Option<f64> {
    if word.len() != 16 || !word.iter().all(|c| matches!(c, b'0'..=b'9' | b'a'..=b'f')) {
        return None;
    }
    let digit = |c: &u8| u64::from(if *c <= b'9' { c - b'0' } else { c - b'a' + 10 });
    Some(f64::from_bits(word.iter().fold(0, |v, c| 16 * v + digit(c))))
}

fn decimal(word: &[u8]) -> Option<f64> {
    let size = word.strip_prefix(b"-").unwrap_or(word);
    let sides: Vec<&[u8]> = size.split(|&c| c == b'.').collect();
    let [whole, places] = sides[..] else { return None };
    let digits = |s: &[u8]| !s.is_empty() && s.iter().all(u8::is_ascii_digit);
    if !digits(whole) || !digits(places) || whole.len() + places.len() > 17 {
        return None;
    }
    std::str::from_utf8(word).ok()?.parse().ok()
}
