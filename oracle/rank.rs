// Whole numbers in the order of the f64s, and back.
pub fn rank(x: f64) -> i64 {
    let b = x.to_bits() as i64;
    if b < 0 { i64::MIN - b } else { b }
}

pub fn of_rank(r: i64) -> f64 {
    f64::from_bits(if r < 0 { (i64::MIN - r) as u64 } else { r as u64 })
}
