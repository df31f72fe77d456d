// Holds our log-Wald intervals against population_intervals.rs, unaltered, to the bit. intervals SEED NUMBER, and
// rows: the intervals alone, for R.
// The module's ln and exp call the C library's log and exp, and this program's own stand in for them: they are ours.
// Its root is the processor's.
// Each test is met just inside and just outside: one number is moved along the f64s until two neighbours are answered
// differently, and both are held.
use std::collections::BTreeMap;
use std::process::exit;
use std::sync::atomic::{AtomicU64, Ordering};

mod draw;
use draw::Draw;
mod rank;
use rank::{of_rank, rank};

#[path = "../target/oracle/intervals/population_intervals.rs"]
mod population_intervals;

#[derive(Clone, Copy, Debug, PartialEq, Eq)]
pub enum ErrorCode {
    InvalidInput,
    Unsupported,
}
mod error;
pub use error::Error;

pub mod fit {
    use crate::population_intervals::PositiveFixedEffectIntervals;
    #[derive(Clone, Copy, Debug, PartialEq)]
    pub enum FitStatus {
        Converged,
    }
    #[derive(Clone, Copy, Debug, PartialEq, Eq)]
    pub enum PopulationUncertaintyMethod {
        SaemMarginalObservedHessian,
    }
    pub struct PopulationUncertaintyParameter {
        pub name: String,
        pub unit: String,
    }
    pub struct PopulationFitUncertainty {
        pub method: PopulationUncertaintyMethod,
        pub parameters: Vec<PopulationUncertaintyParameter>,
        pub covariance: Vec<Vec<f64>>,
        pub standard_errors: Vec<f64>,
    }
    pub struct Quantity {
        pub value: f64,
        pub unit: String,
    }
    pub struct PopulationFitResult {
        pub fixed_effect_intervals: Option<PositiveFixedEffectIntervals>,
        pub fixed_effect_interval_error: Option<crate::Error>,
        pub status: FitStatus,
        pub fixed_effects: std::collections::BTreeMap<String, Quantity>,
        pub uncertainty: Option<PopulationFitUncertainty>,
    }
}

unsafe extern "C" {
    fn probit_exp(x: f64) -> f64;
    fn probit_log(x: f64) -> f64;
    fn probit_intervals(
        estimates: *const f64, estimates_len: usize, covariance: *const f64, covariance_len: usize, errors: *const f64, errors_len: usize,
        marks: u64, numbers: *mut f64, numbers_len: usize,
    ) -> u64;
}

static EXPS: AtomicU64 = AtomicU64::new(0);
static LOGS: AtomicU64 = AtomicU64::new(0);

#[unsafe(no_mangle)]
pub extern "C" fn exp(x: f64) -> f64 {
    EXPS.fetch_add(1, Ordering::Relaxed);
    unsafe { probit_exp(x) }
}
#[unsafe(no_mangle)]
pub extern "C" fn log(x: f64) -> f64 {
    LOGS.fetch_add(1, Ordering::Relaxed);
    unsafe { probit_log(x) }
}

#[derive(Clone, Debug)]
struct Asked {
    estimates: Vec<f64>,
    covariance: Vec<f64>,
    errors: Vec<f64>,
    marks: u64,
}

#[derive(Clone, Debug)]
struct Answer {
    end: u64,
    numbers: Vec<f64>,
}
impl Answer {
    fn same(&self, other: &Answer) -> bool {
        self.end == other.end && self.numbers.iter().zip(&other.numbers).all(|(a, b)| a.to_bits() == b.to_bits())
    }
}

/// What stands in a buffer that is left alone.
const LEFT: f64 = -7.25;
const PLACES: usize = 24;

fn ours(a: &Asked) -> Answer {
    let mut numbers = vec![LEFT; PLACES + 1];
    let before = a.clone();
    let end = unsafe {
        probit_intervals(
            a.estimates.as_ptr(), a.estimates.len(), a.covariance.as_ptr(), a.covariance.len(), a.errors.as_ptr(), a.errors.len(), a.marks,
            numbers.as_mut_ptr(), PLACES,
        )
    };
    let bits = |v: &[f64]| v.iter().map(|x| x.to_bits()).collect::<Vec<_>>();
    if bits(&a.estimates) != bits(&before.estimates) || bits(&a.covariance) != bits(&before.covariance) || bits(&a.errors) != bits(&before.errors) {
        fail("what was lent came back changed", a);
    }
    if numbers.pop() != Some(LEFT) {
        fail("a place after the buffer was written", a);
    }
    Answer { end, numbers }
}

fn theirs(a: &Asked) -> Answer {
    let size = a.estimates.len();
    let name = |i: usize| format!("p{i}");
    let unit = || "1".to_string();
    let population = fit::PopulationFitResult {
        fixed_effect_intervals: None,
        fixed_effect_interval_error: None,
        status: fit::FitStatus::Converged,
        fixed_effects: (0..size).map(|i| (name(i), fit::Quantity { value: a.estimates[i], unit: unit() })).collect::<BTreeMap<_, _>>(),
        uncertainty: Some(fit::PopulationFitUncertainty {
            method: fit::PopulationUncertaintyMethod::SaemMarginalObservedHessian,
            parameters: (0..size).map(|i| fit::PopulationUncertaintyParameter { name: name(i), unit: unit() }).collect(),
            covariance: a.covariance.chunks(size.max(1)).map(|row| row.to_vec()).collect(),
            standard_errors: a.errors.clone(),
        }),
    };
    let marked: Vec<usize> = (0..64).filter(|i| a.marks >> i & 1 == 1).collect();
    let names: Vec<String> = marked.iter().map(|&i| name(i)).collect();
    let mut numbers = vec![0.; PLACES];
    let end = match population_intervals::positive_fixed_effect_intervals(&population, &names) {
        Ok(found) => {
            for (i, v) in marked.iter().zip(&found.intervals) {
                numbers[3 * i] = v.log_coordinate_standard_error;
                numbers[3 * i + 1] = v.lower;
                numbers[3 * i + 2] = v.upper;
            }
            0
        }
        Err(e) if e.code == ErrorCode::InvalidInput => 1,
        Err(_) => 8,
    };
    Answer { end, numbers }
}

fn fail(message: &str, a: &Asked) -> ! {
    println!("intervals: {message}: {a:?}");
    exit(1)
}

/// Both answers, the same to the bit.
fn hold(a: &Asked) -> Answer {
    let (mine, judge) = (ours(a), theirs(a));
    if !mine.same(&judge) {
        println!("the module answers {judge:?}\nand ours {mine:?}");
        fail("a difference", a);
    }
    mine
}

const ODD: [f64; 14] = [
    0., -0., 5e-324, -5e-324, 2.2250738585072014e-308, 1e-160, 1e-12, 1., -1., 1e160, f64::MAX, f64::INFINITY, f64::NEG_INFINITY, f64::NAN,
];

/// A covariance that passes, with estimates of any size; then, now and then, a fault.
fn asked(d: &mut Draw) -> Asked {
    let n = 1 + d.place(8);
    let scale: Vec<f64> = (0..n).map(|_| 10f64.powf(8. * d.unit() - 4.)).collect();
    let b: Vec<f64> = (0..n * n).map(|_| 2. * d.unit() - 1.).collect();
    let ridge = if d.one_in(4) { 1e-12 } else { 0.1 };
    let mut covariance = vec![0.; n * n];
    for i in 0..n {
        for j in 0..=i {
            let mut s = if i == j { ridge } else { 0. };
            for k in 0..n {
                s += b[n * i + k] * b[n * j + k];
            }
            covariance[n * i + j] = s * scale[i] * scale[j];
            covariance[n * j + i] = covariance[n * i + j];
        }
    }
    let errors: Vec<f64> = (0..n).map(|i| covariance[n * i + i].sqrt()).collect();
    let estimates = (0..n).map(|i| errors[i] * 10f64.powf(4. * d.unit() - 1.)).collect();
    let marks = 1 + d.next() % ((1 << n) - 1);
    let mut a = Asked { estimates, covariance, errors, marks };
    if d.one_in(3) {
        let odd = ODD[d.place(ODD.len())];
        match d.place(4) {
            0 => *d.any(&mut a.estimates) = odd,
            1 => *d.any(&mut a.covariance) = odd,
            2 => *d.any(&mut a.errors) = odd,
            _ => *d.any(&mut a.covariance) *= 1. + 1e-9 * (d.unit() - 0.5),
        }
    }
    a
}
/// Moves one number from where the answer has one ending to where it has another, until they are neighbours. Both are
/// held.
fn edge(a: &Asked, put: &dyn Fn(&mut Asked, f64), from: f64, to: f64) -> Option<(u64, u64)> {
    let at = |r: i64| {
        let mut b = a.clone();
        put(&mut b, of_rank(r));
        hold(&b).end
    };
    let (mut x, mut y) = (rank(from), rank(to));
    let (start, end) = (at(x), at(y));
    if start == end {
        return None;
    }
    while x.abs_diff(y) > 1 {
        let m = ((x as i128 + y as i128) / 2) as i64;
        if at(m) == start { x = m } else { y = m }
    }
    Some((at(x), at(y)))
}

/// A plain request of dimension n: nothing is near a test.
fn plain(d: &mut Draw, n: usize) -> Asked {
    let mut covariance = vec![0.; n * n];
    for i in 0..n {
        for j in 0..n {
            covariance[n * i + j] = if i == j { 1. + d.unit() } else { 0.01 * (1. + (i + j) as f64 / 16.) };
        }
    }
    let errors = (0..n).map(|i| covariance[n * i + i].sqrt()).collect();
    let estimates = (0..n).map(|_| 1. + d.unit()).collect();
    Asked { estimates, covariance, errors, marks: (1 << n) - 1 }
}

fn edges(d: &mut Draw, met: &mut BTreeMap<&'static str, u64>) {
    let n = 1 + d.place(8);
    let i = d.place(n);
    let a = plain(d, n);
    let mut see = |name: &'static str, found: Option<(u64, u64)>, between: (u64, u64)| {
        if found != Some(between) {
            println!("{name}: {found:?} where {between:?} is meant");
            fail("an edge is not where it is meant", &a);
        }
        *met.entry(name).or_insert(0) += 1;
    };
    let e = a.errors[i];
    let v = a.covariance[n * i + i];
    let x = a.estimates[i];
    let error = move |b: &mut Asked, t: f64| b.errors[i] = t;
    see("a standard error too large for its diagonal", edge(&a, &error, e, 2. * e), (0, 1));
    see("a standard error too small for its diagonal", edge(&a, &error, e, e / 2.), (0, 1));
    let whole = move |b: &mut Asked, t: f64| {
        // the diagonal and its root move together; the rest of the row and column is zero
        for k in 0..n {
            b.covariance[n * i + k] = 0.;
            b.covariance[n * k + i] = 0.;
        }
        b.covariance[n * i + i] = t;
        b.errors[i] = t.sqrt();
        b.estimates[i] = 4. * t.max(5e-324).sqrt();
    };
    see("a diagonal that is not positive", edge(&a, &whole, v, -v), (0, 1));
    see("a covariance that is not finite", edge(&a, &whole, v, f64::INFINITY), (0, 1));
    let estimate = move |b: &mut Asked, t: f64| b.estimates[i] = t;
    see("an interval that leaves the f64s", edge(&a, &estimate, x, 5e-324), (0, 8));
    see("an estimate that is not positive", edge(&a, &estimate, 5e-324, -x), (8, 1));
    see("an estimate that is not finite", edge(&a, &estimate, f64::MAX, f64::INFINITY), (8, 1));
    see("an interval that does not increase", edge(&a, &estimate, x, 1e30), (0, 8));
    if n > 1 {
        let j = (i + 1 + d.place(n - 1)) % n;
        let at = a.covariance[n * i + j];
        let cell = move |b: &mut Asked, t: f64| b.covariance[n * i + j] = t;
        see("asymmetry by the relative tolerance, above", edge(&a, &cell, at, 2. * at), (0, 1));
        see("asymmetry by the relative tolerance, below", edge(&a, &cell, at, at / 2.), (0, 1));
        let small = {
            let mut b = a.clone();
            b.covariance[n * j + i] = 1e-13;
            b
        };
        see("asymmetry by the least tolerance, above", edge(&small, &cell, 1e-13, 1e-3), (0, 1));
        see("asymmetry by the least tolerance, of the other sign", edge(&small, &cell, 1e-13, -1e-3), (0, 1));
        let pair = move |b: &mut Asked, t: f64| {
            b.covariance[n * i + j] = t;
            b.covariance[n * j + i] = t;
        };
        see("a covariance that is not positive definite", edge(&a, &pair, at, 2.), (0, 1));
        // an estimate that is not marked is not looked at
        let mut b = a.clone();
        b.marks &= !(1 << i);
        b.estimates[i] = f64::NAN;
        see("an unmarked estimate that is no number", Some((hold(&b).end, 0)), (0, 0));
    }
}

/// Shapes that are refused with nothing written.
fn shapes(d: &mut Draw) {
    let n = 1 + d.place(8);
    let a = plain(d, n);
    let mut asks = vec![Asked { marks: 0, ..a.clone() }, Asked { marks: a.marks | 1 << (n + d.place(64 - n)), ..a.clone() }];
    for wrong in 0..3 {
        let mut b = a.clone();
        let v = [&mut b.estimates, &mut b.covariance, &mut b.errors];
        let v = v.into_iter().nth(wrong).unwrap();
        if d.one_in(2) { v.push(1.) } else { drop(v.pop()) }
        asks.push(b);
    }
    asks.push(Asked { estimates: vec![], covariance: vec![], errors: vec![], marks: 1 });
    asks.push(plain(d, 9));
    for b in asks {
        let answer = ours(&b);
        if answer.end != 1 || answer.numbers.iter().any(|x| *x != LEFT) {
            fail("a wrong shape is not refused, or something was written", &b);
        }
    }
}

/// Estimate, standard error, lower and upper of every interval of that many requests.
fn rows(d: &mut Draw, number: u64) {
    for _ in 0..number {
        let a = asked(d);
        let answer = hold(&a);
        for i in (0..a.estimates.len()).filter(|i| answer.end == 0 && a.marks >> i & 1 == 1) {
            println!("{:e} {:e} {:e} {:e}", a.estimates[i], a.errors[i], answer.numbers[3 * i + 1], answer.numbers[3 * i + 2]);
        }
    }
}

fn main() {
    let args: Vec<u64> = std::env::args().skip(1).filter(|a| a != "rows").map(|a| a.parse().unwrap_or_else(|_| exit(2))).collect();
    let [seed, number] = args[..] else { exit(2) };
    let mut d = Draw(seed);
    if std::env::args().any(|a| a == "rows") {
        return rows(&mut d, number);
    }
    let (mut ends, mut met) = (BTreeMap::new(), BTreeMap::new());
    for k in 0..number {
        let end = hold(&asked(&mut d)).end;
        *ends.entry(end).or_insert(0u64) += 1;
        if k % 100 == 0 {
            edges(&mut d, &mut met);
            shapes(&mut d);
        }
    }
    let (exps, logs) = (EXPS.load(Ordering::Relaxed), LOGS.load(Ordering::Relaxed));
    if exps == 0 || logs == 0 {
        println!("intervals: the module did not call our exp and log");
        exit(1);
    }
    for (name, times) in &met {
        println!("  {times:6} times on both sides of: {name}");
    }
    println!("intervals: {number} requests of dimension 1 to 8, ends {ends:?}; the module called our exp {exps} and log {logs} times; no difference");
}
