// Times the fit of counts per exposure: ours, the Rust module over libm 0.2.1 and over our elementary functions. One
// run, all in turn, the best of several.
// counts [ROUNDS]. Prints the time of a fit and of a pass of its inner loop, and how an objective's time grows with
// its passes and its rows.
// Exit status: 1 a pass costs half as much again where there are more of them, 2 the sides disagree or bad usage.
use qspquest_core::discrete_fit::{CountExposure, DiscreteFitResult as Fit, GammaPoissonFitRequest as Request};
use qspquest_core::fit::FitStatus;
use qspquest_core::model::Quantity;
use qspquest_core::Error;
use std::hint::black_box;

mod timing;
use timing::{best, Draw};

/// A pass of a large objective beside one of a small.
const GROWTH: f64 = 1.5;

#[path = "../oracle/counts_entries.rs"]
mod counts_entries;
use counts_entries::{probit_counts_fit, probit_counts_objective};

type Side = fn(&Request) -> Result<Fit, Error>;

fn fail(message: &str) -> ! {
    eprintln!("counts: {message}");
    std::process::exit(2)
}

const BOUNDS: [f64; 6] = [1e-3, 1e3, 1., 1e-3, 1e3, 1.];
const TOLERANCE: f64 = 1e-6;
const LIMIT: usize = 200;

struct Rows {
    events: Vec<u32>,
    exposures: Vec<f64>,
}
impl Rows {
    /// Events up to the most, exposures from a half to two.
    fn drawn(number: usize, most: u32) -> Rows {
        let mut d = Draw(number as u64);
        let events = (0..number).map(|_| d.below(most + 1)).collect();
        Rows { events, exposures: (0..number).map(|_| 0.5 + f64::from(d.below(1000)) / 666.).collect() }
    }
    /// The same number of events in each row.
    fn level(number: usize, events: u32) -> Rows {
        Rows { events: vec![events; number], exposures: vec![1.; number] }
    }
    fn total(&self) -> u64 {
        self.events.iter().map(|&n| u64::from(n)).sum()
    }
    fn request(&self) -> Request {
        let quantity = |value: f64| Quantity { value, unit: String::new() };
        Request {
            observations: self.events.iter().zip(&self.exposures).map(|(&count, &x)| CountExposure { count, exposure: quantity(x) }).collect(),
            shape_bounds: [BOUNDS[0], BOUNDS[1]],
            initial_shape: BOUNDS[2],
            rate_bounds: [quantity(BOUNDS[3]), quantity(BOUNDS[4])],
            initial_rate: quantity(BOUNDS[5]),
            max_evaluations: LIMIT,
            max_iterations: LIMIT,
            gradient_tolerance: TOLERANCE,
        }
    }
    fn fit(&self) -> (u64, [f64; 4], [u64; 8]) {
        let (mut numbers, mut counts) = ([0.; 4], [0; 8]);
        let (e, x) = (&self.events, &self.exposures);
        let end = unsafe {
            probit_counts_fit(
                BOUNDS.as_ptr(), 6, TOLERANCE, LIMIT as u64, LIMIT as u64, e.as_ptr(), e.len(), x.as_ptr(), x.len(), numbers.as_mut_ptr(), 4, counts.as_mut_ptr(), 8,
            )
        };
        (end, numbers, counts)
    }
    fn objective(&self) -> u64 {
        let (mut numbers, mut counts) = ([0.; 7], [0; 2]);
        let (e, x) = (&self.events, &self.exposures);
        let end = unsafe { probit_counts_objective(1.5, 0.5, e.as_ptr(), e.len(), x.as_ptr(), x.len(), numbers.as_mut_ptr(), 7, counts.as_mut_ptr(), 2) };
        if end != 0 || counts[0] != self.total() {
            fail("an objective is refused, or counts other passes than its events");
        }
        black_box(numbers);
        counts[0]
    }
}

fn beside(number: usize, most: u32, rounds: usize) {
    let rows = Rows::drawn(number, most);
    let request = rows.request();
    let (plain, bound): (Side, Side) = (given_plain::fit_gamma_poisson, given_ours::fit_gamma_poisson);
    let (end, numbers, counts) = rows.fit();
    let (Ok(a), Ok(b)) = (bound(&request), plain(&request)) else { fail("the Rust refuses") };
    let theirs = [a.parameters["shape"].value, a.parameters["rate"].value, a.negative_log_likelihood, a.projected_gradient_norm];
    if end != 0 || numbers.map(f64::to_bits) != theirs.map(f64::to_bits) || counts[1] != a.evaluations as u64 {
        fail("ours and the Rust over our functions differ");
    }
    if a.status != FitStatus::Converged || b.status != FitStatus::Converged {
        fail("a fit did not converge");
    }
    let mut t = [f64::INFINITY; 3];
    for _ in 0..rounds {
        t[0] = t[0].min(best(1, || drop(black_box(black_box(&rows).fit()))));
        t[1] = t[1].min(best(1, || drop(black_box(plain(black_box(&request))))));
        t[2] = t[2].min(best(1, || drop(black_box(bound(black_box(&request))))));
    }
    // The Rust over libm 0.2.1 may take another number of evaluations: its time is scaled to ours.
    t[1] *= a.evaluations as f64 / b.evaluations as f64;
    let [m, e] = [1e3, 1e9 / counts[3] as f64].map(|by| t.map(|s| s * by));
    println!(
        "{:<28} {:>8} {:>9.3} {:>9.3} {:>9.3} {:>8.1} {:>7.1} {:>7.1} {:>9.3} {:>8.3}",
        format!("{number} rows of 0 to {most} events"), counts[3], m[0], m[1], m[2], e[0], e[1], e[2], t[0] / t[1], t[0] / t[2]
    );
}

fn main() {
    let words: Vec<String> = std::env::args().skip(1).collect();
    let rounds = match &words[..] {
        [] => 9,
        [n] => n.parse().unwrap_or_else(|_| fail("usage: counts [ROUNDS]")),
        _ => fail("usage: counts [ROUNDS]"),
    };
    println!("                                            ms a fit                       ns a pass             ours of    ours of");
    println!("                               passes      ours rust+libm rust+ours     ours    libm    ours rust+libm rust+ours");
    for (number, most) in [(100, 50), (10, 50), (1000, 50), (100, 5), (100, 500)] {
        beside(number, most, rounds);
    }
    println!("an objective of 100 rows: the time beside that of 100 rows without events, by its passes");
    let empty = Rows::level(100, 0);
    let none = best(rounds, || drop(black_box(empty.objective())));
    let mut first = 0.;
    let mut missed = false;
    // From so many on nearly all passes are made row by row: below 64 events the rows share their sums.
    for events in [1000, 3000, 10000] {
        let rows = Rows::level(100, events);
        let s = best(rounds, || drop(black_box(rows.objective())));
        let each = 1e9 * (s - none) / rows.total() as f64;
        println!("  {:>8} passes: {:>9.3} ms, {each:.2} ns a pass", rows.total(), 1e3 * s);
        if first == 0. {
            first = each;
        }
        missed |= each > GROWTH * first;
    }
    println!("an objective without events: ns a row");
    for number in [64, 512, 4096] {
        let rows = Rows::level(number, 0);
        println!("  {number:>8} rows: {:.1}", 1e9 * best(rounds, || drop(black_box(rows.objective()))) / number as f64);
    }
    if missed {
        println!("missed: a pass is to cost the same however many there are");
        std::process::exit(1);
    }
}
