// Holds our Gamma-Poisson objective and fit against discrete_fit.rs, unaltered, to the bit. counts SEED NUMBER
// The module's functions of the crate libm are ours, from oracle/counted.rs. Its units are left behind: a number is
// taken as it is, and has to be finite (oracle/core.rs).
// Each limit is met just inside and just outside. Where answers differ, the smallest request found is printed, made
// smaller by what can be left out of it.
use given::{fit_gamma_poisson, gamma_poisson_objective};
use qspquest_core::discrete_fit::{CountExposure, GammaPoissonFitRequest};
use qspquest_core::fit::FitStatus;
use qspquest_core::model::Quantity;
use qspquest_core::ErrorCode;
use std::collections::BTreeMap;
use std::process::exit;

mod draw;
use draw::Draw;
mod rank;
use rank::{of_rank, rank};

mod counts_entries;
use counts_entries::{probit_counts_fit, probit_counts_objective};

/// The objective is asked at the start.
#[derive(Clone, Copy, Debug, PartialEq)]
enum Entry {
    Fit,
    Objective,
}
use Entry::{Fit, Objective};

#[derive(Clone, Debug)]
struct Asked {
    entry: Entry,
    /// low, high and start of the shape, then of the rate
    bounds: Vec<f64>,
    tolerance: f64,
    evaluations: u64,
    iterations: u64,
    events: Vec<u32>,
    exposures: Vec<f64>,
}
const LOW: usize = 0;
const HIGH: usize = 1;
const START: usize = 2;
const SHAPE: usize = 0;
const RATE: usize = 3;

#[derive(Clone, Debug)]
struct Answer {
    end: u64,
    numbers: Vec<f64>,
    counts: Vec<u64>,
}
impl Answer {
    fn same(&self, other: &Answer) -> bool {
        let bits = |v: &[f64]| v.iter().map(|x| x.to_bits()).collect::<Vec<_>>();
        self.end == other.end && bits(&self.numbers) == bits(&other.numbers) && self.counts == other.counts
    }
    fn status(&self, a: &Asked) -> u64 {
        if a.entry == Fit { self.counts[0] } else { 0 }
    }
}

/// What stands in a buffer that is left alone.
const LEFT: f64 = -7.25;
const LEFT_COUNT: u64 = 7_777_777_777_777;
/// numbers and counts of a fit, and of an objective
fn places(e: Entry) -> (usize, usize) {
    if e == Fit { (4, 8) } else { (7, 2) }
}

/// The call with buffers of these lengths; each has a place more that nobody lent.
fn called(a: &Asked, numbers_len: usize, counts_len: usize) -> Answer {
    let (mut numbers, mut counts) = (vec![LEFT; numbers_len + 1], vec![LEFT_COUNT; counts_len + 1]);
    let lent = |a: &Asked| (a.events.clone(), a.exposures.iter().chain(&a.bounds).map(|x| x.to_bits()).collect::<Vec<_>>());
    let before = lent(a);
    let (e, x, n, c) = (&a.events, &a.exposures, numbers.as_mut_ptr(), counts.as_mut_ptr());
    let end = unsafe {
        match a.entry {
            Fit => probit_counts_fit(
                a.bounds.as_ptr(), a.bounds.len(), a.tolerance, a.evaluations, a.iterations, e.as_ptr(), e.len(), x.as_ptr(), x.len(), n, numbers_len, c,
                counts_len,
            ),
            Objective => probit_counts_objective(
                a.bounds[SHAPE + START], a.bounds[RATE + START], e.as_ptr(), e.len(), x.as_ptr(), x.len(), n, numbers_len, c, counts_len,
            ),
        }
    };
    if lent(a) != before {
        fail("what was lent came back changed", a);
    }
    if numbers.pop() != Some(LEFT) || counts.pop() != Some(LEFT_COUNT) {
        fail("a place after a buffer was written", a);
    }
    Answer { end, numbers, counts }
}
fn ours(a: &Asked) -> Answer {
    let (numbers, counts) = places(a.entry);
    called(a, numbers, counts)
}

fn theirs(a: &Asked) -> Answer {
    let quantity = |value: f64| Quantity { value, unit: String::new() };
    let observations: Vec<_> = a.events.iter().zip(&a.exposures).map(|(&count, &x)| CountExposure { count, exposure: quantity(x) }).collect();
    libm::begin();
    let (found, spent) = match a.entry {
        Objective => {
            let found = gamma_poisson_objective(a.bounds[SHAPE + START], &quantity(a.bounds[RATE + START]), &observations).map(|o| {
                let numbers = [o.negative_log_likelihood].into_iter().chain(o.log_gradient).chain(o.log_hessian.into_iter().flatten()).collect();
                (numbers, vec![0, 0])
            });
            (found, 0)
        }
        Fit => {
            let request = GammaPoissonFitRequest {
                observations,
                shape_bounds: [a.bounds[SHAPE + LOW], a.bounds[SHAPE + HIGH]],
                initial_shape: a.bounds[SHAPE + START],
                rate_bounds: [quantity(a.bounds[RATE + LOW]), quantity(a.bounds[RATE + HIGH])],
                initial_rate: quantity(a.bounds[RATE + START]),
                max_evaluations: a.evaluations as usize,
                max_iterations: a.iterations as usize,
                gradient_tolerance: a.tolerance,
            };
            let found = fit_gamma_poisson(&request).map(|f| {
                let status = match f.status {
                    FitStatus::Converged => 1,
                    FitStatus::EvaluationLimit => 2,
                    FitStatus::IterationLimit => 3,
                    FitStatus::LineSearchFailed => 4,
                };
                let on = |name: &str| u64::from(f.active_bounds.iter().any(|b| b == name));
                let numbers = vec![f.parameters["shape"].value, f.parameters["rate"].value, f.negative_log_likelihood, f.projected_gradient_norm];
                (numbers, vec![status, f.evaluations as u64, f.iterations as u64, 0, f.observations as u64, 0, on("shape"), on("rate")])
            });
            (found, 3)
        }
    };
    let passes = libm::passes();
    let (numbers_len, counts_len) = places(a.entry);
    let refused = |end: u64, reason: u64| {
        let mut counts = vec![0; counts_len];
        counts[if a.entry == Fit { 5 } else { 1 }] = reason;
        (end, (vec![0.; numbers_len], counts))
    };
    let (end, (numbers, mut counts)) = match found {
        Ok(answer) => (0, answer),
        Err(e) if e.code == ErrorCode::InvalidInput => refused(1, 0),
        Err(_) => refused(2, 6),
    };
    counts[spent] = passes;
    Answer { end, numbers, counts }
}

fn fail(message: &str, a: &Asked) -> ! {
    println!("counts: {message}: {a:?}");
    exit(1)
}

/// What was met, and of the requests that were answered differently the smallest.
#[derive(Default)]
struct Seen {
    ends: BTreeMap<String, u64>,
    marks: BTreeMap<(u64, u64), u64>,
    edges: BTreeMap<&'static str, u64>,
    passes: u64,
    differences: u64,
    smallest: Option<Asked>,
}
fn size(a: &Asked) -> (usize, u64, u64) {
    (a.events.len(), a.events.iter().map(|&n| u64::from(n)).sum(), a.evaluations)
}

/// Both answers; ours is given back.
fn hold(seen: &mut Seen, a: &Asked) -> Answer {
    let mine = ours(a);
    if !mine.same(&theirs(a)) {
        seen.differences += 1;
        if seen.smallest.as_ref().is_none_or(|b| size(a) < size(b)) {
            seen.smallest = Some(a.clone());
        }
    }
    let end = match (mine.end, mine.status(a)) {
        (0, 1) => "converged",
        (0, 2) => "evaluation limit",
        (0, 3) => "iteration limit",
        (0, 4) => "line search failed",
        (0, 0) if a.entry == Objective => "answered",
        (1, 0) => "invalid input",
        (2, 0) => "domain",
        _ => fail("an ending without a name", a),
    };
    *seen.ends.entry(format!("{:?}, {end}", a.entry)).or_insert(0) += 1;
    seen.passes += mine.counts[if a.entry == Fit { 3 } else { 0 }];
    if a.entry == Fit && mine.end == 0 {
        *seen.marks.entry((mine.counts[6], mine.counts[7])).or_insert(0) += 1;
        // Of a fit that passed its checks the passes are the events times the calls, and at most the product that was
        // checked.
        let (events, most) = (size(a).1, a.evaluations);
        if mine.counts[3] != events * mine.counts[1] || mine.counts[3] > (events + a.events.len() as u64) * most {
            fail("the passes are not the events times the calls, or past the product", a);
        }
    }
    mine
}

/// Leaves out rows, events and evaluations as long as the answers still differ.
fn smaller(mut a: Asked) -> Asked {
    let differ = |b: &Asked| !ours(b).same(&theirs(b));
    loop {
        let mut tries = Vec::new();
        for i in 0..a.events.len() {
            let mut b = a.clone();
            b.events.remove(i);
            b.exposures.remove(i);
            tries.push(b);
            for to in [0, a.events[i] / 2, a.events[i].saturating_sub(1)] {
                let mut b = a.clone();
                b.events[i] = to;
                tries.push(b);
            }
        }
        for to in [1, a.evaluations / 2, a.evaluations.saturating_sub(1)] {
            tries.push(Asked { evaluations: to, ..a.clone() });
        }
        match tries.into_iter().find(|b| size(b) < size(&a) && differ(b)) {
            Some(b) => a = b,
            None => return a,
        }
    }
}

impl Draw {
    /// 10 to a power between the two
    fn decades(&mut self, from: f64, to: f64) -> f64 {
        10f64.powf(from + (to - from) * self.unit())
    }
    /// any finite f64 above 0, every exponent as likely as any other
    fn positive(&mut self) -> f64 {
        f64::from_bits(1 + self.next() % (f64::MAX.to_bits()))
    }
    fn among<T: Copy>(&mut self, of: &[T]) -> T {
        of[self.place(of.len())]
    }
}

const ODD: [f64; 16] = [
    0., -0., 5e-324, -5e-324, 2.2250738585072014e-308, 1e-308, 9.999999999999999e-9, 1e-8, 1., -1., 1e6, 1000000.0000000001, f64::MAX, f64::INFINITY,
    f64::NEG_INFINITY, f64::NAN,
];

/// low, high and start, the start now and then on a bound
fn range(d: &mut Draw, low: f64, high: f64) -> [f64; 3] {
    let (low, high) = if low < high { (low, high) } else { (high, low) };
    let start = match d.place(8) {
        0 => low,
        1 => high,
        _ => (low.ln() + (high.ln() - low.ln()) * d.unit()).exp().clamp(low, high),
    };
    [low, high, start]
}
fn shape_around(d: &mut Draw, shape: f64) -> [f64; 3] {
    let (low, high) = (shape * d.decades(-4., 0.5), shape * d.decades(-0.5, 4.));
    range(d, low.clamp(1e-8, 9e5), high.clamp(2e-8, 1e6))
}
fn rate_around(d: &mut Draw, rate: f64) -> [f64; 3] {
    let (low, high) = (rate * d.decades(-4., 0.5), rate * d.decades(-0.5, 4.));
    range(d, low.max(5e-324), high.min(f64::MAX))
}

/// Counts that a Gamma of this shape and rate could give, or that vary less than a Poisson's do.
fn rows(d: &mut Draw, number: usize, shape: f64, rate: f64, spread: f64) -> (Vec<u32>, Vec<f64>) {
    let level = d.one_in(6);
    let exposures: Vec<f64> = (0..number).map(|_| if d.one_in(10) { 1. } else { d.decades(-spread, spread) }).collect();
    let events = exposures.iter().map(|t| {
        let mean = shape / rate * t;
        let times = if level { 1. } else { (-(1. - d.unit()).ln()).powf(1. / shape.sqrt().max(0.3)) };
        let there = mean * times;
        let least = there.floor();
        (least + f64::from(u8::from(d.unit() < there - least))).min(2000.) as u32
    });
    (events.collect(), exposures)
}

fn asked(d: &mut Draw) -> Asked {
    let entry = if d.one_in(4) { Objective } else { Fit };
    let kind = d.place(100);
    let (shape, rate) = (d.decades(-1., 2.), d.decades(-2., 2.));
    let mut a = match kind {
        // few rows of few events, few calls
        0..20 => {
            let number = 1 + d.place(4);
            let bounds = [range(d, 0.125, 8.), range(d, 0.25, 16.)].concat();
            let events = (0..number).map(|_| d.place(4) as u32).collect();
            let exposures = (0..number).map(|_| d.among(&[0.5, 1., 2., 3.])).collect();
            Asked { entry, bounds, tolerance: d.decades(-9., 0.), evaluations: 1 + d.place(8) as u64, iterations: 1 + d.place(5) as u64, events, exposures }
        }
        // exposures, rates and shapes of any size
        20..40 => {
            let number = 2 + d.place(5);
            let near = d.one_in(2);
            let at = d.positive();
            let (low, high) = (d.positive(), d.positive());
            let rates = if near { rate_around(d, at.clamp(1e-300, 1e300)) } else { range(d, low, high) };
            let (low, high) = (d.decades(-8., 6.), d.decades(-8., 6.));
            let bounds = [range(d, low.clamp(1e-8, 1e6), high.clamp(1e-8, 1e6)), rates].concat();
            let events = (0..number).map(|_| d.place(20) as u32).collect();
            let exposures = (0..number).map(|_| if near { (at * d.decades(-2., 2.)).clamp(5e-324, f64::MAX) } else { d.positive() }).collect();
            Asked { entry, bounds, tolerance: d.decades(-12., 3.), evaluations: 1 + d.place(60) as u64, iterations: 1 + d.place(60) as u64, events, exposures }
        }
        // bounds that are near each other
        40..50 => {
            let number = 2 + d.place(6);
            let (events, exposures) = rows(d, number, shape, rate, 1.);
            let step = d.place(53);
            let near = move |d: &mut Draw, x: f64| {
                let by = (d.next() >> (10 + step)) as i64;
                let y = of_rank((rank(x) + by).min(rank(if x < 1e6 { 1e6 } else { f64::MAX })));
                let start = of_rank(rank(x) + (rank(y) - rank(x)) / (1 + d.place(3)) as i64);
                [x, y, start]
            };
            let bounds = [near(d, shape), near(d, rate)].concat();
            Asked { entry, bounds, tolerance: d.decades(-9., 0.), evaluations: 1 + d.place(40) as u64, iterations: 1 + d.place(40) as u64, events, exposures }
        }
        // a slope of nothing is asked for
        50..60 => {
            let number = 2 + d.place(8);
            let (events, exposures) = rows(d, number, shape, rate, 1.);
            let bounds = [shape_around(d, shape), rate_around(d, rate)].concat();
            Asked { entry, bounds, tolerance: d.among(&[5e-324, 2.2250738585072014e-308, 1e-16, 1e-15]), evaluations: 200, iterations: 100, events, exposures }
        }
        // a slope that is almost nothing: no events, and exposures that are nothing beside the rate
        60..65 => {
            let number = 2 + d.place(3);
            let size = d.decades(-323., -60.);
            let mut bounds = [shape_around(d, shape), rate_around(d, rate)].concat();
            for i in [SHAPE, RATE].into_iter().filter(|_| d.one_in(2)) {
                (bounds[i + LOW], bounds[i + HIGH], bounds[i + START]) = (0.5, 2., 1.);
            }
            let exposures = (0..number).map(|_| (size * d.decades(-1., 1.)).max(5e-324)).collect();
            let tolerance = d.among(&[5e-324, size.max(5e-324), 1e-300]);
            Asked { entry, bounds, tolerance, evaluations: 60, iterations: 60, events: vec![0; number], exposures }
        }
        // many rows
        65 => {
            let number = d.decades(2., 4096f64.log10()) as usize;
            let rate = shape / d.decades(-1., 1.);
            let (events, exposures) = rows(d, number, shape, rate, 0.5);
            let bounds = [shape_around(d, shape), rate_around(d, rate)].concat();
            Asked { entry, bounds, tolerance: d.decades(-9., -1.), evaluations: 1 + d.place(40) as u64, iterations: 40, events, exposures }
        }
        _ => {
            let number = 2 + d.place(30);
            let spread = 1.5 * d.unit();
            let (events, exposures) = rows(d, number, shape, rate, spread);
            let wide = [range(d, 1e-8, 1e6), range(d, rate * 1e-6, rate * 1e6)];
            let bounds = if d.one_in(2) { wide.concat() } else { [shape_around(d, shape), rate_around(d, rate)].concat() };
            let most = if d.one_in(4) { 5 } else { 200 };
            let (evaluations, iterations) = (1 + d.place(200) as u64, 1 + d.place(most) as u64);
            Asked { entry, bounds, tolerance: d.decades(-11., -1.), evaluations, iterations, events, exposures }
        }
    };
    if d.one_in(8) {
        let odd = ODD[d.place(ODD.len())];
        match d.place(8) {
            0..3 => a.bounds[d.place(6)] = odd,
            3 | 4 => *d.any(&mut a.exposures) = odd,
            5 => a.tolerance = odd,
            6 => *d.any(&mut a.events) = d.among(&[100_000, 1_000_001, u32::MAX]),
            _ => *[&mut a.evaluations, &mut a.iterations].into_iter().nth(d.place(2)).unwrap() = d.among(&[0, 1, 10000, 10001, 1 << 32, (1 << 32) + 1, u64::MAX]),
        }
    }
    // What costs seconds is met at the edges.
    if a.entry == Fit && size(&a).1.saturating_mul(a.evaluations) > 400_000 {
        a.evaluations = a.evaluations.min(1);
    }
    a
}
fn above(x: f64) -> f64 {
    of_rank(rank(x) + 1)
}
fn below(x: f64) -> f64 {
    of_rank(rank(x) - 1)
}

/// The one is answered, the other is refused, as meant.
fn both(seen: &mut Seen, name: &'static str, inside: &Asked, outside: &Asked) {
    for (a, end) in [(inside, 0), (outside, 1)] {
        let found = hold(seen, a).end;
        if found != end {
            println!("{name}: ending {found} where {end} is meant");
            fail("an edge is not where it is meant", a);
        }
    }
    *seen.edges.entry(name).or_insert(0) += 1;
}

/// Nothing is near a limit.
fn plain(entry: Entry) -> Asked {
    let bounds = vec![0.01, 100., 1., 0.01, 100., 1.];
    Asked { entry, bounds, tolerance: 1e-6, evaluations: 50, iterations: 50, events: vec![1, 3, 2, 0, 5], exposures: vec![1., 2., 1., 0.5, 3.] }
}
fn with(a: &Asked, change: impl Fn(&mut Asked)) -> Asked {
    let mut b = a.clone();
    change(&mut b);
    b
}
/// that many rows, their events in the first
fn tall(a: &Asked, rows: usize, events: u32) -> Asked {
    with(a, |b| {
        b.events = vec![0; rows];
        b.events[0] = events;
        b.exposures = vec![1.; rows];
    })
}

fn edges(seen: &mut Seen) {
    let (fit, objective) = (plain(Fit), plain(Objective));
    let mut pairs: Vec<(&'static str, Asked, Asked)> = Vec::new();
    {
        let mut number = |name, a: &Asked, put: &dyn Fn(&mut Asked, f64), inside: f64, outside: &[f64]| {
            for &x in outside {
                pairs.push((name, with(a, |b| put(b, inside)), with(a, |b| put(b, x))));
            }
        };
        let bound = |i: usize| move |b: &mut Asked, x: f64| b.bounds[i] = x;
        // a start that is no obstacle to its bounds
        let low = |i: usize| move |b: &mut Asked, x: f64| (b.bounds[i + LOW], b.bounds[i + START]) = (x, 1.);
        number("the least shape, as a low bound", &fit, &low(SHAPE), 1e-8, &[below(1e-8), 0., -0., -1., f64::NAN, f64::NEG_INFINITY]);
        number("the largest shape, as a high bound", &fit, &bound(SHAPE + HIGH), 1e6, &[above(1e6), f64::INFINITY, f64::NAN]);
        number("the least shape, of an objective", &objective, &bound(SHAPE + START), 1e-8, &[below(1e-8), 0., -0., f64::NAN, f64::NEG_INFINITY]);
        number("the largest shape, of an objective", &objective, &bound(SHAPE + START), 1e6, &[above(1e6), f64::INFINITY]);
        number("a rate that is positive, as a low bound", &fit, &low(RATE), 5e-324, &[0., -0., -5e-324, f64::NAN, f64::NEG_INFINITY]);
        number("a rate that is finite, as a high bound", &fit, &bound(RATE + HIGH), f64::MAX, &[f64::INFINITY, f64::NAN]);
        number("a rate that is positive, of an objective", &objective, &bound(RATE + START), 5e-324, &[0., -0., -5e-324, f64::NAN, f64::NEG_INFINITY]);
        number("a rate that is finite, of an objective", &objective, &bound(RATE + START), f64::MAX, &[f64::INFINITY]);
        for i in [SHAPE, RATE] {
            number("a start on its low bound", &fit, &bound(i + START), 0.01, &[below(0.01), f64::NAN]);
            number("a start on its high bound", &fit, &bound(i + START), 100., &[above(100.), f64::INFINITY]);
            number("bounds that increase", &fit, &|b, x| (b.bounds[i + HIGH], b.bounds[i + START]) = (x, 0.01), 0.02, &[0.01, below(0.01)]);
        }
        for a in [&fit, &objective] {
            let first = |b: &mut Asked, x: f64| b.exposures[0] = x;
            let last = |b: &mut Asked, x: f64| *b.exposures.last_mut().unwrap() = x;
            for put in [&first as &dyn Fn(&mut Asked, f64), &last] {
                number("an exposure that is positive", a, put, 5e-324, &[0., -0., -5e-324, f64::NAN, f64::NEG_INFINITY]);
                number("an exposure that is finite", a, put, f64::MAX, &[f64::INFINITY]);
            }
        }
        let tolerance = |b: &mut Asked, x: f64| b.tolerance = x;
        number("a tolerance that is positive", &fit, &tolerance, 5e-324, &[0., -0., -5e-324, f64::NAN]);
        number("a tolerance that is finite", &fit, &tolerance, f64::MAX, &[f64::INFINITY]);
    }
    let mut count = |name, inside: Asked, outside: Asked| pairs.push((name, inside, outside));
    for (most, name) in [(1, "the least limits"), (10000, "the largest limits")] {
        for wrong in if most == 1 { vec![0] } else { vec![10001, 1 << 32, (1 << 32) + 1, u64::MAX] } {
            count(name, with(&fit, |b| b.evaluations = most), with(&fit, |b| b.evaluations = wrong));
            count(name, with(&fit, |b| b.iterations = most), with(&fit, |b| b.iterations = wrong));
        }
    }
    count("two rows for a fit", tall(&fit, 2, 3), tall(&fit, 1, 3));
    count("one row for an objective", tall(&objective, 1, 3), with(&objective, |b| (b.events, b.exposures) = (vec![], vec![])));
    count("no row for a fit", tall(&fit, 2, 0), with(&fit, |b| (b.events, b.exposures) = (vec![], vec![])));
    count("4,096 rows", tall(&fit, 4096, 9), tall(&fit, 4097, 9));
    count("4,096 rows of an objective", tall(&objective, 4096, 9), tall(&objective, 4097, 9));
    count("a million events in one row of an objective", tall(&objective, 1, 1_000_000), tall(&objective, 1, 1_000_001));
    let halves = |a: &Asked, rest: u32| with(a, |b| (b.events, b.exposures, b.evaluations) = (vec![500_000, 499_990, rest], vec![1., 2., 3.], 1));
    count("a million events", halves(&fit, 10), halves(&fit, 11));
    count("a million events of an objective", halves(&objective, 10), halves(&objective, 11));
    // sums that would come round in 32 bits
    for a in [&fit, &objective] {
        count("events past 32 bits", a.clone(), with(a, |b| (b.events[0], b.events[4]) = (1 << 31, 1 << 31)));
        count("events past 32 bits", a.clone(), with(a, |b| (b.events[0], b.events[4]) = (u32::MAX, 1)));
    }
    // each converges at its start: the product is checked before
    let work = |rows: usize, events: u32, evaluations: u64| with(&tall(&fit, rows, events), |b| (b.evaluations, b.tolerance) = (evaluations, f64::MAX));
    count("twenty million passes", work(2, 999_998, 20), work(2, 999_999, 20));
    count("twenty million passes", work(2, 1998, 10000), work(2, 1999, 10000));
    count("twenty million passes", work(2000, 0, 10000), work(2001, 0, 10000));
    count("twenty million passes", work(4000, 1000, 4000), work(4001, 1000, 4000));
    // one above
    count("twenty million passes and one", work(2, 952_378, 21), work(2, 952_379, 21));
    for (name, inside, outside) in &pairs {
        both(seen, name, inside, outside);
    }
}

/// Bounds whose logarithms just differ: the high one is moved towards the low one until two neighbours are answered
/// differently.
fn narrow(d: &mut Draw, seen: &mut Seen) {
    let i = d.among(&[SHAPE, RATE]);
    let low = if i == SHAPE { d.decades(-8., 5.9) } else { d.positive().clamp(5e-324, 1e308) };
    let at = |r: i64| {
        with(&plain(Fit), |b| {
            (b.bounds[i + LOW], b.bounds[i + HIGH], b.bounds[i + START]) = (low, of_rank(r), low);
            b.evaluations = 3;
        })
    };
    let (mut apart, mut same) = (rank(low * 1.5), rank(low));
    while apart - same > 1 {
        let middle = same + (apart - same) / 2;
        if hold(seen, &at(middle)).end == 0 { apart = middle } else { same = middle }
    }
    both(seen, "bounds whose logarithms increase", &at(apart), &at(same));
}

/// Lengths that are refused with nothing written, and rows that do not pair, which are refused with zeros.
fn shapes(seen: &mut Seen) {
    for entry in [Fit, Objective] {
        let (numbers, counts) = places(entry);
        let a = plain(entry);
        let mut asks = Vec::new();
        for n in 0..=numbers + 2 {
            for c in 0..=counts + 2 {
                asks.push((a.clone(), n, c));
            }
        }
        for n in (0..9).filter(|_| entry == Fit) {
            asks.push((with(&a, |b| b.bounds.resize(n, 1.)), numbers, counts));
        }
        for (b, n, c) in asks {
            let answer = called(&b, n, c);
            let (written, counted) = if b.bounds.len() == 6 && n >= numbers && c >= counts { (numbers, counts) } else { (0, 0) };
            let right = if written > 0 { ours(&a) } else { Answer { end: 1, numbers: vec![], counts: vec![] } };
            let rest = answer.numbers[written..].iter().all(|x| *x == LEFT) && answer.counts[counted..].iter().all(|x| *x == LEFT_COUNT);
            let first = Answer { end: answer.end, numbers: answer.numbers[..written].to_vec(), counts: answer.counts[..counted].to_vec() };
            if !rest || !first.same(&right) {
                println!("{n} numbers and {c} counts: {answer:?}");
                fail("a length is answered otherwise than meant", &b);
            }
        }
        for (events, exposures) in [(5, 4), (4, 5), (0, 5), (5, 0), (4097, 5), (5, 4097)] {
            let b = with(&a, |b| (b.events, b.exposures) = (vec![1; events], vec![1.; exposures]));
            if !ours(&b).same(&Answer { end: 1, numbers: vec![0.; numbers], counts: vec![0; counts] }) {
                println!("{events} events and {exposures} exposures: {:?}", ours(&b));
                fail("rows that do not pair are answered otherwise than meant", &b);
            }
        }
    }
    *seen.edges.entry("lengths and rows that do not pair").or_insert(0) += 1;
}

fn main() {
    let args: Vec<u64> = std::env::args().skip(1).map(|a| a.parse().unwrap_or_else(|_| exit(2))).collect();
    let [seed, number] = args[..] else { exit(2) };
    let mut d = Draw(seed);
    let mut seen = Seen::default();
    shapes(&mut seen);
    edges(&mut seen);
    for k in 0..number {
        hold(&mut seen, &asked(&mut d));
        if k % 100 == 0 {
            narrow(&mut d, &mut seen);
        }
    }
    for (name, times) in &seen.edges {
        println!("  {times:6} times on both sides of: {name}");
    }
    for (name, times) in &seen.ends {
        println!("  {times:6} {name}");
    }
    for ((shape, rate), times) in &seen.marks {
        println!("  {times:6} fits with shape on a bound {shape}, rate on a bound {rate}");
    }
    if let Some(a) = seen.smallest {
        let a = smaller(a);
        println!("the module answers {:?}\nand ours {:?}", theirs(&a), ours(&a));
        fail(&format!("{} differences; the smallest", seen.differences), &a);
    }
    // Domain is left out: over finite positive rows every sum stays far inside the f64s, so no valid request has it.
    let asked_for = ["Fit, converged", "Fit, evaluation limit", "Fit, iteration limit", "Fit, line search failed", "Fit, invalid input", "Objective, answered", "Objective, invalid input"];
    for name in asked_for {
        if !seen.ends.contains_key(name) {
            println!("counts: no request ended so: {name}");
            exit(1);
        }
    }
    if seen.marks.len() != 4 {
        println!("counts: the marks of bounds were not met in all four ways");
        exit(1);
    }
    println!("counts: {number} requests and those of the edges, {} passes of the inner loop; no difference", seen.passes);
}
