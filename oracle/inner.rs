// Calls the inner functions of the module and ours with the same arguments, and holds their answers together to the
// bit; any NaN equals any other.
// inner SEED NUMBER. Of a thousand calls ten are litters, ten sums of all litters and one is an objective. A
// difference is cut down, printed as a call of the driver (a sum, which the driver cannot be given, by its numbers),
// and ends the run with 1.
use answers::{hexes, judge};
use qspquest_core::probit_fit::{BinomialLitter as Litter, ProbitNormalObjective as Objective};
use std::collections::BTreeMap;

mod draw;
use draw::Draw;

unsafe extern "C" {
    fn inner_normal(x: f64, out: *mut f64, out_len: usize) -> u64;
    fn inner_mills(x: f64, r: f64, out: *mut f64, out_len: usize) -> u64;
    fn inner_conditional(eta: f64, successes: u32, total: u32, out: *mut f64, out_len: usize) -> u64;
    fn inner_legendre(out: *mut f64, out_len: usize) -> u64;
    fn inner_tail_bound(relative: f64, slope: f64, eta: f64, sd: f64, total: u32) -> f64;
    fn inner_row(
        mean: f64, variance: f64, successes: u32, total: u32, limit: u64,
        out: *mut f64, out_len: usize, counts: *mut u64, counts_len: usize,
    ) -> u64;
    fn inner_objective(
        x0: f64, x1: f64, x2: f64, x3: f64, litters: *const u32, litters_len: usize, limit: u64,
        out: *mut f64, out_len: usize, counts: *mut u64, counts_len: usize,
    ) -> u64;
    fn inner_total(v: *const f64, v_len: usize, used: u64, out: *mut f64, out_len: usize, counts: *mut u64, counts_len: usize) -> u64;
}

/// No litter asks for as many.
const PLENTY: u64 = 100_000;
/// The objective's own limit.
const LIMIT: u64 = 8_388_608;
const ODD: [f64; 22] = [
    0., -0., 1., -1., 0.5, -0.5, 8., -8., 9., 3., 26.5, -26.5, 38.5, -38.5, 1e-300, 5e-324, -5e-324, 2.2250738585072014e-308,
    f64::MAX, f64::INFINITY, f64::NEG_INFINITY, f64::NAN,
];

fn fail(message: &str) -> ! {
    eprintln!("inner: {message}");
    std::process::exit(2)
}

impl Draw {
    fn from<T: Copy>(&mut self, values: &[T]) -> T {
        values[self.below(values.len() as u64) as usize]
    }
    fn between(&mut self, low: f64, high: f64) -> f64 {
        low + (self.next() >> 11) as f64 / 9007199254740992. * (high - low)
    }
    /// A few steps beside x.
    fn near(&mut self, x: f64) -> f64 {
        (0..self.below(4)).fold(x, |x, _| if self.below(2) == 0 { x.next_up() } else { x.next_down() })
    }
    /// Any size, either sign.
    fn sized(&mut self, low: f64, high: f64) -> f64 {
        let x = self.between(low, high).exp2();
        if self.below(2) == 0 { x } else { -x }
    }
    fn odd(&mut self) -> f64 {
        match self.below(3) {
            0 => f64::from_bits(self.next()),
            1 => self.sized(-1074., 1024.),
            _ => {
                let x = self.from(&ODD);
                self.near(x)
            }
        }
    }
    fn eta(&mut self) -> f64 {
        match self.below(8) {
            0 => self.odd(),
            1 => self.near(-8.),
            2 => self.near(8.),
            3 => self.between(-60., 60.),
            4 => self.between(-1., 1.),
            _ => self.between(-12., 12.),
        }
    }
    fn total(&mut self) -> u64 {
        match self.below(8) {
            0 => self.from(&[1, 2, 3, 999, 1000]),
            1 => 1 + self.below(1000),
            _ => 1 + self.below(20),
        }
    }
    fn successes(&mut self, total: u64) -> u64 {
        match self.below(6) {
            0 => 0,
            1 => total,
            2 => total / 2,
            _ => self.below(total + 1),
        }
    }
    fn mean(&mut self) -> f64 {
        match self.below(40) {
            0 => self.odd(),
            1..4 => self.near(8.),
            4..7 => self.near(-8.),
            7..10 => self.sized(-30., 0.),
            10 => self.from(&[0., -0.]),
            11..25 => self.between(-8., 8.),
            _ => self.between(-2., 2.),
        }
    }
    fn variance(&mut self) -> f64 {
        match self.below(40) {
            0 => self.odd(),
            1 => self.from(&[0., -0., 9., 5e-324]),
            2..5 => 0.,
            5..7 => self.near(9.),
            7..10 => self.between(-1074., 3.).exp2(),
            10..14 => self.between(-40., 0.).exp2(),
            14..20 => self.between(0., 9.),
            _ => self.between(0., 1.),
        }
    }
}

#[derive(Clone)]
struct Call {
    word: &'static str,
    reals: [f64; 5],
    /// Successes and total; or of an objective group, successes, total for each litter; or of a sum the bits of its
    /// 22 numbers.
    wholes: Vec<u64>,
    limit: u64,
}
impl Call {
    fn used(&self) -> &[f64] {
        let n = match self.word {
            "normal" | "conditional" => 1,
            "mills" | "row" => 2,
            "tail_bound" | "limited" => 4,
            _ => 0,
        };
        &self.reals[..n]
    }
    /// As the driver reads it.
    fn print(&self) -> String {
        let wholes: String = self.wholes.iter().map(|n| format!(" {n}")).collect();
        let reals = hexes(self.used());
        match self.word {
            "limited" => format!("limited {} {reals}{wholes}", self.limit),
            "row" => format!("row {reals}{wholes} {}", self.limit),
            "total" => format!("total {}", hexes(&self.sum())),
            word => format!("{word} {reals}{wholes}"),
        }
    }
    fn sum(&self) -> [f64; 22] {
        std::array::from_fn(|i| f64::from_bits(self.wholes[i]))
    }
    fn litter(&self) -> Litter {
        Litter { successes: self.wholes[0] as u32, total: self.wholes[1] as u32, group: 0 }
    }
}

fn shut(status: u64) {
    if status != 0 {
        fail("ours says that a buffer is too short");
    }
}

/// An answer of ours in the oracle's print: `numbers`, then the count, then the last number.
fn line(out: &[f64], counts: &[u64; 3]) -> String {
    let [ending, reason, used] = counts;
    if *ending == 0 {
        let (last, numbers) = out.split_last().unwrap();
        return format!("{} {used} {}\n", hexes(numbers), hexes([last]));
    }
    let zeros = out.iter().all(|x| x.to_bits() == 0);
    format!("refused {ending} {used} {reason}{}\n", if zeros { "" } else { " and numbers that are not zero" })
}

/// The oracle's answer and ours, in print.
fn both(c: &Call) -> (String, String) {
    let x = c.reals;
    let said = |answer: Result<(String, answers::Seen), String>| answer.unwrap_or_else(|e| fail(&format!("{}: {e}", c.print()))).0;
    match c.word {
        "row" => {
            let (litter, limit) = (c.litter(), c.limit as usize);
            let oracle = judge(limit, false, || opened::open_row(x[0], x[1], &litter, limit), || hooked::open_row(x[0], x[1], &litter, limit));
            let (mut out, mut counts) = ([0.; 8], [0; 3]);
            shut(unsafe { inner_row(x[0], x[1], litter.successes, litter.total, c.limit, out.as_mut_ptr(), 8, counts.as_mut_ptr(), 3) });
            (said(oracle), line(&out, &counts))
        }
        "limited" => {
            let point = [x[0], x[1], x[2], x[3]];
            let litters: Vec<Litter> = c.wholes.chunks(3).map(|l| Litter { group: l[0] as usize, successes: l[1] as u32, total: l[2] as u32 }).collect();
            let flat: Vec<u32> = litters.iter().flat_map(|l| [l.successes, l.total, l.group as u32]).collect();
            let limit = c.limit as usize;
            let oracle = judge(limit, false, || opened::open_limited(point, &litters, limit), || hooked::open_limited(point, &litters, limit));
            let (mut out, mut counts) = ([0.; 22], [0; 3]);
            shut(unsafe { inner_objective(x[0], x[1], x[2], x[3], flat.as_ptr(), flat.len(), c.limit, out.as_mut_ptr(), 22, counts.as_mut_ptr(), 3) });
            (said(oracle), line(&out, &counts))
        }
        "total" => {
            let v = c.sum();
            let total = || Objective {
                negative_log_likelihood: v[0],
                gradient: std::array::from_fn(|i| v[1 + i]),
                hessian: std::array::from_fn(|i| std::array::from_fn(|j| v[5 + 4 * i + j])),
                quadrature_evaluations: 0,
                quadrature_refinement: v[21],
            };
            let oracle = judge(0, false, || opened::open_total(total()), || hooked::open_total(total()));
            let (mut out, mut counts) = ([0.; 22], [0; 3]);
            shut(unsafe { inner_total(v.as_ptr(), 22, 0, out.as_mut_ptr(), 22, counts.as_mut_ptr(), 3) });
            (said(oracle), line(&out, &counts))
        }
        _ => {
            let (oracle, ours, n) = numbers(c);
            (hexes(&oracle[..n]) + "\n", hexes(&ours[..n]) + "\n")
        }
    }
}

/// The answers that are numbers alone, and how many they are.
fn numbers(c: &Call) -> ([f64; 32], [f64; 32], usize) {
    let x = c.reals;
    let (mut a, mut b) = ([0.; 32], [0.; 32]);
    let out = b.as_mut_ptr();
    let n = match c.word {
        "normal" => {
            (a[0], a[1]) = opened::open_normal(x[0]);
            shut(unsafe { inner_normal(x[0], out, 2) });
            2
        }
        "mills" => {
            a[..4].copy_from_slice(&opened::open_mills(x[0], x[1]));
            shut(unsafe { inner_mills(x[0], x[1], out, 4) });
            4
        }
        "conditional" => {
            let litter = c.litter();
            let (log, score, curvature, moments) = opened::open_conditional(x[0], &litter);
            a[..3].copy_from_slice(&[log, score, curvature]);
            a[3..9].copy_from_slice(&moments);
            shut(unsafe { inner_conditional(x[0], litter.successes, litter.total, out, 9) });
            9
        }
        "tail_bound" => {
            let total = c.wholes[0] as u32;
            a[0] = opened::open_tail_bound(x[0], x[1], x[2], x[3], total);
            b[0] = unsafe { inner_tail_bound(x[0], x[1], x[2], x[3], total) };
            // The sum starts at -0 in rustc and at +0 here, which shows where all its terms are -0: no request has
            // such a slope.
            if a[0] == 0. && x[1] == f64::NEG_INFINITY {
                (a[0], b[0]) = (a[0] + 0., b[0] + 0.);
            }
            1
        }
        _ => {
            for (i, (node, weight)) in opened::open_legendre().into_iter().enumerate() {
                (a[2 * i], a[2 * i + 1]) = (node, weight);
            }
            shut(unsafe { inner_legendre(out, 32) });
            32
        }
    };
    (a, b, n)
}

fn same(x: f64, y: f64) -> bool {
    x.to_bits() == y.to_bits() || (x.is_nan() && y.is_nan())
}

fn differs(c: &Call) -> bool {
    if matches!(c.word, "row" | "limited" | "total") {
        let (oracle, ours) = both(c);
        return oracle != ours;
    }
    let (oracle, ours, n) = numbers(c);
    !(0..n).all(|i| same(oracle[i], ours[i]))
}

/// What is left to cut down.
fn size(c: &Call) -> u64 {
    let real = |x: &f64| {
        let (b, e) = (x.to_bits(), (x.to_bits() >> 52) & 2047);
        if b == 0 { 0 } else { 2 + (b >> 63) + 4 * u64::from(52 - b.trailing_zeros().min(52)) + e.abs_diff(1023) }
    };
    c.used().iter().map(real).sum::<u64>() + c.wholes.iter().sum::<u64>() + 10_000 * c.wholes.len() as u64 + c.limit
}

/// Whether the module can be called so: it subtracts the two without a test.
fn callable(c: &Call) -> bool {
    !matches!(c.word, "row" | "conditional") || c.wholes[0] <= c.wholes[1]
}

fn cut(mut c: Call) -> Call {
    loop {
        let mut tries = Vec::new();
        for i in 0..c.used().len() {
            let x = c.reals[i];
            let mut values = vec![0., 1., -1., -x, x.trunc(), x / 2., x * 2.];
            values.extend((1..53).rev().map(|k| f64::from_bits(x.to_bits() >> k << k)));
            tries.extend(values.into_iter().map(|v| {
                let mut t = c.clone();
                t.reals[i] = v;
                t
            }));
        }
        for i in 0..c.wholes.len() {
            let n = c.wholes[i];
            tries.extend([0, 1, n / 2, n.saturating_sub(1)].map(|v| {
                let mut t = c.clone();
                t.wholes[i] = v;
                t
            }));
        }
        if c.word == "limited" {
            tries.extend((0..c.wholes.len() / 3).map(|i| {
                let mut t = c.clone();
                t.wholes.drain(3 * i..3 * i + 3);
                t
            }));
        }
        tries.extend([c.limit / 2, c.limit.saturating_sub(1)].map(|limit| Call { limit, ..c.clone() }));
        match tries.into_iter().find(|t| size(t) < size(&c) && callable(t) && differs(t)) {
            Some(t) => c = t,
            None => return c,
        }
    }
}

fn check(c: &Call, met: &mut BTreeMap<String, u64>) -> u64 {
    let mut used = 0;
    let wrong = if matches!(c.word, "row" | "limited" | "total") {
        let (oracle, ours) = both(c);
        let words: Vec<&str> = oracle.split_whitespace().collect();
        let name = match words[..] {
            ["refused", ending, count, reason] => {
                used = count.parse().unwrap_or(0);
                format!("{} refused {ending} reason {reason}", c.word)
            }
            _ => {
                used = words[words.len() - 2].parse().unwrap_or(0);
                format!("{} answered", c.word)
            }
        };
        *met.entry(name).or_default() += 1;
        oracle != ours
    } else {
        *met.entry(c.word.to_string()).or_default() += 1;
        differs(c)
    };
    if wrong {
        let small = cut(c.clone());
        let (oracle, ours) = both(&small);
        print!("inner: a difference\n call    {}\n oracle  {oracle} ours    {ours}", small.print());
        std::process::exit(1);
    }
    used
}

fn objective(d: &mut Draw) -> Call {
    let mut reals = [d.mean(), d.mean(), d.variance(), d.variance(), 0.];
    let number = d.from(&[1, 2, 3, 4, 4, 5, 8]);
    let mut wholes = Vec::new();
    for _ in 0..number {
        let total = if d.below(20) == 0 { d.total() } else { 1 + d.below(12) };
        wholes.extend([d.below(2), d.successes(total), total]);
    }
    match d.below(12) {
        0 => reals[d.below(4) as usize] = d.odd(),
        1 => {
            let at = d.below(wholes.len() as u64) as usize;
            wholes[at] = d.from(&[0, 2, 1000, 1001, 4294967295]);
        }
        _ => {}
    }
    Call { word: "limited", reals, wholes, limit: LIMIT }
}

fn draw(d: &mut Draw, word: &'static str) -> Call {
    let (mut reals, mut wholes, mut limit) = ([0.; 5], Vec::new(), 0);
    match word {
        "normal" => reals[0] = d.eta(),
        "mills" => {
            reals[0] = d.eta();
            reals[1] = if d.below(2) == 0 { opened::open_normal(reals[0]).1 } else { d.eta() };
        }
        "conditional" => {
            reals[0] = d.eta();
            let total = d.total();
            wholes = vec![d.successes(total), total];
        }
        // Sums of two shares, a few of them odd: infinite where these are large enough.
        "total" => {
            let mut sum: Vec<f64> = (0..22).map(|_| d.sized(-60., 10.) + d.sized(-60., 10.)).collect();
            for _ in 0..d.below(3) {
                let place = d.below(22) as usize;
                sum[place] = d.odd() + d.odd();
            }
            wholes = sum.into_iter().map(f64::to_bits).collect();
        }
        "tail_bound" => {
            reals = [d.between(-60., 1.), d.sized(-10., 12.).abs(), d.eta(), d.variance().sqrt(), 0.];
            if d.below(8) == 0 {
                reals[d.below(4) as usize] = d.odd();
            }
            wholes = vec![d.total()];
        }
        _ => {
            let total = d.total();
            (reals[0], reals[1]) = (d.mean(), d.variance());
            wholes = vec![d.successes(total), total];
            limit = PLENTY;
        }
    }
    Call { word, reals, wholes, limit }
}

fn main() {
    let words: Vec<u64> = std::env::args().skip(1).filter_map(|w| w.parse().ok()).collect();
    let [seed, number] = words[..] else { fail("usage: inner SEED NUMBER") };
    let mut d = Draw(seed);
    let mut met = BTreeMap::new();
    check(&Call { word: "legendre", reals: [0.; 5], wholes: Vec::new(), limit: 0 }, &mut met);
    let mut done = 1;
    while done < number {
        let c = match d.below(1000) {
            0 => objective(&mut d),
            1..11 => draw(&mut d, "row"),
            11..21 => draw(&mut d, "total"),
            21..261 => draw(&mut d, "normal"),
            261..461 => draw(&mut d, "mills"),
            461..661 => draw(&mut d, "tail_bound"),
            _ => draw(&mut d, "conditional"),
        };
        let used = check(&c, &mut met);
        done += 1;
        // The limits about the count of this very call.
        if matches!(c.word, "row" | "limited") && used > 0 && d.below(3) == 0 {
            for limit in [used - 1, used, used + 1, d.below(used), 0, 1] {
                check(&Call { limit, ..c.clone() }, &mut met);
                done += 1;
            }
        }
    }
    for (name, times) in &met {
        println!("  {times:>9}  {name}");
    }
    println!("inner: {done} calls of seed {seed}, no difference");
}
