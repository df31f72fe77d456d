// Holds probit_vet against a checker written over the module's objective, to the bit: claims of each framed request
// on standard input. vet SEED NUMBER
// The checker takes from the module its request's checks, its objective with count and reason, its projection and its
// norm; the order of the refusals is written here.
// Claimed are our own fits, which have to be accepted with their own norm if they converged, and near misses of them.
// Every verdict has to be met.
// Exit status: 1 a difference or a verdict that was not met, 2 bad usage.
use qspquest_core::probit_fit::ProbitNormalBinomialFitRequest as Request;
use qspquest_core::ErrorCode;
use std::collections::BTreeMap;
use std::io::Read;

mod draw;
use draw::Draw;

unsafe extern "C" {
    fn probit_vet(
        bounds: *const f64, bounds_len: usize, tolerance: f64, evaluations: u64, iterations: u64, quadrature: u64, litters: *const u32, litters_len: usize,
        claimed: *const f64, claimed_len: usize, numbers: *mut f64, numbers_len: usize, counts: *mut u64, counts_len: usize,
    ) -> u64;
    fn probit_fit(
        bounds: *const f64, bounds_len: usize, tolerance: f64, evaluations: u64, iterations: u64, quadrature: u64, litters: *const u32, litters_len: usize,
        numbers: *mut f64, numbers_len: usize, counts: *mut u64, counts_len: usize,
    ) -> u64;
    fn probit_objective(
        point: *const f64, point_len: usize, litters: *const u32, litters_len: usize, numbers: *mut f64, numbers_len: usize, counts: *mut u64, counts_len: usize,
    ) -> u64;
}

/// The most evaluations of the integrand that a request may ask for, and those of an objective that is called alone.
const LIMIT: usize = 20_000_000;
const ALONE: usize = 8_388_608;
/// Of each request, beside those of its fit.
const CLAIMS: usize = 20;

#[derive(Clone, Copy, Debug, PartialEq)]
struct Verdict {
    number: u64,
    count: u64,
    reason: u64,
    nll: u64,
    norm: u64,
}
fn refused(number: u64, count: u64, reason: u64) -> Verdict {
    Verdict { number, count, reason, nll: 0, norm: 0 }
}

fn bits(x: f64) -> u64 {
    if x.is_nan() { 0x7ff8_0000_0000_0000 } else { x.to_bits() }
}

fn fail(message: &str) -> ! {
    eprintln!("vet: {message}");
    std::process::exit(2)
}
fn wrong(r: &Request, claim: &[f64; 5], what: &str) -> ! {
    println!("vet: {what}\n{r:?}\nclaimed {}", answers::hexes(claim));
    std::process::exit(1)
}

// The judge.

/// By the module's own checks. A limit that passes them is put at 1, so that the fit, which is not asked for, ends at
/// once.
fn admitted(r: &Request) -> bool {
    let mut q = r.clone();
    if (1..=LIMIT).contains(&q.max_quadrature_evaluations) {
        q.max_quadrature_evaluations = 1;
    }
    !matches!(opened::fit_probit_normal_binomial(&q), Err(e) if e.code == ErrorCode::InvalidInput)
}
fn ends(r: &Request, k: usize) -> [f64; 4] {
    let (m, s) = (r.mean_bounds, r.sd_bounds);
    [m[0][k], m[1][k], s[0][k] * s[0][k], s[1][k] * s[1][k]]
}
fn theirs(r: &Request, claim: &[f64; 5]) -> Verdict {
    if !admitted(r) {
        return refused(1, 0, 0);
    }
    let x = [claim[0], claim[1], claim[2], claim[3]];
    let (lo, hi) = (ends(r, 0), ends(r, 1));
    if !(0..4).all(|i| lo[i] <= x[i] && x[i] <= hi[i]) {
        return refused(5, 0, 0);
    }
    hook::start(false);
    let answer = hooked::probit_normal_binomial_objective(x, &r.observations);
    let seen = hook::seen();
    let count = seen.count as u64;
    let o = match answer {
        Ok(o) => o,
        Err(e) if e.code == ErrorCode::Domain => return refused(2, count, u64::from(seen.reason)),
        Err(e) => wrong(r, claim, &format!("the module's objective refuses a point in the box: {e:?}")),
    };
    if o.quadrature_evaluations as u64 != count || seen.count > ALONE {
        wrong(r, claim, "the module counts otherwise than its hooks");
    }
    if bits(o.negative_log_likelihood) != bits(claim[4]) {
        return refused(6, count, 0);
    }
    let norm = opened::open_norm(x, o.gradient, lo, hi);
    if norm <= r.gradient_tolerance {
        return Verdict { number: 0, count, reason: 0, nll: bits(o.negative_log_likelihood), norm: bits(norm) };
    }
    refused(7, count, 0)
}

// Ours.

struct Lent {
    bounds: [f64; 12],
    litters: Vec<u32>,
}
fn lent(r: &Request) -> Lent {
    let (m, s) = (r.mean_bounds, r.sd_bounds);
    let (a, b) = (r.initial_means, r.initial_sds);
    let bounds = [m[0][0], m[0][1], a[0], m[1][0], m[1][1], a[1], s[0][0], s[0][1], b[0], s[1][0], s[1][1], b[1]];
    Lent { bounds, litters: r.observations.iter().flat_map(|l| [l.successes, l.total, l.group as u32]).collect() }
}
/// What stands in a place that is left alone.
const LEFT: f64 = -7.25;
const LEFT_COUNT: u64 = 77;

fn ours(r: &Request, claim: &[f64; 5]) -> Verdict {
    let l = lent(r);
    let (bounds, litters, claimed) = (l.bounds, l.litters.clone(), *claim);
    let (mut numbers, mut counts) = ([LEFT; 3], [LEFT_COUNT; 3]);
    let number = unsafe {
        probit_vet(
            bounds.as_ptr(), 12, r.gradient_tolerance, r.max_evaluations as u64, r.max_iterations as u64, r.max_quadrature_evaluations as u64,
            litters.as_ptr(), litters.len(), claimed.as_ptr(), 5, numbers.as_mut_ptr(), 2, counts.as_mut_ptr(), 2,
        )
    };
    let same = |a: &[f64], b: &[f64]| a.iter().zip(b).all(|(a, b)| a.to_bits() == b.to_bits());
    if !same(&bounds, &l.bounds) || !same(&claimed, claim) || litters != l.litters {
        wrong(r, claim, "what was lent came back changed");
    }
    if numbers[2] != LEFT || counts[2] != LEFT_COUNT {
        wrong(r, claim, "a place after a buffer was written");
    }
    Verdict { number, count: counts[0], reason: counts[1], nll: bits(numbers[0]), norm: bits(numbers[1]) }
}

/// Our fit: the claim that it makes, its norm, and whether it converged.
fn fitted(r: &Request) -> Option<([f64; 5], f64, bool)> {
    let l = lent(r);
    let (mut n, mut c) = ([0.; 28], [0; 10]);
    let end = unsafe {
        probit_fit(
            l.bounds.as_ptr(), 12, r.gradient_tolerance, r.max_evaluations as u64, r.max_iterations as u64, r.max_quadrature_evaluations as u64,
            l.litters.as_ptr(), l.litters.len(), n.as_mut_ptr(), 28, c.as_mut_ptr(), 10,
        )
    };
    (end == 0).then_some(([n[0], n[1], n[6], n[7], n[4]], n[5], c[0] == 1))
}
/// Our objective's likelihood at a point, or any other number where it has none.
fn likelihood(r: &Request, x: [f64; 4]) -> f64 {
    let l = lent(r);
    let (mut n, mut c) = ([0.; 22], [0; 2]);
    unsafe { probit_objective(x.as_ptr(), 4, l.litters.as_ptr(), l.litters.len(), n.as_mut_ptr(), 22, c.as_mut_ptr(), 2) };
    n[0]
}

// The claims.

/// The next f64 up or down.
fn beside(x: f64, up: bool) -> f64 {
    let b = x.to_bits();
    f64::from_bits(match (x == 0., up) {
        (true, true) => 1,
        (true, false) => 1 | 1 << 63,
        _ if (x > 0.) == up => b.wrapping_add(1),
        _ => b.wrapping_sub(1),
    })
}
const NANS: [u64; 4] = [0x7ff8_0000_0000_0000, 0xfff8_0000_0000_0000, 0x7ff0_0000_0000_0001, 0xffff_ffff_ffff_ffff];

fn drawn(d: &mut Draw, r: &Request, on_bounds: bool) -> [f64; 4] {
    let (lo, hi) = (ends(r, 0), ends(r, 1));
    std::array::from_fn(|i| match d.place(if on_bounds { 3 } else { 1 }) {
        1 => lo[i],
        2 => hi[i],
        _ => (lo[i] + d.unit() * (hi[i] - lo[i])).max(lo[i]).min(hi[i]),
    })
}
fn with(x: [f64; 4], nll: f64) -> [f64; 5] {
    [x[0], x[1], x[2], x[3], nll]
}

/// A claim near the point p, perhaps of a request beside r, and what it is called.
fn claim(d: &mut Draw, r: &mut Request, p: [f64; 5]) -> ([f64; 5], &'static str) {
    let x = [p[0], p[1], p[2], p[3]];
    let (lo, hi) = (ends(r, 0), ends(r, 1));
    let i = d.place(4);
    let mut y = x;
    match d.place(12) {
        0 => (with(x, beside(p[4], d.one_in(2))), "the likelihood's last bit"),
        1 => (with(x, [-p[4], 0., -0., f64::INFINITY, p[4] + 1e-9][d.place(5)]), "another likelihood"),
        2 => (with(x, f64::from_bits(NANS[d.place(4)])), "a likelihood that is a NaN"),
        3 | 4 => {
            let up = d.one_in(2);
            y[i] = if up { beside(hi[i], true) } else { beside(lo[i], false) };
            (with(y, p[4]), "a coordinate one ulp outside its box")
        }
        5 => {
            y[i] = f64::from_bits(NANS[d.place(4)]);
            (with(y, p[4]), "a coordinate that is a NaN")
        }
        6 => {
            for k in 0..4 {
                if y[k] == 0. {
                    y[k] = -y[k];
                } else if lo[k] <= 0. && 0. <= hi[k] && d.one_in(2) {
                    y[k] = [0., -0.][d.place(2)];
                }
            }
            (with(y, likelihood(r, y.map(|v| v + 0.))), "zeros of either sign")
        }
        7 => {
            y = drawn(d, r, false);
            (with(y, likelihood(r, y)), "a point within, with its likelihood")
        }
        8 => {
            y = drawn(d, r, true);
            (with(y, likelihood(r, y)), "a point on bounds, with its likelihood")
        }
        9 => {
            y = drawn(d, r, true);
            r.gradient_tolerance = 1e300;
            (with(y, likelihood(r, y)), "any slope allowed")
        }
        10 => (with(drawn(d, r, true), p[4]), "another point's likelihood"),
        _ => {
            y[i] = beside(x[i], d.one_in(2));
            (with(y, p[4]), "a coordinate's last bit")
        }
    }
}

fn main() {
    let words: Vec<u64> = std::env::args().skip(1).map_while(|w| w.parse().ok()).collect();
    let [seed, most] = words[..] else { fail("usage: vet SEED NUMBER < REQUESTS") };
    let mut input = Vec::new();
    std::io::stdin().read_to_end(&mut input).unwrap_or_else(|e| fail(&e.to_string()));
    let mut d = Draw(seed);
    let mut met: BTreeMap<(u64, u64), u64> = BTreeMap::new();
    let mut kinds: BTreeMap<&'static str, [u64; 2]> = BTreeMap::new();
    let (mut at, mut claims, mut own) = (0, 0, 0);
    while claims < most {
        let Some((text, after)) = answers::next(&input, at).unwrap_or_else(|e| fail(&e)) else { break };
        at = after;
        let Ok(request) = answers::read(text) else { continue };
        let mut hold = |r: &Request, c: &[f64; 5], kind: &'static str| {
            let (judge, mine) = (theirs(r, c), ours(r, c));
            if judge != mine {
                wrong(r, c, &format!("{kind}: the judge says {judge:?}\nand ours {mine:?}"));
            }
            claims += 1;
            *met.entry((mine.number, mine.reason)).or_insert(0) += 1;
            kinds.entry(kind).or_insert([0; 2])[usize::from(mine.number == 0)] += 1;
            mine
        };
        let fit = fitted(&request);
        if let Some((c, norm, converged)) = fit {
            let v = hold(&request, &c, if converged { "a fit of ours that converged" } else { "a fit of ours that did not" });
            if converged && (v.number, v.nll, v.norm) != (0, bits(c[4]), bits(norm)) {
                wrong(&request, &c, &format!("a fit of ours that converged is not accepted with its own numbers: {v:?}"));
            }
            own += u64::from(converged);
            // The tolerance just at its norm and just below it; what is below 0 is no tolerance.
            for (t, kind) in [(norm, "a tolerance at the norm"), (beside(norm, false), "a tolerance one ulp below the norm")] {
                hold(&Request { gradient_tolerance: t, ..request.clone() }, &c, kind);
            }
        }
        let p = fit.map_or_else(
            || {
                let x = drawn(&mut d, &request, true);
                with(x, likelihood(&request, x))
            },
            |(c, ..)| c,
        );
        for _ in 0..CLAIMS {
            let mut r = request.clone();
            let (c, kind) = claim(&mut d, &mut r, p);
            if d.one_in(2) {
                // Limits play no part past their check.
                r.max_evaluations = 1 + d.place(1000);
                r.max_iterations = 1 + d.place(1000);
                let most = if d.one_in(2) { 10 } else { LIMIT };
                r.max_quadrature_evaluations = 1 + d.place(most);
            } else if d.one_in(12) {
                *[&mut r.max_evaluations, &mut r.max_iterations, &mut r.max_quadrature_evaluations][d.place(3)] = [0, LIMIT + 1][d.place(2)];
            }
            hold(&r, &c, kind);
        }
    }
    for (kind, [refused, accepted]) in &kinds {
        println!("  {accepted:>7} accepted {refused:>7} refused  {kind}");
    }
    for ((number, reason), times) in &met {
        println!("  {times:>9}  {}", if *number == 0 { "accepted".to_string() } else { format!("refused {number}, reason {reason}") });
    }
    let numbers: Vec<u64> = met.keys().map(|k| k.0).collect();
    if let Some(n) = [0, 1, 2, 5, 6, 7].into_iter().find(|n| !numbers.contains(n)) {
        println!("vet: verdict {n} was not met");
        std::process::exit(1);
    }
    if claims < most || own == 0 {
        println!("vet: {claims} claims of {most}, {own} of them our own converged fits: too few requests");
        std::process::exit(1);
    }
    println!("vet: {claims} claims of seed {seed}, {own} of them our own converged fits, all accepted: no difference");
}
