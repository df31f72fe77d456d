// The objective's time for each evaluation of the integrand: ours, and the Rust module over libm 0.2.1 and over our
// elementary functions.
// One run, the three in turn, the best of many rounds. Then the stack that ours takes, from a painted buffer.
// Exit status: 1 the target is missed, 2 the sides disagree.
use qspquest_core::probit_fit::{BinomialLitter as Litter, ProbitNormalObjective as Objective};
use qspquest_core::Error;
use std::hint::black_box;
use std::time::Instant;

mod timing;
use timing::Draw;

const ROUNDS: usize = 25;
const LIMIT: u64 = 8388608;
/// Of the time of Rust over libm 0.2.1.
const TARGET: f64 = 0.55;
const STACK: usize = 1 << 18;
const PAINT: u8 = 0xa5;

unsafe extern "C" {
    fn inner_objective(
        x0: f64, x1: f64, x2: f64, x3: f64, litters: *const u32, litters_len: usize, limit: u64,
        out: *mut f64, out_len: usize, counts: *mut u64, counts_len: usize,
    ) -> u64;
}

type Sides = fn([f64; 4], &[Litter]) -> Result<Objective, Error>;

struct Case {
    name: &'static str,
    x: [f64; 4],
    litters: Vec<Litter>,
    flat: Vec<u32>,
}

struct Answer {
    nll: f64,
    evaluations: u64,
}

fn ours(c: &Case) -> Answer {
    let mut out = [0f64; 22];
    let mut counts = [0u64; 3];
    let [x0, x1, x2, x3] = c.x;
    let status = unsafe {
        inner_objective(x0, x1, x2, x3, c.flat.as_ptr(), c.flat.len(), LIMIT, out.as_mut_ptr(), out.len(), counts.as_mut_ptr(), counts.len())
    };
    if status != 0 || counts[0] != 0 {
        fail(&format!("ours refuses {}: status {status}, ending {counts:?}", c.name));
    }
    Answer { nll: out[0], evaluations: counts[2] }
}

fn rust(c: &Case, f: Sides) -> Answer {
    match f(c.x, &c.litters) {
        Ok(o) => Answer { nll: o.negative_log_likelihood, evaluations: o.quadrature_evaluations as u64 },
        Err(e) => fail(&format!("the Rust refuses {}: {}", c.name, e.message)),
    }
}

fn fail(message: &str) -> ! {
    eprintln!("objective: {message}");
    std::process::exit(2)
}

/// Litters of `least` to `most` pups, affected or not by halves.
fn case(name: &'static str, n: usize, least: u32, most: u32) -> Case {
    let mut draw = Draw(n as u64);
    let litters: Vec<Litter> = (0..n)
        .map(|i| {
            let total = least + draw.below(most - least + 1);
            let successes = (0..total).map(|_| draw.below(2)).sum();
            Litter { successes, total, group: i % 2 }
        })
        .collect();
    let flat = litters.iter().flat_map(|l| [l.successes, l.total, l.group as u32]).collect();
    Case { name, x: [-0.1, 0.15, 0.25, 0.25], litters, flat }
}

fn agree(c: &Case, a: &Answer, b: &Answer, who: &str) {
    if a.evaluations != b.evaluations {
        fail(&format!("{}: {} evaluations, {who} {}", c.name, a.evaluations, b.evaluations));
    }
    if (a.nll - b.nll).abs() > 1e-12 * a.nll.abs() {
        fail(&format!("{}: {:e}, {who} {:e}", c.name, a.nll, b.nll));
    }
}

/// Nanoseconds a call.
fn time(calls: usize, f: impl Fn() -> Answer) -> f64 {
    let start = Instant::now();
    for _ in 0..calls {
        black_box(f());
    }
    start.elapsed().as_nanos() as f64 / calls as f64
}

extern "C" fn on_painted(c: *const Case) {
    black_box(ours(unsafe { &*c }));
}

/// The bytes below the top that a call of ours left changed.
fn stack(c: &Case) -> usize {
    let mut bytes = vec![PAINT; STACK];
    let top = (bytes.as_mut_ptr() as usize + STACK) & !15;
    unsafe {
        std::arch::asm!(
            "xchg rsp, r12", "call r13", "mov rsp, r12",
            inout("r12") top => _, in("r13") on_painted as extern "C" fn(*const Case), in("rdi") c as *const Case,
            clobber_abi("C"),
        );
    }
    let clean = black_box(&bytes).iter().take_while(|b| **b == PAINT).count();
    top - (bytes.as_ptr() as usize + clean)
}

fn main() {
    let cases = [case("32 litters of 5 to 13", 32, 5, 13), case("128 litters of 11 to 13", 128, 11, 13)];
    let mut missed = false;
    println!("nanoseconds an evaluation        count    ours  rust+libm 0.2.1  rust+ours   ours/libm  ours/(rust+ours)");
    for c in &cases {
        let (plain, bound): (Sides, Sides) = (given_plain::probit_normal_binomial_objective, given_ours::probit_normal_binomial_objective);
        let a = ours(c);
        agree(c, &a, &rust(c, plain), "with libm 0.2.1");
        agree(c, &a, &rust(c, bound), "with our functions");
        let calls = (200_000 / a.evaluations).max(1) as usize;
        let mut best = [f64::INFINITY; 3];
        for _ in 0..ROUNDS {
            best[0] = best[0].min(time(calls, || ours(black_box(c))));
            best[1] = best[1].min(time(calls, || rust(black_box(c), plain)));
            best[2] = best[2].min(time(calls, || rust(black_box(c), bound)));
        }
        let [o, p, b] = best.map(|t| t / a.evaluations as f64);
        println!("{:<30} {:>7} {:>7.1} {:>16.1} {:>10.1} {:>11.3} {:>17.3}", c.name, a.evaluations, o, p, b, o / p, o / b);
        missed |= o > TARGET * p;
    }
    let alone = Case { x: [-0.1, 0.15, 0., 0.], ..case("variance 0", 32, 5, 13) };
    let wide = Case { x: [-8., 8., 9., 9.], ..case("the edges", 32, 5, 13) };
    let most = cases.iter().chain([&alone, &wide]).map(stack).max().unwrap();
    println!("stack: {most} bytes");
    if missed {
        println!("missed: the target is {TARGET} of the Rust over libm 0.2.1");
        std::process::exit(1);
    }
}
