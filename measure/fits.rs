// Times whole fits: ours through the text entry, the Rust module over libm 0.2.1 and over our elementary functions.
// One run, all in turn, the best of several.
// fits [ROUNDS]. Prints the time of a fit and of an evaluation, how it grows with litters, pups and panels, and what
// reading and printing take.
// Exit status: 1 a target is missed, 2 the sides disagree or bad usage.
use qspquest_core::fit::FitStatus;
use qspquest_core::probit_fit::{
    BinomialLitter as Litter, ProbitNormalBinomialFitRequest as Request, ProbitNormalBinomialFitResult as Fit, ProbitNormalFitSchema,
};
use qspquest_core::Error;
use std::hint::black_box;

mod timing;
use timing::{best, Draw};

/// Of the Rust over libm 0.2.1, up to 50 pups a litter and beyond, and of the Rust over our functions.
const OF_LIBM: [f64; 2] = [0.30, 0.35];
const OF_OURS: f64 = 0.55;
/// Of a fit of 32 litters: reading and printing.
const AROUND: f64 = 0.01;

unsafe extern "C" {
    fn probit_text(text: *const u8, text_len: usize, out: *mut u8, out_len: usize) -> u64;
}

type Side = fn(&Request) -> Result<Fit, Error>;

fn fail(message: &str) -> ! {
    eprintln!("fits: {message}");
    std::process::exit(2)
}

struct Case {
    name: String,
    request: Request,
    text: String,
}

fn h(x: f64) -> String {
    format!("{:016x}", x.to_bits())
}

fn text(r: &Request) -> String {
    let mut s = "probit-request 1\n".to_string();
    for (word, bounds, start) in [("mean", &r.mean_bounds, &r.initial_means), ("sd", &r.sd_bounds, &r.initial_sds)] {
        for g in 0..2 {
            s += &format!("{word} {g} {} {} {}\n", h(bounds[g][0]), h(bounds[g][1]), h(start[g]));
        }
    }
    s += &format!("work {} {} {}\ntolerance {}\n", r.max_evaluations, r.max_iterations, r.max_quadrature_evaluations, h(r.gradient_tolerance));
    let at = s.len();
    for l in &r.observations {
        s += &format!("litter {} {} {}\n", l.group, l.successes, l.total);
    }
    s + &format!("rows {} at {at}\n", r.observations.len())
}

/// Litters of `least` to `most` pups; how many of ten are affected varies from litter to litter, and is more in group
/// 1.
fn case(name: &str, number: usize, least: u32, most: u32) -> Case {
    let mut draw = Draw(7);
    let observations: Vec<Litter> = (0..number)
        .map(|i| {
            let total = least + draw.below(most - least + 1);
            let of_ten = 2 + draw.below(5) + 2 * (i as u32 % 2);
            let successes = (0..total).map(|_| u32::from(draw.below(10) < of_ten)).sum();
            Litter { successes, total, group: i % 2 }
        })
        .collect();
    of(name, observations)
}

fn of(name: &str, observations: Vec<Litter>) -> Case {
    let request = Request {
        schema: ProbitNormalFitSchema::V01,
        observations,
        initial_means: [0.; 2],
        mean_bounds: [[-8., 8.]; 2],
        initial_sds: [0.5; 2],
        sd_bounds: [[0., 3.]; 2],
        max_evaluations: 200,
        max_iterations: 200,
        gradient_tolerance: 1e-8,
        max_quadrature_evaluations: 20_000_000,
    };
    let text = text(&request);
    Case { name: name.to_string(), request, text }
}

fn entry(text: &str, out: &mut [u8; 4096]) -> usize {
    unsafe { probit_text(text.as_ptr(), text.len(), out.as_mut_ptr(), out.len()) as usize }
}

fn ours(text: &str) -> String {
    let mut out = [0; 4096];
    let n = entry(text, &mut out).min(out.len());
    String::from_utf8_lossy(&out[..n]).into_owned()
}

fn rust(c: &Case, f: Side) -> Fit {
    f(&c.request).unwrap_or_else(|e| fail(&format!("the Rust refuses {}: {}", c.name, e.message)))
}

/// Ours, by lines: the counts, and the rest as told.
fn told<'a>(answer: &'a str, word: &str) -> &'a str {
    answer.lines().find_map(|l| l.strip_prefix(word)).unwrap_or_else(|| fail(&format!("no line {word} in\n{answer}")))
}

fn three(c: &Case, rounds: usize) -> ([f64; 3], u64) {
    let (plain, bound): (Side, Side) = (given_plain::fit_probit_normal_binomial, given_ours::fit_probit_normal_binomial);
    let answer = ours(&c.text);
    let (a, b) = (rust(c, bound), rust(c, plain));
    let count: u64 = told(&answer, "counts ").rsplit(' ').next().and_then(|w| w.parse().ok()).unwrap_or(0);
    if count != a.quadrature_evaluations as u64 || told(&answer, "nll ") != h(a.negative_log_likelihood) {
        fail(&format!("{}: ours and the Rust over our functions differ\n{answer}", c.name));
    }
    if a.status != FitStatus::Converged || b.status != FitStatus::Converged {
        fail(&format!("{} does not converge", c.name));
    }
    if (a.negative_log_likelihood - b.negative_log_likelihood).abs() > 1e-9 {
        fail(&format!("{}: the Rust over libm 0.2.1 ends elsewhere", c.name));
    }
    let mut t = [f64::INFINITY; 3];
    for _ in 0..rounds {
        t[0] = t[0].min(best(1, || {
            let mut out = [0; 4096];
            black_box(entry(black_box(&c.text), &mut out));
        }));
        t[1] = t[1].min(best(1, || {
            let _ = black_box(plain(black_box(&c.request)));
        }));
        t[2] = t[2].min(best(1, || {
            let _ = black_box(bound(black_box(&c.request)));
        }));
    }
    // The Rust over libm 0.2.1 may take another number of evaluations: its time is scaled to ours.
    t[1] *= a.quadrature_evaluations as f64 / b.quadrature_evaluations as f64;
    (t, count)
}

/// Prints a case of litters of at most so many pups, and whether a target is missed.
fn missed(c: &Case, pups: u32, t: [f64; 3], count: u64) -> bool {
    let e = t.map(|s| 1e9 * s / count as f64);
    let m = t.map(|s| 1e3 * s);
    println!(
        "{:<30} {count:>8} {:>9.3} {:>9.3} {:>9.3} {:>8.1} {:>7.1} {:>7.1} {:>9.3} {:>8.3}",
        c.name, m[0], m[1], m[2], e[0], e[1], e[2], t[0] / t[1], t[0] / t[2]
    );
    let of_libm = OF_LIBM[usize::from(pups > 50)];
    let slow = t[0] > of_libm * t[1] || t[0] > OF_OURS * t[2];
    if slow {
        println!("  missed: at most {of_libm} of the Rust over libm 0.2.1 and {OF_OURS} of the Rust over ours");
    }
    slow
}

fn main() {
    let words: Vec<String> = std::env::args().skip(1).collect();
    let rounds = match &words[..] {
        [] => 9,
        [n] => n.parse().unwrap_or_else(|_| fail("usage: fits [ROUNDS]")),
        _ => fail("usage: fits [ROUNDS]"),
    };
    let mut late = false;
    println!("                                         ms a fit                     ns an evaluation         ours of    ours of");
    println!("                                  count      ours rust+libm rust+ours     ours    libm    ours rust+libm rust+ours");
    let mut around = 0.;
    for number in [4, 32, 128] {
        let c = case(&format!("{number} litters of 5 to 13"), number, 5, 13);
        let (t, count) = three(&c, rounds);
        late |= missed(&c, 13, t, count);
        if number == 32 {
            around = t[0];
            // The whole text is read, and the last check breached: no evaluation. Then one evaluation, and a refusal.
            for (what, from, to) in [("reading and a refusal", "tolerance 3e45798ee2308c3a", "tolerance 0000000000000000"), ("reading, one evaluation and a refusal", "work 200 200 20000000", "work 200 200 1")] {
                let mut changed = c.text.replace(from, to);
                if to.starts_with("work") {
                    changed = changed.replace("at 294", "at 287");
                }
                let answer = ours(&changed);
                if !answer.starts_with(if to.starts_with("work") { "refused 3 1 0" } else { "refused 1 0 0" }) {
                    fail(&format!("a refusal was asked for:\n{answer}"));
                }
                let s = best(rounds, || {
                    let mut out = [0; 4096];
                    black_box(entry(black_box(&changed), &mut out));
                });
                println!("  {what}: {:.2} us, {:.3} percent of the fit", 1e6 * s, 100. * s / around);
                if s > AROUND * around {
                    println!("  missed: it is to stay below one percent");
                    late = true;
                }
            }
        }
    }
    // Every answer is printed whole: variance 0 throughout, so that the fit is four evaluations and the rest is
    // reading and printing.
    let mut c = of("", (0..4).map(|i| Litter { successes: 1, total: 2, group: i / 2 }).collect());
    (c.request.initial_sds, c.request.max_quadrature_evaluations) = ([0.; 2], 4);
    let small = text(&c.request);
    let s = best(rounds, || {
        let mut out = [0; 4096];
        black_box(entry(black_box(&small), &mut out));
    });
    println!("  example A's litters, read, fitted by four evaluations and printed: {:.2} us, {:.3} percent of the fit of 32", 1e6 * s, 100. * s / around);

    println!("how it grows");
    for number in [8, 16, 64] {
        let c = case(&format!("{number} litters of 5 to 13"), number, 5, 13);
        let (t, count) = three(&c, rounds);
        late |= missed(&c, 13, t, count);
    }
    for pups in [2, 5, 20, 50, 100] {
        let c = case(&format!("32 litters of {pups}"), 32, pups, pups);
        let (t, count) = three(&c, rounds);
        late |= missed(&c, pups, t, count);
    }
    println!("panels a side at the last rule, 32 litters, one objective call: us a litter, ours, rust+libm, rust+ours");
    for (panels, mean, sd, successes, total) in [(4, 0., 0.1, 1, 2), (8, 0., 1., 10, 20), (16, 0., 1., 75, 150), (32, 0., 1., 100, 200), (128, 0., 2., 100, 200)] {
        let mut c = of("", (0..32).map(|i| Litter { successes, total, group: i % 2 }).collect());
        (c.request.initial_means, c.request.initial_sds, c.request.max_evaluations) = ([mean; 2], [sd; 2], 1);
        c.text = text(&c.request);
        let (plain, bound): (Side, Side) = (given_plain::fit_probit_normal_binomial, given_ours::fit_probit_normal_binomial);
        let each = bound(&c.request).map_or(0, |f| f.quadrature_evaluations / 32);
        let theirs = plain(&c.request).map_or(0, |f| f.quadrature_evaluations / 32);
        // All the rules up to the last take 32 (2 panels - 1) evaluations of a litter.
        if each < 32 * (2 * panels - 1) {
            fail(&format!("{each} evaluations are too few for {panels} panels"));
        }
        let ours = best(rounds, || {
            let mut out = [0; 4096];
            black_box(entry(black_box(&c.text), &mut out));
        });
        let [p, b] = [plain, bound].map(|f| best(rounds, || drop(black_box(f(black_box(&c.request))))));
        let [o, p, b] = [ours, p, b].map(|s| 1e6 * s / 32.);
        let note = if theirs == each { String::new() } else { format!("  (libm 0.2.1 takes {theirs})") };
        println!("  {panels:>4} panels, {each:>6} evaluations a litter ({total} pups, SD {sd}): {o:>9.1} {p:>9.1} {b:>9.1}{note}");
    }
    if late {
        println!("missed: a target, at the lines above that say so");
        std::process::exit(1);
    }
}
