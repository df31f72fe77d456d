// A host in Rust: the same study as host.c, and to the byte the same output. Safe functions over slices stand around
// the library's.
use std::fmt::Write;

mod probit {
    pub const ANSWERED: u64 = 0;
    pub const WORK_BUDGET: u64 = 3;
    pub const TEXT: usize = 512;
    pub const VERSION: u64 = 1008;
    const ENDINGS: [&str; 5] = ["answered", "invalid input", "domain", "work budget", "form"];

    pub fn ending(n: u64) -> &'static str {
        ENDINGS.get(n as usize).unwrap_or(&"unknown")
    }

    mod library {
        unsafe extern "C" {
            pub fn probit_fit(
                bounds: *const f64, bounds_len: usize, tolerance: f64, evaluations: u64, iterations: u64, quadrature: u64,
                litters: *const u32, litters_len: usize, numbers: *mut f64, numbers_len: usize, counts: *mut u64, counts_len: usize,
            ) -> u64;
            pub safe fn probit_version() -> u64;
            pub fn probit_summary(litters: *const u32, litters_len: usize, counts: *mut u64, counts_len: usize) -> u64;
            pub fn probit_text(request: *const u8, request_len: usize, out: *mut u8, out_len: usize) -> usize;
        }
    }

    pub struct Limits {
        pub tolerance: f64,
        pub evaluations: u64,
        pub iterations: u64,
        pub quadrature: u64,
    }

    /// Two means, two SDs, the negative log-likelihood, the norm, two variances, the gradient (4), the Hessian by
    /// rows (16); status, evaluations, iterations, quadrature, litters, reason, four marks.
    #[derive(PartialEq)]
    pub struct Fit {
        pub end: u64,
        pub numbers: [f64; 28],
        pub counts: [u64; 10],
    }

    pub fn fit(bounds: &[f64], l: &Limits, litters: &[u32]) -> Fit {
        let (mut numbers, mut counts) = ([0.; 28], [0; 10]);
        let end = unsafe {
            library::probit_fit(
                bounds.as_ptr(), bounds.len(), l.tolerance, l.evaluations, l.iterations, l.quadrature, litters.as_ptr(), litters.len(),
                numbers.as_mut_ptr(), numbers.len(), counts.as_mut_ptr(), counts.len(),
            )
        };
        Fit { end, numbers, counts }
    }

    pub fn version() -> u64 {
        library::probit_version()
    }

    pub fn summary(litters: &[u32]) -> (u64, [u64; 8]) {
        let mut counts = [0; 8];
        let end = unsafe { library::probit_summary(litters.as_ptr(), litters.len(), counts.as_mut_ptr(), counts.len()) };
        (end, counts)
    }

    pub fn text(request: &[u8]) -> Vec<u8> {
        let mut out = vec![0; TEXT];
        let n = unsafe { library::probit_text(request.as_ptr(), request.len(), out.as_mut_ptr(), out.len()) };
        out.truncate(n);
        out
    }
}

use probit::{Fit, Limits};

const BOUNDS: [f64; 12] = [-3., 3., -1., -3., 3., 0., 0., 2., 0.5, 0., 2., 0.5];
const LIMITS: Limits = Limits { tolerance: 1e-6, evaluations: 200, iterations: 200, quadrature: 20_000_000 };
const LITTERS: [u32; 36] = [
    1, 12, 0, 0, 11, 0, 2, 13, 0, 1, 10, 0, 3, 14, 0, 0, 9, 0, //
    6, 12, 1, 9, 13, 1, 3, 10, 1, 11, 12, 1, 5, 11, 1, 8, 14, 1,
];
const STATUSES: [&str; 5] = ["none", "converged", "evaluation-limit", "iteration-limit", "line-search-failed"];

fn fit(quadrature: u64) -> Fit {
    probit::fit(&BOUNDS, &Limits { quadrature, ..LIMITS }, &LITTERS)
}

fn bits(x: f64) -> u64 {
    if x.is_nan() { 0x7ff8_0000_0000_0000 } else { x.to_bits() }
}

fn request_text(quadrature: u64) -> String {
    let mut s = String::from("probit-request 1\n");
    for (name, b) in ["mean 0", "mean 1", "sd 0", "sd 1"].iter().zip(BOUNDS.chunks(3)) {
        writeln!(s, "{name} {:016x} {:016x} {:016x}", bits(b[0]), bits(b[1]), bits(b[2])).unwrap();
    }
    writeln!(s, "work {} {} {quadrature}\ntolerance {:016x}", LIMITS.evaluations, LIMITS.iterations, bits(LIMITS.tolerance)).unwrap();
    let first = s.len();
    for l in LITTERS.chunks(3) {
        writeln!(s, "litter {} {} {}", l[2], l[0], l[1]).unwrap();
    }
    writeln!(s, "rows {} at {first}", LITTERS.len() / 3).unwrap();
    s
}

fn answer_text(f: &Fit) -> String {
    let [status, evaluations, iterations, quadrature, litters, reason, marks @ ..] = f.counts;
    if f.end != probit::ANSWERED {
        return format!("refused {} {quadrature} {reason}\n", f.end);
    }
    let [m0, m1, s0, s1, nll, norm, v0, v1, ..] = f.numbers.map(bits);
    let mut active: String = (0..4).filter(|i| marks[*i] == 1).map(|i| format!(" {i}")).collect();
    if active.is_empty() {
        active = " none".into();
    }
    format!(
        "status {}\nmean {m0:016x} {m1:016x}\nsd {s0:016x} {s1:016x}\nsd {s0:016x} {s1:016x}\nvariance {v0:016x} {v1:016x}\n\
         nll {nll:016x}\ngradient {norm:016x}\ncounts {evaluations} {iterations} {quadrature}\nlitters {litters}\nactive{active}\n",
        STATUSES[status as usize]
    )
}

fn text_agrees(quadrature: u64, f: &Fit) -> bool {
    probit::text(request_text(quadrature).as_bytes()) == answer_text(f).as_bytes()
}

fn fail(message: &str) -> ! {
    println!("{message}");
    std::process::exit(1)
}

fn main() {
    if probit::version() / 1000 != probit::VERSION / 1000 || probit::version() < probit::VERSION {
        fail(&format!("the library has version {}, this host {}", probit::version(), probit::VERSION));
    }
    let f = fit(LIMITS.quadrature);
    match std::env::args().nth(1).as_deref() {
        Some("request") => return print!("{}", request_text(LIMITS.quadrature)),
        Some("answer") => return print!("{}", answer_text(&f)),
        _ => {}
    }
    if f.end != probit::ANSWERED {
        fail(&format!("refused: {}, reason {}", probit::ending(f.end), f.counts[5]));
    }
    let (_, s) = probit::summary(&LITTERS);
    let x = f.numbers;
    for g in 0..2 {
        println!("group {g}: {} litters, {} of {} affected; mean {:.6}, SD {:.6}", s[4 * g], s[4 * g + 1], s[4 * g + 2], x[g], x[2 + g]);
    }
    let [status, evaluations, iterations, n, ..] = f.counts;
    println!(
        "{} after {evaluations} evaluations and {iterations} iterations; negative log-likelihood {:.6}, norm {:.9}",
        STATUSES[status as usize], x[4], x[5]
    );
    let (exact, below) = (fit(n), fit(n - 1));
    println!(
        "{n} evaluations of the integrand; with that limit {}; with one less {}, count {}",
        if exact == f { "the same answer" } else { "ANOTHER ANSWER" },
        probit::ending(below.end),
        below.counts[3]
    );
    if exact != f || below.end != probit::WORK_BUDGET || below.counts[3] != n - 1 {
        std::process::exit(1);
    }
    if !text_agrees(LIMITS.quadrature, &f) || !text_agrees(n - 1, &below) {
        fail("the text entry DIFFERS");
    }
    println!("the text entry gives the same bits");
}
