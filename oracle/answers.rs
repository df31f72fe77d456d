// The oracle as a library: reads a request, runs the module on it and gives its answer in our print.
// Each fit, objective and row is run twice, on the text as given and on the copy with hooks, and both must agree.
// What Rust leaves open is here as rustc has it. Its sum starts at -0.0: that shows in the call tail_bound alone,
// where the slope is minus infinity.
// Its powi multiplies as ours does. No max or min of the module meets two zeros whose signs an answer could show.
pub use hook::{Evaluation, Seen};
use qspquest_core::fit::FitStatus;
use qspquest_core::probit_fit::{
    BinomialLitter as Litter, ProbitNormalBinomialFitRequest as Request,
    ProbitNormalBinomialFitResult as Fit, ProbitNormalFitSchema, ProbitNormalObjective as Objective,
};
use qspquest_core::{Error, ErrorCode};
use std::fmt::Write as _;
use std::panic::{catch_unwind, AssertUnwindSafe};

#[path = "number.rs"]
mod number;
pub use number::number;

pub fn hex(x: f64) -> String {
    let bits = if x.is_nan() { 0x7ff8_0000_0000_0000 } else { x.to_bits() };
    format!("{bits:016x}")
}
pub fn hexes<'a>(xs: impl IntoIterator<Item = &'a f64>) -> String {
    xs.into_iter().map(|&x| hex(x)).collect::<Vec<_>>().join(" ")
}

// The reader of a request. Each function answers None where the text departs.

fn count(word: &[u8]) -> Option<u32> {
    let plain = word == b"0" || word.first().is_some_and(|&c| (b'1'..=b'9').contains(&c));
    if !plain || !word.iter().all(u8::is_ascii_digit) || word.len() > 10 {
        return None;
    }
    let value = word.iter().fold(0u64, |v, c| 10 * v + u64::from(c - b'0'));
    u32::try_from(value).ok()
}
/// What follows the head words; words stand apart by exactly one space.
fn rest<'a, const N: usize>(line: &'a [u8], head: &[&str]) -> Option<[&'a [u8]; N]> {
    let words: Vec<&[u8]> = line.split(|&c| c == b' ').collect();
    if words.len() != head.len() + N || !head.iter().zip(&words).all(|(h, w)| h.as_bytes() == *w) {
        return None;
    }
    words[head.len()..].try_into().ok()
}
fn numbers<const N: usize>(line: &[u8], head: &[&str]) -> Option<[f64; N]> {
    let words: [&[u8]; N] = rest(line, head)?;
    let values: Option<Vec<f64>> = words.into_iter().map(number).collect();
    values?.try_into().ok()
}
pub fn counts<const N: usize>(line: &[u8], head: &[&str]) -> Option<[u32; N]> {
    let words: [&[u8]; N] = rest(line, head)?;
    let values: Option<Vec<u32>> = words.into_iter().map(count).collect();
    values?.try_into().ok()
}
fn rows(line: &[u8]) -> Option<[u32; 2]> {
    let [n, at, first] = rest(line, &["rows"])?;
    if at != b"at" {
        return None;
    }
    Some([count(n)?, count(first)?])
}

struct Lines<'a> {
    text: &'a [u8],
    at: usize,
    number: usize,
}
impl<'a> Lines<'a> {
    /// The next line without its LF. Where there is none, or no LF, its number departs.
    fn next(&mut self) -> Result<&'a [u8], usize> {
        self.number += 1;
        let left = &self.text[self.at..];
        let end = left.iter().position(|&c| c == b'\n').ok_or(self.number)?;
        self.at += end + 1;
        Ok(&left[..end])
    }
    fn numbers<const N: usize>(&mut self, head: &[&str]) -> Result<[f64; N], usize> {
        let line = self.next()?;
        numbers(line, head).ok_or(self.number)
    }
}

/// The request, or the number of the first line that departs.
pub fn read(text: &[u8]) -> Result<Request, usize> {
    if text.len() > 8192 {
        return Err(0);
    }
    let mut lines = Lines { text, at: 0, number: 0 };
    if lines.next()? != b"probit-request 1" {
        return Err(lines.number);
    }
    let mean = [lines.numbers::<3>(&["mean", "0"])?, lines.numbers::<3>(&["mean", "1"])?];
    let sd = [lines.numbers::<3>(&["sd", "0"])?, lines.numbers::<3>(&["sd", "1"])?];
    let work = lines.next()?;
    let work: [u32; 3] = counts(work, &["work"]).ok_or(lines.number)?;
    let [tolerance] = lines.numbers(&["tolerance"])?;
    let first = lines.at;
    let mut observations = Vec::new();
    loop {
        let line = lines.next()?;
        if let Some([group, successes, total]) = counts(line, &["litter"]) {
            observations.push(Litter { successes, total, group: group as usize });
        } else if rows(line).is_some_and(|[n, at]| n as usize == observations.len() && at as usize == first) {
            break;
        } else {
            return Err(lines.number);
        }
    }
    if lines.at != text.len() {
        return Err(lines.number + 1);
    }
    Ok(Request {
        schema: ProbitNormalFitSchema::V01,
        observations,
        initial_means: [mean[0][2], mean[1][2]],
        mean_bounds: [[mean[0][0], mean[0][1]], [mean[1][0], mean[1][1]]],
        initial_sds: [sd[0][2], sd[1][2]],
        sd_bounds: [[sd[0][0], sd[0][1]], [sd[1][0], sd[1][1]]],
        max_evaluations: work[0] as usize,
        max_iterations: work[1] as usize,
        gradient_tolerance: tolerance,
        max_quadrature_evaluations: work[2] as usize,
    })
}

// The answers in print. Hash, algorithm and source are no part of our answers (docs/DIFFERENCES.md). What the
// module's record has not, the hooks tell (docs/CHANGES.md, §6).

pub trait Answer {
    fn print(&self, seen: &Seen) -> String;
    fn evaluations(&self) -> usize;
}
impl Answer for Fit {
    fn print(&self, seen: &Seen) -> String {
        let Some(stop) = seen.stop else { return "no hook told where the fit stopped\n".to_string() };
        if hexes(&self.means) != hexes(&stop.x[..2]) {
            return "the hook tells of another point\n".to_string();
        }
        let status = match self.status {
            FitStatus::Converged => "converged",
            FitStatus::EvaluationLimit => "evaluation-limit",
            FitStatus::IterationLimit => "iteration-limit",
            FitStatus::LineSearchFailed => "line-search-failed",
        };
        let (mean, sd, variance) = (hexes(&self.means), hexes(&self.sds), hexes(&stop.x[2..]));
        let (nll, gradient) = (hex(self.negative_log_likelihood), hex(self.projected_gradient_norm));
        let counts = format!("{} {} {}", self.evaluations, self.iterations, self.quadrature_evaluations);
        let active: Vec<String> = self.active_bounds.iter().map(usize::to_string).collect();
        let active = if active.is_empty() { "none".to_string() } else { active.join(" ") };
        let litters = self.observations;
        format!(
            "status {status}\nmean {mean}\nsd {sd}\nsd {sd}\nvariance {variance}\nnll {nll}\ngradient {gradient}\ncounts {counts}\nlitters {litters}\nactive {active}\n"
        )
    }
    fn evaluations(&self) -> usize {
        self.quadrature_evaluations
    }
}
impl Answer for Objective {
    fn print(&self, _: &Seen) -> String {
        let (nll, refinement) = (hex(self.negative_log_likelihood), hex(self.quadrature_refinement));
        let (gradient, hessian) = (hexes(&self.gradient), hexes(self.hessian.iter().flatten()));
        format!("{nll} {gradient} {hessian} {} {refinement}\n", self.quadrature_evaluations)
    }
    fn evaluations(&self) -> usize {
        self.quadrature_evaluations
    }
}
impl Answer for opened::OpenRow {
    fn print(&self, _: &Seen) -> String {
        let (nll, gradient, hessian, evaluations, refinement) = self;
        format!("{} {} {} {evaluations} {}\n", hex(*nll), hexes(gradient), hexes(hessian.iter().flatten()), hex(*refinement))
    }
    fn evaluations(&self) -> usize {
        self.3
    }
}

/// Runs both texts and gives the answer in print with the evaluations that were seen. A panic of the module is an
/// answer too: one line, `panic`.
pub fn judge<T: Answer>(
    limit: usize,
    listing: bool,
    given: impl FnOnce() -> Result<T, Error>,
    hooked: impl FnOnce() -> Result<T, Error>,
) -> Result<(String, Seen), String> {
    let given = catch_unwind(AssertUnwindSafe(given));
    hook::start(listing);
    let hooked = catch_unwind(AssertUnwindSafe(hooked));
    let seen = hook::seen();
    let answer = match (given, hooked) {
        (Ok(Ok(a)), Ok(Ok(b))) => {
            let (said, other) = (a.print(&seen), b.print(&seen));
            if said != other {
                return Err(format!("the texts answer differently:\n{said}\n{other}"));
            }
            if a.evaluations() != seen.count || seen.reason != 0 {
                return Err(format!("{} evaluations are told, {} seen, reason {}", a.evaluations(), seen.count, seen.reason));
            }
            said
        }
        (Ok(Err(a)), Ok(Err(b))) => {
            if a.code != b.code || a.message != b.message {
                return Err(format!("the texts refuse differently:\n{a:?}\n{b:?}"));
            }
            let (ending, count) = match a.code {
                ErrorCode::InvalidInput => (1, seen.count),
                ErrorCode::Domain => (2, seen.count),
                ErrorCode::WorkBudget => (3, limit),
            };
            if (seen.reason != 0) != (ending == 2) || (ending == 3 && seen.count != limit) {
                return Err(format!("{a:?} with reason {} after {} evaluations of {limit}", seen.reason, seen.count));
            }
            format!("refused {ending} {count} {}\n", seen.reason)
        }
        (Err(_), Err(_)) => "panic\n".to_string(),
        _ => return Err("one text answers where the other does not".to_string()),
    };
    Ok((answer, seen))
}
/// Runs a request: the answer in print, with the evaluations that were seen.
pub fn run(request: &Request, listing: bool) -> Result<(String, Seen), String> {
    judge(
        request.max_quadrature_evaluations,
        listing,
        || given::fit_probit_normal_binomial(request),
        || hooked::fit_probit_normal_binomial(request),
    )
}

/// What is printed after the answer.
#[derive(Clone, Copy, PartialEq)]
pub enum After {
    Nothing,
    /// Each evaluation.
    List,
    /// The gradient and the Hessian where the fit stopped, which have no line of their own.
    Derivatives,
}

pub fn fit(text: &[u8], after: After) -> Result<String, String> {
    let request = match read(text) {
        Ok(request) => request,
        Err(line) => return Ok(format!("refused 4 0 {line}\n")),
    };
    let (mut answer, seen) = run(&request, after == After::List)?;
    if let (After::Derivatives, Some(stop)) = (after, seen.stop) {
        let _ = writeln!(answer, "derivatives {} {}", hexes(&stop.gradient), hexes(stop.hessian.iter().flatten()));
    }
    for e in seen.list {
        let x = hex(f64::from_bits(e.bits));
        let _ = writeln!(answer, "{} {}{x}", e.litter, if e.alone { "alone " } else { "" });
    }
    Ok(answer)
}

/// The next framed request of the input, and where the one after it begins; None at the end.
pub fn next(input: &[u8], at: usize) -> Result<Option<(&[u8], usize)>, String> {
    if at >= input.len() {
        return Ok(None);
    }
    let end = input[at..].iter().position(|&c| c == b'\n').map(|n| at + n);
    let length = end.and_then(|end| counts(&input[at..end], &["request"]));
    let (Some(end), Some([length])) = (end, length) else { return Err(format!("byte {at} begins no line `request N`")) };
    let after = end + 1 + length as usize;
    if after > input.len() {
        return Err(format!("the request at byte {at} is cut off"));
    }
    Ok(Some((&input[end + 1..after], after)))
}
