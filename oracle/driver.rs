// The oracle's program: reads requests or calls, runs the module on them and prints its answers in our format.
// Exit status 2 where the text as given and the copy with hooks do not agree (answers.rs), or the use is wrong.
use answers::{fit, hex, hexes, judge, number, After};
use qspquest_core::probit_fit::BinomialLitter as Litter;
use std::io::{BufWriter, Read, Write};

const USAGE: &str = "usage: oracle COMMAND < INPUT
  fit               one request; the answer
  list              one request; the answer, then each evaluation: LITTER Z, or LITTER alone MEAN where the variance is 0
  derivatives       one request; the answer, then gradient{4} and hessian{16} where the fit stopped
  fit, list, derivatives --framed  any number: a line `request N` and N bytes each; for each a line `answer N` and N bytes
  calls             one call a line, a word and its arguments; one line for each
  WORD              the same, with the arguments alone on each line
WORD ARGUMENTS      prints
  objective POINT{4} (GROUP SUCCESSES TOTAL)*   nll, gradient{4}, hessian{16}, evaluations, refinement
  limited LIMIT POINT{4} (GROUP SUCCESSES TOTAL)*   the same
  row MEAN VARIANCE SUCCESSES TOTAL LIMIT       nll, gradient{2}, hessian{4}, evaluations, refinement
  normal X                                      log, mills
  mills X R                                     its four numbers
  conditional ETA SUCCESSES TOTAL               log, score, curvature, moments{6}
  legendre                                      node and weight, sixteen times
  tail_bound LOG SLOPE ETA SD TOTAL             the bound
An f64 is printed as the 16 hex digits of its bits, and read so; a call reads it in decimal too, where it has not 16 characters.
Exit status: 0 all answered, 2 bad usage or the two texts differ.";

/// Ends the program: the oracle itself is wrong, or it is used wrongly.
fn fail(message: &str) -> ! {
    eprintln!("oracle: {message}");
    std::process::exit(2)
}

fn framed(input: &[u8], out: &mut impl Write, what: After) -> Result<(), String> {
    let (mut at, mut position) = (0, 0);
    while let Some((text, after)) = answers::next(input, at)? {
        let answer = fit(text, what).map_err(|e| format!("request {position}, from 0: {e}"))?;
        write!(out, "answer {}\n{answer}", answer.len()).map_err(|e| e.to_string())?;
        (at, position) = (after, position + 1);
    }
    Ok(())
}

// The calls.

struct Words<'a> {
    line: &'a str,
    left: std::str::SplitAsciiWhitespace<'a>,
}
impl<'a> Words<'a> {
    fn bad(&self) -> ! {
        fail(&format!("no such call: {}\n{USAGE}", self.line))
    }
    fn word(&mut self) -> &'a str {
        self.left.next().unwrap_or_else(|| self.bad())
    }
    fn count<T: std::str::FromStr>(&mut self) -> T {
        self.word().parse().unwrap_or_else(|_| self.bad())
    }
    fn number(&mut self) -> f64 {
        let word = self.word();
        if word.len() == 16 {
            return number(word.as_bytes()).unwrap_or_else(|| self.bad());
        }
        word.parse().unwrap_or_else(|_| self.bad())
    }
    fn point(&mut self) -> [f64; 4] {
        std::array::from_fn(|_| self.number())
    }
    fn litters(&mut self) -> Vec<Litter> {
        let mut litters = Vec::new();
        while self.left.clone().next().is_some() {
            let group = self.count();
            let (successes, total) = (self.count(), self.count());
            litters.push(Litter { successes, total, group });
        }
        litters
    }
    /// A litter by itself. The module subtracts the two without a test, since it has tested them before.
    fn litter(&mut self) -> Litter {
        let (successes, total) = (self.count(), self.count());
        if successes > total {
            self.bad();
        }
        Litter { successes, total, group: 0 }
    }
}

fn call(word: &str, words: &mut Words) -> Result<String, String> {
    let answer = match word {
        "objective" => {
            let (point, litters) = (words.point(), words.litters());
            // The module's own limit: 128 litters of 65,536.
            judge(
                8_388_608,
                false,
                || given::probit_normal_binomial_objective(point, &litters),
                || hooked::probit_normal_binomial_objective(point, &litters),
            )?
            .0
        }
        "limited" => {
            let (limit, point, litters) = (words.count(), words.point(), words.litters());
            judge(
                limit,
                false,
                || opened::open_limited(point, &litters, limit),
                || hooked::open_limited(point, &litters, limit),
            )?
            .0
        }
        "row" => {
            let (mean, variance, litter, limit) = (words.number(), words.number(), words.litter(), words.count());
            judge(
                limit,
                false,
                || opened::open_row(mean, variance, &litter, limit),
                || hooked::open_row(mean, variance, &litter, limit),
            )?
            .0
        }
        "normal" => {
            let (log, mills) = opened::open_normal(words.number());
            hexes(&[log, mills]) + "\n"
        }
        "mills" => {
            let (x, r) = (words.number(), words.number());
            hexes(&opened::open_mills(x, r)) + "\n"
        }
        "conditional" => {
            let (eta, litter) = (words.number(), words.litter());
            let (log, score, curvature, moments) = opened::open_conditional(eta, &litter);
            format!("{} {}\n", hexes(&[log, score, curvature]), hexes(&moments))
        }
        "legendre" => hexes(opened::open_legendre().iter().flat_map(|(x, w)| [x, w])) + "\n",
        "tail_bound" => {
            let (log, slope) = (words.number(), words.number());
            let (eta, sd, total) = (words.number(), words.number(), words.count());
            hex(opened::open_tail_bound(log, slope, eta, sd, total)) + "\n"
        }
        _ => words.bad(),
    };
    if words.left.next().is_some() {
        words.bad();
    }
    Ok(answer)
}

fn run(command: &[&str], out: &mut impl Write) -> Result<(), String> {
    let words = ["calls", "objective", "limited", "row", "normal", "mills", "conditional", "legendre", "tail_bound"];
    let known = match command {
        ["fit" | "list" | "derivatives"] | ["fit" | "list" | "derivatives", "--framed"] => true,
        [word] => words.contains(word),
        _ => false,
    };
    if !known {
        return Err(USAGE.to_string());
    }
    let mut input = Vec::new();
    std::io::stdin().read_to_end(&mut input).map_err(|e| e.to_string())?;
    let after = match command[0] {
        "list" => After::List,
        "derivatives" => After::Derivatives,
        _ => After::Nothing,
    };
    match command {
        [_, "--framed"] => framed(&input, out, after),
        ["fit" | "list" | "derivatives"] => out.write_all(fit(&input, after)?.as_bytes()).map_err(|e| e.to_string()),
        [word, ..] => {
            let text = String::from_utf8(input).map_err(|e| e.to_string())?;
            for line in text.lines() {
                let mut words = Words { line, left: line.split_ascii_whitespace() };
                let word = if *word == "calls" { words.word() } else { word };
                let answer = call(word, &mut words).map_err(|e| format!("{line}: {e}"))?;
                out.write_all(answer.as_bytes()).map_err(|e| e.to_string())?;
            }
            Ok(())
        }
        [] => Ok(()),
    }
}

fn main() {
    let command: Vec<String> = std::env::args().skip(1).collect();
    let command: Vec<&str> = command.iter().map(String::as_str).collect();
    let mut out = BufWriter::new(std::io::stdout().lock());
    let ran = run(&command, &mut out);
    let flushed = out.flush().map_err(|e| e.to_string());
    if let Err(message) = ran.and(flushed) {
        fail(&message);
    }
}
