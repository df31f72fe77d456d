// What the hooks in the copy of the module tell: each evaluation with its litter, the reason of a refusal, where a
// fit stopped, and why: each trial of a line search, with the number that decided it, and the test that ended the
// fit.
use std::cell::{Cell, RefCell};

/// One evaluation: the litter's position in its objective call, whether the variance is 0, and the bits of z or of
/// the mean.
pub struct Evaluation {
    pub litter: u32,
    pub alone: bool,
    pub bits: u64,
}

/// Where a fit stopped: its four coordinates, and the gradient and the Hessian that it has there.
#[derive(Clone, Copy)]
pub struct Stop {
    pub x: [f64; 4],
    pub gradient: [f64; 4],
    pub hessian: [[f64; 4]; 4],
}

pub struct Seen {
    pub count: usize,
    /// 1 to 6, or 0 where none was met.
    pub reason: u32,
    /// Of a fit that was answered.
    pub stop: Option<Stop>,
    /// Empty unless asked for.
    pub list: Vec<Evaluation>,
    /// Of a fit: its trials that came to something, in their order.
    pub trials: Vec<Trial>,
    /// Whether a trial's value was asked for and did not come.
    pub refused: bool,
    /// 1 norm, 2 evaluations, 3 iterations, all at the loop's head; 4 all halvings made, 5 evaluations spent before;
    /// 0 where none ended it.
    pub test: u32,
    /// The last litter begun, counted from 1.
    pub litter: u32,
}

/// 1 not downhill, 2 not moved, 3 too little decrease, 4 by decrease, 5 by rounding, 6 cut off; and the bits of the
/// number that decided, 0 where none.
#[derive(Clone, Copy, PartialEq, Debug)]
pub struct Trial {
    pub kind: u32,
    pub bits: u64,
}

thread_local! {
    static COUNT: Cell<usize> = const { Cell::new(0) };
    static REASON: Cell<u32> = const { Cell::new(0) };
    static STOP: Cell<Option<Stop>> = const { Cell::new(None) };
    static LITTER: Cell<u32> = const { Cell::new(0) };
    static NEXT: Cell<u32> = const { Cell::new(0) };
    static LISTING: Cell<bool> = const { Cell::new(false) };
    static LIST: RefCell<Vec<Evaluation>> = const { RefCell::new(Vec::new()) };
    static TRIALS: RefCell<Vec<Trial>> = const { RefCell::new(Vec::new()) };
    static ASKED: Cell<bool> = const { Cell::new(false) };
    static TEST: Cell<u32> = const { Cell::new(0) };
}

pub fn start(listing: bool) {
    COUNT.set(0);
    REASON.set(0);
    STOP.set(None);
    LITTER.set(0);
    NEXT.set(0);
    LISTING.set(listing);
    LIST.take();
    TRIALS.take();
    ASKED.set(false);
    TEST.set(0);
}
pub fn seen() -> Seen {
    Seen {
        count: COUNT.get(),
        reason: REASON.get(),
        stop: STOP.get(),
        list: LIST.take(),
        trials: TRIALS.take(),
        refused: ASKED.get(),
        test: TEST.get(),
        litter: NEXT.get(),
    }
}

pub fn objective() {
    NEXT.set(0);
}
pub fn litter() {
    LITTER.set(NEXT.get());
    NEXT.set(NEXT.get() + 1);
}
pub fn at(z: f64) {
    evaluation(false, z);
}
pub fn alone(mean: f64) {
    evaluation(true, mean);
}
pub fn reason(number: u32, message: &'static str) -> &'static str {
    REASON.set(number);
    message
}
pub fn stopped(x: [f64; 4], gradient: [f64; 4], hessian: [[f64; 4]; 4]) {
    STOP.set(Some(Stop { x, gradient, hessian }));
}

pub fn idle(slope: f64) {
    if slope >= 0. { tried(1, slope) } else { tried(2, 0.) }
}
pub fn asked() {
    ASKED.set(true);
}
pub fn missed(by: f64) {
    tried(3, by);
}
pub fn accepted(decreased: bool, slope: f64, rounding: f64) {
    if decreased { tried(4, slope) } else { tried(5, rounding) }
}
pub fn cut() {
    tried(6, 0.);
}
pub fn ended(test: u32) {
    TEST.set(test);
}
/// A search without a step: it was cut off, or all its trials were made.
pub fn failed() {
    ended(TRIALS.with_borrow(|l| if l.last().is_some_and(|t| t.kind == 6) { 5 } else { 4 }));
}
fn tried(kind: u32, number: f64) {
    ASKED.set(false);
    TRIALS.with_borrow_mut(|l| l.push(Trial { kind, bits: number.to_bits() }));
}

fn evaluation(alone: bool, x: f64) {
    COUNT.set(COUNT.get() + 1);
    if LISTING.get() {
        LIST.with_borrow_mut(|l| l.push(Evaluation { litter: LITTER.get(), alone, bits: x.to_bits() }));
    }
}
