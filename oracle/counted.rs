// The crate libm of oracle/counts: our functions, from oracle/libm.rs. The module's inner loop takes one logarithm a
// pass, and once its first exponential was taken it takes no others: so the passes are counted here.
pub use ours::{hypot, lgamma, log1p};
use std::sync::atomic::{AtomicU64, Ordering::Relaxed};

static EXPONENTIALS: AtomicU64 = AtomicU64::new(0);
static PASSES: AtomicU64 = AtomicU64::new(0);

pub fn begin() {
    EXPONENTIALS.store(0, Relaxed);
    PASSES.store(0, Relaxed);
}
pub fn passes() -> u64 {
    PASSES.load(Relaxed)
}
pub fn exp(x: f64) -> f64 {
    EXPONENTIALS.fetch_add(1, Relaxed);
    ours::exp(x)
}
pub fn log(x: f64) -> f64 {
    if EXPONENTIALS.load(Relaxed) > 0 {
        PASSES.fetch_add(1, Relaxed);
    }
    ours::log(x)
}
