// The processor's time of a call, and numbers that are the same in each run: what the programs that time share.
use std::process::exit;

unsafe extern "C" {
    fn clock_gettime(clock: i32, time: *mut [i64; 2]) -> i32;
}

/// The thread's own seconds: what other programs take of the machine does not count.
pub fn now() -> f64 {
    let mut time = [0; 2];
    // CLOCK_THREAD_CPUTIME_ID of Linux.
    if unsafe { clock_gettime(3, &mut time) } != 0 {
        eprintln!("there is no clock");
        exit(2)
    }
    time[0] as f64 + 1e-9 * time[1] as f64
}

/// Seconds of one call, the best of some rounds of at least 20 ms.
pub fn best(rounds: usize, f: impl Fn()) -> f64 {
    let start = now();
    f();
    let once = now() - start;
    let calls = ((0.02 / once).ceil() as usize).clamp(1, 1_000_000);
    (0..rounds)
        .map(|_| {
            let start = now();
            (0..calls).for_each(|_| f());
            (now() - start) / calls as f64
        })
        .fold(once, f64::min)
}

pub struct Draw(pub u64);
impl Draw {
    pub fn below(&mut self, n: u32) -> u32 {
        self.0 = self.0.wrapping_mul(6364136223846793005).wrapping_add(1442695040888963407);
        ((self.0 >> 33) % u64::from(n)) as u32
    }
}
