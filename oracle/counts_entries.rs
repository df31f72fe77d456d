// The C entries for counts per exposure.
unsafe extern "C" {
    pub fn probit_counts_objective(
        shape: f64, rate: f64, events: *const u32, events_len: usize, exposures: *const f64, exposures_len: usize, numbers: *mut f64, numbers_len: usize,
        counts: *mut u64, counts_len: usize,
    ) -> u64;
    pub fn probit_counts_fit(
        bounds: *const f64, bounds_len: usize, tolerance: f64, evaluations: u64, iterations: u64, events: *const u32, events_len: usize,
        exposures: *const f64, exposures_len: usize, numbers: *mut f64, numbers_len: usize, counts: *mut u64, counts_len: usize,
    ) -> u64;
}
