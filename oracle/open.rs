
// Appended to the module's text: names under which its private functions can be called from outside.
pub type OpenRow = (f64, [f64; 2], [[f64; 2]; 2], usize, f64);

pub fn open_normal(x: f64) -> (f64, f64) {
    normal(x)
}
pub fn open_mills(x: f64, r: f64) -> [f64; 4] {
    mills_derivatives(x, r)
}
pub fn open_conditional(eta: f64, row: &Litter) -> (f64, f64, f64, [f64; 6]) {
    let c = conditional(eta, row);
    (c.log, c.score, c.curvature, c.moments)
}
pub fn open_legendre() -> Vec<(f64, f64)> {
    legendre()
}
pub fn open_tail_bound(log: f64, slope: f64, eta: f64, sd: f64, total: u32) -> f64 {
    tail_bound(log, slope, eta, sd, total)
}
pub fn open_row(mean: f64, variance: f64, row: &Litter, limit: usize) -> Result<OpenRow, Error> {
    row_objective(mean, variance, row, &legendre(), limit)
}
pub fn open_limited(point: [f64; 4], observations: &[Litter], limit: usize) -> Result<Objective, Error> {
    limited_objective(point, observations, limit)
}
pub fn open_norm(x: [f64; 4], gradient: [f64; 4], lo: [f64; 4], hi: [f64; 4]) -> f64 {
    norm(project(x, gradient, lo, hi))
}
