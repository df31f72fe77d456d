// Gives the functions of the crate libm names that C can call. speed builds it on Debian's sources of libm 0.2.1.
extern crate libm;

macro_rules! export {
    ($($name:ident $from:ident,)*) => {
        $(#[unsafe(no_mangle)]
        pub extern "C" fn $name(x: f64) -> f64 {
            libm::$from(x)
        })*
    };
}

export! {
    libm_exp exp,
    libm_log log,
    libm_erfc erfc,
    libm_lgamma lgamma,
    libm_cos cos,
    libm_sqrt sqrt,
}

#[unsafe(no_mangle)]
pub extern "C" fn libm_hypot(x: f64, y: f64) -> f64 {
    libm::hypot(x, y)
}
