// The crate libm of oracle-ours: its functions are those of our static library.
macro_rules! bind {
    ($($name:ident $from:ident ($($x:ident)*),)*) => {
        unsafe extern "C" {
            $(fn $from($($x: f64),*) -> f64;)*
        }
        $(pub fn $name($($x: f64),*) -> f64 {
            unsafe { $from($($x),*) }
        })*
    };
}

bind! {
    exp probit_exp(x),
    log probit_log(x),
    log1p probit_log1p(x),
    erfc probit_erfc(x),
    lgamma probit_lgamma(x),
    cos probit_cos(x),
    sqrt probit_sqrt(x),
    hypot probit_hypot(x y),
}
