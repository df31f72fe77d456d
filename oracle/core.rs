// Stands in for qspquest_core: the records of probit_normal.rs, as given, those of discrete_fit.rs, which were not,
// by their use there, and as much as the two fits ask of the crate besides.
#[path = "../target/oracle/given/crates/qspquest-core/src/probit_fit.rs"]
pub mod probit_fit;

#[derive(Clone, Copy, Debug, PartialEq, Eq)]
pub enum ErrorCode {
    InvalidInput,
    Domain,
    WorkBudget,
}

mod error;
pub use error::Error;

pub mod fit {
    #[derive(Clone, Copy, Debug, PartialEq)]
    pub enum FitStatus {
        Converged,
        EvaluationLimit,
        IterationLimit,
        LineSearchFailed,
    }
}

pub mod identity {
    /// The hash is no part of our answers, and here it cannot fail.
    pub fn canonical_hash<T>(_: &T) -> Result<String, crate::Error> {
        Ok(String::new())
    }
}

pub mod model {
    #[derive(Clone, Debug)]
    pub struct Quantity {
        pub value: f64,
        pub unit: String,
    }
}

pub mod units {
    use crate::{Error, ErrorCode};

    /// Units are left behind (docs/CHANGES.md, §9): all numbers are in one, and have to be finite.
    #[derive(Clone, Copy)]
    pub struct Unit;
    impl Unit {
        pub fn parse(_: &str) -> Result<Unit, Error> {
            Ok(Unit)
        }
        pub fn convert(self, value: f64, _: Unit) -> Result<f64, Error> {
            if value.is_finite() { Ok(value) } else { Err(Error::new(ErrorCode::InvalidInput, "a number is not finite")) }
        }
    }
}

pub mod discrete_fit {
    use crate::{fit::FitStatus, model::Quantity};

    #[derive(Clone, Debug)]
    pub struct CountExposure {
        pub count: u32,
        pub exposure: Quantity,
    }
    #[derive(Clone, Debug)]
    pub struct GammaPoissonObjective {
        pub negative_log_likelihood: f64,
        pub log_gradient: [f64; 2],
        pub log_hessian: [[f64; 2]; 2],
    }
    #[derive(Clone, Debug)]
    pub struct GammaPoissonFitRequest {
        pub observations: Vec<CountExposure>,
        pub shape_bounds: [f64; 2],
        pub initial_shape: f64,
        pub rate_bounds: [Quantity; 2],
        pub initial_rate: Quantity,
        pub max_evaluations: usize,
        pub max_iterations: usize,
        pub gradient_tolerance: f64,
    }
    #[derive(Clone, Copy, Debug)]
    pub enum DiscreteFitResultSchema {
        V01,
    }
    #[derive(Clone, Debug)]
    pub struct DiscreteFitResult {
        pub schema: DiscreteFitResultSchema,
        pub status: FitStatus,
        pub likelihood: String,
        pub parameters: std::collections::BTreeMap<String, Quantity>,
        pub negative_log_likelihood: f64,
        pub observations: usize,
        pub evaluations: usize,
        pub iterations: usize,
        pub projected_gradient_norm: f64,
        pub active_bounds: Vec<String>,
        pub algorithm: String,
        pub fit_request_hash: String,
        pub compiler_source_sha256: String,
    }
}
