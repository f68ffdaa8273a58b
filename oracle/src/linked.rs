//! The Rust with its exp, ln, exp_m1 and lgamma replaced by the port's four, through the C interface.

use crate::port;

#[allow(dead_code)]
#[path = "../../target/oracle/linked/math_helpers.rs"]
pub mod math_helpers;
#[allow(dead_code)]
#[path = "../../target/oracle/linked/models.rs"]
pub mod models;
#[allow(dead_code, unused_imports)]
#[path = "../../target/oracle/linked/spectrum_fitter.rs"]
pub mod spectrum_fitter;

pub trait Routines {
    fn fog_exp(self) -> f64;
    fn fog_ln(self) -> f64;
    fn fog_exp_m1(self) -> f64;
}

impl Routines for f64 {
    fn fog_exp(self) -> f64 {
        port::exp(self)
    }

    fn fog_ln(self) -> f64 {
        port::ln(self)
    }

    fn fog_exp_m1(self) -> f64 {
        port::expm1(self)
    }
}

pub fn lgamma(x: f64) -> f64 {
    port::lgamma(x)
}
