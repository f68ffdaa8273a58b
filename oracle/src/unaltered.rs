//! The Rust as it is: std's exp, ln and exp_m1, and libm's lgamma.

#[allow(dead_code)]
#[path = "../../target/oracle/unaltered/math_helpers.rs"]
pub mod math_helpers;
#[allow(dead_code)]
#[path = "../../target/oracle/unaltered/models.rs"]
pub mod models;
#[allow(dead_code, unused_imports)]
#[path = "../../target/oracle/unaltered/spectrum_fitter.rs"]
pub mod spectrum_fitter;
