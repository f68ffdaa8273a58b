//! The port's four routines under their C names, as docs/ROUTINES.md writes them: for a program without the port's library.

use crate::written;

#[no_mangle]
extern "C" fn fog_exp(x: f64) -> f64 {
    written::exp(x)
}

#[no_mangle]
extern "C" fn fog_ln(x: f64) -> f64 {
    written::ln(x)
}

#[no_mangle]
extern "C" fn fog_expm1(x: f64) -> f64 {
    written::expm1(x)
}

#[no_mangle]
extern "C" fn fog_lgamma(x: f64) -> f64 {
    written::lgamma(x)
}
