//! The four functions of the Rust crate libm, for C to call.

#[no_mangle]
pub extern "C" fn rust_exp(x: f64) -> f64 {
    libm::exp(x)
}

#[no_mangle]
pub extern "C" fn rust_log(x: f64) -> f64 {
    libm::log(x)
}

#[no_mangle]
pub extern "C" fn rust_expm1(x: f64) -> f64 {
    libm::expm1(x)
}

#[no_mangle]
pub extern "C" fn rust_lgamma(x: f64) -> f64 {
    libm::lgamma(x)
}
