// Links the port's two static libraries, from the folder that FOGATISE_LIB names, and links again when one of them changes.
use std::path::PathBuf;

fn main() {
    println!("cargo:rerun-if-env-changed=FOGATISE_LIB");
    let libraries = PathBuf::from(std::env::var_os("FOGATISE_LIB").expect("oracle/prepare sets it"));
    println!("cargo:rustc-link-search=native={}", libraries.display());
    for name in ["exports", "probe"] {
        println!("cargo:rustc-link-lib=static={name}");
        println!("cargo:rerun-if-changed={}", libraries.join(format!("lib{name}.a")).display());
    }
}
