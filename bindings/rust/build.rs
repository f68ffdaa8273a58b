//! Finds the static library `libexports.a` and links it.

use std::path::{Path, PathBuf};
use std::{env, process};

fn main() {
    println!("cargo:rerun-if-env-changed=FOGATISE_LIB");
    let here = env::var_os("CARGO_MANIFEST_DIR").expect("cargo sets it");
    let named = env::var_os("FOGATISE_LIB").filter(|named| !named.is_empty());
    let folder = named.map_or_else(|| Path::new(&here).join("../../target/staticlib"), PathBuf::from);
    let library = folder.join("libexports.a");
    println!("cargo:rerun-if-changed={}", library.display());
    if !library.is_file() {
        eprintln!("fogatise: there is no file {}.", library.display());
        eprintln!("`tools/build exports`, run at the top of the repository, writes libexports.a into target/staticlib.");
        eprintln!("Where it lies elsewhere, set the variable FOGATISE_LIB to the full path of its folder.");
        process::exit(1);
    }
    let folder = folder.canonicalize().expect("the library lies in it");
    println!("cargo:rustc-link-search=native={}", folder.display());
    println!("cargo:rustc-link-lib=static=exports");
}
