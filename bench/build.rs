//! Links the proved library, and the heap that Rattle's kit gives a static library.

use std::env;

/// The folder that `run.sh` names by this variable.
fn folder(variable: &str) -> String {
    println!("cargo:rerun-if-env-changed={variable}");
    env::var(variable).unwrap_or_else(|_| panic!("{variable} is not set: run bench/run.sh"))
}

fn main() {
    let library = folder("TUVSHORAD_LIBRARY");
    let kit = folder("RATTLE_KIT");
    println!("cargo:rerun-if-changed={library}/libexports.a");
    println!("cargo:rustc-link-search=native={library}");
    println!("cargo:rustc-link-search=native={kit}/c");
    println!("cargo:rustc-link-lib=static=exports");
    println!("cargo:rustc-link-lib=static=libc_c");
}
