//! Says whether the crate `cyrs` linked the library, which CYRS_LIB alone decides.

use std::env;

fn main() {
    println!("cargo:rerun-if-changed=build.rs");
    println!("cargo:rustc-check-cfg=cfg(cyrs_linked)");
    if env::var_os("DEP_CYRS_LINKED").is_some() {
        println!("cargo:rustc-cfg=cyrs_linked");
    }
}
