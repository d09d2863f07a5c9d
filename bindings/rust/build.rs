//! Links the archive that CYRS_LIB names (tools/archive.sh makes crates/cyrs/out/libcyrs.a). Without it the build fails, unless
//! the feature `library-optional` is on: then the crate has no calls.

use std::env;
use std::path::Path;
use std::process::exit;

fn main() {
    println!("cargo:rerun-if-env-changed=CYRS_LIB");
    println!("cargo:rustc-check-cfg=cfg(cyrs_linked)");
    match env::var("CYRS_LIB") {
        Ok(archive) if !archive.is_empty() => link(Path::new(&archive)),
        _ if env::var_os("CARGO_FEATURE_LIBRARY_OPTIONAL").is_some() => {}
        _ => fail("CYRS_LIB is not set: it names the archive libcyrs.a, which tools/archive.sh makes in crates/cyrs/out"),
    }
}

/// An archive libNAME.a is linked as the library NAME from its folder. Build scripts run in their crate's folder and not where
/// cargo was called, so the path is a whole one.
fn link(path: &Path) {
    let shown = path.display();
    if !path.is_absolute() {
        fail(&format!("CYRS_LIB={shown}: not a whole path (from /)"));
    }
    if !path.is_file() {
        fail(&format!("CYRS_LIB={shown}: no such file"));
    }
    let stem = path.file_stem().and_then(|s| s.to_str()).unwrap_or("");
    let (Some(name), Some(folder)) = (stem.strip_prefix("lib"), path.parent()) else {
        fail(&format!("CYRS_LIB={shown}: not a file lib*.a"));
    };
    println!("cargo:rerun-if-changed={shown}");
    println!("cargo:rustc-link-search=native={}", folder.display());
    println!("cargo:rustc-link-lib=static={name}");
    println!("cargo:rustc-cfg=cyrs_linked");
    println!("cargo:linked=1");
}

fn fail(message: &str) -> ! {
    eprintln!("{message}");
    exit(1)
}
