//! Finds the proved static library and has it linked. This is the one place that knows where it
//! is: target/staticlib below the repository's root, or the folder SLEDGEWREN_LIB_DIR names.

use std::env;
use std::path::{Path, PathBuf};

const VARIABLE: &str = "SLEDGEWREN_LIB_DIR";

/// The folder; a relative one counts from the repository's root.
fn folder() -> PathBuf {
    let crate_folder = env::var_os("CARGO_MANIFEST_DIR").unwrap_or_default();
    let root = Path::new(&crate_folder).parent().unwrap_or(Path::new("."));
    match env::var_os(VARIABLE) {
        Some(named) if !named.is_empty() => root.join(named),
        _ => root.join("target/staticlib"),
    }
}

fn main() {
    let folder = folder();
    let library = folder.join("libsledgewren.a");
    println!("cargo:rerun-if-env-changed={VARIABLE}");
    println!("cargo:rerun-if-changed={}", library.display());
    // Documentation and checking need no archive; linking says so again in its own words.
    if !library.is_file() {
        println!("cargo:warning=there is no {}", library.display());
        println!(
            "cargo:warning=make it with `make` from the repository's root,"
        );
        println!("cargo:warning=or name the folder that holds libsledgewren.a in {VARIABLE}");
    }
    println!("cargo:rustc-link-search=native={}", folder.display());
    println!("cargo:rustc-link-lib=static=sledgewren");
}
