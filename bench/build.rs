//! With the feature `every`: links the fill for comparison, `libcomparison.a`, from the folder that
//! holds the library.

use std::env;
use std::path::{Path, PathBuf};

const VARIABLE: &str = "SLEDGEWREN_LIB_DIR";

/// The folder; a relative one counts from the repository's root.
fn folder() -> PathBuf {
    let crate_folder = env::var_os("CARGO_MANIFEST_DIR").unwrap_or_default();
    let root = Path::new(&crate_folder).parent().unwrap_or(Path::new("."));
    match env::var_os(VARIABLE) {
        Some(named) if !named.is_empty() => root.join(named),
        _ => root.join("target/staticlib"),
    }
}

fn main() {
    println!("cargo:rerun-if-env-changed={VARIABLE}");
    if env::var_os("CARGO_FEATURE_EVERY").is_none() {
        return;
    }
    let folder = folder();
    println!("cargo:rerun-if-changed={}", folder.join("libcomparison.a").display());
    println!("cargo:rustc-link-search=native={}", folder.display());
    println!("cargo:rustc-link-lib=static=comparison");
}
