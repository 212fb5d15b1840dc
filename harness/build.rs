//! Links the archive of the proved library, where the feature `proved` asks for it.

use std::env;
use std::path::Path;

/// Names a directory that holds `libexports.a`, in place of the repository's own.
const DIRECTORY: &str = "PROVED_LIB_DIR";

fn main() {
    println!("cargo:rerun-if-env-changed={DIRECTORY}");
    if env::var_os("CARGO_FEATURE_PROVED").is_none() {
        return;
    }
    let package = env::var("CARGO_MANIFEST_DIR").expect("cargo sets CARGO_MANIFEST_DIR");
    let directory = env::var(DIRECTORY).unwrap_or_else(|_| "../crates/exports/out".into());
    // A relative directory is meant from the package, wherever cargo was started.
    let directory = Path::new(&package).join(directory);
    let archive = directory.join("libexports.a");
    println!("cargo:rerun-if-changed={}", archive.display());
    println!("cargo:rustc-link-search=native={}", directory.display());
    println!("cargo:rustc-link-lib=static=exports");
}
