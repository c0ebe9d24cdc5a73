//! Links `libbindings.a` from the directory in `BEDBLOOMER_LIB`, or else from `../crates/bindings/out`.

use std::env;
use std::path::PathBuf;

/// Tells cargo where the archive lies and when to link it anew.
fn main() {
    let manifest = PathBuf::from(env::var_os("CARGO_MANIFEST_DIR").expect("cargo sets it"));
    let chosen = env::var_os("BEDBLOOMER_LIB").unwrap_or_else(|| "../crates/bindings/out".into());
    let directory = manifest.join(chosen);
    let archive = directory.join("libbindings.a");
    println!("cargo:rerun-if-env-changed=BEDBLOOMER_LIB");
    println!("cargo:rerun-if-changed={}", archive.display());
    println!("cargo:rustc-link-search=native={}", directory.display());
    println!("cargo:rustc-link-lib=static=bindings");
}
