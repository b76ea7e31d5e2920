//! Links libhpcdb.a from the directory HPCDB_LIB_DIR, or from where the repository's own build leaves it.

use std::env;
use std::path::PathBuf;

const DEFAULT_DIRECTORY: &str = "../../target/staticlib";

fn main() {
    let manifest = PathBuf::from(env::var_os("CARGO_MANIFEST_DIR").expect("cargo sets CARGO_MANIFEST_DIR"));
    let chosen = env::var_os("HPCDB_LIB_DIR").unwrap_or_else(|| DEFAULT_DIRECTORY.into());
    // a relative directory is meant from the package, whatever directory cargo was started in
    let directory = manifest.join(chosen);
    println!("cargo:rerun-if-env-changed=HPCDB_LIB_DIR");
    println!("cargo:rerun-if-changed={}", directory.join("libhpcdb.a").display());
    println!("cargo:rustc-link-search=native={}", directory.display());
    println!("cargo:rustc-link-lib=static=hpcdb");
}
