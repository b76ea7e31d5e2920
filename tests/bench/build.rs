//! Compiles the plain C reader with gcc and links it, as a static library. libhpcdb.a is linked by the package
//! `differential`.

use std::env;
use std::path::{Path, PathBuf};
use std::process::Command;

const SOURCES: [&str; 7] = ["cct", "dcpi", "hot", "meta", "profile", "trace", "walk"];
const FLAGS: [&str; 6] = ["-std=c99", "-O2", "-Wall", "-Wextra", "-Wpedantic", "-Werror"];
/// Loops of a few instructions gain or lose up to half of their speed by where the linker puts them. So they start at
/// lines of the cache, as the library's and the Rust reader's do.
const ALIGNMENT: [&str; 2] = ["-falign-functions=64", "-falign-loops=64"];
const INCLUDE: &str = "../../include";

fn main() {
    println!("cargo:rerun-if-changed=plain");
    println!("cargo:rerun-if-changed={INCLUDE}/hpcdb.h");
    let directory = PathBuf::from(env::var_os("OUT_DIR").expect("cargo sets OUT_DIR"));
    let objects = SOURCES.map(|name| compiled(name, &directory));
    run(Command::new("ar").arg("crs").arg(directory.join("libplain.a")).args(&objects));
    println!("cargo:rustc-link-search=native={}", directory.display());
    println!("cargo:rustc-link-lib=static=plain");
}

fn compiled(name: &str, directory: &Path) -> PathBuf {
    let object = directory.join(name).with_extension("o");
    let source = Path::new("plain").join(name).with_extension("c");
    let mut gcc = Command::new("gcc");
    run(gcc.args(FLAGS).args(ALIGNMENT).arg("-I").arg(INCLUDE).arg("-c").arg(source).arg("-o").arg(&object));
    object
}

fn run(command: &mut Command) {
    let status = command.status().unwrap_or_else(|error| panic!("{command:?}: {error}"));
    assert!(status.success(), "{command:?}: {status}");
}
