//! Tells the linker where the other engine's static libraries stand: the replayer, and the single step in a library of its own.

use std::env;
use std::path::PathBuf;

fn main() {
    println!("cargo:rerun-if-changed=build.rs");
    println!("cargo:rerun-if-env-changed=LADLECOMET_LIB");
    if env::var_os("CARGO_FEATURE_NATIVE").is_none() {
        return;
    }
    let package = PathBuf::from(env::var_os("CARGO_MANIFEST_DIR").expect("set by cargo"));
    // A relative folder counts from the package, wherever cargo was started.
    let folder = match env::var_os("LADLECOMET_LIB") {
        Some(given) => package.join(given),
        None => package.join("../target/staticlib"),
    };
    println!("cargo:rustc-link-search=native={}", folder.display());
    for name in ["bridge", "single_call"] {
        let file = folder.join(format!("lib{name}.a"));
        println!("cargo:rerun-if-changed={}", file.display());
        if !file.is_file() {
            eprintln!(
                "{} is not there: run bench/libraries.sh first",
                file.display()
            );
            std::process::exit(1);
        }
        println!("cargo:rustc-link-lib=static={name}");
    }
}
