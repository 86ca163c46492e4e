//! Links the static libraries found in the folder that HARBOUR_LIB names (without it,
//! ../target/staticlib). With the feature `mock` nothing is linked.
use std::{env, fs, path::Path};

/// Names the folder and each library in it to the linker; HARBOUR_LIBS may name other libraries.
/// libabi.a stands first; libdoor.a gives what is then still missing.
fn main() {
    println!("cargo:rerun-if-env-changed=HARBOUR_LIB");
    println!("cargo:rerun-if-env-changed=HARBOUR_LIBS");
    println!("cargo:rerun-if-changed=build.rs");
    if env::var_os("CARGO_FEATURE_MOCK").is_some() {
        return;
    }
    let folder = env::var("HARBOUR_LIB").unwrap_or_else(|_| "../target/staticlib".to_string());
    let names = env::var("HARBOUR_LIBS").unwrap_or_else(|_| "abi,door".to_string());
    let mut linked = 0;
    for name in names.split(',') {
        let file = Path::new(&folder).join(format!("lib{name}.a"));
        println!("cargo:rerun-if-changed={}", file.display());
        if file.exists() {
            println!("cargo:rustc-link-lib=static:-bundle={name}");
            linked += 1;
        }
    }
    if linked == 0 {
        panic!("none of the libraries {names} is in {folder}: set HARBOUR_LIB, or build with --features mock");
    }
    let folder = fs::canonicalize(&folder).expect("the library folder has no path");
    println!("cargo:rustc-link-search=native={}", folder.display());
}
