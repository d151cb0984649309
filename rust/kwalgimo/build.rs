//! Links the proved archive.
use std::{env, path::Path};

fn main() {
    let here = env::var("CARGO_MANIFEST_DIR").expect("cargo names the package's folder");
    let made = Path::new(&here).join("../../target/staticlib");
    if !made.join("libhost.a").exists() {
        println!("cargo:warning=no libhost.a: run `tools/made host` first");
    }
    println!("cargo:rerun-if-changed={}", made.join("libhost.a").display());
    println!("cargo:rustc-link-search=native={}", made.display());
    println!("cargo:rustc-link-lib=static=host");
}
