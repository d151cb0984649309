//! Links the archive of the doors to the library's inside.
use std::{env, path::Path};

fn main() {
    let here = env::var("CARGO_MANIFEST_DIR").expect("cargo names the package's folder");
    let made = Path::new(&here).join("../../target/staticlib");
    if !made.join("libbench.a").exists() {
        println!("cargo:warning=no libbench.a: run `tools/made bench` first, or rust/run, which does");
    }
    println!("cargo:rerun-if-changed={}", made.join("libbench.a").display());
    println!("cargo:rustc-link-search=native={}", made.display());
    println!("cargo:rustc-link-lib=static=bench");
}
