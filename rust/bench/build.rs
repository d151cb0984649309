//! Compiles the plain C that the proved library is measured beside.
use std::{env, process::Command};

fn main() {
    let out = env::var("OUT_DIR").expect("cargo names a folder for output");
    for header in ["plain.h", "plain_image.h"] {
        println!("cargo:rerun-if-changed={header}");
    }
    let mut archive = Command::new("ar");
    archive.arg("crs").arg(format!("{out}/libplain.a"));
    for name in ["plain", "plain_check", "plain_search"] {
        let (source, object) = (format!("{name}.c"), format!("{out}/{name}.o"));
        println!("cargo:rerun-if-changed={source}");
        run(Command::new("gcc").args(["-O3", "-std=c11", "-Wall", "-Wextra", "-Werror", "-c", &source, "-o", &object]));
        archive.arg(object);
    }
    run(&mut archive);
    println!("cargo:rustc-link-search=native={out}");
    println!("cargo:rustc-link-lib=static=plain");
}

fn run(command: &mut Command) {
    let ended = command.status().unwrap_or_else(|e| panic!("{command:?}: {e}"));
    assert!(ended.success(), "{command:?}: {ended}");
}
