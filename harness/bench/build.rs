//! Compiles the recursion in C by the system's compiler, at `-O3`.
use std::path::PathBuf;
use std::process::Command;

fn run(command: &mut Command) {
    let status = command.status().unwrap_or_else(|error| panic!("{command:?}: {error}"));
    assert!(status.success(), "{command:?}: {status}");
}

fn main() {
    let source = "c/recursion.c";
    let folder = PathBuf::from(std::env::var_os("OUT_DIR").expect("cargo's folder for what is built"));
    let (object, archive) = (folder.join("recursion.o"), folder.join("librecursion.a"));
    run(Command::new("cc").args(["-std=c99", "-O3", "-Wall", "-Wextra", "-Wpedantic", "-Werror", "-c", source, "-o"]).arg(&object));
    run(Command::new("ar").arg("crs").arg(&archive).arg(&object));
    println!("cargo:rerun-if-changed={source}");
    println!("cargo:rustc-link-search=native={}", folder.display());
    println!("cargo:rustc-link-lib=static=recursion");
}
