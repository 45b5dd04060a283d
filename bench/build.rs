// Compiles the C++ file, and links it and the library that HURZELMA_LIB names.
use std::env;
use std::path::PathBuf;
use std::process::Command;

fn compile(program: &str, args: &[&str]) {
    let status = Command::new(program).args(args).status();
    assert!(status.is_ok_and(|status| status.success()), "{program} {args:?} failed");
}

fn main() {
    let out = env::var("OUT_DIR").unwrap();
    let object = format!("{out}/peers.o");
    compile("c++", &["-std=c++17", "-O3", "-march=x86-64-v2", "-DNDEBUG", "-c", "src/peers.cpp", "-o", &object]);
    compile("ar", &["rcs", &format!("{out}/libpeers.a"), &object]);
    println!("cargo:rustc-link-search=native={out}");
    println!("cargo:rustc-link-lib=static=peers");
    println!("cargo:rustc-link-lib=stdc++");
    println!("cargo:rerun-if-changed=src/peers.cpp");

    let ours = PathBuf::from(env::var("HURZELMA_LIB").expect("HURZELMA_LIB names libhurzelma.a"));
    println!("cargo:rustc-link-search=native={}", ours.parent().unwrap().display());
    println!("cargo:rustc-link-lib=static=hurzelma");
    println!("cargo:rerun-if-changed={}", ours.display());
    println!("cargo:rerun-if-env-changed=HURZELMA_LIB");
}
