//! Compiles the ready layer in C, and lets the calls that are counted (src/counted.rs) stand before
//! the C library's.

use std::env;
use std::path::{Path, PathBuf};
use std::process::Command;

const COUNTED: [&str; 10] = [
    "fsync",
    "fdatasync",
    "msync",
    "write",
    "pwrite",
    "pwrite64",
    "writev",
    "pwritev",
    "pwritev64",
    "syscall",
];

fn run(command: &mut Command) {
    let done = command.status().expect("a compiler for C, and ar");
    assert!(done.success(), "{command:?}");
}

fn compile(root: &Path, out: &Path) {
    let (source, object) = (root.join("c/lane_file.c"), out.join("lane_file.o"));
    let include = root.join("include");
    for file in [&source, &include] {
        println!("cargo::rerun-if-changed={}", file.display());
    }
    println!("cargo::rerun-if-env-changed=CC");
    let cc = env::var_os("CC").unwrap_or("cc".into());
    run(Command::new(cc)
        .args(["-std=c11", "-O2", "-Wall", "-Wextra", "-Werror", "-c"])
        .arg("-I")
        .args([&include, &source])
        .arg("-o")
        .arg(&object));
    run(Command::new("ar")
        .arg("crs")
        .args([&out.join("liblane_file.a"), &object]));
    println!("cargo::rustc-link-search=native={}", out.display());
}

fn main() {
    let folder = |name| PathBuf::from(env::var_os(name).expect("cargo sets it"));
    compile(&folder("CARGO_MANIFEST_DIR").join(".."), &folder("OUT_DIR"));
    for name in COUNTED {
        println!("cargo::rustc-link-arg-bin=bench=-Wl,--export-dynamic-symbol={name}");
    }
}
