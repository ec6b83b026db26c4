//! Links the proved library, from the folder that LANE_LIB_DIR names by its whole path, else from
//! where `c/library` puts it.

use std::env;
use std::path::PathBuf;

fn folder() -> PathBuf {
    if let Some(named) = env::var_os("LANE_LIB_DIR") {
        return PathBuf::from(named);
    }
    let manifest = env::var_os("CARGO_MANIFEST_DIR").expect("cargo sets it");
    PathBuf::from(manifest).join("../../target/staticlib")
}

fn main() {
    println!("cargo::rerun-if-env-changed=LANE_LIB_DIR");
    let folder = folder();
    if folder.is_relative() {
        println!("cargo::error=LANE_LIB_DIR is not a whole path, from the root on");
        return;
    }
    let library = folder.join("liblane.a");
    println!("cargo::rerun-if-changed={}", library.display());
    if !library.is_file() {
        println!(
            "cargo::error={} is missing: run `c/library`, or name its folder in LANE_LIB_DIR",
            library.display()
        );
        return;
    }
    println!("cargo::rustc-link-search=native={}", folder.display());
    println!("cargo::rustc-link-lib=static=lane");
}
