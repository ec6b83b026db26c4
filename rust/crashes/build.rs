//! Compiles the layer in C, as it is and with one line changed for each slip that the tests must
//! catch. In every object the system's functions get names of this crate (`src/shim.rs`), so that
//! what runs is the object code itself.

use std::env;
use std::fs;
use std::path::{Path, PathBuf};
use std::process::Command;

const SOURCE: &str = "../../c/lane_file.c";
const HEADERS: &str = "../../include";

/// Functions of the system, which `src/shim.rs` defines with `crash_` before their names.
const SYSTEM: [&str; 19] = [
    "close",
    "fdatasync",
    "flock",
    "fstat",
    "fstatfs",
    "fsync",
    "ftruncate",
    "lseek",
    "madvise",
    "mmap",
    "munmap",
    "open",
    "posix_fadvise",
    "pread",
    "pwrite",
    "stat",
    "statx",
    "syscall",
    "unlink",
];

/// Functions that touch memory and nothing else, and are left as they are.
const PLAIN: [&str; 10] = [
    "__errno_location",
    "free",
    "memcmp",
    "memcpy",
    "memset",
    "posix_memalign",
    "snprintf",
    "strndup",
    "strrchr",
    "strtoul",
];

/// A line that occurs once, and what stands in its place.
struct Slip {
    name: &'static str,
    line: &'static str,
    instead: &'static str,
}

include!("edits.rs");

fn main() {
    println!("cargo::rerun-if-changed=build.rs");
    println!("cargo::rerun-if-changed=edits.rs");
    println!("cargo::rerun-if-changed={SOURCE}");
    println!("cargo::rerun-if-changed={HEADERS}");
    if let Err(what) = builds() {
        println!("cargo::error={what}");
    }
}

fn builds() -> Result<(), String> {
    let out = PathBuf::from(env::var_os("OUT_DIR").expect("cargo sets it"));
    let source = fs::read_to_string(SOURCE).map_err(|why| format!("{SOURCE}: {why}"))?;
    let mut objects = vec![object(&out, Path::new(SOURCE), "shipped", "-O2")?];
    let mut names = String::from("build!(SHIPPED, \"shipped_\");\n");
    for slip in &SLIPS {
        let copy = out.join(format!("{}.c", slip.name));
        fs::write(&copy, changed(&source, slip)?).map_err(|why| why.to_string())?;
        objects.push(object(&out, &copy, slip.name, "-O1")?);
        let name = slip.name.to_uppercase();
        names += &format!("#[cfg(test)]\nbuild!({name}, \"{}_\");\n", slip.name);
    }
    fs::write(out.join("builds.rs"), names).map_err(|why| why.to_string())?;
    archive(&out, &objects)
}

/// The source with one line changed.
fn changed(source: &str, slip: &Slip) -> Result<String, String> {
    let found = source.lines().filter(|line| line.trim() == slip.line);
    if found.count() != 1 {
        return Err(format!(
            "slip {}: the line `{}` is to occur once in {SOURCE}",
            slip.name, slip.line
        ));
    }
    let lines = source.lines().map(|line| match line.trim() == slip.line {
        true => slip.instead,
        false => line,
    });
    Ok(lines.collect::<Vec<&str>>().join("\n") + "\n")
}

/// Compiles and renames: the layer's calls begin with the build's name, the system's with `crash_`.
fn object(out: &Path, source: &Path, name: &str, level: &str) -> Result<PathBuf, String> {
    let object = out.join(format!("{name}.o"));
    let mut gcc = Command::new("gcc");
    gcc.args(["-std=c11", level, "-fPIE", "-w", "-I", HEADERS, "-c"]);
    run(gcc.arg(source).arg("-o").arg(&object))?;
    let mut objcopy = Command::new("objcopy");
    for symbol in symbols(&object, "--undefined-only")? {
        if SYSTEM.contains(&symbol.as_str()) {
            objcopy.arg(format!("--redefine-sym={symbol}=crash_{symbol}"));
        } else if !PLAIN.contains(&symbol.as_str()) && !symbol.starts_with("lane_") {
            return Err(format!(
                "{SOURCE} calls {symbol}, which the shim does not know"
            ));
        }
    }
    for symbol in symbols(&object, "--defined-only")? {
        objcopy.arg(format!("--redefine-sym={symbol}={name}_{symbol}"));
    }
    run(objcopy.arg(&object))?;
    Ok(object)
}

/// The global symbols of an object.
fn symbols(object: &Path, which: &str) -> Result<Vec<String>, String> {
    let mut nm = Command::new("nm");
    let told = run(nm.args(["-g", "-j", which]).arg(object))?;
    Ok(told.lines().map(str::to_string).collect())
}

fn archive(out: &Path, objects: &[PathBuf]) -> Result<(), String> {
    let library = out.join("libbuilds.a");
    let _ = fs::remove_file(&library);
    run(Command::new("ar").arg("rcs").arg(&library).args(objects))?;
    println!("cargo::rustc-link-search=native={}", out.display());
    println!("cargo::rustc-link-lib=static=builds");
    Ok(())
}

/// What a command prints; an error if it fails.
fn run(command: &mut Command) -> Result<String, String> {
    let name = command.get_program().to_string_lossy().into_owned();
    let output = command.output().map_err(|why| format!("{name}: {why}"))?;
    if !output.status.success() {
        let said = String::from_utf8_lossy(&output.stderr).replace('\n', "; ");
        return Err(format!("{name} fails: {said}"));
    }
    Ok(String::from_utf8_lossy(&output.stdout).into_owned())
}
