//! Finds the static library `libwgsl.a`, or has it built.

use std::env;
use std::path::{Path, PathBuf};
use std::process::Command;

const VARIABLE: &str = "YOLKDAMASK_LIB";

fn main() {
    println!("cargo::rerun-if-env-changed={VARIABLE}");
    println!("cargo::rerun-if-changed=build.rs");
    match library_folder() {
        Ok(folder) => {
            println!("cargo::rustc-link-search=native={}", folder.display());
            println!("cargo::rustc-link-lib=static=wgsl");
        }
        Err(text) => println!("cargo::error={text}"),
    }
}

fn library_folder() -> Result<PathBuf, String> {
    if let Some(folder) = env::var_os(VARIABLE) {
        let library = Path::new(&folder).join("libwgsl.a");
        println!("cargo::rerun-if-changed={}", library.display());
        return match library.is_file() {
            true => Ok(folder.into()),
            false => Err(format!(
                "{VARIABLE} names {}, which has no libwgsl.a",
                folder.display()
            )),
        };
    }
    build_library()
}

// In a checkout of the whole repository, where the toolchain is there.
fn build_library() -> Result<PathBuf, String> {
    let here = env::var("CARGO_MANIFEST_DIR").map_err(|error| error.to_string())?;
    let builder = Path::new(&here).join("../build");
    let folder = PathBuf::from(env::var_os("OUT_DIR").unwrap_or_default());
    if !builder.is_file() {
        return Err(format!("set {VARIABLE} to a folder that has libwgsl.a"));
    }
    let built = Command::new(&builder).arg(&folder).output();
    match built {
        Ok(output) if output.status.success() => Ok(folder),
        Ok(output) => {
            let said = String::from_utf8_lossy(&output.stderr);
            let last = said.lines().last().unwrap_or("it said nothing");
            Err(format!(
                "set {VARIABLE} to a folder that has libwgsl.a, since {} failed: {last}",
                builder.display()
            ))
        }
        Err(error) => Err(format!(
            "{}: {error}; set {VARIABLE} to a folder that has libwgsl.a",
            builder.display()
        )),
    }
}
