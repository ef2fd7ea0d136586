//! Links the archive of the proved cell, or says what is missing.
use std::path::PathBuf;
use std::{env, process};

/// The one target that there is an archive for.
const TARGET: &str = "x86_64-unknown-linux-gnu";

/// The archive's name, without `lib` and `.a`.
const ARCHIVE: &str = "task_exports";

/// Ends the build with a message.
fn refuse(message: &str) -> ! {
    eprintln!("error: async-task over the proved cell: {message}");
    process::exit(1)
}

fn main() {
    let target = env::var("TARGET").unwrap_or_default();
    if target != TARGET {
        refuse(&format!("the archive is for {TARGET}, and not for {target}"));
    }
    let package = PathBuf::from(env::var_os("CARGO_MANIFEST_DIR").unwrap_or_default());
    let folder = package.join("lib").join(TARGET);
    let archive = folder.join(format!("lib{ARCHIVE}.a"));
    if !archive.is_file() {
        refuse(&format!("{} is missing; rust/archive makes it", archive.display()));
    }
    println!("cargo:rerun-if-changed={}", archive.display());
    println!("cargo:rustc-link-search=native={}", folder.display());
    println!("cargo:rustc-link-lib=static={ARCHIVE}");
}
