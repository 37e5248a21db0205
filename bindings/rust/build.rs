//! Finds the library's archive and links it: the one that TILLERCLOVER_LIB names, or
//! the one of the repository around this crate.

use std::env;
use std::ffi::{OsStr, OsString};
use std::path::{Path, PathBuf};
use std::process::exit;

/// The archive's names: in the repository, and where `make install` put it.
const LIBRARIES: [&str; 2] = ["libterminal.a", "libtillerclover.a"];

fn main() {
    println!("cargo:rerun-if-changed=build.rs");
    println!("cargo:rerun-if-env-changed=TILLERCLOVER_LIB");
    let here = PathBuf::from(variable("CARGO_MANIFEST_DIR"));
    let file = archive(&here);
    println!("cargo:rerun-if-changed={}", file.display());
    println!("cargo:rustc-link-search=native={}", file.with_file_name("").display());
    println!("cargo:rustc-link-lib=static={}", stem(&file));
    // For the build scripts of crates that use this one: DEP_TERMINAL_ARCHIVE.
    println!("cargo:archive={}", file.display());
}

/// The archive that TILLERCLOVER_LIB names, itself or by its folder; otherwise the one of the repository around this crate.
fn archive(here: &Path) -> PathBuf {
    let mut file = match env::var_os("TILLERCLOVER_LIB") {
        Some(given) => PathBuf::from(given),
        None => here.join("../../target/staticlib"),
    };
    let [first, second] = LIBRARIES;
    if !file.is_file() {
        let name = LIBRARIES.into_iter().find(|name| file.join(name).is_file());
        file.push(name.unwrap_or(first));
    }
    if !LIBRARIES.into_iter().any(|name| file.file_name() == Some(OsStr::new(name))) {
        stop(format!("{}: TILLERCLOVER_LIB names {first} or {second}, or the folder that holds it", file.display()));
    }
    file.canonicalize().unwrap_or_else(|_| {
        stop(format!(
            "{} is not there. Build it with `packaging/library.sh` at the repository's root, \
             or name the folder that holds it, or an installed {second}, in TILLERCLOVER_LIB.",
            file.display()
        ))
    })
}

/// What the linker calls the archive: its name without `lib` and `.a`.
fn stem(file: &Path) -> String {
    let name = file.file_stem().unwrap_or_default().to_string_lossy();
    name.strip_prefix("lib").unwrap_or(&name).into()
}

/// A variable that cargo sets for build scripts.
fn variable(name: &str) -> OsString {
    env::var_os(name).unwrap_or_else(|| stop(format!("{name} is not set: this build script is for cargo to run")))
}

fn stop(message: String) -> ! {
    eprintln!("{message}");
    exit(1);
}
