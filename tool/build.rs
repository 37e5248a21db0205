//! Tells the tool which archive it is linked with, and which toolchain was at hand.

use std::path::{Path, PathBuf};
use std::process::{exit, Command};
use std::{env, fs};

use sha2::{Digest, Sha256};

fn main() {
    println!("cargo:rerun-if-changed=build.rs");
    println!("cargo:rerun-if-env-changed=PATH");
    // From the binding's build script.
    let Some(archive) = env::var_os("DEP_TERMINAL_ARCHIVE").map(PathBuf::from) else {
        stop("DEP_TERMINAL_ARCHIVE is not set: the crate tillerclover did not say which archive it links".into());
    };
    println!("cargo:rerun-if-changed={}", archive.display());
    println!("cargo:rustc-env=TILLERCLOVER_ARCHIVE_SHA256={}", sum(&archive));
    println!("cargo:rustc-env=TILLERCLOVER_TOOLCHAIN={}", toolchain());
}

fn sum(archive: &Path) -> String {
    match fs::read(archive) {
        Ok(bytes) => Sha256::digest(bytes).iter().map(|byte| format!("{byte:02x}")).collect(),
        Err(error) => stop(format!("{}: cannot be read: {error}", archive.display())),
    }
}

/// The archive carries no mark of its toolchain, so this is the one on the path.
fn toolchain() -> String {
    let said = Command::new("rt").arg("version").output().ok().filter(|done| done.status.success());
    let line = said.and_then(|done| String::from_utf8(done.stdout).ok());
    let line = line.as_deref().and_then(|text| text.lines().next()).unwrap_or_default().trim();
    match line {
        "" => "unknown: rt was not on the path when this was built".into(),
        line => line.into(),
    }
}

fn stop(message: String) -> ! {
    eprintln!("{message}");
    exit(1);
}
