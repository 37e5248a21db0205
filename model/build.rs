//! With the feature `yardstick`, compiles bench/yardstick.c for `bench`: the library's work in C by
//! hand. Without it there is nothing to do.

use std::env;
use std::path::PathBuf;
use std::process::Command;

fn main() {
    println!("cargo:rerun-if-changed=build.rs");
    if env::var_os("CARGO_FEATURE_YARDSTICK").is_some() {
        yardstick();
    }
}

/// Optimised as the library is, whatever cargo's profile.
fn yardstick() {
    let folder = PathBuf::from(env::var_os("OUT_DIR").expect("cargo sets OUT_DIR"));
    let (object, archive) = (folder.join("yardstick.o"), folder.join("libyardstick.a"));
    println!("cargo:rerun-if-env-changed=CC");
    for place in ["../bench/yardstick.c", "../bench/yardstick", "../include"] {
        println!("cargo:rerun-if-changed={place}");
    }
    let mut compile = Command::new(env::var_os("CC").unwrap_or("cc".into()));
    compile.args(["-std=c11", "-O3", "-march=x86-64", "-Wall", "-Wextra", "-Werror", "-fPIC", "-I../include"]);
    run(compile.args(["-c", "../bench/yardstick.c", "-o"]).arg(&object));
    run(Command::new("ar").arg("crs").arg(&archive).arg(&object));
    println!("cargo:rustc-link-search=native={}", folder.display());
    println!("cargo:rustc-link-lib=static=yardstick");
}

fn run(command: &mut Command) {
    let done = command.status();
    assert!(done.as_ref().is_ok_and(|status| status.success()), "{command:?}: {done:?}");
}
