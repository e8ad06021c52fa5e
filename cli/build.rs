//! Notes which commit and which kit the program is built of.

use std::{path::Path, process::Command};

fn main() {
    println!("cargo:rerun-if-changed=build.rs");
    for name in ["../.git/HEAD", "../.git/index", "../.git/packed-refs", "../.git/refs/tags"] {
        if Path::new(name).exists() {
            println!("cargo:rerun-if-changed={name}");
        }
    }
    let commit = said("git", &["describe", "--always", "--tags", "--dirty", "--abbrev=12"]);
    println!("cargo:rustc-env=ARRAYMAP_COMMIT={commit}");
    println!("cargo:rustc-env=ARRAYMAP_KIT={}", said("rt", &["version"]));
}

/// The first line that a program prints; nothing where it is not there or fails.
fn said(program: &str, words: &[&str]) -> String {
    match Command::new(program).args(words).output() {
        Ok(run) if run.status.success() => String::from_utf8_lossy(&run.stdout).lines().next().unwrap_or("").into(),
        _ => String::new(),
    }
}
