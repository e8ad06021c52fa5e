//! Has `rt` prove the call and write the static library, whenever a source or the kit has changed: `rt` proves what is not proved, and no archive is linked
//! that is older than its sources. ARRAYMAP_LIB_DIR names the folder of an archive that is taken as it is.

use std::{
    env,
    path::{Path, PathBuf},
    process::Command,
};

fn main() {
    println!("cargo:rerun-if-env-changed=ARRAYMAP_LIB_DIR");
    println!("cargo:rerun-if-changed=build.rs");
    let folder = match env::var_os("ARRAYMAP_LIB_DIR") {
        Some(folder) => given(PathBuf::from(folder)),
        None => proved(),
    };
    println!("cargo:rustc-link-search=native={}", folder.display());
    println!("cargo:rustc-link-lib=static=arraymap");
}

/// A folder with an archive, which is taken as it is.
fn given(folder: PathBuf) -> PathBuf {
    let library = folder.join("libarraymap.a");
    assert!(library.exists(), "there is no {}: ARRAYMAP_LIB_DIR names the folder of libarraymap.a", library.display());
    println!("cargo:rerun-if-changed={}", library.display());
    folder
}

/// The folder where `rt lib` writes the archive, for the sources as they are.
fn proved() -> PathBuf {
    let root = Path::new(&env::var_os("CARGO_MANIFEST_DIR").expect("cargo sets it")).join("../..");
    let root = root.canonicalize().expect("the repository");
    println!("cargo:rerun-if-env-changed=PATH");
    println!("cargo:rerun-if-changed={}", root.join("crates.txt").display());
    // Not `out`, which `rt` writes.
    for krate in root.join("crates").read_dir().expect("the repository's crates").flatten() {
        for part in ["src", "specs", "proofs"].map(|part| krate.path().join(part)) {
            if part.exists() {
                println!("cargo:rerun-if-changed={}", part.display());
            }
        }
    }
    if let Some(kit) = kit() {
        println!("cargo:rerun-if-changed={}", kit.display());
    }
    let library = root.join("crates/arraymap");
    // What it prints is cargo's to show: with -vv as it comes, and else where it fails.
    let status = Command::new("rt").arg("lib").current_dir(&library).status();
    let status = status.unwrap_or_else(|error| {
        panic!("`rt lib` cannot be run: {error}; it proves the library, or ARRAYMAP_LIB_DIR names the folder of one")
    });
    assert!(status.success(), "`rt lib` failed in crates/arraymap: the library is not proved, and nothing is built of it");
    library.join("out")
}

/// The program `rt` that the path leads to.
fn kit() -> Option<PathBuf> {
    let folders = env::var_os("PATH")?;
    let found = env::split_paths(&folders).map(|folder| folder.join("rt")).find(|program| program.is_file())?;
    found.canonicalize().ok()
}
