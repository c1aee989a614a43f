//! Links the static library of the proved code, from OBRISKA_LIB_DIR if that is set, and names the program, which is run: the one that
//! OBRISKA_PROGRAM names if that is set. What is not named is proved and built here.

use std::env;
use std::fs::{self, File};
use std::path::{Path, PathBuf};
use std::process::{Command, Stdio};

fn main() {
    let root = Path::new(env!("CARGO_MANIFEST_DIR")).join("../..");
    println!("cargo:rerun-if-env-changed=OBRISKA_LIB_DIR");
    println!("cargo:rerun-if-env-changed=OBRISKA_PROGRAM");
    if let Some(directory) = env::var_os("OBRISKA_LIB_DIR") {
        link(Path::new(&directory), "obriska");
    } else {
        rt(&root.join("crates/broker_c"), &["lib", "--cpu", "x86-64"], Stdio::null());
        link(&root.join("crates/broker_c/out"), "broker_c");
    }
    let program = env::var_os("OBRISKA_PROGRAM").map_or_else(|| built(&root), PathBuf::from);
    println!("cargo:rerun-if-changed={}", program.display());
    println!("cargo:rustc-env=OBRISKA_PROGRAM={}", program.display());
    sources(&root);
}

/// Builds the program, which plays the first minute, and says where `rt run` leaves it.
fn built(root: &Path) -> PathBuf {
    let folder = root.join("crates/obriska");
    let minute = File::open(folder.join("stdin")).expect("the first minute is there");
    rt(&folder, &["run"], minute.into());
    folder.join("out/obriska")
}

fn rt(folder: &Path, words: &[&str], input: Stdio) {
    let ran = Command::new("rt")
        .args(words)
        .current_dir(folder)
        .stdin(input)
        .stdout(Stdio::null())
        .status();
    let words = words.join(" ");
    assert!(
        ran.is_ok_and(|status| status.success()),
        "`rt {words}` failed in {}",
        folder.display()
    );
}

fn link(directory: &Path, library: &str) {
    println!("cargo:rerun-if-changed={}", directory.join(format!("lib{library}.a")).display());
    println!("cargo:rustc-link-search=native={}", directory.display());
    println!("cargo:rustc-link-lib=static={library}");
}

/// What rt proves is read again where it changes; what rt writes into a crate's folder out/ is not.
fn sources(root: &Path) {
    println!("cargo:rerun-if-changed={}", root.join("crates.txt").display());
    for folder in fs::read_dir(root.join("crates")).expect("the crates are there") {
        let folder = folder.expect("a crate's folder").path();
        for part in ["src", "specs", "proofs"].map(|part| folder.join(part)) {
            if part.is_dir() {
                println!("cargo:rerun-if-changed={}", part.display());
            }
        }
    }
}
