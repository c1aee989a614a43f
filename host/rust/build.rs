//! Links libobriska.a: from OBRISKA_LIB_DIR if that is set, else built here by `rt lib`.
//! The codec alone needs none.

use std::path::{Path, PathBuf};
use std::process::Command;
use std::{env, fs};

fn main() {
    println!("cargo:rerun-if-env-changed=OBRISKA_LIB_DIR");
    if env::var_os("CARGO_FEATURE_STD").is_none() {
        return;
    }
    let directory = match env::var_os("OBRISKA_LIB_DIR") {
        Some(directory) => given(Path::new(&directory)),
        None => built(),
    };
    println!("cargo:rustc-link-search=native={}", directory.display());
    println!("cargo:rustc-link-lib=static=obriska");
}

/// The directory with the library. A relative one is looked for from this package, from where cargo
/// was called and from the repository's root.
fn given(directory: &Path) -> PathBuf {
    let package = Path::new(env!("CARGO_MANIFEST_DIR"));
    let mut places = vec![package.join(directory)];
    if directory.is_relative() {
        println!("cargo:rerun-if-env-changed=PWD");
        places.extend(env::var_os("PWD").map(|called| Path::new(&called).join(directory)));
        places.push(package.join("../..").join(directory));
    }
    let found = places.iter().find(|place| place.join("libobriska.a").is_file());
    let Some(found) = found else {
        panic!("OBRISKA_LIB_DIR: there is no libobriska.a in {places:?}");
    };
    println!("cargo:rerun-if-changed={}", found.join("libobriska.a").display());
    found.clone()
}

/// Proves and compiles the broker; rt's own name for the library is libbroker_c.a.
fn built() -> PathBuf {
    let root = Path::new(env!("CARGO_MANIFEST_DIR")).join("../..");
    sources(&root);
    let exports = root.join("crates/broker_c");
    let status = Command::new("rt").args(["lib", "--cpu", "x86-64"]).current_dir(&exports).status();
    assert!(status.is_ok_and(|status| status.success()), "`rt lib` failed in crates/broker_c");
    let directory = PathBuf::from(env::var_os("OUT_DIR").expect("cargo sets OUT_DIR"));
    fs::copy(exports.join("out/libbroker_c.a"), directory.join("libobriska.a"))
        .expect("the library can be copied");
    directory
}

/// What rt proves is read again where it changes; what rt writes into a crate's folder out/ is not.
fn sources(root: &Path) {
    println!("cargo:rerun-if-changed={}", root.join("crates.txt").display());
    for folder in fs::read_dir(root.join("crates")).expect("the crates are there") {
        let folder = folder.expect("a crate's folder").path();
        for part in ["src", "specs", "proofs"].map(|part| folder.join(part)) {
            if part.is_dir() {
                println!("cargo:rerun-if-changed={}", part.display());
            }
        }
    }
}
