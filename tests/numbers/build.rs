//! Links the libraries that `make bench-numbers` builds.

use std::env;

fn main() {
    println!("cargo:rerun-if-env-changed=OBRISKA_LIB_DIR");
    let directory = env::var("OBRISKA_LIB_DIR").expect("run by `make bench-numbers`");
    println!("cargo:rustc-link-search=native={directory}");
    for library in ["bench_numbers", "obriska", "before_bench_numbers", "before_obriska"] {
        println!("cargo:rerun-if-changed={directory}/lib{library}.a");
        println!("cargo:rustc-link-lib=static={library}");
    }
}
