//! Links the static libraries that `bin/build` leaves of `libtap_c` (`liblibtap.a`), `bench_walks`,
//! `bench_commands` and `bench_values`, and the C loop `src/floor.c`.

use std::env::var;
use std::process::Command;

fn main() {
    ["libtap", "bench_walks", "bench_commands", "bench_values"].into_iter().for_each(link_library);
    link_floor();
}

fn link_library(name: &str) {
    let root = var("CARGO_MANIFEST_DIR").expect("cargo sets it");
    let folder = format!("{root}/../target/staticlib");
    println!("cargo::rerun-if-changed={folder}/lib{name}.a");
    println!("cargo::rustc-link-search=native={folder}");
    println!("cargo::rustc-link-lib=static={name}");
}

/// Compiles the loop as it stands: neither vectorised nor unrolled.
fn link_floor() {
    println!("cargo::rerun-if-changed=src/floor.c");
    println!("cargo::rerun-if-env-changed=CC");
    let object = format!("{}/floor.o", var("OUT_DIR").expect("cargo sets it"));
    let compiler = var("CC").unwrap_or("cc".to_string());
    let mut words = compiler.split_whitespace();
    let status = Command::new(words.next().expect("a compiler's name"))
        .args(words)
        .args([
            "-O2",
            "-fno-tree-vectorize",
            "-fno-unroll-loops",
            "-c",
            "src/floor.c",
            "-o",
            &object,
        ])
        .status();
    assert!(status.is_ok_and(|status| status.success()), "{compiler} does not compile src/floor.c");
    println!("cargo::rustc-link-arg={object}");
}
