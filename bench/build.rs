//! Links each of the two delivered libraries into its own program of this package, and both with
//! the C sources beside this file.

use std::env;
use std::path::PathBuf;
use std::process::Command;

fn main() {
    seal::link(
        "conformity",
        &[
            "conformity_append",
            "conformity_append_sized",
            "conformity_convert",
            "conformity_finding",
            "conformity_report",
            "conformity_report_sized",
        ],
        "bench",
    );
    seal::link("probe", &["probe_logarithm"], "bench_logarithm");
    compile("doubles", "bench");
    compile("memory", "bench");
    println!("cargo:rustc-link-arg-bins=-lm");
}

/// The flags are those that `bench/run` states.
fn compile(name: &str, program: &str) {
    let source = format!("{name}.c");
    let object =
        PathBuf::from(env::var_os("OUT_DIR").expect("set by cargo")).join(format!("{name}.o"));
    let mut gcc = Command::new("gcc");
    gcc.args([
        "-std=c11",
        "-O2",
        "-D_GNU_SOURCE",
        "-Wall",
        "-Wextra",
        "-c",
        &source,
        "-o",
    ]);
    let status = gcc.arg(&object).status().expect("gcc is installed");
    assert!(status.success(), "{source} does not compile");
    println!("cargo:rerun-if-changed={source}");
    println!("cargo:rustc-link-arg-bin={program}={}", object.display());
}
