//! For build scripts: links one of the delivered static libraries into a Rust program. The
//! archive may carry a runtime of its own, whose symbols would clash with those of the program,
//! so its members are joined into one object in which only the C names asked for stay visible.

use std::env;
use std::path::{Path, PathBuf};
use std::process::Command;

/// Links `lib<name>.a` into a program of the package being built, by these symbols alone. The
/// archive lies in the folder CONFORMITY_LIB_DIR, or else in the repository's `target/staticlib`.
pub fn link(name: &str, symbols: &[&str], program: &str) {
    let archive = library_folder().join(format!("lib{name}.a"));
    println!("cargo:rerun-if-env-changed=CONFORMITY_LIB_DIR");
    println!("cargo:rerun-if-changed={}", archive.display());
    let out = PathBuf::from(env::var_os("OUT_DIR").expect("set by cargo"));
    let object = out.join(format!("{name}_for_{program}.o"));
    join_members(&archive, &object, symbols);
    hide_all_but(&object, symbols);
    println!("cargo:rustc-link-arg-bin={program}={}", object.display());
}

fn library_folder() -> PathBuf {
    match env::var_os("CONFORMITY_LIB_DIR") {
        Some(folder) => folder.into(),
        None => Path::new(env!("CARGO_MANIFEST_DIR")).join("../../target/staticlib"),
    }
}

/// Only the members that the symbols need are taken. Section groups are dissolved, or the linker
/// would drop some of them as copies of the program's own.
fn join_members(archive: &Path, object: &Path, symbols: &[&str]) {
    let mut ld = Command::new("ld");
    ld.args(["-r", "--force-group-allocation", "-o"])
        .arg(object);
    ld.args(
        symbols
            .iter()
            .map(|symbol| format!("--require-defined={symbol}")),
    );
    run(ld.arg(archive));
}

fn hide_all_but(object: &Path, symbols: &[&str]) {
    let mut objcopy = Command::new("objcopy");
    objcopy.args(
        symbols
            .iter()
            .map(|symbol| format!("--keep-global-symbol={symbol}")),
    );
    run(objcopy.arg(object));
}

fn run(command: &mut Command) {
    let status = command.status().expect("binutils are installed");
    assert!(status.success(), "{command:?} failed");
}
