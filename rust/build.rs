//! Finds the static library `libdesk.a`: in the folder that OBOLCHIME_LIB_DIR names, or where `bridge/library` writes it.

use std::env;
use std::path::PathBuf;

fn main() {
    println!("cargo:rerun-if-env-changed=OBOLCHIME_LIB_DIR");
    let of_target = |name: &str| env::var(name).expect("cargo sets it");
    let is = |name: &str, value: &str| of_target(name) == value;
    // x32 is x86-64 too, with pointers of 32 bits
    if !(is("CARGO_CFG_TARGET_ARCH", "x86_64") && is("CARGO_CFG_TARGET_OS", "linux") && is("CARGO_CFG_TARGET_POINTER_WIDTH", "64")) {
        // said here, since the linker would take a page for it
        eprintln!("libdesk.a is for x86-64 Linux and not for {}: build with `--target x86_64-unknown-linux-gnu`", of_target("TARGET"));
        std::process::exit(1);
    }
    let folder = match env::var_os("OBOLCHIME_LIB_DIR") {
        Some(folder) => PathBuf::from(folder),
        None => PathBuf::from(env::var_os("CARGO_MANIFEST_DIR").expect("cargo sets it")).join("../target/staticlib"),
    };
    let library = folder.join("libdesk.a");
    println!("cargo:rerun-if-changed={}", library.display());
    if !library.is_file() {
        eprintln!("{} is not there: run `bridge/library` at the root of the repository,", library.display());
        eprintln!("or set OBOLCHIME_LIB_DIR to the folder that holds libdesk.a");
        std::process::exit(1);
    }
    println!("cargo:rustc-link-search=native={}", folder.display());
    println!("cargo:rustc-link-lib=static=desk");
}
