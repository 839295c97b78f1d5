//! Finds the proved archive libfms.a and links it.

use std::path::{Path, PathBuf};
use std::{env, fs, process};

/// The archive that FMS_LIB names, itself or by its folder; else the one the repository makes for this machine.
fn archive(top: &Path) -> PathBuf {
    if let Some(named) = env::var_os("FMS_LIB") {
        let named = PathBuf::from(named);
        return if named.is_dir() {
            named.join("libfms.a")
        } else {
            named
        };
    }
    if env::var("CARGO_CFG_TARGET_ARCH").as_deref() == Ok("x86_64") {
        top.join("target/staticlib/libfms.a")
    } else {
        top.join("target/native/libfms.a")
    }
}

fn main() {
    let top = Path::new(env!("CARGO_MANIFEST_DIR")).join("..");
    let out = PathBuf::from(env::var_os("OUT_DIR").expect("cargo sets OUT_DIR"));
    let archive = archive(&top);
    println!("cargo:rerun-if-env-changed=FMS_LIB");
    println!("cargo:rerun-if-changed=build.rs");
    println!("cargo:rerun-if-changed={}", archive.display());
    if let Err(error) = fs::copy(&archive, out.join("libfms.a")) {
        eprintln!(
            "There is no proved library at {} ({error}): run `tools/staticlib` at the top of the repository, \
             or `bench/native-lib` on a machine that is not x86-64, or set FMS_LIB to the archive.",
            archive.display()
        );
        process::exit(1);
    }
    println!("cargo:rustc-link-search=native={}", out.display());
    println!("cargo:rustc-link-lib=static=fms");
}
