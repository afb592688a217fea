//! Tells the linker where the static library is: `PISZCZALIN_LIB`, or the folder that `bash tests/make piszczalin` writes.
use std::env;
use std::path::PathBuf;

// The folder of the library.
fn folder() -> PathBuf {
    println!("cargo:rerun-if-env-changed=PISZCZALIN_LIB");
    match env::var_os("PISZCZALIN_LIB") {
        Some(folder) => PathBuf::from(folder),
        None => PathBuf::from(env::var_os("CARGO_MANIFEST_DIR").expect("cargo sets it"))
            .join("../target/staticlib"),
    }
}

// Whether the target is the one that the library is compiled for. Elsewhere the crate can be checked, and its structs
// used; a program that makes a call does not link.
fn linkable() -> bool {
    let is = |name: &str, value: &str| env::var(name).is_ok_and(|found| found == value);
    is("CARGO_CFG_TARGET_ARCH", "x86_64") && is("CARGO_CFG_TARGET_OS", "linux")
}

fn main() {
    println!("cargo:rerun-if-changed=build.rs");
    let folder = folder();
    if linkable() {
        println!(
            "cargo:rerun-if-changed={}",
            folder.join("libpiszczalin.a").display()
        );
        if !folder.is_absolute() || !folder.join("libpiszczalin.a").exists() {
            println!("cargo:warning=libpiszczalin.a is not in {}: `bash tests/make piszczalin` makes it, and PISZCZALIN_LIB is the whole path of its folder", folder.display());
        }
        println!("cargo:rustc-link-search=native={}", folder.display());
        println!("cargo:rustc-link-lib=static=piszczalin");
    }
}
