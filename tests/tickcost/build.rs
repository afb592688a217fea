//! Compiles the bare governor twice, with -O2 and with -O3, each copy under names of its own.

use std::env;
use std::path::Path;
use std::process::Command;

const NAMES: [&str; 3] = ["bare_start", "bare_tick", "bare_move_on"];

fn main() {
    for file in ["build.rs", "bare.c", "bare.h"] {
        println!("cargo:rerun-if-changed={file}");
    }
    println!("cargo:rerun-if-env-changed=CC");
    let folder = env::var("OUT_DIR").expect("cargo sets OUT_DIR");
    for level in ["O2", "O3"] {
        let object = Path::new(&folder).join(format!("bare-{level}.o"));
        compile(level, &object);
        println!("cargo:rustc-link-arg-bins={}", object.display());
    }
}

/// Compiles bare.c at one level, its functions named after it.
fn compile(level: &str, object: &Path) {
    let compiler = env::var("CC").unwrap_or("cc".to_string());
    let mut command = Command::new(&compiler);
    command.args(["-std=c11", "-Wall", "-Wextra", "-Wpedantic", "-Wconversion"]);
    command.arg(format!("-{level}"));
    for name in NAMES {
        command.arg(format!("-D{name}={name}_{level}"));
    }
    command.args(["-c", "bare.c", "-o"]).arg(object);
    let status = command.status();
    assert!(
        status.is_ok_and(|status| status.success()),
        "{compiler} does not compile bare.c"
    );
}
