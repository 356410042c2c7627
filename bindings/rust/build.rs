//! Finds the static library and links it.

use std::env;
use std::path::PathBuf;

fn main() {
    println!("cargo::rerun-if-env-changed=VARITMOL_LIB_DIR");
    let target = env::var("TARGET").unwrap_or_default();
    if !(target.starts_with("x86_64-") && target.contains("linux")) {
        println!("cargo::error=Varitmol's library is for x86-64 Linux, not for {target}");
        return;
    }
    let here = PathBuf::from(env::var_os("CARGO_MANIFEST_DIR").unwrap_or_default());
    let folder = match env::var_os("VARITMOL_LIB_DIR") {
        Some(named) => PathBuf::from(named),
        None => here.join("../../crates/varitmol/out"),
    };
    let archive = folder.join("libvaritmol.a");
    println!("cargo::rerun-if-changed={}", archive.display());
    if !archive.is_file() {
        println!(
            "cargo::error=there is no {}: run `rt lib` in crates/varitmol, or let VARITMOL_LIB_DIR name the folder of libvaritmol.a",
            archive.display()
        );
        return;
    }
    println!("cargo::rustc-link-search=native={}", folder.display());
    println!("cargo::rustc-link-lib=static=varitmol");
}
