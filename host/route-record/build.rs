//! Links the static library that the proved crate `route_c` is built into. It is looked for in the
//! folder that the variable `ROUTE_RECORD_LIB_DIR` names, else where the repository builds it.

use std::env;
use std::path::PathBuf;
use std::process::exit;

const FOLDER: &str = "ROUTE_RECORD_LIB_DIR";

fn main() {
    let target = env::var("TARGET").expect("Cargo sets TARGET");
    if !target.starts_with("x86_64-") || !target.contains("-linux-") || target.ends_with("x32") {
        eprintln!("route-record: the proved library is for 64-bit x86-64 Linux, not for {target}");
        exit(1);
    }
    println!("cargo:rerun-if-env-changed={FOLDER}");
    let built = concat!(env!("CARGO_MANIFEST_DIR"), "/../../crates/route_c/out");
    let folder = env::var_os(FOLDER).map_or(PathBuf::from(built), PathBuf::from);
    let archive = folder.join("libroute_c.a");
    println!("cargo:rerun-if-changed={}", archive.display());
    // A check or the documentation needs no archive, so only linking fails without one.
    if !archive.is_file() {
        println!(
            "cargo:warning=nothing links without {}: `rt lib --cpu x86-64`, run in the \
             repository's folder crates/route_c, builds it, and {FOLDER} names another folder for it",
            archive.display()
        );
    }
    println!("cargo:rustc-link-search=native={}", folder.display());
    println!("cargo:rustc-link-lib=static=route_c");
}
