//! Links what is timed beside the fast Rust: the library's archive for this machine, target/bench/libcollector.a, which
//! bench/native writes, and the COBOL programs, if MORVENKA_COBC names GnuCOBOL's compiler.

mod cobol;
#[path = "../src/layouts.rs"]
mod layouts;
mod pictures;

use std::env;
use std::path::PathBuf;
use std::process::Command;

fn main() {
    let folder = concat!(env!("CARGO_MANIFEST_DIR"), "/../target/bench");
    println!("cargo:rerun-if-changed=build");
    println!("cargo:rerun-if-changed=src/layouts.rs");
    println!("cargo:rerun-if-changed={folder}/libcollector.a");
    println!("cargo:rerun-if-env-changed=MORVENKA_COBC");
    println!("cargo:rustc-check-cfg=cfg(cobol)");
    println!("cargo:rustc-link-search=native={folder}");
    println!("cargo:rustc-link-lib=static=collector");
    if let Some(cobc) = env::var("MORVENKA_COBC").ok().filter(|cobc| !cobc.is_empty()) {
        println!("cargo:rustc-cfg=cobol");
        layouts::SIZES.iter().for_each(|&fields| link_moves(&cobc, fields));
        println!("cargo:rustc-link-arg=-lcob");
    }
}

/// Writes, compiles and links the programs of one size.
fn link_moves(cobc: &str, fields: usize) {
    let folder = PathBuf::from(env::var("OUT_DIR").expect("cargo sets it"));
    let (source, object) = (format!("moves_{fields}.cob"), format!("moves_{fields}.o"));
    std::fs::write(folder.join(&source), cobol::programs(fields)).expect("the folder is there");
    let status = Command::new(cobc).args(["-free", "-c", "-O2", "-o", &object, &source]).current_dir(&folder).status();
    assert!(status.is_ok_and(|status| status.success()), "cobc can't compile {source}");
    println!("cargo:rustc-link-arg={}", folder.join(object).display());
}
