//! Links libpaxidore: from the folder that PAXIDORE_LIB_DIR names, else from lib/ARCHITECTURE-SYSTEM of this crate, where a package
//! has it, else from out/lib of the repository, where tools/build-library puts it, else as the linker finds it.

use std::env::var;
use std::path::PathBuf;

fn main() {
    println!("cargo:rerun-if-env-changed=PAXIDORE_LIB_DIR");
    let crate_folder = PathBuf::from(var("CARGO_MANIFEST_DIR").unwrap());
    let architecture = var("CARGO_CFG_TARGET_ARCH").unwrap();
    let system = var("CARGO_CFG_TARGET_OS").unwrap();
    let packed = crate_folder.join(format!("lib/{architecture}-{system}"));
    let own = if packed.exists() {
        packed
    } else {
        crate_folder.join("../../out/lib")
    };
    let folder = var("PAXIDORE_LIB_DIR").map_or(own, PathBuf::from);
    let archive = folder.join("libpaxidore.a");
    // a library that is built later is found then
    println!("cargo:rerun-if-changed={}", archive.display());
    println!("cargo:rustc-link-search=native={}", folder.display());
    if archive.exists() {
        println!("cargo:rustc-link-lib=static=paxidore");
    } else {
        println!("cargo:rustc-link-lib=dylib=paxidore");
    }
}
