//! Links the archive that `capi/archive` wrote; DOJISUN_ARCHIVE names another folder that holds libcapi.a.

use std::path::PathBuf;

fn main() {
    let here = PathBuf::from(std::env::var("CARGO_MANIFEST_DIR").unwrap());
    let folder = match std::env::var("DOJISUN_ARCHIVE") {
        Ok(folder) => PathBuf::from(folder),
        Err(_) => here.join("../target/staticlib"),
    };
    let archive = folder.join("libcapi.a");
    if !archive.exists() {
        panic!("no {}: run `capi/archive` first", archive.display());
    }
    println!("cargo:rustc-link-search=native={}", folder.display());
    println!("cargo:rustc-link-lib=static=capi");
    println!("cargo:rerun-if-changed={}", archive.display());
    println!("cargo:rerun-if-env-changed=DOJISUN_ARCHIVE");
}
