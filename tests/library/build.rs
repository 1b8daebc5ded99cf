//! Links libcuorfelt.a from the folder that CUORFELT_LIB names, or from the
//! one that `sh archives` writes to.

use std::path::PathBuf;

fn main() {
    let here = PathBuf::from(std::env::var("CARGO_MANIFEST_DIR").expect("cargo names the package"));
    let folder = match std::env::var("CUORFELT_LIB") {
        Ok(named) => PathBuf::from(named),
        Err(_) => here.join("../../target/staticlib"),
    };
    println!("cargo:rerun-if-env-changed=CUORFELT_LIB");
    println!(
        "cargo:rerun-if-changed={}",
        folder.join("libcuorfelt.a").display()
    );
    println!("cargo:rustc-link-search=native={}", folder.display());
    println!("cargo:rustc-link-lib=static=cuorfelt");
}
