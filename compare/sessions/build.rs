//! Links libleaves_c.a, which `tools/archives` writes, from ../../target/staticlib or from the folder
//! that BIASFLINT_LIB names. The host crate links libbiasflint.a from the same folder.
use std::{env, path::PathBuf};

fn main() {
    println!("cargo:rerun-if-env-changed=BIASFLINT_LIB");
    let manifest = PathBuf::from(env::var("CARGO_MANIFEST_DIR").unwrap());
    let folder = env::var("BIASFLINT_LIB")
        .map_or_else(|_| manifest.join("../../target/staticlib"), PathBuf::from);
    let archive = folder.join("libleaves_c.a");
    println!("cargo:rerun-if-changed={}", archive.display());
    if !archive.exists() {
        panic!(
            "{} is not there: run `tools/archives leaves_c` at the repository's root first",
            archive.display()
        );
    }
    println!("cargo:rustc-link-search=native={}", folder.display());
    println!("cargo:rustc-link-lib=static=leaves_c");
}
