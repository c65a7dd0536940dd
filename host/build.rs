//! Links `libbiasflint.a`, which `tools/archives biasflint` writes, from `../target/staticlib` or
//! from the folder that `BIASFLINT_LIB` names.
use std::{env, path::PathBuf};

fn main() {
    println!("cargo:rerun-if-env-changed=BIASFLINT_LIB");
    let manifest = PathBuf::from(env::var("CARGO_MANIFEST_DIR").unwrap());
    let folder = env::var("BIASFLINT_LIB")
        .map_or_else(|_| manifest.join("../target/staticlib"), PathBuf::from);
    let archive = folder.join("libbiasflint.a");
    println!("cargo:rerun-if-changed={}", archive.display());
    if !archive.exists() {
        panic!(
            "{} is not there: run `tools/archives biasflint` at the repository's root first",
            archive.display()
        );
    }
    println!("cargo:rustc-link-search=native={}", folder.display());
    println!("cargo:rustc-link-lib=static=biasflint");
}
