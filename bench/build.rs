//! Links `libcard_stream_c.a`, which `tools/archives card_stream_c` writes, from the folder that the host
//! crate takes `libbiasflint.a` from. And `parts` counts what memcpy copies: its calls of memcpy go
//! through a function of its own.
use std::{env, path::PathBuf};

fn main() {
    println!("cargo:rerun-if-changed=build.rs");
    println!("cargo:rerun-if-env-changed=BIASFLINT_LIB");
    let manifest = PathBuf::from(env::var("CARGO_MANIFEST_DIR").unwrap());
    let folder = env::var("BIASFLINT_LIB")
        .map_or_else(|_| manifest.join("../target/staticlib"), PathBuf::from);
    println!("cargo:rerun-if-changed={}", folder.join("libcard_stream_c.a").display());
    println!("cargo:rustc-link-search=native={}", folder.display());
    println!("cargo:rustc-link-lib=static=card_stream_c");
    println!("cargo:rustc-link-arg-bin=parts=-Wl,--wrap=memcpy");
}
