//! Copies the seven source files, byte for byte, into gen/, and appends to two of
//! them a line that declares a child module (private items can only be reached
//! from a child). Nothing else of a source is touched.
use std::path::{Path, PathBuf};
use std::{env, fs};

/// Where the sources are if SUMMERSET_SRC does not say: beside the repository.
const BESIDE: &str = "../../shared/docs/src";

/// Each file, and what is appended to it.
const FILES: [(&str, &str); 7] = [
    ("server/leaseman.rs", "#[path = \"../../src/server/driver.rs\"]\npub mod driver;\n"),
    ("server/replica.rs", ""),
    ("utils/timer.rs", "#[path = \"../../src/utils/probe.rs\"]\npub mod probe;\n"),
    ("utils/bitmap.rs", ""),
    ("utils/faults.rs", ""),
    ("utils/error.rs", ""),
    ("utils/print.rs", ""),
];

fn main() {
    let root = PathBuf::from(env::var("CARGO_MANIFEST_DIR").unwrap());
    let sources = env::var("SUMMERSET_SRC").map_or_else(|_| root.join(BESIDE), PathBuf::from);
    println!("cargo:rerun-if-env-changed=SUMMERSET_SRC");
    println!("cargo:rerun-if-changed=build.rs");
    for (file, tail) in FILES {
        copy(&sources.join("src").join(file), &root.join("gen").join(file), tail);
    }
}

/// Writes only what differs, so that nothing is built again without need.
fn copy(from: &Path, to: &Path, tail: &str) {
    println!("cargo:rerun-if-changed={}", from.display());
    let mut text = fs::read(from).unwrap_or_else(|e| {
        panic!("summerset's {}: {e}. Set SUMMERSET_SRC to its folder", from.display())
    });
    text.extend_from_slice(tail.as_bytes());
    if fs::read(to).ok().as_deref() != Some(&text[..]) {
        fs::create_dir_all(to.parent().unwrap()).unwrap();
        fs::write(to, &text).unwrap();
    }
}
