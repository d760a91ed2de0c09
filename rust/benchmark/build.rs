//! Links asn1c's codec of the segment, which `asn1c/build` writes.

use std::env;
use std::path::{Path, PathBuf};
use std::process::Command;

fn main() {
    let sources = Path::new(env!("CARGO_MANIFEST_DIR")).join("asn1c");
    let folder = PathBuf::from(env::var_os("OUT_DIR").expect("cargo names a folder")).join("asn1c");
    let status = Command::new(sources.join("build")).arg(&folder).status().expect("asn1c/build runs");
    assert!(status.success(), "asn1c/build writes the codec");
    println!("cargo:rerun-if-changed={}", sources.display());
    println!("cargo:rustc-link-search=native={}", folder.display());
    println!("cargo:rustc-link-lib=static=segment");
}
