//! Links the archive that `tests/proved target/staticlib/libfleet.a` writes, beside the one that the crate `compare` links.

use std::path::Path;

fn main() {
    let folder = Path::new(env!("CARGO_MANIFEST_DIR")).join("../../target/staticlib");
    println!("cargo:rustc-link-search=native={}", folder.display());
    println!("cargo:rustc-link-lib=static=fleet");
    println!("cargo:rerun-if-changed={}", folder.join("libfleet.a").display());
}
