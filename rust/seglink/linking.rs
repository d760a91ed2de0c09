// What the build scripts of the safe crates share: finding a static library, which must be for x86-64 and of the crate's interface.
// Where there is none, a warning says so: the crate is then checked and documented, and nothing that uses it links.
use std::env;
use std::fs;
use std::path::{Path, PathBuf};

/// Links lib`name`.a: from the folder that `NAME_LIB_DIR` names, else from the package's lib or the repository's target/staticlib. Its interface must
/// have this number.
pub fn link(name: &str, number: u32) {
    let variable = format!("{}_LIB_DIR", name.to_uppercase());
    println!("cargo:rerun-if-env-changed={variable}");
    println!("cargo:rerun-if-env-changed=DOCS_RS");
    if env::var_os("DOCS_RS").is_some() {
        return;
    }
    let folder = library_folder(&variable);
    let library = folder.join(format!("lib{name}.a"));
    println!("cargo:rerun-if-changed={}", library.display());
    let otherwise = format!("run `tests/proved target/staticlib/lib{name}.a`, or set {variable} to another folder");
    match missing(&library, &otherwise) {
        Some(said) => println!("cargo:warning=nothing will link: {} {said}", library.display()),
        None => {
            assert!(
                has_symbol(&library, &format!("{name}_interface_{number}")),
                "{} is not of the interface {number}: {otherwise}",
                library.display()
            );
            println!("cargo:rustc-link-search=native={}", folder.display());
        }
    }
    println!("cargo:rustc-link-lib=static={name}");
}

/// Returns why the library does not serve this target, or nothing where it does.
fn missing(library: &Path, otherwise: &str) -> Option<String> {
    let architecture = env::var("CARGO_CFG_TARGET_ARCH").unwrap_or_default();
    if architecture != "x86_64" {
        return Some(format!("is for x86-64, and not for {architecture}: build for x86_64-unknown-linux-gnu"));
    }
    (!library.is_file()).then(|| format!("is not there: {otherwise}"))
}

/// Returns whether a library has a symbol: its names end with a byte 0.
fn has_symbol(library: &Path, symbol: &str) -> bool {
    let name = format!("{symbol}\0");
    let bytes = fs::read(library).expect("the library can be read");
    bytes.windows(name.len()).any(|part| part == name.as_bytes())
}

fn library_folder(variable: &str) -> PathBuf {
    let root = Path::new(env!("CARGO_MANIFEST_DIR")).join("../..");
    match env::var_os(variable) {
        Some(folder) => PathBuf::from(folder),
        None if root.join("lib").is_dir() => root.join("lib"),
        None => root.join("target/staticlib"),
    }
}
