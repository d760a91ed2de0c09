//! Finds the static library, which must be of the crate's interface: in the folder that SEGLINK_LIB_DIR names, else in the package's lib or in the
//! repository's target/staticlib.
#[path = "src/interface.rs"]
mod interface;
mod linking;

fn main() {
    linking::link("seglink", interface::INTERFACE);
}
