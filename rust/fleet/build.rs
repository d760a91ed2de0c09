//! Finds the static library, which must be of the crate's interface: in the folder that FLEET_LIB_DIR names, else in the package's lib or in the
//! repository's target/staticlib.
#[path = "src/interface.rs"]
mod interface;
#[path = "../seglink/linking.rs"]
mod linking;

fn main() {
    linking::link("fleet", interface::INTERFACE);
}
