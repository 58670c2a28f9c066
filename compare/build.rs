//! Links the comparison with the proved tool's archive, and links it again when the archive changes.
//! The machine's own tests need no archive, so none is asked for here when the variable is not set.

fn main() {
    println!("cargo:rerun-if-changed=build.rs");
    println!("cargo:rerun-if-env-changed=BOARD_ARCHIVE");
    if let Ok(archive) = std::env::var("BOARD_ARCHIVE") {
        println!("cargo:rerun-if-changed={archive}");
        println!("cargo:rustc-link-arg-bins={archive}");
    }
}
