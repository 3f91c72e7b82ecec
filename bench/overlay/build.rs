//! Links the proved function: crates/overlay_c/out/liboverlay_c.a.
fn main() {
    let here = std::env::var("CARGO_MANIFEST_DIR").unwrap();
    println!("cargo:rustc-link-search=native={here}/../../crates/overlay_c/out");
    println!("cargo:rustc-link-lib=static=overlay_c");
    println!("cargo:rerun-if-changed={here}/../../crates/overlay_c/out/liboverlay_c.a");
}
