//! Links the proved functions: crates/geometry_c/out/libgeometry_c.a.
fn main() {
    let here = std::env::var("CARGO_MANIFEST_DIR").unwrap();
    println!("cargo:rustc-link-search=native={here}/../../crates/geometry_c/out");
    println!("cargo:rustc-link-lib=static=geometry_c");
    println!("cargo:rerun-if-changed={here}/../../crates/geometry_c/out/libgeometry_c.a");
}
