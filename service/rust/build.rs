//! Links the proved library: liboverlay_c.a in DAQWIMAY_LIB, by default the repository's crates/overlay_c/out (rt lib in crates/overlay_c).
fn main() {
    let here = std::env::var("CARGO_MANIFEST_DIR").unwrap();
    let lib = std::env::var("DAQWIMAY_LIB").unwrap_or(format!("{here}/../../crates/overlay_c/out"));
    if !std::path::Path::new(&lib).join("liboverlay_c.a").exists() {
        panic!("{lib} has no liboverlay_c.a: run `rt lib` in crates/overlay_c, or set DAQWIMAY_LIB");
    }
    println!("cargo:rerun-if-env-changed=DAQWIMAY_LIB");
    println!("cargo:rerun-if-changed={lib}/liboverlay_c.a");
    println!("cargo:rustc-link-search=native={lib}");
    println!("cargo:rustc-link-lib=static=overlay_c");
}
