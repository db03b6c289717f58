//! Links the proved operations: target/staticlib/libexports.a, which bench/build puts there.
fn main() {
    let root = std::env::var("CARGO_MANIFEST_DIR").expect("cargo sets it");
    println!("cargo:rustc-link-search=native={root}/../target/staticlib");
    println!("cargo:rustc-link-lib=static=exports");
    println!("cargo:rerun-if-changed={root}/../target/staticlib/libexports.a");
}
