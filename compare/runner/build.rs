//! Links target/staticlib/libosd.a, which `rt staticlib osd` writes.

fn main() {
    let library = concat!(env!("CARGO_MANIFEST_DIR"), "/../../target/staticlib");
    println!("cargo:rustc-link-search=native={library}");
    println!("cargo:rustc-link-lib=static=osd");
    println!("cargo:rerun-if-changed={library}/libosd.a");
}
