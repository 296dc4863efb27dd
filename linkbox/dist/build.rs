//! Says where the archive is: in the folder lib of the tree that this crate came with, or in LINKBOX_LIB.
fn main() {
    let here = std::env::var("CARGO_MANIFEST_DIR").unwrap_or_default();
    let lib = std::env::var("LINKBOX_LIB").unwrap_or(format!("{here}/../../../lib"));
    println!("cargo:rerun-if-env-changed=LINKBOX_LIB");
    println!("cargo:rustc-link-search=native={lib}");
    println!("cargo:rustc-link-lib=static=linkbox");
}
