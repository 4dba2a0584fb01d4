//! Links libanim.a, which `tools/staticlib` writes.
use std::path::Path;

fn main() {
    let top = Path::new(env!("CARGO_MANIFEST_DIR")).parent().expect("the repository's top");
    let folder = top.join("target").join("staticlib");
    println!("cargo:rustc-link-search=native={}", folder.display());
    println!("cargo:rustc-link-lib=static=anim");
    println!("cargo:rerun-if-changed={}", folder.join("libanim.a").display());
}
