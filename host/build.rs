//! Links the static library that `host/archive` builds.

use std::path::Path;

fn main() {
    let top = Path::new(env!("CARGO_MANIFEST_DIR")).join("..");
    let folder = top.join("target/staticlib");
    println!("cargo:rustc-link-search=native={}", folder.display());
    println!("cargo:rustc-link-lib=static=lupinshift");
    println!(
        "cargo:rerun-if-changed={}",
        folder.join("liblupinshift.a").display()
    );
}
