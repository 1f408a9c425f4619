//! Links the archives of the repository's target/staticlib, which `tools/build cabinet plan` writes.

use std::path::Path;

fn main() {
    let here = std::env::var("CARGO_MANIFEST_DIR").unwrap_or_default();
    let folder = Path::new(&here).join("../../target/staticlib");
    println!("cargo:rustc-link-search=native={}", folder.display());
    for archive in ["cabinet", "plan"] {
        println!("cargo:rustc-link-lib=static={archive}");
        println!("cargo:rerun-if-changed={}", folder.join(format!("lib{archive}.a")).display());
    }
}
