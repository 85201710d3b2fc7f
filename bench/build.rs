//! Links the port, which tools/archive writes to the repository's `target/staticlib`.

use std::env;
use std::path::Path;

fn main() {
    let here = env::var("CARGO_MANIFEST_DIR").expect("cargo names the folder");
    let folder = Path::new(&here).join("../target/staticlib");
    println!("cargo:rustc-link-search=native={}", folder.display());
    println!("cargo:rustc-link-lib=static=exports");
    println!("cargo:rerun-if-changed={}", folder.join("libexports.a").display());
}
