//! Links libmars.a of the folder that MARS_LIBRARY_FOLDER names, or of dist/.

use std::env;
use std::path::PathBuf;

fn main() {
    let folder = env::var_os("MARS_LIBRARY_FOLDER").map_or_else(|| PathBuf::from(env!("CARGO_MANIFEST_DIR")).join("../../dist"), PathBuf::from);
    println!("cargo:rerun-if-env-changed=MARS_LIBRARY_FOLDER");
    println!("cargo:rerun-if-changed={}", folder.join("libmars.a").display());
    println!("cargo:rustc-link-search=native={}", folder.display());
    println!("cargo:rustc-link-lib=static=mars");
}
