//! Tells cargo where the proved library is: in the folder that ALLSTAR_LIB_DIR names, or where `make` builds
//! it.

use std::path::{Path, PathBuf};

fn main() {
    println!("cargo:rerun-if-env-changed=ALLSTAR_LIB_DIR");
    let built = Path::new(env!("CARGO_MANIFEST_DIR")).join("../../target/staticlib");
    let folder = std::env::var_os("ALLSTAR_LIB_DIR").map_or(built, PathBuf::from);
    let library = folder.join("liballstar_c.a");
    println!("cargo:rerun-if-changed={}", library.display());
    if !library.exists() {
        eprintln!(
            "{} is not there: run `make` in the repository, or name its folder in ALLSTAR_LIB_DIR",
            library.display()
        );
        std::process::exit(1);
    }
    println!("cargo:rustc-link-search=native={}", folder.display());
    println!("cargo:rustc-link-lib=static=allstar_c");
}
