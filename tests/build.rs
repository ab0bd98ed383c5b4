//! Links the router's static library: `librouter.a` from the folder that
//! MAIZESPELL_LIB_DIR names, or from `../target/staticlib`.

use std::process::exit;

#[allow(dead_code)] // the tests look for the program and the host too
#[path = "src/built.rs"]
mod built;

fn main() {
    println!("cargo:rerun-if-env-changed=MAIZESPELL_LIB_DIR");
    let archive = built::library().unwrap_or_else(|how| {
        eprintln!("{how}");
        exit(1)
    });
    let folder = archive.parent().expect("a file is in a folder");
    println!("cargo:rerun-if-changed={}", archive.display());
    println!("cargo:rustc-link-search=native={}", folder.display());
    println!("cargo:rustc-link-lib=static=router");
}
