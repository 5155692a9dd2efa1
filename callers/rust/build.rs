//! Links libboard.a, whose folder the environment variable OMBRAVELIK_LIB names.
use std::path::Path;

fn main() {
    println!("cargo::rerun-if-env-changed=OMBRAVELIK_LIB");
    let Ok(folder) = std::env::var("OMBRAVELIK_LIB") else {
        println!(
            "cargo::error=OMBRAVELIK_LIB is not set: it names the folder of libboard.a, which tools/library writes"
        );
        return;
    };
    if Path::new(&folder).is_relative() {
        println!("cargo::error=OMBRAVELIK_LIB is {folder}, a path that does not begin at the root: cargo builds in another folder than its caller's");
        return;
    }
    let library = Path::new(&folder).join("libboard.a");
    if !library.is_file() {
        println!("cargo::error=there is no libboard.a in {folder}, the folder that OMBRAVELIK_LIB names; tools/library writes it");
        return;
    }
    println!("cargo::rerun-if-changed={}", library.display());
    println!("cargo::rustc-link-search=native={folder}");
    println!("cargo::rustc-link-lib=static=board");
}
