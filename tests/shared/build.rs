//! Links the archives that are compared and measured. Each is the repository's own unless its variable names another.

use std::path::{Path, PathBuf};

const ARCHIVES: [(&str, &str); 2] =
    [("LAMPHUDET_ARCHIVE", "lamphudet"), ("LAMPHUDET_SEALS_ARCHIVE", "lamphudet_seals")];

fn main() {
    // Copies in one folder, so that what stands beside one of them is not taken for the other.
    let folder = PathBuf::from(std::env::var_os("OUT_DIR").expect("a folder for what is built"));
    println!("cargo:rustc-link-search=native={}", folder.display());
    for (variable, name) in ARCHIVES {
        let file = format!("lib{name}.a");
        let own = Path::new(env!("CARGO_MANIFEST_DIR")).join("../../target/staticlib").join(&file);
        let archive = std::env::var_os(variable).filter(|path| !path.is_empty()).map_or(own, PathBuf::from);
        if let Err(error) = std::fs::copy(&archive, folder.join(&file)) {
            eprintln!("no archive {file} at {}: {error}: make builds it", archive.display());
            std::process::exit(1);
        }
        println!("cargo:rerun-if-env-changed={variable}");
        println!("cargo:rerun-if-changed={}", archive.display());
        println!("cargo:rustc-link-lib=static={name}");
    }
}
