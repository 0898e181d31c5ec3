//! Links the proved library, libmc_frame.a.

use std::path::{Path, PathBuf};
use std::{env, process};

/// The library's folder where `KOFTABASIN_STATICLIB` names none, from this package's folder.
const DEFAULT_FOLDER: &str = "../target/staticlib";

fn main() {
    println!("cargo::rerun-if-env-changed=KOFTABASIN_STATICLIB");
    let named = env::var_os("KOFTABASIN_STATICLIB");
    let folder = PathBuf::from(named.unwrap_or_else(|| DEFAULT_FOLDER.into()));
    let library = folder.join("libmc_frame.a");
    println!("cargo::rerun-if-changed={}", library.display());
    let Ok(path) = library.canonicalize() else {
        missing(&library)
    };
    let folder = path.parent().unwrap_or(&path);
    println!("cargo::rustc-link-search=native={}", folder.display());
    println!("cargo::rustc-link-lib=static=mc_frame");
}

fn missing(library: &Path) -> ! {
    eprintln!(
        "koftabasin: the proved library {} is missing.\n\
         `tools/staticlib mc_frame` at the repository's root proves and makes it. To link one from\n\
         another folder, name that folder in the variable KOFTABASIN_STATICLIB (a relative name is\n\
         taken from the folder of wrapper/Cargo.toml).",
        library.display()
    );
    process::exit(1);
}
