//! Links the product's archive where the feature `product` asks for it.

use std::path::PathBuf;
use std::{env, process};

/// The folder of the archive, where the repository's own is not meant.
const FOLDER: &str = "BERNKESSEL_LIB";

fn main() {
    println!("cargo:rerun-if-env-changed={FOLDER}");
    if env::var_os("CARGO_FEATURE_PRODUCT").is_none() {
        return;
    }
    let here = PathBuf::from(env::var_os("CARGO_MANIFEST_DIR").unwrap_or_default());
    let folder = env::var_os(FOLDER).map_or(here.join("../target/staticlib"), PathBuf::from);
    let archive = folder.join("libbernkessel.a");
    println!("cargo:rerun-if-changed={}", archive.display());
    if !archive.is_file() {
        eprintln!("{} is missing: tools/build bernkessel writes it", archive.display());
        process::exit(1);
    }
    println!("cargo:rustc-env=BERNKESSEL_ARCHIVE={}", archive.display());
    println!("cargo:rustc-link-search=native={}", folder.display());
    println!("cargo:rustc-link-lib=static=bernkessel");
}
