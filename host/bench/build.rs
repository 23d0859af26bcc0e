//! Links the static library of the search for a free extent, which `packaging/build-library search` leaves beside
//! the one of all calls. The folder is named as for the crate `goofs`.

use std::env;
use std::path::{Path, PathBuf};
use std::process::exit;

const FOLDER: &str = "GOOFS_LIB_DIR";

fn main() {
    println!("cargo:rerun-if-env-changed={FOLDER}");
    let crate_folder = env::var("CARGO_MANIFEST_DIR").expect("cargo names the crate's folder");
    let folder = match env::var_os(FOLDER) {
        Some(folder) => PathBuf::from(folder),
        None => Path::new(&crate_folder).join("../../target/staticlib"),
    };
    let library = folder.join("libsearch.a");
    println!("cargo:rerun-if-changed={}", library.display());
    if !library.exists() {
        eprintln!(
            "{} is not there: run `packaging/build-library search` in the repository first",
            library.display()
        );
        exit(1);
    }
    println!("cargo:rustc-link-search=native={}", folder.display());
    println!("cargo:rustc-link-lib=static=search");
}
