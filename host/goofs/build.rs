//! Links the static library that `packaging/build-library goofs` leaves in the repository's `target/staticlib`, or
//! the one in the folder that the environment variable GOOFS_LIB_DIR names.

use std::env;
use std::path::{Path, PathBuf};
use std::process::exit;

const FOLDER: &str = "GOOFS_LIB_DIR";

fn main() {
    println!("cargo:rerun-if-env-changed={FOLDER}");
    let crate_folder = env::var("CARGO_MANIFEST_DIR").expect("cargo names the crate's folder");
    let folder = match env::var_os(FOLDER) {
        Some(folder) => PathBuf::from(folder),
        None => Path::new(&crate_folder).join("../../target/staticlib"),
    };
    let library = folder.join("libgoofs.a");
    println!("cargo:rerun-if-changed={}", library.display());
    if !library.exists() {
        eprintln!(
            "{} is not there: run `packaging/build-library goofs` in the repository first, or name the \
             folder of libgoofs.a in {FOLDER}",
            library.display()
        );
        exit(1);
    }
    println!("cargo:rustc-env=GOOFS_LIBRARY={}", folder.display());
    println!("cargo:rustc-link-search=native={}", folder.display());
    println!("cargo:rustc-link-lib=static=goofs");
}
