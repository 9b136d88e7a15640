//! Finds the library's archive and has it linked: in the folder that the
//! variable ZUNIDELO_LIB names, or else where `tests/library` puts it.

use std::env;
use std::path::PathBuf;
use std::process::exit;

const FOLDER_VARIABLE: &str = "ZUNIDELO_LIB";
const ARCHIVE: &str = "libzunidelo.a";

fn main() {
    println!("cargo::rerun-if-env-changed={FOLDER_VARIABLE}");
    let folder = archive_folder();
    let archive = folder.join(ARCHIVE);
    println!("cargo::rerun-if-changed={}", archive.display());
    if !archive.is_file() {
        eprintln!("{} is missing.", archive.display());
        eprintln!("The command `tests/library` makes it, in target/lib of the product;");
        eprintln!("{FOLDER_VARIABLE} names another folder that holds it.");
        exit(1);
    }
    println!("cargo::rustc-link-search=native={}", folder.display());
    println!("cargo::rustc-link-lib=static=zunidelo");
}

fn archive_folder() -> PathBuf {
    if let Some(folder) = env::var_os(FOLDER_VARIABLE) {
        return PathBuf::from(folder);
    }
    let package = env::var_os("CARGO_MANIFEST_DIR").expect("cargo names the package's folder");
    PathBuf::from(package).join("../../target/lib")
}
