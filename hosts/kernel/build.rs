//! Links the kernel's archive, which `hosts/archive` builds; FLYTEWOOD_ARCHIVE_DIR names another folder for it.

use std::env;
use std::path::PathBuf;

const USUAL_FOLDER: &str = "../../target/staticlib";

fn main() {
    let package = PathBuf::from(env::var("CARGO_MANIFEST_DIR").expect("cargo names the package's folder"));
    let folder = match env::var_os("FLYTEWOOD_ARCHIVE_DIR") {
        Some(named) => PathBuf::from(named),
        None => package.join(USUAL_FOLDER),
    };
    let archive = folder.join("libflytewood.a");
    println!("cargo:rerun-if-env-changed=FLYTEWOOD_ARCHIVE_DIR");
    println!("cargo:rerun-if-changed={}", archive.display());
    println!("cargo:rustc-link-search=native={}", folder.display());
    println!("cargo:rustc-link-lib=static=flytewood");
}
