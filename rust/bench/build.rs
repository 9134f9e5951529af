//! Tells the linker where the archive `libmarshtrundle.a` stands.
//!
//! The folder is the variable MARSHTRUNDLE_ARCHIVE, or else target/native of
//! the repository, where tools/native_archive.sh writes it.

use std::env;
use std::path::PathBuf;

fn main() {
    println!("cargo:rerun-if-env-changed=MARSHTRUNDLE_ARCHIVE");
    let folder = match env::var_os("MARSHTRUNDLE_ARCHIVE") {
        Some(folder) => PathBuf::from(folder),
        None => {
            let package = env::var_os("CARGO_MANIFEST_DIR").expect("cargo names the package");
            PathBuf::from(package).join("../../target/native")
        }
    };
    let archive = folder.join("libmarshtrundle.a");
    println!("cargo:rerun-if-changed={}", archive.display());
    if !archive.is_file() {
        panic!(
            "there is no {}: run tools/native_archive.sh first",
            archive.display()
        );
    }
    println!("cargo:rustc-link-search=native={}", folder.display());
}
