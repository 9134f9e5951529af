//! Finds the archive. It stands where tools/archive.sh writes it, or in the folder that MARSHTRUNDLE_LIB names.
use std::env;
use std::path::PathBuf;

fn main() {
    println!("cargo:rerun-if-env-changed=MARSHTRUNDLE_LIB");
    let folder = match env::var_os("MARSHTRUNDLE_LIB") {
        Some(folder) => PathBuf::from(folder),
        None => {
            let own = env::var_os("CARGO_MANIFEST_DIR").unwrap_or_default();
            PathBuf::from(own).join("../../target/staticlib")
        }
    };
    let archive = folder.join("libmarshtrundle.a");
    println!("cargo:rerun-if-changed={}", archive.display());
    if !archive.is_file() {
        println!(
            "cargo:warning={} is missing: run tools/archive.sh first",
            archive.display()
        );
    }
    if env::var("CARGO_CFG_TARGET_ARCH").as_deref() != Ok("x86_64") {
        println!("cargo:warning=the archive is x86-64 code: build for x86_64-unknown-linux-gnu");
    }
    println!("cargo:rustc-link-search=native={}", folder.display());
    println!("cargo:rustc-link-lib=static=marshtrundle");
}
