//! Says where the program's static library stands: EXPORTS_LIBRARY, a folder,
//! or target/staticlib of the repository.
use std::env;
use std::path::{Path, PathBuf};

const OURS: &str = "../../target/staticlib";

fn main() {
    println!("cargo:rerun-if-env-changed=EXPORTS_LIBRARY");
    let folder = match env::var_os("EXPORTS_LIBRARY") {
        Some(folder) => PathBuf::from(folder),
        None => Path::new(&env::var_os("CARGO_MANIFEST_DIR").unwrap()).join(OURS),
    };
    println!("cargo:rerun-if-changed={}", folder.join("libexports.a").display());
    println!("cargo:rustc-link-search=native={}", folder.display());
    println!("cargo:rustc-link-lib=static=exports");
}
