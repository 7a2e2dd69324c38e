//! Makes the oracle's modules out of the source's own files, at build time:
//! each is read from the source folder, edited as `list.rs` says, and written
//! to cargo's output folder, where `src/cubical.rs` includes it. No text of the
//! source is kept here beyond the few words by which an edit finds its place.
mod editing;
mod list;

use std::path::PathBuf;
use std::{env, fs};

fn main() {
    println!("cargo:rerun-if-env-changed=ORACLE_SOURCE");
    println!("cargo:rerun-if-changed=edits");
    let source = env::var_os("ORACLE_SOURCE").unwrap_or_else(|| {
        panic!("ORACLE_SOURCE is not set: it names the source's folder (tools/oracle/README.md)")
    });
    let source = PathBuf::from(source);
    let out = PathBuf::from(env::var_os("OUT_DIR").unwrap());
    for (path, name, edits) in list::FILES {
        let from = source.join(path);
        println!("cargo:rerun-if-changed={}", from.display());
        let text = fs::read_to_string(&from)
            .unwrap_or_else(|e| panic!("the source file {} can't be read: {e}", from.display()));
        let edited = editing::all(&text, edits)
            .unwrap_or_else(|e| panic!("{path}: an edit no longer fits: {e}"));
        fs::write(out.join(name), edited).unwrap();
    }
}
