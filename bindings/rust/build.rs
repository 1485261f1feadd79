//! Has `rt lib` prove and write the three static libraries in the repository's root, where one is older than a source, and links them.
//! With LIBTETRA_MAC set, the folder of libraries that are there already, it only links.
use std::path::{Path, PathBuf};
use std::process::{Command, Stdio};

fn proved() -> PathBuf {
    let root = Path::new(env!("CARGO_MANIFEST_DIR")).join("../..");
    println!("cargo:rerun-if-changed={}", root.join("crates.txt").display());
    for folder in std::fs::read_dir(root.join("crates")).expect("crates").flatten() {
        // What a crate is made from. Beside it stands what rt makes.
        for part in ["src", "specs", "proofs"].map(|part| folder.path().join(part)).iter().filter(|part| part.exists()) {
            println!("cargo:rerun-if-changed={}", part.display());
        }
    }
    match Command::new(root.join("bindings/staticlib")).stderr(Stdio::inherit()).output() {
        Ok(done) if done.status.success() => PathBuf::from(String::from_utf8_lossy(&done.stdout).trim_end()),
        Ok(done) => panic!("bindings/staticlib: {}", done.status),
        Err(e) => panic!("bindings/staticlib: {e}"),
    }
}

fn main() {
    println!("cargo:rerun-if-env-changed=LIBTETRA_MAC");
    let folder = std::env::var_os("LIBTETRA_MAC").map_or_else(proved, PathBuf::from);
    println!("cargo:rustc-link-search=native={}", folder.display());
    for library in ["tetra_mac", "tetra_resource", "tetra_block"] {
        println!("cargo:rerun-if-changed={}", folder.join(format!("lib{library}.a")).display());
        println!("cargo:rustc-link-lib=static={library}");
    }
}
