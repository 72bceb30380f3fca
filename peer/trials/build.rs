//! Links the proved store: libsnapshot.a out of the folder in ODM_LIBRARY.

use std::path::Path;

const DEFAULT: &str = "../target/staticlib";

fn main() {
    println!("cargo:rerun-if-env-changed=ODM_LIBRARY");
    let folder = std::env::var("ODM_LIBRARY").unwrap_or(DEFAULT.into());
    // A relative folder counts from the peer, where the commands are given; an absolute one stands as it is.
    let package = Path::new(env!("CARGO_MANIFEST_DIR"));
    let folder = package.parent().unwrap_or(package).join(folder);
    let archive = folder.join("libsnapshot.a");
    // A name that is missing has cargo look again at the next build.
    println!("cargo:rerun-if-changed={}", archive.display());
    if !archive.exists() {
        eprintln!("no {}: write it with ../tools/archive, or set ODM_LIBRARY to its folder", archive.display());
        std::process::exit(1);
    }
    println!("cargo:rustc-link-search=native={}", folder.display());
    println!("cargo:rustc-link-lib=static=snapshot");
}
