// For build scripts: links a proved static library, below the root of the repository.

use std::path::Path;
use std::process::exit;

fn link(root: &str, library: &str) {
    let folder = Path::new(env!("CARGO_MANIFEST_DIR"))
        .join(root)
        .join("target/staticlib");
    let archive = folder.join(format!("lib{library}.a"));
    println!("cargo:rerun-if-changed=build.rs");
    println!("cargo:rerun-if-changed={}", archive.display());
    println!("cargo:rustc-link-search=native={}", folder.display());
    if !archive.is_file() {
        eprintln!(
            "{} is missing: run `bash tools/build` at the root of the repository first",
            archive.display()
        );
        exit(1);
    }
    println!("cargo:rustc-link-lib=static={library}");
}
