//! Links an earlier build of the library too, where `bench/run before LIBRARY` has put one.

fn main() {
    println!("cargo:rerun-if-changed=build.rs");
    println!("cargo:rerun-if-env-changed=BEFORE");
    println!("cargo:rustc-check-cfg=cfg(before)");
    if let Ok(folder) = std::env::var("BEFORE") {
        println!("cargo:rerun-if-changed={folder}/libbefore.a");
        println!("cargo:rustc-cfg=before");
        println!("cargo:rustc-link-search=native={folder}");
        println!("cargo:rustc-link-lib=static=before");
    }
}
