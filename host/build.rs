// Finds libcapi.a: in the folder that BAVOLINESK_LIB_DIR names, or in ../target/staticlib, where `tools/staticlib` writes it.
use std::env;
use std::path::PathBuf;

fn main() {
    println!("cargo:rerun-if-env-changed=BAVOLINESK_LIB_DIR");
    let folder = match env::var_os("BAVOLINESK_LIB_DIR") {
        Some(folder) => PathBuf::from(folder),
        None => PathBuf::from(env::var_os("CARGO_MANIFEST_DIR").unwrap_or_default()).join("../target/staticlib"),
    };
    let archive = folder.join("libcapi.a");
    println!("cargo:rerun-if-changed={}", archive.display());
    if !archive.is_file() {
        eprintln!("There is no {}.", archive.display());
        eprintln!(
            "Make it with `tools/staticlib` in the repository's root, or name its folder in BAVOLINESK_LIB_DIR."
        );
        std::process::exit(1);
    }
    println!("cargo:rustc-link-search=native={}", folder.display());
    println!("cargo:rustc-link-lib=static=capi");
}
