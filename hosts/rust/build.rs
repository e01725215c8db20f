//! Links libguard.a: from GUARD_LIB_DIR, or else from where `hosts/build` writes it in this repository. Where it is not there, this says so and goes on, since `cargo doc` and
//! `cargo check` don't need it; whatever links then fails, by the compiler's "could not find native static library".

use std::env;
use std::path::{Path, PathBuf};

fn main() {
    println!("cargo:rerun-if-env-changed=GUARD_LIB_DIR");
    let package = env::var_os("CARGO_MANIFEST_DIR").expect("cargo sets CARGO_MANIFEST_DIR");
    let folder = match env::var_os("GUARD_LIB_DIR") {
        Some(folder) => PathBuf::from(folder),
        None => Path::new(&package).join("../../target"),
    };
    let library = folder.join("libguard.a");
    if !library.is_file() {
        println!(
            "cargo:warning={} is not there, and linking will fail: run `hosts/build` in the repository, or set GUARD_LIB_DIR to the folder that has libguard.a",
            library.display()
        );
    }
    println!("cargo:rerun-if-changed={}", library.display());
    println!("cargo:rustc-link-search=native={}", folder.display());
    println!("cargo:rustc-link-lib=static=guard");
}
