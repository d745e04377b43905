//! Links libvps_c.a: from the folder that TEGLYOVASH_ARCHIVE names, or from the repository's target/staticlib.
use std::env;
use std::path::PathBuf;

fn main() {
    println!("cargo:rerun-if-env-changed=TEGLYOVASH_ARCHIVE");
    let folder = match env::var_os("TEGLYOVASH_ARCHIVE") {
        Some(named) => PathBuf::from(named),
        None => PathBuf::from(env::var_os("CARGO_MANIFEST_DIR").expect("cargo sets CARGO_MANIFEST_DIR"))
            .join("../../target/staticlib"),
    };
    let archive = folder.join("libvps_c.a");
    println!("cargo:rerun-if-changed={}", archive.display());
    assert!(
        archive.is_file(),
        "no {}: run `tools/archive/make` at the top of the repository, or set TEGLYOVASH_ARCHIVE to the folder that has it",
        archive.display()
    );
    println!("cargo:rustc-link-search=native={}", folder.display());
    println!("cargo:rustc-link-lib=static=vps_c");
}
