//! Links the archive that `bash scripts/archive.sh` writes. SODGRAVEL_ARCHIVE names another one, by its path.

use std::path::{Path, PathBuf};

fn main() {
    let archive = archive();
    assert!(archive.is_file(), "{} is missing: run `bash scripts/archive.sh`, or set SODGRAVEL_ARCHIVE", archive.display());
    let name = archive.file_name().and_then(|name| name.to_str());
    assert_eq!(name, Some("libsodgravel.a"), "SODGRAVEL_ARCHIVE must end in libsodgravel.a");
    println!("cargo:rerun-if-env-changed=SODGRAVEL_ARCHIVE");
    println!("cargo:rerun-if-changed={}", archive.display());
    println!("cargo:rustc-link-search=native={}", archive.parent().expect("a file has a folder").display());
    println!("cargo:rustc-link-lib=static=sodgravel");
}

fn archive() -> PathBuf {
    match std::env::var_os("SODGRAVEL_ARCHIVE") {
        Some(path) => PathBuf::from(path),
        None => Path::new(env!("CARGO_MANIFEST_DIR")).join("../../target/staticlib/libsodgravel.a"),
    }
}
