// Names the archive that tools/archive made, by the environment variable SINOTAYAM_ARCHIVE.
use std::path::Path;

fn main() {
    println!("cargo:rerun-if-env-changed=SINOTAYAM_ARCHIVE");
    let archive = std::env::var("SINOTAYAM_ARCHIVE")
        .expect("SINOTAYAM_ARCHIVE names libsinotayam.a, which tools/archive makes (README.md)");
    let path = Path::new(&archive).canonicalize().expect("SINOTAYAM_ARCHIVE names a file");
    println!("cargo:rerun-if-changed={}", path.display());
    println!("cargo:rustc-link-search=native={}", path.parent().expect("a file has a folder").display());
    println!("cargo:rustc-link-lib=static=sinotayam");
}
