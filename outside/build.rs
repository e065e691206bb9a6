//! Links the static library: the one that CERDUMA_ARCHIVE names, or the one that `rt lib` leaves in this checkout.

use std::env;
use std::path::PathBuf;

fn main() {
    let here =
        PathBuf::from(env::var_os("CARGO_MANIFEST_DIR").expect("cargo names the package's folder"));
    let archive = match env::var_os("CERDUMA_ARCHIVE") {
        Some(path) => PathBuf::from(path),
        None => here.join("../crates/cerduma/out/libcerduma.a"),
    };
    assert!(
        archive.is_file(),
        "no archive at {}: run `rt lib` in crates/cerduma first",
        archive.display()
    );
    let folder = archive.parent().expect("a file lies in a folder");
    println!("cargo::rustc-link-search=native={}", folder.display());
    println!("cargo::rustc-link-lib=static=cerduma");
    println!("cargo::rerun-if-changed={}", archive.display());
    println!("cargo::rerun-if-env-changed=CERDUMA_ARCHIVE");
}
