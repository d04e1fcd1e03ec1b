//! Tells the linker where the static libraries are: in the folder that ZEBLUDOR_LIB names, else in that of the release or of the Debian
//! package to which this folder belongs.
use std::env;
use std::path::{Path, PathBuf};

const PACKAGE: &str = "/usr/lib/x86_64-linux-gnu";

fn main() {
    let release = Path::new(&env::var("CARGO_MANIFEST_DIR").unwrap()).join("../../lib");
    let found = if release.join("libzebludor_chips.a").is_file() { release } else { PathBuf::from(PACKAGE) };
    let folder = env::var_os("ZEBLUDOR_LIB").map_or(found, PathBuf::from);
    for name in ["zebludor_chips", "zebludor_program", "zebludor_memory"] {
        let archive = folder.join(format!("lib{name}.a"));
        assert!(archive.is_file(), "{} isn't there: ZEBLUDOR_LIB names the folder of a release's libraries", archive.display());
        println!("cargo:rerun-if-changed={}", archive.display());
        println!("cargo:rustc-link-lib=static={name}");
    }
    println!("cargo:rustc-link-search=native={}", folder.display());
    println!("cargo:rerun-if-env-changed=ZEBLUDOR_LIB");
}
