//! Links the judge's archive, libcabi.a, from the directory that MIRZHELO_ARCHIVE names.

use std::env;
use std::path::PathBuf;

const VARIABLE: &str = "MIRZHELO_ARCHIVE";
const DEFAULT: &str = "../target/staticlib";

fn main() {
    let manifest = PathBuf::from(env::var_os("CARGO_MANIFEST_DIR").expect("cargo sets it"));
    let directory = manifest.join(env::var_os(VARIABLE).unwrap_or(DEFAULT.into()));
    let archive = directory.join("libcabi.a");
    println!("cargo:rerun-if-env-changed={VARIABLE}");
    println!("cargo:rerun-if-changed={}", archive.display());
    if archive.exists() {
        println!("cargo:rustc-link-search=native={}", directory.display());
        println!("cargo:rustc-link-lib=static=cabi");
        // An archive made of Rust has its own copies of what this program has from std.
        println!("cargo:rustc-link-arg=-Wl,--allow-multiple-definition");
    } else {
        let missing = archive.display();
        println!("cargo:warning={missing} is missing: compare and bench will not link");
    }
}
