//! Links the archive that `tools/archive` writes; MIRZHELO_ARCHIVE names another folder.
fn main() {
    let here = std::env::var("CARGO_MANIFEST_DIR").expect("cargo sets it");
    let folder = std::env::var("MIRZHELO_ARCHIVE").unwrap_or(format!("{here}/../../target/staticlib"));
    println!("cargo:rustc-link-search=native={folder}");
    println!("cargo:rustc-link-lib=static=cabi");
    println!("cargo:rerun-if-env-changed=MIRZHELO_ARCHIVE");
    println!("cargo:rerun-if-changed={folder}/libcabi.a");
}
