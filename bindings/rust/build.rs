//! Links the proved static library: that of the folder that CORNSUNSET_LIB names, of the release that the crate lies in,
//! or of the repository.
use std::env;
use std::path::{Path, PathBuf};

const LIBRARY: &str = "libcornsunset.a";

/// The library's folder, seen from the crate's: `lib` of a release where it has the library, else the repository's.
fn beside(package: &Path) -> PathBuf {
    let release = package.join("../lib");
    if release.join(LIBRARY).is_file() {
        release
    } else {
        package.join("../../target/staticlib")
    }
}

fn main() {
    println!("cargo:rerun-if-env-changed=CORNSUNSET_LIB");
    let folder = match env::var_os("CORNSUNSET_LIB") {
        Some(folder) => PathBuf::from(folder),
        None => beside(Path::new(&env::var_os("CARGO_MANIFEST_DIR").unwrap())),
    };
    let library = folder.join(LIBRARY);
    println!("cargo:rerun-if-changed={}", library.display());
    assert!(library.is_file(), "{} is missing: run `tools/build cornsunset`", library.display());
    println!("cargo:rustc-link-search=native={}", folder.display());
    println!("cargo:rustc-link-lib=static=cornsunset");
}
