//! Finds the static library, which `rt lib` in `crates/ccs` puts into that crate's `out/`; `CCS_LIB_DIR` names another folder.
use std::env;
use std::path::PathBuf;

fn main() {
    println!("cargo:rerun-if-env-changed=CCS_LIB_DIR");
    let package =
        PathBuf::from(env::var("CARGO_MANIFEST_DIR").expect("cargo names the package's folder"));
    let folder = match env::var_os("CCS_LIB_DIR") {
        Some(folder) => PathBuf::from(folder),
        None => package.join("../crates/ccs/out"),
    };
    let library = folder.join("libccs.a");
    println!("cargo:rerun-if-changed={}", library.display());
    assert!(
        library.exists(),
        "{} is missing: `rt lib` in crates/ccs builds it",
        library.display()
    );
    println!("cargo:rustc-link-search=native={}", folder.display());
    println!("cargo:rustc-link-lib=static=ccs");
}
