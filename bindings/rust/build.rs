//! Links the proved library: from the folder that HERONSPAN_STATICLIB names, else from target/staticlib of the repository.
use std::env;
use std::path::PathBuf;

fn main() {
    let folder = env::var_os("HERONSPAN_STATICLIB").map(PathBuf::from).unwrap_or_else(|| {
        PathBuf::from(env::var_os("CARGO_MANIFEST_DIR").expect("cargo names the crate's folder")).join("../../target/staticlib")
    });
    println!("cargo:rerun-if-env-changed=HERONSPAN_STATICLIB");
    println!("cargo:rerun-if-changed={}", folder.join("libcapi.a").display());
    println!("cargo:rustc-link-search=native={}", folder.display());
    println!("cargo:rustc-link-lib=static=capi");
}
