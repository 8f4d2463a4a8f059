//! Links liblnlink.a: from the folder that LNLINK_LIB_DIR names, else from `bindings/lib`.

use std::env;
use std::path::PathBuf;

fn main() {
    println!("cargo:rerun-if-env-changed=LNLINK_LIB_DIR");
    let here = PathBuf::from(env::var_os("CARGO_MANIFEST_DIR").expect("cargo names the crate's folder"));
    let folder = env::var_os("LNLINK_LIB_DIR").map_or_else(|| here.join("../lib"), PathBuf::from);
    println!("cargo:rerun-if-changed={}", folder.join("liblnlink.a").display());
    println!("cargo:rustc-link-search=native={}", folder.display());
    println!("cargo:rustc-link-lib=static=lnlink");
}
