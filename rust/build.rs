//! Says where libsandpipercot.a is: in the folder that SANDPIPERCOT_LIB names, or in lib of the folder under which this crate was installed.
use std::{env, path::PathBuf};

fn main() {
    println!("cargo:rerun-if-env-changed=SANDPIPERCOT_LIB");
    let installed = || PathBuf::from(env::var_os("CARGO_MANIFEST_DIR").expect("cargo names it")).join("../..");
    let folder = env::var_os("SANDPIPERCOT_LIB").map_or_else(installed, PathBuf::from);
    if !folder.join("libsandpipercot.a").exists() {
        println!("cargo:warning=there is no {}/libsandpipercot.a: tools/quick.sh PREFIX installs it", folder.display());
    }
    println!("cargo:rustc-link-search=native={}", folder.display());
    println!("cargo:rustc-link-lib=static=sandpipercot");
}
