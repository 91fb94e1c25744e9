//! Links the proved driver and the read routines: the static libraries that `rt staticlib` writes of `cyw43_c` and `reads_c`.

use std::{env, path::PathBuf};

fn main() {
    let here = PathBuf::from(env::var("CARGO_MANIFEST_DIR").unwrap());
    let folder = match env::var("CYW43_STATICLIB") {
        Ok(folder) => PathBuf::from(folder),
        Err(_) => here.join("../../target/staticlib"),
    };
    println!("cargo:rerun-if-env-changed=CYW43_STATICLIB");
    println!("cargo:rustc-link-search=native={}", folder.display());
    for library in ["cyw43_c", "reads_c"] {
        println!("cargo:rerun-if-changed={}", folder.join(format!("lib{library}.a")).display());
        println!("cargo:rustc-link-lib=static={library}");
    }
}
