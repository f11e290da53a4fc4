//! Links the static library that `rt lib` writes in the folder of the crate `ffi`, and the toolchain's C functions below it.

use std::{env, path::PathBuf};

fn main() {
    let root = PathBuf::from(env::var("CARGO_MANIFEST_DIR").unwrap()).join("../..");
    let library = root.join("crates/ffi/out");
    let toolchain = env::var("RATTLE_HOME").unwrap_or_else(|_| "/opt/rattle".into());
    println!("cargo:rerun-if-changed={}", library.join("libffi.a").display());
    println!("cargo:rustc-link-search=native={}", library.display());
    println!("cargo:rustc-link-search=native={toolchain}/c");
    println!("cargo:rustc-link-lib=static=ffi");
    println!("cargo:rustc-link-lib=static=os_c");
    println!("cargo:rustc-link-lib=static=libc_c");
}
