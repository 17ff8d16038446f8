//! Links libstack_folds.a, from the folder STACK_FOLDS_LIB or else from where interface/library.sh writes it.
use std::{env, path::PathBuf};

fn main() {
    let folder = match env::var_os("STACK_FOLDS_LIB") {
        Some(folder) => PathBuf::from(folder),
        None => PathBuf::from(env::var_os("CARGO_MANIFEST_DIR").unwrap()).join("../../target/staticlib"),
    };
    println!("cargo:rustc-link-search=native={}", folder.display());
    println!("cargo:rustc-link-lib=static=stack_folds");
    println!("cargo:rerun-if-changed={}", folder.join("libstack_folds.a").display());
    println!("cargo:rerun-if-env-changed=STACK_FOLDS_LIB");
}
