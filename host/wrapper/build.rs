//! Links the proved library where `./library register` has written it: below the
//! repository, or in the folder that the variable REGISTER_LIBRARY names. Without it
//! the crate builds, and `Register::open` says that it is not there.

use std::path::{Path, PathBuf};
use std::{env, fs};

/// From this crate's own folder.
const USUAL: &str = "../../target/staticlib";

fn main() {
    println!("cargo::rustc-check-cfg=cfg(has_register)");
    println!("cargo::rerun-if-env-changed=REGISTER_LIBRARY");
    println!("cargo::rerun-if-changed=build.rs");
    let named = env::var_os("REGISTER_LIBRARY").map(PathBuf::from);
    let place = named.unwrap_or_else(|| Path::new(USUAL).into());
    let library = place.join("libregister.a");
    println!("cargo::rerun-if-changed={}", library.display());
    let Ok(place) = fs::canonicalize(&place) else {
        return;
    };
    if library.is_file() {
        println!("cargo::rustc-link-search=native={}", place.display());
        println!("cargo::rustc-link-lib=static=register");
        println!("cargo::rustc-cfg=has_register");
    }
}
