//! Links libvandrexu_c.a of the folder that VANDREXU_LIB_DIR names.
use std::path::Path;
use std::{env, process};

fn main() {
    println!("cargo::rerun-if-env-changed=VANDREXU_LIB_DIR");
    let Ok(folder) = env::var("VANDREXU_LIB_DIR") else {
        stop("VANDREXU_LIB_DIR isn't set: it names the folder of libvandrexu_c.a, by its whole path");
    };
    let archive = Path::new(&folder).join("libvandrexu_c.a");
    if !archive.is_absolute() || !archive.is_file() {
        stop(&format!("VANDREXU_LIB_DIR: there is no {}, by its whole path", archive.display()));
    }
    println!("cargo::rerun-if-changed={}", archive.display());
    println!("cargo::rustc-link-search=native={folder}");
    println!("cargo::rustc-link-lib=static=vandrexu_c");
}

fn stop(why: &str) -> ! {
    println!("cargo::error={why}");
    process::exit(1)
}
