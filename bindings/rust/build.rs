//! Links the archives of both kernels, from the folder that TUMASHQIN_LIB names or from where `rt lib` leaves them in the repository.
use std::path::{Path, PathBuf};
use std::{env, process};

fn main() {
    let crates = Path::new(env!("CARGO_MANIFEST_DIR")).join("../../crates");
    let named = env::var_os("TUMASHQIN_LIB").map(PathBuf::from);
    println!("cargo:rerun-if-env-changed=TUMASHQIN_LIB");
    for library in ["exports", "block_exports"] {
        let folder = named.clone().unwrap_or_else(|| crates.join(library).join("out"));
        println!("cargo:rustc-link-search=native={}", folder.display());
        let archive = folder.join(format!("lib{library}.a"));
        println!("cargo:rerun-if-changed={}", archive.display());
        println!("cargo:rustc-link-lib=static={library}");
        if !archive.is_file() {
            eprintln!("error: there is no {}", archive.display());
            eprintln!(
                "help: run `rt lib` in the repository's crates/{library}, or name the folder of both archives in TUMASHQIN_LIB"
            );
            process::exit(1);
        }
    }
}
