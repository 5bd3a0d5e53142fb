//! Links the archive of the proved calls: the one that OXLANYARD_ARCHIVE names, or target/archive/liboxlanyard.a of
//! this repository.

use std::env;
use std::path::{Path, PathBuf};
use std::process::exit;

fn main() {
    println!("cargo:rerun-if-changed=build.rs");
    println!("cargo:rerun-if-env-changed=OXLANYARD_ARCHIVE");
    let named = env::var_os("OXLANYARD_ARCHIVE").map(PathBuf::from);
    let archive = named.clone().unwrap_or_else(|| {
        let here = env::var_os("CARGO_MANIFEST_DIR").expect("cargo names the folder of the crate");
        Path::new(&here).join("../../target/archive/liboxlanyard.a")
    });
    println!("cargo:rerun-if-changed={}", archive.display());
    let found = archive.canonicalize().ok().filter(|path| path.is_file());
    let parts = found.as_deref().and_then(|path| Some((path.parent()?, path.file_name()?)));
    let Some((folder, file)) = parts else { missing(&archive, named.is_some()) };
    println!("cargo:rustc-link-search=native={}", folder.display());
    println!("cargo:rustc-link-lib=static:+verbatim={}", Path::new(file).display());
}

/// Says which archive is not there and how to make it.
fn missing(archive: &Path, named: bool) -> ! {
    eprintln!("there is no archive of the proved calls at {}", archive.display());
    if named {
        eprintln!("OXLANYARD_ARCHIVE names that file; give the whole path of a liboxlanyard.a");
    }
    eprintln!("'./archive', in the top folder of the repository, makes target/archive/liboxlanyard.a");
    exit(1)
}
