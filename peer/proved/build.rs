//! Links the proved archive when FIGWIMPLE_ARCHIVE gives its path (`libfigwimple.a`, or a shared library of the same
//! functions). Without it the crate builds all the same and says that there is nothing to call.

use std::env;
use std::fs;
use std::path::PathBuf;

fn main() {
    println!("cargo::rustc-check-cfg=cfg(figwimple_archive)");
    println!("cargo::rerun-if-env-changed=FIGWIMPLE_ARCHIVE");
    let Some(given) = env::var_os("FIGWIMPLE_ARCHIVE").filter(|path| !path.is_empty()) else {
        return;
    };
    let archive = fs::canonicalize(PathBuf::from(&given))
        .unwrap_or_else(|error| panic!("FIGWIMPLE_ARCHIVE {}: {error}", given.display()));
    println!("cargo::rerun-if-changed={}", archive.display());

    let folder = archive.parent().expect("a file is in a folder").display().to_string();
    let stem = archive.file_stem().and_then(|stem| stem.to_str()).unwrap_or_default();
    let name = stem.strip_prefix("lib").unwrap_or_else(|| panic!("{stem} does not start with lib"));
    let kind = if archive.extension().is_some_and(|extension| extension == "a") { "static" } else { "dylib" };
    println!("cargo::rustc-link-search=native={folder}");
    println!("cargo::rustc-link-lib={kind}={name}");
    println!("cargo::rustc-cfg=figwimple_archive");
}
