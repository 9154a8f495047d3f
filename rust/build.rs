//! Links the proved library: `bin/build-library` writes it to target/staticlib; DEPOTS_LIB names another folder.

use std::path::Path;

const ARCHIVE: &str = "libdepot_link.a";

fn main() {
    println!("cargo::rerun-if-env-changed=DEPOTS_LIB");
    let named = std::env::var("DEPOTS_LIB").ok();
    let folder = named.clone().unwrap_or_else(|| format!("{}/../target/staticlib", env!("CARGO_MANIFEST_DIR")));
    let archive = Path::new(&folder).join(ARCHIVE);
    println!("cargo::rerun-if-changed={}", archive.display());
    if !archive.is_file() {
        println!("cargo::error={}", missing(named.as_deref()));
        return;
    }
    println!("cargo::rustc-link-search=native={folder}");
    println!("cargo::rustc-link-lib=static=depot_link");
}

/// What to do where the archive is not there.
fn missing(named: Option<&str>) -> String {
    match named {
        Some(folder) => format!("DEPOTS_LIB names {folder}, which holds no {ARCHIVE}: unset it, or name the folder that `bin/build-library` wrote it to"),
        None => format!("target/staticlib/{ARCHIVE} is not built: run `bin/build-library` in the project's root, which proves it and writes it"),
    }
}
