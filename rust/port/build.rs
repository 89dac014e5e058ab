//! Finds the proved archive, `libhost.a`, and links it: in the folder that `TYPECHECK_ARCHIVE_DIR` names, or else in the repository's
//! `target/staticlib`. Where it is not there the crate builds with `cfg(no_archive)`, and the reference reading answers in its place;
//! but the text entries are taken from `libtext_entries.a` if that is there (`cfg(text_archive)`).

use std::env;
use std::path::PathBuf;

fn main() {
    println!("cargo:rustc-check-cfg=cfg(no_archive)");
    println!("cargo:rustc-check-cfg=cfg(text_archive)");
    println!("cargo:rerun-if-env-changed=TYPECHECK_ARCHIVE_DIR");
    println!("cargo:rerun-if-changed=build.rs");
    let own = PathBuf::from(env::var_os("CARGO_MANIFEST_DIR").unwrap());
    let repository = own.ancestors().nth(2).unwrap();
    let given = env::var_os("TYPECHECK_ARCHIVE_DIR").filter(|d| !d.is_empty()).map(PathBuf::from);
    let folder = given.unwrap_or_else(|| repository.join("target/staticlib"));
    let archive = folder.join("libhost.a");
    // A file that is not there counts as changed, so an archive that appears later is found.
    println!("cargo:rerun-if-changed={}", archive.display());
    println!("cargo:rustc-env=TYPECHECK_ARCHIVE={}", archive.display());
    let texts = folder.join("libtext_entries.a");
    println!("cargo:rerun-if-changed={}", texts.display());
    if archive.is_file() || texts.is_file() {
        println!("cargo:rustc-link-search=native={}", folder.display());
    }
    if archive.is_file() {
        println!("cargo:rustc-link-lib=static=host");
    } else {
        println!("cargo:rustc-cfg=no_archive");
    }
    // The host's archive has the text entries too.
    if texts.is_file() && !archive.is_file() {
        println!("cargo:rustc-cfg=text_archive");
        println!("cargo:rustc-link-lib=static=text_entries");
    }
}
