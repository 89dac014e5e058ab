//! Finds the archive of crate `unifier_trial` (`tools/archive unifier_trial`) as `port` finds its own, and links it; without it the crate builds with
//! `cfg(no_archive)` and says that nothing was measured.

use std::env;
use std::path::PathBuf;

fn main() {
    println!("cargo:rustc-check-cfg=cfg(no_archive)");
    println!("cargo:rerun-if-env-changed=TYPECHECK_ARCHIVE_DIR");
    println!("cargo:rerun-if-changed=build.rs");
    let own = PathBuf::from(env::var_os("CARGO_MANIFEST_DIR").unwrap());
    let repository = own.ancestors().nth(2).unwrap();
    let given = env::var_os("TYPECHECK_ARCHIVE_DIR").filter(|d| !d.is_empty()).map(PathBuf::from);
    let folder = given.unwrap_or_else(|| repository.join("target/staticlib"));
    let archive = folder.join("libunifier_trial.a");
    println!("cargo:rerun-if-changed={}", archive.display());
    if archive.is_file() {
        println!("cargo:rustc-link-search=native={}", folder.display());
        println!("cargo:rustc-link-lib=static=unifier_trial");
    } else {
        println!("cargo:rustc-cfg=no_archive");
    }
}
