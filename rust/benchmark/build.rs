//! Hears from crate `bought` whether the bought source is there, and notes the name of the profile.

use std::env;
use std::path::PathBuf;

fn main() {
    println!("cargo:rustc-check-cfg=cfg(bought)");
    println!("cargo:rerun-if-changed=build.rs");
    if env::var_os("DEP_BOUGHT_SOURCE_PRESENT").is_some() {
        println!("cargo:rustc-cfg=bought");
    }
    // TARGET/PROFILE/build/NAME/out
    let out = PathBuf::from(env::var_os("OUT_DIR").unwrap());
    let profile = out.ancestors().nth(3).and_then(|folder| folder.file_name()).unwrap_or_default();
    println!("cargo:rustc-env=BUILD_PROFILE={}", profile.to_string_lossy());
}
