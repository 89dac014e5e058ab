//! Hears from crate `bought` whether the bought source is there.

fn main() {
    println!("cargo:rustc-check-cfg=cfg(bought)");
    println!("cargo:rerun-if-changed=build.rs");
    if std::env::var_os("DEP_BOUGHT_SOURCE_PRESENT").is_some() {
        println!("cargo:rustc-cfg=bought");
    }
}
