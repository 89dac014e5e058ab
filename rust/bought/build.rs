//! Assembles the tree that is compiled: the bought files, copied unedited from where they lie, and beside them the
//! stand-ins of `standins/`, each only where the bought source has no file of that name. The tree is made in the
//! build's own folder; nothing of the bought text enters the repository.
//!
//! The source is looked for in `BOUGHT_RUST_SRC`, or else in `../shared/docs/src` beside the repository. Where it is not
//! there the crate builds without it (no `cfg(bought)`), and says so when asked.

use std::path::{Path, PathBuf};
use std::{env, fs};

/// The bought files that are compiled, from `crates/rossi/src`. Its root, `lib.rs`, names much that was not bought: ours stands in.
const BOUGHT: [&str; 20] = [
    "ast/mod.rs",
    "builtins.rs",
    "formula/assignment.rs",
    "formula/caches.rs",
    "formula/decl.rs",
    "formula/expression.rs",
    "formula/extension/mod.rs",
    "formula/factory.rs",
    "formula/hashing.rs",
    "formula/mod.rs",
    "formula/predicate.rs",
    "formula/tag.rs",
    "formula/typecheck/mod.rs",
    "formula/typecheck/unifier.rs",
    "formula/typenv.rs",
    "formula/types.rs",
    "formula/wd/mod.rs",
    "keywords.rs",
    "names.rs",
    "operators.rs",
];

/// Our stand-ins, by the place they take.
const STAND_INS: [&str; 15] = [
    "ast/context.rs",
    "ast/event.rs",
    "ast/machine.rs",
    "ast/visit_mut.rs",
    "formula/ba.rs",
    "formula/extension/datatype.rs",
    "formula/fresh.rs",
    "formula/occurrences.rs",
    "formula/position.rs",
    "formula/rewrite.rs",
    "formula/subst.rs",
    "formula/wd/computer.rs",
    "formula/wd/fb.rs",
    "formula/wd/improver.rs",
    "parser.rs",
];

fn main() {
    println!("cargo:rustc-check-cfg=cfg(bought)");
    println!("cargo:rerun-if-env-changed=BOUGHT_RUST_SRC");
    println!("cargo:rerun-if-changed=standins");
    let own = PathBuf::from(env::var_os("CARGO_MANIFEST_DIR").unwrap());
    let repository = own.ancestors().nth(2).unwrap();
    let given = env::var_os("BOUGHT_RUST_SRC").filter(|d| !d.is_empty()).map(PathBuf::from);
    let source = given.unwrap_or_else(|| repository.join("../shared/docs/src"));
    let source = source.canonicalize().unwrap_or(source);
    println!("cargo:rustc-env=BOUGHT_SOURCE={}", source.display());
    println!("cargo:rerun-if-changed={}", source.display());

    let rossi = source.join("crates/rossi/src");
    if !BOUGHT.iter().all(|file| rossi.join(file).is_file()) {
        return;
    }
    let tree = PathBuf::from(env::var_os("OUT_DIR").unwrap()).join("tree");
    let _ = fs::remove_dir_all(&tree);
    for file in BOUGHT {
        copy(&rossi.join(file), &tree.join(file));
    }
    for file in STAND_INS {
        assert!(!BOUGHT.contains(&file), "a stand-in would hide the bought {file}");
        copy(&own.join("standins").join(file), &tree.join(file));
    }
    // An included file finds its modules by path alone.
    let mut root = String::new();
    for (module, file) in [
        ("ast", "ast/mod.rs"),
        ("builtins", "builtins.rs"),
        ("formula", "formula/mod.rs"),
        ("keywords", "keywords.rs"),
        ("names", "names.rs"),
        ("operators", "operators.rs"),
        ("parser", "parser.rs"),
    ] {
        let path = tree.join(file);
        root += &format!("#[allow(dead_code, unused_imports, clippy::all)]\n#[path = {:?}]\npub mod {module};\n", path.to_str().unwrap());
    }
    fs::write(tree.join("modules.rs"), root).unwrap();
    println!("cargo:rustc-cfg=bought");
    // For the build scripts of crates that name the bought source's own types.
    println!("cargo:present=1");
}

fn copy(from: &Path, to: &Path) {
    println!("cargo:rerun-if-changed={}", from.display());
    fs::create_dir_all(to.parent().unwrap()).unwrap();
    let text = fs::read(from).unwrap_or_else(|e| panic!("{}: {e}", from.display()));
    fs::write(to, text).unwrap();
}
