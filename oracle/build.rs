//! Lays out the original files of succparen, byte for byte, under OUT_DIR, and writes the module that mounts them.
//!
//! At the place of a file in PEEKED stands a file of two lines: it includes the original, and it mounts one of our
//! own below it, which can read the private fields. No line of the original is edited.

use std::env;
use std::fs;
use std::path::{Path, PathBuf};

const COPIED: [&str; 8] = [
    "bitwise/mod.rs",
    "bitwise/fixnum.rs",
    "bitwise/ops.rs",
    "bitwise/string.rs",
    "tree/mod.rs",
    "tree/balanced_parens/mod.rs",
    "tree/traversal/mod.rs",
    "tree/traversal/tree_traversal.rs",
];

const PEEKED: [(&str, &str); 2] = [
    ("bitwise/sparse_one_nnd.rs", "src/peek/dictionary.rs"),
    ("tree/balanced_parens/parentheses.rs", "src/peek/tree.rs"),
];

// traversal/mod.rs names it, its text was not given, and nothing asked here uses it.
const STUB: (&str, &str) = ("tree/traversal/byte_lines.rs", "pub struct ByteLines;\n");

fn main() {
    let package = PathBuf::from(env::var("CARGO_MANIFEST_DIR").unwrap());
    let source = source(&package).join("src");
    let out = PathBuf::from(env::var("OUT_DIR").unwrap()).join("succparen");
    println!("cargo:rerun-if-env-changed=SUCCPAREN_SRC");
    println!("cargo:rerun-if-changed=build.rs");

    for name in COPIED {
        write(&out.join(name), &read(&source, name));
    }
    for (name, peek) in PEEKED {
        let original = name.replace(".rs", ".original.rs");
        write(&out.join(&original), &read(&source, name));
        let base = Path::new(&original).file_name().unwrap().to_str().unwrap();
        let peek = package.join(peek);
        let wrapper = format!("include!({base:?});\n#[path = {peek:?}] mod peek;\n");
        write(&out.join(name), wrapper.as_bytes());
    }
    write(&out.join(STUB.0), STUB.1.as_bytes());
    write(&out.join("mount.rs"), mount(&out).as_bytes());
}

/// The checkout that holds src/bitwise and src/tree.
fn source(package: &Path) -> PathBuf {
    match env::var("SUCCPAREN_SRC") {
        Ok(named) if !named.is_empty() => package.join(named),
        _ => package.join("../../shared/docs/src"),
    }
}

fn read(source: &Path, name: &str) -> Vec<u8> {
    let path = source.join(name);
    println!("cargo:rerun-if-changed={}", path.display());
    fs::read(&path).unwrap_or_else(|e| {
        eprintln!("{}: {e}", path.display());
        eprintln!("SUCCPAREN_SRC must name a checkout of succparen: the folder above src/bitwise");
        std::process::exit(1)
    })
}

fn write(path: &Path, bytes: &[u8]) {
    fs::create_dir_all(path.parent().unwrap()).unwrap();
    fs::write(path, bytes).unwrap();
}

fn mount(out: &Path) -> String {
    let one = |name: &str| {
        let path = out.join(name).join("mod.rs");
        format!("#[allow(dead_code, unused_imports)] #[path = {path:?}] pub mod {name};\n")
    };
    one("bitwise") + &one("tree")
}
