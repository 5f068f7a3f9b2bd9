//! Writes the module declarations of the Rust's files, by path. The folder is ORACLE_SRC, or `shared/docs/src/src` beside the repository.

use std::path::{Path, PathBuf};
use std::{env, fs};

/// The files that are compiled, with the module that each becomes. Those of `model` are named by its own `mod.rs`.
const MODULES: [(&str, &str); 2] = [("timerange", "timerange.rs"), ("model", "model/mod.rs")];

/// The files that must be there.
const FILES: [&str; 6] = [
    "timerange.rs",
    "model/mod.rs",
    "model/problem.rs",
    "model/assignment.rs",
    "model/score.rs",
    "search/moves.rs",
];

fn main() {
    let here = PathBuf::from(env::var("CARGO_MANIFEST_DIR").expect("cargo names the package's folder"));
    let source = env::var("ORACLE_SRC")
        .map(PathBuf::from)
        .unwrap_or_else(|_| here.join("../../../shared/docs/src/src"));
    println!("cargo:rerun-if-env-changed=ORACLE_SRC");

    for file in FILES {
        let path = source.join(file);
        assert!(path.is_file(), "{} is not there", path.display());
        println!("cargo:rerun-if-changed={}", path.display());
    }

    let absolute = fs::canonicalize(&source).expect("the folder is there");
    let mut text = String::new();
    for (module, file) in MODULES {
        text.push_str(&declaration(&absolute, module, file));
    }
    text.push_str("pub mod search {\n");
    text.push_str("pub use crate::incremental;\n");
    text.push_str(&declaration(&absolute, "moves", "search/moves.rs"));
    text.push_str("}\n");

    let out = PathBuf::from(env::var("OUT_DIR").expect("cargo names the folder for output")).join("files.rs");
    fs::write(out, text).expect("the declarations can be written");
}

/// One module, read from where it stands. What the Rust itself never calls is no fault here.
fn declaration(source: &Path, module: &str, file: &str) -> String {
    format!(
        "#[allow(dead_code, unused_imports)]\n#[path = {:?}]\npub mod {};\n",
        source.join(file),
        module
    )
}
