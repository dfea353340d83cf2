//! Finds the original's source and writes the modules that include it.

use std::path::{Path, PathBuf};
use std::{env, fs};

#[path = "src/mutations.rs"]
mod mutations;

const FILES: [&str; 6] = ["constants", "error", "mutex", "packet", "socket", "stream"];

fn main() {
    println!("cargo:rerun-if-env-changed=UDX_SOURCE");
    let here = PathBuf::from(env::var("CARGO_MANIFEST_DIR").unwrap());
    let source = match env::var("UDX_SOURCE") {
        Ok(path) => PathBuf::from(path),
        Err(_) => here.join("../../../shared/docs/src/src"),
    };
    for file in FILES {
        let path = source.join(format!("{file}.rs"));
        assert!(path.is_file(), "{} is missing: set UDX_SOURCE to the folder of the original's src/*.rs", path.display());
        println!("cargo:rerun-if-changed={}", path.display());
    }
    let source = source.canonicalize().unwrap();
    let out = PathBuf::from(env::var("OUT_DIR").unwrap());
    fs::write(out.join("original.rs"), modules(&source, &here.join("src"))).unwrap();
    for file in ["direct", "end", "gate", "mutations"] {
        println!("cargo:rerun-if-changed=src/{file}.rs");
    }
    println!("cargo:rerun-if-changed=build.rs");
    let mutants =
        if env::var("CARGO_FEATURE_MUTANTS").is_ok() { mutants(&source, &here.join("src"), &out) } else { String::new() };
    fs::write(out.join("mutants.rs"), mutants).unwrap();
}

/// One module for each mutation, with changed copies of all files, which build.rs puts into cargo's output folder.
fn mutants(source: &Path, ours: &Path, out: &Path) -> String {
    let mut text = String::new();
    let mut engines = String::new();
    for (index, mutation) in mutations::ALL.iter().enumerate() {
        let folder = out.join(format!("m{index}"));
        fs::create_dir_all(&folder).unwrap();
        let ours = ["direct", "end", "gate"].map(|file| (ours, file));
        for (from, file) in FILES.map(|file| (source, file)).into_iter().chain(ours) {
            let mut code = fs::read_to_string(from.join(format!("{file}.rs"))).unwrap();
            if file == mutation.file {
                assert_eq!(code.matches(mutation.from).count(), 1, "{}: '{}' in {file}.rs", mutation.name, mutation.from);
                code = code.replace(mutation.from, mutation.to);
            }
            code = code.replace("crate::", &format!("crate::mutants::m{index}::"));
            fs::write(folder.join(format!("{file}.rs")), code).unwrap();
        }
        text += &format!("pub mod m{index} {{\npub use crate::{{engine, shim, udp}};\n{}}}\n", modules(&folder, &folder));
        engines += &format!("m{index}::stream::end::ENGINE, ");
    }
    format!("{text}pub const ENGINES: &[crate::engine::Engine] = &[{engines}];\n")
}

/// The original's modules, each with the files that this project puts beside it: a child module sees the private fields.
fn modules(source: &Path, ours: &Path) -> String {
    let mut text = String::new();
    for file in ["constants", "error", "mutex", "packet"] {
        text += &format!("#[allow(warnings)]\n#[path = {:?}]\npub mod {file};\n", source.join(format!("{file}.rs")));
    }
    for (file, children) in [("socket", &["gate"][..]), ("stream", &["direct", "end"])] {
        text += &format!("#[allow(warnings)]\npub mod {file} {{\n    include!({:?});\n", source.join(format!("{file}.rs")));
        for child in children {
            text += &format!("    #[path = {:?}]\n    pub mod {child};\n", ours.join(format!("{child}.rs")));
        }
        text += "}\n";
    }
    text + "pub(crate) use socket::EventOutgoing;\n"
}
