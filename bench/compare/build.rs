//! Links the archive of crate bench_path, the engine's calls made from Rattle. `udx` links the engine's own archive: both fit into one
//! program, since each hides all but its C functions.
use std::path::Path;
use std::process::exit;

fn main() {
    let folder = Path::new(env!("CARGO_MANIFEST_DIR")).join("../../target/staticlib");
    let archive = folder.join("libbench_path.a");
    println!("cargo:rerun-if-changed={}", archive.display());
    if !archive.is_file() {
        eprintln!("{} is missing: build it with `bash tools/build bench_path`", archive.display());
        exit(1);
    }
    println!("cargo:rustc-link-search=native={}", folder.display());
    println!("cargo:rustc-link-lib=static=bench_path");
}
