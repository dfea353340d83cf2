//! Finds the engine's archive: the file that UDX_ARCHIVE names, or what `bash tools/build udx_c` leaves in this repository.
use std::env;
use std::path::{Path, PathBuf};
use std::process::exit;

fn main() {
    println!("cargo:rerun-if-env-changed=UDX_ARCHIVE");
    let default = Path::new(env!("CARGO_MANIFEST_DIR")).join("../../target/staticlib/libudx_c.a");
    let archive = env::var_os("UDX_ARCHIVE").map_or(default, PathBuf::from);
    println!("cargo:rerun-if-changed={}", archive.display());
    let Ok(archive) = archive.canonicalize() else {
        eprintln!(
            "{} is missing: build it with `bash tools/build udx_c`, or name it in UDX_ARCHIVE",
            archive.display()
        );
        exit(1);
    };
    let name = archive
        .file_name()
        .and_then(|n| n.to_str())
        .and_then(|n| n.strip_prefix("lib"))
        .and_then(|n| n.strip_suffix(".a"));
    let (Some(name), Some(folder)) = (name, archive.parent()) else {
        eprintln!("{} is not named lib*.a", archive.display());
        exit(1);
    };
    println!("cargo:rustc-link-search=native={}", folder.display());
    println!("cargo:rustc-link-lib=static={name}");
}
