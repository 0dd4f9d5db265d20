//! Finds the archive of the proved calls and has it linked.

use std::env;
use std::path::Path;
use std::path::PathBuf;
use std::process;

/// Where `make archive` writes it, seen from the repository's top folder.
const ARCHIVE: &str = "target/staticlib/libguovssalu.a";

fn main() {
    println!("cargo:rerun-if-changed=build.rs");
    println!("cargo:rerun-if-env-changed=GUOVSSALU_ARCHIVE");
    if env::var_os("CARGO_FEATURE_LINK").is_none() {
        return;
    }
    match env::var_os("GUOVSSALU_ARCHIVE") {
        Some(given) if given.is_empty() => (),
        Some(given) => link(Path::new(&given)),
        None => link(&of_this_repository()),
    }
}

/// The archive in the repository that this package stands in. It is for x86-64.
fn of_this_repository() -> PathBuf {
    let target = env::var("CARGO_CFG_TARGET_ARCH").unwrap_or_default();
    if target != "x86_64" {
        stop(&format!(
            "The archive of Guovssalu is for x86-64, and this target is {}.",
            target
        ));
    }
    let package = PathBuf::from(env::var_os("CARGO_MANIFEST_DIR").unwrap_or_default());
    match package.ancestors().nth(2) {
        Some(top) => top.join(ARCHIVE),
        None => stop("This package stands in no repository of Guovssalu."),
    }
}

/// Has an archive linked into every program above this package.
fn link(archive: &Path) {
    println!("cargo:rerun-if-changed={}", archive.display());
    if !archive.is_absolute() {
        stop(&format!(
            "GUOVSSALU_ARCHIVE is {}, which is no full path.",
            archive.display()
        ));
    }
    if !archive.is_file() {
        stop(&format!("There is no archive {}.", archive.display()));
    }
    let name = archive.file_name().and_then(|name| name.to_str());
    let name = name.and_then(|name| name.strip_prefix("lib")?.strip_suffix(".a"));
    match (name, archive.parent()) {
        (Some(name), Some(folder)) => {
            println!("cargo:rustc-link-search=native={}", folder.display());
            println!("cargo:rustc-link-lib=static={}", name);
        }
        _ => stop(&format!(
            "The archive {} is not called libNAME.a.",
            archive.display()
        )),
    }
}

/// Ends the build with what is wrong and what can be done.
fn stop(wrong: &str) -> ! {
    eprintln!(
        "{wrong}\n\
         `make archive`, in the repository's top folder, proves the calls and writes {ARCHIVE}, on \
         x86-64. The variable GUOVSSALU_ARCHIVE names an archive elsewhere, by its full path. Set \
         to nothing it has none linked: enough for `cargo check`."
    );
    process::exit(1);
}
