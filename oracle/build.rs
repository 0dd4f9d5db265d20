//! Lays out, in the build folder, the module tree of the original: links to
//! its files, which stay where they are and as they are, and between them the
//! stubs of this package. A file that something is appended to becomes two
//! `include!` lines, the link to the original first. The package bench, beside
//! this one, is built from the same tree by the same script.

use std::env;
use std::fs;
use std::io;
use std::path::Path;
use std::path::PathBuf;
use std::process;

enum Part {
    /// The original file, alone.
    Original,
    /// The original file, followed by src/appended/NAME.
    Appended(&'static str),
    /// Only src/stubs/NAME.
    Stub(&'static str),
}

use Part::*;

/// Module files under `src/` of the original.
const TREE: &[(&str, Part)] = &[
    ("minmax.rs", Stub("minmax.rs")),
    ("recovery/mod.rs", Stub("recovery.rs")),
    ("recovery/rtt.rs", Appended("rtt.rs")),
    ("recovery/bandwidth.rs", Appended("bandwidth.rs")),
    ("recovery/gcongestion/mod.rs", Appended("gcongestion.rs")),
    ("recovery/gcongestion/pacer.rs", Stub("pacer.rs")),
    ("recovery/gcongestion/recovery.rs", Stub("grecovery.rs")),
    ("recovery/gcongestion/bbr.rs", Appended("bbr.rs")),
    (
        "recovery/gcongestion/bbr/bandwidth_sampler.rs",
        Stub("bandwidth_sampler.rs"),
    ),
    (
        "recovery/gcongestion/bbr/windowed_filter.rs",
        Appended("windowed_filter.rs"),
    ),
    ("recovery/gcongestion/bbr2.rs", Appended("bbr2.rs")),
    ("recovery/gcongestion/bbr2/drain.rs", Original),
    ("recovery/gcongestion/bbr2/mode.rs", Appended("mode.rs")),
    (
        "recovery/gcongestion/bbr2/network_model.rs",
        Appended("network_model.rs"),
    ),
    (
        "recovery/gcongestion/bbr2/probe_bw.rs",
        Appended("probe_bw.rs"),
    ),
    (
        "recovery/gcongestion/bbr2/probe_rtt.rs",
        Stub("probe_rtt.rs"),
    ),
    ("recovery/gcongestion/bbr2/startup.rs", Stub("startup.rs")),
    (
        "recovery/gcongestion/bbr2/rtt_jump_detector/mod.rs",
        Original,
    ),
    (
        "recovery/gcongestion/bbr2/rtt_jump_detector/global_min.rs",
        Original,
    ),
    (
        "recovery/gcongestion/bbr2/rtt_jump_detector/hmm.rs",
        Original,
    ),
];

const DEFAULT_PLACE: &str = "../../shared/docs/src";

fn main() {
    println!("cargo:rerun-if-env-changed=ORIGINAL");
    println!("cargo:rerun-if-changed=../oracle/build.rs");

    let package = PathBuf::from(env::var_os("CARGO_MANIFEST_DIR").unwrap());
    let out = PathBuf::from(env::var_os("OUT_DIR").unwrap());

    let original = find_original(&package);
    let oracle = package.join("../oracle");
    if let Err(error) = lay_out(&original, &oracle, &out) {
        fail(&format!("The module tree can't be laid out: {error}."));
    }
}

/// The folder that holds `recovery/`.
fn find_original(package: &Path) -> PathBuf {
    let given = env::var("ORIGINAL").unwrap_or(DEFAULT_PLACE.to_string());
    let folder = package.join(&given);

    for sources in [folder.join("src"), folder.join("quiche/src")] {
        if sources.join("recovery").is_dir() {
            let sources = sources.canonicalize().unwrap_or(sources);
            for (file, part) in TREE {
                if !matches!(part, Stub(_)) && !sources.join(file).is_file() {
                    fail(&format!("The original in {given} has no file src/{file}."));
                }
            }
            return sources;
        }
    }

    fail(&format!(
        "The original is not in {given}: set ORIGINAL to the folder of \
         quiche 0.30.0 that holds src/recovery."
    ))
}

fn lay_out(original: &Path, oracle: &Path, out: &Path) -> io::Result<()> {
    let tree = out.join("recovery");
    if tree.exists() {
        fs::remove_dir_all(&tree)?;
    }

    for (file, part) in TREE {
        let place = out.join(file);
        fs::create_dir_all(place.parent().unwrap())?;

        match part {
            Original => link(&original.join(file), &place)?,
            Stub(name) => link(&oracle.join("src/stubs").join(name), &place)?,
            Appended(name) => {
                // The link stands in the folder in which `mod` lines of the
                // original have to find their files.
                let children = if place.ends_with("mod.rs") {
                    place.parent().unwrap().to_path_buf()
                } else {
                    place.with_extension("")
                };
                fs::create_dir_all(&children)?;
                let whole = children.join("original.rs");
                link(&original.join(file), &whole)?;

                let appended = oracle.join("src/appended").join(name);
                println!("cargo:rerun-if-changed={}", appended.display());
                fs::write(
                    &place,
                    format!("include!({whole:?});\ninclude!({appended:?});\n"),
                )?;
            }
        }
    }

    fs::write(
        out.join("original.rs"),
        "#[allow(warnings)]\nmod minmax;\n#[allow(warnings)]\nmod recovery;\n",
    )
}

fn link(from: &Path, to: &Path) -> io::Result<()> {
    println!("cargo:rerun-if-changed={}", from.display());
    // One of an earlier build.
    if to.symlink_metadata().is_ok() {
        fs::remove_file(to)?;
    }
    #[cfg(unix)]
    return std::os::unix::fs::symlink(from, to);
    #[cfg(not(unix))]
    return fs::copy(from, to).map(|_| ());
}

fn fail(sentence: &str) -> ! {
    eprintln!("{sentence}");
    process::exit(1);
}
