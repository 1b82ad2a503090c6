//! Writes `oracle.rs`, the declarations that make the ten files of the original
//! modules of the library. They are compiled where they lie: neither copied nor edited.
//! With the feature `bench` or `compare`, hands the port's libraries to the linker, and with the
//! former those of others too.

use std::env;
use std::error::Error;
use std::fmt::Write;
use std::fs;
use std::path::{Path, PathBuf};

/// Names the folder that holds the original's `LICENSE` and `src/`.
const ORIGINAL: &str = "FOZDRIK_RUST";
/// Where that folder is if the variable is not set. Relative paths, this one, the
/// variable's and those of the libraries, start at the root of the repository.
const ORIGINAL_DEFAULT: &str = "../shared/docs/src";

/// Names the folder that holds the port's libraries.
const LIBRARY: &str = "FOZDRIK_LIBRARY";

/// A binary that is linked with libraries of the port. Its feature has its name.
struct Linked {
    binary: &'static str,
    /// How cargo tells this program of the feature.
    feature: &'static str,
    /// Where the libraries are if the variable is not set.
    default: &'static str,
    files: &'static [&'static str],
}

const LINKED: [Linked; 2] = [
    Linked {
        binary: "bench",
        feature: "CARGO_FEATURE_BENCH",
        default: "build/bench",
        files: &[
            "libbench_blocks.a",
            "libbench_pmv.a",
            "libcontestants.a",
            "libfozdrik.a",
        ],
    },
    Linked {
        binary: "compare",
        feature: "CARGO_FEATURE_COMPARE",
        default: "crates/fozdrik/out",
        files: &["libfozdrik.a"],
    },
];

/// A library of others that `bench` measures where it is installed.
struct Measured {
    /// Names its archives, in the order in which they are linked; empty where they are not there.
    variable: &'static str,
    /// How the code is told that it is there.
    configuration: &'static str,
}

const MEASURED: [Measured; 2] = [
    Measured {
        variable: "FOZDRIK_LIBAVCODEC",
        configuration: "avcodec",
    },
    Measured {
        variable: "FOZDRIK_LIBMPEG2",
        configuration: "mpeg2",
    },
];

const MODULES: [&str; 10] = [
    "combine_predictions",
    "dual_prime",
    "forming_predictions",
    "frame_assembly",
    "inter_reconstruction",
    "macroblock_modes",
    "motion_vector",
    "mpeg2_block_dc",
    "picture_header",
    "pmv",
];

fn main() {
    if let Err(message) = write_declarations().and_then(|()| link_libraries()) {
        println!("cargo::error={message}");
    }
}

fn write_declarations() -> Result<(), Box<dyn Error>> {
    let (given, folder) = folder(ORIGINAL, ORIGINAL_DEFAULT)?;
    let mut declarations = String::new();
    for module in MODULES {
        let file = folder.join("src").join(module).with_extension("rs");
        let file = there(&file).map_err(|cause| {
            format!(
                "the Rust original is not there: {cause}. Set {ORIGINAL} to the folder that \
                 holds its LICENSE and src/ (now {given:?}; a relative path starts at the \
                 root of the repository)",
            )
        })?;
        // Not ours to lint; and what only the rest of the original uses is unused here.
        writeln!(declarations, "#[allow(dead_code, clippy::all)]")?;
        writeln!(declarations, "#[path = {file:?}]")?;
        writeln!(declarations, "pub mod {module};")?;
    }

    let place = Path::new(&env::var("OUT_DIR")?).join("oracle.rs");
    fs::write(place, declarations)?;
    Ok(())
}

fn link_libraries() -> Result<(), Box<dyn Error>> {
    for linked in LINKED {
        if env::var_os(linked.feature).is_some() {
            link(&linked)?;
        }
    }
    for Measured { configuration, .. } in MEASURED {
        println!("cargo::rustc-check-cfg=cfg({configuration})");
    }
    if env::var_os("CARGO_FEATURE_BENCH").is_some() {
        link_measured()?;
    }
    Ok(())
}

fn link_measured() -> Result<(), Box<dyn Error>> {
    for Measured {
        variable,
        configuration,
    } in MEASURED
    {
        println!("cargo::rerun-if-env-changed={variable}");
        let archives = env::var_os(variable).unwrap_or_default();
        if archives.is_empty() {
            continue;
        }
        println!("cargo::rustc-cfg={configuration}");
        for archive in env::split_paths(&archives) {
            println!("cargo::rustc-link-arg-bin=bench={}", there(&archive)?);
        }
    }
    println!("cargo::rustc-link-arg-bin=bench=-lm");
    // The objects in libavcodec's archive are not position independent.
    println!("cargo::rustc-link-arg-bin=bench=-no-pie");
    Ok(())
}

fn link(linked: &Linked) -> Result<(), Box<dyn Error>> {
    let (given, folder) = folder(LIBRARY, linked.default)?;
    for name in linked.files {
        let file = there(&folder.join(name)).map_err(|cause| {
            format!(
                "a library of the port is not there: {cause}. Set {LIBRARY} to the folder that \
                 holds {} (now {given:?}; a relative path starts at the root of the repository)",
                linked.files.join(", "),
            )
        })?;
        // The binary alone: a library that cargo links goes into `oracle`, and so into `lists`.
        println!("cargo::rustc-link-arg-bin={}={file}", linked.binary);
    }
    Ok(())
}

/// The folder that a variable names, as given and from the root of the repository.
fn folder(variable: &str, default: &str) -> Result<(String, PathBuf), Box<dyn Error>> {
    println!("cargo::rerun-if-env-changed={variable}");
    let package = env::var("CARGO_MANIFEST_DIR")?;
    let root = Path::new(&package)
        .parent()
        .ok_or("the package has no folder above it")?;
    let given = env::var(variable).unwrap_or_else(|_| default.to_owned());
    let folder = root.join(&given);
    Ok((given, folder))
}

/// The whole path of a file, whose changes are watched; or what is wrong with it.
fn there(file: &Path) -> Result<String, String> {
    println!("cargo::rerun-if-changed={}", file.display());
    let whole = file
        .canonicalize()
        .map_err(|cause| format!("{} ({cause})", file.display()))?;
    let path = whole.to_str().ok_or("its path is not UTF-8")?;
    Ok(path.to_owned())
}
