//! Finds libgodf.a and links it. Nothing is proved here, so that editors, `cargo check`, `cargo clippy` and `cargo doc` never start a
//! proof; they need no libgodf.a at all.
//!
//! GODF_LIBRARY is the folder of libgodf.a. A relative one is looked for in the project's root, then in rust/, then in rust/godf/, since a
//! build script does not know where cargo was called. Without GODF_LIBRARY, rust/archive finds the archive that belongs to the sources. If
//! there is none, a warning names `dist/build`, which proves and builds it, and linking fails.

use std::{
    env, fs,
    path::{Path, PathBuf},
    process::{exit, Command, Stdio},
};

const ARCHIVE: &str = "libgodf.a";
/// A call that archives before 0.2.0 do not have.
const NEWEST_CALL: &str = "godf_version";

fn stop(message: &str) -> ! {
    println!("cargo:warning=godf: {message}");
    eprintln!("godf: {message}");
    exit(1)
}

fn watch(path: &Path) {
    println!("cargo:rerun-if-changed={}", path.display());
}

/// The folder that GODF_LIBRARY names.
fn named(project: &Path, folder: &Path) -> PathBuf {
    let from = ["", "rust", "rust/godf"].map(|from| project.join(from).join(folder));
    let found = from.iter().find(|folder| folder.join(ARCHIVE).is_file());
    let Some(found) = found else {
        let tried: Vec<String> = from.iter().map(|folder| folder.display().to_string()).collect();
        let tried = if folder.is_absolute() { &tried[..1] } else { &tried };
        stop(&format!(
            "GODF_LIBRARY names a folder without {ARCHIVE}: {}",
            tried.join(", ")
        ))
    };
    found.clone()
}

/// The folder of the archive that belongs to the sources as they are, if there is one.
fn found(project: &Path) -> Option<PathBuf> {
    let script = project.join("rust/archive");
    for source in ["crates.txt", "dist"] {
        watch(&project.join(source));
    }
    // all of a crate but out/, which holds what rt keeps
    let inside = |folder: PathBuf| fs::read_dir(folder).into_iter().flatten().flatten();
    for part in inside(project.join("crates")).flat_map(|each| inside(each.path())) {
        if part.file_name() != "out" {
            watch(&part.path());
        }
    }
    watch(&script);
    let output = Command::new(&script).stdin(Stdio::null()).output().ok()?;
    let folder = String::from_utf8(output.stdout).ok()?;
    output.status.success().then(|| PathBuf::from(folder.trim_end()))
}

/// Whether an archive is of this crate's version, as far as its names tell; a test asks it for its number.
fn check_version(archive: &Path) -> Result<(), String> {
    let bytes = fs::read(archive).map_err(|e| format!("{}: {e}", archive.display()))?;
    let newest = NEWEST_CALL.as_bytes();
    if bytes.windows(newest.len()).any(|name| name == newest) {
        return Ok(());
    }
    Err(format!(
        "{} has no {NEWEST_CALL}: it is older than this crate",
        archive.display()
    ))
}

fn main() {
    println!("cargo:rerun-if-env-changed=GODF_LIBRARY");
    watch(Path::new("build.rs"));
    let here = PathBuf::from(env::var_os("CARGO_MANIFEST_DIR").expect("CARGO_MANIFEST_DIR"));
    // this folder is rust/godf of the project
    let project = here.ancestors().nth(2).unwrap_or(&here);
    let usable = match env::var_os("GODF_LIBRARY").filter(|name| !name.is_empty()) {
        Some(name) => {
            let folder = named(project, Path::new(&name));
            check_version(&folder.join(ARCHIVE)).unwrap_or_else(|what| stop(&what));
            Ok(folder)
        }
        None => {
            let folder = found(project).ok_or_else(|| format!("there is no {ARCHIVE} of these sources"));
            folder.and_then(|folder| check_version(&folder.join(ARCHIVE)).map(|()| folder))
        }
    };
    match usable {
        Ok(folder) => {
            watch(&folder.join(ARCHIVE));
            println!("cargo:rustc-link-search=native={}", folder.display());
        }
        Err(what) => {
            // a file that does not exist: this script runs again at the next build
            watch(&here.join("no-libgodf"));
            println!("cargo:warning=godf: {what}. `cargo check` works without it; to link, run dist/build in {}, which proves and builds it, or set GODF_LIBRARY to its folder", project.display());
        }
    }
    println!("cargo:rustc-link-lib=static=godf");
}
