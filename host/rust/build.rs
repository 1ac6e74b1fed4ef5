//! Links the proved archive: the one that RYEBADGER_ARCHIVE names, or else the
//! one that the repository's host/build makes.

use std::env;
use std::path::{Path, PathBuf};
use std::process::Command;

fn main() {
    println!("cargo::rerun-if-env-changed=RYEBADGER_ARCHIVE");
    let archive = match env::var_os("RYEBADGER_ARCHIVE") {
        Some(path) => Ok(PathBuf::from(path)),
        None => made_here(),
    };
    match archive.and_then(|archive| link(&archive)) {
        Ok(()) => {}
        Err(trouble) => println!("cargo::error={trouble}"),
    }
}

/// Runs host/build, which does nothing where the archive is up to date.
fn made_here() -> Result<PathBuf, String> {
    let repository = Path::new(env!("CARGO_MANIFEST_DIR")).join("../..");
    for input in inputs(&repository) {
        println!("cargo::rerun-if-changed={}", input.display());
    }
    let build = repository.join("host/build");
    let made = Command::new(&build).output();
    let made = made.map_err(|error| format!("host/build could not be run: {error}"))?;
    if made.status.success() {
        Ok(repository.join("target/host/libryebadger.a"))
    } else {
        let said = [made.stdout, made.stderr].concat();
        let said = String::from_utf8_lossy(&said);
        let last = said.trim_end().lines().last().unwrap_or_default();
        Err(format!("host/build made no archive: {last}"))
    }
}

/// What the archive is made from. What the toolchain makes of a crate stands in the
/// crate's folder too, and is not among it.
fn inputs(repository: &Path) -> Vec<PathBuf> {
    let crates = repository.join("crates").read_dir().into_iter().flatten();
    let folders = crates.flatten().map(|folder| folder.path());
    let parts = folders.flat_map(|folder| ["src", "specs", "proofs"].map(|part| folder.join(part)));
    let files = ["crates.txt", "host/build"].map(|file| repository.join(file));
    files
        .into_iter()
        .chain(parts.filter(|part| part.is_dir()))
        .collect()
}

fn link(archive: &Path) -> Result<(), String> {
    let archive = archive
        .canonicalize()
        .map_err(|_| format!("there is no archive at {}", archive.display()))?;
    if archive.file_name() != Some("libryebadger.a".as_ref()) {
        return Err(format!("{} is not named libryebadger.a", archive.display()));
    }
    let folder = archive.parent().unwrap_or(Path::new("/"));
    println!("cargo::rerun-if-changed={}", archive.display());
    println!("cargo::rustc-link-search=native={}", folder.display());
    println!("cargo::rustc-link-lib=static=ryebadger");
    Ok(())
}
