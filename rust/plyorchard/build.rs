//! Links the proved functions: `crates/exports/out/libexports.a` of this repository.
//! Where the archive is missing, or older than a Rattle source, `rt lib` in `crates/exports` writes it first.

use std::path::{Path, PathBuf};
use std::process::Command;
use std::time::SystemTime;
use std::{env, fs, io};

fn main() {
    let root = Path::new(env!("CARGO_MANIFEST_DIR")).join("../..");
    let folder = root.join("crates/exports/out");
    let archive = folder.join("libexports.a");
    let sources = sources(&root);

    for path in sources.iter().chain([&archive]) {
        println!("cargo::rerun-if-changed={}", path.display());
    }
    if env::var("CARGO_CFG_TARGET_ARCH").as_deref() != Ok("x86_64") {
        println!("cargo::warning=the proved functions are x86-64 code and link only with --target x86_64-unknown-linux-gnu");
    }
    let newest_source = sources.iter().filter_map(|path| newest(path).ok()).max();
    let made = fs::metadata(&archive).and_then(|file| file.modified()).ok();
    if made.is_none() || made < newest_source {
        if let Err(why) = make(&root) {
            why.lines().for_each(|line| println!("cargo::error={line}"));
        }
    }
    println!("cargo::rustc-link-search=native={}", folder.display());
    println!("cargo::rustc-link-lib=static=exports");
}

/// What the archive is made from: `crates.txt`, and each crate without its `out/`.
fn sources(root: &Path) -> Vec<PathBuf> {
    let crates = fs::read_dir(root.join("crates"));
    let folders = crates.into_iter().flatten().flatten();
    let parts =
        folders.flat_map(|folder| ["src", "specs", "proofs"].map(|part| folder.path().join(part)));
    let parts = parts.filter(|part| part.is_dir());
    parts.chain([root.join("crates.txt")]).collect()
}

/// When the newest Rattle file at or below this path was written.
fn newest(path: &Path) -> io::Result<SystemTime> {
    if !path.is_dir() {
        return fs::metadata(path)?.modified();
    }
    let mut latest = SystemTime::UNIX_EPOCH;
    for entry in fs::read_dir(path)? {
        let below = entry?.path();
        let rattle = below
            .extension()
            .is_some_and(|end| end == "rt" || end == "antt");
        if rattle || below.is_dir() {
            latest = latest.max(newest(&below)?);
        }
    }
    Ok(latest)
}

/// Proves the exported functions and writes the archive.
fn make(root: &Path) -> Result<(), String> {
    let mut rt = Command::new("rt");
    let said = rt
        .arg("lib")
        .current_dir(root.join("crates/exports"))
        .output();
    let said =
        said.map_err(|why| format!("cannot run rt, the command of the Rattle toolchain: {why}"))?;
    if said.status.success() {
        return Ok(());
    }
    let lines = [said.stdout, said.stderr].concat();
    Err(format!(
        "`rt lib` failed in crates/exports:\n{}",
        String::from_utf8_lossy(&lines)
    ))
}
