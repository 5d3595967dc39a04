//! Links the archive of the proved library, libhypergroup.a. `./archives` in the top folder makes it, and never this script: a proof takes minutes, and cargo shows
//! nothing of what a build script does. Where there is no archive, what links nothing (`cargo check`, `doc`, `clippy`) works all the same, with a warning, and a
//! build fails with the command's name. `HYPERGROUP_ARCHIVES` names another folder that has the archive, by an absolute path: cargo and the linker each start from
//! a folder of their own.
use std::fs;
use std::path::{Path, PathBuf};
use std::time::UNIX_EPOCH;

fn main() {
    println!("cargo:rerun-if-env-changed=HYPERGROUP_ARCHIVES");
    let root = Path::new(&told("CARGO_MANIFEST_DIR")).join("../..");
    let root = root.canonicalize().unwrap_or(root);
    let (folder, lacking) = match std::env::var("HYPERGROUP_ARCHIVES") {
        Ok(given) if Path::new(&given).is_relative() => (None, "HYPERGROUP_ARCHIVES is not an absolute path".to_string()),
        Ok(given) => (Some(PathBuf::from(given)), "HYPERGROUP_ARCHIVES names a folder without libhypergroup.a".to_string()),
        Err(_) => made(&root),
    };
    let mut there = false;
    if let Some(folder) = folder {
        let archive = folder.join("libhypergroup.a");
        there = archive.exists();
        println!("cargo:rerun-if-changed={}", archive.display());
        println!("cargo:rustc-link-search=native={}", folder.display());
    }
    // rustc says of a library that it does not find only its name: so this is where a build that fails can say why.
    if there {
        println!("cargo:rustc-link-lib=static=hypergroup");
    } else {
        println!("cargo:warning={lacking}. What links nothing (cargo check, doc, clippy) works without it.");
        println!("cargo:rustc-link-lib=static=hypergroup ({})", lacking.replace(':', " "));
        // A file that is never there: so this looks again each time, also for an archive that is copied here with an old date.
        println!("cargo:rerun-if-changed=nothing");
    }
}

fn told(variable: &str) -> String {
    std::env::var(variable).unwrap_or_default()
}

/// The folder in which `./archives` leaves the archive for the target, and what to say where it is not there.
fn made(root: &Path) -> (Option<PathBuf>, String) {
    let machine = ["ARCH", "OS", "POINTER_WIDTH"].map(|part| told(&format!("CARGO_CFG_TARGET_{part}")));
    let folder = match machine.each_ref().map(String::as_str) {
        ["x86_64", "linux", "64"] => root.join("target/staticlib"),
        ["aarch64", "linux", "64"] => {
            println!(
                "cargo:warning=This build is for Arm. Its modules are the proved ones, compiled by another back end than those that are shipped, which are for x86-64."
            );
            root.join("target/here/staticlib")
        }
        [arch, os, width] => {
            return (
                None,
                format!("The proved library is compiled for x86-64 Linux and 64-bit Arm Linux, not for {arch} {os} ({width}-bit)"),
            );
        }
    };
    old(root);
    let lacking = format!(
        "There is no {}/libhypergroup.a, run ./archives in {} to have the library proved and compiled",
        folder.display(),
        root.display()
    );
    (Some(folder), lacking)
}

/// Warns where a source has changed since the crates were proved: `./archives` notes when that began, in nanoseconds, and which crates are in the archive.
fn old(root: &Path) {
    let note = root.join("target/staticlib/proved");
    println!("cargo:rerun-if-changed={}", note.display());
    let note = fs::read_to_string(note).unwrap_or_default();
    let mut lines = note.lines();
    let Some(Ok(proved)) = lines.next().map(str::parse::<u128>) else { return };
    let folders = lines.flat_map(|name| ["src", "specs", "proofs"].map(|part| root.join("crates").join(name).join(part)));
    let folders: Vec<PathBuf> = folders.filter(|folder| folder.exists()).collect();
    folders.iter().for_each(|folder| println!("cargo:rerun-if-changed={}", folder.display()));
    if let Some(changed) = folders.into_iter().find_map(|folder| newer(folder, proved)) {
        println!(
            "cargo:warning={} has changed since the archive was made, which is linked as it is: ./archives in {} makes it anew.",
            changed.display(),
            root.display()
        );
    }
}

/// A file or folder at or below this path that was changed after the time.
fn newer(path: PathBuf, time: u128) -> Option<PathBuf> {
    let changed = fs::metadata(&path).and_then(|about| about.modified()).ok()?;
    if changed.duration_since(UNIX_EPOCH).ok()?.as_nanos() > time {
        return Some(path);
    }
    fs::read_dir(path).ok()?.flatten().find_map(|entry| newer(entry.path(), time))
}
