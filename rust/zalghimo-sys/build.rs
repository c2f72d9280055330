//! Links the proved static library from the repository's target directory, and has it built first where it is not
//! there or older than what it is built from.

use std::env;
use std::fs;
use std::path::{Path, PathBuf};
use std::process::{exit, Command};
use std::time::SystemTime;

fn main() {
    judge_target();
    let manifest = env::var("CARGO_MANIFEST_DIR").expect("set by cargo");
    let root = Path::new(&manifest).join("../..");
    let root = root.canonicalize().expect("the repository's root");
    let directory = root.join("target/staticlib");
    let archive = directory.join("libzalghimo.a");
    let sources = sources(root.join("crates.txt"), &root.join("crates"));
    for path in [&archive].into_iter().chain(&sources) {
        println!("cargo:rerun-if-changed={}", path.display());
    }
    if let Some(reason) = to_be_built(&archive, &sources) {
        build(&root, &reason);
    }
    println!("cargo:rustc-link-search=native={}", directory.display());
    println!("cargo:rustc-link-lib=static=zalghimo");
}

/// Ends the build for a target that cannot link the archive, which holds ELF objects.
fn judge_target() {
    let target = |part: &str| env::var(format!("CARGO_CFG_TARGET_{part}")).unwrap_or_default();
    let (arch, width, os) = (target("ARCH"), target("POINTER_WIDTH"), target("OS"));
    if (&*arch, &*width, &*os) != ("x86_64", "64", "linux") {
        fail(&format!(
            "libzalghimo.a is for 64-bit Linux on x86-64, not for {os} on {arch} with {width}-bit pointers"
        ));
    }
}

/// What the library is built from: the list of crates, and of each crate the directories that are proved. What `rt` keeps
/// beside them, in a crate's `out`, is no part of that.
fn sources(list: PathBuf, crates: &Path) -> Vec<PathBuf> {
    let mut directories = entries(crates);
    directories.sort();
    let proved = |directory: PathBuf| ["src", "specs", "proofs"].map(|part| directory.join(part));
    let proved = directories.into_iter().flat_map(proved);
    let proved = proved.filter(|directory| directory.is_dir());
    [list].into_iter().chain(proved).collect()
}

/// Why the archive has to be built, where it has to.
fn to_be_built(archive: &Path, sources: &[PathBuf]) -> Option<String> {
    let Some(built) = changed(archive) else {
        return Some(format!("{} is not there", archive.display()));
    };
    let newer = sources.iter().find_map(|path| newer(path, built))?;
    let (newer, archive) = (newer.display(), archive.display());
    Some(format!("{newer} is newer than {archive}"))
}

/// The path itself or what is in it, where that was changed after a time. A directory changes with what is taken out.
fn newer(path: &Path, time: SystemTime) -> Option<PathBuf> {
    if changed(path)? > time {
        return Some(path.to_path_buf());
    }
    entries(path).iter().find_map(|entry| newer(entry, time))
}

fn changed(path: &Path) -> Option<SystemTime> {
    fs::metadata(path).and_then(|about| about.modified()).ok()
}

/// What a directory holds; nothing, where it is none.
fn entries(directory: &Path) -> Vec<PathBuf> {
    let entries = fs::read_dir(directory).into_iter().flatten().flatten();
    entries.map(|entry| entry.path()).collect()
}

/// Has the library proved and built. What is printed is shown where it fails.
fn build(root: &Path, reason: &str) {
    let mut command = Command::new(root.join("bin/static-library"));
    match command.current_dir(root).output() {
        Ok(output) if output.status.success() => {}
        Ok(output) => {
            eprint!("{}", String::from_utf8_lossy(&output.stdout));
            eprint!("{}", String::from_utf8_lossy(&output.stderr));
            fail(&format!(
                "{reason}, and `bin/static-library`, which builds it, failed"
            ));
        }
        Err(error) => fail(&format!(
            "{reason}, and `bin/static-library`, which builds it, cannot be run: {error}"
        )),
    }
}

fn fail(reason: &str) -> ! {
    eprintln!("{reason}");
    exit(1);
}
