//! Links the archive of the proved library.
//!
//! `WIMPLEJADE_LIB` names an archive to take, by its whole path. Without it the script runs `bin/archive` of
//! the repository, which proves the library first: some fifteen minutes from nothing, half a minute once it is proved. Where
//! documentation alone is built, nothing is linked.

use std::env;
use std::fs;
use std::path::{Path, PathBuf};
use std::process::{exit, Command};

/// The archive that `bin/archive` writes, below the top folder of the repository.
const ARCHIVE: &str = "target/staticlib/libwimplejade.a";

/// How to get an archive where none can be made.
const HOW: &str = "set WIMPLEJADE_LIB to the whole path of a libwimplejade.a, which `bin/archive` writes to \
                   target/staticlib in the repository";

fn main() {
    println!("cargo:rerun-if-env-changed=WIMPLEJADE_LIB");
    println!("cargo:rerun-if-env-changed=DOCS_RS");
    if env::var_os("DOCS_RS").is_some() {
        return;
    }
    let target = env::var("TARGET").expect("cargo sets TARGET");
    if !target.starts_with("x86_64-") || !target.contains("-linux-") {
        fail(&format!("the archive is for x86-64 Linux, not for {target}"));
    }
    let archive = match env::var_os("WIMPLEJADE_LIB") {
        Some(path) => named(PathBuf::from(path)),
        None => proved(),
    };

    let folder = PathBuf::from(env::var_os("OUT_DIR").expect("cargo sets OUT_DIR"));
    if let Err(error) = fs::copy(&archive, folder.join("libwimplejade.a")) {
        fail(&format!("{}: {error}; {HOW}", archive.display()));
    }
    println!("cargo:rustc-link-search=native={}", folder.display());
    println!("cargo:rustc-link-lib=static=wimplejade");
}

/// The archive that WIMPLEJADE_LIB names. A path from where cargo was started would be another one here.
fn named(path: PathBuf) -> PathBuf {
    if !path.is_absolute() {
        fail(&format!("WIMPLEJADE_LIB is {}, which is not a whole path", path.display()));
    }
    println!("cargo:rerun-if-changed={}", path.display());
    path
}

/// Has `rt` prove the library in the repository around the package, and write its archive.
fn proved() -> PathBuf {
    let package = PathBuf::from(env::var_os("CARGO_MANIFEST_DIR").expect("cargo sets CARGO_MANIFEST_DIR"));
    let Some(top) = package.ancestors().nth(2).filter(|top| is_repository(top)) else {
        fail(&format!("{} stands in no repository of wimplejade; {HOW}", package.display()));
    };
    for source in sources(&top.join("crates")) {
        println!("cargo:rerun-if-changed={}", source.display());
    }
    println!("cargo:rerun-if-changed={}", top.join("crates.txt").display());
    let run = Command::new(top.join("bin/archive")).output();
    match run {
        Ok(output) if output.status.success() => top.join(ARCHIVE),
        Ok(output) => {
            eprint!("{}{}", String::from_utf8_lossy(&output.stdout), String::from_utf8_lossy(&output.stderr));
            fail(&format!("`bin/archive` failed in {}", top.display()))
        }
        Err(error) => fail(&format!("bin/archive: {error}; {HOW}, here {}", top.join(ARCHIVE).display())),
    }
}

/// The folders from which `rt` proves the crates. What it makes stands beside them, and is not looked at.
fn sources(crates: &Path) -> Vec<PathBuf> {
    let folders = fs::read_dir(crates).unwrap_or_else(|error| fail(&format!("{}: {error}", crates.display())));
    let crates = folders.flatten().map(|folder| folder.path());
    let sources = crates.flat_map(|folder| ["src", "specs", "proofs"].map(|source| folder.join(source)));
    sources.filter(|source| source.is_dir()).collect()
}

/// Whether a folder is the top of the repository: the crate of the archive is listed and there.
fn is_repository(top: &Path) -> bool {
    top.join("crates.txt").is_file() && top.join("crates/wimplejade_c").is_dir()
}

fn fail(why: &str) -> ! {
    eprintln!("wimplejade: {why}");
    exit(1)
}
