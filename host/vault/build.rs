//! Links the static libraries of the repository, `crates/NAME/out/libNAME.a`.
//!
//! A library that is missing or older than its Rattle sources is first proved and built with `rt lib`.

use std::collections::BTreeSet;
use std::fs;
use std::path::{Path, PathBuf};
use std::process::Command;
use std::time::SystemTime;

const LIBRARIES: [&str; 2] = ["capi", "probe"];

fn main() {
    let manifest = PathBuf::from(std::env::var_os("CARGO_MANIFEST_DIR").expect("cargo sets CARGO_MANIFEST_DIR"));
    let root = manifest.ancestors().nth(2).expect("the package is in the folder host/ of the repository");
    let listed = root.join("crates.txt");
    watch(&listed);
    let list = fs::read_to_string(&listed).expect("cannot read crates.txt of the repository");
    for library in LIBRARIES {
        let built = root.join("crates").join(library).join("out");
        let archive = built.join(format!("lib{library}.a"));
        watch(&archive);
        let sources: Vec<_> =
            reached(&list, library).iter().map(|name| root.join("crates").join(name).join("src")).collect();
        sources.iter().for_each(|folder| watch(folder));
        if changed(&archive) < sources.iter().map(|folder| newest(folder)).max().flatten() {
            prove(&root.join("crates").join(library), library);
        }
        println!("cargo:rustc-link-lib=static={library}");
        println!("cargo:rustc-link-search=native={}", built.display());
    }
}

/// Tells cargo to run this script again when `path` changes.
fn watch(path: &Path) {
    println!("cargo:rerun-if-changed={}", path.display());
}

/// Returns the crate `name` and all listed crates that it depends on, directly or not.
///
/// A line of the list is `NAME: DEP DEP ..`, or `NAME staticlib: DEP DEP ..` for a static library, and `#` starts a comment. A
/// dependency that the list does not name is a library of the Rattle kit and is skipped.
fn reached(list: &str, name: &str) -> BTreeSet<String> {
    let depends = |of: &str| {
        let lines = list.lines().map(|line| line.split('#').next().unwrap_or(""));
        lines
            .filter_map(|line| line.split_once(':'))
            .find(|(crate_name, _)| crate_name.split_whitespace().next() == Some(of))
            .map(|(_, deps)| deps)
    };
    let mut found = BTreeSet::new();
    let mut left = vec![name];
    while let Some(next) = left.pop() {
        if let Some(deps) = depends(next) {
            if found.insert(next.to_owned()) {
                left.extend(deps.split_whitespace());
            }
        }
    }
    found
}

/// Returns the time of the last write to a file, or `None` if the file does not exist. `None` compares as the earliest time.
fn changed(file: &Path) -> Option<SystemTime> {
    fs::metadata(file).and_then(|data| data.modified()).ok()
}

/// Returns the time of the last write to any file of a folder and its subfolders.
fn newest(folder: &Path) -> Option<SystemTime> {
    let entries = fs::read_dir(folder).unwrap_or_else(|error| panic!("{}: {error}", folder.display()));
    entries
        .map(|entry| entry.expect("cannot read a folder entry").path())
        .map(|path| if path.is_dir() { newest(&path) } else { changed(&path) })
        .max()
        .flatten()
}

/// Proves and builds the library of the crate in `folder` with `rt`. Panics with the output of `rt` if it fails.
fn prove(folder: &Path, library: &str) {
    let run = Command::new("rt").arg("lib").current_dir(folder).output();
    let run = run.unwrap_or_else(|error| panic!("cannot run `rt` to prove and build lib{library}.a: {error}"));
    assert!(
        run.status.success(),
        "`rt lib` failed in crates/{library}:\n{}{}",
        String::from_utf8_lossy(&run.stdout),
        String::from_utf8_lossy(&run.stderr)
    );
}
