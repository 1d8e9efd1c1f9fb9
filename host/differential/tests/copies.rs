//! Compares the files of the original that are compiled with the files in `docs/src`.
//!
//! `host/original/src` has a copy of each of the nine files in `docs/src/src`.

use std::fs;
use std::path::{Path, PathBuf};

/// Returns the files of a folder and its subfolders, as paths within `top`.
fn files(top: &Path, folder: &Path) -> Vec<PathBuf> {
    let entries = fs::read_dir(folder).unwrap_or_else(|error| panic!("{}: {error}", folder.display()));
    let paths = entries.map(|entry| entry.expect("cannot read a folder entry").path());
    let below = |path: PathBuf| {
        if path.is_dir() {
            files(top, &path)
        } else {
            vec![path.strip_prefix(top).expect("the folder is in `top`").to_owned()]
        }
    };
    paths.flat_map(below).collect()
}

#[test]
fn each_file_is_unchanged() {
    let repository = Path::new(env!("CARGO_MANIFEST_DIR")).join("../..");
    let published = repository.join("docs/src/src");
    let copied = repository.join("host/original/src");
    let names = files(&published, &published);
    assert_eq!(names.len(), 9);
    for name in names {
        let read =
            |folder: &Path| fs::read(folder.join(&name)).unwrap_or_else(|error| panic!("{}: {error}", name.display()));
        assert!(read(&published) == read(&copied), "{} is changed", name.display());
    }
}
