//! Compares the names in the C header with the functions that the Rattle crates `capi` and `probe` export.
//!
//! The header declares exactly these functions, and each is exported by only one of the two crates. The linker tests that
//! `vault` calls no other name.

use std::collections::BTreeSet;
use std::fs;
use std::path::{Path, PathBuf};

fn repository() -> PathBuf {
    Path::new(env!("CARGO_MANIFEST_DIR")).join("../..")
}

fn read(path: &Path) -> String {
    fs::read_to_string(path).unwrap_or_else(|error| panic!("{}: {error}", path.display()))
}

/// Returns the function names in the lines that begin with `start`.
fn named(text: &str, start: &str) -> BTreeSet<String> {
    let is_part = |c: char| c.is_ascii_alphanumeric() || c == '_';
    let lines = text.lines().filter(|line| line.starts_with(start));
    let words = lines.flat_map(|line| line.split(move |c| !is_part(c)));
    words.filter(|word| word.starts_with("bp_") || word.starts_with("bpw_")).map(str::to_owned).collect()
}

/// Returns the names of the functions that a crate exports.
fn exported(library: &str) -> BTreeSet<String> {
    let sources = fs::read_dir(repository().join("crates").join(library).join("src"))
        .expect("cannot read the sources of the crate");
    sources
        .map(|file| read(&file.expect("cannot read a folder entry").path()))
        .flat_map(|text| named(&text, "pub extern \"C\" fn"))
        .collect()
}

#[test]
fn header_and_exports_agree() {
    let header = named(&read(&repository().join("include/faamosela.h")), "int64_t");
    let (capi, probe) = (exported("capi"), exported("probe"));
    assert_eq!(header.len(), 48);
    assert_eq!(header, capi.union(&probe).cloned().collect());
    assert_eq!(capi.intersection(&probe).count(), 0);
}
