//! The garages of `examples`.

use std::fs;
use std::path::{Path, PathBuf};

/// The folder of the repository.
pub fn repository() -> PathBuf {
    Path::new(env!("CARGO_MANIFEST_DIR")).join("../..").canonicalize().expect("the repository's folder")
}

/// The examples that have a query: their rules' and their query's file.
pub fn examples() -> Vec<(String, String)> {
    let entries = fs::read_dir(repository().join("examples")).expect("the examples");
    let mut queries: Vec<PathBuf> =
        entries.map(|entry| entry.expect("an entry").path()).filter(|path| path.extension().is_some_and(|end| end == "query")).collect();
    queries.sort();
    let text = |path: PathBuf| path.to_str().expect("a path in UTF-8").to_string();
    queries.into_iter().map(|query| (text(query.with_extension("pl")), text(query))).collect()
}
