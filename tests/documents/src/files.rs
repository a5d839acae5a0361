//! The files of this repository.

use std::fs;
use std::path::{Path, PathBuf};

/// The repository's directory.
pub fn root() -> PathBuf {
    Path::new(env!("CARGO_MANIFEST_DIR")).join("../..")
}

/// A file's text, if there is such a file.
pub fn text(file: &str) -> Option<String> {
    fs::read_to_string(root().join(file)).ok()
}

/// The text of the specification.
pub fn page() -> String {
    text("docs/SPECIFICATION.md").expect("docs/SPECIFICATION.md can be read")
}

/// Name and text of every file of definitions, `crates/*/specs/*.antt`.
pub fn definitions() -> Vec<(String, String)> {
    let mut files = Vec::new();
    for name in names(&root().join("crates")) {
        let specs = format!("crates/{name}/specs");
        for file in names(&root().join(&specs)) {
            if file.ends_with(".antt") {
                let file = format!("{specs}/{file}");
                let text = text(&file).expect("a file of definitions can be read");
                files.push((file, text));
            }
        }
    }
    files
}

/// The names in a directory, in order; none where there is no such directory.
fn names(directory: &Path) -> Vec<String> {
    let mut names: Vec<String> = fs::read_dir(directory)
        .into_iter()
        .flatten()
        .filter_map(|it| it.ok()?.file_name().into_string().ok())
        .collect();
    names.sort();
    names
}
