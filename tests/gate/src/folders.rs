//! crates.txt beside the folders under crates/.

use std::collections::BTreeSet;

/// The crates that a text as crates.txt lists.
pub fn listed(text: &str) -> Vec<String> {
    text.lines()
        .filter(|it| !it.starts_with('#'))
        .filter_map(|it| it.split_once(':'))
        // A static library has that word behind its name.
        .filter_map(|it| Some(it.0.split_whitespace().next()?.to_string()))
        .collect()
}

/// The folders that are not listed, and the listed crates that have none.
pub fn strays(listed: &[String], folders: &[String]) -> Vec<String> {
    let listed: BTreeSet<&String> = listed.iter().collect();
    let folders: BTreeSet<&String> = folders.iter().collect();
    let unlisted = folders.difference(&listed);
    let missing = listed.difference(&folders);
    unlisted
        .map(|it| format!("crates/{it} is not listed in crates.txt"))
        .chain(missing.map(|it| format!("{it} is listed, and there is no crates/{it}")))
        .collect()
}
