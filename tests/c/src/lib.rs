//! What the tests read in C files.

use std::collections::BTreeSet;

/// The text without its comments of the form `/* .. */`.
pub fn without_comments(text: &str) -> String {
    let mut parts = text.split("/*");
    let first = parts.next().unwrap_or("").to_string();
    parts
        .filter_map(|it| Some(it.split_once("*/")?.1))
        .fold(first, |all, it| all + it)
}

/// The functions `slipknoll_..` whose names are followed by a parenthesis,
/// comments left out: in the header those that it declares, in a program those
/// that it calls.
pub fn functions(text: &str) -> BTreeSet<String> {
    let text = without_comments(text);
    let is_name = |it: char| it.is_ascii_alphanumeric() || it == '_';
    text.match_indices("slipknoll_")
        .filter_map(|(at, _)| {
            let rest = &text[at..];
            let end = rest.find(|it| !is_name(it))?;
            let name = &rest[..end];
            rest[end..].starts_with('(').then(|| name.to_string())
        })
        .collect()
}

/// The examples in a header's comment from a word on: lines that are indented
/// by five, gathered between the others.
pub fn examples(text: &str, word: &str) -> Vec<String> {
    let mut found = vec![String::new()];
    let behind = text.split_once(word).map_or("", |it| it.1);
    for line in behind.lines().take_while(|it| !it.contains("*/")) {
        match line.strip_prefix(" *     ") {
            Some(code) => {
                let last = found.last_mut().expect("there is always one");
                last.push_str(code);
                last.push('\n');
            }
            None => found.push(String::new()),
        }
    }
    found.retain(|it| !it.is_empty());
    found
}
