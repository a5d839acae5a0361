//! The functions of a crate that are open to others, and what their contracts
//! lack.

use std::collections::{BTreeMap, BTreeSet};

/// The crates that others may use. Their open functions promise something of
/// their results, and require nothing: no caller need check first.
pub const OPEN: [&str; 24] = [
    "callings",
    "calls",
    "checksum",
    "chip",
    "contents",
    "dates",
    "driver",
    "faults",
    "frame_text",
    "hexadecimal",
    "inplace",
    "lengths",
    "openings",
    "operands",
    "options",
    "orders",
    "raws",
    "results",
    "slipknoll",
    "slipknoll_c",
    "state",
    "text",
    "word_values",
    "words",
];

/// A public function: its name, the words that begin its clauses, and its
/// parameters, result and clauses without what layout alone decides.
#[derive(Clone, Debug, PartialEq, Eq)]
pub struct Function {
    pub name: String,
    pub clauses: Vec<String>,
    pub contract: String,
}

/// The open functions of a crate, by the texts of its modules; `lib` is its
/// root. A public function is open in the root, in a module that is public, or
/// where an open module hands it on (`pub use`).
pub fn open_functions(modules: &BTreeMap<String, String>) -> Vec<Function> {
    let mut found = Vec::new();
    let mut waiting = vec!["lib".to_string()];
    let mut handed_on: BTreeSet<(String, String)> = BTreeSet::new();
    while let Some(module) = waiting.pop() {
        let text = modules.get(&module).map_or("", String::as_str);
        found.extend(public_functions(text));
        for line in text.lines() {
            if let Some(name) = between(line, "pub mod ", ";") {
                waiting.push(name.to_string());
            }
            if let Some(path) = between(line, "pub use ", ";") {
                handed_on.extend(uses(path));
            }
        }
    }
    for (module, name) in handed_on {
        let text = modules.get(&module).map_or("", String::as_str);
        found.extend(
            public_functions(text)
                .into_iter()
                .filter(|it| it.name == name),
        );
    }
    found
}

/// What is wrong with an open function, if anything is.
pub fn lacks(function: &Function) -> Option<String> {
    let has = |word: &str| function.clauses.iter().any(|it| it == word);
    let name = &function.name;
    match (has("ensures"), has("requires")) {
        (true, false) => None,
        (false, _) => Some(format!("{name} promises nothing of its result")),
        (true, true) => Some(format!("{name} requires something of its callers")),
    }
}

/// Module and name of each thing that a path names: `words::{a, b}`.
fn uses(path: &str) -> Vec<(String, String)> {
    let (module, names) = match path.split_once("::") {
        Some(both) => both,
        None => return Vec::new(),
    };
    let names = names.trim_start_matches('{').trim_end_matches('}');
    let names = names.split(',').map(str::trim);
    names
        .map(|it| (module.to_string(), it.to_string()))
        .collect()
}

fn between<'a>(line: &'a str, begin: &str, end: &str) -> Option<&'a str> {
    line.trim().strip_prefix(begin)?.strip_suffix(end)
}

/// The functions of a file that are marked `pub`.
pub fn public_functions(text: &str) -> Vec<Function> {
    let text: String = text.lines().map(without_comment).collect();
    let mut found = Vec::new();
    for begin in ["pub fn ", "pub extern \"C\" fn "] {
        for (at, _) in text.match_indices(begin) {
            let item = &text[at + begin.len()..];
            let name = item.split(|it: char| !it.is_alphanumeric() && it != '_');
            let (clauses, body) = clauses(item);
            found.push(Function {
                name: name.take(1).collect(),
                clauses,
                contract: plain(&item[..item.len() - body.len()]),
            });
        }
    }
    found
}

/// A line without its comment, and with its end.
fn without_comment(line: &str) -> String {
    format!("{}\n", line.split("//").next().unwrap_or(""))
}

/// The words that begin the clauses before a function's body, and the body. A
/// clause's name may stand between its word and its brace.
fn clauses(item: &str) -> (Vec<String>, &str) {
    let mut found = Vec::new();
    let mut rest = item;
    while let Some(open) = rest.find('{') {
        let words = rest[..open].split_whitespace().rev().take(2);
        let mut words = words.map(|it| it.trim_end_matches('*'));
        let word = match words.find(|it| ["ensures", "requires"].contains(it)) {
            Some(word) => word.to_string(),
            None => return (found, &rest[open..]),
        };
        found.push(word);
        rest = behind_braces(&rest[open..]);
    }
    (found, "")
}

/// A text without white space, and without the comma at the end of a list that
/// has a line for each item.
fn plain(text: &str) -> String {
    let text: String = text.split_whitespace().collect();
    text.replace(",)", ")")
}

/// What follows the closing brace that belongs to the first one.
fn behind_braces(text: &str) -> &str {
    let mut depth = 0;
    for (at, it) in text.char_indices() {
        match it {
            '{' => depth += 1,
            '}' => depth -= 1,
            _ => {}
        }
        if depth == 0 {
            return &text[at + 1..];
        }
    }
    ""
}
