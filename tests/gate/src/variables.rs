//! The environment's variables that Rust files read when they run.

/// The names in the calls of `std::env` in a text; `?` for one that is not
/// spelled out there.
pub fn read_in(text: &str) -> Vec<String> {
    let mut found = Vec::new();
    for call in ["env::var(", "env::var_os(", "env::vars(", "env::vars_os("] {
        for (at, _) in text.match_indices(call) {
            let rest = &text[at + call.len()..];
            let name = rest.strip_prefix('"').and_then(|it| it.split_once('"'));
            found.push(name.map_or("?", |it| it.0).to_string());
        }
    }
    found
}

/// The names and patterns in the list `changing` of scripts/environment.
pub fn cleared(script: &str) -> Vec<String> {
    let list = script
        .split_once("changing=(")
        .and_then(|it| it.1.split_once("\n)"))
        .map_or("", |it| it.0);
    list.lines()
        .filter_map(|line| line.split('#').next())
        .flat_map(str::split_whitespace)
        .map(|it| it.trim_matches('\'').to_string())
        .collect()
}
