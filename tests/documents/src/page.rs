//! The page: its rules, and the numbers that it speaks of.

use std::fmt;

use crate::number::Number;

/// A definition's name, and its file.
#[derive(Clone, Debug, PartialEq, Eq, PartialOrd, Ord)]
pub struct Place {
    pub file: String,
    pub name: String,
}

impl Place {
    /// Whether the file has definitions, and not types or theorems.
    pub fn is_definition(&self) -> bool {
        self.file.contains("/specs/")
    }
}

impl fmt::Display for Place {
    fn fmt(&self, f: &mut fmt::Formatter) -> fmt::Result {
        write!(f, "{} in {}", self.name, self.file)
    }
}

/// A rule and what stands in the parentheses behind it.
#[derive(Clone, Debug, PartialEq, Eq)]
pub struct Rule {
    pub number: Number,
    pub places: Vec<Place>,
}

/// The rules in the order of the page, all numbers in its text, and the items
/// that cannot be read.
#[derive(Clone, Debug, Default)]
pub struct Page {
    pub rules: Vec<Rule>,
    pub mentioned: Vec<Number>,
    pub unread: Vec<String>,
}

impl Page {
    pub fn read(text: &str) -> Page {
        let mut page = Page {
            mentioned: numbers(text),
            ..Page::default()
        };
        for item in items(text) {
            match rule(&item) {
                Some(rule) => page.rules.push(rule),
                None => page.unread.push(item),
            }
        }
        page
    }
}

/// The items that begin with something bold, each as one line.
fn items(text: &str) -> Vec<String> {
    let mut items: Vec<String> = Vec::new();
    let mut inside = false;
    for line in text.lines() {
        if let Some(first) = line.strip_prefix("- ") {
            inside = first.starts_with("**");
            if inside {
                items.push(first.to_string());
            }
        } else if inside && line.starts_with("  ") {
            if let Some(item) = items.last_mut() {
                item.push(' ');
                item.push_str(line.trim());
            }
        } else {
            inside = false;
        }
    }
    items
}

fn rule(item: &str) -> Option<Rule> {
    let (number, text) = item.strip_prefix("**")?.split_once("** ")?;
    let open = text.rfind("(`")?;
    let named = text[open + 1..].strip_suffix(')')?;
    Some(Rule {
        number: Number::read(number)?,
        places: places(named)?,
    })
}

/// Groups of names, each with its file at the end.
fn places(named: &str) -> Option<Vec<Place>> {
    let mut places = Vec::new();
    for group in named.split("; ") {
        let words: Option<Vec<&str>> = group.split(", ").map(quoted).collect();
        let words = words?;
        let (file, names) = words.split_last()?;
        if names.is_empty() || !file.starts_with("crates/") {
            return None;
        }
        places.extend(names.iter().map(|name| Place {
            file: file.to_string(),
            name: name.to_string(),
        }));
    }
    Some(places)
}

fn quoted(word: &str) -> Option<&str> {
    word.strip_prefix('`')?.strip_suffix('`')
}

/// All numbers of rules in a text.
fn numbers(text: &str) -> Vec<Number> {
    text.split(|it: char| !it.is_ascii_digit() && it != '.')
        .filter_map(|it| Number::read(it.trim_end_matches('.')))
        .collect()
}
