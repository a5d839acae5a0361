//! What the page and the definitions say differently.

use std::collections::{BTreeMap, BTreeSet};

use crate::definitions::{declares, Definition, Source};
use crate::number::Number;
use crate::page::{Page, Place};

/// The crates in which every definition states a rule or is an aid.
pub const RULED: [&str; 12] = [
    "geometry",
    "commands",
    "registers",
    "control",
    "memory",
    "state",
    "slots",
    "worlds",
    "blocks",
    "driver_blocks",
    "runs",
    "chains",
];

/// All that does not go together, in words; empty where page and definitions
/// agree.
pub fn differences(page: &Page, sources: &[Source]) -> Vec<String> {
    let mut found = Vec::new();
    let unread = page.unread.iter();
    found.extend(unread.map(|it| format!("cannot be read as a rule: {it}")));
    order(page, &mut found);
    mentions(page, &mut found);
    numbers(page, sources, &mut found);
    for source in sources {
        for (number, file) in &source.astray {
            found.push(format!("{number} in {file} stands at no definition"));
        }
        found.extend(source.definitions.iter().filter_map(aid_or_rule));
    }
    found
}

/// The numbers count up, without a gap and each once.
fn order(page: &Page, found: &mut Vec<String>) {
    let mut last = Number {
        section: 0,
        item: 0,
    };
    for rule in &page.rules {
        if !rule.number.follows(last) {
            found.push(format!("rule {} comes after {last}", rule.number));
        }
        last = rule.number;
    }
}

/// Every number that the page speaks of is a rule's.
fn mentions(page: &Page, found: &mut Vec<String>) {
    let rules: BTreeSet<Number> = page.rules.iter().map(|it| it.number).collect();
    let mentioned: BTreeSet<Number> = page.mentioned.iter().copied().collect();
    for number in mentioned.difference(&rules) {
        found.push(format!("{number} is spoken of and is no rule of the page"));
    }
}

/// A rule's number stands at the definitions that it names, and at no others.
fn numbers(page: &Page, sources: &[Source], found: &mut Vec<String>) {
    let mut standing: BTreeMap<Number, BTreeSet<&Place>> = BTreeMap::new();
    for definition in sources.iter().flat_map(|it| &it.definitions) {
        for number in &definition.numbers {
            let places = standing.entry(*number).or_default();
            if !places.insert(&definition.place) {
                found.push(format!("{number} stands twice at {}", definition.place));
            }
        }
    }
    for rule in &page.rules {
        let number = rule.number;
        let places = standing.remove(&number).unwrap_or_default();
        if places.is_empty() {
            found.push(format!("rule {number} stands at no definition"));
        }
        let named: BTreeSet<&Place> = rule.places.iter().filter(|it| it.is_definition()).collect();
        for place in named.difference(&places) {
            found.push(format!(
                "rule {number} names {place}, which lacks its number"
            ));
        }
        for place in places.difference(&named) {
            found.push(format!(
                "rule {number} does not name {place}, which has its number"
            ));
        }
    }
    for (number, places) in standing {
        for place in places {
            found.push(format!("{number} at {place} is no rule of the page"));
        }
    }
}

/// What is wrong with a definition of these crates that is neither.
fn aid_or_rule(definition: &Definition) -> Option<String> {
    let name = definition.place.file.split('/').nth(1)?;
    if !RULED.contains(&name) || definition.aid || !definition.numbers.is_empty() {
        return None;
    }
    let place = &definition.place;
    Some(format!("{place} has neither a rule's number nor Aid"))
}

/// The names in the page that their files do not declare; `text` is a file's.
pub fn missing(page: &Page, text: impl Fn(&str) -> Option<String>) -> Vec<String> {
    let mut found = Vec::new();
    for rule in &page.rules {
        for place in &rule.places {
            match text(&place.file) {
                Some(text) if declares(&text, &place.name) => {}
                Some(_) => found.push(format!("rule {}: no {place}", rule.number)),
                None => found.push(format!("rule {}: no file {}", rule.number, place.file)),
            }
        }
    }
    found
}
