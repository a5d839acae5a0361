//! The rules of docs/SPECIFICATION.md and the definitions of this repository.

use documents_tests::{differences, files, missing, Page, Source};

fn sources() -> Vec<Source> {
    files::definitions()
        .iter()
        .map(|(file, text)| Source::read(file, text))
        .collect()
}

fn page() -> Page {
    Page::read(&files::page())
}

#[test]
fn page_and_definitions_have_the_same_numbers() {
    let found = differences(&page(), &sources());
    assert!(found.is_empty(), "{}", found.join("\n"));
}

#[test]
fn every_definition_that_the_page_names_is_there() {
    let found = missing(&page(), files::text);
    assert!(found.is_empty(), "{}", found.join("\n"));
}

/// So that an empty page, or a wrong directory, does not pass for agreement.
#[test]
fn there_are_rules_and_definitions() {
    let sources = sources();
    let definitions: usize = sources.iter().map(|it| it.definitions.len()).sum();
    assert!(page().rules.len() >= 206);
    assert!(definitions >= 650);
}
