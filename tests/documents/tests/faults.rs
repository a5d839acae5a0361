//! Shows that the comparison notices faults: in a small page with two small
//! files, and wherever a number is taken out of the real ones.

use documents_tests::{differences, files, missing, Page, Source};

const PAGE: &str = "\
# Rules

- **1.1** The first. (`first`, `crates/geometry/specs/Parts.antt`)
- **1.2** The second, of two, as 1.1 has it. (`second`, `crates/geometry/specs/Parts.antt`;
  `Third`, `crates/state/specs/Memory.antt`; `theorem`, `crates/state/proofs/Kept.antt`)

## More

- **2.1** The last. (`second`, `crates/geometry/specs/Parts.antt`)
";

const PARTS: &str = "\
-- Parts.

-- (1.1) the first
abbrev pub first : N
first = 1

-- (1.2) the second
-- (2.1) and the last,
-- which is long
unfoldable pub second : N
second = 2

-- Aid: no rule
abbrev pub fourth : N
fourth = 4

-- ---- Aid: a group

abbrev pub fifth : N
fifth = 5
";

const MEMORY: &str = "\
-- Memory.

-- (1.2) the third
pub record Third : Type where
  pub field : N
";

/// What is wrong with the page and the two files.
fn found(page: &str, parts: &str, memory: &str) -> Vec<String> {
    let sources = [
        Source::read("crates/geometry/specs/Parts.antt", parts),
        Source::read("crates/state/specs/Memory.antt", memory),
    ];
    differences(&Page::read(page), &sources)
}

/// The fault that a change of the page is told as.
fn of_page(old: &str, new: &str) -> Vec<String> {
    assert!(PAGE.contains(old));
    found(&PAGE.replacen(old, new, 1), PARTS, MEMORY)
}

/// The fault that a change of the first file is told as.
fn of_parts(old: &str, new: &str) -> Vec<String> {
    assert!(PARTS.contains(old));
    found(PAGE, &PARTS.replacen(old, new, 1), MEMORY)
}

#[test]
fn a_page_that_agrees_has_no_fault() {
    assert_eq!(found(PAGE, PARTS, MEMORY), [""; 0]);
}

#[test]
fn a_rule_that_is_not_in_the_page() {
    let rule = "- **2.1** The last. (`second`, `crates/geometry/specs/Parts.antt`)\n";
    assert_eq!(
        of_page(rule, ""),
        ["2.1 at second in crates/geometry/specs/Parts.antt is no rule of the page"]
    );
}

#[test]
fn a_rule_that_stands_at_no_definition() {
    assert_eq!(
        of_parts("-- (1.1) the first", "-- the first"),
        [
            "rule 1.1 stands at no definition",
            "rule 1.1 names first in crates/geometry/specs/Parts.antt, which lacks its number",
            "first in crates/geometry/specs/Parts.antt has neither a rule's number nor Aid",
        ]
    );
}

#[test]
fn a_number_that_is_missing_at_one_of_two_definitions() {
    assert_eq!(
        of_parts("-- (1.2) the second\n", ""),
        ["rule 1.2 names second in crates/geometry/specs/Parts.antt, which lacks its number"]
    );
}

#[test]
fn a_number_at_a_definition_that_the_rule_does_not_name() {
    assert_eq!(
        of_parts("-- Aid: no rule", "-- (1.1) a rule"),
        ["rule 1.1 does not name fourth in crates/geometry/specs/Parts.antt, which has its number"]
    );
}

#[test]
fn a_number_twice_at_one_definition() {
    assert_eq!(
        of_parts("-- (1.1) the first", "-- (1.1) the first\n-- (1.1) again"),
        ["1.1 stands twice at first in crates/geometry/specs/Parts.antt"]
    );
}

#[test]
fn a_number_that_no_definition_follows() {
    assert_eq!(
        of_parts("-- Aid: no rule", "-- (1.1) a rule\n\n-- Aid: no rule"),
        ["1.1 in crates/geometry/specs/Parts.antt stands at no definition"]
    );
    assert_eq!(
        of_parts("-- ---- Aid", "-- (1.1) a rule\n-- ---- Aid"),
        ["1.1 in crates/geometry/specs/Parts.antt stands at no definition"]
    );
}

#[test]
fn a_definition_that_is_neither_rule_nor_aid() {
    let told = "has neither a rule's number nor Aid";
    assert_eq!(
        of_parts("-- Aid: no rule", "-- no rule"),
        [format!("fourth in crates/geometry/specs/Parts.antt {told}")]
    );
    assert_eq!(
        of_parts("-- ---- Aid: a group", "-- ---- a group"),
        [format!("fifth in crates/geometry/specs/Parts.antt {told}")]
    );
}

#[test]
fn numbers_that_do_not_count_up() {
    assert_eq!(of_page("**2.1**", "**1.2**")[0], "rule 1.2 comes after 1.2");
    assert_eq!(of_page("**2.1**", "**2.2**")[0], "rule 2.2 comes after 1.2");
    assert_eq!(of_page("**1.1**", "**1.3**")[0], "rule 1.3 comes after 0.0");
}

#[test]
fn a_number_that_is_spoken_of_and_is_none() {
    assert_eq!(
        of_page("as 1.1 has it", "as 1.3 has it"),
        ["1.3 is spoken of and is no rule of the page"]
    );
}

#[test]
fn an_item_that_is_no_rule() {
    for (old, new) in [
        ("**2.1** ", "**2.1**: "),
        ("**2.1**", "**2**"),
        ("**2.1**", "**2.01**"),
        (" (`second`, `crates/geometry/specs/Parts.antt`)\n", "\n"),
        ("The last. (`second`, `crates", "The last. (`crates"),
        (
            "specs/Parts.antt`)\n- **1.2**",
            "specs/Parts.antt`).\n- **1.2**",
        ),
    ] {
        let first = &of_page(old, new)[0];
        assert!(first.starts_with("cannot be read as a rule: **"), "{first}");
    }
}

#[test]
fn a_name_that_its_file_does_not_declare() {
    let there = |file: &str| match file {
        "crates/geometry/specs/Parts.antt" => Some(PARTS.to_string()),
        "crates/state/specs/Memory.antt" => Some(MEMORY.to_string()),
        "crates/state/proofs/Kept.antt" => Some("  pub theorem : first\n".to_string()),
        _ => None,
    };
    let found = |page: &str| missing(&Page::read(page), there);
    assert_eq!(found(PAGE), [""; 0]);
    assert_eq!(
        found(&PAGE.replace("`theorem`", "`lemma`")),
        ["rule 1.2: no lemma in crates/state/proofs/Kept.antt"]
    );
    assert_eq!(
        found(&PAGE.replace("`Third`", "`Thir`")),
        ["rule 1.2: no Thir in crates/state/specs/Memory.antt"]
    );
    assert_eq!(
        found(&PAGE.replace("state/specs", "states/specs")),
        ["rule 1.2: no file crates/states/specs/Memory.antt"]
    );
}

/// Each rule of the real page taken out of it, number and all.
#[test]
fn every_rule_of_the_page_is_needed() {
    let text = files::page();
    let sources: Vec<Source> = files::definitions()
        .iter()
        .map(|(file, text)| Source::read(file, text))
        .collect();
    for rule in Page::read(&text).rules {
        let item = format!("- **{}** ", rule.number);
        let found = differences(&Page::read(&text.replacen(&item, "- ", 1)), &sources);
        let told = format!("{} at ", rule.number);
        assert!(found.iter().any(|it| it.starts_with(&told)), "{told}");
    }
}

/// Each number at a definition taken out of its comment.
#[test]
fn every_number_at_a_definition_is_needed() {
    let page = Page::read(&files::page());
    let files = files::definitions();
    let sources: Vec<Source> = files
        .iter()
        .map(|(file, text)| Source::read(file, text))
        .collect();
    for (i, (file, text)) in files.iter().enumerate() {
        for definition in &sources[i].definitions {
            for number in &definition.numbers {
                let mut changed = sources.clone();
                changed[i] = Source::read(
                    file,
                    &without(text, &definition.place.name, &number.to_string()),
                );
                let found = differences(&page, &changed);
                let told = format!("rule {number} names {}, which lacks", definition.place);
                assert!(found.iter().any(|it| it.starts_with(&told)), "{told}");
            }
        }
    }
}

/// The text with this number gone from the comment of this definition: the last
/// line that begins with it before the definition.
fn without(text: &str, name: &str, number: &str) -> String {
    let lines: Vec<&str> = text.lines().collect();
    let starts = [
        format!("unfoldable pub {name} "),
        format!("abbrev pub {name} "),
        format!("pub record {name} "),
        format!("pub data {name} "),
    ];
    let at = lines
        .iter()
        .position(|line| starts.iter().any(|it| line.trim().starts_with(it.as_str())))
        .expect("the definition is in its file");
    let begins = format!("-- ({number}) ");
    let gone = (0..at)
        .rev()
        .find(|&i| lines[i].trim().starts_with(&begins))
        .expect("the number is above its definition");
    let mut kept: Vec<String> = lines.iter().map(|it| it.to_string()).collect();
    kept[gone] = kept[gone].replacen(&begins, "-- ", 1);
    kept.join("\n")
}
