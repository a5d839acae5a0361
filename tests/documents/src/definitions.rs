//! The definitions of a file, with the rules' numbers in their comments.

use crate::number::Number;
use crate::page::Place;

/// A definition, the numbers at which its comment's lines begin, and whether
/// it is said to be an aid.
#[derive(Clone, Debug)]
pub struct Definition {
    pub place: Place,
    pub numbers: Vec<Number>,
    pub aid: bool,
}

/// The definitions of a file, and the numbers in comments that no definition
/// follows.
#[derive(Clone, Debug, Default)]
pub struct Source {
    pub definitions: Vec<Definition>,
    pub astray: Vec<(Number, String)>,
}

impl Source {
    pub fn read(file: &str, text: &str) -> Source {
        let mut source = Source::default();
        let aid_file = text.starts_with("-- Aid:");
        let mut aid_group = false;
        let mut comment: Vec<&str> = Vec::new();
        for line in text.lines().map(str::trim) {
            let heading = line.strip_prefix("-- ---- ");
            if heading.is_none() {
                if let Some(said) = line.strip_prefix("-- ") {
                    comment.push(said);
                    continue;
                }
            }
            let numbers: Vec<Number> = comment.iter().filter_map(|it| number(it)).collect();
            let aid_said = comment.first().map_or(false, |it| it.starts_with("Aid:"));
            match defined(line) {
                Some(name) => source.definitions.push(Definition {
                    place: Place {
                        file: file.to_string(),
                        name: name.to_string(),
                    },
                    numbers,
                    aid: aid_file || aid_group || aid_said,
                }),
                None => {
                    let astray = numbers.into_iter().map(|it| (it, file.to_string()));
                    source.astray.extend(astray);
                }
            }
            if let Some(heading) = heading {
                aid_group = heading.starts_with("Aid:");
            }
            comment.clear();
        }
        source
    }
}

/// The number in parentheses at which a line of a comment begins.
fn number(said: &str) -> Option<Number> {
    let (number, _) = said.strip_prefix('(')?.split_once(") ")?;
    Number::read(number)
}

/// The name that a line of a file of definitions defines. A record's fields
/// are none.
fn defined(line: &str) -> Option<&str> {
    let kinds = ["unfoldable pub ", "abbrev pub ", "pub record ", "pub data "];
    let rest = kinds.iter().find_map(|it| line.strip_prefix(it))?;
    rest.split(' ').next()
}

/// Whether some line of the text declares the name: a theorem, a definition or
/// a type.
pub fn declares(text: &str, name: &str) -> bool {
    text.lines().any(|line| declared(line.trim()) == Some(name))
}

fn declared(line: &str) -> Option<&str> {
    let kinds = ["pub struct ", "pub enum ", "pub "];
    let name = defined(line).or_else(|| {
        let rest = kinds.iter().find_map(|it| line.strip_prefix(it))?;
        rest.split(' ').next()
    })?;
    Some(name.trim_end_matches(|it: char| it == ':' || it == ';'))
}
