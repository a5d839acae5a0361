//! Pairs of inputs that differ in everything that must not show: recipes and their
//! terms, patches, junk and today's date. Their outlines are alike.

use at45db081d_model::Part;
use random::Rng;

use crate::order::PARTS;
use crate::rules;

/// A pair of inputs, alike in the part and line by line in call, slot, b and
/// script.
#[derive(Clone, Debug)]
pub struct Pair {
    /// With recipes of at most 20 bytes.
    pub short: String,
    /// With recipes of at least 1,800.
    pub long: String,
}

/// Lines that reach registers; both inputs have the same.
const REGISTER_LINES: [&str; 12] = [
    "raw 3D2A7FCF",
    "raw 3D2A7FCF script=01",
    "raw 3D2A7FFC000000 script=01",
    "raw 3D2A7FA9",
    "raw 3D2A7F9A",
    "raw 3D2A7F30001000 script=01",
    "raw 9B00000011223344 script=01",
    "raw B9",
    "raw AB",
    "pin 0",
    "pin 1",
    "end",
];

/// As many pairs as the tests take, from seed 0 on.
pub const PAIRS: u64 = 800;

/// The pair with this seed.
pub fn pair(seed: u64) -> Pair {
    let mut rng = Rng::new(seed);
    // Junk that can reach a register is alike.
    let with_registers = rng.one_in(2);
    let (word, part) = part(&mut rng);
    let mut pair = Pair {
        short: format!("part {word}\n"),
        long: format!("part {word}\n"),
    };
    for _ in 0..3 + rng.below(10) {
        let [short, long] = match with_registers && rng.one_in(4) {
            true => [rng.pick(&REGISTER_LINES); 2].map(String::from),
            false => calls(&mut rng, part, with_registers),
        };
        pair.short += &(short + "\n");
        pair.long += &(long + "\n");
    }
    pair
}

/// A part of either page size, seldom a full one.
fn part(rng: &mut Rng) -> (&'static str, Part) {
    let full = usize::from(rng.one_in(20));
    PARTS[2 * rng.below(2) + full]
}

/// A call, with a short recipe and with a long one.
fn calls(rng: &mut Rng, part: Part, junk_alike: bool) -> [String; 2] {
    let slot = rng.pick(&[0, 1, 1, 15]);
    let call = rng.below(10);
    let script: String = script(rng)
        .iter()
        .map(|byte| format!("{byte:02X}"))
        .collect();
    let alike = format!("b={} script={script}", rng.pick(&[1, 1, 2, 5]));
    let seeds = match junk_alike {
        true => [rng.byte(); 2],
        false => [rng.byte(), rng.byte()],
    };
    let mut with = |seed, least: usize, over: usize| {
        let first = match call {
            // Eight bytes less with a term.
            0..=3 => match rng.one_in(2) {
                true => format!("put {slot} {}", recipe(rng, least, over)),
                false => format!("put {slot} {} {}", recipe(rng, least, over - 8), term(rng)),
            },
            4..=6 => {
                let place = rng.below(least + 5);
                format!("patch {slot} {place} {}", recipe(rng, 0, over - place))
            }
            7 | 8 => {
                let year = 2000 + rng.below(200);
                format!("get {slot} today={}", date(rng, year))
            }
            _ => format!("wipe {slot}"),
        };
        format!("{first} {alike} junk={seed}")
    };
    let over = part.max_recipe() + 1;
    [with(seeds[0], 0, 21), with(seeds[1], 1800, over)]
}

/// First and last day, of different years.
fn term(rng: &mut Rng) -> String {
    let first = 2000 + rng.below(100);
    let last = first + 1 + rng.below(99);
    format!("first={} last={}", date(rng, first), date(rng, last))
}

/// A date that there is, of this year.
fn date(rng: &mut Rng, year: usize) -> String {
    format!("{year}-{:02}-{:02}", 1 + rng.below(12), 1 + rng.below(28))
}

/// Digits of a recipe of at least `least` bytes and fewer than `over`.
fn recipe(rng: &mut Rng, least: usize, over: usize) -> String {
    let mut bytes = vec![0; least + rng.below(over - least)];
    rng.fill(&mut bytes);
    let digits: String = bytes.iter().map(|byte| format!("{byte:02X}")).collect();
    if digits.is_empty() {
        return "-".into();
    }
    digits
}

/// Mostly no disturbance; else waits that are long, and a cut.
fn script(rng: &mut Rng) -> Vec<u8> {
    if rng.one_in(2) {
        return Vec::new();
    }
    let mut script: Vec<u8> = (0..rng.below(60)).map(|_| rng.byte() % 2).collect();
    if rng.one_in(2) {
        script.fill(0);
    }
    if rng.one_in(3) {
        script.push(2);
    }
    script
}

/// What some pairs have shown.
#[derive(Clone, Debug, Default)]
pub struct Shown {
    pub lines: usize,
    /// Lines with unlike answers among 0, 12, 13 and 15.
    pub unlike_answers: usize,
}

impl Shown {
    /// Whether this is at least 95 in 100 of what all pairs show.
    pub fn is_enough(&self) -> bool {
        self.lines >= 139_600 && self.unlike_answers >= 319
    }
}

/// Runs every pair; the first whose outlines are not alike.
pub fn check(run: impl Fn(&[u8]) -> Vec<u8>) -> Result<Shown, String> {
    let mut shown = Shown::default();
    for seed in 0..PAIRS {
        let pair = pair(seed);
        let (short, long) = (run(pair.short.as_bytes()), run(pair.long.as_bytes()));
        if let Some(unlike) = unlike(&short, &long) {
            return Err(format!("pair {seed}: {unlike}"));
        }
        let (short, long) = (rules::lines(&short), rules::lines(&long));
        shown.lines += short.len();
        shown.unlike_answers += short.iter().zip(&long).filter(|(x, y)| x != y).count();
    }
    Ok(shown)
}

/// The lines of an output, with answers 0, 12, 13 and 15 alike.
fn outline(output: &[u8]) -> Vec<String> {
    let text = String::from_utf8_lossy(output);
    let alike = |line: &str| match line.rsplit_once(" answer ") {
        Some((counts, "0" | "12" | "13" | "15")) => format!("{counts} answer 0, 12, 13 or 15"),
        _ => line.into(),
    };
    text.lines().map(alike).collect()
}

/// The first line where the outlines of two outputs differ.
fn unlike(short: &[u8], long: &[u8]) -> Option<String> {
    let (short, long) = (outline(short), outline(long));
    let same = short.iter().zip(&long).take_while(|(x, y)| x == y).count();
    let line = |outline: &[String]| outline.get(same).cloned().unwrap_or("nothing".into());
    if same == short.len() && same == long.len() {
        return None;
    }
    let (number, short, long) = (same + 1, line(&short), line(&long));
    Some(format!("line {number}: {short} | {long}"))
}
