//! The reference on the stored inputs.

use outline_tests::crc::crc32;
use outline_tests::met::Met;
use outline_tests::stored::{ALL, LONG, RUN, SHORT, TERMS, WIPE};
use outline_tests::{difference, run};

#[test]
fn reference_prints_what_is_stored() {
    for stored in ALL {
        if let Some(difference) = difference(&stored.input(), &stored.output()) {
            panic!("{}: {difference}", stored.name);
        }
    }
}

/// Line by line: a wait, both registers, the erase, a wait, the totals.
#[test]
fn wipe_2() {
    let lines = "\
2 D7 00
20 32 00 00 00
20 35 00 00 00
4 50 00 20 00
2 D7 00
frames 5 polls 2 answer 0
";
    assert_eq!(WIPE.input(), b"wipe 2\n");
    assert_eq!(run(b"wipe 2\n"), lines.as_bytes());
    assert_eq!(WIPE.output(), lines.as_bytes());
}

#[test]
fn crc_of_123456789() {
    assert_eq!(crc32(b"123456789"), 0xCBF4_3926);
    assert_eq!(crc32(b""), 0);
}

/// The stored run, with that of terms and dates, meets every message and every
/// answer that lines can meet, and has a line of 8,192 characters and a longer one.
#[test]
fn stored_runs_meet_everything() {
    let mut met = Met::default();
    met.add(&RUN.output());
    met.add(&TERMS.output());
    assert_eq!(met, Met::all());
    let input = RUN.input();
    let lens: Vec<usize> = input
        .split(|&byte| byte == b'\n')
        .map(<[u8]>::len)
        .collect();
    assert!(lens.contains(&8192) && lens.contains(&8193));
}

/// The examples have recipes of 5 and of 2,000 bytes.
#[test]
fn examples_are_a_short_and_a_long_recipe() {
    let recipe_len = |input: Vec<u8>| {
        let mut words = input.split(|byte| byte.is_ascii_whitespace());
        words.nth(2).map_or(0, |digits| digits.len() / 2)
    };
    assert_eq!(recipe_len(SHORT.input()), 5);
    assert_eq!(recipe_len(LONG.input()), 2000);
}

/// With pages of 256 bytes they share an outline too.
#[test]
fn examples_with_pages_of_256() {
    let [short, long] = [SHORT, LONG].map(|example| {
        let input = [b"part 128x256\n", &example.input()[..]].concat();
        String::from_utf8(run(&input)).expect("text")
    });
    assert_eq!(short, long);
    // A wait, both registers, then the first of slot 5's pages, and its compare.
    let first = "\
2 D7 00
20 32 00 00 00
20 35 00 00 00
260 84 00 00 00
4 83 00 28 00
2 D7 00
4 60 00 28 00
2 D7 00
";
    assert!(short.starts_with(first));
}
