//! The random inputs reach what they are for.

use outline_tests::inputs::{input, INPUTS};
use outline_tests::met::Met;
use outline_tests::order::PARTS;
use outline_tests::run;

#[test]
fn inputs_meet_every_message_and_answer() {
    let mut met = Met::default();
    for seed in 0..INPUTS {
        met.add(&run(&input(seed)));
    }
    assert_eq!(met, Met::all());
}

#[test]
fn inputs_have_every_form() {
    let inputs: Vec<Vec<u8>> = (0..INPUTS).map(input).collect();
    let some = |form: fn(&[u8]) -> bool| inputs.iter().any(|input| form(input));
    assert!(some(|input| input.is_empty()));
    assert!(some(|input| input.ends_with(b"\n")));
    assert!(some(|input| input.ends_with(b"sum")));
    assert!(some(|input| input.contains(&0)));
    assert!(some(|input| input.iter().any(|byte| *byte > 127)));
    assert!(some(|input| input.windows(2).any(|two| two == b"\r\n")));
    assert!(some(|input| input.windows(2).any(|two| two == b"\n\n")));
    assert!(some(|input| has_line_of(input, 8192)));
    assert!(some(|input| has_line_of(input, 8193)));
    assert!(some(|input| has_line_of(input, 20_000)));
    for (word, _) in PARTS {
        let first = format!("part {word}");
        let begins =
            |line: &[u8]| line.split(|it| b"\r\n".contains(it)).next() == Some(first.as_bytes());
        assert!(inputs.iter().any(|input| begins(input)), "{first}");
    }
}

fn has_line_of(input: &[u8], len: usize) -> bool {
    let mut lines = input.split(|&byte| byte == b'\n');
    lines.any(|line| line.len() == len)
}
