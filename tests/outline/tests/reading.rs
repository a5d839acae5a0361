//! Input that comes late and in pieces, or cannot be read.
//!
//! Where reading fails for good the program tries for some seconds.

use std::fs::File;
use std::path::Path;
use std::thread::sleep;
use std::time::Duration;

use outline_tests::run;
use outline_tests::system::{close_input, do_not_wait, Pipe};
use outline_tests::trial::{program, wait_until_read, write, Ended, Trial};

const UNREAD: &str = "outline: the input cannot be read; what was read is outlined\n";

/// A script in which every byte counts, the last one too.
const SCRIPT: &[u8] = b"pin 0\nwipe 2 b=3\r\n\nput 1 4A4b\nget 1\nsum\nend\nsum";

/// What is tried, and on which program.
type Case = fn(&Path) -> Result<(), String>;

const CASES: [(&str, Case); 7] = [
    ("a directory", directory),
    ("closed input", closed_input),
    ("late input, no waiting", late),
    ("input that stays away", stays_away),
    ("two pieces", two_pieces),
    ("byte by byte", byte_by_byte),
    ("lines of any length", lines_of_any_length),
];

/// This was printed and this said.
fn ended_with(ended: Ended, output: &[u8], said: &str) -> Result<(), String> {
    if ended.output == output && ended.said == said && ended.signal == None {
        return Ok(());
    }
    let printed = String::from_utf8_lossy(&ended.output);
    Err(format!("said {:?}, printed {printed:?}", ended.said))
}

fn directory(program: &Path) -> Result<(), String> {
    let directory = File::open("/").expect("a directory");
    ended_with(Trial::of(program).reads(directory).run()?, b"", UNREAD)
}

fn closed_input(program: &Path) -> Result<(), String> {
    ended_with(Trial::of(program).after(close_input).run()?, b"", UNREAD)
}

/// Every read between the pieces fails, since it would have to wait.
fn late(program: &Path) -> Result<(), String> {
    let pipe = Pipe::new();
    do_not_wait(&pipe.read);
    let trial = Trial::of(program).given_by(pipe, |mut pipe| {
        for piece in SCRIPT.chunks(25) {
            sleep(Duration::from_millis(100));
            write(&mut pipe, piece);
        }
    });
    ended_with(trial.run()?, &run(SCRIPT), "")
}

/// The lines that have ended are outlined. What stands behind them, though it
/// could be read as a line, is not: nobody knows what would have followed.
fn stays_away(program: &Path) -> Result<(), String> {
    let pipe = Pipe::new();
    do_not_wait(&pipe.read);
    let held = pipe.write.try_clone().expect("the pipe's end");
    let trial = Trial::of(program).given_by(pipe, |mut pipe| write(&mut pipe, b"wipe 2\nwipe 1"));
    let ended = trial.run();
    drop(held);
    ended_with(ended?, &run(b"wipe 2\n"), UNREAD)
}

/// Parted at every place.
fn two_pieces(program: &Path) -> Result<(), String> {
    let places = 1..SCRIPT.len();
    places.into_iter().try_for_each(|at| {
        let (first, second) = SCRIPT.split_at(at);
        given_in(program, vec![first, second]).map_err(|what| format!("parted at {at}: {what}"))
    })
}

fn byte_by_byte(program: &Path) -> Result<(), String> {
    given_in(program, SCRIPT.chunks(1).collect())
}

/// Each piece is read before the next is there.
fn given_in(program: &Path, pieces: Vec<&'static [u8]>) -> Result<(), String> {
    let trial = Trial::of(program).given_by(Pipe::new(), move |mut pipe| {
        for piece in pieces {
            write(&mut pipe, piece);
            wait_until_read(&pipe);
        }
    });
    ended_with(trial.run()?, &run(SCRIPT), "")
}

/// The longest that is read, longer ones, a last line without LF, no line.
fn lines_of_any_length(program: &Path) -> Result<(), String> {
    let end = |len: usize| [&vec![b' '; len - 3][..], b"end"].concat();
    let long = "line 1: longer than 8192 characters\n";
    let cases = [
        (end(8192), "answer 0\n"),
        ([&end(8192)[..], b"\nend"].concat(), "answer 0\nanswer 0\n"),
        (end(8193), long),
        (end(100_000), long),
        ([&end(100_000)[..], b"\n"].concat(), long),
        (b"end\nend".to_vec(), "answer 0\nanswer 0\n"),
        (b"end\nend\n".to_vec(), "answer 0\nanswer 0\n"),
        (b"\n".to_vec(), "line 1: no command\n"),
        (Vec::new(), ""),
    ];
    cases.into_iter().try_for_each(|(input, output)| {
        let ended = Trial::of(program).given(&input).run()?;
        ended_with(ended, output.as_bytes(), "")
    })
}

fn holds(case: Case) {
    case(&program()).unwrap_or_else(|what| panic!("{what}"));
}

#[test]
fn directory_is_said() {
    holds(directory);
}

#[test]
fn closed_input_is_said() {
    holds(closed_input);
}

#[test]
fn late_input_is_read() {
    holds(late);
}

#[test]
fn input_that_stays_away_is_said() {
    holds(stays_away);
}

#[test]
fn pieces_do_not_matter() {
    holds(two_pieces);
    holds(byte_by_byte);
}

#[test]
fn lines_have_any_length() {
    holds(lines_of_any_length);
}

/// A program that takes each read for whole lines, and a failure for the end,
/// fails each time.
#[test]
fn careless_reading_is_noticed() {
    let careless = Path::new(env!("CARGO_BIN_EXE_careless"));
    for (name, case) in CASES {
        match case(careless) {
            Ok(()) => panic!("not noticed: {name}"),
            Err(what) => println!("{name}: {what}"),
        }
    }
}
