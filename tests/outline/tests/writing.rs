//! Output that cannot be written, or only slowly and in parts: nothing is lost
//! without a word.
//!
//! Where writing fails for good the program tries for some seconds.

use std::fs::{File, OpenOptions};
use std::io::{Read, Write};
use std::path::Path;
use std::thread::sleep;
use std::time::Duration;

use outline_tests::run;
use outline_tests::stored::SHORT;
use outline_tests::system::{close_output, do_not_wait, ignore_broken_pipes, Pipe};
use outline_tests::trial::{program, Ended, Trial};

const UNWRITTEN: &str = "outline: the output cannot be written; it is not whole\n";

/// What is tried, and on which program.
type Case = fn(&Path) -> Result<(), String>;

const CASES: [(&str, Case); 9] = [
    ("a full disk", full_disk),
    ("closed output", closed_output),
    ("a broken pipe", broken_pipe),
    ("a pipe that breaks in the middle", breaking_pipe),
    ("a broken pipe's signal", broken_pipe_signal),
    ("a file", file),
    ("a slow reader, no waiting", slow_reader),
    ("small pieces", small_pieces),
    ("a small pipe, no waiting", small_pipe),
];

/// Calls whose outline fills several buffers, no two alike in turn.
fn many_calls() -> Vec<u8> {
    let calls = (0..700).map(|i| format!("put {} 4142\nget {0}\nwipe {}\n", i % 16, i % 11));
    calls.collect::<String>().into_bytes()
}

/// All of the output is there, and nothing was said.
fn whole(input: &[u8], ended: Ended) -> Result<(), String> {
    let due = run(input);
    let begun = ended.output.iter().zip(&due).take_while(|(a, b)| a == b);
    let at = begun.count();
    match (ended.output == due, &ended.said[..], ended.signal) {
        (true, "", None) => Ok(()),
        (_, said, signal) => Err(format!(
            "{} bytes of {}, alike up to {at}; said {said:?}; signal {signal:?}",
            ended.output.len(),
            due.len(),
        )),
    }
}

/// Nothing came out that is not due, not all of it, and that was said.
fn said_to_be_lost(input: &[u8], ended: Ended) -> Result<(), String> {
    let due = run(input);
    let is_beginning = due.starts_with(&ended.output) && ended.output != due;
    match (is_beginning, &ended.said[..], ended.signal) {
        (true, UNWRITTEN, None) => Ok(()),
        _ => Err(format!("{} bytes; {:?}", ended.output.len(), ended.said)),
    }
}

fn full_disk(program: &Path) -> Result<(), String> {
    let input = SHORT.input();
    let full = OpenOptions::new().write(true).open("/dev/full");
    let trial = Trial::of(program).given(&input);
    said_to_be_lost(&input, trial.writes(full.expect("/dev/full")).run()?)
}

fn closed_output(program: &Path) -> Result<(), String> {
    let input = SHORT.input();
    let trial = Trial::of(program).given(&input).after(close_output);
    said_to_be_lost(&input, trial.run()?)
}

/// Nobody reads, from the beginning on.
fn broken(program: &Path, input: &[u8]) -> Trial {
    let Pipe { read, write } = Pipe::new();
    drop(read);
    Trial::of(program).given(input).writes(write)
}

fn broken_pipe(program: &Path) -> Result<(), String> {
    let input = SHORT.input();
    let trial = broken(program, &input).after(ignore_broken_pipes);
    said_to_be_lost(&input, trial.run()?)
}

/// What the reader took before it went away is a beginning of what is due.
fn breaking_pipe(program: &Path) -> Result<(), String> {
    let input = many_calls();
    let trial = Trial::of(program).given(&input).after(ignore_broken_pipes);
    let ended = trial
        .taken(Pipe::new(), |pipe| some_of(&pipe, 1000))
        .run()?;
    match ended.output.len() {
        1000 => said_to_be_lost(&input, ended),
        taken => Err(format!("{taken} bytes")),
    }
}

/// Where its signal would end another program: a program that Rattle builds
/// ignores it from its start on, so that this is a failed write as any other.
fn broken_pipe_signal(program: &Path) -> Result<(), String> {
    let input = SHORT.input();
    said_to_be_lost(&input, broken(program, &input).run()?)
}

fn file(program: &Path) -> Result<(), String> {
    let input = many_calls();
    let name = program.file_name().expect("a name").to_string_lossy();
    let path = Path::new(env!("CARGO_TARGET_TMPDIR")).join(format!("{name}.written"));
    let file = File::create(&path).expect("a file");
    let mut ended = Trial::of(program).given(&input).writes(file).run()?;
    ended.output = std::fs::read(&path).expect("the file");
    whole(&input, ended)
}

fn slow_reader(program: &Path) -> Result<(), String> {
    let pipe = Pipe::new();
    do_not_wait(&pipe.write);
    read_in(program, pipe, 40_000, Duration::from_millis(50))
}

fn small_pieces(program: &Path) -> Result<(), String> {
    read_in(program, Pipe::new(), 7, Duration::ZERO)
}

/// One page, of which the reader leaves some part filled.
fn small_pipe(program: &Path) -> Result<(), String> {
    let pipe = Pipe::small();
    do_not_wait(&pipe.write);
    read_in(program, pipe, 1000, Duration::from_micros(100))
}

/// The output is taken in pieces of a length, with a pause before each.
fn read_in(program: &Path, pipe: Pipe, len: usize, pause: Duration) -> Result<(), String> {
    let input = many_calls();
    let pieces = move |pipe: File| {
        let mut bytes = Vec::new();
        loop {
            sleep(pause);
            let piece = some_of(&pipe, len);
            if piece.is_empty() {
                return bytes;
            }
            bytes.extend(piece);
        }
    };
    let trial = Trial::of(program).given(&input).taken(pipe, pieces);
    whole(&input, trial.run()?)
}

/// So many bytes of the output, or all that there are.
fn some_of(pipe: &File, len: usize) -> Vec<u8> {
    let mut bytes = Vec::new();
    let mut part = pipe.take(len as u64);
    part.read_to_end(&mut bytes).expect("the output");
    bytes
}

fn holds(case: Case) {
    case(&program()).unwrap_or_else(|what| panic!("{what}"));
}

#[test]
fn full_disk_is_said() {
    holds(full_disk);
}

/// Where nothing more can be written nothing more is read: the run ends though
/// its input does not.
#[test]
fn endless_input_is_left() {
    let full = OpenOptions::new().write(true).open("/dev/full");
    let endless = |mut pipe: File| while pipe.write_all(b"wipe 2\n").is_ok() {};
    let trial = Trial::of(&program()).given_by(Pipe::new(), endless);
    let ended = trial.writes(full.expect("/dev/full")).run();
    assert_eq!(ended.expect("an end").said, UNWRITTEN);
}

#[test]
fn closed_output_is_said() {
    holds(closed_output);
}

#[test]
fn broken_pipe_is_said() {
    holds(broken_pipe);
    holds(broken_pipe_signal);
}

#[test]
fn breaking_pipe_is_said() {
    holds(breaking_pipe);
}

#[test]
fn output_is_whole() {
    holds(file);
    holds(slow_reader);
    holds(small_pieces);
    holds(small_pipe);
}

/// A program that does not look at what became of its writes fails each time.
#[test]
fn careless_writing_is_noticed() {
    let careless = Path::new(env!("CARGO_BIN_EXE_careless"));
    for (name, case) in CASES {
        match case(careless) {
            Ok(()) => panic!("not noticed: {name}"),
            Err(what) => println!("{name}: {what}"),
        }
    }
}

/// The calls fill the program's buffer and a pipe several times.
#[test]
fn many_calls_are_many() {
    assert!(run(&many_calls()).len() > 6 * 65_536);
}
