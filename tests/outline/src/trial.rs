//! Runs a program with its input and output as a test has them.

use std::fs::File;
use std::io::{Read, Write};
use std::os::unix::process::{CommandExt, ExitStatusExt};
use std::path::{Path, PathBuf};
use std::process::{Child, Command, ExitStatus, Stdio};
use std::time::{Duration, Instant};
use std::{env, io, thread};

use crate::stored::in_repository;
use crate::system::{unread, Pipe};

/// No run may take longer. One that tries again until it gives up takes some
/// seconds.
const LIMIT: Duration = Duration::from_secs(120);

/// The proved program: `make run` builds it, and so does the gate;
/// `OUTLINE_PROGRAM` names another to be tried.
pub fn program() -> PathBuf {
    let named = env::var_os("OUTLINE_PROGRAM").map(PathBuf::from);
    let program = named.unwrap_or(in_repository("target/bin/outline"));
    assert!(
        program.is_file(),
        "{} is not there: `make run` proves and builds it",
        program.display()
    );
    program
}

/// How a run ended.
#[derive(Debug)]
pub struct Ended {
    /// The signal that ended it.
    pub signal: Option<i32>,
    /// What was taken of its output.
    pub output: Vec<u8>,
    /// What it said on standard error.
    pub said: String,
}

/// A program that is about to be run.
pub struct Trial {
    command: Command,
    give: Box<dyn FnOnce() + Send>,
    take: Box<dyn FnOnce() -> Vec<u8> + Send>,
}

impl Trial {
    /// With no input, and all of its output taken.
    pub fn of(program: &Path) -> Trial {
        let trial = Trial {
            command: Command::new(program),
            give: Box::new(|| ()),
            take: Box::new(Vec::new),
        };
        trial.given(&[]).taken(Pipe::new(), all_of)
    }

    /// These bytes are its input.
    pub fn given(self, input: &[u8]) -> Trial {
        let input = input.to_vec();
        self.given_by(Pipe::new(), move |mut pipe| write(&mut pipe, &input))
    }

    /// Its input is what is written to the pipe while it runs.
    pub fn given_by(mut self, pipe: Pipe, give: impl FnOnce(File) + Send + 'static) -> Trial {
        let Pipe { read, write } = pipe;
        self.command.stdin(Stdio::from(read));
        self.give = Box::new(move || give(write));
        self
    }

    /// Its input is this file.
    pub fn reads(mut self, file: File) -> Trial {
        self.command.stdin(Stdio::from(file));
        self.give = Box::new(|| ());
        self
    }

    /// Its output goes to the pipe; what is taken out there counts.
    pub fn taken(
        mut self,
        pipe: Pipe,
        take: impl FnOnce(File) -> Vec<u8> + Send + 'static,
    ) -> Trial {
        let Pipe { read, write } = pipe;
        self.command.stdout(Stdio::from(write));
        self.take = Box::new(move || take(read));
        self
    }

    /// Its output goes to this file.
    pub fn writes(mut self, file: File) -> Trial {
        self.command.stdout(Stdio::from(file));
        self.take = Box::new(Vec::new);
        self
    }

    /// Done in its process before it begins.
    pub fn after(mut self, prepare: fn()) -> Trial {
        let prepare = move || {
            prepare();
            Ok(())
        };
        // SAFETY: it makes a call or two of the system, and takes no memory.
        unsafe { self.command.pre_exec(prepare) };
        self
    }

    /// Runs it; fails if it takes too long.
    pub fn run(self) -> Result<Ended, String> {
        let Trial {
            mut command,
            give,
            take,
        } = self;
        let child = command.stderr(Stdio::piped()).spawn();
        let mut child = child.map_err(|error| error.to_string())?;
        drop(command); // its ends are the program's alone
        thread::scope(|scope| {
            scope.spawn(give);
            let taken = scope.spawn(take);
            let status = wait(&mut child)?;
            Ok(Ended {
                signal: status.signal(),
                output: taken.join().expect("the output"),
                said: said_by(&mut child).map_err(|error| error.to_string())?,
            })
        })
    }
}

fn wait(child: &mut Child) -> Result<ExitStatus, String> {
    let start = Instant::now();
    while start.elapsed() < LIMIT {
        if let Ok(Some(status)) = child.try_wait() {
            return Ok(status);
        }
        thread::sleep(Duration::from_millis(1));
    }
    child.kill().ok();
    child.wait().ok();
    Err(format!("it has not ended after {LIMIT:?}"))
}

fn said_by(child: &mut Child) -> io::Result<String> {
    let mut said = String::new();
    let pipe = child.stderr.as_mut().expect("a pipe");
    pipe.read_to_string(&mut said)?;
    Ok(said)
}

/// What a pipe gives, to its end.
pub fn all_of(mut pipe: File) -> Vec<u8> {
    let mut bytes = Vec::new();
    pipe.read_to_end(&mut bytes).expect("the output");
    bytes
}

/// A program that ends before it has read everything shows in its output.
pub fn write(pipe: &mut File, bytes: &[u8]) {
    pipe.write_all(bytes).ok();
}

/// Waits until all that is in the pipe has been read, but not for ever.
pub fn wait_until_read(pipe: &File) {
    let start = Instant::now();
    while unread(pipe) > 0 && start.elapsed() < Duration::from_secs(10) {
        thread::yield_now();
    }
}
