//! Runs flashrom against a bridge.

use crate::bridge::{Bridge, Traffic};
use crate::serprog;
use std::env;
use std::ffi::OsStr;
use std::fs::{self, File};
use std::io;
use std::net::{TcpListener, TcpStream};
use std::path::Path;
use std::process::{Child, Command, ExitStatus, Stdio};
use std::thread::sleep;
use std::time::{Duration, Instant};

/// How long flashrom may be silent.
const PATIENCE: Duration = Duration::from_secs(30);
const MOMENT: Duration = Duration::from_millis(2);

/// What came of a run.
pub struct Run {
    pub status: ExitStatus,
    /// Both of its output streams.
    pub output: String,
    pub traffic: Traffic,
}

/// A flashrom that is stopped when it goes out of sight.
struct Running(Child);

impl Drop for Running {
    fn drop(&mut self) {
        // It has most often ended by itself.
        let _ = self.0.kill();
        let _ = self.0.wait();
    }
}

/// Runs flashrom with these arguments, serving it until it ends. Its output
/// stays in `directory`.
pub fn run(bridge: &mut Bridge, directory: &Path, arguments: &[&OsStr]) -> Result<Run, String> {
    let path = directory.join("output.txt");
    let status = serve_run(bridge, &path, arguments).map_err(|error| {
        let output = read_text(&path).unwrap_or_default();
        format!("running flashrom: {error}\n{output}")
    })?;
    let output = read_text(&path).map_err(|error| format!("{}: {error}", path.display()))?;
    let traffic = bridge.take_traffic();
    Ok(Run {
        status,
        output,
        traffic,
    })
}

fn serve_run(bridge: &mut Bridge, output: &Path, arguments: &[&OsStr]) -> io::Result<ExitStatus> {
    let listener = TcpListener::bind("127.0.0.1:0")?;
    let mut flashrom = start(listener.local_addr()?.port(), output, arguments)?;
    let mut stream = match accept(&listener, &mut flashrom)? {
        Some(stream) => stream,
        None => return flashrom.0.wait(),
    };
    stream.set_nodelay(true)?;
    stream.set_read_timeout(Some(PATIENCE))?;
    serprog::serve(&mut stream, bridge)?;
    drop(stream);
    wait(&mut flashrom)
}

/// Starts flashrom, which Debian keeps in /usr/sbin.
fn start(port: u16, output: &Path, arguments: &[&OsStr]) -> io::Result<Running> {
    let output = File::create(output)?;
    let path = env::var("PATH").unwrap_or_default();
    let child = Command::new("flashrom")
        .env("PATH", format!("{path}:/usr/sbin"))
        .arg("-p")
        .arg(format!("serprog:ip=127.0.0.1:{port}"))
        .args(["-c", "AT45DB081D"])
        .args(arguments)
        .stdin(Stdio::null())
        .stderr(output.try_clone()?)
        .stdout(output)
        .spawn()
        .map_err(|error| match error.kind() {
            io::ErrorKind::NotFound => failure("it is not installed; scripts/setup does"),
            _ => error,
        })?;
    Ok(Running(child))
}

/// The connection that flashrom makes; none if it ends before.
fn accept(listener: &TcpListener, flashrom: &mut Running) -> io::Result<Option<TcpStream>> {
    listener.set_nonblocking(true)?;
    let start = Instant::now();
    while start.elapsed() < PATIENCE {
        match listener.accept() {
            Ok((stream, _)) => {
                stream.set_nonblocking(false)?;
                return Ok(Some(stream));
            }
            Err(error) if error.kind() == io::ErrorKind::WouldBlock => {}
            Err(error) => return Err(error),
        }
        if flashrom.0.try_wait()?.is_some() {
            return Ok(None);
        }
        sleep(MOMENT);
    }
    Err(failure("it does not connect"))
}

/// Why flashrom does not do its part.
fn failure(why: &str) -> io::Error {
    io::Error::new(io::ErrorKind::Other, why)
}

/// Waits until flashrom, which has closed its connection, ends.
fn wait(flashrom: &mut Running) -> io::Result<ExitStatus> {
    let start = Instant::now();
    while start.elapsed() < PATIENCE {
        if let Some(status) = flashrom.0.try_wait()? {
            return Ok(status);
        }
        sleep(MOMENT);
    }
    Err(failure("it does not end"))
}

fn read_text(path: &Path) -> io::Result<String> {
    Ok(String::from_utf8_lossy(&fs::read(path)?).into_owned())
}
