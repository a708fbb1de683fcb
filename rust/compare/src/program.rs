//! A program run on a script: the script comes to its standard input through a pipe, what it prints is taken down.

use crate::random::Random;
use std::fmt::{Display, Formatter, Result as Written};
use std::io::{Read, Result as Done, Write};
use std::path::Path;
use std::process::{Child, Command, ExitStatus, Stdio};
use std::sync::mpsc;
use std::thread;
use std::time::{Duration, Instant};

/// How the script is written: in one piece, in pieces of random length, byte by byte, or with a pause after each byte.
#[derive(Clone, Copy, Debug)]
pub enum Feed {
    Whole,
    Pieces(u64),
    Bytes,
    BytesSlowly,
}

/// Why there is no listing. What hangs takes so long that it is not tried again.
#[derive(Clone, Debug)]
pub enum Failure {
    Hangs(String),
    Other(String),
}

impl Display for Failure {
    fn fmt(&self, to: &mut Formatter) -> Written {
        let (Failure::Hangs(text) | Failure::Other(text)) = self;
        write!(to, "{text}")
    }
}

const LONGEST_WAIT: Duration = Duration::from_secs(20);
const PAUSE: Duration = Duration::from_micros(20);

fn piece(feed: Feed, random: &mut Random, left: usize) -> usize {
    match feed {
        Feed::Whole => left,
        Feed::Pieces(_) => left.min(1 + random.index(if left > 2000 { 4000 } else { 40 })),
        Feed::Bytes | Feed::BytesSlowly => 1,
    }
}

/// Writing ends early if the program no longer reads; what it printed then decides.
fn write_all(mut to: impl Write, mut script: &[u8], feed: Feed) {
    let mut random = Random::new(if let Feed::Pieces(seed) = feed {
        seed
    } else {
        0
    });
    while !script.is_empty() {
        let (now, later) = script.split_at(piece(feed, &mut random, script.len()));
        if to.write_all(now).is_err() {
            return;
        }
        script = later;
        if let Feed::BytesSlowly = feed {
            thread::sleep(PAUSE);
        }
    }
}

/// How it ended, if it did in time; else it is killed.
fn end(child: &mut Child, begin: Instant) -> Done<Option<ExitStatus>> {
    while begin.elapsed() < LONGEST_WAIT {
        let status = child.try_wait()?;
        if status.is_some() {
            return Ok(status);
        }
        thread::sleep(PAUSE);
    }
    child.kill()?;
    child.wait().map(|_| None)
}

/// What the program printed. It must end by itself and in time, with status 0, and print nothing to its standard error.
pub fn printed(program: &Path, script: &[u8], feed: Feed) -> Result<Vec<u8>, Failure> {
    let says = |what: &str| format!("the program {}: {what}", program.display());
    let failed = |error: std::io::Error| Failure::Other(says(&error.to_string()));
    let begin = Instant::now();
    let mut child = Command::new(program)
        .stdin(Stdio::piped())
        .stdout(Stdio::piped())
        .stderr(Stdio::piped())
        .spawn()
        .map_err(failed)?;
    let (input, mut output, mut errors) = (
        child.stdin.take().expect("a pipe"),
        child.stdout.take().expect("a pipe"),
        child.stderr.take().expect("a pipe"),
    );
    let (done, wait) = mpsc::channel();
    let (text, status) = thread::scope(|scope| {
        scope.spawn(move || write_all(input, script, feed));
        scope.spawn(move || {
            let mut text = Vec::new();
            let read = output.read_to_end(&mut text);
            let _ = done.send(read.map(|_| text));
        });
        let text = wait.recv_timeout(LONGEST_WAIT);
        (text, end(&mut child, begin))
    });
    let (Ok(text), Some(status)) = (text, status.map_err(failed)?) else {
        return Err(Failure::Hangs(says("did not end in 20 seconds")));
    };
    let mut complaint = Vec::new();
    errors.read_to_end(&mut complaint).map_err(failed)?;
    if !status.success() || !complaint.is_empty() {
        let complaint = String::from_utf8_lossy(&complaint);
        return Err(Failure::Other(says(&format!(
            "ended with {status}, on standard error: {complaint:?}"
        ))));
    }
    text.map_err(failed)
}
