//! Runs a console as a process.

use crate::chance::Chance;
use std::io::{self, Read, Write};
use std::path::Path;
use std::process::{Child, ChildStdin, ChildStdout, Command, ExitStatus, Stdio};
use std::sync::mpsc;
use std::thread;
use std::time::{Duration, Instant};

const PATIENCE: Duration = Duration::from_secs(20);
/// Far more than a page, and a bound on what a faulty program can print.
const MOST_OUTPUT: u64 = 1 << 20;

/// How the input comes to the program.
#[derive(Clone, Copy)]
pub enum Feed {
    Whole,
    /// In pieces with pauses, so that one reading may not give everything.
    Pieces {
        seed: u64,
    },
}

pub enum Outcome {
    Ended { status: ExitStatus, output: Vec<u8> },
    TookTooLong,
}

/// The threads for input and output are left to themselves when the program
/// has to be stopped, since something that it started may keep the pipes open.
pub fn run(program: &Path, input: &[u8], feed: Feed) -> io::Result<Outcome> {
    let deadline = Instant::now() + PATIENCE;
    let mut child = Command::new(program)
        .stdin(Stdio::piped())
        .stdout(Stdio::piped())
        .spawn()?;
    let stdin = child.stdin.take().expect("the input is a pipe");
    let stdout = child.stdout.take().expect("the output is a pipe");
    let input = input.to_vec();
    thread::spawn(move || write_input(stdin, &input, feed));
    let (sender, receiver) = mpsc::channel();
    thread::spawn(move || sender.send(read_output(stdout)));
    let Ok(output) = receiver.recv_timeout(PATIENCE) else {
        stop(&mut child)?;
        return Ok(Outcome::TookTooLong);
    };
    let output = output?;
    Ok(match wait_until(&mut child, deadline)? {
        Some(status) => Outcome::Ended { status, output },
        None => Outcome::TookTooLong,
    })
}

/// A program may stop reading when it has read enough, so a write that fails
/// is no fault.
fn write_input(mut stdin: ChildStdin, input: &[u8], feed: Feed) {
    match feed {
        Feed::Whole => {
            let _ = stdin.write_all(input);
        }
        Feed::Pieces { seed } => {
            let mut chance = Chance::new(seed);
            let mut rest = input;
            while !rest.is_empty() {
                let longest = chance.pick(&[1, 100, 4096, 8192]);
                let (piece, after) = rest.split_at(chance.between(1, longest).min(rest.len()));
                if stdin.write_all(piece).is_err() {
                    return;
                }
                rest = after;
                thread::sleep(Duration::from_micros(200));
            }
        }
    }
}

fn read_output(stdout: ChildStdout) -> io::Result<Vec<u8>> {
    let mut output = Vec::new();
    stdout.take(MOST_OUTPUT).read_to_end(&mut output)?;
    Ok(output)
}

/// The status of the program, or none if it had to be stopped.
fn wait_until(child: &mut Child, deadline: Instant) -> io::Result<Option<ExitStatus>> {
    loop {
        if let Some(status) = child.try_wait()? {
            return Ok(Some(status));
        }
        if Instant::now() > deadline {
            stop(child)?;
            return Ok(None);
        }
        thread::sleep(Duration::from_micros(100));
    }
}

fn stop(child: &mut Child) -> io::Result<()> {
    child.kill()?;
    child.wait()?;
    Ok(())
}
