//! Drives two consoles through the same sessions and compares every byte.
//!
//!     drive [--program PATH] [--reference PATH] [--sessions N] [--first SEED] [--keep FILE]
//!     drive --print SEED
//!
//! Without --program the program under test is that of the environment's
//! TABLET, or else ../crates/tablet/out/tablet. The reference is the one that lies
//! beside this program. At the first difference the session is written to
//! the file of --keep (target/difference.txt). The second form prints the
//! session of a seed and runs nothing.

mod brink;
mod chance;
mod desk;
mod key;
mod malformed;
mod mixed;
mod page_fill;
mod program;
mod script;
mod session;
mod staged;
mod sweep;
mod tally;

use program::{Feed, Outcome};
use session::Session;
use std::env;
use std::fs;
use std::io::{self, Write};
use std::path::{Path, PathBuf};
use std::process::ExitCode;
use tally::Tally;

/// The program under test gets one session in so many in pieces. No factor of
/// the count of kinds, so that this comes to sessions of every kind.
const PIECES_IN: u64 = 5;

const USAGE: &str = "usage: drive [--program PATH] [--reference PATH] [--sessions N] \
                     [--first SEED] [--keep FILE], or drive --print SEED";

struct Order {
    program: PathBuf,
    reference: PathBuf,
    sessions: u64,
    first_seed: u64,
    keep: PathBuf,
    print: Option<u64>,
}

fn main() -> ExitCode {
    let order = match read_order() {
        Ok(order) => order,
        Err(fault) => {
            eprintln!("drive: {fault}");
            return ExitCode::FAILURE;
        }
    };
    let done = match order.print {
        Some(seed) => print_session(seed),
        None => drive(&order),
    };
    match done {
        Ok(()) => ExitCode::SUCCESS,
        Err(fault) => {
            println!("{fault}");
            ExitCode::FAILURE
        }
    }
}

fn read_order() -> Result<Order, String> {
    let program = env::var_os("TABLET").unwrap_or_else(|| "../crates/tablet/out/tablet".into());
    let mut order = Order {
        program: PathBuf::from(program),
        reference: beside_this_program("reference")?,
        sessions: 200,
        first_seed: 0,
        keep: PathBuf::from("target/difference.txt"),
        print: None,
    };
    let mut words = env::args().skip(1);
    while let Some(word) = words.next() {
        let value = words.next().ok_or(USAGE)?;
        match word.as_str() {
            "--program" => order.program = PathBuf::from(value),
            "--reference" => order.reference = PathBuf::from(value),
            "--sessions" => order.sessions = read_count(&value)?,
            "--first" => order.first_seed = read_count(&value)?,
            "--keep" => order.keep = PathBuf::from(value),
            "--print" => order.print = Some(read_count(&value)?),
            _ => return Err(USAGE.to_string()),
        }
    }
    Ok(order)
}

fn read_count(text: &str) -> Result<u64, String> {
    text.parse().map_err(|_| format!("{text} is no number"))
}

fn beside_this_program(name: &str) -> Result<PathBuf, String> {
    let this = env::current_exe().map_err(|fault| fault.to_string())?;
    Ok(this.with_file_name(name))
}

fn print_session(seed: u64) -> Result<(), String> {
    let session = session::make(seed);
    let mut out = io::stdout();
    out.write_all(&session.input)
        .map_err(|fault| fault.to_string())
}

/// Runs all sessions, and prints the summary. A fault is told by its text.
fn drive(order: &Order) -> Result<(), String> {
    let mut tally = Tally::default();
    for seed in order.first_seed..order.first_seed + order.sessions {
        let session = session::make(seed);
        match compare(order, &session) {
            Ok(output) => tally.count(&session, &output),
            Err(difference) => return Err(tell(order, &session, &difference)),
        }
    }
    print!("{tally}");
    let unheard_of = tally.unheard_of();
    if !unheard_of.is_empty() {
        let list = unheard_of.join("\n  ");
        return Err(format!(
            "both gave answers that no such call has:\n  {list}"
        ));
    }
    let missing = tally.missing();
    if !missing.is_empty() {
        return Err(format!("never occurred:\n  {}", missing.join("\n  ")));
    }
    println!("every answer and every refusal that the console can show occurred");
    Ok(())
}

/// The output on which both consoles agree, or how they differ.
fn compare(order: &Order, session: &Session) -> Result<Vec<u8>, String> {
    let expected = output_of("the reference", &order.reference, session, Feed::Whole)?;
    if let Some(known) = &session.known_output {
        if *known != expected {
            let difference = first_difference(session, ("known", known), ("reference", &expected));
            return Err(format!("the reference is wrong\n{difference}"));
        }
    }
    let feed = match session.seed % PIECES_IN {
        0 => Feed::Pieces { seed: session.seed },
        _ => Feed::Whole,
    };
    let output = output_of("the program", &order.program, session, feed)?;
    if output != expected {
        let reference = ("reference", &expected[..]);
        return Err(first_difference(session, reference, ("program", &output)));
    }
    Ok(expected)
}

fn output_of(name: &str, path: &Path, session: &Session, feed: Feed) -> Result<Vec<u8>, String> {
    match program::run(path, &session.input, feed) {
        Err(fault) => Err(format!("{name} ({}) does not run: {fault}", path.display())),
        Ok(Outcome::TookTooLong) => Err(format!("{name} took too long and was stopped")),
        Ok(Outcome::Ended { status, output }) if status.success() => Ok(output),
        Ok(Outcome::Ended { status, .. }) => Err(format!("{name} ended with {status}")),
    }
}

/// The first line in which two outputs differ, side by side.
fn first_difference(session: &Session, one: (&str, &[u8]), other: (&str, &[u8])) -> String {
    let one_lines = whole_lines(one.1);
    let other_lines = whole_lines(other.1);
    let mut at = 0;
    while one_lines.get(at) == other_lines.get(at) {
        at += 1;
    }
    let input = tally::lines(&session.input);
    let show = |line: Option<&&[u8]>| match line {
        Some(line) => format!("\"{}\"", line.escape_ascii()),
        None => "nothing".to_string(),
    };
    format!(
        "line {}: {}\n  {}: {}\n  {}: {}",
        at + 1,
        show(input.get(at)),
        one.0,
        show(one_lines.get(at)),
        other.0,
        show(other_lines.get(at)),
    )
}

/// The lines with the byte 10 at their ends, if they have it.
fn whole_lines(text: &[u8]) -> Vec<&[u8]> {
    text.split_inclusive(|byte| *byte == b'\n').collect()
}

/// What is said of the first difference. The session is written to a file.
fn tell(order: &Order, session: &Session, difference: &str) -> String {
    let count = session.seed - order.first_seed;
    let written = match fs::write(&order.keep, &session.input) {
        Ok(()) => format!("the session is in {}", order.keep.display()),
        Err(fault) => format!("the session could not be written: {fault}"),
    };
    format!(
        "difference at seed {} (a {} session), after {count} sessions that agreed\n{difference}\n{written}",
        session.seed, session.kind
    )
}
