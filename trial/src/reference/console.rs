//! The console, section 11: lines, calls, answers.

use crate::book::{Aged, Book, Refusal, Stamp, Ticket};
use crate::page::{DoesNotFit, Page};
use crate::text::{read_key, read_number, read_record, CodeKey, FaultRecord};
use std::fmt;

pub const INPUT_LIMIT: usize = 16_384;
const PAGE_LIMIT: usize = 32_768;

/// One line of the input that follows its form.
enum Call {
    BeginReport,
    BeginJob,
    End(Ticket),
    Read(Ticket, CodeKey),
    WalkToFirst(Ticket),
    WalkToNext(Ticket, CodeKey),
    Look(Ticket, CodeKey),
    Put(Ticket, CodeKey, FaultRecord),
    Remove(Ticket, CodeKey),
    Commit(Ticket),
    Abort(Ticket),
    Age(u32),
}

/// One line of the output.
enum Answer {
    ReportBegun(Ticket, Stamp),
    JobBegun(Ticket),
    Done,
    Record(FaultRecord),
    Key(CodeKey),
    Nothing,
    Committed(Stamp),
    Aged(Aged),
    Refused(Refusal),
    /// 12: the line does not follow its form.
    Malformed,
}

/// What the console prints for the input.
pub fn run(input: &[u8]) -> Vec<u8> {
    let mut page = Page::new(PAGE_LIMIT);
    // The first answer that does not fit stops the run, and that is all there
    // is to do about it: the page has the answers before it.
    let (Ok(()) | Err(DoesNotFit)) = answer_all(input, &mut page);
    page.into_bytes()
}

fn answer_all(input: &[u8], page: &mut Page) -> Result<(), DoesNotFit> {
    if input.len() > INPUT_LIMIT {
        return page.write_line(&Answer::Malformed.to_string());
    }
    let mut book = Book::open();
    for line in lines(input) {
        let answer = answer(&mut book, line);
        page.write_line(&answer.to_string())?;
    }
    Ok(())
}

/// The lines without the byte 10 at their ends. The last line may lack it, so
/// what follows the last byte 10 is a line only if it has a byte.
fn lines(input: &[u8]) -> Vec<&[u8]> {
    let mut lines: Vec<&[u8]> = input.split(|byte| *byte == b'\n').collect();
    if lines.last().is_some_and(|last| last.is_empty()) {
        lines.pop();
    }
    lines
}

fn answer(book: &mut Book, line: &[u8]) -> Answer {
    match read_call(line) {
        None => Answer::Malformed,
        Some(call) => match make(book, call) {
            Ok(answer) => answer,
            Err(refusal) => Answer::Refused(refusal),
        },
    }
}

/// The call of a line, or none if the line does not follow its form. Two
/// spaces in a row, or one at an end, make an empty field, which is neither a
/// letter nor a number nor a key.
fn read_call(line: &[u8]) -> Option<Call> {
    let fields: Vec<&[u8]> = line.split(|byte| *byte == b' ').collect();
    let call = match fields[..] {
        [b"R"] => Call::BeginReport,
        [b"J"] => Call::BeginJob,
        [b"E", t] => Call::End(read_number(t)?),
        [b"G", t, key] => Call::Read(read_number(t)?, read_key(key)?),
        [b"N", t] => Call::WalkToFirst(read_number(t)?),
        [b"N", t, key] => Call::WalkToNext(read_number(t)?, read_key(key)?),
        [b"L", t, key] => Call::Look(read_number(t)?, read_key(key)?),
        [b"P", t, key, status, occurrences, speed, coolant] => Call::Put(
            read_number(t)?,
            read_key(key)?,
            read_record(status, occurrences, speed, coolant)?,
        ),
        [b"D", t, key] => Call::Remove(read_number(t)?, read_key(key)?),
        [b"C", t] => Call::Commit(read_number(t)?),
        [b"A", t] => Call::Abort(read_number(t)?),
        [b"S", limit] => Call::Age(read_number(limit)?),
        _ => return None,
    };
    Some(call)
}

fn make(book: &mut Book, call: Call) -> Result<Answer, Refusal> {
    let answer = match call {
        Call::BeginReport => {
            let (ticket, stamp) = book.begin_report()?;
            Answer::ReportBegun(ticket, stamp)
        }
        Call::BeginJob => Answer::JobBegun(book.begin_job()?),
        Call::End(ticket) => done(book.end(ticket)?),
        Call::Read(ticket, key) => record_or_nothing(book.read(ticket, key)?),
        Call::WalkToFirst(ticket) => key_or_nothing(book.walk(ticket, None)?),
        Call::WalkToNext(ticket, key) => key_or_nothing(book.walk(ticket, Some(key))?),
        Call::Look(ticket, key) => record_or_nothing(book.look(ticket, key)?),
        Call::Put(ticket, key, record) => done(book.put(ticket, key, record)?),
        Call::Remove(ticket, key) => done(book.remove(ticket, key)?),
        Call::Commit(ticket) => Answer::Committed(book.commit(ticket)?),
        Call::Abort(ticket) => done(book.abort(ticket)?),
        Call::Age(limit) => Answer::Aged(book.age(limit)),
    };
    Ok(answer)
}

fn done(_granted: ()) -> Answer {
    Answer::Done
}

fn record_or_nothing(found: Option<FaultRecord>) -> Answer {
    match found {
        Some(record) => Answer::Record(record),
        None => Answer::Nothing,
    }
}

fn key_or_nothing(found: Option<CodeKey>) -> Answer {
    match found {
        Some(key) => Answer::Key(key),
        None => Answer::Nothing,
    }
}

impl fmt::Display for Answer {
    fn fmt(&self, out: &mut fmt::Formatter<'_>) -> fmt::Result {
        match self {
            Answer::ReportBegun(ticket, stamp) => write!(out, "R {ticket} {stamp}"),
            Answer::JobBegun(ticket) => write!(out, "J {ticket}"),
            Answer::Done => write!(out, "ok"),
            Answer::Record(record) => write!(out, "rec {record}"),
            Answer::Key(key) => write!(out, "N {key}"),
            Answer::Nothing => write!(out, "none"),
            Answer::Committed(stamp) => write!(out, "C {stamp}"),
            Answer::Aged(aged) => write!(out, "S {} {}", aged.looked, aged.freed),
            Answer::Refused(refusal) => write!(out, "no {refusal}"),
            Answer::Malformed => write!(out, "no 12"),
        }
    }
}

/// The number of a refusal, and the values it tells.
impl fmt::Display for Refusal {
    fn fmt(&self, out: &mut fmt::Formatter<'_>) -> fmt::Result {
        match self {
            Refusal::NotOpen => write!(out, "4"),
            Refusal::TooManyOpen => write!(out, "5"),
            Refusal::NoTicketsLeft => write!(out, "6"),
            Refusal::HeldBy(holder) => write!(out, "7 {holder}"),
            Refusal::NothingThere => write!(out, "8"),
            Refusal::RowFull => write!(out, "9"),
            Refusal::StoreFull => write!(out, "10"),
            Refusal::NoStampsLeft => write!(out, "11"),
        }
    }
}
