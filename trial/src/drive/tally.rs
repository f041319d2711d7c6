//! Counts what occurred in the sessions that agreed, and says what never did.

use crate::script::INPUT_LIMIT;
use crate::session::{Kind, Session, KINDS};
use std::collections::BTreeMap;
use std::fmt;

const PAGE_LIMIT: usize = 32_768;

#[derive(Clone, Copy, PartialEq, Eq, PartialOrd, Ord)]
enum Call {
    BeginReport,
    BeginJob,
    End,
    Read,
    WalkToFirst,
    WalkToNext,
    Look,
    Put,
    Remove,
    Commit,
    Abort,
    Age,
}

#[derive(Clone, Copy, PartialEq, Eq, PartialOrd, Ord)]
enum Answer {
    ReportBegun,
    JobBegun,
    Done,
    Record,
    Key,
    Nothing,
    Committed,
    /// Age looked at nothing.
    AgedNothing,
    /// Age looked at versions and freed none, some or all of them.
    AgedNone,
    AgedSome,
    AgedAll,
    Refused(u32),
}

/// What is worth knowing of a whole session.
#[derive(Clone, Copy, PartialEq, Eq, PartialOrd, Ord)]
enum Edge {
    NoInput,
    InputAtLimit,
    InputTooLong,
    LastLineOpen,
    PageFilled,
    /// The page had a byte to spare, or a few, and the run was stopped.
    PageStopped,
}

/// Every pair of a call and an answer that the console can show.
const REACHABLE: [(Call, &[Answer]); 12] = [
    (
        Call::BeginReport,
        &[Answer::ReportBegun, Answer::Refused(5)],
    ),
    (Call::BeginJob, &[Answer::JobBegun, Answer::Refused(5)]),
    (Call::End, &[Answer::Done, Answer::Refused(4)]),
    (
        Call::Read,
        &[Answer::Record, Answer::Nothing, Answer::Refused(4)],
    ),
    (
        Call::WalkToFirst,
        &[Answer::Key, Answer::Nothing, Answer::Refused(4)],
    ),
    (
        Call::WalkToNext,
        &[Answer::Key, Answer::Nothing, Answer::Refused(4)],
    ),
    (
        Call::Look,
        &[
            Answer::Record,
            Answer::Nothing,
            Answer::Refused(4),
            Answer::Refused(7),
            Answer::Refused(9),
        ],
    ),
    (
        Call::Put,
        &[
            Answer::Done,
            Answer::Refused(4),
            Answer::Refused(7),
            Answer::Refused(9),
            Answer::Refused(10),
        ],
    ),
    (
        Call::Remove,
        &[
            Answer::Done,
            Answer::Refused(4),
            Answer::Refused(7),
            Answer::Refused(8),
            Answer::Refused(9),
            Answer::Refused(10),
        ],
    ),
    (Call::Commit, &[Answer::Committed, Answer::Refused(4)]),
    (Call::Abort, &[Answer::Done, Answer::Refused(4)]),
    (
        Call::Age,
        &[
            Answer::AgedNothing,
            Answer::AgedNone,
            Answer::AgedSome,
            Answer::AgedAll,
        ],
    ),
];

const EDGES: [Edge; 6] = [
    Edge::NoInput,
    Edge::InputAtLimit,
    Edge::InputTooLong,
    Edge::LastLineOpen,
    Edge::PageFilled,
    Edge::PageStopped,
];

#[derive(Default)]
pub struct Tally {
    sessions: BTreeMap<Kind, u64>,
    lines: u64,
    answers: BTreeMap<(Call, Answer), u64>,
    malformed: u64,
    edges: BTreeMap<Edge, u64>,
    /// Answers that no call of the page has.
    unknown: u64,
}

impl Tally {
    /// Counts a session on whose output both consoles agree.
    pub fn count(&mut self, session: &Session, output: &[u8]) {
        *self.sessions.entry(session.kind).or_default() += 1;
        self.count_edges(session, output);
        let lines = lines(&session.input);
        self.lines += lines.len() as u64;
        if session.input.len() > INPUT_LIMIT {
            return;
        }
        for (line, answer) in lines.iter().zip(crate::tally::lines(output)) {
            self.count_answer(line, answer);
        }
    }

    fn count_edges(&mut self, session: &Session, output: &[u8]) {
        let input = &session.input;
        let too_long = input.len() > INPUT_LIMIT;
        let stopped = !too_long && lines(output).len() < lines(input).len();
        let seen = [
            (Edge::NoInput, input.is_empty()),
            (Edge::InputAtLimit, input.len() == INPUT_LIMIT),
            (Edge::InputTooLong, too_long),
            (
                Edge::LastLineOpen,
                !input.is_empty() && !input.ends_with(b"\n"),
            ),
            (Edge::PageFilled, output.len() == PAGE_LIMIT),
            (Edge::PageStopped, stopped && output.len() < PAGE_LIMIT),
        ];
        for (edge, occurred) in seen {
            if occurred {
                *self.edges.entry(edge).or_default() += 1;
            }
        }
    }

    fn count_answer(&mut self, line: &[u8], answer: &[u8]) {
        if answer == b"no 12" {
            self.malformed += 1;
            return;
        }
        match (call_of(line), kind_of(answer)) {
            (Some(call), Some(answer)) => *self.answers.entry((call, answer)).or_default() += 1,
            _ => self.unknown += 1,
        }
    }

    /// Pairs of a call and an answer that the console can show and that never
    /// occurred, and whatever else never did.
    pub fn missing(&self) -> Vec<String> {
        let mut missing = Vec::new();
        for (call, answers) in REACHABLE {
            for answer in answers {
                if !self.answers.contains_key(&(call, *answer)) {
                    missing.push(format!("{call}: {answer}"));
                }
            }
        }
        for edge in EDGES {
            if !self.edges.contains_key(&edge) {
                missing.push(edge.to_string());
            }
        }
        if self.malformed == 0 {
            missing.push("a line: no 12".to_string());
        }
        missing
    }

    /// Pairs that the behaviour page rules out, though both consoles agree.
    pub fn unheard_of(&self) -> Vec<String> {
        let mut found = Vec::new();
        for (call, answer) in self.answers.keys() {
            let reachable = REACHABLE
                .iter()
                .any(|(c, answers)| c == call && answers.contains(answer));
            if !reachable {
                found.push(format!("{call}: {answer}"));
            }
        }
        if self.unknown > 0 {
            found.push(format!("{} answers of no known form", self.unknown));
        }
        found
    }

    fn refusals(&self) -> BTreeMap<u32, u64> {
        let mut refusals = BTreeMap::new();
        for ((_, answer), count) in &self.answers {
            if let Answer::Refused(number) = answer {
                *refusals.entry(*number).or_default() += count;
            }
        }
        let too_long = self.edges.get(&Edge::InputTooLong).copied().unwrap_or(0);
        refusals.insert(12, self.malformed + too_long);
        refusals
    }
}

impl fmt::Display for Tally {
    fn fmt(&self, out: &mut fmt::Formatter<'_>) -> fmt::Result {
        let sessions: u64 = self.sessions.values().sum();
        let answers: u64 = self.answers.values().sum::<u64>() + self.malformed + self.unknown;
        writeln!(
            out,
            "{sessions} sessions agreed, with {} lines and {answers} answers",
            self.lines
        )?;
        for kind in KINDS {
            let count = self.sessions.get(&kind).copied().unwrap_or(0);
            writeln!(out, "  {:<32}{count:>9}", format!("{kind} sessions"))?;
        }
        for edge in EDGES {
            let count = self.edges.get(&edge).copied().unwrap_or(0);
            writeln!(out, "  {:<32}{count:>9}", edge.to_string())?;
        }
        writeln!(out, "answers")?;
        for ((call, answer), count) in &self.answers {
            writeln!(out, "  {:<32}{count:>9}", format!("{call}: {answer}"))?;
        }
        writeln!(out, "refusals")?;
        for (number, count) in self.refusals() {
            writeln!(out, "  {:<32}{count:>9}", format!("no {number}"))?;
        }
        Ok(())
    }
}

/// The lines without the byte 10; the last one may lack it.
pub fn lines(text: &[u8]) -> Vec<&[u8]> {
    let mut lines: Vec<&[u8]> = text.split(|byte| *byte == b'\n').collect();
    if lines.last().is_some_and(|last| last.is_empty()) {
        lines.pop();
    }
    lines
}

/// The call of a line that follows its form.
fn call_of(line: &[u8]) -> Option<Call> {
    let spaces = line.iter().filter(|byte| **byte == b' ').count();
    Some(match line.first()? {
        b'R' => Call::BeginReport,
        b'J' => Call::BeginJob,
        b'E' => Call::End,
        b'G' => Call::Read,
        b'N' if spaces == 1 => Call::WalkToFirst,
        b'N' => Call::WalkToNext,
        b'L' => Call::Look,
        b'P' => Call::Put,
        b'D' => Call::Remove,
        b'C' => Call::Commit,
        b'A' => Call::Abort,
        b'S' => Call::Age,
        _ => return None,
    })
}

fn kind_of(answer: &[u8]) -> Option<Answer> {
    let answer = std::str::from_utf8(answer).ok()?;
    let fields: Vec<&str> = answer.split(' ').collect();
    Some(match fields[..] {
        ["R", _, _] => Answer::ReportBegun,
        ["J", _] => Answer::JobBegun,
        ["ok"] => Answer::Done,
        ["rec", _, _, _, _] => Answer::Record,
        ["N", _] => Answer::Key,
        ["none"] => Answer::Nothing,
        ["C", _] => Answer::Committed,
        ["S", looked, freed] => aged(looked.parse().ok()?, freed.parse().ok()?),
        ["no", "7", _] => Answer::Refused(7),
        ["no", number] => Answer::Refused(number.parse().ok()?),
        _ => return None,
    })
}

fn aged(looked: u32, freed: u32) -> Answer {
    if looked == 0 {
        Answer::AgedNothing
    } else if freed == 0 {
        Answer::AgedNone
    } else if freed < looked {
        Answer::AgedSome
    } else {
        Answer::AgedAll
    }
}

impl fmt::Display for Call {
    fn fmt(&self, out: &mut fmt::Formatter<'_>) -> fmt::Result {
        let name = match self {
            Call::BeginReport => "begin report",
            Call::BeginJob => "begin job",
            Call::End => "end",
            Call::Read => "read",
            Call::WalkToFirst => "walk to first",
            Call::WalkToNext => "walk to next",
            Call::Look => "look",
            Call::Put => "put",
            Call::Remove => "remove",
            Call::Commit => "commit",
            Call::Abort => "abort",
            Call::Age => "age",
        };
        write!(out, "{name}")
    }
}

impl fmt::Display for Answer {
    fn fmt(&self, out: &mut fmt::Formatter<'_>) -> fmt::Result {
        match self {
            Answer::ReportBegun => write!(out, "R ticket stamp"),
            Answer::JobBegun => write!(out, "J ticket"),
            Answer::Done => write!(out, "ok"),
            Answer::Record => write!(out, "rec"),
            Answer::Key => write!(out, "N key"),
            Answer::Nothing => write!(out, "none"),
            Answer::Committed => write!(out, "C stamp"),
            Answer::AgedNothing => write!(out, "S, none looked at"),
            Answer::AgedNone => write!(out, "S, none freed"),
            Answer::AgedSome => write!(out, "S, some freed"),
            Answer::AgedAll => write!(out, "S, all freed"),
            Answer::Refused(number) => write!(out, "no {number}"),
        }
    }
}

impl fmt::Display for Edge {
    fn fmt(&self, out: &mut fmt::Formatter<'_>) -> fmt::Result {
        let name = match self {
            Edge::NoInput => "no input",
            Edge::InputAtLimit => "input of 16,384 bytes",
            Edge::InputTooLong => "longer input",
            Edge::LastLineOpen => "last line without byte 10",
            Edge::PageFilled => "page filled to the last byte",
            Edge::PageStopped => "page with bytes left, stopped",
        };
        write!(out, "{name}")
    }
}
