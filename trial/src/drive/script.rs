//! Writes the lines of one session, and keeps the light model beside them.

use crate::chance::Chance;
use crate::desk::Desk;
use crate::key::{self, Key};
use crate::malformed;

pub const INPUT_LIMIT: usize = 16_384;

/// One line of a session, chosen by chance in all that it leaves open.
#[derive(Clone, Copy)]
pub enum Step {
    BeginReport,
    BeginJob,
    End,
    Read,
    WalkToFirst,
    WalkToNext,
    Look,
    Put,
    Remove,
    Commit,
    Abort,
    Age,
    Malformed,
}

/// Which kind of ticket a call takes.
#[derive(Clone, Copy)]
enum Takes {
    Report,
    Job,
}

pub struct Script {
    pub chance: Chance,
    /// Counts the sessions of one kind, for those that take turns.
    pub turn: usize,
    pub desk: Desk,
    /// The keys of the session, in rising order.
    pub keys: Vec<Key>,
    /// One ticket in so many is not the right one. Never, for 0.
    pub stray_in: usize,
    /// One key in so many is taken without asking who holds it.
    pub careless_in: usize,
    /// Begins beyond so many open reports or jobs become an end or a commit.
    pub reports_wished: usize,
    pub jobs_wished: usize,
    input: Vec<u8>,
    room: usize,
    full: bool,
    records: usize,
}

impl Script {
    pub fn new(seed: u64, turn: usize) -> Script {
        Script {
            chance: Chance::new(seed),
            turn,
            desk: Desk::new(),
            keys: Vec::new(),
            stray_in: 25,
            careless_in: 8,
            reports_wished: 6,
            jobs_wished: 4,
            input: Vec::new(),
            room: INPUT_LIMIT,
            full: false,
            records: 0,
        }
    }

    /// How many bytes the lines may have together.
    pub fn set_room(&mut self, room: usize) {
        self.room = room;
    }

    pub fn use_keys(&mut self, count: usize) {
        self.keys = key::pool(&mut self.chance, count);
    }

    pub fn length(&self) -> usize {
        self.input.len()
    }

    /// Whether a line did not fit. From then on no line is written.
    pub fn is_full(&self) -> bool {
        self.full
    }

    pub fn into_input(self) -> Vec<u8> {
        self.input
    }

    /// Writes a line as it is, and says whether it fitted.
    pub fn line(&mut self, line: &[u8]) -> bool {
        if self.input.len() + line.len() + 1 > self.room {
            self.full = true;
        }
        if !self.full {
            self.input.extend_from_slice(line);
            self.input.push(b'\n');
        }
        !self.full
    }

    /// Takes the byte 10 off the last line.
    pub fn leave_last_line_open(&mut self) {
        if self.input.last() == Some(&b'\n') {
            self.input.pop();
        }
    }
}

/// The calls, each with arguments that the caller chose.
impl Script {
    /// The new ticket, if the line fitted and the model grants it.
    pub fn begin_report(&mut self) -> Option<u32> {
        if self.line(b"R") {
            self.desk.begin_report()
        } else {
            None
        }
    }

    pub fn begin_job(&mut self) -> Option<u32> {
        if self.line(b"J") {
            self.desk.begin_job()
        } else {
            None
        }
    }

    pub fn end(&mut self, ticket: u32) {
        if self.line(format!("E {ticket}").as_bytes()) {
            self.desk.end(ticket);
        }
    }

    pub fn read(&mut self, ticket: u32, key: Key) {
        self.line(format!("G {ticket} {key}").as_bytes());
    }

    pub fn walk_to_first(&mut self, ticket: u32) {
        self.line(format!("N {ticket}").as_bytes());
    }

    pub fn walk_to_next(&mut self, ticket: u32, key: Key) {
        self.line(format!("N {ticket} {key}").as_bytes());
    }

    pub fn look(&mut self, ticket: u32, key: Key) {
        if self.line(format!("L {ticket} {key}").as_bytes()) {
            self.desk.look(ticket, key);
        }
    }

    pub fn put(&mut self, ticket: u32, key: Key) {
        let record = self.record();
        if self.line(format!("P {ticket} {key} {record}").as_bytes()) {
            self.desk.put(ticket, key);
        }
    }

    pub fn remove(&mut self, ticket: u32, key: Key) {
        if self.line(format!("D {ticket} {key}").as_bytes()) {
            self.desk.remove(ticket, key);
        }
    }

    pub fn commit(&mut self, ticket: u32) {
        if self.line(format!("C {ticket}").as_bytes()) {
            self.desk.commit(ticket);
        }
    }

    pub fn abort(&mut self, ticket: u32) {
        if self.line(format!("A {ticket}").as_bytes()) {
            self.desk.abort(ticket);
        }
    }

    pub fn age(&mut self, limit: u32) {
        self.line(format!("S {limit}").as_bytes());
    }

    pub fn age_all(&mut self) {
        self.age(u32::MAX);
    }

    /// A record whose occurrences no other record of the session has.
    fn record(&mut self) -> String {
        self.records += 1;
        let chance = &mut self.chance;
        let status = match chance.below(4) {
            0 => chance.between(0, 255),
            _ => chance.pick(&[0, 1, 47, 255]),
        };
        let speed = match chance.below(4) {
            0 => chance.between(0, 65_535),
            _ => chance.pick(&[0, 9, 3000, 65_535]),
        };
        let coolant = match chance.below(4) {
            0 => chance.between(0, 255) as i32 - 40,
            _ => chance.pick(&[-40, -1, 0, 1, 90, 215]),
        };
        // Now and then from the upper end.
        let occurrences = match chance.below(8) {
            0 => 65_536 - self.records,
            _ => self.records,
        };
        format!("{status} {occurrences} {speed} {coolant}")
    }
}

/// Steps by chance.
impl Script {
    pub fn step(&mut self, step: Step) {
        match step {
            Step::BeginReport if self.desk.reports.len() >= self.reports_wished => self.end_one(),
            Step::BeginReport => {
                self.begin_report();
            }
            Step::BeginJob if self.desk.jobs.len() >= self.jobs_wished => self.finish_one(),
            Step::BeginJob => {
                self.begin_job();
            }
            Step::End => self.end_one(),
            Step::Read => {
                let ticket = self.ticket(Takes::Report);
                let key = self.any_key();
                self.read(ticket, key);
            }
            Step::WalkToFirst => {
                let ticket = self.ticket(Takes::Report);
                self.walk_to_first(ticket);
            }
            Step::WalkToNext => {
                let ticket = self.ticket(Takes::Report);
                let key = self.key_or_beside();
                self.walk_to_next(ticket, key);
            }
            Step::Look => {
                let (ticket, key) = self.job_and_key();
                self.look(ticket, key);
            }
            Step::Put => {
                let (ticket, key) = self.job_and_key();
                self.put(ticket, key);
            }
            Step::Remove => {
                let (ticket, key) = self.job_and_key_to_remove();
                self.remove(ticket, key);
            }
            Step::Commit => {
                let ticket = self.ticket(Takes::Job);
                self.commit(ticket);
            }
            Step::Abort => {
                let ticket = self.ticket(Takes::Job);
                self.abort(ticket);
            }
            Step::Age => {
                let limit = self.limit();
                self.age(limit);
            }
            Step::Malformed => {
                let line = self.malformed_line();
                self.line(&line);
            }
        }
    }

    fn end_one(&mut self) {
        let ticket = self.ticket(Takes::Report);
        self.end(ticket);
    }

    fn finish_one(&mut self) {
        let ticket = self.ticket(Takes::Job);
        if self.chance.one_in(4) {
            self.abort(ticket);
        } else {
            self.commit(ticket);
        }
    }

    /// Mostly an open ticket of the right kind, and a new one if there is none.
    fn ticket(&mut self, takes: Takes) -> u32 {
        let (right, wrong) = match takes {
            Takes::Report => (self.desk.report_tickets(), self.desk.job_tickets()),
            Takes::Job => (self.desk.job_tickets(), self.desk.report_tickets()),
        };
        if !self.chance.one_in(self.stray_in) {
            if let Some(ticket) = self.chance.pick_any(&right) {
                return ticket;
            }
            if !self.chance.one_in(8) {
                if let Some(ticket) = self.begin(takes) {
                    return ticket;
                }
            }
        }
        if self.chance.one_in(2) {
            if let Some(ticket) = self.chance.pick_any(&wrong) {
                return ticket;
            }
        }
        self.dead_ticket()
    }

    /// A new ticket, unless the session wishes none of the kind.
    fn begin(&mut self, takes: Takes) -> Option<u32> {
        match takes {
            Takes::Report if self.reports_wished > 0 => self.begin_report(),
            Takes::Job if self.jobs_wished > 0 => self.begin_job(),
            _ => None,
        }
    }

    /// A ticket that is over, or one that no report and no job has.
    pub fn dead_ticket(&mut self) -> u32 {
        if self.chance.one_in(2) {
            if let Some(ticket) = self.chance.pick_any(&self.desk.closed) {
                return ticket;
            }
        }
        let by_chance = self.chance.number() as u32 | 1 << 20;
        let next = self.desk.next_ticket;
        let numbers = [
            0,
            next,
            next + 1,
            65_536,
            4_000_000_000,
            4_000_000_001,
            u32::MAX,
            by_chance,
        ];
        self.chance.pick(&numbers)
    }

    fn any_key(&mut self) -> Key {
        self.chance.pick(&self.keys)
    }

    fn key_or_beside(&mut self) -> Key {
        let key = self.any_key();
        if self.chance.one_in(4) {
            key::beside(&mut self.chance, key)
        } else {
            key
        }
    }

    /// Mostly a key that no other job holds.
    fn job_and_key(&mut self) -> (u32, Key) {
        let ticket = self.ticket(Takes::Job);
        let mut key = self.any_key();
        if self.chance.one_in(self.careless_in) {
            return (ticket, key);
        }
        for _ in 0..4 {
            if !self.desk.held_by_another(ticket, key) {
                break;
            }
            key = self.any_key();
        }
        (ticket, key)
    }

    /// Mostly a key that is there, or that the job has written itself.
    fn job_and_key_to_remove(&mut self) -> (u32, Key) {
        let (ticket, key) = self.job_and_key();
        let mut likely: Vec<Key> = self.desk.present.iter().copied().collect();
        if let Some(job) = self.desk.job(ticket) {
            likely.extend(job.drafts());
        }
        if self.chance.one_in(3) {
            return (ticket, key);
        }
        (ticket, self.chance.pick_any(&likely).unwrap_or(key))
    }

    /// A limit around the stamps that matter, or at an end of the range.
    pub fn limit(&mut self) -> u32 {
        let stamp = self.desk.stamp;
        let stamps: Vec<u32> = self.desk.reports.iter().map(|r| r.stamp).collect();
        let report = self.chance.pick_any(&stamps).unwrap_or(stamp);
        let middle = self.chance.below(stamp as usize + 2) as u32;
        let limits = [
            0,
            1,
            middle,
            middle,
            middle,
            report.saturating_sub(1),
            report,
            report + 1,
            stamp.saturating_sub(1),
            stamp,
            stamp + 1,
            4_000_000_000,
            u32::MAX,
        ];
        self.chance.pick(&limits)
    }

    fn malformed_line(&mut self) -> Vec<u8> {
        let good = self.good_line();
        malformed::spoil(&mut self.chance, &good)
    }

    /// One line with each of its fields wrong in every way.
    pub fn every_wrong_field(&mut self) {
        let good = self.good_line();
        for line in malformed::every_wrong_field(&good) {
            self.line(&line);
        }
    }

    /// A line that follows its form. It is not written, so the model need not
    /// know of it.
    fn good_line(&mut self) -> String {
        let report = self.ticket(Takes::Report);
        let job = self.ticket(Takes::Job);
        let key = self.any_key();
        let limit = self.limit();
        match self.chance.below(16) {
            0 => "R".to_string(),
            1 => "J".to_string(),
            2 => format!("E {report}"),
            3 => format!("G {report} {key}"),
            4 => format!("N {report}"),
            5 => format!("N {report} {key}"),
            6 => format!("L {job} {key}"),
            7 => format!("D {job} {key}"),
            8 => format!("C {job}"),
            9 => format!("A {job}"),
            10 => format!("S {limit}"),
            _ => format!("P {job} {key} {}", self.record()),
        }
    }
}
