//! The fault book: versions, tickets, calls and refusals, sections 4 to 8.
//!
//! There are no places with numbers here. A draft, a current version and a
//! superseded version that has not been freed take up one place each, and
//! what is not taken is free.

use crate::text::{CodeKey, FaultRecord};
use std::collections::{BTreeMap, BTreeSet};
use std::ops::Bound;

pub type Stamp = u32;
pub type Ticket = u32;

const PLACES: usize = 64;
const FIRST_STAMP: Stamp = 0;
const HIGHEST_STAMP: Stamp = 4_000_000_000;
const FIRST_TICKET: Ticket = 1;
const HIGHEST_TICKET: Ticket = 4_000_000_000;
const MOST_REPORTS: usize = 16;
const MOST_JOBS: usize = 8;
const ROW: usize = 32;
/// Every number of 32 bits that can be a stamp is below this one.
const ABOVE_EVERY_STAMP: u32 = u32::MAX;

/// Why a call was refused, and so changed nothing. Section 8.
pub enum Refusal {
    /// 4: it is no open ticket of the kind that the call takes.
    NotOpen,
    /// 5: 16 reports, or 8 jobs, are open already.
    TooManyOpen,
    /// 6: the next running number would be too high.
    NoTicketsLeft,
    /// 7: another open job, with this ticket, holds the key.
    HeldBy(Ticket),
    /// 8: there is nothing to remove.
    NothingThere,
    /// 9: a new entry is needed and the job's row is full.
    RowFull,
    /// 10: a place is needed and every place holds a wanted version.
    StoreFull,
    /// 11: the stamp is the highest one.
    NoStampsLeft,
}

/// What age answers.
pub struct Aged {
    pub looked: usize,
    pub freed: usize,
}

/// The committed version of a key.
struct Current {
    begin: Stamp,
    record: FaultRecord,
}

/// A former version of a key.
struct Superseded {
    begin: Stamp,
    finish: Stamp,
    record: FaultRecord,
}

impl Superseded {
    /// From the begin stamp on and below the finish stamp.
    fn span_holds(&self, stamp: Stamp) -> bool {
        self.begin <= stamp && stamp < self.finish
    }
}

/// The versions of one key that have a place.
#[derive(Default)]
struct Versions {
    current: Option<Current>,
    superseded: Vec<Superseded>,
}

impl Versions {
    /// The record that a report with this stamp sees.
    fn seen_at(&self, stamp: Stamp) -> Option<FaultRecord> {
        if let Some(current) = &self.current {
            if current.begin <= stamp {
                return Some(current.record);
            }
        }
        for version in &self.superseded {
            if version.span_holds(stamp) {
                return Some(version.record);
            }
        }
        None
    }
}

/// What an open job has written at a key.
#[derive(Clone, Copy)]
enum Draft {
    Unstamped(FaultRecord),
    MarkedGone,
}

struct Report {
    stamp: Stamp,
}

#[derive(Default)]
struct Job {
    drafts: BTreeMap<CodeKey, Draft>,
    /// The keys that the job holds: the entries of its row.
    row: BTreeSet<CodeKey>,
}

impl Job {
    fn holds(&self, key: CodeKey) -> bool {
        self.row.contains(&key)
    }

    fn has_draft(&self, key: CodeKey) -> bool {
        self.drafts.contains_key(&key)
    }
}

pub struct Book {
    stamp: Stamp,
    next_ticket: Ticket,
    reports: BTreeMap<Ticket, Report>,
    jobs: BTreeMap<Ticket, Job>,
    versions: BTreeMap<CodeKey, Versions>,
}

/// The calls, section 6. Each checks its refusals in the order of section 8
/// before it changes anything.
impl Book {
    pub fn open() -> Book {
        Book {
            stamp: FIRST_STAMP,
            next_ticket: FIRST_TICKET,
            reports: BTreeMap::new(),
            jobs: BTreeMap::new(),
            versions: BTreeMap::new(),
        }
    }

    pub fn begin_report(&mut self) -> Result<(Ticket, Stamp), Refusal> {
        if self.reports.len() == MOST_REPORTS {
            return Err(Refusal::TooManyOpen);
        }
        let ticket = self.take_ticket()?;
        let report = Report { stamp: self.stamp };
        self.reports.insert(ticket, report);
        Ok((ticket, self.stamp))
    }

    pub fn begin_job(&mut self) -> Result<Ticket, Refusal> {
        if self.jobs.len() == MOST_JOBS {
            return Err(Refusal::TooManyOpen);
        }
        let ticket = self.take_ticket()?;
        self.jobs.insert(ticket, Job::default());
        Ok(ticket)
    }

    pub fn read(&self, ticket: Ticket, key: CodeKey) -> Result<Option<FaultRecord>, Refusal> {
        let report = self.open_report(ticket)?;
        Ok(self.seen_by(report, key))
    }

    pub fn walk(&self, ticket: Ticket, after: Option<CodeKey>) -> Result<Option<CodeKey>, Refusal> {
        let report = self.open_report(ticket)?;
        let from = match after {
            None => Bound::Unbounded,
            Some(key) => Bound::Excluded(key),
        };
        for (key, _) in self.versions.range((from, Bound::Unbounded)) {
            if self.seen_by(report, *key).is_some() {
                return Ok(Some(*key));
            }
        }
        Ok(None)
    }

    pub fn look(&mut self, ticket: Ticket, key: CodeKey) -> Result<Option<FaultRecord>, Refusal> {
        let job = self.open_job(ticket)?;
        self.refuse_if_another_holds(ticket, key)?;
        let finds_current = !job.has_draft(key) && self.current_record(key).is_some();
        if finds_current {
            refuse_if_row_is_full(job, key)?;
        }
        let found = self.looked_up(job, key);
        if finds_current {
            self.hold(ticket, key);
        }
        Ok(found)
    }

    pub fn put(
        &mut self,
        ticket: Ticket,
        key: CodeKey,
        record: FaultRecord,
    ) -> Result<(), Refusal> {
        let job = self.open_job(ticket)?;
        self.refuse_if_another_holds(ticket, key)?;
        refuse_if_row_is_full(job, key)?;
        self.refuse_if_store_is_full(job, key)?;
        self.write_draft(ticket, key, Draft::Unstamped(record));
        Ok(())
    }

    pub fn remove(&mut self, ticket: Ticket, key: CodeKey) -> Result<(), Refusal> {
        let job = self.open_job(ticket)?;
        self.refuse_if_another_holds(ticket, key)?;
        if self.looked_up(job, key).is_none() {
            return Err(Refusal::NothingThere);
        }
        refuse_if_row_is_full(job, key)?;
        self.refuse_if_store_is_full(job, key)?;
        self.write_draft(ticket, key, Draft::MarkedGone);
        Ok(())
    }

    pub fn commit(&mut self, ticket: Ticket) -> Result<Stamp, Refusal> {
        self.open_job(ticket)?;
        if self.stamp == HIGHEST_STAMP {
            return Err(Refusal::NoStampsLeft);
        }
        self.stamp += 1;
        let job = self.jobs.remove(&ticket).expect("the job is open");
        for (key, draft) in job.drafts {
            self.commit_draft(key, draft);
        }
        Ok(self.stamp)
    }

    pub fn abort(&mut self, ticket: Ticket) -> Result<(), Refusal> {
        self.open_job(ticket)?;
        self.jobs.remove(&ticket);
        Ok(())
    }

    pub fn end(&mut self, ticket: Ticket) -> Result<(), Refusal> {
        self.open_report(ticket)?;
        self.reports.remove(&ticket);
        Ok(())
    }

    pub fn age(&mut self, limit: u32) -> Aged {
        let mut aged = Aged {
            looked: 0,
            freed: 0,
        };
        let reports = &self.reports;
        for versions in self.versions.values_mut() {
            versions.superseded.retain(|version| {
                if version.finish >= limit {
                    return true;
                }
                aged.looked += 1;
                if is_wanted(version, reports) {
                    return true;
                }
                aged.freed += 1;
                false
            });
        }
        aged
    }
}

/// Tickets, section 5.
impl Book {
    /// Gives out the next running number.
    fn take_ticket(&mut self) -> Result<Ticket, Refusal> {
        if self.next_ticket > HIGHEST_TICKET {
            return Err(Refusal::NoTicketsLeft);
        }
        let ticket = self.next_ticket;
        self.next_ticket += 1;
        Ok(ticket)
    }

    fn open_report(&self, ticket: Ticket) -> Result<&Report, Refusal> {
        self.reports.get(&ticket).ok_or(Refusal::NotOpen)
    }

    fn open_job(&self, ticket: Ticket) -> Result<&Job, Refusal> {
        self.jobs.get(&ticket).ok_or(Refusal::NotOpen)
    }
}

/// What the calls see.
impl Book {
    /// What read answers.
    fn seen_by(&self, report: &Report, key: CodeKey) -> Option<FaultRecord> {
        self.versions.get(&key)?.seen_at(report.stamp)
    }

    /// What look answers.
    fn looked_up(&self, job: &Job, key: CodeKey) -> Option<FaultRecord> {
        match job.drafts.get(&key) {
            Some(Draft::Unstamped(record)) => Some(*record),
            Some(Draft::MarkedGone) => None,
            None => self.current_record(key),
        }
    }

    fn current_record(&self, key: CodeKey) -> Option<FaultRecord> {
        let current = self.versions.get(&key)?.current.as_ref()?;
        Some(current.record)
    }
}

/// Holds and drafts.
impl Book {
    fn refuse_if_another_holds(&self, ticket: Ticket, key: CodeKey) -> Result<(), Refusal> {
        for (other_ticket, other_job) in &self.jobs {
            if *other_ticket != ticket && other_job.holds(key) {
                return Err(Refusal::HeldBy(*other_ticket));
            }
        }
        Ok(())
    }

    fn hold(&mut self, ticket: Ticket, key: CodeKey) {
        let job = self.jobs.get_mut(&ticket).expect("the job is open");
        job.row.insert(key);
    }

    /// Makes the draft the job's draft at the key, in the place of the draft
    /// that is there already, or in a new place. The job holds the key.
    fn write_draft(&mut self, ticket: Ticket, key: CodeKey, draft: Draft) {
        let needs_place = !self.jobs[&ticket].has_draft(key);
        if needs_place && self.places_taken() == PLACES {
            self.age(ABOVE_EVERY_STAMP);
        }
        self.hold(ticket, key);
        let job = self.jobs.get_mut(&ticket).expect("the job is open");
        job.drafts.insert(key, draft);
    }

    /// Commits one draft at the store's stamp, which has been raised already.
    fn commit_draft(&mut self, key: CodeKey, draft: Draft) {
        let stamp = self.stamp;
        let versions = self.versions.entry(key).or_default();
        if let Some(replaced) = versions.current.take() {
            versions.superseded.push(Superseded {
                begin: replaced.begin,
                finish: stamp,
                record: replaced.record,
            });
        }
        if let Draft::Unstamped(record) = draft {
            versions.current = Some(Current {
                begin: stamp,
                record,
            });
        }
    }
}

fn refuse_if_row_is_full(job: &Job, key: CodeKey) -> Result<(), Refusal> {
    let needs_entry = !job.holds(key);
    if needs_entry && job.row.len() == ROW {
        return Err(Refusal::RowFull);
    }
    Ok(())
}

/// Places and wanted versions.
impl Book {
    fn refuse_if_store_is_full(&self, job: &Job, key: CodeKey) -> Result<(), Refusal> {
        let needs_place = !job.has_draft(key);
        if needs_place && self.places_wanted() == PLACES {
            return Err(Refusal::StoreFull);
        }
        Ok(())
    }

    /// How many places are not free.
    fn places_taken(&self) -> usize {
        let superseded: usize = self.versions.values().map(|v| v.superseded.len()).sum();
        self.count_drafts() + self.count_current() + superseded
    }

    /// How many places hold a wanted version.
    fn places_wanted(&self) -> usize {
        let superseded = self.versions.values().flat_map(|v| &v.superseded);
        let wanted = superseded.filter(|version| is_wanted(version, &self.reports));
        self.count_drafts() + self.count_current() + wanted.count()
    }

    fn count_drafts(&self) -> usize {
        self.jobs.values().map(|job| job.drafts.len()).sum()
    }

    fn count_current(&self) -> usize {
        self.versions
            .values()
            .filter(|v| v.current.is_some())
            .count()
    }
}

/// Whether the stamp of some open report lies in the version's span.
fn is_wanted(version: &Superseded, reports: &BTreeMap<Ticket, Report>) -> bool {
    reports
        .values()
        .any(|report| version.span_holds(report.stamp))
}
