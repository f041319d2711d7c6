//! A light model of a session, for making lines that mean something: which
//! tickets are open, and roughly who holds and who wrote what.
//!
//! Tickets and the stamp are exact. Places are not counted, so after a store
//! was full the model may think that a job wrote what it could not write.

use crate::key::Key;
use std::collections::{BTreeMap, BTreeSet};

pub const MOST_REPORTS: usize = 16;
pub const MOST_JOBS: usize = 8;
pub const ROW: usize = 32;

#[derive(Clone, Copy, PartialEq, Eq)]
pub struct OpenReport {
    pub ticket: u32,
    pub stamp: u32,
}

#[derive(Clone, Copy, PartialEq, Eq)]
enum Wrote {
    Record,
    Mark,
}

pub struct OpenJob {
    pub ticket: u32,
    wrote: BTreeMap<Key, Wrote>,
    row: BTreeSet<Key>,
}

impl OpenJob {
    pub fn holds(&self, key: Key) -> bool {
        self.row.contains(&key)
    }

    pub fn drafts(&self) -> Vec<Key> {
        self.wrote.keys().copied().collect()
    }

    fn has_room_for(&self, key: Key) -> bool {
        self.holds(key) || self.row.len() < ROW
    }
}

pub struct Desk {
    pub next_ticket: u32,
    pub stamp: u32,
    pub reports: Vec<OpenReport>,
    pub jobs: Vec<OpenJob>,
    /// Tickets that were given out and are over.
    pub closed: Vec<u32>,
    /// Keys with a current version.
    pub present: BTreeSet<Key>,
}

impl Desk {
    pub fn new() -> Desk {
        Desk {
            next_ticket: 1,
            stamp: 0,
            reports: Vec::new(),
            jobs: Vec::new(),
            closed: Vec::new(),
            present: BTreeSet::new(),
        }
    }

    pub fn begin_report(&mut self) -> Option<u32> {
        if self.reports.len() == MOST_REPORTS {
            return None;
        }
        let ticket = self.take_ticket();
        let stamp = self.stamp;
        self.reports.push(OpenReport { ticket, stamp });
        Some(ticket)
    }

    pub fn begin_job(&mut self) -> Option<u32> {
        if self.jobs.len() == MOST_JOBS {
            return None;
        }
        let ticket = self.take_ticket();
        self.jobs.push(OpenJob {
            ticket,
            wrote: BTreeMap::new(),
            row: BTreeSet::new(),
        });
        Some(ticket)
    }

    fn take_ticket(&mut self) -> u32 {
        self.next_ticket += 1;
        self.next_ticket - 1
    }

    pub fn end(&mut self, ticket: u32) {
        if self.reports.iter().any(|report| report.ticket == ticket) {
            self.reports.retain(|report| report.ticket != ticket);
            self.closed.push(ticket);
        }
    }

    pub fn look(&mut self, ticket: u32, key: Key) {
        let there = self.present.contains(&key);
        if let Some(job) = self.job_free_to_touch(ticket, key) {
            if there && job.has_room_for(key) {
                job.row.insert(key);
            }
        }
    }

    pub fn put(&mut self, ticket: u32, key: Key) {
        if let Some(job) = self.job_free_to_touch(ticket, key) {
            if job.has_room_for(key) {
                job.row.insert(key);
                job.wrote.insert(key, Wrote::Record);
            }
        }
    }

    pub fn remove(&mut self, ticket: u32, key: Key) {
        let there = self.present.contains(&key);
        if let Some(job) = self.job_free_to_touch(ticket, key) {
            let seen = match job.wrote.get(&key) {
                Some(wrote) => *wrote == Wrote::Record,
                None => there,
            };
            if seen && job.has_room_for(key) {
                job.row.insert(key);
                job.wrote.insert(key, Wrote::Mark);
            }
        }
    }

    pub fn commit(&mut self, ticket: u32) {
        let Some(job) = self.take_job(ticket) else {
            return;
        };
        self.stamp += 1;
        for (key, wrote) in job.wrote {
            match wrote {
                Wrote::Record => self.present.insert(key),
                Wrote::Mark => self.present.remove(&key),
            };
        }
    }

    pub fn abort(&mut self, ticket: u32) {
        self.take_job(ticket);
    }

    fn take_job(&mut self, ticket: u32) -> Option<OpenJob> {
        let at = self.jobs.iter().position(|job| job.ticket == ticket)?;
        self.closed.push(ticket);
        Some(self.jobs.remove(at))
    }

    pub fn job(&self, ticket: u32) -> Option<&OpenJob> {
        self.jobs.iter().find(|job| job.ticket == ticket)
    }

    pub fn held_by_another(&self, ticket: u32, key: Key) -> bool {
        self.jobs
            .iter()
            .any(|job| job.ticket != ticket && job.holds(key))
    }

    /// The open job, unless another one holds the key.
    fn job_free_to_touch(&mut self, ticket: u32, key: Key) -> Option<&mut OpenJob> {
        if self.held_by_another(ticket, key) {
            return None;
        }
        self.jobs.iter_mut().find(|job| job.ticket == ticket)
    }

    pub fn report_tickets(&self) -> Vec<u32> {
        self.reports.iter().map(|report| report.ticket).collect()
    }

    pub fn job_tickets(&self) -> Vec<u32> {
        self.jobs.iter().map(|job| job.ticket).collect()
    }
}
