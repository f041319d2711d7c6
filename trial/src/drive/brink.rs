//! Sessions that fill the places to the last one or nearly so, mostly with
//! former versions that nobody wants, and then make the calls that may or may
//! not age the store by themselves. An age call afterwards tells.

use crate::desk::{OpenJob, ROW};
use crate::key::Key;
use crate::script::Script;
use crate::staged::commit_keys;
use crate::sweep;

const PLACES: usize = 64;

/// What the job tries when the places are taken.
#[derive(Clone, Copy, PartialEq, Eq)]
enum Attempt {
    /// Puts and removes that its full row refuses.
    WithFullRow,
    /// Calls of all sorts.
    OfAllSorts,
}

pub fn brink(script: &mut Script) {
    let attempt = match script.turn % 3 {
        0 => Attempt::WithFullRow,
        _ => Attempt::OfAllSorts,
    };
    let count = match attempt {
        Attempt::WithFullRow => script.chance.between(ROW + 6, ROW + 12),
        Attempt::OfAllSorts => script.chance.between(5, ROW + 12),
    };
    script.use_keys(count);
    script.stray_in = 0;
    // Some keys stay without a version.
    let absent = script.chance.between(1, 4);
    let mut keys = script.keys.clone();
    script.chance.shuffle(&mut keys);
    let present = keys.split_off(absent);

    let drafts = script.chance.between(0, present.len().min(6));
    let free = script.chance.pick(&[0, 0, 0, 1, 2]);
    fill(script, &present, PLACES - drafts - free);
    let Some(job) = script.begin_job() else {
        return;
    };
    for key in &present[..drafts] {
        script.put(job, *key);
    }
    if attempt == Attempt::WithFullRow || script.chance.one_in(3) {
        fill_row(script, job, &present);
    }
    for _ in 0..script.chance.between(1, 5) {
        match attempt {
            Attempt::WithFullRow => touch_what_is_not_held(script, job),
            Attempt::OfAllSorts => touch(script, job),
        }
    }
    if script.chance.one_in(4) {
        let limit = script.limit();
        script.age(limit);
    } else {
        script.age_all();
    }
    for _ in 0..script.chance.between(0, 20) {
        touch(script, job);
    }
    if script.chance.one_in(2) {
        script.commit(job);
    }
    sweep::everything(script);
}

/// Commits the keys, and some of them over and over, until so many places
/// are taken. Now and then a report begins and keeps what it sees.
fn fill(script: &mut Script, present: &[Key], places: usize) {
    commit_keys(script, present);
    let mut taken = present.len();
    let report_in = script.chance.pick(&[0, 2, 4, 8]);
    while taken < places && !script.is_full() {
        if script.chance.one_in(report_in) && script.desk.reports.len() < 15 {
            script.begin_report();
        }
        let most = present.len().min(places - taken).min(ROW);
        let some = script.chance.between(1, most);
        let mut again = present.to_vec();
        script.chance.shuffle(&mut again);
        commit_keys(script, &again[..some]);
        taken += some;
    }
    for ticket in script.desk.report_tickets() {
        if script.chance.one_in(3) {
            script.end(ticket);
        }
    }
}

/// Looks, which need no place, until the job holds 32 keys or all there are.
fn fill_row(script: &mut Script, job: u32, present: &[Key]) {
    for key in present.iter().rev() {
        script.look(job, *key);
    }
}

/// One call that may need a place or an entry, or neither.
fn touch(script: &mut Script, job: u32) {
    let any = script.chance.pick(&script.keys);
    let draft = some_of(script, job, |job, key| job.drafts().contains(&key)).unwrap_or(any);
    let held = some_of(script, job, |job, key| job.holds(key)).unwrap_or(any);
    match script.chance.below(20) {
        0..=2 => script.put(job, draft),
        3 => script.put(job, held),
        4 | 5 => script.remove(job, draft),
        6 => script.remove(job, held),
        7..=11 => touch_what_is_not_held(script, job),
        12 => script.look(job, any),
        13 => by_another_job(script, held),
        14 => {
            let limit = script.limit();
            script.age(limit);
        }
        15 => {
            let ticket = script.dead_ticket();
            script.put(ticket, any);
        }
        _ => script.age_all(),
    }
}

/// A put or a remove that needs both a place and an entry.
fn touch_what_is_not_held(script: &mut Script, job: u32) {
    if let Some(key) = some_of(script, job, |job, key| !job.holds(key)) {
        if script.chance.one_in(2) {
            script.put(job, key);
        } else {
            script.remove(job, key);
        }
    }
}

/// A key of the session of which this is true for the open job.
fn some_of(script: &mut Script, job: u32, is: impl Fn(&OpenJob, Key) -> bool) -> Option<Key> {
    let job = script.desk.job(job)?;
    let mut keys = script.keys.clone();
    keys.retain(|key| is(job, *key));
    script.chance.pick_any(&keys)
}

/// Another job tries the key that the first one may hold, and gives up.
fn by_another_job(script: &mut Script, key: Key) {
    if let Some(other) = script.begin_job() {
        match script.chance.below(3) {
            0 => script.look(other, key),
            1 => script.put(other, key),
            _ => script.remove(other, key),
        }
        script.abort(other);
    }
}
