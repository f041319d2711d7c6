//! Sessions that lead the store to a certain state before chance takes over.

use crate::key::Key;
use crate::mixed;
use crate::script::{Script, Step};
use crate::sweep;

/// Commits of a few keys each, with reports begun between them and ended in
/// any order, and then age calls at all limits.
pub fn staggered(script: &mut Script) {
    let count = script.chance.between(1, 5);
    script.use_keys(count);
    script.stray_in = 0;
    let commits = script.chance.between(6, 40);
    let report_in = script.chance.between(1, 5);
    for _ in 0..commits {
        while script.chance.one_in(report_in + 1) && script.desk.reports.len() < 16 {
            script.begin_report();
        }
        commit_some(script);
    }
    end_some(script);
    let highest = script.desk.stamp + 1;
    let stride = script.chance.between(1, 3);
    for limit in (0..=highest).step_by(stride) {
        script.age(limit);
        if script.chance.one_in(6) {
            end_some(script);
        }
    }
    if script.chance.one_in(2) {
        for _ in 0..script.chance.between(1, 10) {
            commit_some(script);
        }
    }
    sweep::everything(script);
}

/// One job that writes or removes some keys and commits.
fn commit_some(script: &mut Script) {
    let Some(ticket) = script.begin_job() else {
        return;
    };
    for key in script.keys.clone() {
        match script.chance.below(6) {
            0..=2 => script.put(ticket, key),
            3 => script.remove(ticket, key),
            _ => {}
        }
    }
    script.commit(ticket);
}

fn end_some(script: &mut Script) {
    for ticket in script.desk.report_tickets() {
        if script.chance.one_in(3) {
            script.end(ticket);
        }
    }
}

/// Commits the keys in jobs of at most 32 keys each.
pub fn commit_keys(script: &mut Script, keys: &[Key]) {
    for part in keys.chunks(32) {
        if let Some(ticket) = script.begin_job() {
            for key in part {
                script.put(ticket, *key);
            }
            script.commit(ticket);
        }
    }
}

/// A job that takes 32 keys by looks, puts and removes, while others hold a
/// few, and then calls of all of them at keys of all sorts.
pub fn row_full(script: &mut Script) {
    const WEIGHTS: [(Step, usize); 5] = [
        (Step::Look, 12),
        (Step::Put, 10),
        (Step::Remove, 10),
        (Step::BeginReport, 1),
        (Step::Age, 1),
    ];
    let count = script.chance.between(45, 60);
    script.use_keys(count);
    script.careless_in = 1;
    let mut keys = script.keys.clone();
    script.chance.shuffle(&mut keys);
    let present = script.chance.between(10, 40);
    commit_keys(script, &keys[..present]);
    script.begin_report();
    begin_and_hold_a_few(script, &keys);
    if let Some(ticket) = script.begin_job() {
        script.chance.shuffle(&mut keys);
        hold_all(script, ticket, &keys);
        press(script, ticket);
    }
    begin_and_hold_a_few(script, &keys);
    let bytes = script.length() + script.chance.between(600, 4000);
    mixed::steps(script, &WEIGHTS, bytes);
    for ticket in script.desk.job_tickets() {
        if script.chance.one_in(2) {
            script.commit(ticket);
        } else {
            script.abort(ticket);
        }
        let bytes = script.length() + script.chance.between(0, 600);
        mixed::steps(script, &WEIGHTS, bytes);
    }
    sweep::everything(script);
}

fn begin_and_hold_a_few(script: &mut Script, keys: &[Key]) {
    if let Some(ticket) = script.begin_job() {
        for _ in 0..script.chance.between(0, 4) {
            let key = script.chance.pick(keys);
            script.look(ticket, key);
            if script.chance.one_in(2) {
                script.put(ticket, key);
            }
        }
    }
}

/// Touches one key after the other until the model counts 32 entries.
fn hold_all(script: &mut Script, ticket: u32, keys: &[Key]) {
    for key in keys {
        match script.chance.below(6) {
            0..=2 => script.look(ticket, *key),
            3 | 4 => script.put(ticket, *key),
            _ => script.remove(ticket, *key),
        }
    }
}

/// Calls at keys that the job does not hold: there, absent, or held by
/// another job. With a full row none of them gets a hold.
fn press(script: &mut Script, ticket: u32) {
    for _ in 0..script.chance.between(5, 25) {
        let key = script.chance.pick(&script.keys);
        if script.desk.job(ticket).is_some_and(|job| job.holds(key)) {
            continue;
        }
        match script.chance.below(3) {
            0 => script.look(ticket, key),
            1 => script.put(ticket, key),
            _ => script.remove(ticket, key),
        }
    }
}

/// Commits nearly as many keys as there are places, and then replaces,
/// removes and adds, with reports that keep former versions.
pub fn store_full(script: &mut Script) {
    const WEIGHTS: [(Step, usize); 10] = [
        (Step::BeginReport, 3),
        (Step::BeginJob, 5),
        (Step::End, 3),
        (Step::Read, 3),
        (Step::Look, 3),
        (Step::Put, 24),
        (Step::Remove, 14),
        (Step::Commit, 4),
        (Step::Abort, 2),
        (Step::Age, 1),
    ];
    let count = script.chance.between(60, 75);
    script.use_keys(count);
    script.stray_in = 100;
    script.careless_in = 20;
    let mut keys = script.keys.clone();
    script.chance.shuffle(&mut keys);
    let present = script.chance.between(40, 64).min(count);
    let first = present / 2;
    commit_keys(script, &keys[..first]);
    script.begin_report();
    commit_keys(script, &keys[first..present]);
    let bytes = script.chance.between(5000, 13_500);
    mixed::steps(script, &WEIGHTS, bytes);
    sweep::everything(script);
}

/// As many reports and jobs as may be open and more, and calls of all kinds
/// with tickets that are over, of the other kind, or were never given out.
pub fn tickets(script: &mut Script) {
    const WEIGHTS: [(Step, usize); 12] = [
        (Step::BeginReport, 20),
        (Step::BeginJob, 14),
        (Step::End, 6),
        (Step::Read, 4),
        (Step::WalkToFirst, 3),
        (Step::WalkToNext, 3),
        (Step::Look, 4),
        (Step::Put, 6),
        (Step::Remove, 4),
        (Step::Commit, 5),
        (Step::Abort, 4),
        (Step::Age, 1),
    ];
    let count = script.chance.between(2, 6);
    script.use_keys(count);
    script.stray_in = 2;
    script.reports_wished = script.chance.pick(&[8, 20, 40]);
    script.jobs_wished = script.chance.pick(&[4, 9, 40]);
    let bytes = script.chance.between(400, 5000);
    mixed::steps(script, &WEIGHTS, bytes);
    sweep::everything(script);
}

/// Many keys written in some order, removed, aborted and written again, with
/// walks of reports of different moments.
pub fn walks(script: &mut Script) {
    let count = script.chance.between(8, 60);
    script.use_keys(count);
    script.stray_in = 0;
    let turns = script.chance.between(2, 8);
    for _ in 0..turns {
        write_in_some_order(script);
        if script.desk.reports.len() < 12 {
            script.begin_report();
        }
        if script.chance.one_in(2) {
            let limit = script.limit();
            script.age(limit);
        }
        walk_by_one(script);
        for ticket in script.desk.report_tickets() {
            if script.chance.one_in(4) {
                script.end(ticket);
            }
        }
    }
    sweep::everything(script);
}

/// One job over some of the keys: rising, falling or in any order.
fn write_in_some_order(script: &mut Script) {
    let Some(ticket) = script.begin_job() else {
        return;
    };
    let mut keys = script.keys.clone();
    match script.chance.below(4) {
        0 => {}
        1 => keys.reverse(),
        _ => script.chance.shuffle(&mut keys),
    }
    let some = script.chance.between(1, keys.len().min(32));
    let remove_in = script.chance.between(2, 4);
    for key in &keys[..some] {
        let there = script.desk.present.contains(key);
        if there && script.chance.one_in(remove_in) {
            script.remove(ticket, *key);
        } else {
            script.put(ticket, *key);
        }
    }
    if script.chance.one_in(4) {
        script.abort(ticket);
    } else {
        script.commit(ticket);
    }
}

/// One open report walks: over all keys, or by chance from keys and their
/// neighbours.
fn walk_by_one(script: &mut Script) {
    let reports = script.desk.report_tickets();
    let Some(ticket) = script.chance.pick_any(&reports) else {
        return;
    };
    if script.chance.one_in(2) {
        sweep::walk_through(script, ticket);
    } else {
        for _ in 0..script.chance.between(1, 12) {
            script.step(Step::WalkToNext);
        }
    }
}
