//! What a session does at its end so that all that went before shows.

use crate::script::Script;

/// Walks and reads through open reports, looks at every key, ages at some
/// limits, and ends the reports one by one with an age call after each. Lines
/// that do not fit are left out.
pub fn everything(script: &mut Script) {
    let mut reports = script.desk.report_tickets();
    script.chance.shuffle(&mut reports);
    for ticket in reports.iter().take(4) {
        walk_through(script, *ticket);
        read_through(script, *ticket);
    }
    look_through(script);
    for _ in 0..script.chance.below(4) {
        let limit = script.limit();
        script.age(limit);
    }
    for ticket in reports {
        if script.chance.one_in(4) {
            read_through(script, ticket);
        }
        script.end(ticket);
        let limit = script.limit();
        script.age(limit);
    }
    script.age_all();
    if let Some(ticket) = script.begin_report() {
        walk_through(script, ticket);
        read_through(script, ticket);
    }
}

/// From the first key over all keys of the session in their order. Whatever
/// the walk's own steps are, they are among these.
pub fn walk_through(script: &mut Script, ticket: u32) {
    script.walk_to_first(ticket);
    for key in script.keys.clone() {
        script.walk_to_next(ticket, key);
    }
}

pub fn read_through(script: &mut Script, ticket: u32) {
    for key in script.keys.clone() {
        script.read(ticket, key);
    }
}

/// Every key, by a job that is open or by a new one, which is aborted then.
fn look_through(script: &mut Script) {
    let job = match script.begin_job() {
        Some(ticket) => ticket,
        None => match script.desk.job_tickets().first() {
            Some(ticket) => *ticket,
            None => return,
        },
    };
    for key in script.keys.clone() {
        script.look(job, key);
    }
    script.abort(job);
}
