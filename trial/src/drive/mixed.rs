//! Sessions of steps by chance, with weights.

use crate::script::{Script, Step, INPUT_LIMIT};
use crate::sweep;

/// How often each step comes, against the others.
type Weights = [(Step, usize)];

const EVERYTHING: [(Step, usize); 13] = [
    (Step::BeginReport, 8),
    (Step::BeginJob, 12),
    (Step::End, 5),
    (Step::Read, 16),
    (Step::WalkToFirst, 3),
    (Step::WalkToNext, 6),
    (Step::Look, 10),
    (Step::Put, 26),
    (Step::Remove, 9),
    (Step::Commit, 11),
    (Step::Abort, 2),
    (Step::Age, 5),
    (Step::Malformed, 1),
];

/// Steps until the input has so many bytes, or is full.
pub fn steps(script: &mut Script, weights: &Weights, bytes: usize) {
    while script.length() < bytes && !script.is_full() {
        let step = weighted(script, weights);
        script.step(step);
    }
}

fn weighted(script: &mut Script, weights: &Weights) -> Step {
    let sum: usize = weights.iter().map(|(_, weight)| weight).sum();
    let mut left = script.chance.below(sum);
    for (step, weight) in weights {
        if left < *weight {
            return *step;
        }
        left -= weight;
    }
    unreachable!("the number is below the sum of the weights")
}

pub fn small(script: &mut Script) {
    let count = script.chance.between(1, 4);
    script.use_keys(count);
    script.reports_wished = script.chance.between(1, 4);
    script.jobs_wished = script.chance.between(1, 3);
    let bytes = script.chance.between(60, 1200);
    steps(script, &EVERYTHING, bytes);
    sweep::everything(script);
}

pub fn long(script: &mut Script) {
    let count = script.chance.between(5, 14);
    script.use_keys(count);
    script.reports_wished = script.chance.between(2, 10);
    script.jobs_wished = script.chance.between(2, 6);
    steps(script, &EVERYTHING, 13_000);
    sweep::everything(script);
}

pub fn contention(script: &mut Script) {
    const WEIGHTS: [(Step, usize); 10] = [
        (Step::BeginReport, 2),
        (Step::BeginJob, 14),
        (Step::End, 1),
        (Step::Read, 3),
        (Step::Look, 24),
        (Step::Put, 20),
        (Step::Remove, 18),
        (Step::Commit, 8),
        (Step::Abort, 5),
        (Step::Age, 1),
    ];
    let count = script.chance.between(2, 4);
    script.use_keys(count);
    script.careless_in = 2;
    script.reports_wished = 3;
    script.jobs_wished = script.chance.between(3, 8);
    let bytes = script.chance.between(1000, 6000);
    steps(script, &WEIGHTS, bytes);
    sweep::everything(script);
}

pub fn ageing(script: &mut Script) {
    const WEIGHTS: [(Step, usize); 11] = [
        (Step::BeginReport, 14),
        (Step::BeginJob, 16),
        (Step::End, 6),
        (Step::Read, 10),
        (Step::WalkToFirst, 1),
        (Step::WalkToNext, 2),
        (Step::Look, 2),
        (Step::Put, 24),
        (Step::Remove, 7),
        (Step::Commit, 16),
        (Step::Age, 10),
    ];
    let count = script.chance.between(1, 6);
    script.use_keys(count);
    script.stray_in = 60;
    script.reports_wished = script.chance.between(4, 18);
    script.jobs_wished = script.chance.between(1, 3);
    let bytes = script.chance.between(1500, 12_000);
    steps(script, &WEIGHTS, bytes);
    sweep::everything(script);
}

pub fn squeeze(script: &mut Script) {
    const WEIGHTS: [(Step, usize); 8] = [
        (Step::BeginReport, 2),
        (Step::BeginJob, 5),
        (Step::End, 2),
        (Step::Read, 3),
        (Step::Look, 2),
        (Step::Put, 40),
        (Step::Remove, 10),
        (Step::Commit, 8),
    ];
    let count = script.chance.between(4, 40);
    script.use_keys(count);
    script.stray_in = 200;
    script.reports_wished = script.chance.between(0, 8);
    script.jobs_wished = script.chance.between(1, 4);
    let ages = script.chance.between(1, 6);
    for turn in 1..=ages {
        steps(script, &WEIGHTS, 14_500 * turn / ages);
        let limit = script.limit();
        script.age(limit);
    }
    sweep::everything(script);
}

pub fn malformed(script: &mut Script) {
    const WEIGHTS: [(Step, usize); 13] = [
        (Step::BeginReport, 5),
        (Step::BeginJob, 6),
        (Step::End, 4),
        (Step::Read, 6),
        (Step::WalkToFirst, 2),
        (Step::WalkToNext, 2),
        (Step::Look, 4),
        (Step::Put, 10),
        (Step::Remove, 4),
        (Step::Commit, 4),
        (Step::Abort, 1),
        (Step::Age, 2),
        (Step::Malformed, 60),
    ];
    let count = script.chance.between(2, 5);
    script.use_keys(count);
    let bytes = script.chance.between(500, 9000);
    steps(script, &WEIGHTS, bytes);
    for _ in 0..script.chance.below(3) {
        script.every_wrong_field();
    }
    sweep::everything(script);
}

/// Steps, a filling of lines that do not follow their form, and a last line
/// that ends at the last byte of the chosen length.
pub fn input_limit(script: &mut Script) {
    const LENGTHS: [usize; 11] = [
        0,
        INPUT_LIMIT,
        INPUT_LIMIT + 1,
        1,
        INPUT_LIMIT - 1,
        INPUT_LIMIT,
        2,
        INPUT_LIMIT + 1,
        INPUT_LIMIT + 2,
        2 * INPUT_LIMIT,
        70_000,
    ];
    let length = LENGTHS[script.turn % LENGTHS.len()];
    let leave_open = script.chance.one_in(3);
    let room = if leave_open { length + 1 } else { length };
    script.use_keys(4);
    script.set_room(room);
    if length <= 2 {
        let line = script.chance.pick(&["R", "J", "", "X"]);
        script.line(line.as_bytes());
    } else {
        // Far enough from the end for any line.
        let bytes = length - script.chance.between(1200, 4000);
        steps(script, &EVERYTHING, bytes);
        let last = last_line(script);
        fill_all_but(script, room, last.len() + 1);
        script.line(last.as_bytes());
    }
    if leave_open {
        script.leave_last_line_open();
    }
}

fn last_line(script: &mut Script) -> String {
    match script.chance.below(4) {
        0 => "R".to_string(),
        1 => "J".to_string(),
        2 => "S 4294967295".to_string(),
        _ => {
            let ticket = script.dead_ticket();
            format!("E {ticket}")
        }
    }
}

/// Lines of one byte over and over, which leave so many bytes of the length.
fn fill_all_but(script: &mut Script, length: usize, rest: usize) {
    let byte = script.chance.pick(b"x0 R\r\xe9");
    let longest = script.chance.pick(&[0, 3, 60, 300, 5000]);
    loop {
        let left = length - rest - script.length();
        if left == 0 {
            return;
        }
        // "R" alone would begin a report.
        let count = left.min(longest + 1) - 1;
        let byte = if count == 1 { b'x' } else { byte };
        script.line(&vec![byte; count]);
    }
}
