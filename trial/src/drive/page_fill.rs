//! Sessions whose answers fill the page of 32,768 bytes, nearly or more than
//! that. Every line here has an answer that is known at once, so the whole
//! output is known without any console.

use crate::script::Script;

const PAGE_LIMIT: usize = 32_768;

/// How the last line before the page's end fits.
#[derive(Clone, Copy)]
enum Fit {
    /// Its answer ends at the last byte.
    Exact,
    /// So many bytes are left behind its answer.
    Spare(usize),
    /// So many bytes are lacking.
    Lacking(usize),
}

/// A line and its answer.
struct Known {
    line: String,
    answer: String,
}

/// Lines with their answers, and what is needed for knowing these.
struct Book {
    known: Vec<Known>,
    next_ticket: u32,
    stamp: u32,
}

impl Book {
    fn say(&mut self, line: &str, answer: &str) {
        self.known.push(Known {
            line: line.to_string(),
            answer: answer.to_string(),
        });
    }

    fn answer_bytes(&self) -> usize {
        self.known.iter().map(|known| known.answer.len() + 1).sum()
    }

    fn begin_job(&mut self) -> u32 {
        let ticket = self.take_ticket();
        self.say("J", &format!("J {ticket}"));
        ticket
    }

    fn begin_report(&mut self) -> u32 {
        let ticket = self.take_ticket();
        let stamp = self.stamp;
        self.say("R", &format!("R {ticket} {stamp}"));
        ticket
    }

    fn commit(&mut self, ticket: u32) {
        self.stamp += 1;
        let stamp = self.stamp;
        self.say(&format!("C {ticket}"), &format!("C {stamp}"));
    }

    fn take_ticket(&mut self) -> u32 {
        self.next_ticket += 1;
        self.next_ticket - 1
    }
}

/// Writes the session, and answers its whole output.
pub fn page_limit(script: &mut Script) -> Vec<u8> {
    let mut book = Book {
        known: Vec::new(),
        next_ticket: 1,
        stamp: 0,
    };
    for _ in 0..script.chance.between(0, 60) {
        some_calls(script, &mut book);
    }
    let job = book.begin_job();
    let report = book.begin_report();
    let last = last_call(script, &mut book, job, report);
    let fit = match script.turn % 6 {
        0 => Fit::Exact,
        1 => Fit::Lacking(1),
        2 => Fit::Spare(1),
        3 => Fit::Spare(script.chance.between(2, 9)),
        4 => Fit::Lacking(1),
        _ => Fit::Lacking(script.chance.between(2, 3)),
    };
    fill(script, &mut book, &last, fit);
    book.known.push(last);
    // These would fit where a longer answer does not.
    let mut report = report;
    for _ in 0..script.chance.between(0, 5) {
        book.say(&format!("E {report}"), "ok");
        report = book.begin_report();
    }
    write(script, &book)
}

/// A few calls that leave no ticket open.
fn some_calls(script: &mut Script, book: &mut Book) {
    match script.chance.below(6) {
        0 => {
            let job = book.begin_job();
            book.say(&format!("A {job}"), "ok");
        }
        1 => {
            let job = book.begin_job();
            book.commit(job);
        }
        2 => {
            let report = book.begin_report();
            book.say(&format!("E {report}"), "ok");
        }
        3 => {
            book.say("S 0", "S 0 0");
            book.say("E 0", "no 4");
        }
        4 => {
            let job = book.begin_job();
            let dead = job + 1;
            book.say(&format!("L {dead} 07E8:P0301"), "no 4");
            book.say(&format!("P {job} 07E8:U3FFF 1 2 3 4"), "ok");
            book.say(&format!("L {job} 07E8:U3FFF"), "rec 1 2 3 4");
            book.say(&format!("D {job} 07E8:U3FFF"), "ok");
            book.say(&format!("D {job} 07E8:U3FFF"), "no 8");
            book.say(&format!("A {job}"), "ok");
        }
        _ => {
            let job = book.begin_job();
            book.say(&format!("P {job} 07E8:P0301 255 65535 0 -40"), "ok");
            book.commit(job);
            let report = book.begin_report();
            book.say(&format!("G {report} 07E8:P0301"), "rec 255 65535 0 -40");
            book.say(&format!("N {report}"), "N 07E8:P0301");
            book.say(&format!("N {report} 07E8:P0301"), "none");
            book.say(&format!("E {report}"), "ok");
        }
    }
}

/// The line whose answer comes to the page's end. Answers are of 3 to 24
/// bytes.
fn last_call(script: &mut Script, book: &mut Book, job: u32, report: u32) -> Known {
    let (line, answer) = match script.chance.below(8) {
        0 => (format!("A {job}"), "ok".to_string()),
        1 => (String::new(), "no 12".to_string()),
        2 => {
            book.stamp += 1;
            (format!("C {job}"), format!("C {}", book.stamp))
        }
        3 => (format!("C {report}"), "no 4".to_string()),
        4 => (format!("G {report} FFFF:U3FFF"), "none".to_string()),
        5 => ("S 0".to_string(), "S 0 0".to_string()),
        6 => {
            book.say(&format!("P {job} 0000:B0000 255 65535 65535 -40"), "ok");
            let answer = "rec 255 65535 65535 -40".to_string();
            (format!("L {job} 0000:B0000"), answer)
        }
        _ => {
            book.say(&format!("P {job} 0000:C0000 0 0 0 0"), "ok");
            let other = book.begin_job();
            let line = format!("D {other} 0000:C0000");
            (line, format!("no 7 {job}"))
        }
    };
    Known { line, answer }
}

/// Answers of five and of six bytes, in any order, up to where the last
/// answer has to begin.
fn fill(script: &mut Script, book: &mut Book, last: &Known, fit: Fit) {
    let length = last.answer.len() + 1;
    let start = match fit {
        Fit::Exact => PAGE_LIMIT - length,
        Fit::Spare(bytes) => PAGE_LIMIT - length - bytes,
        Fit::Lacking(bytes) => PAGE_LIMIT - length + bytes,
    };
    let rest = start - book.answer_bytes();
    // Of five bytes so many that six divides what is left.
    let fives = (6 - rest % 6) % 6;
    let sixes = (rest - 5 * fives) / 6;
    let mut filling = vec![("", "no 12"); sixes];
    filling.extend(vec![("E 0", "no 4"); fives]);
    script.chance.shuffle(&mut filling);
    for (line, answer) in filling {
        book.say(line, answer);
    }
}

/// Writes the lines, and answers as much of the output as the page takes.
fn write(script: &mut Script, book: &Book) -> Vec<u8> {
    let mut output = Vec::new();
    let mut stopped = false;
    for known in &book.known {
        script.line(known.line.as_bytes());
        let answer = format!("{}\n", known.answer);
        stopped = stopped || output.len() + answer.len() > PAGE_LIMIT;
        if !stopped {
            output.extend_from_slice(answer.as_bytes());
        }
    }
    assert!(!script.is_full(), "the input has room for all lines");
    output
}
