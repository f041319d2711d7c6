//! Lines that do not follow their form. A spoilt line never begins or ends a
//! report or a job and never writes, so the light model stays right.

use crate::chance::Chance;

/// Spoils a line that follows its form, in one of many ways.
pub fn spoil(chance: &mut Chance, good: &str) -> Vec<u8> {
    let fields: Vec<&str> = good.split(' ').collect();
    match chance.below(16) {
        0 => Vec::new(),
        1 => junk(chance),
        2 => much_too_long(chance, good),
        3 | 4 => with_wrong_spaces(chance, &fields),
        5 | 6 => with_wrong_byte(chance, good),
        7 => with_wrong_letter(chance, &fields),
        8 => with_wrong_count(chance, &fields),
        _ => with_wrong_field(chance, &fields),
    }
}

/// Bytes of all values but 10. The first one begins no line.
fn junk(chance: &mut Chance) -> Vec<u8> {
    let mut line = vec![chance.pick(b"xrjXQ07 \t\r\0\x7f\x80\xc3\xff")];
    for _ in 0..chance.below(60) {
        let byte = chance.below(256) as u8;
        line.push(if byte == b'\n' { b' ' } else { byte });
    }
    line
}

/// The line, and then one byte over and over.
fn much_too_long(chance: &mut Chance, good: &str) -> Vec<u8> {
    let mut line = good.as_bytes().to_vec();
    let byte = chance.pick(b"0 9AxX\r\xff");
    let count = match chance.below(3) {
        0 => chance.between(11, 40),
        1 => chance.between(250, 260),
        _ => chance.between(41, 900),
    };
    line.resize(line.len() + count, byte);
    line
}

/// A space too many, too few, or something else in its place.
fn with_wrong_spaces(chance: &mut Chance, fields: &[&str]) -> Vec<u8> {
    let gaps = fields.len() - 1;
    if gaps == 0 || chance.one_in(3) {
        let line = fields.join(" ");
        let spoilt = match chance.below(6) {
            0 => format!(" {line}"),
            1 => format!("{line} "),
            2 => format!("{line}\r"),
            3 => format!("{line}\t"),
            4 => format!("\u{feff}{line}"),
            _ => format!("{line}\0"),
        };
        return spoilt.into_bytes();
    }
    let wrong = chance.below(gaps);
    let instead = chance.pick(&["", "  ", "\t", " \t", ",", "\r", "\0", "\u{a0}", "   "]);
    let mut line = String::new();
    for (at, field) in fields.iter().enumerate() {
        line.push_str(field);
        if at == wrong {
            line.push_str(instead);
        } else if at < gaps {
            line.push(' ');
        }
    }
    line.into_bytes()
}

/// One byte too many, of a value that no line has.
fn with_wrong_byte(chance: &mut Chance, good: &str) -> Vec<u8> {
    let wrong = chance.pick(b"\0\t\x0b\x0c\r\x1b./@G`g~\x7f\x80\x85\xa0\xc3\xff");
    let mut line = good.as_bytes().to_vec();
    let at = chance.below(line.len() + 1);
    line.insert(at, wrong);
    line
}

fn with_wrong_letter(chance: &mut Chance, fields: &[&str]) -> Vec<u8> {
    let small = fields[0].to_lowercase();
    let twice = format!("{0}{0}", fields[0]);
    let letters = ["", "X", "B", "Z", "0", "rec", "ok", &small, &twice];
    let mut changed = fields.to_vec();
    changed[0] = chance.pick(&letters);
    changed.join(" ").into_bytes()
}

/// A field too many or too few. A walk may become another walk by this, which
/// changes nothing.
fn with_wrong_count(chance: &mut Chance, fields: &[&str]) -> Vec<u8> {
    let mut changed = fields.to_vec();
    if chance.one_in(2) {
        changed.pop();
    } else {
        changed.push(chance.pick(&["0", "1", "-1", "x", "07E8:P0301"]));
    }
    changed.join(" ").into_bytes()
}

/// One field after the letter is not as it has to be.
fn with_wrong_field(chance: &mut Chance, fields: &[&str]) -> Vec<u8> {
    if fields.len() == 1 {
        return with_wrong_spaces(chance, fields);
    }
    let at = chance.between(1, fields.len() - 1);
    let wrong = wrong_texts(at, fields[at]);
    with_field(fields, at, &wrong[chance.below(wrong.len())])
}

/// The line with every field wrong in every way, one at a time.
pub fn every_wrong_field(good: &str) -> Vec<Vec<u8>> {
    let fields: Vec<&str> = good.split(' ').collect();
    let mut lines = Vec::new();
    for at in 1..fields.len() {
        for wrong in wrong_texts(at, fields[at]) {
            lines.push(with_field(&fields, at, &wrong));
        }
    }
    lines
}

fn with_field(fields: &[&str], at: usize, text: &str) -> Vec<u8> {
    let mut changed = fields.to_vec();
    changed[at] = text;
    changed.join(" ").into_bytes()
}

/// Texts that do not follow the form of the field at this position, or lie
/// outside its range, though they look like the good one.
fn wrong_texts(at: usize, good: &str) -> Vec<String> {
    match at {
        1 => wrong_numbers(good, u32::MAX),
        2 => wrong_keys(good),
        3 => wrong_numbers(good, 255),
        4 | 5 => wrong_numbers(good, 65_535),
        _ => wrong_coolants(good),
    }
}

/// Some of these would be the good number again if higher bits were lost.
fn wrong_numbers(good: &str, highest: u32) -> Vec<String> {
    let value: u128 = good.parse().expect("the field is a number");
    let above = u128::from(highest) + 1;
    vec![
        format!("0{good}"),
        format!("00{good}"),
        format!("+{good}"),
        format!("-{good}"),
        "-0".to_string(),
        String::new(),
        above.to_string(),
        (value + above).to_string(),
        (value + (1 << 32)).to_string(),
        (value + (1 << 64)).to_string(),
        format!("1{:0>20}", good),
        format!("{good}."),
        format!("{good}/"),
        format!("{good}:"),
        format!("{good}x"),
        format!("0x{good}"),
        format!("{good},0"),
        format!("{good}A"),
        format!("-{above}"),
    ]
}

fn wrong_coolants(good: &str) -> Vec<String> {
    let value: i64 = good.parse().expect("the field is a number");
    let digits = value.abs();
    vec![
        "-41".to_string(),
        "216".to_string(),
        "-0".to_string(),
        "-00".to_string(),
        format!("+{digits}"),
        format!("-0{digits}"),
        format!("0{digits}"),
        format!("--{digits}"),
        "-".to_string(),
        String::new(),
        format!("{digits}-"),
        (value + 256).to_string(),
        (value - 256).to_string(),
        (value + 65_536).to_string(),
        (value + (1 << 32)).to_string(),
        (value - (1 << 32)).to_string(),
        "-215".to_string(),
        "255".to_string(),
        "-400".to_string(),
        "2150".to_string(),
    ]
}

fn wrong_keys(good: &str) -> Vec<String> {
    let unit = &good[..4];
    let letter = &good[5..6];
    let digit = &good[6..7];
    let others = &good[7..];
    let mut keys = vec![
        good.to_lowercase(),
        format!("{unit}:{}{digit}{others}", letter.to_lowercase()),
        format!("{unit}:{letter}{digit}a{}", &others[1..]),
        format!("{unit}:{letter}{digit}{}f", &others[..2]),
        format!("e{}:{letter}{digit}{others}", &unit[1..]),
        format!("{unit}:{letter}{digit}{}G", &others[..2]),
        format!("{unit}:{letter}{digit}@{}", &others[1..]),
        format!("{unit}:{letter}{digit}{}:", &others[..2]),
        format!("{}G:{letter}{digit}{others}", &unit[..3]),
        format!("/{}:{letter}{digit}{others}", &unit[1..]),
        format!("{unit}{letter}{digit}{others}"),
        format!("{unit}::{letter}{digit}{others}"),
        format!("{unit};{letter}{digit}{others}"),
        format!("{unit}0{letter}{digit}{others}"),
        good[..9].to_string(),
        format!("{good}0"),
        good[1..].to_string(),
        format!("0{good}"),
        format!("{letter}{digit}{others}:{unit}"),
        String::new(),
    ];
    for wrong in ["A", "D", "Q", "0", "V", "O"] {
        keys.push(format!("{unit}:{wrong}{digit}{others}"));
    }
    for wrong in ["4", "9", "/", "A", "O", "-"] {
        keys.push(format!("{unit}:{letter}{wrong}{others}"));
    }
    keys
}
