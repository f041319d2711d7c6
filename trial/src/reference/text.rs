//! Texts of keys, numbers and records, section 9.
//!
//! Every reading function answers none for a text that does not follow its
//! form or lies outside its range.

use std::fmt;

/// The address of a control unit and a trouble code. The derived order takes
/// the fields as they stand here: the unit counts first, the code second.
#[derive(Clone, Copy, PartialEq, Eq, PartialOrd, Ord)]
pub struct CodeKey {
    unit: u16,
    code: u16,
}

/// What a job writes for a key.
#[derive(Clone, Copy)]
pub struct FaultRecord {
    status: u32,
    occurrences: u32,
    /// In quarter revolutions a minute.
    speed: u32,
    /// In degrees Celsius.
    coolant: i32,
}

const HIGHEST_STATUS: u32 = 255;
const HIGHEST_OCCURRENCES: u32 = 65_535;
const HIGHEST_SPEED: u32 = 65_535;
const HIGHEST_COOLANT: u32 = 215;
/// How far the coolant may be below 0.
const COLDEST_COOLANT: u32 = 40;

/// Four hexadecimal digits for the unit, a colon, and the code text.
pub fn read_key(text: &[u8]) -> Option<CodeKey> {
    let [u1, u2, u3, u4, b':', code @ ..] = text else {
        return None;
    };
    let unit =
        hex_digit(*u1)? << 12 | hex_digit(*u2)? << 8 | hex_digit(*u3)? << 4 | hex_digit(*u4)?;
    Some(CodeKey {
        unit,
        code: read_code(code)?,
    })
}

/// A letter, a digit and three hexadecimal digits.
fn read_code(text: &[u8]) -> Option<u16> {
    let [letter, digit, h1, h2, h3] = text else {
        return None;
    };
    let highest_bits = match letter {
        b'P' => 0,
        b'C' => 1,
        b'B' => 2,
        b'U' => 3,
        _ => return None,
    };
    let next_bits = match digit {
        b'0' => 0,
        b'1' => 1,
        b'2' => 2,
        b'3' => 3,
        _ => return None,
    };
    let other_bits = hex_digit(*h1)? << 8 | hex_digit(*h2)? << 4 | hex_digit(*h3)?;
    Some(highest_bits << 14 | next_bits << 12 | other_bits)
}

/// 0 to 9 and A to F, in capitals.
fn hex_digit(byte: u8) -> Option<u16> {
    match byte {
        b'0'..=b'9' => Some(u16::from(byte - b'0')),
        b'A'..=b'F' => Some(u16::from(byte - b'A') + 10),
        _ => None,
    }
}

impl fmt::Display for CodeKey {
    fn fmt(&self, out: &mut fmt::Formatter<'_>) -> fmt::Result {
        let letter = match self.code >> 14 {
            0 => 'P',
            1 => 'C',
            2 => 'B',
            _ => 'U',
        };
        let digit = self.code >> 12 & 3;
        let others = self.code & 0xFFF;
        write!(out, "{:04X}:{letter}{digit}{others:03X}", self.unit)
    }
}

/// The four fields of a fault record, each without its spaces.
pub fn read_record(
    status: &[u8],
    occurrences: &[u8],
    speed: &[u8],
    coolant: &[u8],
) -> Option<FaultRecord> {
    Some(FaultRecord {
        status: read_decimal(status, HIGHEST_STATUS)?,
        occurrences: read_decimal(occurrences, HIGHEST_OCCURRENCES)?,
        speed: read_decimal(speed, HIGHEST_SPEED)?,
        coolant: read_coolant(coolant)?,
    })
}

impl fmt::Display for FaultRecord {
    fn fmt(&self, out: &mut fmt::Formatter<'_>) -> fmt::Result {
        write!(
            out,
            "{} {} {} {}",
            self.status, self.occurrences, self.speed, self.coolant
        )
    }
}

/// A decimal number, or a minus sign and a decimal number that is not 0.
fn read_coolant(text: &[u8]) -> Option<i32> {
    match text {
        [b'-', digits @ ..] => match read_decimal(digits, COLDEST_COOLANT)? {
            0 => None,
            below => Some(-(below as i32)),
        },
        digits => Some(read_decimal(digits, HIGHEST_COOLANT)? as i32),
    }
}

/// A decimal number of 32 bits, as tickets and limits are.
pub fn read_number(text: &[u8]) -> Option<u32> {
    read_decimal(text, u32::MAX)
}

/// At least one digit, no leading zero but for 0 itself, no sign, and not
/// above the highest number.
fn read_decimal(text: &[u8], highest: u32) -> Option<u32> {
    let has_leading_zero = text.len() > 1 && text[0] == b'0';
    if text.is_empty() || has_leading_zero {
        return None;
    }
    let mut number: u64 = 0;
    for byte in text {
        if !byte.is_ascii_digit() {
            return None;
        }
        number = number * 10 + u64::from(byte - b'0');
        if number > u64::from(highest) {
            return None;
        }
    }
    Some(number as u32)
}
