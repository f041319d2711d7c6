//! Code keys as the sessions use them.

use crate::chance::Chance;
use std::collections::BTreeSet;
use std::fmt;

/// A unit and a code; the unit counts first in the order.
#[derive(Clone, Copy, PartialEq, Eq, PartialOrd, Ord)]
pub struct Key {
    pub unit: u16,
    pub code: u16,
}

impl fmt::Display for Key {
    fn fmt(&self, out: &mut fmt::Formatter<'_>) -> fmt::Result {
        let letters = ['P', 'C', 'B', 'U'];
        let letter = letters[usize::from(self.code / 0x4000)];
        let digit = self.code / 0x1000 % 4;
        let others = self.code % 0x1000;
        write!(out, "{:04X}:{letter}{digit}{others:03X}", self.unit)
    }
}

/// So many keys, no two alike, in rising order. They lie close together and
/// at the ends of the ranges, in a few units, with all four letters.
pub fn pool(chance: &mut Chance, count: usize) -> Vec<Key> {
    let mut units = Vec::new();
    for _ in 0..chance.between(1, 4) {
        units.push(unit(chance));
    }
    let mut keys = BTreeSet::new();
    let mut last = Key { unit: 0, code: 0 };
    while keys.len() < count {
        let key = if chance.one_in(4) {
            beside(chance, last)
        } else {
            Key {
                unit: chance.pick(&units),
                code: code(chance),
            }
        };
        keys.insert(key);
        last = key;
    }
    keys.into_iter().collect()
}

fn unit(chance: &mut Chance) -> u16 {
    let likely = [
        0x0000, 0x0001, 0x00FF, 0x0100, 0x07E0, 0x07E8, 0x07E9, 0x7FFF, 0x8000, 0xABCD, 0xFFFE,
        0xFFFF,
    ];
    if chance.one_in(4) {
        chance.number() as u16
    } else {
        chance.pick(&likely)
    }
}

fn code(chance: &mut Chance) -> u16 {
    let likely = [
        0x0000, 0x0001, 0x0301, 0x0FFF, 0x1000, 0x3FFF, 0x4000, 0x5234, 0x7FFF, 0x8000, 0xBFFF,
        0xC000, 0xFFFE, 0xFFFF,
    ];
    if chance.one_in(2) {
        chance.number() as u16
    } else {
        chance.pick(&likely)
    }
}

/// A key that lies next to the given one, in the code or in the unit.
pub fn beside(chance: &mut Chance, key: Key) -> Key {
    let Key { unit, code } = key;
    match chance.below(4) {
        0 => Key {
            unit,
            code: code.wrapping_add(1),
        },
        1 => Key {
            unit,
            code: code.wrapping_sub(1),
        },
        2 => Key {
            unit: unit.wrapping_add(1),
            code,
        },
        _ => Key {
            unit: unit.wrapping_sub(1),
            code,
        },
    }
}
