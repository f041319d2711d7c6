//! The kinds of sessions, and how one is made from a seed.

use crate::brink;
use crate::mixed;
use crate::page_fill;
use crate::script::{Script, INPUT_LIMIT};
use crate::staged;
use std::fmt;

#[derive(Clone, Copy, PartialEq, Eq, PartialOrd, Ord)]
pub enum Kind {
    /// A few lines of everything on a few keys.
    Small,
    /// Everything, up to the input's limit.
    Long,
    /// Many jobs on two to four keys.
    Contention,
    /// Many reports at many stamps, few keys, age calls at many limits.
    Ageing,
    /// Stacks of versions, reports between them, ended in any order.
    Staggered,
    /// A job that holds 32 keys.
    RowFull,
    /// 64 wanted versions.
    StoreFull,
    /// A store with the last place just taken, and what happens then.
    Brink,
    /// Few keys and many commits, so that the store ages by itself.
    Squeeze,
    /// All tickets open, and tickets that are not.
    Tickets,
    /// Many keys that come and go, and walks to the end.
    Walks,
    /// Lines that do not follow their form, among others that do.
    Malformed,
    /// Inputs around the limit of 16,384 bytes.
    InputLimit,
    /// Answers around the limit of 32,768 bytes.
    PageLimit,
}

pub const KINDS: [Kind; 14] = [
    Kind::Small,
    Kind::Long,
    Kind::Contention,
    Kind::Ageing,
    Kind::Staggered,
    Kind::RowFull,
    Kind::StoreFull,
    Kind::Brink,
    Kind::Squeeze,
    Kind::Tickets,
    Kind::Walks,
    Kind::Malformed,
    Kind::InputLimit,
    Kind::PageLimit,
];

impl fmt::Display for Kind {
    fn fmt(&self, out: &mut fmt::Formatter<'_>) -> fmt::Result {
        let name = match self {
            Kind::Small => "small",
            Kind::Long => "long",
            Kind::Contention => "contention",
            Kind::Ageing => "ageing",
            Kind::Staggered => "staggered",
            Kind::RowFull => "row full",
            Kind::StoreFull => "store full",
            Kind::Brink => "brink",
            Kind::Squeeze => "squeeze",
            Kind::Tickets => "tickets",
            Kind::Walks => "walks",
            Kind::Malformed => "malformed",
            Kind::InputLimit => "input limit",
            Kind::PageLimit => "page limit",
        };
        write!(out, "{name}")
    }
}

pub struct Session {
    pub seed: u64,
    pub kind: Kind,
    pub input: Vec<u8>,
    /// The whole output, where the session was made so that it is known
    /// without any console.
    pub known_output: Option<Vec<u8>>,
}

/// The session of a seed. Kinds follow each other from seed to seed.
pub fn make(seed: u64) -> Session {
    let kinds = KINDS.len() as u64;
    let kind = KINDS[(seed % kinds) as usize];
    let mut script = Script::new(seed, (seed / kinds) as usize);
    let mut known_output = None;
    match kind {
        Kind::Small => mixed::small(&mut script),
        Kind::Long => mixed::long(&mut script),
        Kind::Contention => mixed::contention(&mut script),
        Kind::Ageing => mixed::ageing(&mut script),
        Kind::Staggered => staged::staggered(&mut script),
        Kind::RowFull => staged::row_full(&mut script),
        Kind::StoreFull => staged::store_full(&mut script),
        Kind::Brink => brink::brink(&mut script),
        Kind::Squeeze => mixed::squeeze(&mut script),
        Kind::Tickets => staged::tickets(&mut script),
        Kind::Walks => staged::walks(&mut script),
        Kind::Malformed => mixed::malformed(&mut script),
        Kind::InputLimit => mixed::input_limit(&mut script),
        Kind::PageLimit => known_output = Some(page_fill::page_limit(&mut script)),
    }
    let length_matters = matches!(kind, Kind::InputLimit | Kind::PageLimit);
    if !length_matters && script.chance.one_in(6) {
        script.leave_last_line_open();
    }
    let input = script.into_input();
    if input.len() > INPUT_LIMIT {
        known_output = Some(b"no 12\n".to_vec());
    }
    Session {
        seed,
        kind,
        input,
        known_output,
    }
}
