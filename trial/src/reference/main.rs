//! An independent console of the fault book.
//!
//! It does what docs/BEHAVIOUR.md says in sections 4 to 13, and it is written
//! to be checked against that page line by line. Nothing in it is made to be
//! fast or small. Section numbers in the comments are those of that page.

mod book;
mod console;
mod page;
mod text;

use std::io::{self, Read, Write};

fn main() -> io::Result<()> {
    let answers = console::run(&read_input()?);
    let mut out = io::stdout();
    out.write_all(&answers)?;
    out.flush()
}

/// The whole input, or, of a longer one, one byte more than the console takes.
fn read_input() -> io::Result<Vec<u8>> {
    let enough = console::INPUT_LIMIT + 1;
    let mut input = Vec::new();
    io::stdin().take(enough as u64).read_to_end(&mut input)?;
    Ok(input)
}
