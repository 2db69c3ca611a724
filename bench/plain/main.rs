//! The literal planner: it does what docs/RULES.md says in the plainest way, with nothing kept from one question to the
//! next. It reads a sheet from standard input and writes its listing to standard output.

mod domain;
mod frame;
mod listing;
mod order;
mod packing;
mod sheet;

use std::io::{self, Read, Write};

fn list(text: &[u8]) -> String {
    match sheet::read(text) {
        Ok((bank, packing)) => listing::of_plan(&bank, &packing.frames),
        Err(fault) => listing::of_fault(&fault),
    }
}

fn main() -> io::Result<()> {
    let mut text = Vec::new();
    io::stdin().read_to_end(&mut text)?;
    io::stdout().write_all(list(&text).as_bytes())
}
