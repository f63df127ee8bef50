//! The replay program of document 01.

use std::io::{self, Read, Write};

fn main() -> io::Result<()> {
    let mut input = Vec::new();
    io::stdin().read_to_end(&mut input)?;
    io::stdout().write_all(oracle::replay::replay(&input).as_bytes())
}
