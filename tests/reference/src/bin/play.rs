//! The bench listing program: plays the events on standard input.
//! An independent implementation, written from document 01.

use std::io::{self, Read, Write};

fn main() -> io::Result<()> {
    let mut input = Vec::new();
    io::stdin().lock().read_to_end(&mut input)?;
    let mut output = io::stdout().lock();
    output.write_all(&reference::listing::played(&input))?;
    output.flush()
}
