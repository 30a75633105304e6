//! The second planning program: a loop nest's text on standard input, its listing on standard
//! output.

use std::io::{self, Read, Write};

fn main() -> io::Result<()> {
    let mut text = Vec::new();
    io::stdin().read_to_end(&mut text)?;
    io::stdout().write_all(second::listing::listing(&text).as_bytes())
}
