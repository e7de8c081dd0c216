//! Document 01's program: standard input to standard output.

use std::io::{self, BufWriter, Read, Write};

fn main() -> io::Result<()> {
    let mut input = Vec::new();
    io::stdin().read_to_end(&mut input)?;
    let mut output = BufWriter::new(io::stdout().lock());
    oracle::table::program(&input, &mut output)?;
    output.flush()
}
