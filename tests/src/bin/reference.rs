//! The sheet program over the model: a sheet on standard input, its lines on standard output.

use std::io::{self, Read, Write};

fn main() -> io::Result<()> {
    let mut bytes = Vec::new();
    io::stdin().read_to_end(&mut bytes)?;
    io::stdout().write_all(store_tests::sheet::run(&bytes).as_bytes())
}
