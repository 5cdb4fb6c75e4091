//! `generate SEED`: the random sheet of a seed on standard output; the seed is told on standard error.

use std::io::{self, Write};
use std::process::ExitCode;

fn main() -> ExitCode {
    let given: Vec<String> = std::env::args().skip(1).collect();
    let seed = match given.as_slice() {
        [seed] => seed.parse::<u64>().ok(),
        _ => None,
    };
    let Some(seed) = seed else {
        eprintln!("usage: generate SEED   (0 to 18446744073709551615)");
        return ExitCode::from(2);
    };
    let sheet = store_tests::generate::sheet(seed);
    eprintln!("seed {seed}: {} bytes", sheet.len());
    match io::stdout().write_all(&sheet) {
        Ok(()) => ExitCode::SUCCESS,
        Err(_) => ExitCode::FAILURE,
    }
}
