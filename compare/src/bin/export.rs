//! Writes a file that looks like what F* exports: `export SEED BYTES > FILE`.

use std::io::{self, Write};
use std::process::ExitCode;

use compare::export::export;

fn main() -> ExitCode {
    let numbers: Vec<u64> = std::env::args().skip(1).filter_map(|word| word.parse().ok()).collect();
    let [seed, bytes @ 2_000..=65_535] = numbers[..] else {
        eprintln!("usage: export SEED BYTES, with 2000 to 65535 bytes");
        return ExitCode::FAILURE;
    };
    match io::stdout().write_all(&export(seed, bytes as usize)) {
        Ok(()) => ExitCode::SUCCESS,
        Err(error) => {
            eprintln!("export: {error}");
            ExitCode::FAILURE
        }
    }
}
