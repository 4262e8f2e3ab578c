//! Prints what a file keeps, or standard input, for each ask and also line as `factfilter` does: `kept [FILE]`.
//!
//! A refusal is also said in words on standard error, and ends the program with status 1.

use std::io::{self, Read};
use std::process::ExitCode;

use wimplejade::Filter;

fn main() -> io::Result<ExitCode> {
    let mut file = Vec::new();
    match std::env::args_os().nth(1) {
        Some(path) => file = std::fs::read(path)?,
        None => {
            io::stdin().read_to_end(&mut file)?;
        }
    }
    match Filter::new().run(&file) {
        Ok(kept) => {
            print!("{kept}");
            Ok(ExitCode::SUCCESS)
        }
        Err(refusal) => {
            println!("refused,{},{}", refusal.number(), refusal.place());
            eprintln!("{refusal}");
            Ok(ExitCode::FAILURE)
        }
    }
}
