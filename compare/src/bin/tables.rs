//! Prints the small files of a folder as computed tables of the crate `model`: `tables DIR`; or those of a command as
//! the entries of one table: `tables DIR why|sweep|order`.

use std::path::Path;
use std::process::ExitCode;

fn main() -> ExitCode {
    let args: Vec<String> = std::env::args().skip(1).collect();
    let tables = match args.as_slice() {
        [folder] => compare::tables::module(Path::new(folder)),
        [folder, word] => compare::tables::entries(Path::new(folder), word),
        _ => {
            eprintln!("usage: tables DIR [why|sweep|order]");
            return ExitCode::FAILURE;
        }
    };
    match tables {
        Ok(tables) => {
            print!("{tables}");
            ExitCode::SUCCESS
        }
        Err(error) => {
            eprintln!("tables: {error}");
            ExitCode::FAILURE
        }
    }
}
