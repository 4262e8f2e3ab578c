//! Writes random cases.
//!
//! `generate SEED COUNT DIR` writes each file and its answer, with slices that are long enough, as `NAME.in` and
//! `NAME.out`. `generate SEED COUNT --stream` writes the container of cases to standard output, and
//! `generate SEED COUNT --answers` what the program `test_cases` prints for it; with `--by-line` at the end, definitions and
//! declarations come by line.

use std::io::{self, Write};
use std::path::Path;
use std::process::ExitCode;

use compare::case::Case;
use compare::{filter_file, generate, Order};

fn main() -> ExitCode {
    let args: Vec<String> = std::env::args().skip(1).collect();
    let [seed, count, target, rest @ ..] = args.as_slice() else {
        return usage();
    };
    let (Ok(seed), Ok(count)) = (seed.parse(), count.parse()) else {
        return usage();
    };
    let order = match rest {
        [] => Order::Source,
        [flag] if flag == "--by-line" => Order::Line,
        _ => return usage(),
    };
    match write(generate::cases(seed, count), target, order) {
        Ok(()) => ExitCode::SUCCESS,
        Err(error) => {
            eprintln!("generate: {error}");
            ExitCode::FAILURE
        }
    }
}

fn usage() -> ExitCode {
    eprintln!("usage: generate SEED COUNT DIR|--stream|--answers [--by-line]");
    ExitCode::FAILURE
}

fn write(cases: impl Iterator<Item = Case>, target: &str, order: Order) -> io::Result<()> {
    let mut out = io::BufWriter::new(io::stdout().lock());
    for case in cases {
        match target {
            "--stream" => case.write(&mut out)?,
            "--answers" => out.write_all(case.answer(order).as_bytes())?,
            folder => {
                let path = Path::new(folder).join(&case.name);
                std::fs::write(path.with_extension("in"), &case.file)?;
                std::fs::write(path.with_extension("out"), filter_file(&case.file).to_string())?;
            }
        }
    }
    out.flush()
}
