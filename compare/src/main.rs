//! Prints what `factfilter` prints, for standard input or for each file given. Before the files may stand a command, `why
//! POSITION`, `sweep` or `order`; or `--summaries`, for the summary of each fact instead.

use std::io::{self, Read, Write};
use std::process::ExitCode;

use compare::Command;

fn main() -> ExitCode {
    let args: Vec<String> = std::env::args().skip(1).collect();
    let words: Vec<&str> = args.iter().map(String::as_str).collect();
    let (command, paths) = match words.as_slice() {
        ["--summaries", paths @ ..] => (None, paths),
        ["why", paths @ ..] if paths.is_empty() => (Some("why".to_owned()), paths),
        ["why", position, paths @ ..] => (Some(format!("why {position}")), paths),
        [word @ ("list" | "sweep" | "order"), paths @ ..] => (Some((*word).to_owned()), paths),
        paths => (Some(String::new()), paths),
    };
    let command: Option<Command> = match command.map(|text| text.parse()).transpose() {
        Ok(command) => command,
        Err(error) => {
            eprintln!("{error}");
            eprintln!("usage: compare [why POSITION | sweep | order | --summaries] [FILE..]");
            return ExitCode::from(2);
        }
    };
    let answer = |file: &[u8]| command.map_or_else(|| summaries(file), |command| command.printed(file));
    match run(answer, paths) {
        Ok(()) => ExitCode::SUCCESS,
        Err(error) => {
            eprintln!("compare: {error}");
            ExitCode::FAILURE
        }
    }
}

fn run(answer: impl Fn(&[u8]) -> String, paths: &[&str]) -> io::Result<()> {
    let mut out = io::stdout().lock();
    if paths.is_empty() {
        let mut file = Vec::new();
        io::stdin().lock().read_to_end(&mut file)?;
        out.write_all(answer(&file).as_bytes())?;
    }
    for path in paths {
        out.write_all(answer(&std::fs::read(path)?).as_bytes())?;
    }
    Ok(())
}

fn summaries(file: &[u8]) -> String {
    match compare::summaries(file) {
        Ok(summaries) => summaries.iter().map(ToString::to_string).collect(),
        Err(refusal) => compare::Outcome::from(refusal).to_string(),
    }
}
