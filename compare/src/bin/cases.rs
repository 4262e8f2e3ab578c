//! The container of cases for the program `test_cases`.
//!
//! `cases build DIR OUT_STDIN OUT_STDOUT` builds the container from every `.in` of a folder that has no command, from
//! probes of these files and from the edges of document 01, and beside it what the program prints. With calls at the
//! end, `why`, `sweep` or `order`, it has the cases of these instead: the files of the folder whose command it is, the
//! edges of the call, and the small files without a command once more. `cases answer` reads a container from standard
//! input and prints the same.
//!
//! With `--by-line` at the end, definitions and declarations come by line; with `--numbers`, a row has its three
//! numbers alone.

use std::collections::HashSet;
use std::fs;
use std::io::{self, Read, Write};
use std::path::Path;
use std::process::ExitCode;

use compare::case::{self, Case};
use compare::{calls, edges, tables, Command, Order};

/// The most bytes of a file without a command that a call is tried on as well, and the most positions at which reasons are.
const SMALL: usize = 600;
const MOST_POSITIONS: usize = 3;

/// How answers are printed.
#[derive(Clone, Copy)]
struct Style {
    order: Order,
    numbers: bool,
}

impl Style {
    fn answer(self, case: &Case) -> String {
        if self.numbers {
            case.answer_in_numbers(self.order)
        } else {
            case.answer(self.order)
        }
    }
}

fn main() -> ExitCode {
    let mut args: Vec<String> = std::env::args().skip(1).collect();
    let mut style = Style { order: Order::Source, numbers: false };
    while let Some(flag) = args.pop_if(|flag| flag.starts_with("--")) {
        match flag.as_str() {
            "--by-line" => style.order = Order::Line,
            "--numbers" => style.numbers = true,
            _ => return usage(),
        }
    }
    let args: Vec<&str> = args.iter().map(String::as_str).collect();
    let done = match args.as_slice() {
        ["build", folder, input, output, calls @ ..] if calls.iter().all(|call| CALLS.contains(call)) => {
            build(Path::new(folder), input, output, calls, style)
        }
        ["answer"] => answer(style),
        _ => return usage(),
    };
    match done {
        Ok(()) => ExitCode::SUCCESS,
        Err(error) => {
            eprintln!("cases: {error}");
            ExitCode::FAILURE
        }
    }
}

/// The calls that have containers of their own.
const CALLS: [&str; 3] = ["why", "sweep", "order"];

fn usage() -> ExitCode {
    eprintln!("usage: cases build DIR OUT_STDIN OUT_STDOUT [why] [sweep] [order] [--by-line] [--numbers]");
    eprintln!("       cases answer [--by-line] [--numbers]");
    ExitCode::FAILURE
}

fn build(folder: &Path, input: &str, output: &str, calls: &[&str], style: Style) -> io::Result<()> {
    let files = files(folder)?;
    let mut cases = Vec::new();
    if calls.is_empty() {
        cases.extend(files.iter().filter(|file| file.command.is_none()).map(|file| file.case(Command::List)));
        let probes: Vec<Case> = cases.iter().flat_map(case::probes).collect();
        cases.extend(probes);
        cases.extend(edges::edges().into_iter().map(|edge| edge.case));
    }
    for call in calls {
        cases.extend(of_call(&files, call));
    }

    let mut names = HashSet::new();
    if let Some(case) = cases.iter().find(|case| !names.insert(&case.name)) {
        return Err(io::Error::other(format!("two cases have the name {}", case.name)));
    }
    let (mut stdin, mut stdout) = (Vec::new(), String::new());
    for case in &cases {
        case.write(&mut stdin)?;
        stdout.push_str(&style.answer(case));
    }
    fs::write(input, &stdin)?;
    fs::write(output, &stdout)?;
    println!("{} cases, {} bytes in, {} bytes out", cases.len(), stdin.len(), stdout.len());
    Ok(())
}

/// The cases of a call: the files whose command it is, its edges, and the small files without a command.
fn of_call(files: &[File], call: &str) -> Vec<Case> {
    let own = files.iter().filter_map(|file| file.command.map(|command| file.case(command)));
    let edges = calls::edges().into_iter().map(|edge| edge.case);
    let mut cases: Vec<Case> = own.chain(edges).filter(|case| case.call.word() == call).collect();
    for file in files.iter().filter(|file| file.command.is_none() && file.bytes.len() <= SMALL) {
        let mut again = |command: Command, name: String| cases.push(Case { name, ..file.case(command) });
        match call {
            "why" => {
                let positions = compare::reasons(&file.bytes).map_or(1, |reasons| reasons.len().min(MOST_POSITIONS));
                (1..=positions).for_each(|at| again(Command::Why(at), format!("why-at-{at}-{}", file.name)));
            }
            "sweep" => again(Command::Sweep, format!("sweep-of-{}", file.name)),
            _ => again(Command::Order, format!("order-of-{}", file.name)),
        }
    }
    cases
}

/// An `.in` of a folder.
struct File {
    name: String,
    command: Option<Command>,
    bytes: Vec<u8>,
}

impl File {
    /// A case of the file, with slices that are long enough.
    fn case(&self, command: Command) -> Case {
        Case::of(command, self.name.clone(), self.bytes.clone())
    }
}

/// Every `.in` of a folder by name.
fn files(folder: &Path) -> io::Result<Vec<File>> {
    let mut files = Vec::new();
    for entry in fs::read_dir(folder)? {
        let path = entry?.path();
        if let (Some(name), Some("in")) =
            (path.file_stem().and_then(|stem| stem.to_str()), path.extension().and_then(|extension| extension.to_str()))
        {
            files.push(File { name: name.to_owned(), command: tables::command(&path)?, bytes: fs::read(&path)? });
        }
    }
    files.sort_by(|left, right| left.name.cmp(&right.name));
    Ok(files)
}

fn answer(style: Style) -> io::Result<()> {
    let mut bytes = Vec::new();
    io::stdin().lock().read_to_end(&mut bytes)?;
    let cases = case::read_all(&bytes).ok_or_else(|| io::Error::other("standard input is no container of cases"))?;
    let mut out = io::BufWriter::new(io::stdout().lock());
    for case in cases {
        out.write_all(style.answer(&case).as_bytes())?;
    }
    out.flush()
}
