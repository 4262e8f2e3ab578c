//! Times the proved filter beside the independent version, file by file, in one run.
//!
//! `bench [--real DIR] [--document FILE] [--picture FILE] [--quick]` prints a table: over files that look like what F*
//! exports, over every `.in` of a folder of real queries, and over ugly ones; with the features `why`, `sweep` and `order`
//! these calls too, over files of their own. `--document` also puts it into a document,
//! between the lines `<!-- table -->` and `<!-- end of table -->`; `--picture` draws time against file size for both.
//! `--quick` measures shortly, to see that all works. `--worst SEED SECONDS FILE` looks for the file on which the library takes
//! longest instead, and writes it. Where valgrind is there, the instructions inside each call are
//! counted as well: they do not depend on the load of the machine.

#[path = "../../fuzz/src/calls.rs"]
mod calls;
mod date;
mod files;
mod instructions;
mod picture;
mod sides;
mod table;
mod timing;
mod worst;

use std::fs;
use std::io;
use std::path::{Path, PathBuf};
use std::process::ExitCode;
use std::time::Duration;

use compare::export::export;
use compare::Command;
use files::Sample;
use table::Row;
use timing::Times;

/// The sizes of the files of the picture.
const PICTURE_BYTES: [usize; 10] = [2_000, 4_000, 8_000, 16_000, 24_000, 32_000, 40_000, 48_000, 56_000, 65_535];

#[derive(Default)]
struct Options {
    real: Option<PathBuf>,
    document: Option<PathBuf>,
    picture: Option<PathBuf>,
    quick: bool,
}

fn main() -> ExitCode {
    let args: Vec<String> = std::env::args().skip(1).collect();
    if let [flag, side, path] = args.as_slice() {
        if flag == instructions::ONCE {
            return done(instructions::run_once(side, Path::new(path)));
        }
    }
    if let [flag, seed, seconds, path] = args.as_slice() {
        if let ("--worst", Ok(seed), Ok(seconds)) = (flag.as_str(), seed.parse(), seconds.parse()) {
            return done(worst(seed, Duration::from_secs(seconds), Path::new(path)));
        }
    }
    let mut options = Options::default();
    let mut args = args.into_iter();
    while let Some(arg) = args.next() {
        match arg.as_str() {
            "--real" => options.real = args.next().map(PathBuf::from),
            "--document" => options.document = args.next().map(PathBuf::from),
            "--picture" => options.picture = args.next().map(PathBuf::from),
            "--quick" => options.quick = true,
            _ => {
                eprintln!("usage: bench [--real DIR] [--document FILE] [--picture FILE] [--quick] | bench --worst SEED SECONDS FILE");
                return ExitCode::from(2);
            }
        }
    }
    done(run(&options))
}

fn done(result: io::Result<()>) -> ExitCode {
    match result {
        Ok(()) => ExitCode::SUCCESS,
        Err(error) => {
            eprintln!("bench: {error}");
            ExitCode::FAILURE
        }
    }
}

fn run(options: &Options) -> io::Result<()> {
    let mut samples = files::exports();
    if let Some(folder) = &options.real {
        samples.extend(files::real(folder)?);
    }
    samples.extend(files::ugly());
    samples.extend(files::further());

    let counting = instructions::valgrind();
    if !counting {
        eprintln!("valgrind is not there: no instructions are counted");
    }
    let mut rows = Vec::new();
    for sample in &samples {
        eprintln!("{}", sample.name);
        rows.push(row(sample, options.quick, counting)?);
    }
    let table = format!("{}\n\n{}", conditions(), table::markdown(&rows));
    println!("{table}");
    if let Some(times) = instructions_for(&rows, files::SIXTEEN_ASKS, files::ONE_ASK) {
        println!("sixteen asks: {times:.2} times the instructions of one ask; wanted are at most {WANTED_FOR_SIXTEEN}");
    }
    if let Some(times) = instructions_for(&rows, files::FIFTEEN_ALSO, files::SIXTEEN_ASKS) {
        println!("one ask and fifteen also lines: {times:.2} times the instructions of sixteen asks");
    }
    if let Some(times) = instructions_for(&rows, files::SIXTEEN_HALVES, files::SIXTEEN_ASKS) {
        println!("sixteen asks of half of the groups each: {times:.2} times the instructions of sixteen asks");
    }

    if let Some(path) = &options.document {
        let text = fs::read_to_string(path)?;
        let text = table::put(&text, &table)
            .ok_or_else(|| io::Error::other(format!("{} has no place for the table", path.display())))?;
        fs::write(path, text)?;
    }
    if let Some(path) = &options.picture {
        let points: Vec<(usize, Times)> = PICTURE_BYTES
            .iter()
            .map(|&bytes| {
                eprintln!("a file of {bytes} bytes");
                let file = export(files::EXPORT_SEED, bytes);
                (file.len(), timing::time(Command::List, &file, options.quick))
            })
            .collect();
        fs::write(path, picture::draw(&points))?;
    }
    Ok(())
}

/// The most instructions that sixteen asks over the longest file may take, as so many times those of one.
const WANTED_FOR_SIXTEEN: f64 = 2.5;

/// How many times the library's instructions of another file it takes for a file.
fn instructions_for(rows: &[Row], file: &str, other: &str) -> Option<f64> {
    let library = |name: &str| Some(rows.iter().find(|row| row.name == name)?.instructions?.library as f64);
    Some(library(file)? / library(other)?)
}

/// Looks for the worst file, writes it, and says what it takes.
fn worst(seed: u64, within: Duration, path: &Path) -> io::Result<()> {
    let (shape, file) = worst::search(seed, within);
    fs::write(path, &file)?;
    let answer =
        sides::same_answer(Command::List, &file).ok_or_else(|| io::Error::other("the two differ on this file"))?;
    println!("{shape:?}: {} bytes, {answer}, {:.1} µs", file.len(), timing::time(Command::List, &file, true).library);
    if instructions::valgrind() {
        println!("{} instructions", instructions::count(Command::List, &file)?.library);
    }
    Ok(())
}

fn row(sample: &Sample, quick: bool, counting: bool) -> io::Result<Row> {
    let answer = sides::same_answer(sample.call, &sample.file)
        .ok_or_else(|| io::Error::other(format!("the two differ on {}", sample.name)))?;
    Ok(Row {
        name: sample.name.clone(),
        sort: sample.sort,
        bytes: sample.file.len(),
        answer,
        times: timing::time(sample.call, &sample.file, quick),
        instructions: if counting { Some(instructions::count(sample.call, &sample.file)?) } else { None },
    })
}

/// When and where the table was made.
fn conditions() -> String {
    let processor = fs::read_to_string("/proc/cpuinfo").ok().and_then(|text| {
        let line = text.lines().find(|line| line.starts_with("model name"))?;
        Some(line.split_once(':')?.1.trim().to_owned())
    });
    format!("{}, {}.", date::today(), processor.as_deref().unwrap_or("processor not known"))
}
