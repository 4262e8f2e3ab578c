//! Compares the proved filter with the independent version on random files, or on the files given; and with each other
//! its answers to the two forms of an accepted file, and to the file and the same file with its record lines
//! rearranged. With the features `why`, `sweep` and `order` the further calls are compared too, and the two engines
//! with each other.
//!
//! `fuzz [--seed N] [--files N] [--from N] [--jobs N] [--save DIR]` makes files from a seed, tries each, and stops at the
//! first difference: the file is made small and saved. `fuzz FILE..` tries these files instead. The status is 0 if nothing
//! differs, 1 if a file does, 2 if the command is wrong.

use std::fs;
use std::io::{self, IsTerminal, Write};
use std::path::PathBuf;
use std::process::ExitCode;
use std::sync::atomic::{AtomicBool, AtomicU64, Ordering};
use std::sync::Mutex;
use std::thread;
use std::time::{Duration, Instant};

use compare::case::Case;
use compare::edges::{self, Edge};
use compare::random::Random;
use compare::{calls as call_edges, filter_file, generate, Command, Outcome};
use fuzz::shrink::shrink;
use fuzz::{calls, try_order, try_sweep, try_why};
use fuzz::{difference, expected, form_difference, sequence_difference, with_lengths, Lender, Lengths};
use wimplejade::Filter;

/// One of so many files is also run by the safe interface.
const BY_INTERFACE: u64 = 16;

/// How often a file is rearranged that is one of a seed, and one that is given or made small.
const REARRANGED: usize = 1;
const ALONE_REARRANGED: usize = 8;

/// Stack of a thread.
const STACK_BYTES: usize = 64 << 20;

struct Options {
    seed: u64,
    files: u64,
    from: u64,
    jobs: u64,
    save: PathBuf,
}

/// A file on which the two differ.
struct Failure {
    name: String,
    file: Vec<u8>,
    lengths: Lengths,
    why: String,
}

fn main() -> ExitCode {
    let mut options = Options { seed: 1, files: 100_000, from: 0, jobs: 1, save: PathBuf::from("fuzz-failures") };
    let mut paths: Vec<PathBuf> = Vec::new();
    let mut args = std::env::args().skip(1);
    while let Some(arg) = args.next() {
        let known = match arg.as_str() {
            "--seed" => number(&mut args, &mut options.seed),
            "--files" => number(&mut args, &mut options.files),
            "--from" => number(&mut args, &mut options.from),
            "--jobs" => number(&mut args, &mut options.jobs) && options.jobs > 0,
            "--save" => args.next().map(|path| options.save = path.into()).is_some(),
            path => {
                paths.push(path.into());
                !path.starts_with('-')
            }
        };
        if !known {
            eprintln!("usage: fuzz [--seed N] [--files N] [--from N] [--jobs N] [--save DIR] | fuzz FILE..");
            return ExitCode::from(2);
        }
    }
    let done = if paths.is_empty() { random_files(&options) } else { given_files(&paths) };
    match done {
        Ok(true) => ExitCode::SUCCESS,
        Ok(false) => ExitCode::FAILURE,
        Err(error) => {
            eprintln!("fuzz: {error}");
            ExitCode::from(2)
        }
    }
}

/// Takes the number that an option asks for.
fn number(args: &mut impl Iterator<Item = String>, value: &mut u64) -> bool {
    let parsed = args.next().and_then(|word| word.replace(['_', ','], "").parse().ok());
    parsed.map(|number| *value = number).is_some()
}

/// Tries the files of a seed. False if one differs.
fn random_files(options: &Options) -> io::Result<bool> {
    let progress = Progress::new(options);
    let failures: Mutex<Vec<Failure>> = Mutex::new(Vec::new());
    let work = &|job: u64| {
        if let Some(failure) = worker(options, job, &progress) {
            progress.stop.store(true, Ordering::Relaxed);
            failures.lock().unwrap().push(failure);
        }
    };
    thread::scope(|scope| {
        let workers: Vec<_> = (0..options.jobs)
            .map(|job| thread::Builder::new().stack_size(STACK_BYTES).spawn_scoped(scope, move || work(job)))
            .collect::<io::Result<_>>()?;
        while !workers.iter().all(|worker| worker.is_finished()) {
            thread::sleep(Duration::from_millis(200));
            progress.show();
        }
        for (job, worker) in workers.into_iter().enumerate() {
            if worker.join().is_err() {
                let index = progress.at[job].load(Ordering::Relaxed);
                let seed = options.seed;
                return Err(io::Error::other(format!(
                    "a panic: try it again by --seed {seed} --from {index} --files 1"
                )));
            }
        }
        Ok(())
    })?;
    progress.finish();
    let failures = failures.into_inner().unwrap();
    let same = failures.is_empty();
    if same {
        println!("no difference");
    }
    for failure in failures {
        save(failure, options)?;
    }
    Ok(same)
}

/// Tries every file of a job until one differs. The first job has the edges of document 01 before the files of the seed.
fn worker(options: &Options, job: u64, progress: &Progress) -> Option<Failure> {
    let mut trial = Trial { lender: Lender::new(options.seed ^ job), filter: Filter::new(), progress };
    if (job, options.from) == (0, 0) {
        for Edge { case, .. } in edges::edges() {
            let lengths = Lengths { works: case.works, room: case.room };
            if let Some(failure) = trial.run(case, |_, _| lengths, true) {
                return Some(failure);
            }
        }
        for Edge { case, .. } in call_edges::edges() {
            if let Some(failure) = trial.run_call(case) {
                return Some(failure);
            }
        }
    }
    for index in (options.from..options.from + options.files).skip(job as usize).step_by(options.jobs as usize) {
        if progress.stop.load(Ordering::Relaxed) {
            return None;
        }
        progress.at[job as usize].store(index, Ordering::Relaxed);
        let mut random = Random::new(!options.seed).after(index);
        let lengths = |case: &Case, kept| Lengths::of(case, kept, &mut random);
        if let Some(failure) = trial.run(generate::case(options.seed, index), lengths, index % BY_INTERFACE == 0) {
            return Some(failure);
        }
    }
    None
}

/// What a job tries files with.
struct Trial<'p> {
    lender: Lender,
    filter: Filter,
    progress: &'p Progress,
}

impl Trial<'_> {
    /// Tries a case with slices of lengths that may depend on how much it keeps, also by the safe interface if asked to.
    fn run(
        &mut self,
        case: Case,
        lengths: impl FnOnce(&Case, usize) -> Lengths,
        by_interface: bool,
    ) -> Option<Failure> {
        let outcome = filter_file(&case.file);
        let lengths = lengths(&case, outcome.lines().len());
        let lent = with_lengths(&outcome, &case.file, lengths);
        let mut why = difference(wimplejade::answer, &mut self.lender, &case.file, lengths, &lent);
        if outcome.number() == 0 {
            why = why.or_else(|| form_difference(wimplejade::answer, &mut self.lender, &case.file));
            why = why.or_else(|| sequence_difference(wimplejade::answer, &mut self.lender, &case.file, REARRANGED));
        }
        if by_interface {
            why = why.or_else(|| interface_difference(&mut self.filter, &case.file, &outcome));
        }
        why = why.or_else(|| further_difference(&mut self.lender, &case.file, false));
        self.progress.count(&lent, case.file.starts_with(b"ask2,"));
        let why = why?;
        Some(Failure { name: case.name, file: case.file, lengths, why })
    }
}

impl Trial<'_> {
    /// Tries a case of a further call, with the lengths that it has.
    fn run_call(&mut self, case: Case) -> Option<Failure> {
        let lengths = Lengths { works: case.works, room: case.room };
        let (lender, file) = (&mut self.lender, &case.file);
        let why = match case.call {
            Command::Why(position) => {
                calls::WHY.and_then(|call| fuzz::why_difference(call, lender, file, position, lengths))
            }
            Command::Sweep => calls::SWEEP.and_then(|call| fuzz::sweep_difference(call, lender, file, lengths)),
            Command::Order => calls::ORDER.and_then(|call| fuzz::order_difference(call, lender, file, lengths)),
            Command::List => None,
        };
        why.map(|why| Failure { name: case.name, file: case.file, lengths, why })
    }
}

/// How the further calls that are there differ on a file, if they do; as a whole with all lengths and positions.
fn further_difference(lender: &mut Lender, file: &[u8], whole: bool) -> Option<String> {
    calls::WHY
        .and_then(|call| try_why(call, lender, file, whole))
        .or_else(|| calls::SWEEP.and_then(|call| try_sweep(wimplejade::answer, call, lender, file, whole)))
        .or_else(|| calls::ORDER.and_then(|call| try_order(call, lender, file, whole)))
}

/// How the safe interface differs, if it does.
fn interface_difference(filter: &mut Filter, file: &[u8], outcome: &Outcome) -> Option<String> {
    let printed = match filter.run(file) {
        Ok(kept) => kept.to_string(),
        Err(refusal) => format!("refused,{},{}\n", refusal.number(), refusal.place()),
    };
    (printed != outcome.to_string()).then(|| format!("Filter::run prints\n{printed}the independent version\n{outcome}"))
}

/// How the two differ on a file with these lengths, if they do.
fn differ(file: &[u8], lengths: Lengths) -> Option<String> {
    let (mut lender, mut filter) = (Lender::new(0), Filter::new());
    difference(wimplejade::answer, &mut lender, file, lengths, &expected(file, lengths))
        .or_else(|| form_difference(wimplejade::answer, &mut lender, file))
        .or_else(|| sequence_difference(wimplejade::answer, &mut lender, file, ALONE_REARRANGED))
        .or_else(|| interface_difference(&mut filter, file, &filter_file(file)))
        .or_else(|| further_difference(&mut lender, file, true))
}

/// Makes a failing file small, saves it and says how to try it again.
fn save(failure: Failure, options: &Options) -> io::Result<()> {
    let Failure { name, file, lengths, why } = failure;
    eprintln!("{name}: {why}");
    let small = shrink(&file, |file| differ(file, lengths).is_some());
    fs::create_dir_all(&options.save)?;
    let path = options.save.join(format!("{name}.in"));
    fs::write(&path, &small)?;
    eprintln!("{} of {} bytes saved in {}", small.len(), file.len(), path.display());
    eprintln!("slices lent: {lengths:?}");
    if let Some(why) = differ(&small, lengths) {
        eprintln!("there {why}");
    }
    Ok(())
}

/// Tries files with slices of several lengths. False if one differs.
fn given_files(paths: &[PathBuf]) -> io::Result<bool> {
    let mut same = true;
    for path in paths {
        let file = fs::read(path)?;
        let why = given_differences(&file);
        same &= why.is_none();
        println!("{}: {}", path.display(), why.as_deref().unwrap_or("the same"));
    }
    Ok(same)
}

fn given_differences(file: &[u8]) -> Option<String> {
    let case = Case::new("", file.to_vec());
    let kept = filter_file(file).lines().len();
    let mut random = Random::new(1);
    (0..20).find_map(|_| differ(file, Lengths::of(&case, kept, &mut random)))
}

/// What was tried so far.
struct Progress {
    seed: u64,
    /// How many files there are, the edges among them.
    files: u64,
    started: Instant,
    /// How often each answer was given: 0 is lists, 1 to 13 the refusals.
    answers: [AtomicU64; 14],
    /// How many accepted files are of the newer form.
    newer: AtomicU64,
    /// The lists of all files, and the most of one file.
    lists: AtomicU64,
    most_lists: AtomicU64,
    most_rounds: AtomicU64,
    most_kept: AtomicU64,
    /// The file that each job is at.
    at: Vec<AtomicU64>,
    stop: AtomicBool,
    terminal: bool,
    shown: Mutex<Instant>,
}

/// How often the progress is shown where it cannot be written over.
const SELDOM: Duration = Duration::from_secs(60);

impl Progress {
    fn new(options: &Options) -> Self {
        Progress {
            seed: options.seed,
            files: options.files + if options.from == 0 { edges::edges().len() as u64 } else { 0 },
            started: Instant::now(),
            answers: Default::default(),
            newer: AtomicU64::new(0),
            lists: AtomicU64::new(0),
            most_lists: AtomicU64::new(0),
            most_rounds: AtomicU64::new(0),
            most_kept: AtomicU64::new(0),
            at: (0..options.jobs).map(|_| AtomicU64::new(options.from)).collect(),
            stop: AtomicBool::new(false),
            terminal: io::stderr().is_terminal(),
            shown: Mutex::new(Instant::now()),
        }
    }

    fn count(&self, outcome: &Outcome, is_newer: bool) {
        let accepted = outcome.number() == 0;
        self.newer.fetch_add(u64::from(is_newer && accepted), Ordering::Relaxed);
        for list in outcome.lists() {
            self.most_rounds.fetch_max(u64::from(list.rounds), Ordering::Relaxed);
            self.most_kept.fetch_max(list.lines.len() as u64, Ordering::Relaxed);
        }
        let lists = outcome.lists().len() as u64;
        self.lists.fetch_add(lists, Ordering::Relaxed);
        self.most_lists.fetch_max(lists, Ordering::Relaxed);
        self.answers[outcome.number() as usize].fetch_add(1, Ordering::Relaxed);
    }

    fn done(&self) -> u64 {
        self.answers.iter().map(|count| count.load(Ordering::Relaxed)).sum()
    }

    fn line(&self) -> String {
        let (done, seconds) = (self.done(), self.started.elapsed().as_secs_f64());
        format!("seed {}: {done} of {} files, {:.0} a second", self.seed, self.files, done as f64 / seconds)
    }

    /// The progress line: over and over on a terminal, else now and then.
    fn show(&self) {
        let mut shown = self.shown.lock().unwrap();
        if self.terminal {
            eprint!("\r{}   ", self.line());
            let _ = io::stderr().flush();
        } else if shown.elapsed() > SELDOM {
            *shown = Instant::now();
            eprintln!("{}", self.line());
        }
    }

    /// What was tried, by answer.
    fn finish(&self) {
        if self.terminal {
            eprintln!();
        }
        println!("{}", self.line());
        let count = |number: usize| self.answers[number].load(Ordering::Relaxed);
        let refused: Vec<String> =
            (1..self.answers.len()).map(|number| format!("{number}: {}", count(number))).collect();
        let newer = self.newer.load(Ordering::Relaxed);
        println!("accepted: {}, of the newer form {newer}; refused: {}", count(0), refused.join(", "));
        let further =
            [("why", calls::WHY.is_some()), ("sweep", calls::SWEEP.is_some()), ("order", calls::ORDER.is_some())];
        let further: Vec<&str> = further.into_iter().filter(|(_, is_there)| *is_there).map(|(name, _)| name).collect();
        if !further.is_empty() {
            println!("further calls: {}", further.join(", "));
        }
        println!(
            "lists {}; of a file at most {}; of a list most rounds {}, most kept {}",
            self.lists.load(Ordering::Relaxed),
            self.most_lists.load(Ordering::Relaxed),
            self.most_rounds.load(Ordering::Relaxed),
            self.most_kept.load(Ordering::Relaxed)
        );
    }
}
