//! The files that are timed.

use std::fs;
use std::io;
use std::path::Path;

use compare::export::export;
use compare::text::Text;
use compare::{calls as call_files, filter_file, forms, limits, Command};

use crate::sides;

/// Where a file comes from.
#[derive(Clone, Copy, PartialEq, Eq)]
pub enum Sort {
    Export,
    Real,
    Ugly,
    Further,
}

/// A file that is timed.
pub struct Sample {
    pub name: String,
    pub sort: Sort,
    pub call: Command,
    pub file: Vec<u8>,
}

impl Sample {
    /// A file of the first call.
    fn new(name: impl Into<String>, sort: Sort, file: Vec<u8>) -> Self {
        Sample { name: name.into(), sort, call: Command::List, file }
    }
}

/// The seed of the files that look like exports.
pub const EXPORT_SEED: u64 = 1;

/// The longest file that looks like an export, with one ask line, with as many as there may be, with one and as many also lines
/// as there may be, and with as many ask lines of the newer form as there may be.
pub const ONE_ASK: &str = "export-like, 65 KB";
pub const SIXTEEN_ASKS: &str = "export-like, 65 KB, sixteen asks";
pub const FIFTEEN_ALSO: &str = "export-like, 65 KB, one ask and fifteen also lines";
pub const SIXTEEN_HALVES: &str = "export-like, 65 KB, sixteen asks of half of the groups each";

/// Files that look like what F* exports.
pub fn exports() -> Vec<Sample> {
    let files: [(&str, Vec<u8>); 6] = [
        ("export-like, 2 KB", export(EXPORT_SEED, 2_000)),
        ("export-like, 16 KB", export(EXPORT_SEED, 16_000)),
        (ONE_ASK, export(EXPORT_SEED, limits::BYTES)),
        (SIXTEEN_ASKS, sixteen_asks()),
        (FIFTEEN_ALSO, fifteen_also()),
        (SIXTEEN_HALVES, sixteen_halves()),
    ];
    files.map(|(name, file)| Sample::new(name, Sort::Export, file)).into()
}

/// The longest file that looks like an export with its ask line sixteen times. Declarations that it does not keep give way
/// to these lines: so it fits the limit, and every list is that of the file with one ask line.
fn sixteen_asks() -> Vec<u8> {
    let file = export(EXPORT_SEED, limits::BYTES);
    let ask = file.split_inclusive(|&byte| byte == b'\n').next().unwrap_or_default();
    let more = ask.repeat(limits::ASKS - 1);
    [&more, &with_room(&file, more.len())[..]].concat()
}

/// A file with one ask line, without as many of the declarations that it does not keep as it takes to have room for so many
/// bytes more.
fn with_room(file: &[u8], bytes: usize) -> Vec<u8> {
    let kept = filter_file(file).lines();
    let mut lines: Vec<&[u8]> = file.split_inclusive(|&byte| byte == b'\n').collect();
    let mut left_over = (file.len() + bytes).saturating_sub(limits::BYTES);
    for index in (0..lines.len()).rev() {
        if left_over > 0 && lines[index].starts_with(b"fun,") && !kept.contains(&(index as u32 + 1)) {
            left_over = left_over.saturating_sub(lines.remove(index).len());
        }
    }
    lines.concat()
}

/// The longest file that looks like an export in the newer form: its facts are of the sixteen groups in turn, and sixteen ask
/// lines of its query admit eight groups each, other ones each. Declarations that it does not keep give way to what the form
/// has more.
fn sixteen_halves() -> Vec<u8> {
    let file = export(EXPORT_SEED, limits::BYTES);
    let in_newer = |file: &[u8]| {
        let ask = file.split_inclusive(|&byte| byte == b'\n').next().unwrap_or_default();
        let (mut halves, mut groups) = (0.., (0..=limits::GROUP).cycle());
        let half = || u32::from(0x00ff_u16.rotate_left(halves.next().unwrap_or_default()));
        let group = || groups.next().unwrap_or_default();
        forms::newer(&[&ask.repeat(limits::ASKS - 1), file].concat(), half, group)
    };
    let more = in_newer(&file).len() - file.len();
    in_newer(&with_room(&file, more))
}

/// The file of sixteen asks with an also line of the same query in place of each ask line but the first: so the one run is
/// that of the ask line, and every list is as long as the first.
fn fifteen_also() -> Vec<u8> {
    let file = sixteen_asks();
    let lines: Vec<&[u8]> = file.split_inclusive(|&byte| byte == b'\n').collect();
    let query = lines[0].split(|&byte| byte == b',').nth(1).unwrap_or_default();
    let also = [b"also,", query, b"\n"].concat();
    [lines[0], &also.repeat(limits::ASKS - 1), &lines[limits::ASKS..].concat()].concat()
}

/// Every `.in` of a folder, by name.
pub fn real(folder: &Path) -> io::Result<Vec<Sample>> {
    let mut samples = Vec::new();
    for entry in fs::read_dir(folder)? {
        let path = entry?.path();
        if path.extension().is_some_and(|extension| extension == "in") {
            let name = path.file_stem().unwrap_or_default().to_string_lossy().into_owned();
            samples.push(Sample::new(name, Sort::Real, fs::read(&path)?));
        }
    }
    samples.sort_by(|left, right| left.name.cmp(&right.name));
    Ok(samples)
}

/// Files that ask for much work.
pub fn ugly() -> Vec<Sample> {
    let files: [(&str, Vec<u8>); 11] = [
        ("a chain of 4,096 terms walked 4,095 times", most_walks()),
        ("a deep chain named by a thousand records", deep_chain()),
        ("a wide term named by a thousand records", wide_term()),
        ("an `and` of references to a run of labels", labels()),
        ("1,024 rounds", rounds()),
        ("1,023 bodies followed", bodies()),
        ("names in descending order", descending()),
        ("names that share 250 bytes", long_names()),
        ("thousands of empty groups", empty_groups()),
        ("refused at the last line", refused_last()),
        ("no file at all", Vec::new()),
    ];
    files.map(|(name, file)| Sample::new(name, Sort::Ugly, file)).into()
}

/// Files for the further calls that the library has: the longest that looks like an export, and those with the most rows or
/// passes.
pub fn further() -> Vec<Sample> {
    let files: [(Command, &str, Vec<u8>); 9] = [
        (sides::WHY, ONE_ASK, export(EXPORT_SEED, limits::BYTES)),
        (sides::WHY, "2,048 rows, in 1,024 rounds", call_files::most_reasons()),
        (sides::WHY, "2,048 rows, in one round", call_files::most_reasons_of_a_round()),
        (Command::Sweep, ONE_ASK, export(EXPORT_SEED, limits::BYTES)),
        (Command::Sweep, SIXTEEN_ASKS, sixteen_asks()),
        (Command::Sweep, "1,024 passes", call_files::most_passes(1)),
        (Command::Sweep, "1,024 passes for each of sixteen asks", call_files::most_passes(limits::ASKS)),
        (Command::Order, ONE_ASK, export(EXPORT_SEED, limits::BYTES)),
        (Command::Order, "6,144 rows", call_files::most_needs()),
    ];
    let there = files.into_iter().filter(|(call, _, _)| sides::is_there(*call));
    let sample = |(call, name, file): (Command, &str, Vec<u8>)| Sample {
        name: format!("{}: {name}", call.word()),
        sort: Sort::Further,
        call,
        file,
    };
    there.map(sample).collect()
}

/// The most work that was found: a chain of nearly as many terms as there may be, walked three times for each fact but the
/// last, which the third rule asks whether its one set is empty, and a thousand times for the last, of as many groups as
/// there are trigger entries left.
fn most_walks() -> Vec<u8> {
    let mut text = Text::ask(0, 4);
    let bottom = text.free("p");
    let mut last = bottom;
    while text.terms() < limits::TERMS - 5 {
        last = text.bind(last, &[]);
    }
    let wide = text.bind(last, &vec![bottom; 2_000]);
    let payload = text.all(wide, &[vec![wide]]);
    let squash = text.call("Prims.squash", &[bottom, payload]);
    let typed = text.call("HasType", &[bottom, squash]);
    let facts = limits::RECORDS - 1;
    let grouped = text.all(wide, &vec![vec![wide]; limits::ENTRIES - facts]);
    for index in 0..facts {
        text.assume(format!("{index:x}"), 0, typed);
    }
    text.assume("last", 0, grouped);
    text.finish()
}

/// Each term names the one before twice, and each record the last.
fn deep_chain() -> Vec<u8> {
    let mut text = Text::ask(0, 4);
    let mut last = text.free("p");
    for _ in 0..2_300 {
        last = text.call("f", &[last, last]);
    }
    for index in 0..500 {
        text.assume(format!("a{index}"), 0, last);
        text.root(0, "r", last);
    }
    text.finish()
}

/// A term that names another 16,000 times, and each record names it.
fn wide_term() -> Vec<u8> {
    let mut text = Text::ask(0, 4);
    let part = text.free("p");
    let wide = text.op("and", &vec![part; 16_000]);
    for index in 0..1_000 {
        text.assume(format!("a{index}"), 0, wide);
    }
    text.root(0, "r", part);
    text.finish()
}

/// Each part comes down to an `all` of no group through 2,000 labels, asked by many facts.
fn labels() -> Vec<u8> {
    let mut text = Text::ask(0, 0);
    let body = text.free("p");
    let mut inner = text.all(body, &[]);
    for _ in 0..2_000 {
        inner = text.label(inner);
    }
    let conjunction = text.op("and", &vec![inner; 5_000]);
    for index in 0..800 {
        text.assume(format!("a{index}"), 0, conjunction);
    }
    text.root(0, "r", conjunction);
    text.finish()
}

/// Each fact brings the next.
fn rounds() -> Vec<u8> {
    let mut text = Text::ask(0, 0);
    let mut term = text.free("p0");
    text.root(0, "p0", term);
    for index in 1..1_024 {
        let next = text.free(format!("p{index}"));
        let fact = text.all(next, &[vec![term]]);
        text.assume(format!("a{}", 1_024 - index), 0, fact);
        term = next;
    }
    text.finish()
}

/// Each definition has the one above in its body, and the goal has the last.
fn bodies() -> Vec<u8> {
    let mut text = Text::ask(0, 12);
    let goal = text.free("d1022");
    text.root(0, "r", goal);
    text.leaf();
    text.def("d0", goal + 1);
    for index in 1..limits::RECORDS - 1 {
        let next = text.free(format!("d{}", index - 1));
        text.def(format!("d{index}"), next);
    }
    text.finish()
}

/// Each name comes before all that were spelled.
fn descending() -> Vec<u8> {
    let mut text = Text::ask(0, 0);
    for index in (0..2_048).rev() {
        text.free(format!("Head.Strobe.n{index:04}"));
    }
    text.finish()
}

/// Names that differ only behind their 250th byte, spelled twice.
fn long_names() -> Vec<u8> {
    let mut text = Text::ask(0, 0);
    let start = "n".repeat(250);
    for index in 0..240 {
        text.free(format!("{start}{:05}", index % 120));
    }
    text.finish()
}

/// An `all` and a `some` of groups that name nothing.
fn empty_groups() -> Vec<u8> {
    let mut text = Text::ask(0, 0);
    let body = text.free("p");
    let some = text.some(body, &vec![Vec::new(); 25_000]);
    let all = text.all(some, &vec![Vec::new(); 2_000]);
    text.assume("a", 0, all);
    text.root(0, "r", all);
    text.finish()
}

/// A long file whose last line has no newline.
fn refused_last() -> Vec<u8> {
    let mut file = export(EXPORT_SEED, 65_000);
    file.pop();
    file
}

#[cfg(test)]
mod tests {
    use super::*;
    use compare::Outcome;

    #[test]
    fn ugly_files_are_what_they_say() {
        for sample in ugly() {
            let lines = sample.file.iter().filter(|&&byte| byte == b'\n').count() as u32;
            match (sample.name.as_str(), filter_file(&sample.file)) {
                ("refused at the last line", answer) => {
                    assert_eq!(answer, Outcome::Refused { number: 1, place: lines + 1 });
                }
                ("no file at all", answer) => assert_eq!(answer, Outcome::Refused { number: 1, place: 1 }),
                ("1,024 rounds", Outcome::Kept(lists)) => {
                    assert_eq!((lists[0].lines.len(), lists[0].rounds), (1_023, 1_024))
                }
                ("1,023 bodies followed", answer @ Outcome::Kept(_)) => assert_eq!(answer.lines().len(), 1_023),
                (name, Outcome::Refused { number, place }) => panic!("{name}: refused, {number}, {place}"),
                (_, Outcome::Kept(_)) => {}
            }
        }
    }

    /// The names, the visits and the rounds of each list of a file.
    fn answer_to(name: &str) -> Vec<(Vec<Vec<u8>>, u32, u32)> {
        let sample = exports().into_iter().find(|sample| sample.name == name).unwrap();
        let answer = filter_file(&sample.file);
        let names = |names: &[&[u8]]| names.iter().map(|name| name.to_vec()).collect::<Vec<_>>();
        answer.lists().iter().map(|list| (names(&list.names), list.visits, list.rounds)).collect()
    }

    #[test]
    fn sixteen_asks_are_one_again_and_again() {
        let one = answer_to(ONE_ASK);
        assert_eq!(one.len(), 1);
        assert_eq!(answer_to(SIXTEEN_ASKS), vec![one[0].clone(); limits::ASKS]);
    }

    #[test]
    fn also_lines_give_the_list_of_one_ask_again_and_again() {
        let (names, visits, rounds) = answer_to(ONE_ASK).remove(0);
        let mut lists = vec![(names.clone(), 0, 1); limits::ASKS];
        lists[0] = (names, visits, rounds);
        assert_eq!(answer_to(FIFTEEN_ALSO), lists);
    }

    #[test]
    fn sixteen_asks_admit_half_of_the_groups_each() {
        let file = sixteen_halves();
        assert!((limits::BYTES - 200..=limits::BYTES).contains(&file.len()), "{}", file.len());
        let (lists, whole) = (answer_to(SIXTEEN_HALVES), answer_to(ONE_ASK).remove(0));
        assert_eq!(lists.len(), limits::ASKS);
        for (index, (names, visits, rounds)) in lists.iter().enumerate() {
            assert!(*visits < whole.1 && *rounds > 1 && names.len() > 20, "{index}");
            assert!(lists[..index].iter().all(|before| before.0 != *names), "{index}");
        }
    }

    #[test]
    fn a_folder_is_read_by_name() {
        let folder = Path::new(env!("CARGO_MANIFEST_DIR")).join("../examples");
        let names: Vec<String> = real(&folder).unwrap().into_iter().map(|sample| sample.name).collect();
        assert!(names.len() > 3 && names.is_sorted() && names.contains(&"worked".to_owned()));
    }
}
