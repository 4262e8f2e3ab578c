//! The files, answers and summaries shown in docs/FORMAT.md, and its tables of names, macros, options, groups and limits.

use std::fs;
use std::path::Path;

use compare::{filter_file, limits, summaries, Command};

/// The page.
fn page() -> String {
    let path = Path::new(env!("CARGO_MANIFEST_DIR")).join("../docs/FORMAT.md");
    fs::read_to_string(path).expect("the page can be read")
}

/// The command of these words.
fn parsed(words: &str) -> Command {
    words.parse().unwrap_or_else(|error| panic!("{error}"))
}

/// The rows of the table with this head, as their cells.
fn table<'p>(page: &'p str, head: &str) -> Vec<Vec<&'p str>> {
    let rows = page.lines().skip_while(|line| *line != head).skip(2).take_while(|line| line.starts_with('|'));
    let rows: Vec<_> = rows.map(|row| row.trim_matches(['|', ' ']).split(" | ").collect()).collect();
    assert!(!rows.is_empty(), "there is no table {head}");
    rows
}

/// What the page shows beside a file.
#[derive(Clone, Copy, PartialEq)]
enum Shown {
    Answer,
    Summaries,
    /// What a command prints.
    Printed(Command),
}

/// A file of the page, with what is shown beside it.
struct Example {
    /// The line of the page.
    at: usize,
    file: String,
    shown: Shown,
    text: String,
}

/// Summaries as the program prints them, without the name and the rule of each fact and without their count.
fn unruled(text: &str) -> String {
    let fact = |line: &str| {
        let fields: Vec<&str> = line.splitn(5, ',').collect();
        format!("{},{},{}\n", fields[0], fields[1], fields[4])
    };
    text.lines().filter(|line| line.starts_with("fact,")).map(fact).collect()
}

/// The files of the page: blocks marked `file`, each with blocks marked `answer`, `answer FIRST-LINE`, `summaries` or by a
/// command after it, and tables headed `file`, `answer` and `why`, in which each piece of code is a line. A command `why` has
/// `--rows` behind it; without, a block is what the script alone prints. Summaries are taken [`unruled`].
fn examples(page: &str) -> Vec<Example> {
    let mut examples = Vec::new();
    let mut file = None::<String>;
    let mut in_table = false;
    let mut lines = page.lines().enumerate().map(|(index, line)| (index + 1, line));
    while let Some((at, line)) = lines.next() {
        if let Some(mark) = line.strip_prefix("```") {
            let mut text: String = lines
                .by_ref()
                .map(|(_, line)| line)
                .take_while(|line| *line != "```")
                .map(|line| line.to_owned() + "\n")
                .collect();
            let command = mark.strip_suffix(" --rows").unwrap_or(mark);
            let (mark, first) = mark.split_once(' ').map_or((mark, None), |(mark, first)| (mark, Some(first)));
            let (shown, first) = match mark {
                "file" => {
                    file = Some(text);
                    continue;
                }
                "answer" => (Shown::Answer, first),
                "summaries" => {
                    text = unruled(&text);
                    (Shown::Summaries, None)
                }
                "why" if first.is_some_and(|words| words.ends_with("--rows")) => {
                    (Shown::Printed(parsed(command)), None)
                }
                "sweep" | "order" => (Shown::Printed(parsed(command)), None),
                _ => continue,
            };
            let mut file = file.clone().unwrap_or_else(|| panic!("line {at}: an answer without a file"));
            if let Some(first) = first {
                file.replace_range(..file.find('\n').unwrap(), first);
            }
            examples.push(Example { at, file, shown, text });
        } else if line.starts_with("| file | answer | why |") {
            in_table = true;
        } else if in_table && line.starts_with("| ") {
            let cells: Vec<&str> = line.split(" | ").collect();
            let code = |cell: &str| -> String {
                cell.split('`').skip(1).step_by(2).map(|line| line.to_owned() + "\n").collect()
            };
            examples.push(Example { at, file: code(cells[0]), shown: Shown::Answer, text: code(cells[1]) });
        } else if !line.starts_with('|') {
            in_table = false;
        }
    }
    examples
}

#[test]
fn the_page_says_what_is_answered() {
    let examples = examples(&page());
    for shown in [Shown::Answer, Shown::Summaries, Shown::Printed(Command::Why(1))] {
        assert!(examples.iter().any(|example| example.shown == shown));
    }
    for Example { at, file, shown, text } in examples {
        let actual = match shown {
            Shown::Answer => filter_file(file.as_bytes()).to_string(),
            Shown::Printed(command) => command.printed(file.as_bytes()),
            Shown::Summaries => {
                summaries(file.as_bytes()).expect("an accepted file").iter().map(ToString::to_string).collect()
            }
        };
        assert_eq!(actual, text, "docs/FORMAT.md, line {at}, of the file\n{file}");
    }
}

#[test]
fn the_names_that_never_count() {
    let page = page();
    let names: Vec<&str> = page
        .lines()
        .find(|line| line.starts_with("    ApplyTF "))
        .expect("the nine names")
        .split_whitespace()
        .collect();
    assert_eq!(names.len(), 9);
    for name in names {
        let file = format!("ask,0,0\nfree,{name}\nassume,a,0,0\n");
        assert_eq!(summaries(file.as_bytes()).unwrap()[0].free.len(), 0, "{name}");
        let file = format!("ask,0,0\nfree,{name}.\nassume,a,0,0\n");
        assert_eq!(summaries(file.as_bytes()).unwrap()[0].free.len(), 1, "{name}.");
    }
}

#[test]
fn the_macros_of_the_start() {
    let page = page();
    let rows = table(&page, "| macro | opens to |");
    assert_eq!(rows.len(), 5);
    for row in rows {
        let [name, opened] = [row[0], row[1]].map(|cell| cell.trim_matches('`'));
        let file = format!("ask,0,0\nfree,{name}\nfree,{opened}\nall,1,1,1,1\nassume,a,0,2\nroot,0,r,0\n");
        assert_eq!(filter_file(file.as_bytes()).to_string(), "kept,5,a\nsum,1,1,2\n", "{name}");
    }
}

#[test]
fn the_options() {
    let page = page();
    let most: u32 = table(&page, "| option | on | off |").iter().map(|row| row[0].parse::<u32>().unwrap()).sum();
    assert_eq!(most, limits::OPTIONS);
    let ask = format!("OPTIONS 0 to {most}");
    assert!(page.contains(&ask), "{ask}");
}

#[test]
fn the_numbers_of_the_groups() {
    let page = page();
    let head = page.lines().find(|line| line.starts_with("| group | 0 |")).expect("the groups");
    let groups: Vec<u32> =
        head.trim_matches(['|', ' ']).split(" | ").skip(1).map(|cell| cell.parse().unwrap()).collect();
    assert_eq!(groups, (0..=limits::GROUP).collect::<Vec<_>>());
    let row = table(&page, head).remove(0);
    assert_eq!(row[0], "number");
    let numbers: Vec<u32> = row[1..].iter().map(|cell| cell.parse().unwrap()).collect();
    assert_eq!(numbers.iter().sum::<u32>(), limits::GROUPS);
    let facts: String = groups.iter().map(|group| format!("assume,g{group},0,{group},0\n")).collect();
    for (group, number) in groups.iter().zip(numbers) {
        let file = format!("ask2,0,0,{number}\nleaf\n{facts}");
        assert_eq!(filter_file(file.as_bytes()).to_string(), format!("kept,{},g{group}\nsum,1,0,1\n", group + 3));
    }
    for range in ["GROUPS 0 to 65,535", "GROUP 0 to 15"] {
        assert!(page.contains(range), "{range}");
    }
}

#[test]
fn the_limits() {
    let page = page();
    let rows = table(&page, "| what | at most | past it |");
    let shown: Vec<(usize, u32)> =
        rows.iter().map(|row| (row[1].replace(',', "").parse().unwrap(), row[2].parse().unwrap())).collect();
    assert_eq!(
        shown,
        [
            (limits::BYTES, 9),
            (limits::ASKS, 13),
            (limits::NAMES, 6),
            (limits::TERMS, 10),
            (limits::REFERENCES, 10),
            (limits::RECORDS, 11),
            (limits::ENTRIES, 12),
            (limits::USES, 12),
        ]
    );
}
