//! Instructions inside a call, counted by valgrind.

use std::fs;
use std::io;
use std::path::Path;
use std::process::{self, Stdio};

use compare::Command;

use crate::sides::{independent, symbols, Library, CALLS};

/// The option under which this program makes one call: its side and its file follow.
pub const ONCE: &str = "--once";

/// Instructions inside a call of each side.
#[derive(Clone, Copy)]
pub struct Instructions {
    pub library: u64,
    pub independent: u64,
}

/// Whether valgrind is there.
pub fn valgrind() -> bool {
    let run = process::Command::new("valgrind").arg("--version").stdout(Stdio::null()).stderr(Stdio::null()).status();
    run.is_ok_and(|status| status.success())
}

/// Makes one call, by the symbol of its function.
pub fn run_once(symbol: &str, path: &Path) -> io::Result<()> {
    let file = fs::read(path)?;
    for call in CALLS {
        let (of_library, of_independent) = symbols(call);
        if symbol == of_library {
            let _ = Library::new().call(call, &file);
            return Ok(());
        }
        if symbol == of_independent {
            independent(call, &file);
            return Ok(());
        }
    }
    Err(io::Error::other("no such side"))
}

/// Counts the instructions of both sides in a call on a file.
pub fn count(call: Command, file: &[u8]) -> io::Result<Instructions> {
    let path = std::env::temp_dir().join(format!("wimplejade-bench-{}.in", process::id()));
    fs::write(&path, file)?;
    let (of_library, of_independent) = symbols(call);
    let counts = count_side(of_library, &path)
        .and_then(|library| Ok(Instructions { library, independent: count_side(of_independent, &path)? }));
    fs::remove_file(&path)?;
    counts
}

/// Runs this program under valgrind, which counts from where it enters the function to where it leaves it.
fn count_side(symbol: &str, path: &Path) -> io::Result<u64> {
    let output = process::Command::new("valgrind")
        .args(["--tool=callgrind", "--callgrind-out-file=/dev/null", "--main-stacksize=16777216"])
        .arg(format!("--toggle-collect={symbol}"))
        .arg(std::env::current_exe()?)
        .args([ONCE, symbol])
        .arg(path)
        .output()?;
    collected(&String::from_utf8_lossy(&output.stderr))
        .filter(|&count| count > 0)
        .ok_or_else(|| io::Error::other(format!("valgrind counted nothing inside {symbol}")))
}

/// The count that valgrind prints.
fn collected(text: &str) -> Option<u64> {
    let (_, count) = text.lines().find(|line| line.contains("Collected"))?.rsplit_once(':')?;
    count.trim().parse().ok()
}

#[cfg(test)]
mod tests {
    use super::collected;

    #[test]
    fn the_count_is_found() {
        assert_eq!(collected("==7== Events    : Ir\n==7== Collected : 123456\n==7== \n"), Some(123_456));
        assert_eq!(collected("==7== nothing\n"), None);
    }
}
