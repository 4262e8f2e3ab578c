//! Times of both sides, taken in turns.

use std::hint::black_box;
use std::time::{Duration, Instant};

use compare::Command;

use crate::sides::{independent, Library};

/// The least time of a call in microseconds.
#[derive(Clone, Copy)]
pub struct Times {
    pub library: f64,
    pub independent: f64,
}

/// How long a side calls in its turn at least. Turns are short, so that some of them are not disturbed.
const TURN: Duration = Duration::from_millis(1);

/// The turns of each side: so many at least, and then as many as there is time for.
const FEWEST_TURNS: usize = 5;
const ALL_TURNS: Duration = Duration::from_secs(2);

/// The same to see that all works.
const QUICK_TURNS: Duration = Duration::from_millis(50);

/// Times a call on a file. In turns each side makes as many calls as fill a turn; of the turns the best counts.
pub fn time(call: Command, file: &[u8], quick: bool) -> Times {
    let mut library = Library::new();
    let mut by_library = || {
        let _ = black_box(library.call(call, black_box(file)));
    };
    let mut by_independent = || {
        black_box(independent(call, black_box(file)));
    };
    let (library_calls, independent_calls) = (calls(&mut by_library), calls(&mut by_independent));
    let mut best = Times { library: f64::INFINITY, independent: f64::INFINITY };
    let (start, most) = (Instant::now(), if quick { QUICK_TURNS } else { ALL_TURNS });
    let mut turns = 0;
    while turns < FEWEST_TURNS || start.elapsed() < most {
        best.library = best.library.min(microseconds(library_calls, &mut by_library));
        best.independent = best.independent.min(microseconds(independent_calls, &mut by_independent));
        turns += 1;
    }
    best
}

/// How many calls fill a turn.
fn calls(call: &mut impl FnMut()) -> u32 {
    let mut calls = 1;
    while microseconds(calls, call) * f64::from(calls) < TURN.as_secs_f64() * 1e6 {
        calls *= 2;
    }
    calls
}

/// The time of one of so many calls.
fn microseconds(calls: u32, call: &mut impl FnMut()) -> f64 {
    let start = Instant::now();
    for _ in 0..calls {
        call();
    }
    start.elapsed().as_secs_f64() * 1e6 / f64::from(calls)
}
