//! Both sides timed on the same inputs, in the same process. `oracle/bench` builds and runs it.

mod inputs;
mod job;
mod merge;
mod prepare;
mod refused;
mod rota;
mod rows;
mod set;
mod spread;

use std::collections::HashMap;
use std::fs;
use std::io;
use std::time::{Duration, Instant};

use rows::ROWS;

/// How long a row is measured, and how often at least.
const BUDGET: Duration = Duration::from_millis(1500);
const REPEATS_LEAST: u32 = 5;
const REPEATS_MOST: u32 = 400;

/// One side of a row: what it works on, made anew each time and not timed; what is timed; and what is to be seen afterwards.
struct Side<S, V> {
    fresh: Box<dyn Fn() -> S>,
    run: Box<dyn Fn(&mut S)>,
    seen: Box<dyn Fn(&S) -> V>,
}

impl<S: 'static, V: 'static> Side<S, V> {
    fn once(&self) -> V {
        let mut state = (self.fresh)();
        (self.run)(&mut state);
        (self.seen)(&state)
    }

    fn timed(self) -> Timed {
        Box::new(move |made, turns| {
            let mut states: Vec<S> = (0..made).map(|_| (self.fresh)()).collect();
            let begin = Instant::now();
            states.iter_mut().take(turns).for_each(|state| (self.run)(state));
            begin.elapsed()
        })
    }
}

/// A side that can be timed: what it works on is made so often first, and so many turns are taken then.
type Timed = Box<dyn Fn(usize, usize) -> Duration>;

/// Both sides of a row.
pub struct Row {
    /// Whether both gave the same answer.
    same: bool,
    ours: Timed,
    rust: Timed,
}

fn row<A: 'static, B: 'static, V: PartialEq + 'static>(ours: Side<A, V>, rust: Side<B, V>) -> Row {
    Row {
        same: ours.once() == rust.once(),
        ours: ours.timed(),
        rust: rust.timed(),
    }
}

/// The least time of each side, turn by turn.
fn best(row: &Row) -> (Duration, Duration) {
    let mut least = (Duration::MAX, Duration::MAX);
    let begin = Instant::now();
    for turn in 0..REPEATS_MOST {
        if turn >= REPEATS_LEAST && begin.elapsed() > BUDGET {
            break;
        }
        least.0 = least.0.min((row.ours)(1, 1));
        least.1 = least.1.min((row.rust)(1, 1));
    }
    least
}

/// Prints the names of all rows.
pub fn names() {
    ROWS.iter().for_each(|(name, _)| println!("{name}"));
}

/// The most turns that are taken where instructions are counted.
const TURNS: usize = 5;

/// Takes so many turns of one side of a row, for whoever counts instructions: as much is made whatever the number.
pub fn one(seed: u64, name: &str, side: &str, turns: usize) -> io::Result<()> {
    let (_, make) = ROWS
        .iter()
        .find(|(known, _)| *known == name)
        .ok_or_else(|| io::Error::other(format!("no row {name}")))?;
    let row = make(seed);
    let timed = if side == "ours" { &row.ours } else { &row.rust };
    timed(TURNS, turns);
    Ok(())
}

/// Prints the table: of each row both times, and the instructions that were counted before; how many rows differ in their answers.
pub fn table(seed: u64, counts: Option<&str>) -> io::Result<u64> {
    let counts = counts.map(counts_of).transpose()?.unwrap_or_default();
    println!("| Row | Ours, µs | The Rust, µs | The Rust / ours | Ours, instructions | The Rust, instructions | The Rust / ours |");
    println!("|---|---:|---:|---:|---:|---:|---:|");
    let mut differing = 0;
    for (name, make) in ROWS {
        let row = make(seed);
        if !row.same {
            println!("| {name} | the answers differ | | | | | |");
            differing += 1;
            continue;
        }
        let (ours, rust) = best(&row);
        let micros = |time: Duration| time.as_secs_f64() * 1e6;
        print!(
            "| {name} | {:.1} | {:.1} | {:.2} |",
            micros(ours),
            micros(rust),
            micros(rust) / micros(ours)
        );
        match counts.get(*name) {
            Some(&(ours, rust)) => println!(" {} | {} | {:.2} |", grouped(ours), grouped(rust), rust as f64 / ours as f64),
            None => println!(" | | |"),
        }
    }
    Ok(differing)
}

/// A number with its digits by threes.
fn grouped(n: u64) -> String {
    if n < 1000 {
        n.to_string()
    } else {
        format!("{},{:03}", grouped(n / 1000), n % 1000)
    }
}

/// Instructions by row, each line with both counts and the name.
fn counts_of(file: &str) -> io::Result<HashMap<String, (u64, u64)>> {
    let text = fs::read_to_string(file)?;
    let line = |line: &str| {
        let (ours, rest) = line.split_once(' ')?;
        let (rust, name) = rest.split_once(' ')?;
        Some((name.to_string(), (ours.parse().ok()?, rust.parse().ok()?)))
    };
    text.lines()
        .map(|text| line(text).ok_or_else(|| io::Error::other(format!("{file}: {text}"))))
        .collect()
}
