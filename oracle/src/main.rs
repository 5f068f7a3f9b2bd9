//! The Rust as oracle. `oracle/compare` builds both sides and runs `oracle compare`.

mod bench;
mod bits;
mod call;
mod columns;
mod covered;
mod days;
mod elsewhere;
mod figures;
mod job_cases;
mod job_faults;
mod job_files;
mod job_records;
mod jobs;
mod lent_units;
mod library;
mod limits;
mod mending;
mod openings;
mod orders;
mod planted;
mod problems;
mod program;
mod readers;
mod recordings;
mod recounts;
mod replays;
mod retiring;
mod rota_questions;
mod rotas;
mod rotations;
mod search;
mod seed;
mod sets;
mod splitting;
mod stored;
mod stored_elsewhere;
mod stored_jobs;
mod stored_mending;
mod stored_recordings;
mod stored_retirings;
mod stored_rotas;
mod stored_slots;
mod stored_units;
mod stored_ways;
mod stores;
mod table;
mod targets;
mod units;
mod ways;

use std::collections::BTreeSet;
use std::fs;
use std::io::Write;
use std::path::Path;
use std::process::ExitCode;

use call::Question;
use seed::Seed;

/// A kind of case: its name, and the questions of a case with their due outcomes.
struct Kind {
    name: &'static str,
    questions: fn(u64) -> Vec<Question>,
}

const fn kind(name: &'static str, questions: fn(u64) -> Vec<Question>) -> Kind {
    Kind { name, questions }
}

/// Every kind.
const KINDS: [Kind; 34] = [
    kind("slot-sets", sets::questions),
    kind("slot-sets-damaged", sets::damaged),
    kind("slots", splitting::questions),
    kind("slots-damaged", splitting::damaged),
    kind("range-orders", orders::questions),
    kind("rotations", rotations::questions),
    kind("rotations-damaged", rotations::damaged),
    kind("days", days::questions),
    kind("units", units::questions),
    kind("units-damaged", units::damaged),
    kind("covered-days", units::covered),
    kind("targets", targets::questions),
    kind("targets-damaged", targets::damaged),
    kind("rotas", rota_questions::questions),
    kind("rotas-damaged", rota_questions::damaged),
    kind("recounts", planted::questions),
    kind("columns", columns::questions),
    kind("columns-damaged", columns::damaged),
    kind("elsewhere", elsewhere::questions),
    kind("elsewhere-damaged", elsewhere::damaged),
    kind("replays", replays::questions),
    kind("replays-damaged", replays::damaged),
    kind("openings", openings::questions),
    kind("openings-damaged", openings::damaged),
    kind("ways-back", ways::questions),
    kind("ways-back-damaged", ways::damaged),
    kind("mending", mending::questions),
    kind("mending-damaged", mending::damaged),
    kind("retiring", retiring::questions),
    kind("retiring-damaged", retiring::damaged),
    kind("jobs", jobs::questions),
    kind("jobs-damaged", jobs::damaged),
    kind("stores", stores::questions),
    kind("stores-damaged", stores::damaged),
];

/// From how many cases of every kind on each exported function must have been asked.
const ENOUGH: u64 = 100;

/// How many differences of a kind are printed.
const SHOWN: u64 = 20;

const USAGE: &str = "usage: oracle compare N SEED KIND|every | case KIND CASE-SEED | days | long_listing | time N
       oracle program N SEED COMMAND.. | recordings N SEED COMMAND.. | rules N SEED | store KIND N SEED FOLDER
       oracle recording BLOCKS FILE limits|paper | shown-of FILE
       oracle limits | listing-of FILE | moves BLOCKS DRAWS SEED FILE
       oracle bench rows | bench SEED [COUNTS] | bench SEED ROW ours|rust TURNS";

fn main() -> ExitCode {
    let words: Vec<String> = std::env::args().skip(1).collect();
    let plain: Vec<&str> = words.iter().map(String::as_str).collect();
    match plain.as_slice() {
        ["compare", n, seed, kind] => match (n.parse(), seed.parse()) {
            (Ok(n), Ok(seed)) => ended(compare(n, seed, kind)),
            _ => usage(),
        },
        ["case", kind, seed] => match seed.parse() {
            Ok(seed) => ended(one_case(kind, seed)),
            Err(_) => usage(),
        },
        ["days"] => ended(every_day()),
        ["bench", "rows"] => {
            bench::names();
            ExitCode::SUCCESS
        }
        ["bench", seed, counts @ ..] if counts.len() < 2 => match seed.parse() {
            Ok(seed) => ended(bench::table(seed, counts.first().copied())),
            Err(_) => usage(),
        },
        ["bench", seed, row, side, turns] => match (seed.parse(), turns.parse()) {
            (Ok(seed), Ok(turns)) => ended(bench::one(seed, row, side, turns).map(|()| 0)),
            _ => usage(),
        },
        ["program", n, seed, _, ..] => match (n.parse(), seed.parse()) {
            (Ok(n), Ok(seed)) => ended(program::compare(n, seed, &words[3..])),
            _ => usage(),
        },
        ["recordings", n, seed, _, ..] => match (n.parse(), seed.parse()) {
            (Ok(n), Ok(seed)) => ended(recordings::compare(n, seed, &words[3..])),
            _ => usage(),
        },
        ["recording", blocks, file, of @ ("limits" | "paper")] => match blocks.parse() {
            Ok(blocks) => ended(recordings::write_long(blocks, file, *of == "paper").map(|()| 0)),
            Err(_) => usage(),
        },
        ["shown-of", file] => match fs::read(file) {
            Ok(bytes) => write_out(recordings::shown_of(&bytes).as_bytes()),
            Err(error) => {
                eprintln!("oracle: {file}: {error}");
                ExitCode::from(2)
            }
        },
        ["rules", n, seed] => match (n.parse(), seed.parse()) {
            (Ok(n), Ok(seed)) => compare_rules(n, seed),
            _ => usage(),
        },
        ["limits"] => write_out(&job_cases::JobCase::at_every_limit().file()),
        ["long_listing"] => ended(jobs::long_listing()),
        ["time", n] => match n.parse() {
            Ok(n) => ended(jobs::time(n)),
            Err(_) => usage(),
        },
        ["listing-of", file] => match fs::read(file) {
            Ok(bytes) => write_out(job_files::text_of(&bytes).as_bytes()),
            Err(error) => {
                eprintln!("oracle: {file}: {error}");
                ExitCode::from(2)
            }
        },
        ["moves", blocks, draws, seed, file] => match (blocks.parse(), draws.parse(), seed.parse()) {
            (Ok(blocks), Ok(draws), Ok(seed)) => moves_on(file, blocks, draws, seed),
            _ => usage(),
        },
        ["store", kind, n, seed, folder] => match (n.parse(), seed.parse()) {
            (Ok(n), Ok(seed)) => store(kind, n, seed, Path::new(folder)),
            _ => usage(),
        },
        _ => usage(),
    }
}

/// Writes stored answers of a kind into the folder of the program that compares them: what it reads, and what it must then write.
fn store(kind: &str, n: u64, seed: u64, folder: &Path) -> ExitCode {
    let made = match kind {
        "slot-sets" => Ok(stored::slot_sets(n, seed)),
        "targets" => Ok(stored::targets(n, seed)),
        "slots" => Ok(stored_slots::slots(n, seed)),
        "units" => Ok(stored_units::units(n, seed)),
        "rotas" => Ok(stored_rotas::rotas(n, seed)),
        "columns" => Ok(columns::stored(n, seed)),
        "elsewhere" => Ok(stored_elsewhere::elsewhere(n, seed)),
        "ways-back" => Ok(stored_ways::ways(n, seed)),
        "mending" => Ok(stored_mending::mending(n, seed)),
        "retirings" => Ok(stored_retirings::retirings(n, seed)),
        "jobs" => stored_jobs::jobs(n, seed),
        "recordings" => stored_recordings::recordings(n, seed),
        "stores" => Ok(stores::stored(n, seed)),
        _ => Err(format!("no kind {kind}")),
    };
    let stored = match made {
        Ok(stored) => stored,
        Err(missing) => {
            eprintln!("oracle: {missing}");
            return ExitCode::from(2);
        }
    };
    let line = |(answers, of): &(u64, &str)| format!("{answers} answers{of} compared, 0 differ\n");
    let lines: String = stored.lines.iter().map(line).collect();
    let written = fs::write(folder.join("stdin"), &stored.bytes).and_then(|()| fs::write(folder.join("stdout"), lines));
    match written {
        Ok(()) => ExitCode::SUCCESS,
        Err(error) => {
            eprintln!("oracle: {}: {error}", folder.display());
            ExitCode::from(2)
        }
    }
}

/// Compares the paper's rule of targets, and wrong ones, with the Rust.
fn compare_rules(n: u64, seed: u64) -> ExitCode {
    let (differing, wrong) = figures::compare_rules(n, seed);
    println!("targets: the paper's rule differs from the Rust in {differing} of {n} cases (seed {seed})");
    let mut found = differing == 0;
    for (rule, seen, first) in wrong {
        found &= seen > 0;
        let where_first = first.map_or(String::new(), |case| format!(", first in {case}"));
        println!("targets: {rule:?} differs in {seen}{where_first}");
    }
    ExitCode::from(u8::from(!found))
}

/// Writes the moves of the Rust's generator on a job file that nothing is wrong with.
fn moves_on(file: &str, blocks: u64, draws: u64, seed: u64) -> ExitCode {
    let job = fs::read(file).ok().and_then(|bytes| job_files::read(&bytes));
    match job {
        Some(job) if job_files::numbers(&job).is_empty() => write_out(search::moves(&job, blocks, draws, seed).as_bytes()),
        _ => {
            eprintln!("oracle: {file} is no job that is accepted");
            ExitCode::from(2)
        }
    }
}

/// Writes bytes to standard output.
fn write_out(bytes: &[u8]) -> ExitCode {
    match std::io::stdout().write_all(bytes) {
        Ok(()) => ExitCode::SUCCESS,
        Err(error) => {
            eprintln!("oracle: {error}");
            ExitCode::from(2)
        }
    }
}

fn usage() -> ExitCode {
    eprintln!("{USAGE}");
    ExitCode::from(2)
}

/// The exit status of a run that told how many cases differ.
fn ended(differing: std::io::Result<u64>) -> ExitCode {
    match differing {
        Ok(0) => ExitCode::SUCCESS,
        Ok(_) => ExitCode::FAILURE,
        Err(error) => {
            eprintln!("oracle: {error}");
            ExitCode::from(2)
        }
    }
}

/// Compares n cases of a kind, or of every kind, and prints the seed of each that differs.
fn compare(n: u64, run: u64, wanted: &str) -> std::io::Result<u64> {
    let mut differing = 0;
    let mut functions = BTreeSet::new();
    let kinds: Vec<&Kind> = KINDS.iter().filter(|kind| wanted == "every" || wanted == kind.name).collect();
    if kinds.is_empty() {
        return Err(std::io::Error::other(format!("no kind {wanted}")));
    }
    for kind in kinds {
        let mut different = 0;
        let mut answers = 0;
        let mut counts = [0, 0];
        for k in 0..n {
            let asked = ask(kind, Seed::of_case(run, kind.name, k), different < SHOWN, &mut functions)?;
            answers += asked.answers;
            different += u64::from(asked.differs);
            if let Some(agree) = asked.counts_agree {
                counts[usize::from(agree)] += 1;
            }
        }
        println!(
            "{}: {n} cases, {answers} answers compared, {different} cases differ (seed {run})",
            kind.name
        );
        if counts != [0, 0] {
            println!(
                "{}: the Rust counts the days that are covered in {} cases, and fewer in {}, where its figures are not compared",
                kind.name, counts[1], counts[0]
            );
        }
        differing += different;
    }
    if wanted == "every" && n >= ENOUGH {
        every_export_in(&functions)?;
    }
    Ok(differing)
}

/// Whether every function that the library exports was asked.
fn every_export_in(functions: &BTreeSet<&str>) -> std::io::Result<()> {
    let left: Vec<String> = library::exports().filter(|name| !functions.contains(name.as_str())).collect();
    if left.is_empty() {
        println!("exports: all {} were asked", functions.len());
        return Ok(());
    }
    Err(std::io::Error::other(format!("never asked: {}", left.join(", "))))
}

/// Compares every day of the range, by the rule and by the library.
fn every_day() -> std::io::Result<u64> {
    match days::compare_rule() {
        Ok(n) => println!("days: the rule agrees with chrono on {n} minutes"),
        Err(minute) => {
            println!("days: the rule differs from chrono on minute {minute}");
            return Ok(1);
        }
    }
    let questions = days::every_day();
    let mut differing = 0;
    for question in &questions {
        differing += u64::from(library::ask(question)? != question.due);
    }
    println!("days: {} answers of the library compared, {differing} differ", questions.len());
    Ok(differing)
}

/// Compares one case again, by its kind and its own seed.
fn one_case(name: &str, seed: u64) -> std::io::Result<u64> {
    let kind = KINDS
        .iter()
        .find(|kind| kind.name == name)
        .ok_or_else(|| std::io::Error::other(format!("no kind {name}")))?;
    let asked = ask(kind, seed, true, &mut BTreeSet::new())?;
    println!(
        "{name} {seed}: {} answers compared, {}",
        asked.answers,
        if asked.differs { "some differ" } else { "none differs" }
    );
    Ok(u64::from(asked.differs))
}

/// A case that was asked: how many answers were compared, whether some differ, and whether the Rust counts the days that are covered.
struct Asked {
    answers: u64,
    differs: bool,
    counts_agree: Option<bool>,
}

/// Asks the questions of a case; the first answer that differs is printed if it is wanted. The functions that were asked are added to a list.
fn ask(kind: &Kind, seed: u64, shown: bool, functions: &mut BTreeSet<&str>) -> std::io::Result<Asked> {
    let questions = (kind.questions)(seed);
    let mut differs = false;
    for question in &questions {
        functions.insert(question.function);
        let outcome = library::ask(question)?;
        if outcome != question.due && !differs {
            differs = true;
            if shown {
                println!("{} {seed}: {}", kind.name, question.described(&outcome));
            }
        }
    }
    Ok(Asked {
        answers: questions.len() as u64,
        differs,
        counts_agree: units::counts_agree(&questions),
    })
}
