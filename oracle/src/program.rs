//! The program: a job on its standard input or in the file that its argument names, and what it must write.

use std::fs::{self, File};
use std::io;
use std::path::Path;
use std::process::{Command, Output, Stdio};

use crate::job_files::text_of;
use crate::jobs;
use crate::seed::Seed;

/// Runs the program on n jobs, one after the other sound and damaged, on standard input and by name, and prints the seed of each that it
/// answers in another way than is due. What can't be read is asked besides.
pub fn compare(n: u64, run: u64, command: &[String]) -> io::Result<u64> {
    let name = std::env::temp_dir().join(format!("oracle-{}.job", std::process::id()));
    let mut differing = 0;
    for k in 0..n {
        let case_seed = Seed::of_case(run, "program", k);
        let file = if k % 2 == 0 {
            jobs::sound_file(&mut Seed::new(case_seed))
        } else {
            jobs::damaged_file(&mut Seed::new(case_seed))
        };
        fs::write(&name, &file)?;
        let got = if k / 2 % 2 == 0 {
            started(command, &[]).stdin(File::open(&name)?).output()?
        } else {
            started(command, &[&name]).stdin(Stdio::null()).output()?
        };
        if !is_listing(&got, &text_of(&file)) {
            differing += 1;
            println!("program {case_seed}: {}", described(&got));
        }
    }
    differing += unreadable(command, &name)?;
    fs::remove_file(&name)?;
    println!("program: {n} jobs and {UNREADABLE} inputs that it can't read, {differing} differ (seed {run})");
    Ok(differing)
}

pub fn started(command: &[String], words: &[&Path]) -> Command {
    let mut program = Command::new(&command[0]);
    program.args(&command[1..]).args(words);
    program
}

/// The listing or the line of the refusal, nothing else, and status 0.
pub fn is_listing(got: &Output, due: &str) -> bool {
    got.status.success() && got.stdout == due.as_bytes() && got.stderr.is_empty()
}

pub fn described(got: &Output) -> String {
    let text = String::from_utf8_lossy(&got.stdout);
    let first = text.lines().next().unwrap_or("nothing");
    format!("{}, {} bytes written, first '{first}'", got.status, got.stdout.len())
}

/// Inputs that can't be read.
const UNREADABLE: usize = 4;

/// A file that is not there, a folder, two arguments, and a word that begins with `-`: a report on standard error and nothing on standard
/// output, or they are counted.
fn unreadable(command: &[String], name: &Path) -> io::Result<u64> {
    let missing = name.with_extension("missing");
    let folder = std::env::temp_dir();
    let option = Path::new("-x");
    let asked: [&[&Path]; UNREADABLE] = [&[&missing], &[&folder], &[name, name], &[option]];
    let mut differing = 0;
    for words in asked {
        let got = started(command, words).stdin(Stdio::null()).output()?;
        if !got.stdout.is_empty() || got.stderr.is_empty() {
            differing += 1;
            println!("program: {words:?} {}", described(&got));
        }
    }
    Ok(differing)
}
