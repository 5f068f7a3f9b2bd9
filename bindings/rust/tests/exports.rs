//! What `lent` declares against the library's sources: every export, with the same parameters in the same order, and the same number.

use std::fs;
use std::path::Path;

/// An exported function: its name without the prefix, its parameters, and the type of the number that it answers.
type Export = (String, Vec<String>, String);

/// The functions of a text, each from `opening` to its end; `number` finds the number's type in what follows the parameters.
fn functions(text: &str, opening: &str, number: fn(&str) -> Option<&str>) -> Vec<Export> {
    let read = |rest: &str| {
        let (name, rest) = rest.split_once('(').expect("parameters open");
        let (parameters, rest) = rest.split_once(')').expect("parameters close");
        let parameters = parameters.split(',').map(|one| one.trim().to_string());
        let number = number(rest).expect("there is a number").trim().to_string();
        (name.to_string(), parameters.filter(|one| !one.is_empty()).collect(), number)
    };
    let mut found: Vec<Export> = text.split(opening).skip(1).map(read).collect();
    found.sort();
    found
}

/// The number's type in the library's source: `-> u64`, and the line ends.
fn number_of_source(rest: &str) -> Option<&str> {
    rest.trim_start().strip_prefix("->")?.split(['\n', '{']).next()
}

/// The number's type in a line of `lent`: `-> Result<bool, Refusal> = yes_no(u64);`
fn number_of_lent(rest: &str) -> Option<&str> {
    let (_, reader) = rest.split_once(" = ")?;
    reader.split_once('(')?.1.split(')').next()
}

#[test]
fn lent_has_every_export_as_it_is() {
    let here = Path::new(env!("CARGO_MANIFEST_DIR"));
    let files = fs::read_dir(here.join("../../crates/boltraven_c/src")).expect("the library's sources are there");
    let read = |file: std::io::Result<fs::DirEntry>| fs::read_to_string(file.expect("a file").path()).expect("it can be read");
    // A lifetime that a source names says nothing to a caller.
    let sources = files.map(read).collect::<String>().replace("<'a>", "").replace("&'a ", "&");
    let exported = functions(&sources, "pub extern \"C\" fn boltraven_", number_of_source);
    let lent = fs::read_to_string(here.join("src/lent.rs")).expect("it can be read");
    assert!(!exported.is_empty(), "the sources have exports");
    assert_eq!(functions(&lent, "    pub fn ", number_of_lent), exported);
}
