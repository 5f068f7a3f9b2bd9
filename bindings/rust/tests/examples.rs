//! Everything public stands in an example: each function, type and constant by its name, in a doc example of its own file, which runs as a
//! test; the functions of `lent` as `lent::NAME`.

use std::fs;
use std::path::Path;

/// The lines of a file's doc examples.
fn examples(source: &str) -> String {
    let mut is_inside = false;
    let mut lines = String::new();
    for line in source.lines().map(str::trim_start) {
        let Some(text) = line.strip_prefix("///").or(line.strip_prefix("//!")) else {
            continue;
        };
        if text.trim_start().starts_with("```") {
            is_inside = !is_inside;
        } else if is_inside {
            lines.push_str(text);
            lines.push('\n');
        }
    }
    lines
}

/// The names of what a file makes public.
fn public(source: &str) -> Vec<&str> {
    const KINDS: [&str; 5] = ["const fn ", "fn ", "struct ", "enum ", "const "];
    let items = source.lines().filter_map(|line| line.trim_start().strip_prefix("pub "));
    let named = items.filter_map(|item| KINDS.iter().find_map(|kind| item.strip_prefix(kind)));
    named
        .filter_map(|rest| rest.split(|c: char| !c.is_alphanumeric() && c != '_').next())
        .collect()
}

/// Whether a text has a name as a whole word.
fn has_word(text: &str, name: &str) -> bool {
    let is_part = |c: Option<char>| c.is_some_and(|c| c.is_alphanumeric() || c == '_');
    let is_whole = |at: usize| !is_part(text[..at].chars().next_back()) && !is_part(text[at + name.len()..].chars().next());
    text.match_indices(name).any(|(at, _)| is_whole(at))
}

#[test]
fn everything_public_stands_in_an_example() {
    let folder = Path::new(env!("CARGO_MANIFEST_DIR")).join("src");
    let mut count = 0;
    let mut missing = Vec::new();
    for entry in fs::read_dir(folder).expect("the sources are there") {
        let path = entry.expect("a file").path();
        let source = fs::read_to_string(&path).expect("it can be read");
        let shown = examples(&source);
        let is_lent = path.ends_with("lent.rs");
        for name in public(&source) {
            count += 1;
            let asked = if is_lent { format!("lent::{name}") } else { name.to_string() };
            if !has_word(&shown, &asked) {
                missing.push(format!("{}: {asked}", path.display()));
            }
        }
    }
    assert!(count > 150, "{count} names were found");
    assert!(missing.is_empty(), "no example of {missing:#?}");
}
