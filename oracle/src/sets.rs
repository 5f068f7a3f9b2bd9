//! Slot sets: cases, the Rust's answers, and the calls of the library that must give the same.

use on_call::model::assignment::SlotSet;

use crate::bits::{has_bit, put_bit};
use crate::call::{bytes16, bytes64, Arg, Outcome, Question};
use crate::limits::{NOTHING, PEOPLE_MOST, SET_WORDS, SLOTS_MOST};
use crate::seed::Seed;
use crate::table::{lowest, people_ok, words_ok};

/// Lengths at which words and limits begin and end.
const LENGTHS: [u64; 19] = [
    0, 1, 2, 62, 63, 64, 65, 66, 127, 128, 129, 191, 192, 193, 512, 1022, 1023, 1024, 1024,
];

/// A set: its words, with bits past the length as they come.
#[derive(Debug, Clone)]
pub struct SetCase {
    pub len: usize,
    pub words: [u64; SET_WORDS],
}

impl SetCase {
    /// A set by its seed.
    pub fn new(seed: &mut Seed) -> Self {
        let len = if seed.one_in(3) {
            seed.within(0, SLOTS_MOST as u64)
        } else {
            seed.pick(&LENGTHS)
        } as usize;
        let mut words = [0u64; SET_WORDS];
        fill(seed, &mut words, 0, len);
        // bits past the length: none, all, or any
        fill(seed, &mut words, len, SLOTS_MOST);
        Self { len, words }
    }

    /// The same set as the Rust holds it. It has no bits past the length.
    pub fn rust(&self) -> SlotSet {
        self.rust_with_len(self.len)
    }

    /// The members below this set's length, in a set of another length.
    fn rust_with_len(&self, len: usize) -> SlotSet {
        let mut set = SlotSet::new(len);
        for i in 0..self.len.min(len) {
            if has_bit(&self.words, 0, i) {
                set.insert(i);
            }
        }
        set
    }

    /// The slots below the length that are no members, as a set of the same length.
    fn complement(&self) -> SlotSet {
        let mut set = SlotSet::new(self.len);
        for i in 0..self.len {
            if !has_bit(&self.words, 0, i) {
                set.insert(i);
            }
        }
        set
    }

    /// This set's words with the members of a Rust set, and the bits past the length as they were.
    pub fn words_of(&self, set: &SlotSet) -> [u64; SET_WORDS] {
        let mut words = self.words;
        for i in 0..self.len {
            put_bit(&mut words, 0, i, set.contains(i));
        }
        words
    }
}

/// Sets the bits from `from` up to `to` in one of several ways.
fn fill(seed: &mut Seed, words: &mut [u64], from: usize, to: usize) {
    let way = seed.below(7);
    let mut value = seed.one_in(2);
    let mut left = 0;
    let single = if from < to {
        seed.within(from as u64, to as u64 - 1) as usize
    } else {
        0
    };
    for i in from..to {
        let set = match way {
            0 => false,
            1 => true,
            2 => seed.one_in(2),
            3 => seed.one_in(40),
            4 => !seed.one_in(40),
            5 => i == single,
            _ => {
                // runs, some of them over several words
                if left == 0 {
                    value = !value;
                    left = if seed.one_in(4) { seed.within(1, 200) } else { seed.within(1, 9) };
                }
                left -= 1;
                value
            }
        };
        put_bit(words, 0, i, set);
    }
}

/// An index to ask about: near the ends of words and of the set, inside it, or far away.
pub fn index(seed: &mut Seed, len: usize) -> usize {
    let near = |seed: &mut Seed, at: u64| at.saturating_add(seed.below(4)).saturating_sub(2);
    match seed.below(8) {
        0 => near(seed, 0) as usize,
        1 => near(seed, len as u64) as usize,
        2 => {
            let word = seed.below(17);
            near(seed, 64 * word) as usize
        }
        3 => seed.within(0, 2000) as usize,
        4 if seed.one_in(4) => seed.pick(&[usize::MAX, usize::MAX - 1, 1 << 63, 1 << 32, 65_535, 65_536]),
        _ => seed.within(0, (len as u64).max(1)) as usize,
    }
}

// ---- the Rust's answers

/// The number that stands for a slot found, or for nothing.
fn found(answer: Option<usize>) -> u64 {
    answer.map_or(NOTHING, |i| i as u64)
}

/// `next_unset_after` is private: the run of `from`, put into a copy, ends just before it.
pub fn next_unset_after(case: &SetCase, from: usize) -> Option<usize> {
    if from >= case.len {
        return None;
    }
    let mut set = case.rust();
    set.insert(from);
    let (_, end) = set.run_bounds(from).expect("it was just put in");
    (end + 1 < case.len).then_some(end + 1)
}

/// `prev_unset_before` is private: the run of `from`, put into a copy that has room for it, starts just after it.
/// From past the length the Rust would read bits past it; the paper lowers the index to the length first.
pub fn prev_unset_before(case: &SetCase, from: usize) -> Option<usize> {
    let from = from.min(case.len);
    let mut set = case.rust_with_len(case.len.max(from + 1));
    set.insert(from);
    let (start, _) = set.run_bounds(from).expect("it was just put in");
    start.checked_sub(1)
}

/// What holds a slot, by its number (0 a run, 1 a hole) and its ends. The Rust has no holes: the hole is the run of the complement below
/// the length, by its own `run_bounds`.
pub fn held(case: &SetCase, i: usize) -> Option<(u64, usize, usize)> {
    let run = case.rust().run_bounds(i).map(|(first, last)| (0, first, last));
    run.or_else(|| case.complement().run_bounds(i).map(|(first, last)| (1, first, last)))
}

/// The next run from a cursor on: the reader starts at 0, so the members below the cursor are taken out of a copy first.
pub fn next_run(case: &SetCase, cursor: usize) -> Option<(usize, usize)> {
    let mut set = case.rust();
    for i in 0..cursor.min(case.len) {
        set.remove(i);
    }
    set.runs().next()
}

/// The next member from a cursor on, likewise.
pub fn next_member(case: &SetCase, cursor: usize) -> Option<usize> {
    case.rust().iter().find(|&i| i >= cursor)
}

// ---- the calls

/// A set among those of several people, in more words than are needed.
struct Row {
    case: SetCase,
    words: Vec<u64>,
    people: usize,
    person: usize,
}

impl Row {
    fn new(seed: &mut Seed) -> Self {
        let case = SetCase::new(seed);
        let people = if seed.one_in(2) {
            1
        } else {
            seed.within(1, PEOPLE_MOST as u64) as usize
        };
        let person = seed.below(people as u64) as usize;
        let spare = seed.below(3) as usize;
        let mut words: Vec<u64> = (0..SET_WORDS * people + spare).map(|_| seed.word()).collect();
        words[SET_WORDS * person..SET_WORDS * (person + 1)].copy_from_slice(&case.words);
        Self {
            case,
            words,
            people,
            person,
        }
    }

    /// The arguments that every function of a row takes.
    fn args(&self, lent: fn(usize, Vec<u8>) -> Arg) -> Vec<Arg> {
        vec![
            Arg::Number(self.people as u64),
            Arg::Number(self.case.len as u64),
            lent(8, bytes64(&self.words)),
            Arg::Number(self.person as u64),
        ]
    }

    /// A question whose answer is a number.
    fn number(&self, function: &'static str, more: &[usize], result: u64) -> Question {
        let mut args = self.args(Arg::Lent);
        args.extend(more.iter().map(|&n| Arg::Number(n as u64)));
        Question::number(function, args, result)
    }

    /// A question whose answer is also written through addresses: `due`, or where there is none, what stood there.
    fn numbers(&self, function: &'static str, index: usize, outs: &[u64], due: Option<Vec<u64>>) -> Question {
        let mut args = self.args(Arg::Lent);
        args.push(Arg::Number(index as u64));
        let result = if due.is_some() { 0 } else { NOTHING };
        Question::beside(function, args, outs, result, due)
    }

    /// The question what holds a slot, the ends being written beside the number.
    fn held(&self, i: usize, outs: &[u64]) -> Question {
        let due = held(&self.case, i);
        let ends = due.map(|(_, first, last)| vec![first as u64, last as u64]);
        let mut question = self.numbers("boltraven_run_bounds", i, outs, ends);
        if let Some((number, ..)) = due {
            question.due.result = number;
        }
        question
    }

    /// A change: the number, and the words at exit.
    fn change(&self, function: &'static str, more: &[u64], number: u64, row: Option<[u64; SET_WORDS]>) -> Question {
        let mut args = self.args(Arg::LentMut);
        args.extend(more.iter().map(|&n| Arg::Number(n)));
        let mut words = self.words.clone();
        if let Some(row) = row {
            words[SET_WORDS * self.person..SET_WORDS * (self.person + 1)].copy_from_slice(&row);
        }
        Question {
            function,
            args,
            due: Outcome {
                result: number,
                written: vec![bytes64(&words)],
            },
        }
    }
}

/// What is asked of one set: its size, and of several indexes every search, run and change.
pub fn questions(case_seed: u64) -> Vec<Question> {
    let mut seed = Seed::new(case_seed);
    let row = Row::new(&mut seed);
    let case = &row.case;
    let set = case.rust();
    let mut asked = vec![
        row.number("boltraven_is_empty", &[], u64::from(set.is_empty())),
        row.number("boltraven_count", &[], set.count() as u64),
    ];
    for _ in 0..3 {
        let i = index(&mut seed, case.len);
        asked.push(row.number("boltraven_contains", &[i], u64::from(set.contains(i))));
        asked.push(row.number("boltraven_next_set", &[i], found(set.next_set(i))));
        asked.push(row.number("boltraven_prev_set", &[i], found(set.prev_set(i))));
        asked.push(row.number("boltraven_next_unset_after", &[i], found(next_unset_after(case, i))));
        asked.push(row.number("boltraven_prev_unset_before", &[i], found(prev_unset_before(case, i))));
        let outs = [seed.word(), seed.word(), seed.word()];
        asked.push(row.held(i, &outs[..2]));
        let run = next_run(case, i).map(|(first, last)| vec![first as u64, last as u64, last as u64 + 1]);
        asked.push(row.numbers("boltraven_next_run", i, &outs, run));
        let member = next_member(case, i).map(|at| vec![at as u64, at as u64 + 1]);
        asked.push(row.numbers("boltraven_next_member", i, &outs[..2], member));
        asked.extend(changes(&mut seed, &row, i));
    }
    let alone: Vec<Question> = asked.iter().filter_map(|question| row.alone(question)).collect();
    asked.extend(alone);
    asked.extend(all_runs(&mut seed, &row));
    asked.extend(listed_runs(&mut seed, &row));
    asked
}

/// The questions that are asked of one set too, by their names there.
const ALONE: [(&str, &str); 9] = [
    ("boltraven_contains", "boltraven_set_contains"),
    ("boltraven_is_empty", "boltraven_set_is_empty"),
    ("boltraven_count", "boltraven_set_count"),
    ("boltraven_next_set", "boltraven_set_next_set"),
    ("boltraven_prev_set", "boltraven_set_prev_set"),
    ("boltraven_next_unset_after", "boltraven_set_next_unset_after"),
    ("boltraven_prev_unset_before", "boltraven_set_prev_unset_before"),
    ("boltraven_run_bounds", "boltraven_set_run_bounds"),
    ("boltraven_next_member", "boltraven_set_next_member"),
];

impl Row {
    /// The same question of the person's set alone: the length, its words and what lies behind them, and what else is asked.
    fn alone(&self, question: &Question) -> Option<Question> {
        let (_, function) = ALONE.iter().find(|(name, _)| *name == question.function)?;
        let words = self.words.get(SET_WORDS * self.person..).unwrap_or_default();
        let mut args = vec![Arg::Number(self.case.len as u64), Arg::Lent(8, bytes64(words))];
        args.extend(question.args[4..].iter().cloned());
        let due = question.due.clone();
        Some(Question { function, args, due })
    }

    /// Everybody's runs, as the Rust's readers give them.
    fn every_run(&self) -> Vec<Vec<(usize, usize)>> {
        let set = |words: &[u64]| SetCase {
            len: self.case.len,
            words: words.try_into().expect("a set's words"),
        };
        let rows = self.words.chunks_exact(SET_WORDS).take(self.people);
        rows.map(|words| set(words).rust().runs().collect()).collect()
    }
}

/// A column of entries as they come, and the same with numbers in its first ones.
fn column(seed: &mut Seed, room: usize, numbers: &[usize]) -> (Vec<u16>, Vec<u16>) {
    let was: Vec<u16> = (0..room).map(|_| seed.word() as u16).collect();
    let mut due = was.clone();
    for (entry, &number) in due.iter_mut().zip(numbers) {
        *entry = number as u16;
    }
    (was, due)
}

/// A call that writes columns, and what it leaves in them.
fn listing(function: &'static str, before: Vec<Arg>, columns: Vec<(Vec<u16>, Vec<u16>)>, after: Vec<Arg>, result: u64) -> Question {
    let mut args = before;
    args.extend(columns.iter().map(|(was, _)| Arg::LentMut(2, bytes16(was))));
    args.extend(after);
    let written = columns.iter().map(|(_, due)| bytes16(due)).collect();
    Question {
        function,
        args,
        due: Outcome { result, written },
    }
}

/// All runs in columns: the person's, and everybody's in one call.
fn listed_runs(seed: &mut Seed, row: &Row) -> Vec<Question> {
    let everybody = row.every_run();
    let (len, spare) = (row.case.len, seed.below(3) as usize);
    let firsts = |runs: &[(usize, usize)]| runs.iter().map(|run| run.0).collect::<Vec<_>>();
    let lasts = |runs: &[(usize, usize)]| runs.iter().map(|run| run.1).collect::<Vec<_>>();
    let before = || {
        let mut args = row.args(Arg::Lent);
        args.truncate(3);
        args
    };
    let own = &everybody[row.person];
    let columns = vec![column(seed, len + spare, &firsts(own)), column(seed, len, &lasts(own))];
    let person = vec![Arg::Number(row.person as u64)];
    let own = listing("boltraven_all_runs", before(), columns, person, own.len() as u64);
    let all = everybody.concat();
    let counts: Vec<usize> = everybody.iter().map(Vec::len).collect();
    let columns = vec![
        column(seed, row.people + spare, &counts),
        column(seed, row.people * len, &firsts(&all)),
        column(seed, row.people * len + spare, &lasts(&all)),
    ];
    vec![own, listing("boltraven_every_run", before(), columns, vec![], all.len() as u64)]
}

/// Damaged calls of one set and of lists: a length or a count above its limit, fewer words than a set's, and columns without room.
fn damaged_lists(seed: &mut Seed, row: &Row, i: usize) -> Vec<Question> {
    let mut asked = vec![];
    let set_number = lowest(&[(1, row.case.len <= SLOTS_MOST), (2, row.words.len() >= SET_WORDS)]);
    if set_number > 0 {
        let args = || vec![Arg::Number(row.case.len as u64), Arg::Lent(8, bytes64(&row.words))];
        for (_, function) in ALONE {
            let (index, outs) = match function {
                "boltraven_set_is_empty" | "boltraven_set_count" => (None, 0),
                "boltraven_set_run_bounds" | "boltraven_set_next_member" => (Some(i), 2),
                _ => (Some(i), 0),
            };
            let mut args = args();
            args.extend(index.map(|i| Arg::Number(i as u64)));
            let outs: Vec<u64> = (0..outs).map(|_| seed.word()).collect();
            asked.push(Question::beside(function, args, &outs, NOTHING + set_number, None));
        }
    }
    // room by what passes for counts: a column one entry short, or long enough
    let (people, len) = (row.people.min(PEOPLE_MOST), row.case.len.min(SLOTS_MOST));
    let short = |seed: &mut Seed, room: usize| if seed.one_in(3) { room.saturating_sub(1) } else { room };
    let (k, n, m) = (short(seed, people), short(seed, people * len), short(seed, people * len));
    let counts_ok = people_ok(row.people) && row.case.len <= SLOTS_MOST;
    let number = lowest(&[
        (1, counts_ok),
        (
            2,
            words_ok(row.people, row.words.len()) && people <= k && people * len <= n && people * len <= m,
        ),
    ]);
    if number > 0 {
        let mut before = row.args(Arg::Lent);
        before.truncate(3);
        let columns = vec![column(seed, k, &[]), column(seed, n, &[]), column(seed, m, &[])];
        asked.push(listing("boltraven_every_run", before, columns, vec![], NOTHING + number));
    }
    let (n, m) = (short(seed, len), short(seed, len));
    let number = lowest(&[
        (1, counts_ok),
        (2, words_ok(row.people, row.words.len()) && len <= n && len <= m),
        (11, row.person < row.people),
    ]);
    if number > 0 {
        let mut before = row.args(Arg::Lent);
        before.truncate(3);
        let columns = vec![column(seed, n, &[]), column(seed, m, &[])];
        let person = vec![Arg::Number(row.person as u64)];
        asked.push(listing("boltraven_all_runs", before, columns, person, NOTHING + number));
    }
    asked
}

/// Insert, remove and stretches at an index. The Rust has no answer for an index past the length: the paper's is 11.
fn changes(seed: &mut Seed, row: &Row, i: usize) -> Vec<Question> {
    let case = &row.case;
    let inside = i < case.len;
    let number = if inside { 0 } else { 11 };
    let changed = |value: bool| {
        let mut set = case.rust();
        if inside && value {
            set.insert(i);
        } else if inside {
            set.remove(i);
        }
        Some(case.words_of(&set))
    };
    let value = seed.one_in(2);
    let to = index(seed, case.len);
    let (from, to) = if seed.one_in(6) { (to, i) } else { (i.min(to), i.max(to)) };
    let within = to <= from || to <= case.len;
    let mut set = case.rust();
    if within {
        for k in from..to {
            if value {
                set.insert(k);
            } else {
                set.remove(k);
            }
        }
    }
    vec![
        row.change("boltraven_insert", &[i as u64], number, changed(true)),
        row.change("boltraven_remove", &[i as u64], number, changed(false)),
        row.change(
            "boltraven_put_stretch",
            &[from as u64, to as u64, u64::from(value)],
            if within { 0 } else { 11 },
            Some(case.words_of(&set)),
        ),
    ]
}

/// The whole reader: every run, each from the cursor that the one before it left, then nothing.
fn all_runs(seed: &mut Seed, row: &Row) -> Vec<Question> {
    let outs = [seed.word(), seed.word(), seed.word()];
    let mut cursor = 0;
    let mut asked = Vec::new();
    // a set of single members has hundreds of runs: the first twenty, and the end
    for (first, last) in row.case.rust().runs().take(20) {
        let due = vec![first as u64, last as u64, last as u64 + 1];
        asked.push(row.numbers("boltraven_next_run", cursor, &outs, Some(due)));
        cursor = last + 1;
    }
    asked.push(row.numbers("boltraven_next_run", row.case.len, &outs, None));
    asked
}

/// Damaged calls: the Rust has no refusals, so the number is the paper's, worked out here by its table.
pub fn damaged(case_seed: u64) -> Vec<Question> {
    let mut seed = Seed::new(case_seed);
    let mut row = Row::new(&mut seed);
    let i = index(&mut seed, row.case.len);
    if seed.one_in(2) {
        row.people = seed.pick(&[0, 33, 34, 1 << 40, usize::MAX]);
    }
    if seed.one_in(2) {
        row.case.len = seed.pick(&[SLOTS_MOST + 1, SLOTS_MOST + 2, 2000, 1 << 32, usize::MAX]);
    }
    if seed.one_in(2) {
        let keep = seed.below(row.words.len() as u64 + 1) as usize;
        row.words.truncate(keep);
    }
    if seed.one_in(2) {
        row.person = seed.pick(&[row.people, row.people.saturating_add(1), usize::MAX]);
    }
    let number = row.number_due();
    let mut asked = damaged_lists(&mut seed, &row, i);
    if number == 0 {
        return asked;
    }
    let refused = NOTHING + number;
    let outs = [seed.word(), seed.word(), seed.word()];
    asked.push(row.number("boltraven_is_empty", &[], refused));
    asked.push(row.number("boltraven_count", &[], refused));
    for function in [
        "boltraven_contains",
        "boltraven_next_set",
        "boltraven_prev_set",
        "boltraven_next_unset_after",
        "boltraven_prev_unset_before",
    ] {
        asked.push(row.number(function, &[i], refused));
    }
    for (function, count) in [("boltraven_run_bounds", 2), ("boltraven_next_run", 3), ("boltraven_next_member", 2)] {
        let mut question = row.numbers(function, i, &outs[..count], None);
        question.due.result = refused;
        asked.push(question);
    }
    for function in ["boltraven_insert", "boltraven_remove"] {
        asked.push(row.change(function, &[i as u64], number, None));
    }
    asked.push(row.change("boltraven_put_stretch", &[i as u64, i as u64, 1], number, None));
    asked
}

impl Row {
    /// A row: 1, 2, 11.
    fn number_due(&self) -> u64 {
        lowest(&[
            (1, people_ok(self.people) && self.case.len <= SLOTS_MOST),
            (2, words_ok(self.people, self.words.len())),
            (11, self.person < self.people),
        ])
    }
}
