//! Published and draft columns. The Rust has none: what is due is worked out here slot by slot, from a list of flags, by the request's own
//! words; the library searches words and hands stretches on.

use crate::bits::put_bit;
use crate::call::{bytes64, Arg, Outcome, Question};
use crate::limits::{NOTHING, SET_WORDS, SLOTS_MOST};
use crate::seed::Seed;
use crate::stored::{records, Stored};

/// The most parts of a walk that are asked one by one; the list screen is the whole of it.
const WALKED: usize = 40;

/// Two owner columns as they are lent, with the flags and a list to show them in.
#[derive(Debug, Clone)]
struct ColumnsCase {
    slots: usize,
    published: Vec<u8>,
    draft: Vec<u8>,
    frozen: Vec<u64>,
    shown: Vec<u8>,
}

/// How many slots: at word edges, few, or any.
fn slot_count(seed: &mut Seed, most: usize) -> usize {
    let edges: Vec<usize> = [1, 2, 63, 64, 65, 127, 128, 1023, 1024]
        .into_iter()
        .filter(|&n| n <= most)
        .collect();
    match seed.below(3) {
        0 => seed.pick(&edges),
        1 => seed.within(1, 12) as usize,
        _ => seed.within(1, most as u64) as usize,
    }
}

/// Flags of sixteen words: none, all, alternating, an opening stretch, stretches across words, or any; what lies past the count is garbage.
fn flags(seed: &mut Seed, slots: usize) -> Vec<u64> {
    let mut words: Vec<u64> = (0..SET_WORDS).map(|_| seed.word()).collect();
    let shape = seed.below(6);
    let (first, length) = (seed.below(2), seed.within(1, 150));
    let opening = seed.below(slots as u64 + 1);
    for slot in 0..slots {
        let k = slot as u64;
        let flag = match shape {
            0 => false,
            1 => true,
            2 => k % 2 == first,
            3 => k < opening,
            4 => (k / length) % 2 == first,
            _ => continue,
        };
        put_bit(&mut words, 0, slot, flag);
    }
    words
}

fn owners(seed: &mut Seed, n: usize) -> Vec<u8> {
    (0..n).map(|_| if seed.one_in(4) { 255 } else { seed.word() as u8 }).collect()
}

impl ColumnsCase {
    /// Columns that nothing stands against, up to so many slots.
    fn new(seed: &mut Seed, most: usize) -> Self {
        let slots = slot_count(seed, most);
        let long = slots
            + if seed.one_in(2) {
                seed.below((most - slots) as u64 + 1).min(5) as usize
            } else {
                0
            };
        let frozen = flags(seed, slots);
        Self {
            slots,
            published: owners(seed, long),
            draft: owners(seed, long),
            frozen,
            shown: owners(seed, slots),
        }
    }

    /// The same with something changed that is refused, or not.
    fn damaged(mut self, seed: &mut Seed) -> Self {
        for _ in 0..seed.within(1, 2) {
            match seed.below(8) {
                0 => self.slots = seed.pick(&[0, SLOTS_MOST + 1, self.slots.saturating_add(1), usize::MAX]),
                1 => self.draft.push(seed.word() as u8),
                2 => self.published.push(seed.word() as u8),
                3 => drop(self.draft.pop()),
                4 => drop(self.published.pop()),
                5 => {
                    self.published.pop();
                    self.draft.pop();
                }
                6 => self.frozen.truncate(seed.pick(&[0, 1, SET_WORDS - 1])),
                _ => drop(self.shown.pop()),
            }
        }
        self
    }

    /// The refusal of the columns, by the rules in order.
    fn refusal(&self) -> u64 {
        let is_count = (1..=SLOTS_MOST).contains(&self.slots);
        let is_equal = self.published.len() == self.draft.len();
        let is_long = self.published.len() >= self.slots && self.draft.len() >= self.slots && self.frozen.len() >= SET_WORDS;
        match (is_count, is_equal && is_long) {
            (false, _) => 1,
            (true, false) => 2,
            (true, true) => 0,
        }
    }

    /// Whether each slot is frozen, one after the other.
    fn flags(&self) -> Vec<bool> {
        let bits = self.frozen.iter().flat_map(|word| (0..64).map(move |k| word >> k & 1 == 1));
        bits.take(self.slots).collect()
    }

    /// The owner read of each slot: as published where it is frozen, as in the draft where not.
    fn read(&self) -> Vec<u8> {
        let both = self.published.iter().zip(&self.draft);
        both.zip(self.flags())
            .map(|((&p, &d), is_frozen)| if is_frozen { p } else { d })
            .collect()
    }

    /// A slot's part, by its column and its length; or the refusal.
    fn part(&self, slot: usize) -> Result<(bool, usize), u64> {
        match self.refusal() {
            0 if slot >= self.slots => Err(11),
            0 => {
                let flags = self.flags();
                let length = flags[slot..].iter().take_while(|&&flag| flag == flags[slot]).count();
                Ok((flags[slot], length))
            }
            refusal => Err(refusal),
        }
    }

    /// The published column after publishing, and the number.
    fn after_publishing(&self) -> (u64, Vec<u8>) {
        match self.refusal() {
            0 => (0, [self.read().as_slice(), &self.published[self.slots..]].concat()),
            refusal => (refusal, self.published.clone()),
        }
    }

    /// The list after it was shown, and the number.
    fn after_showing(&self) -> (u64, Vec<u8>) {
        match self.refusal() {
            0 if self.shown.len() < self.slots => (2, self.shown.clone()),
            0 => (0, [self.read().as_slice(), &self.shown[self.slots..]].concat()),
            refusal => (refusal, self.shown.clone()),
        }
    }

    fn count_arg(&self) -> Arg {
        Arg::Number(self.slots as u64)
    }

    fn flags_arg(&self) -> Arg {
        Arg::Lent(8, bytes64(&self.frozen))
    }

    fn read_args(&self) -> Vec<Arg> {
        vec![
            self.count_arg(),
            Arg::Lent(1, self.published.clone()),
            Arg::Lent(1, self.draft.clone()),
            self.flags_arg(),
        ]
    }

    fn stretch(&self, slot: usize, was: u64) -> Question {
        let mut args = self.read_args();
        args.push(Arg::Number(slot as u64));
        let (result, length) = match self.part(slot) {
            Ok((is_published, length)) => (u64::from(is_published), Some(vec![length as u64])),
            Err(refusal) => (NOTHING + refusal, None),
        };
        Question::beside("boltraven_stretch", args, &[was], result, length)
    }

    fn publish(&self) -> Question {
        let (result, after) = self.after_publishing();
        Question {
            function: "boltraven_publish",
            args: vec![
                self.count_arg(),
                Arg::Lent(1, self.draft.clone()),
                self.flags_arg(),
                Arg::LentMut(1, self.published.clone()),
            ],
            due: Outcome {
                result,
                written: vec![after],
            },
        }
    }

    fn show(&self) -> Question {
        let (result, after) = self.after_showing();
        let mut args = self.read_args();
        args.push(Arg::LentMut(1, self.shown.clone()));
        let due = Outcome {
            result,
            written: vec![after],
        };
        Question {
            function: "boltraven_show",
            args,
            due,
        }
    }

    /// Some slots' parts, a walk from slot 0 on by the parts that are due, the list screen, publishing, and publishing again.
    fn questions(&self, seed: &mut Seed) -> Vec<Question> {
        let mut asked = Vec::new();
        for _ in 0..6 {
            let past = seed.pick(&[self.slots, self.slots.saturating_add(1), usize::MAX]);
            let slot = if seed.one_in(6) {
                past
            } else {
                seed.below(self.slots.clamp(1, 2048) as u64) as usize
            };
            asked.push(self.stretch(slot, seed.word()));
        }
        let mut at = 0;
        for _ in 0..WALKED {
            let Ok((_, length)) = self.part(at) else { break };
            asked.push(self.stretch(at, seed.word()));
            at += length;
        }
        let mut again = self.clone();
        again.published = self.after_publishing().1;
        asked.extend([self.show(), self.publish(), again.publish(), again.show()]);
        asked
    }
}

/// Columns that nothing stands against.
pub fn questions(seed: u64) -> Vec<Question> {
    let mut seed = Seed::new(seed);
    ColumnsCase::new(&mut seed, SLOTS_MOST).questions(&mut seed)
}

/// Columns that something may stand against.
pub fn damaged(seed: u64) -> Vec<Question> {
    let mut seed = Seed::new(seed);
    let case = ColumnsCase::new(&mut seed, SLOTS_MOST).damaged(&mut seed);
    case.questions(&mut seed)
}

// ---- stored answers

/// The most entries of a stored column, how many slots a record asks, and what a list holds before it is shown.
const MOST: usize = 80;
const ASKED: usize = 6;
const FILL: u8 = 171;

/// The worked example: six slots, frozen 0, 1 and 4; asked all six, the one past them, and with a draft that is one longer.
fn examples() -> Vec<(ColumnsCase, [usize; ASKED])> {
    let mut frozen = vec![0; SET_WORDS];
    frozen[0] = 0b1_0011;
    let case = ColumnsCase {
        slots: 6,
        published: vec![0, 1, 2, 3, 0, 1],
        draft: vec![9, 9, 1, 1, 255, 9],
        frozen,
        shown: vec![FILL; 6],
    };
    let mut longer = case.clone();
    longer.draft.push(0);
    vec![
        (case.clone(), [0, 1, 2, 3, 4, 5]),
        (case, [6, 7, 0, 1, 2, 3]),
        (longer, [0, 1, 2, 3, 4, 6]),
    ]
}

/// Records of columns. First how many, as u16. A record is, low byte first: the slots and how many entries of the published column, the
/// draft, the flags and the list are lent, as u16; 16 words of flags; the published column, the draft and the owner read of each slot, of 80
/// bytes each; six times a slot, the number of its refusal, the column (1 published, 0 draft, 100 and the number where refused) and the
/// part's length, as u16; the number that publishing answers and the column after it; the same of the list screen.
pub fn stored(n: u64, run: u64) -> Stored {
    let mut bytes = u16::try_from(n).expect("few records").to_le_bytes().to_vec();
    let examples = examples();
    records(n, run, "stored-columns", |seed, made| {
        let (case, asked) = match examples.get(made as usize) {
            Some((case, asked)) => (case.clone(), *asked),
            None => sample(seed),
        };
        record(&mut bytes, &case, &asked);
        true
    });
    Stored::new(bytes, n * (3 * ASKED as u64 + 4))
}

/// A case that fits a record, one in three of them damaged, with slots to ask.
fn sample(seed: &mut Seed) -> (ColumnsCase, [usize; ASKED]) {
    let mut case = ColumnsCase::new(seed, MOST - 2);
    if seed.one_in(3) {
        case = case.damaged(seed);
        case.slots = case.slots.min(SLOTS_MOST + 1);
    }
    case.shown.fill(FILL);
    let mut asked = [0; ASKED];
    for slot in &mut asked {
        *slot = seed.below(case.slots.min(MOST) as u64 + 2) as usize;
    }
    (case, asked)
}

fn record(bytes: &mut Vec<u8>, case: &ColumnsCase, asked: &[usize; ASKED]) {
    let half = |bytes: &mut Vec<u8>, n: usize| bytes.extend(u16::try_from(n).expect("it fits").to_le_bytes());
    let column = |bytes: &mut Vec<u8>, owners: &[u8], fill: u8| {
        bytes.extend_from_slice(owners);
        bytes.extend(vec![fill; MOST - owners.len()]);
    };
    for n in [
        case.slots,
        case.published.len(),
        case.draft.len(),
        case.frozen.len(),
        case.shown.len(),
    ] {
        half(bytes, n);
    }
    let mut words = case.frozen.clone();
    words.resize(SET_WORDS, u64::MAX);
    bytes.extend(bytes64(&words));
    column(bytes, &case.published, 0);
    column(bytes, &case.draft, 0);
    column(bytes, &if case.refusal() == 0 { case.read() } else { vec![] }, 0);
    for &slot in asked {
        let (refusal, which, length) = match case.part(slot) {
            Ok((is_published, length)) => (0, usize::from(is_published), length),
            Err(refusal) => (refusal as usize, 100 + refusal as usize, 0),
        };
        for n in [slot, refusal, which, length] {
            half(bytes, n);
        }
    }
    for ((number, after), fill) in [(case.after_publishing(), 0), (case.after_showing(), FILL)] {
        half(bytes, number as usize);
        column(bytes, &after, fill);
    }
}

#[cfg(test)]
mod tests {
    use super::{examples, ColumnsCase};
    use crate::limits::SLOTS_MOST;
    use crate::seed::Seed;

    /// The model says of the worked example what the request's worked example says.
    #[test]
    fn the_example_is_as_worked() {
        let [(case, _), _, (longer, _)] = &examples()[..] else {
            panic!("three examples")
        };
        let parts: Vec<_> = (0..7).map(|slot| case.part(slot)).collect();
        let due = [
            Ok((true, 2)),
            Ok((true, 1)),
            Ok((false, 2)),
            Ok((false, 1)),
            Ok((true, 1)),
            Ok((false, 1)),
            Err(11),
        ];
        assert_eq!(parts, due);
        assert_eq!(case.after_publishing(), (0, vec![0, 1, 1, 1, 0, 9]));
        assert_eq!(case.after_showing(), (0, vec![0, 1, 1, 1, 0, 9]));
        assert_eq!(longer.part(0), Err(2));
    }

    /// All shapes of flags are asked: no change, one at each slot, and stretches over more than a word.
    #[test]
    fn every_shape_is_reached() {
        let (mut none, mut each, mut long) = (0, 0, 0);
        for k in 0..300 {
            let flags = ColumnsCase::new(&mut Seed::new(k), SLOTS_MOST).flags();
            let ends = (1..=flags.len()).filter(|&k| k == flags.len() || flags[k] != flags[k - 1]);
            let stretches: Vec<usize> = ends.scan(0, |from, end| Some(end - std::mem::replace(from, end))).collect();
            none += u64::from(stretches.len() == 1 && flags.len() > 1);
            each += u64::from(stretches.len() == flags.len() && flags.len() > 64);
            long += u64::from(stretches.len() > 1 && stretches.iter().any(|&length| length > 64));
        }
        assert!(none > 20 && each > 5 && long > 20, "{none} {each} {long}");
    }
}
