//! Stores of settings, by a store of the generator's own: records are kept as a list, and bytes are made of it or read into it.

use crate::call::{Arg, Outcome, Question};
use crate::limits::NOTHING;
use crate::problems::Settings;
use crate::seed::Seed;
use crate::stored::Stored;
use crate::table::settings_ok;

/// The kinds: the old body, the body with its edition, and the last of the newer ones.
const OLD: u16 = 32;
const EDITION: u16 = 33;
const LAST: u16 = 63;

/// The most records, and the bytes of one with settings.
const RECORDS_MOST: usize = 128;
const RECORD: usize = 12;

/// A record: its kind and its body.
#[derive(Debug, Clone, PartialEq, Eq)]
struct Record {
    kind: u16,
    body: Vec<u8>,
}

impl Record {
    fn of_settings(kind: u16, s: Settings) -> Self {
        let mut body = vec![s.fairness, s.lock, s.boundary, s.edition];
        body.extend(s.value.to_le_bytes());
        body.extend(s.days.to_le_bytes());
        Self { kind, body }
    }

    fn bytes(&self) -> Vec<u8> {
        let size = u16::try_from(self.body.len()).expect("a body of 16 bits");
        [&size.to_le_bytes()[..], &self.kind.to_le_bytes(), &self.body].concat()
    }

    /// Whether a store may have it.
    fn is_right(&self) -> bool {
        match self.kind {
            OLD => self.body.len() == 8 && self.body[3] == 0,
            EDITION => self.body.len() == 8,
            kind => kind > EDITION && kind <= LAST,
        }
    }

    /// Its six figures, where it is of a kind that has them.
    fn settings(&self) -> Option<Settings> {
        let word = |at: usize| u16::from_le_bytes([self.body[at], self.body[at + 1]]);
        (self.kind <= EDITION).then(|| Settings {
            fairness: self.body[0],
            lock: self.body[1],
            boundary: self.body[2],
            edition: self.body[3],
            value: word(4),
            days: word(6),
        })
    }
}

/// The bytes as records, whole ones alone; None where bytes are left over.
fn split(mut bytes: &[u8]) -> Option<Vec<Record>> {
    let mut records = Vec::new();
    while !bytes.is_empty() {
        let (head, rest) = (bytes.get(..4)?, &bytes[4..]);
        let size = usize::from(u16::from_le_bytes([head[0], head[1]]));
        let (body, rest) = (rest.get(..size)?, &rest[size..]);
        let kind = u16::from_le_bytes([head[2], head[3]]);
        records.push(Record { kind, body: body.to_vec() });
        bytes = rest;
    }
    Some(records)
}

/// An area with its used length.
#[derive(Debug, Clone)]
pub struct Area {
    bytes: Vec<u8>,
    used: usize,
}

impl Area {
    /// The records, or the number by which every question is refused.
    fn records(&self) -> Result<Vec<Record>, u64> {
        let used = self.bytes.get(..self.used).ok_or(2u64)?;
        let records = split(used).ok_or(13u64)?;
        if records.len() <= RECORDS_MOST && records.iter().all(Record::is_right) {
            return Ok(records);
        }
        Err(13)
    }

    /// How many records.
    fn count(&self) -> Result<u64, u64> {
        Ok(self.records()?.len() as u64)
    }

    /// The settings of a number; None of a newer record.
    fn ask(&self, number: u64) -> Result<Option<Settings>, u64> {
        let records = self.records()?;
        let place = number.checked_sub(1).and_then(|place| usize::try_from(place).ok()).ok_or(11u64)?;
        match records.get(place).ok_or(11u64)?.settings() {
            Some(s) if !settings_ok(s) => Err(7),
            settings => Ok(settings),
        }
    }

    /// The area with settings saved, and their number.
    fn save(&self, s: Settings) -> Result<(u64, Area), u64> {
        let records = self.records()?;
        if records.len() == RECORDS_MOST || self.bytes.len() - self.used < RECORD {
            return Err(5);
        }
        if !settings_ok(s) {
            return Err(7);
        }
        let mut after = self.clone();
        after.used += RECORD;
        after.bytes[self.used..after.used].copy_from_slice(&Record::of_settings(EDITION, s).bytes());
        Ok((records.len() as u64 + 1, after))
    }
}

// ---- what is made

/// Figures, at their limits often; in one of `wrong` cases one of them is past its limit.
fn figures(seed: &mut Seed, wrong: u64) -> Settings {
    let boundary = seed.below(2) as u8;
    let mut s = Settings {
        fairness: seed.below(2) as u8,
        lock: seed.below(2) as u8,
        boundary,
        edition: seed.below(2) as u8,
        value: seed.pick(if boundary == 0 { &[0, 1, 255, 256, 1024] } else { &[0, 1, 31, 127] }),
        days: seed.pick(&[0, 1, 7, 256, 366]),
    };
    if seed.one_in(wrong) {
        match seed.below(6) {
            0 => s.fairness = seed.pick(&[2, 255]),
            1 => s.lock = seed.pick(&[2, 255]),
            2 => s.boundary = seed.pick(&[2, 255]),
            3 => s.edition = seed.pick(&[2, 255]),
            4 => s.value = seed.pick(&[1025, 65_535]),
            _ => s.days = seed.pick(&[367, 65_535]),
        }
    }
    s
}

/// A record that a store may have.
fn record(seed: &mut Seed, longest: u64) -> Record {
    match seed.below(4) {
        0 => Record::of_settings(
            OLD,
            Settings {
                edition: 0,
                ..figures(seed, 5)
            },
        ),
        1 => {
            let size = seed.pick(&[0, 1, 7, 8, 9, longest]);
            let body = (0..size).map(|_| seed.word() as u8).collect();
            Record {
                kind: seed.within(u64::from(EDITION) + 1, u64::from(LAST)) as u16,
                body,
            }
        }
        _ => Record::of_settings(EDITION, figures(seed, 5)),
    }
}

/// Records of a store; now and then with a body as long as there may be.
fn records(seed: &mut Seed) -> Vec<Record> {
    let some = seed.below(12);
    let count = seed.pick(&[0, 1, 2, some, 126, 127, 128, 129]);
    let mut records: Vec<Record> = (0..count).map(|_| record(seed, 20)).collect();
    if seed.one_in(12) {
        records.truncate(3);
        records.push(Record {
            kind: LAST,
            body: vec![seed.word() as u8; seed.pick(&[65_535, 65_534, 256])],
        });
    }
    records
}

/// An area with these records, and some bytes behind them.
fn area(seed: &mut Seed, records: &[Record]) -> Area {
    let mut bytes: Vec<u8> = records.iter().flat_map(Record::bytes).collect();
    let used = bytes.len();
    let left = seed.pick(&[0, 11, 12, 13, 24, 40]);
    bytes.extend((0..left).map(|_| seed.word() as u8));
    Area { bytes, used }
}

/// One fault of the layout, at any record, or none.
fn with_fault(seed: &mut Seed, mut records: Vec<Record>) -> Area {
    let at = seed.below(records.len().max(1) as u64) as usize;
    let fault = seed.below(9);
    if let Some(one) = records.get_mut(at) {
        match fault {
            0 => one.kind = seed.pick(&[0, 1, 31, 64, 288, 65_535]),
            1 => {
                *one = Record {
                    kind: seed.pick(&[OLD, EDITION]),
                    body: vec![0; seed.pick(&[0, 7, 9, 264])],
                }
            }
            2 => {
                *one = Record::of_settings(OLD, figures(seed, 3));
                one.body[3] = seed.pick(&[1, 2, 255]);
            }
            _ => {}
        }
    }
    if fault == 3 {
        records.resize(129, Record { kind: LAST, body: vec![] });
    }
    let mut made = area(seed, &records);
    let start: usize = records.iter().take(at).map(|one| one.bytes().len()).sum();
    match fault {
        // a body that goes past the used bytes, or another size for what stands there
        4 if made.used > start => made.bytes[start] = seed.pick(&[255, 9, 0]),
        5 if made.used > start + 1 => made.bytes[start + 1] = seed.pick(&[1, 255]),
        // bytes left over, or too few
        6 => made.used += seed.within(1, 3) as usize,
        7 => made.used = made.used.saturating_sub(seed.within(1, 11) as usize),
        // used bytes that the area hasn't got
        8 => made.used = made.bytes.len() + seed.pick(&[1, 2, 12, 65_536]),
        _ => {}
    }
    made
}

// ---- questions

/// What stood in the six places before they were asked for.
const WAS: Settings = Settings {
    fairness: 171,
    lock: 172,
    boundary: 173,
    edition: 174,
    value: 43_981,
    days: 43_982,
};

/// The six figures, each as the bytes of its own place.
fn places(s: Settings) -> Vec<Vec<u8>> {
    let bytes = [s.fairness, s.lock, s.boundary, s.edition].into_iter().map(|figure| vec![figure]);
    bytes.chain([s.value, s.days].map(|figure| figure.to_le_bytes().to_vec())).collect()
}

fn count(area: &Area) -> Question {
    let args = vec![Arg::Lent(1, area.bytes.clone()), Arg::Number(area.used as u64)];
    Question::number("boltraven_count_settings", args, area.count().unwrap_or_else(|n| NOTHING + n))
}

fn ask(area: &Area, number: u64) -> Question {
    let answer = area.ask(number);
    let mut args = vec![Arg::Lent(1, area.bytes.clone()), Arg::Number(area.used as u64), Arg::Number(number)];
    args.extend(places(WAS).into_iter().map(|place| Arg::LentMut(place.len(), place)));
    let result = match answer {
        Ok(Some(_)) => 0,
        Ok(None) => 1,
        Err(n) => NOTHING + n,
    };
    let written = places(answer.ok().flatten().unwrap_or(WAS));
    Question {
        function: "boltraven_ask_settings",
        args,
        due: Outcome { result, written },
    }
}

fn save(area: &Area, s: Settings) -> Question {
    const WAS: [u64; 2] = [0x0123_4567_89ab_cdef, 77];
    let mut args = vec![Arg::LentMut(1, area.bytes.clone()), Arg::Number(area.used as u64)];
    let bytes = [s.fairness, s.lock, s.boundary, s.edition].map(|figure| Arg::Number(u64::from(figure)));
    args.extend(bytes);
    args.extend([s.value, s.days].map(|figure| Arg::Number(u64::from(figure))));
    args.extend(WAS.map(Arg::Out));
    let (result, after, numbers) = match area.save(s) {
        Ok((number, after)) => {
            let used = after.used as u64;
            (0, after, [number, used])
        }
        Err(n) => (n, area.clone(), WAS),
    };
    let mut written = vec![after.bytes];
    written.extend(numbers.map(|n| n.to_le_bytes().to_vec()));
    Question {
        function: "boltraven_save_settings",
        args,
        due: Outcome { result, written },
    }
}

/// Every question to an area: its count, numbers at both ends and some between, and settings saved.
fn asked(seed: &mut Seed, area: &Area) -> Vec<Question> {
    let n = area.count().unwrap_or(3);
    let mut numbers = vec![0, 1, n, n + 1, u64::MAX];
    numbers.extend((0..4).map(|_| seed.below(n + 2)));
    let mut questions = vec![count(area)];
    questions.extend(numbers.into_iter().map(|number| ask(area, number)));
    questions.extend([save(area, figures(seed, 3)), save(area, figures(seed, 1))]);
    questions
}

/// A store as it is, and after each of some saves.
pub fn questions(seed: u64) -> Vec<Question> {
    let seed = &mut Seed::new(seed);
    let records = records(seed);
    let mut area = area(seed, &records);
    let mut questions = asked(seed, &area);
    for _ in 0..3 {
        let s = figures(seed, 9);
        questions.push(save(&area, s));
        if let Ok((number, after)) = area.save(s) {
            questions.extend([count(&after), ask(&after, number), ask(&after, seed.below(number + 2))]);
            area = after;
        }
    }
    questions
}

/// A store with a fault of its layout, or none.
pub fn damaged(seed: u64) -> Vec<Question> {
    let seed = &mut Seed::new(seed);
    let records = records(seed);
    let area = with_fault(seed, records);
    asked(seed, &area)
}

// ---- stored answers

/// The first area that is stored: an old record, a newer one, and room for one more.
fn example() -> Area {
    let mut bytes = vec![8, 0, 32, 0, 1, 0, 0, 0, 14, 0, 7, 0, 2, 0, 40, 0, 9, 9];
    bytes.resize(32, 0xaa);
    Area { bytes, used: 18 }
}

/// What the example is saved as, and asked for.
const SAVED: Settings = Settings {
    fairness: 0,
    lock: 1,
    boundary: 1,
    edition: 1,
    value: 31,
    days: 2,
};

/// A refusal in a record.
const REFUSED: u64 = 1000;

/// The longest area that is stored.
const SMALL: usize = 600;

/// An area with any fault or none; each sixteenth has about as many records as there may be, most of them without a body.
fn small_area(seed: &mut Seed, k: u64) -> Area {
    let records = records(seed);
    if k % 16 > 0 {
        return with_fault(seed, records);
    }
    let count = seed.pick(&[127, 128, 129]);
    let mut bare = vec![Record { kind: LAST, body: vec![] }; count];
    bare[count - 1] = Record::of_settings(
        OLD,
        Settings {
            edition: 0,
            ..figures(seed, 5)
        },
    );
    area(seed, &bare)
}

/// Records of stores. A record is, in u16 numbers, low byte first: the length of the area, its used length, and the number asked for; the count
/// that is due; 0 for the figures asked for or 1 for a newer record; these figures, as a body has them; the figures to be saved; 0 where
/// they are, the number that is due and the used length then; the area; and the area after the save. A refusal n is 1,000 + n, and what
/// isn't answered is 0. The first records are those of the example, then areas with every fault and without.
pub fn stored(n: u64, run: u64) -> Stored {
    let mut bytes = Vec::new();
    let mut made = 0;
    let mut put = |area: &Area, number: u64, s: Settings| {
        put_record(&mut bytes, area, number, s);
        made += 1;
    };
    let example = example();
    let after = example.save(SAVED).expect("it has room").1;
    for number in 0..4 {
        put(&example, number, SAVED);
    }
    for number in [1, 2, 3, 4] {
        put(&after, number, SAVED);
    }
    put(
        &Area {
            used: 33,
            ..example.clone()
        },
        1,
        SAVED,
    );
    put(
        &Area {
            used: 17,
            ..example.clone()
        },
        1,
        SAVED,
    );
    let mut broken = example.clone();
    broken.bytes[7] = 1;
    put(&broken, 2, SAVED);
    crate::stored::records(n, run, "stored-stores", |seed, k| {
        let area = small_area(seed, k);
        let fits = area.bytes.len() <= SMALL && u16::try_from(area.used).is_ok();
        if fits {
            let number = seed.below(area.count().unwrap_or(2) + 2);
            put(&area, number, figures(seed, 4));
        }
        fits
    });
    Stored::new(bytes, 3 * made)
}

fn put_record(bytes: &mut Vec<u8>, area: &Area, number: u64, s: Settings) {
    let short = |bytes: &mut Vec<u8>, n: u64| bytes.extend(u16::try_from(n).expect("a number of 16 bits").to_le_bytes());
    short(bytes, area.bytes.len() as u64);
    short(bytes, area.used as u64);
    short(bytes, number);
    short(bytes, area.count().unwrap_or_else(|n| REFUSED + n));
    const NONE: Settings = Settings {
        fairness: 0,
        lock: 0,
        boundary: 0,
        edition: 0,
        value: 0,
        days: 0,
    };
    let (told, asked) = match area.ask(number) {
        Ok(Some(s)) => (0, s),
        Ok(None) => (1, NONE),
        Err(n) => (REFUSED + n, NONE),
    };
    short(bytes, told);
    bytes.extend(Record::of_settings(EDITION, asked).body);
    bytes.extend(Record::of_settings(EDITION, s).body);
    let (done, number, after) = match area.save(s) {
        Ok((number, after)) => (0, number, after),
        Err(n) => (REFUSED + n, 0, Area { used: 0, ..area.clone() }),
    };
    short(bytes, done);
    short(bytes, number);
    short(bytes, after.used as u64);
    bytes.extend(&area.bytes);
    bytes.extend(&after.bytes);
}
