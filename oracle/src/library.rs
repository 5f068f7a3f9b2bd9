//! The library's side: its exported functions, called in this process through the binding's lent slices. Every lent buffer stands between
//! guards, so that a write past either end is seen, and one that is only read is compared with what was lent.

use std::any::Any;
use std::io;

use boltraven::{lent, Draw, Refusal, Rule};

use crate::call::{Arg, Outcome, Question};
use crate::limits::NOTHING;

/// Asks a question.
pub fn ask(question: &Question) -> io::Result<Outcome> {
    let mut passed: Vec<Passed> = question.args.iter().map(|arg| Passed { arg, lent: None }).collect();
    let mut args = Args { left: passed.iter_mut() };
    let result = call(question.function, &mut args);
    assert!(args.left.next().is_none(), "{} has fewer arguments", question.function);
    let mut written = Vec::new();
    for Passed { arg, lent } in &passed {
        let Some(buffer) = lent else { continue };
        let wrong = |what: &str| io::Error::other(format!("{}: a lent buffer {what}", question.function));
        if !buffer.guards_stand() {
            return Err(wrong("was written past its end"));
        }
        match arg {
            Arg::Lent(_, bytes) if *bytes != buffer.bytes() => return Err(wrong("that is only read was written")),
            Arg::Lent(..) => {}
            _ => written.push(buffer.bytes()),
        }
    }
    Ok(Outcome { result, written })
}

// ---- the exported functions

/// The names of all that the library exports, by the binding's declarations.
pub fn exports() -> impl Iterator<Item = String> {
    let declared = include_str!("../../bindings/rust/src/lent.rs").lines();
    let names = declared.filter_map(|line| line.strip_prefix("    pub fn ")?.split('(').next());
    // The Rust has no version to compare.
    names.filter(|name| *name != "version").map(|name| format!("boltraven_{name}"))
}

/// Every function, one after the other: how its answer is said as a number, its name, and what each of its arguments is.
macro_rules! exports {
    ($($answer:ident $name:ident($($kind:ident),*);)*) => {
        /// Calls a function by its name; its result as the library's number.
        fn call(function: &str, args: &mut Args) -> u64 {
            $(if function == concat!("boltraven_", stringify!($name)) {
                return $answer(lent::$name($(args.$kind()),*));
            })*
            panic!("{function} is not among the exports")
        }
    };
}

exports! {
    yes_no contains(number, number, slice, number, number);
    yes_no is_empty(number, number, slice, number);
    number count(number, number, slice, number);
    found next_set(number, number, slice, number, number);
    found prev_set(number, number, slice, number, number);
    found next_unset_after(number, number, slice, number, number);
    found prev_unset_before(number, number, slice, number, number);
    held run_bounds(number, number, slice, number, number, out, out);
    wrote next_run(number, number, slice, number, number, out, out, out);
    wrote next_member(number, number, slice, number, number, out, out);
    done insert(number, number, slice, number, number);
    done remove(number, number, slice, number, number);
    done put_stretch(number, number, slice, number, number, number, number);
    yes_no set_contains(number, slice, number);
    yes_no set_is_empty(number, slice);
    number set_count(number, slice);
    found set_next_set(number, slice, number);
    found set_prev_set(number, slice, number);
    found set_next_unset_after(number, slice, number);
    found set_prev_unset_before(number, slice, number);
    held set_run_bounds(number, slice, number, out, out);
    wrote set_next_member(number, slice, number, out, out);
    number all_runs(number, number, slice, slice, slice, number);
    number every_run(number, number, slice, slice, slice, slice);
    number merged_ranges(number, number, slice, slice, slice, slice, slice, slice);
    number atomise(number, number, number, slice, slice, slice, slice, slice, slice, slice);
    done availability(number, number, number, slice, slice, slice, slice, slice, slice);
    number freeze_before(number, slice, slice, slice, number);
    yes_no is_available(number, number, slice, number, number);
    number rotation_starts(number, number, number, number, number, number, number, slice, slice, slice);
    number unit_starts(number, number, number, number, number, number, number, slice, slice, slice);
    done unit_slots(number, number, slice, number, out, out);
    number unit_of_slot(number, number, slice, number);
    done covered_days(number, slice, slice, out);
    done demand(number, slice, slice, out);
    done slot_minutes(number, slice, slice, number, out);
    done minutes_per_day(number, slice, slice, out);
    done target_run(number, number, number, number, number, number, number, slice, slice, out);
    done achievable_run(number, number, number, number, number, number, number, number, slice, slice, slice, number, out);
    done achievable_runs(number, number, number, number, number, number, number, number, slice, slice, slice, slice);
    number unit_domain(number, number, number, slice, slice, slice, number);
    done unit_domains(number, number, number, slice, slice, slice);
    number slot_domain(number, number, slice, slice, number);
    yes_no unit_frozen(number, number, slice, slice, number);
    plain date_of(number);
    plain weekday_of(number);
    done compute_targets(number, number, number, number, slice, slice, slice, slice, slice, slice);
    done from_slots(number, number, slice, slice, slice, slice, slice, slice, slice);
    done assign(number, number, slice, slice, slice, slice, slice, slice, slice, number, number);
    done play(
        number, number, number, number, slice, slice, slice, slice, slice, slice, slice, slice, slice, slice, slice, slice, slice
    );
    done play_draws(number, number, number, number, slice, slice, slice, slice, slice, slice, slice, slice, slice, slice, slice);
    led replay_block(
        number, number, number, number, slice, slice, slice, slice, slice, slice, slice, slice, slice, slice, slice, slice, slice, out
    );
    length job_end(slice);
    done begin_recording(slice, slice, slice, slice, slice, slice, slice, slice, slice, slice, slice, out, out, out);
    led read_block(slice, number, slice, slice, slice, slice, out, out);
    led way_back(
        number, number, number, slice, slice, slice, slice, slice, slice, slice, slice, slice, slice, slice, slice, slice, out
    );
    number mend(number, number, number, slice, slice, slice, slice, slice, slice, slice, slice, slice, slice);
    retired retire(
        number, number, number, number, number, number, number, number, number, number, number, slice, slice, slice, slice, slice, slice, slice,
        slice, slice, slice, slice, slice, slice, slice, slice, slice, out
    );
    done retire_column(number, number, number, slice);
    done empty(number, number, slice, slice, slice, slice, slice, slice);
    done recount(number, number, number, slice, slice, slice, slice, slice, slice, slice, slice);
    done recount_slots(number, number, slice, slice, slice, slice, slice, slice, slice);
    number owner_of_slot(number, number, slice, number);
    done minutes_of(number, slice, number, out);
    number unassigned_count(number, number, slice);
    done uncovered_minutes(number, number, slice, slice, slice, out);
    yes_no stretch(number, slice, slice, slice, number, out);
    done publish(number, slice, slice, slice);
    done show(number, slice, slice, slice, slice);
    judged may_be_used(number, number, number, number, number, slice, slice, slice, slice, slice, slice, slice, out);
    done run_job(slice, slice, out);
    number count_settings(slice, number);
    done save_settings(slice, number, number, number, number, number, number, number, out, out);
    kept ask_settings(slice, number, number, place, place, place, place, place, place);
}

// ---- answers as numbers

fn number_of(refusal: Refusal) -> u64 {
    u64::from(refusal)
}

fn done(answer: Result<(), Refusal>) -> u64 {
    answer.map_or_else(number_of, |()| 0)
}

fn number(answer: Result<usize, Refusal>) -> u64 {
    answer.map_or_else(|refusal| NOTHING + number_of(refusal), |count| count as u64)
}

fn found(answer: Result<Option<usize>, Refusal>) -> u64 {
    number(answer.map(|slot| slot.unwrap_or(NOTHING as usize)))
}

fn yes_no(answer: Result<bool, Refusal>) -> u64 {
    number(answer.map(usize::from))
}

fn wrote(answer: Result<bool, Refusal>) -> u64 {
    found(answer.map(|is_written| is_written.then_some(0)))
}

fn held(answer: Result<lent::Held, Refusal>) -> u64 {
    found(answer.map(|held| match held {
        lent::Held::Run => Some(0),
        lent::Held::Hole => Some(1),
        lent::Held::Outside => None,
    }))
}

fn kept(answer: Result<lent::Kept, Refusal>) -> u64 {
    number(answer.map(|kept| match kept {
        lent::Kept::Figures => 0,
        lent::Kept::Newer => 1,
    }))
}

fn judged(answer: Result<Option<Rule>, Refusal>) -> u64 {
    number(answer.map(|broken| broken.map_or(0, |rule| usize::from(rule.number()))))
}

fn led(answer: Result<bool, Refusal>) -> u64 {
    answer.map_or_else(number_of, |is_way| if is_way { 0 } else { NOTHING })
}

fn retired(answer: Result<lent::Retiring, Refusal>) -> u64 {
    answer.map_or_else(number_of, |retiring| match retiring {
        lent::Retiring::Retired => 0,
        lent::Retiring::Nothing => NOTHING,
        lent::Retiring::Everything => 2 * NOTHING,
    })
}

fn length(answer: usize) -> u64 {
    answer as u64
}

fn plain(answer: u32) -> u64 {
    u64::from(answer)
}

// ---- arguments

/// An argument, with the buffer that was made of it.
struct Passed<'q> {
    arg: &'q Arg,
    lent: Option<Box<dyn Buffer>>,
}

/// The arguments of a call that are still to be passed.
struct Args<'a, 'q> {
    left: std::slice::IterMut<'a, Passed<'q>>,
}

impl<'a> Args<'a, '_> {
    fn number<N: TryFrom<Word>>(&mut self) -> N {
        let Some(Passed { arg: Arg::Number(n), .. }) = self.left.next() else {
            panic!("a number is due")
        };
        N::try_from(Word(*n)).unwrap_or_else(|_| panic!("{n} is no such number"))
    }

    fn slice<T: Element>(&mut self) -> &'a mut [T] {
        let Some(Passed {
            arg: Arg::Lent(size, bytes) | Arg::LentMut(size, bytes),
            lent,
        }) = self.left.next()
        else {
            panic!("a slice is due")
        };
        assert_eq!(*size, std::mem::size_of::<T>(), "an element is of another size");
        lend(lent, bytes)
    }

    /// One number that may be written, of any size: a slice of one.
    fn place<T: Element>(&mut self) -> &'a mut T {
        &mut self.slice()[0]
    }

    fn out(&mut self) -> &'a mut u64 {
        let Some(Passed { arg: Arg::Out(n), lent }) = self.left.next() else {
            panic!("an address is due")
        };
        &mut lend(lent, &n.to_le_bytes())[0]
    }
}

/// A number that is passed: u64, or narrower.
struct Word(u64);

macro_rules! narrowed {
    ($($number:ty),*) => {$(
        impl TryFrom<Word> for $number {
            type Error = std::num::TryFromIntError;

            fn try_from(word: Word) -> Result<Self, Self::Error> {
                <$number>::try_from(word.0)
            }
        }
    )*};
}

narrowed!(u8, u16, u32, usize);

impl TryFrom<Word> for bool {
    type Error = u64;

    fn try_from(word: Word) -> Result<Self, u64> {
        match word.0 {
            0 => Ok(false),
            1 => Ok(true),
            n => Err(n),
        }
    }
}

// ---- lent buffers

/// What a lent slice holds.
trait Element: Copy + 'static {
    /// What a guard is made of.
    fn guard() -> Self {
        Self::read(&vec![0xa5; std::mem::size_of::<Self>()])
    }

    fn read(bytes: &[u8]) -> Self;
    fn put(self, bytes: &mut Vec<u8>);
}

macro_rules! elements {
    ($($element:ty),*) => {$(
        impl Element for $element {
            fn read(bytes: &[u8]) -> Self {
                <$element>::from_le_bytes(bytes.try_into().expect("as many bytes as an element has"))
            }

            fn put(self, bytes: &mut Vec<u8>) {
                bytes.extend(self.to_le_bytes());
            }
        }
    )*};
}

elements!(u8, u16, u32, u64, i64, f64);

impl Element for Draw {
    fn read(bytes: &[u8]) -> Self {
        let (draw, rest) = bytes.split_at(2);
        let (first, second) = rest.split_at(2);
        Draw {
            draw: u16::read(draw),
            first: u16::read(first),
            second: u16::read(second),
        }
    }

    fn put(self, bytes: &mut Vec<u8>) {
        [self.draw, self.first, self.second]
            .into_iter()
            .for_each(|number| number.put(bytes));
    }
}

/// Elements of a guard.
const GUARD: usize = 64;

/// A buffer between two guards.
struct Guarded<T> {
    all: Vec<T>,
}

impl<T: Element> Guarded<T> {
    fn len(&self) -> usize {
        self.all.len() - 2 * GUARD
    }
}

/// A buffer of any element.
trait Buffer {
    fn bytes(&self) -> Vec<u8>;
    fn guards_stand(&self) -> bool;
    fn whole(&mut self) -> &mut dyn Any;
}

impl<T: Element> Buffer for Guarded<T> {
    fn bytes(&self) -> Vec<u8> {
        bytes_of(&self.all[GUARD..GUARD + self.len()])
    }

    fn guards_stand(&self) -> bool {
        let guard = bytes_of(&[T::guard(); GUARD]);
        bytes_of(&self.all[..GUARD]) == guard && bytes_of(&self.all[GUARD + self.len()..]) == guard
    }

    fn whole(&mut self) -> &mut dyn Any {
        self
    }
}

fn bytes_of<T: Element>(elements: &[T]) -> Vec<u8> {
    let mut bytes = Vec::with_capacity(std::mem::size_of_val(elements));
    elements.iter().for_each(|element| element.put(&mut bytes));
    bytes
}

/// Makes a buffer of bytes and lends it.
fn lend<'a, T: Element>(place: &'a mut Option<Box<dyn Buffer>>, bytes: &[u8]) -> &'a mut [T] {
    let guard = [T::guard(); GUARD];
    let within = bytes.chunks_exact(std::mem::size_of::<T>()).map(T::read);
    let all: Vec<T> = guard.into_iter().chain(within).chain(guard).collect();
    let buffer = place.insert(Box::new(Guarded { all }));
    let guarded = buffer.whole().downcast_mut::<Guarded<T>>().expect("it was just made");
    let end = GUARD + guarded.len();
    &mut guarded.all[GUARD..end]
}

#[cfg(test)]
mod tests {
    use super::{bytes_of, lend, Buffer, Guarded, GUARD};

    /// What is lent is what was given, byte by byte, and stands between guards.
    #[test]
    fn lent_bytes_are_those_given() {
        let bytes: Vec<u8> = (0..24).collect();
        let mut place = None;
        assert_eq!(bytes_of(lend::<u64>(&mut place, &bytes)), bytes);
        let buffer = place.expect("a buffer was made");
        assert_eq!(buffer.bytes(), bytes);
        assert!(buffer.guards_stand());
    }

    /// A write past either end is seen.
    #[test]
    fn guards_tell() {
        for (at, stand) in [(GUARD - 1, false), (GUARD, true), (GUARD + 3, true), (GUARD + 4, false)] {
            let mut all = vec![0xa5_u8; 2 * GUARD + 4];
            all[at] = 0;
            assert_eq!(Guarded { all }.guards_stand(), stand, "byte {at}");
        }
    }
}
