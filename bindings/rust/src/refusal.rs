//! The numbered refusals, and where a recount failed.

use std::error::Error;
use std::fmt;

/// A refusal that a number says alone; one that names a fault has none.
macro_rules! of_number {
    ($name:ident) => {
        Some(Refusal::$name)
    };
    ($name:ident $fault:ident) => {
        None
    };
}

/// Makes the enum of a table: each refusal by its name, its number and its sentence.
macro_rules! refusals {
    ($($name:ident$(($fault:ident))? = $number:literal, $sentence:literal;)*) => {
        /// Why a call was refused. A refused call changes nothing that was lent. Where several apply the lowest number is given, but 13
        /// before all. 8 is a guard, which no accepted figures reach. A failed recount says where it failed.
        ///
        /// ```
        /// use boltraven::{Fault, Refusal};
        ///
        /// assert_eq!(Refusal::Unavailable.number(), 12);
        /// assert_eq!(Refusal::Unavailable.sentence(), "A person is to get a slot for which they aren't available.");
        /// assert_eq!(Refusal::Unavailable.to_string(), "refused by 12: A person is to get a slot for which they aren't available.");
        ///
        /// let failed = Refusal::Recount(Fault::WrongSet { person: 2, slot: 17 });
        /// assert_eq!((failed.number(), Refusal::SENTENCES[9]), (10, (10, failed.sentence())));
        /// assert_eq!(failed.to_string(), "refused by 10.4: The recount fails: person 2's set is wrong at slot 17.");
        /// ```
        #[derive(Debug, Clone, Copy, PartialEq, Eq, PartialOrd, Ord, Hash)]
        pub enum Refusal {
            $(#[doc = concat!(stringify!($number), ": ", $sentence)] $name$(($fault))?,)*
        }

        impl Refusal {
            /// Every number with its sentence.
            pub const SENTENCES: [(u8, &'static str); [$($number),*].len()] = [$(($number, $sentence)),*];

            /// Its number, 1 to 13.
            pub const fn number(self) -> u8 {
                match self {
                    $(Refusal::$name { .. } => $number,)*
                }
            }

            /// What its number says, as a sentence.
            pub const fn sentence(self) -> &'static str {
                match self {
                    $(Refusal::$name { .. } => $sentence,)*
                }
            }

            fn of_number(number: u8) -> Option<Self> {
                match number {
                    $($number => of_number!($name$( $fault)?),)*
                    _ => None,
                }
            }
        }
    };
}

refusals! {
    Count = 1, "A count is outside its limits, or a set is longer than 1,024 slots.";
    ShortBuffer = 2, "A lent buffer is shorter than needed.";
    BaseSlot = 3, "A base slot is empty or reversed, ends after minute 100,000,000, or starts before the previous one ends.";
    Range = 4, "A range starts after its end, ends after minute 100,000,000, or names an unknown person.";
    TooManySlots = 5, "More than 1,024 atomic slots result, or a store of settings has no room.";
    Figures = 6, "A capacity is no number from 0 to 1,000, or prior minutes are above 100,000,000.";
    Settings = 7, "Fairness, lock, boundary, every-count, weekday mask, shift days, cap or rest are outside their limits.";
    Target = 8, "An unrounded target is not finite, or of size 2^40 or more.";
    Slots = 9, "Lent slots are empty, reversed, too late or overlap, or unit starts don't rise from 0 below the slot count.";
    Recount(Fault) = 10, "The recount fails: owners, units, sets, minutes and totals don't fit together.";
    Unknown = 11, "A slot, unit, person or index is not below its count, or no saved settings have the number.";
    Unavailable = 12, "A person is to get a slot for which they aren't available.";
    JobFile = 13, "The job file, a recording or the store of settings breaks its layout or is too long.";
}

/// Where a recount failed. The parts are checked in this order over the whole rota, and the lowest slot, unit, person or total at fault is
/// named: of a wrong set the lowest person, and that person's lowest slot.
///
/// ```
/// use boltraven::Fault;
///
/// let fault = Fault::WrongSet { person: 2, slot: 17 };
/// assert_eq!((fault.part(), fault.place(), fault.second()), (4, 2, 17));
/// assert_eq!(fault.to_string(), "person 2's set is wrong at slot 17");
/// assert_eq!(Fault::UnevenUnit { unit: 7 }.to_string(), "unit 7 has more than one owner");
/// ```
#[derive(Debug, Clone, Copy, PartialEq, Eq, PartialOrd, Ord, Hash)]
pub enum Fault {
    /// 10.1: the slot's owner is neither nobody nor below the number of people.
    UnknownOwner {
        /// The lowest such slot.
        slot: usize,
    },
    /// 10.2: the slot's owner isn't available for it.
    UnavailableOwner {
        /// The lowest such slot.
        slot: usize,
    },
    /// 10.3: the unit's slots don't have one owner.
    UnevenUnit {
        /// The lowest such unit.
        unit: usize,
    },
    /// 10.4: a slot is in the person's set and not the person's, or the other way round.
    WrongSet {
        /// The lowest person whose set is wrong.
        person: usize,
        /// That person's lowest such slot.
        slot: usize,
    },
    /// 10.5: the person's minutes aren't those of the slots that they own.
    WrongMinutes {
        /// The lowest such person.
        person: usize,
    },
    /// 10.6: a stored total isn't that of the slots that nobody owns.
    WrongTotal {
        /// The lower such total: 0 the uncovered minutes, 1 the unassigned slots.
        total: usize,
    },
}

impl Fault {
    /// Its part, 1 to 6, place and second number, which all parts but 4 have as 0.
    const fn numbers(self) -> (u8, usize, usize) {
        match self {
            Fault::UnknownOwner { slot } => (1, slot, 0),
            Fault::UnavailableOwner { slot } => (2, slot, 0),
            Fault::UnevenUnit { unit } => (3, unit, 0),
            Fault::WrongSet { person, slot } => (4, person, slot),
            Fault::WrongMinutes { person } => (5, person, 0),
            Fault::WrongTotal { total } => (6, total, 0),
        }
    }

    /// The part of the recount that failed: 3 in 10.3.
    pub const fn part(self) -> u8 {
        self.numbers().0
    }

    /// The slot, unit, person or total at fault.
    pub const fn place(self) -> usize {
        self.numbers().1
    }

    /// The slot of a wrong set; 0 otherwise.
    pub const fn second(self) -> usize {
        self.numbers().2
    }

    /// The fault of these numbers.
    fn of_numbers(part: u64, place: usize, second: usize) -> Option<Self> {
        match (part, second) {
            (1, 0) => Some(Fault::UnknownOwner { slot: place }),
            (2, 0) => Some(Fault::UnavailableOwner { slot: place }),
            (3, 0) => Some(Fault::UnevenUnit { unit: place }),
            (4, slot) => Some(Fault::WrongSet { person: place, slot }),
            (5, 0) => Some(Fault::WrongMinutes { person: place }),
            (6, 0) => Some(Fault::WrongTotal { total: place }),
            _ => None,
        }
    }
}

/// The sentence that a support desk reads out.
impl fmt::Display for Fault {
    fn fmt(&self, f: &mut fmt::Formatter<'_>) -> fmt::Result {
        match self {
            Fault::UnknownOwner { slot } => write!(f, "slot {slot}'s owner is unknown"),
            Fault::UnavailableOwner { slot } => write!(f, "slot {slot}'s owner is not available for it"),
            Fault::UnevenUnit { unit } => write!(f, "unit {unit} has more than one owner"),
            Fault::WrongSet { person, slot } => write!(f, "person {person}'s set is wrong at slot {slot}"),
            Fault::WrongMinutes { person } => write!(f, "person {person}'s minutes are wrong"),
            Fault::WrongTotal { total } => {
                write!(
                    f,
                    "stored total {total} is wrong (0 is the uncovered minutes, 1 the unassigned slots)"
                )
            }
        }
    }
}

impl Error for Fault {}

impl fmt::Display for Refusal {
    fn fmt(&self, f: &mut fmt::Formatter<'_>) -> fmt::Result {
        match self {
            Refusal::Recount(fault) => write!(f, "refused by 10.{}: The recount fails: {fault}.", fault.part()),
            _ => write!(f, "refused by {}: {}", self.number(), self.sentence()),
        }
    }
}

impl Error for Refusal {
    fn source(&self) -> Option<&(dyn Error + 'static)> {
        match self {
            Refusal::Recount(fault) => Some(fault),
            _ => None,
        }
    }
}

/// The one number that the library answers: the refusal's in bits 0 to 7, the part in 8 to 15, the place in 16 to 31, the second number in
/// 32 to 47. The refusal of another number than 10 is its number alone.
impl From<Refusal> for u64 {
    fn from(refusal: Refusal) -> u64 {
        let (part, place, second) = match refusal {
            Refusal::Recount(fault) => fault.numbers(),
            _ => (0, 0, 0),
        };
        u64::from(refusal.number()) | u64::from(part) << 8 | (place as u64) << 16 | (second as u64) << 32
    }
}

impl TryFrom<u64> for Refusal {
    type Error = NoRefusal;

    fn try_from(answer: u64) -> Result<Self, NoRefusal> {
        let short = |from: u32| usize::from((answer >> from) as u16);
        let known = match answer & 255 {
            10 if answer >> 48 == 0 => Fault::of_numbers(answer >> 8 & 255, short(16), short(32)).map(Refusal::Recount),
            _ => u8::try_from(answer).ok().and_then(Refusal::of_number),
        };
        known.ok_or(NoRefusal(answer))
    }
}

/// A number that is no refusal's.
///
/// ```
/// use boltraven::{Fault, NoRefusal, Refusal};
///
/// assert_eq!(Refusal::try_from(12), Ok(Refusal::Unavailable));
/// assert_eq!(Refusal::try_from(14), Err(NoRefusal(14)));
/// let failed = Refusal::Recount(Fault::UnevenUnit { unit: 7 });
/// assert_eq!((u64::from(failed), Refusal::try_from(0x7_030a)), (0x7_030a, Ok(failed)));
/// assert_eq!(Refusal::try_from(10), Err(NoRefusal(10))); // a failed recount has a part
/// ```
#[derive(Debug, Clone, Copy, PartialEq, Eq, Hash)]
pub struct NoRefusal(pub u64);

impl fmt::Display for NoRefusal {
    fn fmt(&self, f: &mut fmt::Formatter<'_>) -> fmt::Result {
        write!(f, "{} is no refusal's number", self.0)
    }
}

impl Error for NoRefusal {}

/// What was checked when its parts were made isn't refused later.
pub(crate) fn checked<T>(answer: Result<T, Refusal>) -> T {
    match answer {
        Ok(value) => value,
        Err(refusal) => unreachable!("checked before, and yet {refusal}"),
    }
}
