//! Refusals, and what lies past the ends, through the lent slices.

use boltraven::lent::{Held, SET_WORDS, SLOTS_MOST};
use boltraven::{lent, Fault, Refusal, LISTING_MOST};

const SPARE: u64 = 0xa5a5_a5a5_a5a5_a5a5;

/// Two slots of an hour each; person 0 available for both, person 1 for the second; bits past the slots are set.
const STARTS: [u32; 2] = [0, 60];
const ENDS: [u32; 2] = [60, 120];

fn avail() -> Vec<u64> {
    let mut words = vec![SPARE; 33];
    words[0] = SPARE | 0b11;
    words[SET_WORDS] = (SPARE | 0b10) & !0b01;
    words
}

/// The columns of each line of a table.
fn rows(table: &str) -> Vec<Vec<&str>> {
    table.lines().map(|line| line.split('\t').collect()).collect()
}

#[test]
fn every_refusal_has_its_number_and_sentence() {
    let table = include_str!("../../../tools/refusals.txt");
    let numbers = Refusal::SENTENCES.iter().map(|(number, _)| *number);
    assert!(numbers.eq(1..=13));
    for (row, (number, sentence)) in rows(table).into_iter().zip(Refusal::SENTENCES) {
        let refusal = Refusal::try_from(u64::from(number)).unwrap_or(Refusal::Recount(Fault::WrongMinutes { person: 3 }));
        let name = format!("{refusal:?}");
        let name = name.split('(').next().expect("there is a name");
        assert_eq!(row, [&number.to_string(), name, sentence]);
        assert_eq!((refusal.number(), refusal.sentence()), (number, sentence));
        assert_eq!(Refusal::try_from(u64::from(refusal)), Ok(refusal));
        if number != 10 {
            assert_eq!(u64::from(refusal), u64::from(number));
            assert_eq!(refusal.to_string(), format!("refused by {number}: {sentence}"));
        }
    }
    assert_eq!(table.lines().count(), Refusal::SENTENCES.len());
}

#[test]
fn every_fault_has_its_numbers_and_sentence() {
    let faults = [
        (Fault::UnknownOwner { slot: 1023 }, 1, 1023, 0),
        (Fault::UnavailableOwner { slot: 256 }, 2, 256, 0),
        (Fault::UnevenUnit { unit: 7 }, 3, 7, 0),
        (Fault::WrongSet { person: 31, slot: 1023 }, 4, 31, 1023),
        (Fault::WrongMinutes { person: 31 }, 5, 31, 0),
        (Fault::WrongTotal { total: 1 }, 6, 1, 0),
    ];
    let table = rows(include_str!("../../../tools/faults.txt"));
    assert_eq!(table.len(), faults.len());
    for (row, (fault, part, place, second)) in table.into_iter().zip(faults) {
        assert_eq!((fault.part(), fault.place(), fault.second()), (part, place, second));
        assert_eq!(row[0], part.to_string());
        assert!(format!("{fault:?}").starts_with(row[1]), "{fault:?}");
        let sentence = row[2]
            .replace("{place}", &place.to_string())
            .replace("{second}", &second.to_string());
        assert_eq!(fault.to_string(), sentence);
        let refusal = Refusal::Recount(fault);
        assert_eq!(refusal.to_string(), format!("refused by 10.{part}: The recount fails: {sentence}."));
        let answer = 10 + 256 * u64::from(part) + 65_536 * place as u64 + 4_294_967_296 * second as u64;
        assert_eq!((u64::from(refusal), Refusal::try_from(answer)), (answer, Ok(refusal)));
    }
    // no number, one past the last, no part, a part too many, a place beside another number, a slot where none is due, bits past the last
    for answer in [
        0,
        14,
        10,
        10 + 256 * 9,
        9 + 256,
        11 + 65_536,
        10 + 256 + (1 << 32),
        10 + 256 + (1 << 48),
    ] {
        assert!(Refusal::try_from(answer).is_err(), "{answer}");
    }
}

#[test]
fn the_lowest_number_is_given() {
    let words = [0; SET_WORDS];
    assert_eq!(lent::contains(0, 2000, &words, 0, 0), Err(Refusal::Count));
    assert_eq!(lent::contains(1, 64, &words[..3], 9, 0), Err(Refusal::ShortBuffer));
    assert_eq!(lent::contains(1, 64, &words, 1, 0), Err(Refusal::Unknown));
    assert_eq!(lent::contains(1, 64, &words, 0, usize::MAX), Ok(false));
    assert_eq!(lent::contains(usize::MAX, 64, &words, 0, 0), Err(Refusal::Count));
    assert_eq!(lent::contains(1, 64, &[], 0, 0), Err(Refusal::ShortBuffer));
}

#[test]
fn each_number_of_slots_and_targets_comes_through() {
    let (mut froms, mut tos) = (vec![7; SLOTS_MOST], vec![7; SLOTS_MOST]);
    let mut atomise = |starts: &[u32], ends: &[u32], person: u16| {
        lent::atomise(1, starts.len(), 1, starts, ends, &[person], &[30], &[90], &mut froms, &mut tos)
    };
    assert_eq!(atomise(&[0, 50], &[60, 120], 0), Err(Refusal::BaseSlot));
    assert_eq!(atomise(&STARTS, &ENDS, 1), Err(Refusal::Range));
    assert_eq!(atomise(&STARTS, &ENDS, 0), Ok(4));
    assert_eq!(froms[..5], [0, 30, 60, 90, 7]);
    assert_eq!(tos[..5], [30, 60, 90, 120, 7]);

    let bases: Vec<u32> = (0..SLOTS_MOST as u32).map(|k| 10 * k).collect();
    let ends: Vec<u32> = bases.iter().map(|start| start + 10).collect();
    let many = lent::atomise(1, SLOTS_MOST, 1, &bases, &ends, &[0], &[5], &[6], &mut froms, &mut tos);
    assert_eq!(many, Err(Refusal::TooManySlots));
    assert_eq!(froms[..5], [0, 30, 60, 90, 7]);

    let mut out = [-1; 3];
    let mut targets = |capacity: f64, fairness: u8, ends: &[u32]| {
        lent::compute_targets(2, 2, fairness, 0, &STARTS, ends, &avail(), &[1.0, capacity], &[0, 0], &mut out)
    };
    assert_eq!(targets(f64::NAN, 0, &ENDS), Err(Refusal::Figures));
    assert_eq!(targets(1.0, 2, &ENDS), Err(Refusal::Settings));
    assert_eq!(targets(1.0, 0, &[61, 120]), Err(Refusal::Slots));
    assert_eq!(targets(1.0, 0, &ENDS), Ok(()));
    assert_eq!(out, [80, 40, -1]);
}

#[test]
fn a_rota_keeps_what_lies_past_its_ends() {
    let mut owners = vec![0, 0, 77];
    let mut sets = vec![SPARE; 33];
    let mut minutes = vec![SPARE; 3];
    let mut totals = vec![SPARE; 3];
    let made = lent::from_slots(2, 2, &STARTS, &ENDS, &avail(), &owners, &mut sets, &mut minutes, &mut totals);
    assert_eq!(made, Ok(()));
    assert_eq!(minutes, [120, 0, SPARE]);
    assert_eq!(totals, [0, 0, SPARE]);
    assert_eq!((sets[0], sets[SET_WORDS]), (SPARE | 0b11, SPARE & !0b11));
    assert!(sets.iter().enumerate().all(|(k, &word)| k == 0 || k == SET_WORDS || word == SPARE));

    // Person 1 can't have slot 0, and there is no slot 2: nothing changes.
    let before = (owners.clone(), sets.clone(), minutes.clone(), totals.clone());
    for (slot, owner, refusal) in [(0, 1, Refusal::Unavailable), (2, 0, Refusal::Unknown), (0, 2, Refusal::Unknown)] {
        let refused = lent::assign(
            2,
            2,
            &STARTS,
            &ENDS,
            &avail(),
            &mut owners,
            &mut sets,
            &mut minutes,
            &mut totals,
            slot,
            owner,
        );
        assert_eq!(refused, Err(refusal));
        assert_eq!((&owners, &sets, &minutes, &totals), (&before.0, &before.1, &before.2, &before.3));
    }

    let mut answers = [9; 4];
    let frozen = [SPARE & !0b11; SET_WORDS];
    let mut play = |owners: &mut [u8], minutes: &mut [u64], totals: &mut [u64]| {
        let (draws, firsts, seconds) = ([0, 100, 35], [1, 0, 0], [1, 0, 9]);
        lent::play(
            2,
            2,
            2,
            3,
            &STARTS,
            &ENDS,
            &avail(),
            &[0, 1],
            &frozen,
            &draws,
            &firsts,
            &seconds,
            owners,
            &mut sets,
            minutes,
            totals,
            &mut answers,
        )
    };
    let wrong = |fault| Err(Refusal::Recount(fault));
    totals[1] += 1;
    assert_eq!(play(&mut owners, &mut minutes, &mut totals), wrong(Fault::WrongTotal { total: 1 }));
    totals[0] += 1;
    assert_eq!(play(&mut owners, &mut minutes, &mut totals), wrong(Fault::WrongTotal { total: 0 }));
    minutes[0] += 1;
    assert_eq!(
        play(&mut owners, &mut minutes, &mut totals),
        wrong(Fault::WrongMinutes { person: 0 })
    );
    assert_eq!(play(&mut owners, &mut minutes, &mut totals[..1]), Err(Refusal::ShortBuffer));
    minutes[0] -= 1;
    totals[..2].fill(0);
    assert_eq!(play(&mut owners, &mut minutes, &mut totals), Ok(()));
    assert_eq!(answers, [0, 2, 2, 9]);
    assert_eq!(owners, [0, 1, 77]);
    assert_eq!(minutes, [60, 60, SPARE]);
    assert_eq!(totals, [0, 0, SPARE]);
}

#[test]
fn domains_of_all_units_are_masks_or_refused_whole() {
    let mut masks = [7; 3];
    let mut asked = |people: usize, unit_starts: &[u16], room: usize| {
        let done = lent::unit_domains(people, 2, unit_starts.len(), &avail(), unit_starts, &mut masks[..room]);
        (done, masks)
    };
    assert_eq!(asked(33, &[1], 0), (Err(Refusal::Count), [7; 3]));
    assert_eq!(asked(2, &[1, 0], 1), (Err(Refusal::ShortBuffer), [7; 3]));
    assert_eq!(asked(2, &[1], 3), (Err(Refusal::Slots), [7; 3]));
    assert_eq!(asked(2, &[0, 1], 3), (Ok(()), [0b01, 0b11, 7]));
    assert_eq!(asked(1, &[0], 1), (Err(Refusal::ShortBuffer), [0b01, 0b11, 7]));
    assert_eq!(asked(1, &[0], 2), (Ok(()), [0b1, 0b11, 7]));
}

#[test]
fn a_job_is_listed_or_refused_whole() {
    let mut out = vec![7; LISTING_MOST + 3];
    let mut length = SPARE;
    for (file, refusal) in [(vec![1], Refusal::JobFile), (vec![0; 49_153], Refusal::JobFile)] {
        assert_eq!(lent::run_job(&file, &mut out, &mut length), Err(refusal));
    }
    // Settings and a base slot, but nobody to cover it.
    let mut file = vec![8, 0, 1, 0, 0, 0, 0, 0, 1, 0, 1, 0];
    file.extend([8, 0, 2, 0, 0, 0, 0, 0, 60, 0, 0, 0]);
    assert_eq!(lent::run_job(&file, &mut out, &mut length), Err(Refusal::Count));
    // One person, of capacity 0, who is never there.
    file.extend([12, 0, 3, 0, 0, 0, 0, 0, 0, 0, 0, 0, 0, 0, 0, 0]);
    assert_eq!(lent::run_job(&file, &mut out[..100], &mut length), Err(Refusal::ShortBuffer));
    assert_eq!((length, out.iter().all(|&byte| byte == 7)), (SPARE, true));

    let listing = b"S 0 0 60 -\nP 0 0 60\nU 60\n";
    assert_eq!(lent::run_job(&file, &mut out, &mut length), Ok(()));
    assert_eq!(length, listing.len() as u64);
    assert_eq!(&out[..listing.len()], listing);
    assert!(out[listing.len()..].iter().all(|&byte| byte == 7));
}

#[test]
fn numbers_beside_a_result_stay_where_there_is_none() {
    let words = [0; SET_WORDS];
    let (mut first, mut last, mut next) = (SPARE, SPARE, SPARE);
    assert_eq!(lent::run_bounds(1, 64, &words, 0, 64, &mut first, &mut last), Ok(Held::Outside));
    assert_eq!(lent::run_bounds(1, 64, &words, 1, 3, &mut first, &mut last), Err(Refusal::Unknown));
    assert_eq!(lent::next_run(1, 64, &words, 0, 0, &mut first, &mut last, &mut next), Ok(false));
    assert_eq!(lent::next_member(1, 2000, &words, 0, 0, &mut first, &mut next), Err(Refusal::Count));
    assert_eq!(lent::minutes_per_day(1, &[5], &[5], &mut last), Err(Refusal::Slots));
    assert_eq!((first, last, next), (SPARE, SPARE, SPARE));
}
