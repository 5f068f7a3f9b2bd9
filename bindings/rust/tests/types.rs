//! The types above the lent slices: refusals of what a caller passes, and sizes at their limits.

use boltraven::lent::SLOTS_MOST;
use boltraven::{
    retire_column, Answer, Assignment, Availability, Boundary, Draw, Edition, Fairness, Fault, Job, Person, Problem, Range, Recording,
    Refusal, Replay, Retiring, Run, Settings, Slot, SlotSet, Slots, Weekday,
};

const ONE: Person = Person { capacity: 1.0, prior: 0 };

/// Two slots a unit.
const PAIRS: Settings = Settings {
    fairness: Fairness::Capacity,
    lock: true,
    boundary: Boundary::EverySlots(2),
    edition: Edition::First,
    days: 1,
};

/// Days of an hour, one slot each.
fn days(count: u32) -> Vec<Slot> {
    (0..count)
        .map(|day| Slot {
            start: day * 1440,
            end: day * 1440 + 60,
        })
        .collect()
}

/// Somebody who is always there.
fn always(person: usize) -> Range {
    Range {
        person,
        start: 0,
        end: 100_000_000,
    }
}

#[test]
fn what_is_too_much_or_too_little_is_refused() {
    let build = |slots: u32, people: usize, ranges: usize| {
        let base = days(slots);
        Problem::build(Settings::default(), &base, &vec![ONE; people], &vec![always(0); ranges])
    };
    assert!(build(1024, 32, 1024).is_ok());
    assert_eq!(build(1025, 1, 1).err(), Some(Refusal::Count));
    assert_eq!(build(0, 1, 1).err(), Some(Refusal::Count));
    assert_eq!(build(1, 33, 1).err(), Some(Refusal::Count));
    assert_eq!(build(1, 0, 0).err(), Some(Refusal::Count));
    assert_eq!(build(1, 1, 1025).err(), Some(Refusal::Count));
    let slots = Slots::new(&days(1)).expect("one slot is taken");
    assert_eq!(Availability::new(usize::MAX, &slots, &[]).err(), Some(Refusal::Count));
}

#[test]
fn figures_and_settings_are_refused() {
    let base = days(2);
    let with = |settings, person| Problem::build(settings, &base, &[person], &[always(0)]).err();
    let late = Person { prior: 100_000_001, ..ONE };
    let never = Person {
        capacity: f64::NEG_INFINITY,
        ..ONE
    };
    let far = Settings {
        boundary: Boundary::EverySlots(1025),
        ..Settings::default()
    };
    let long = Settings {
        days: 367,
        ..Settings::default()
    };
    assert_eq!(with(Settings::default(), late), Some(Refusal::Figures));
    assert_eq!(with(far, never), Some(Refusal::Figures));
    assert_eq!(with(far, ONE), Some(Refusal::Settings));
    assert_eq!(with(long, ONE), Some(Refusal::Settings));
    let unknown = [always(65_536)];
    assert_eq!(
        Problem::build(Settings::default(), &base, &[ONE], &unknown).err(),
        Some(Refusal::Range)
    );
}

#[test]
fn rotas_refuse_and_stay() {
    let mut problem = Problem::build(Settings::default(), &days(3), &[ONE; 2], &[always(0)]).expect("it is taken");
    assert_eq!(Assignment::from_slots(&problem, &[None; 2]).err(), Some(Refusal::ShortBuffer));
    for person in [2, 254, 255, 256, usize::MAX] {
        let owners = [Some(person), None, None];
        assert_eq!(Assignment::from_slots(&problem, &owners).err(), Some(Refusal::Unknown));
    }
    let away = [Some(1), None, None];
    assert_eq!(Assignment::from_slots(&problem, &away).err(), Some(Refusal::Unavailable));

    let mut rota = Assignment::from_slots(&problem, &[Some(0), None, None]).expect("person 0 is there");
    let before = rota.clone();
    assert_eq!(rota.assign(&problem, 0, Some(1)), Err(Refusal::Unavailable));
    assert_eq!(rota.assign(&problem, 3, None), Err(Refusal::Unknown));
    assert_eq!(rota.assign(&problem, 0, Some(255)), Err(Refusal::Unknown));
    let draw = Draw {
        draw: 0,
        first: 1,
        second: 0,
    };
    assert_eq!(rota.play(&problem, &vec![draw; 1025]), Err(Refusal::Count));
    assert_eq!(rota.get(3), Err(Refusal::Unknown));
    assert_eq!(rota.slots_of(2), Err(Refusal::Unknown));
    assert_eq!(rota.assigned_minutes(2), Err(Refusal::Unknown));
    assert_eq!(rota, before);

    assert_eq!(problem.freeze_before(60), 1);
    let first = Draw { first: 0, ..draw };
    assert_eq!(
        rota.play(&problem, &[draw, first, draw]),
        Ok(vec![Answer::Acted, Answer::NoMove, Answer::NoMove])
    );
    assert_eq!((rota.unassigned_count(), rota.stored_unassigned_count()), (1, 1));
    assert_eq!((rota.uncovered_minutes(&problem), rota.stored_uncovered_minutes()), (Ok(60), 60));
}

#[test]
fn a_unit_with_two_owners_fails_the_recount() {
    let problem = Problem::build(PAIRS, &days(4), &[ONE; 2], &[always(0), always(1)]).expect("it is taken");
    let mut rota = Assignment::empty(&problem);
    assert_eq!(rota.recount(&problem), Ok(()));
    assert_eq!((rota.stored_uncovered_minutes(), rota.stored_unassigned_count()), (240, 4));
    assert_eq!(rota.assign(&problem, 3, Some(1)), Ok(()));
    assert_eq!((rota.stored_uncovered_minutes(), rota.stored_unassigned_count()), (180, 3));
    let uneven = Refusal::Recount(Fault::UnevenUnit { unit: 1 });
    assert_eq!(rota.recount(&problem), Err(uneven));
    assert_eq!(rota.play(&problem, &[]), Err(uneven));
    assert_eq!(rota.assign(&problem, 2, Some(1)), Ok(()));
    assert_eq!(rota.recount(&problem), Ok(()));
    // The first pair, which nobody owns, goes whole to person 0.
    let pair = Draw {
        draw: 0,
        first: 0,
        second: 0,
    };
    assert_eq!(rota.play(&problem, &[pair]), Ok(vec![Answer::Acted]));
    assert_eq!((rota.stored_uncovered_minutes(), rota.stored_unassigned_count()), (0, 0));
    assert_eq!(problem.unit_of_slot(4), Err(Refusal::Unknown));
    assert_eq!(problem.rotation_slots(2), Err(Refusal::Unknown));
}

#[test]
fn all_domains_are_those_of_each_unit() {
    // Person 31 is there for the first three days, so not for all of the second pair.
    let some_days = Range {
        end: 3 * 1440,
        ..always(31)
    };
    let problem = Problem::build(PAIRS, &days(5), &[ONE; 32], &[always(0), some_days]).expect("it is taken");
    let each = |unit| problem.unit_domain(unit).expect("there is such a unit");
    assert_eq!(problem.unit_domains(), (0..3).map(each).collect::<Vec<_>>());
    assert_eq!(problem.unit_domains(), [vec![0, 31], vec![0], vec![0]]);
}

#[test]
fn a_job_says_what_the_rota_does() {
    let mut job = Job {
        base: days(2),
        people: vec![ONE; 2],
        ranges: vec![always(0)],
        owners: vec![(1, Some(0))],
        ..Job::default()
    };
    assert_eq!(job.run().as_deref(), Ok("S 0 0 60 -\nS 1 1440 1500 0\nP 0 60 120\nP 1 0 0\nU 60\n"));
    job.owners = vec![(1, Some(1))];
    assert_eq!(job.run(), Err(Refusal::Unavailable));
    for person in [2, 255, 256, usize::MAX] {
        job.owners = vec![(1, Some(person))];
        assert_eq!(job.run(), Err(Refusal::Unknown));
    }
    job.owners = vec![(1, None), (0, None)];
    assert_eq!(job.run(), Err(Refusal::JobFile));
    // sixteen slots in pairs, and the last one is nobody's
    job.settings = PAIRS;
    job.base = days(16);
    job.owners = (0..15).map(|slot| (slot, Some(0))).collect();
    assert_eq!(job.run(), Err(Refusal::Recount(Fault::UnevenUnit { unit: 7 })));
}

#[test]
fn a_rota_of_another_problem_is_refused() {
    let small = Problem::build(Settings::default(), &days(2), &[ONE], &[always(0)]).expect("it is taken");
    let large = Problem::build(Settings::default(), &days(9), &[ONE; 3], &[always(0)]).expect("it is taken");
    let mut rota = Assignment::empty(&small);
    assert_eq!(rota.assign(&large, 0, None), Err(Refusal::ShortBuffer));
    assert_eq!(rota.play(&large, &[]), Err(Refusal::ShortBuffer));
    assert_eq!(rota.uncovered_minutes(&large), Err(Refusal::ShortBuffer));
}

#[test]
fn sets_end_at_their_length() {
    let mut set = SlotSet::new(SLOTS_MOST).expect("the longest set");
    assert_eq!(set.insert_stretch(1000..SLOTS_MOST), Ok(()));
    assert_eq!(set.insert_stretch(1000..1025), Err(Refusal::Unknown));
    assert_eq!(set.remove(1010), Ok(()));
    assert_eq!(set.runs().collect::<Vec<_>>(), [(1000, 1009), (1011, 1023)]);
    assert_eq!(set.iter().count(), set.count());
    assert_eq!((set.next_set(SLOTS_MOST), set.prev_set(usize::MAX)), (None, Some(SLOTS_MOST - 1)));
    assert_eq!((set.next_unset_after(1011), set.prev_unset_before(1011)), (None, Some(1010)));
    assert_eq!(set.run_bounds(1010), Run::Hole { first: 1010, last: 1010 });
    assert_eq!(set.run_bounds(SLOTS_MOST - 1), Run::Span { first: 1011, last: 1023 });
    assert_eq!(set.run_bounds(SLOTS_MOST), Run::Outside);
    assert_eq!(set.remove_stretch(0..SLOTS_MOST), Ok(()));
    assert!(set.is_empty());
    assert_eq!(set.run_bounds(500), Run::Hole { first: 0, last: 1023 });
    let none = SlotSet::new(0).expect("a set of no slots");
    assert_eq!((none.next_set(0), none.prev_set(0), none.run_bounds(0)), (None, None, Run::Outside));
}

#[test]
fn jobs_from_text_are_listed_as_the_examples_are() {
    let folder = std::path::Path::new(env!("CARGO_MANIFEST_DIR")).join("../../examples");
    let mut count = 0;
    for entry in std::fs::read_dir(folder).expect("the examples are there") {
        let path = entry.expect("a file").path();
        if path.extension().is_some_and(|kind| kind == "txt") {
            let job: Job = std::fs::read_to_string(&path)
                .expect("it can be read")
                .parse()
                .expect("a job's text");
            let due = std::fs::read_to_string(path.with_extension("listing")).expect("its listing is there");
            let listing = job.run().unwrap_or_else(|refusal| match refusal {
                Refusal::Recount(fault) => format!("R 10.{} {}\n", fault.part(), fault.place()),
                _ => format!("R {}\n", refusal.number()),
            });
            assert_eq!(listing, due, "{}", path.display());
            count += 1;
        }
    }
    assert!(count >= 3, "{count} examples were found");
}

#[test]
fn text_that_is_no_job_is_named_by_its_line() {
    const SETTINGS: &str = "\u{feff}settings fairness 1 lock 1 weekdays mon,thu days 7 # weeks\n";
    let wrong = |lines: &str| {
        let text = format!("{SETTINGS}\n{lines}");
        text.parse::<Job>().expect_err("it is no job's text").to_string()
    };
    let job: Job = SETTINGS.parse().expect("settings alone are a text");
    assert_eq!(
        job.settings.boundary,
        Boundary::DayOfWeek([Weekday::Monday, Weekday::Thursday].into())
    );
    assert_eq!(
        "base 0 1".parse::<Job>().unwrap_err().to_string(),
        "line 1: a job begins with its settings"
    );
    assert_eq!("# nothing\n".parse::<Job>().unwrap_err().line, 1);
    assert_eq!(
        wrong("settings fairness 1 lock 1 every 1 days 1"),
        "line 3: 'settings' is given twice"
    );
    assert_eq!(wrong("person 1 0\nbase 0 1"), "line 4: 'base' stands after 'person'");
    assert_eq!(wrong("freeze 1\nfreeze 1"), "line 4: 'freeze' is given twice");
    assert_eq!(wrong("base 0 1 2"), "line 3: '2' is too much");
    assert_eq!(wrong("base 0"), "line 3: a time is missing");
    assert_eq!(wrong("base 0 4294967296"), "line 3: a time is too large: 4294967296");
    assert_eq!(
        wrong("base 0 1970-02-29T00:00"),
        "line 3: '1970-02-29T00:00' is no date like 1970-01-04T22:00"
    );
    assert_eq!(wrong("shift 0 1"), "line 3: no record of a job is called 'shift'");
    let settings = |words: &str| format!("settings {words}").parse::<Job>().unwrap_err().what;
    assert_eq!(settings("fairness 2 lock 0 every 1 days 1"), "fairness is to be 0 or 1, not '2'");
    assert_eq!(
        settings("fairness 0 lock 0 every 1 days 1 edition 3"),
        "edition is to be 1 or 2, not '3'"
    );
    assert_eq!(
        settings("fairness 0 lock 0 every 1 weekdays mon days 1"),
        "every or weekdays is given twice"
    );
    assert_eq!(settings("fairness 0 lock 0 days 1"), "settings lack every or weekdays");
    assert_eq!(
        settings("fairness 0 lock 0 weekdays 128 days 1"),
        "the weekdays are to be below 128, not 128"
    );

    // A leap day, a hexadecimal number, a capacity by its bits, and nobody.
    let lines = "base 1972-02-29T00:30 0x112b20\nperson bits 0x3fe0000000000000 0\nowner 0 -\nowner 1 255\n";
    let job: Job = format!("{SETTINGS}{lines}").parse().expect("a job's text");
    assert_eq!(
        job.base,
        [Slot {
            start: (365 * 2 + 59) * 1440 + 30,
            end: 0x0011_2b20
        }]
    );
    assert_eq!((job.people[0].capacity, job.owners), (0.5, vec![(0, None), (1, None)]));
}

/// A shift of eight hours on each of these days.
fn shifts(days: std::ops::Range<u32>) -> Vec<Slot> {
    let shift = |day| Slot {
        start: day * 1440 + 480,
        end: day * 1440 + 960,
    };
    days.map(shift).collect()
}

/// Eight days of two people who are always there, the first four frozen, held by person 0 but for days 2 and 3 where they needn't be one unit
/// with days 0 and 1; the last four by person 1, of which day 6 is frozen too.
fn eight_days(settings: Settings, people: &[Person; 2]) -> (Problem, Assignment) {
    let mut problem = Problem::build(settings, &shifts(0..8), people, &[always(0), always(1)]).expect("it is taken");
    let owner = |slot: usize| match slot {
        4.. => Some(1),
        2 | 3 if settings.boundary == Boundary::EverySlots(2) => None,
        _ => Some(0),
    };
    let rota = Assignment::from_slots(&problem, &(0..8).map(owner).collect::<Vec<_>>()).expect("everybody is there");
    assert_eq!(problem.freeze_before(3 * 1440 + 960), 4);
    problem.freeze(6).expect("there is such a slot");
    (problem, rota)
}

#[test]
fn retired_they_are_as_built_from_what_is_left() {
    // Day 4 is a Monday, so that a week begins with it as a pair does.
    let weeks = Settings {
        boundary: Boundary::DayOfWeek(Weekday::Monday.into()),
        ..PAIRS
    };
    let ranges = [always(0), always(1)];
    for settings in [PAIRS, weeks, Settings { lock: false, ..PAIRS }] {
        for new in [8..8, 8..40] {
            let mut people = [ONE, Person { capacity: 0.5, prior: 9 }];
            let mut retired = 5;
            let (mut problem, mut rota) = eight_days(settings, &people);
            let slots = 4 + new.len();
            let went = problem.retire(&mut rota, &mut people, &mut retired, &shifts(new.clone()), &ranges);
            let units = problem.unit_count();
            assert_eq!(went, Ok(Retiring::Retired { gone: 4, slots, units }));
            let (held, nobodys) = if settings == weeks { (1920, 0) } else { (960, 960) };
            assert_eq!((people.map(|one| one.prior), retired), ([held, 9], 5 + nobodys));

            let mut built = Problem::build(settings, &shifts(4..new.end), &people, &ranges).expect("it is taken");
            built.freeze(2).expect("there is such a slot");
            if settings == weeks && !new.is_empty() {
                // The first new slot, a Friday, begins a unit of its own.
                assert_eq!((problem.unit_of_slot(4), built.unit_of_slot(4)), (Ok(1), Ok(0)));
                assert_eq!(problem.rotations(), problem.units());
                assert_eq!((problem.slots(), problem.targets()), (built.slots(), built.targets()));
            } else {
                assert_eq!(problem, built);
            }
            let owners: Vec<Option<usize>> = (0..slots).map(|slot| (slot < 4).then_some(1)).collect();
            assert_eq!(Ok(&rota), Assignment::from_slots(&problem, &owners).as_ref());

            // A play follows.
            let draw = Draw {
                draw: 0,
                first: units as u16 - 1,
                second: 0,
            };
            let is_frozen = problem.is_unit_frozen(units - 1).expect("there is such a unit");
            let answer = if is_frozen { Answer::NoMove } else { Answer::Acted };
            assert_eq!((rota.recount(&problem), rota.play(&problem, &[draw])), (Ok(()), Ok(vec![answer])));
        }
    }
}

/// A problem and its rota, the figures of people, the retired total, new base slots and ranges; and what retiring is to come to.
type Case<'a> = (
    &'a (Problem, Assignment),
    &'a [Person],
    u64,
    &'a [Slot],
    &'a [Range],
    Result<Retiring, Refusal>,
);

#[test]
fn retiring_is_refused_or_changes_nothing() {
    let people = [ONE; 2];
    let given = eight_days(PAIRS, &people);
    let mut open = given.clone();
    open.0 = Problem::build(PAIRS, &shifts(0..8), &people, &[always(0), always(1)]).expect("it is taken");
    let mut done = given.clone();
    assert_eq!(done.0.freeze_before(100_000_000), 8);
    let mut uneven = given.clone();
    uneven.1.assign(&uneven.0, 5, None).expect("a slot is cleared");
    let mut shorter = given.clone();
    let seven = Problem::build(PAIRS, &shifts(0..7), &people, &[]).expect("it is taken");
    shorter.1 = Assignment::empty(&seven);
    let full = [Person { prior: 99_999_041, ..ONE }, ONE];
    let endless = [Person { capacity: 1001.0, ..ONE }, ONE];
    let (none, late, many) = (shifts(8..8), shifts(7..9), shifts(8..1029));
    let refused = |refusal| Err::<Retiring, Refusal>(refusal);
    let cases: [Case; 14] = [
        (&open, &people, 0, &none, &[], Ok(Retiring::Nothing)),
        (&done, &people, 0, &many[..1020], &[], Ok(Retiring::Everything)),
        (&given, &people, 0, &many[..1025 - 4], &[], refused(Refusal::TooManySlots)),
        (&given, &people, 0, &vec![many[0]; 1025], &[], refused(Refusal::Count)),
        (&given, &people[..1], 0, &none, &[], refused(Refusal::ShortBuffer)),
        (&shorter, &people, 0, &none, &[], refused(Refusal::ShortBuffer)),
        (&given, &people, 0, &late, &[], refused(Refusal::BaseSlot)),
        (&given, &people, 0, &none, &[always(2)], refused(Refusal::Range)),
        (&given, &full, 0, &none, &[], refused(Refusal::Figures)),
        (&given, &people, 100_000_000, &none, &[], refused(Refusal::Figures)),
        (
            &uneven,
            &people,
            0,
            &none,
            &[],
            refused(Refusal::Recount(Fault::UnevenUnit { unit: 2 })),
        ),
        (&given, &endless, 0, &none, &[], refused(Refusal::Figures)),
        (&uneven, &endless, 0, &none, &[], refused(Refusal::Figures)),
        (&uneven, &endless, 0, &late, &[], refused(Refusal::BaseSlot)),
    ];
    for (given, people, retired, base, ranges, due) in cases {
        let ((mut problem, mut rota), mut figures, mut total) = (given.clone(), people.to_vec(), retired);
        assert_eq!(problem.retire(&mut rota, &mut figures, &mut total, base, ranges), due);
        assert_eq!(
            (problem, rota, figures, total),
            (given.0.clone(), given.1.clone(), people.to_vec(), retired)
        );
    }
    // The largest prior and the largest number of slots that pass.
    let (mut problem, mut rota) = given;
    let mut figures = [Person { prior: 99_999_040, ..ONE }, ONE, ONE];
    let went = problem.retire(&mut rota, &mut figures, &mut 99_999_040, &many[..1020], &[always(1)]);
    assert_eq!(
        went,
        Ok(Retiring::Retired {
            gone: 4,
            slots: 1024,
            units: 512
        })
    );
    assert_eq!(figures.map(|one| one.prior), [100_000_000, 0, 0]);
}

#[test]
fn a_published_column_follows() {
    let went = Retiring::Retired {
        gone: 2,
        slots: 3,
        units: 3,
    };
    let column = |mut column: Vec<u8>, retired| retire_column(&mut column, retired).map(|()| column);
    assert_eq!(column(vec![7, 7, 1, 2], went), Ok(vec![1, 2, 255]));
    assert_eq!(column(vec![7, 7, 1, 2, 3], went), Ok(vec![1, 2, 3]));
    assert_eq!(column(vec![7, 7, 1, 2, 3, 4], went), Err(Refusal::Count));
    assert_eq!(column(vec![7], went), Err(Refusal::Count));
    assert_eq!(column(vec![7; 1025], went), Err(Refusal::Count));
    assert_eq!(column(vec![7], Retiring::Everything), Ok(vec![7]));
}

/// A record of a recorded draw, and the close of a block.
fn recorded(draw: Draw, answer: u16) -> Vec<u8> {
    let numbers = [8, 8, draw.draw, draw.first, draw.second, answer];
    numbers.iter().flat_map(|number: &u16| number.to_le_bytes()).collect()
}

const CLOSE: [u8; 4] = [0, 0, 9, 0];

/// Opened, a recording is the problem and the rota that its job's parts make; its blocks play them as a play of their draws does.
#[test]
fn a_recording_is_its_job_and_its_blocks() {
    let people = [Person { capacity: 1.0, prior: 7 }; 2];
    let job = Job {
        settings: PAIRS,
        base: days(6),
        people: people.to_vec(),
        ranges: vec![always(0), always(1)],
        freeze: Some(1440),
        owners: (0..6).map(|slot| (slot, Some(0))).collect(),
        draws: vec![],
    };
    let mut problem = Problem::build(PAIRS, &job.base, &people, &job.ranges).expect("it is built");
    problem.freeze_before(1440);
    let mut rota = Assignment::from_slots(&problem, &[Some(0); 6]).expect("owners are right");
    let draws = [1, 2].map(|first| Draw { draw: 0, first, second: 1 });
    let file = [
        job.file(),
        recorded(draws[0], 0),
        CLOSE.to_vec(),
        CLOSE.to_vec(),
        recorded(draws[1], 0),
        CLOSE.to_vec(),
    ]
    .concat();

    let Recording {
        problem: opened,
        mut assignment,
        blocks,
    } = Recording::open(&file).expect("it is a recording");
    assert_eq!((&opened, &assignment), (&problem, &rota));
    assert_eq!(
        blocks.clone().map(|block| block.map_or(9, |draws| draws.len())).collect::<Vec<_>>(),
        [1, 0, 1]
    );
    for block in blocks {
        let block = block.expect("it is a block");
        assert_eq!(assignment.replay(&opened, &block), Ok(Replay::Agrees));
    }
    assert_eq!(rota.play(&problem, &draws), Ok(vec![Answer::Acted; 2]));
    assert_eq!(assignment, rota);
}

/// A job that is refused gives no recording; a block that is refused is the last.
#[test]
fn recordings_are_refused() {
    let job = Job {
        base: days(1),
        people: vec![ONE],
        ..Job::default()
    };
    let open = |file: &[u8]| Recording::open(file).map(|recording| recording.blocks.map(|block| block.map(|draws| draws.len())).collect());
    let any = Draw {
        draw: 0,
        first: 0,
        second: 0,
    };
    let with = |tail: &[Vec<u8>]| open(&[job.file(), tail.concat()].concat());
    assert_eq!(with(&[]), Ok(vec![]));
    assert_eq!(
        with(&[CLOSE.to_vec(), recorded(any, 3), CLOSE.to_vec()]),
        Ok(vec![Ok(0), Err(Refusal::JobFile)])
    );
    assert_eq!(with(&[recorded(any, 0)]), Ok(vec![Err(Refusal::JobFile)]));
    assert_eq!(
        with(&[recorded(any, 0).repeat(1025), CLOSE.to_vec()]),
        Ok(vec![Err(Refusal::Count)])
    );
    assert_eq!(with(&[vec![0]]), Err(Refusal::JobFile));
    let drawn = Job {
        draws: vec![any],
        ..job.clone()
    };
    assert_eq!(open(&drawn.file()), Err(Refusal::JobFile));
    let empty = Job {
        people: vec![],
        ..job.clone()
    };
    assert_eq!(open(&[empty.file(), CLOSE.to_vec()].concat()), Err(Refusal::Count));
    let owned = Job {
        owners: vec![(0, Some(0))],
        ..job.clone()
    };
    assert_eq!(open(&owned.file()), Err(Refusal::Unavailable));
}
