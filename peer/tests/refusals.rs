//! The refusals of tables and plans with their places, and the order of the checks.

mod common;

use common::{e, either, here_only, table, E};
use peer::generate::{self, Damage, Random};
use peer::plan;
use peer::planner::{least_deadline, plan_free, plan_given};
use peer::refusal::Refusal;
use peer::table::{Job, Table};

fn refusal(bytes: &[u8]) -> Refusal {
    Table::read(bytes).expect_err("a refusal")
}

fn with(deadline: u16, changed: impl FnOnce(&mut Vec<Job>)) -> Vec<u8> {
    let mut jobs = (0..33).map(|id| here_only(id, 1)).collect();
    changed(&mut jobs);
    table(deadline, &jobs)
}

#[test]
fn every_cut_of_a_table_is_short_at_the_cut_record() {
    let records = [0, 3, 11, 19, 23];
    for length in 0..E.len() {
        let place = *records.iter().rfind(|&&record| record <= length).unwrap();
        assert_eq!(refusal(&E[..length]), Refusal::Short(place), "{length}");
    }
}

#[test]
fn kinds_that_are_not_allowed() {
    for kind in 0..=0xFF {
        if kind != 0x10 {
            assert_eq!(refusal(&[kind]), Refusal::Kind(0));
        }
        if ![0x11, 0x12, 0x1F].contains(&kind) {
            assert_eq!(refusal(&[0x10, 1, 0, kind]), Refusal::Kind(3));
        }
        if ![0x20, 0x21, 0x2F].contains(&kind) {
            assert_eq!(plan::read(&[0x20, 1, kind]), Err(Refusal::Kind(2)));
        }
    }
}

#[test]
fn times_out_of_range() {
    assert_eq!(refusal(&table(0, &[])), Refusal::Range(0));
    assert_eq!(refusal(&table(4001, &[])), Refusal::Range(0));
    assert!(Table::read(&table(4000, &[])).is_ok());
    for job in [
        here_only(1, 4001),
        either(1, 4001, 0, 0),
        either(1, 0, 4001, 0),
        either(1, 0, 0, u16::MAX),
    ] {
        let bytes = table(1, &[here_only(0, 4000), job]);
        assert_eq!(refusal(&bytes), Refusal::Range(7));
    }
    assert!(Table::read(&table(1, &[either(1, 4000, 4000, 4000)])).is_ok());
}

#[test]
fn thirty_three_jobs() {
    let bytes = with(9, |_| {});
    assert_eq!(refusal(&bytes), Refusal::Many(3 + 32 * 4));
    let bytes = with(9, |jobs| jobs.truncate(32));
    assert_eq!(Table::read(&bytes).unwrap().jobs.len(), 32);

    let records: Vec<u8> = (0..33).flat_map(|id| [0x20, id]).collect();
    let plan_of = |jobs: usize| [&records[..2 * jobs], &[0x2F]].concat();
    assert_eq!(plan::read(&plan_of(33)), Err(Refusal::Many(64)));
    assert_eq!(plan::read(&plan_of(32)).unwrap().len(), 32);
    assert_eq!(plan_of(32).len(), Table::LONGEST_PLAN);
}

#[test]
fn the_longest_table() {
    let jobs: Vec<Job> = (0..32).map(|id| either(id, 4000, 4000, 4000)).collect();
    let bytes = table(4000, &jobs);
    assert_eq!(bytes.len(), Table::LONGEST);
    assert_eq!(plan_free(&bytes, &mut [0; 65]), Err(Refusal::NoTimetable));
    assert_eq!(least_deadline(&bytes), Err(Refusal::NoTimetable));
}

#[test]
fn ids_used_twice() {
    let bytes = table(9, &[here_only(5, 1), here_only(6, 1), either(5, 1, 1, 1)]);
    assert_eq!(refusal(&bytes), Refusal::Twice(11));
    let plan = [0x20, 5, 0x21, 5, 0x2F];
    assert_eq!(plan::read(&plan), Err(Refusal::Twice(2)));
}

#[test]
fn bytes_after_the_end() {
    assert_eq!(refusal(&[0x10, 1, 0, 0x1F, 0x1F, 0]), Refusal::After(4));
    assert_eq!(plan::read(&[0x2F, 0x20]), Err(Refusal::After(1)));
}

#[test]
fn plans_cut_short() {
    assert_eq!(plan::read(&[]), Err(Refusal::Short(0)));
    assert_eq!(plan::read(&[0x20]), Err(Refusal::Short(0)));
    assert_eq!(plan::read(&[0x20, 1, 0x21]), Err(Refusal::Short(2)));
    assert_eq!(plan::read(&[0x20, 1]), Err(Refusal::Short(2)));
}

#[test]
fn the_order_within_a_record() {
    // The 33rd job: cut, then too many, then out of range, then an id used before.
    let place = 3 + 32 * 4;
    let bytes = with(9, |jobs| jobs[32] = either(0, 4001, 0, 0));
    assert_eq!(refusal(&bytes), Refusal::Many(place));
    assert_eq!(refusal(&bytes[..bytes.len() - 2]), Refusal::Short(place));
    let bytes = with(9, |jobs| {
        jobs[31] = either(0, 4001, 0, 0);
        jobs.truncate(32);
    });
    assert_eq!(refusal(&bytes), Refusal::Range(place - 4));
    // An unknown kind comes before its missing body.
    assert_eq!(refusal(&[0x10, 1, 0, 0x13]), Refusal::Kind(3));
    // Records are judged in file order.
    assert_eq!(refusal(&[0x10, 0, 0, 0x99]), Refusal::Range(0));
    assert_eq!(refusal(&[0x10, 1, 0, 0x99, 0x1F, 0]), Refusal::Kind(3));
}

#[test]
fn the_order_of_a_planner() {
    for planner in [plan_free, plan_given] {
        for length in 0..Table::LONGEST_PLAN {
            let mut area = vec![0xA5; length];
            assert_eq!(planner(&[], &mut area), Err(Refusal::Room));
            assert_eq!(planner(&e(1), &mut area), Err(Refusal::Room));
            assert_eq!(planner(&E, &mut area), Err(Refusal::Room));
            assert!(area.iter().all(|&byte| byte == 0xA5));
        }
        let mut area = [0xA5; Table::LONGEST_PLAN];
        let extra = [&e(1)[..], &[0]].concat();
        assert_eq!(planner(&extra, &mut area), Err(Refusal::After(24)));
        assert_eq!(planner(&e(1), &mut area), Err(Refusal::NoTimetable));
        assert_eq!(area, [0xA5; Table::LONGEST_PLAN]);
    }
    assert_eq!(
        least_deadline(&[&e(1)[..], &[0]].concat()),
        Err(Refusal::After(24))
    );
}

#[test]
fn numbers_names_and_words() {
    let refusals = [
        (Refusal::Short(0), 1, "SHORT"),
        (Refusal::Kind(0), 2, "KIND"),
        (Refusal::Range(0), 3, "RANGE"),
        (Refusal::Many(0), 4, "MANY"),
        (Refusal::Twice(0), 5, "TWICE"),
        (Refusal::After(0), 6, "AFTER"),
        (Refusal::NoTimetable, 7, "NONE"),
        (Refusal::Stranger, 8, "STRANGER"),
        (Refusal::Kept, 9, "KEPT"),
        (Refusal::Left, 10, "LEFT"),
        (Refusal::Late, 11, "LATE"),
        (Refusal::Phase, 12, "PHASE"),
        (Refusal::Number, 13, "NUMBER"),
        (Refusal::Clock, 14, "CLOCK"),
        (Refusal::Who, 15, "WHO"),
        (Refusal::Value, 16, "VALUE"),
        (Refusal::Early, 17, "EARLY"),
        (Refusal::Room, 18, "ROOM"),
    ];
    for (refusal, number, name) in refusals {
        assert_eq!((refusal.number(), refusal.name()), (number, name));
        assert_eq!(refusal.place().is_some(), number <= 6);
    }
    assert_eq!(Refusal::Kind(3).to_string(), "refused 2 at 3");
    assert_eq!(Refusal::NoTimetable.to_string(), "refused 7");
}

#[test]
fn every_byte_string_is_read_or_refused() {
    let mut random = Random::new(21);
    let mut numbers = [0; 7];
    for _ in 0..40_000 {
        let table = match random.one_in(3) {
            true => generate::table_at_limits(&mut random),
            false => generate::table(&mut random, 5, 50),
        };
        let mut bytes = table.write();
        random.pick(&Damage::ALL).apply(&mut random, &mut bytes);
        match Table::read(&bytes) {
            Ok(table) => {
                assert_eq!(table.write(), bytes);
                numbers[0] += 1;
            }
            Err(refusal) => {
                assert!(refusal.place().is_some_and(|place| place <= bytes.len()));
                numbers[usize::from(refusal.number())] += 1;
            }
        }
    }
    assert!(numbers.iter().all(|&count| count > 50), "{numbers:?}");
}
