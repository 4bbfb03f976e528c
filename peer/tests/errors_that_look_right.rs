//! The errors that look right: each test fails a program that makes the error.

mod common;

use common::{either, free, free_plan, table, E, E_PLAN};
use peer::frame::{Frame, Reading};
use peer::table::Table;

#[test]
fn away_although_setup_and_return_exceed_the_local_time() {
    let table = Table::read(&E).unwrap();
    let quicker_away = table.jobs.iter().filter(|job| {
        job.away()
            .is_some_and(|away| away.span + away.until_finish < job.local.into())
    });
    assert_eq!(quicker_away.count(), 0);
    assert_eq!(free_plan(&E), Ok(E_PLAN.to_vec()));
}

#[test]
fn the_longest_return_first() {
    let shortest_first = table(40, &[either(1, 50, 10, 10), either(2, 50, 10, 30)]);
    assert!(common::given(&shortest_first).is_err());
    let plan = free_plan(&shortest_first);
    assert_eq!(plan, Ok(vec![0x21, 2, 0x21, 1, 0x2F]));
}

#[test]
fn every_column_counts() {
    let (plan, planned) = free(&table(50, &[either(9, 100, 5, 10)])).unwrap();
    assert_eq!(plan, [0x21, 9, 0x2F]);
    assert_eq!((planned.busy, planned.last), (5, 15));
}

#[test]
fn no_value_outlives_its_frame() {
    let mut frame = Frame::idle();
    frame.begin(1, &E, &E_PLAN).unwrap();
    frame.span_end(1, 5, 0.0).unwrap();
    frame.span_end(2, 15, 0.0).unwrap();
    frame.span_end(3, 40, 3.0).unwrap();
    frame.give_back(1, 1, 45, 1.0).unwrap();
    frame.close(45).unwrap();
    assert!(matches!(frame.read(1), Ok(Reading::Fresh(_))));
    assert_eq!(frame.read(2), Ok(Reading::Missing));
    assert!(matches!(frame.read(3), Ok(Reading::Fresh(_))));

    frame.begin(2, &E, &E_PLAN).unwrap();
    for id in 1..=3 {
        assert_eq!(frame.read(id), Ok(Reading::Pending));
    }
    frame.close(45).unwrap();
    for id in 1..=3 {
        assert_eq!(frame.read(id), Ok(Reading::Missing));
    }
}
