//! The marked cases of document 01.

mod common;

use common::{e, either, free, free_plan, given, here_only, table, E, E_PLAN};
use peer::frame::{Frame, Reading, Sent};
use peer::plan::{Choice, Record};
use peer::planner::{least_deadline, Planned};
use peer::refusal::Refusal;

#[test]
fn case_1_the_plan_of_e() {
    let (plan, planned) = free(&E).unwrap();
    assert_eq!(plan, E_PLAN);
    let figures = Planned {
        length: 7,
        busy: 40,
        last: 45,
    };
    assert_eq!(planned, figures);
}

#[test]
fn case_2_e_with_44_has_no_plan() {
    assert_eq!(free(&e(44)), Err(Refusal::NoTimetable));
}

#[test]
fn case_3_the_least_deadline_of_e() {
    assert_eq!(least_deadline(&E), Ok(45));
    assert_eq!(least_deadline(&e(1)), Ok(45));
}

fn e_in_order_3_1_2() -> Vec<u8> {
    let jobs = [
        here_only(3, 25),
        either(1, 30, 5, 40),
        either(2, 20, 10, 10),
    ];
    table(45, &jobs)
}

#[test]
fn case_4_the_given_order_3_1_2_has_no_plan() {
    assert_eq!(given(&e_in_order_3_1_2()), Err(Refusal::NoTimetable));
}

#[test]
fn case_5_the_same_table_in_free_order() {
    assert_eq!(free_plan(&e_in_order_3_1_2()), Ok(E_PLAN.to_vec()));
}

#[test]
fn case_6_a_tie_keeps_the_jobs_here() {
    let table = table(20, &[either(1, 10, 10, 0), either(2, 10, 10, 0)]);
    assert_eq!(free_plan(&table), Ok(vec![0x20, 1, 0x20, 2, 0x2F]));
}

#[test]
fn case_7_a_tie_keeps_the_last_job_here() {
    let table = table(16, &[either(1, 10, 4, 12), either(2, 10, 4, 12)]);
    let (plan, planned) = free(&table).unwrap();
    assert_eq!(plan, [0x21, 1, 0x20, 2, 0x2F]);
    assert_eq!((planned.busy, planned.last), (14, 16));
}

#[test]
fn case_8_the_same_with_15_has_no_plan() {
    let table = table(15, &[either(1, 10, 4, 12), either(2, 10, 4, 12)]);
    assert_eq!(free(&table), Err(Refusal::NoTimetable));
}

#[test]
fn case_9_the_longer_return_goes_first() {
    let jobs = [either(1, 50, 10, 10), either(2, 50, 10, 30)];
    let plan = free_plan(&table(40, &jobs));
    assert_eq!(plan, Ok(vec![0x21, 2, 0x21, 1, 0x2F]));
}

#[test]
fn case_9_with_39_has_no_plan() {
    let jobs = [either(1, 50, 10, 10), either(2, 50, 10, 30)];
    assert_eq!(free(&table(39, &jobs)), Err(Refusal::NoTimetable));
}

#[test]
fn case_10_no_jobs() {
    let table = [0x10, 0x01, 0x00, 0x1F];
    let (plan, planned) = free(&table).unwrap();
    assert_eq!(plan, [0x2F]);
    assert_eq!((planned.busy, planned.last), (0, 0));
    assert_eq!(least_deadline(&table), Ok(1));
}

#[test]
fn case_11_empty_input() {
    assert_eq!(free(&[]), Err(Refusal::Short(0)));
    assert_eq!(given(&[]), Err(Refusal::Short(0)));
    assert_eq!(least_deadline(&[]), Err(Refusal::Short(0)));
}

/// Table E's frame, its three spans ended at full entries and job 1 still out.
fn e_with_job_1_out() -> Frame {
    let mut frame = Frame::idle();
    frame.begin(7, &E, &E_PLAN).unwrap();
    let job_1 = Record {
        id: 1,
        choice: Choice::Away,
    };
    assert_eq!(frame.next(), Ok(Some(job_1)));
    frame.span_end(1, 5, f32::NAN).unwrap();
    frame.span_end(2, 15, f32::NAN).unwrap();
    frame.give_back(7, 2, 25, 2.0).unwrap();
    frame.span_end(3, 40, 3.0).unwrap();
    assert_eq!(frame.next(), Ok(None));
    frame
}

#[test]
fn case_12_a_return_at_45_is_fresh() {
    let mut frame = e_with_job_1_out();
    frame.give_back(7, 1, 45, 1.0).unwrap();
    let fresh = Reading::Fresh(Sent {
        value: 1.0,
        frame: 7,
    });
    assert_eq!(frame.read(1), Ok(fresh));
}

#[test]
fn case_12_a_return_at_46_is_late() {
    let mut frame = e_with_job_1_out();
    frame.give_back(7, 1, 46, 1.0).unwrap();
    assert_eq!(frame.read(1), Ok(Reading::Late));
}
