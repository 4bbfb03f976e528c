//! The frame runner, call by call.

mod common;

use common::{e, here_only, table, E, E_PLAN};
use peer::frame::{Frame, Reading, Sent};
use peer::refusal::Refusal;

fn open() -> Frame {
    let mut frame = Frame::idle();
    frame.begin(7, &E, &E_PLAN).unwrap();
    frame
}

/// Makes a call that has to be refused and to leave the record as it was.
fn refused<T: std::fmt::Debug>(
    frame: &mut Frame,
    call: impl FnOnce(&mut Frame) -> Result<T, Refusal>,
) -> Refusal {
    let before = frame.clone();
    let refusal = call(frame).expect_err("a refusal");
    assert_eq!(*frame, before);
    refusal
}

#[test]
fn an_idle_record_only_begins() {
    let mut frame = Frame::default();
    assert_eq!(refused(&mut frame, |frame| frame.next()), Refusal::Phase);
    assert_eq!(refused(&mut frame, |frame| frame.read(1)), Refusal::Phase);
    assert_eq!(refused(&mut frame, |frame| frame.close(0)), Refusal::Phase);
    let span_end = refused(&mut frame, |frame| frame.span_end(1, 0, 0.0));
    assert_eq!(span_end, Refusal::Phase);
    let give_back = refused(&mut frame, |frame| frame.give_back(0, 1, 0, 0.0));
    assert_eq!(give_back, Refusal::Phase);
    assert_eq!(frame.begin(0, &E, &E_PLAN), Ok(()));
}

#[test]
fn a_closed_record_begins_and_reads() {
    let mut frame = open();
    frame.close(45).unwrap();
    assert_eq!(refused(&mut frame, |frame| frame.next()), Refusal::Phase);
    assert_eq!(refused(&mut frame, |frame| frame.close(45)), Refusal::Phase);
    let span_end = refused(&mut frame, |frame| frame.span_end(1, 50, 0.0));
    assert_eq!(span_end, Refusal::Phase);
    let give_back = refused(&mut frame, |frame| frame.give_back(7, 1, 50, 0.0));
    assert_eq!(give_back, Refusal::Phase);
    assert_eq!(frame.read(1), Ok(Reading::Missing));
    assert_eq!(refused(&mut frame, |frame| frame.read(4)), Refusal::Who);
    assert_eq!(frame.begin(8, &E, &E_PLAN), Ok(()));
}

#[test]
fn the_order_at_begin() {
    let mut frame = open();
    let begin = refused(&mut frame, |frame| frame.begin(8, &[], &[]));
    assert_eq!(begin, Refusal::Phase);
    frame.close(45).unwrap();
    let begin = refused(&mut frame, |frame| frame.begin(7, &[], &[]));
    assert_eq!(begin, Refusal::Short(0));
    let begin = refused(&mut frame, |frame| frame.begin(7, &e(44), &E_PLAN));
    assert_eq!(begin, Refusal::Late);
    for number in [0, 6, 7] {
        let begin = refused(&mut frame, |frame| frame.begin(number, &E, &E_PLAN));
        assert_eq!(begin, Refusal::Number);
    }
    assert_eq!(frame.begin(u32::MAX, &E, &E_PLAN), Ok(()));
    frame.close(45).unwrap();
    let begin = refused(&mut frame, |frame| frame.begin(u32::MAX, &E, &E_PLAN));
    assert_eq!(begin, Refusal::Number);
}

#[test]
fn the_order_at_span_end() {
    let mut frame = open();
    frame.span_end(1, 5, f32::NAN).unwrap();
    frame.span_end(2, 15, f32::INFINITY).unwrap();
    let span_end = refused(&mut frame, |frame| frame.span_end(1, 14, f32::NAN));
    assert_eq!(span_end, Refusal::Clock);
    let span_end = refused(&mut frame, |frame| frame.span_end(1, 15, f32::NAN));
    assert_eq!(span_end, Refusal::Who);
    for value in [f32::NAN, f32::INFINITY, f32::NEG_INFINITY] {
        let span_end = refused(&mut frame, |frame| frame.span_end(3, 60, value));
        assert_eq!(span_end, Refusal::Value);
    }
    assert_eq!(frame.span_end(3, 15, 1.0), Ok(()));
    let span_end = refused(&mut frame, |frame| frame.span_end(3, 15, 1.0));
    assert_eq!(span_end, Refusal::Who);
}

#[test]
fn the_order_at_return() {
    let mut frame = open();
    frame.span_end(1, 5, 0.0).unwrap();
    let give_back = refused(&mut frame, |frame| frame.give_back(6, 2, 4, f32::NAN));
    assert_eq!(give_back, Refusal::Number);
    let give_back = refused(&mut frame, |frame| frame.give_back(7, 2, 4, f32::NAN));
    assert_eq!(give_back, Refusal::Clock);
    for id in [2, 3, 4] {
        let give_back = refused(&mut frame, |frame| frame.give_back(7, id, 5, f32::NAN));
        assert_eq!(give_back, Refusal::Who);
    }
    let give_back = refused(&mut frame, |frame| frame.give_back(7, 1, 5, f32::NAN));
    assert_eq!(give_back, Refusal::Value);
    assert_eq!(frame.give_back(7, 1, 5, 1.0), Ok(()));
    let give_back = refused(&mut frame, |frame| frame.give_back(7, 1, 5, 1.0));
    assert_eq!(give_back, Refusal::Who);
}

#[test]
fn the_order_at_close() {
    let mut frame = open();
    frame.span_end(1, 44, 0.0).unwrap();
    assert_eq!(refused(&mut frame, |frame| frame.close(43)), Refusal::Clock);
    assert_eq!(refused(&mut frame, |frame| frame.close(44)), Refusal::Early);
    assert_eq!(frame.close(45), Ok(()));

    frame.begin(8, &E, &E_PLAN).unwrap();
    frame.span_end(1, 90, 0.0).unwrap();
    assert_eq!(refused(&mut frame, |frame| frame.close(89)), Refusal::Clock);
    assert_eq!(frame.close(90), Ok(()));
}

#[test]
fn here_jobs_are_fresh_up_to_the_deadline() {
    let table = table(10, &[here_only(1, 1), here_only(2, 1)]);
    let mut frame = Frame::idle();
    frame.begin(3, &table, &[0x20, 2, 0x20, 1, 0x2F]).unwrap();
    frame.span_end(2, 10, 4.0).unwrap();
    frame.span_end(1, 11, 5.0).unwrap();
    let fresh = Reading::Fresh(Sent {
        value: 4.0,
        frame: 3,
    });
    assert_eq!(frame.read(2), Ok(fresh));
    assert_eq!(frame.read(1), Ok(Reading::Late));
    frame.close(11).unwrap();
    assert_eq!(frame.read(2), Ok(fresh));
    assert_eq!(frame.read(1), Ok(Reading::Late));
}

#[test]
fn the_bits_of_a_value_are_unchanged() {
    for bits in [0x8000_0000, 0x0000_0001, 0x7F7F_FFFF, 0x3F80_0000] {
        let mut frame = open();
        frame.span_end(1, 0, 0.0).unwrap();
        frame.give_back(7, 1, 0, f32::from_bits(bits)).unwrap();
        let Ok(Reading::Fresh(sent)) = frame.read(1) else {
            panic!("not fresh");
        };
        assert_eq!((sent.frame, sent.value.to_bits()), (7, bits));
    }
}
