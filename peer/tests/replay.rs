//! The text of runs of calls.

mod common;

use common::{E, E_PLAN};
use peer::generate::{calls, Damage, Random};
use peer::replay::{replay, Call, LONGEST};

fn run(calls: &[Call]) -> Vec<u8> {
    let mut bytes = Vec::new();
    for call in calls {
        call.write(&mut bytes);
    }
    bytes
}

fn span(id: u8, time: u16) -> Call<'static> {
    let value = 1.0;
    Call::SpanEnd { id, time, value }
}

fn give_back(number: u32, id: u8, time: u16, value: f32) -> Call<'static> {
    Call::Return {
        number,
        id,
        time,
        value,
    }
}

const BEGIN: Call = Call::Begin {
    number: 7,
    table: &E,
    plan: &E_PLAN,
};

#[test]
fn a_frame() {
    let run = run(&[
        BEGIN,
        Call::Next,
        span(1, 5),
        Call::Read { id: 1 },
        give_back(6, 1, 9, 2.0),
        give_back(7, 1, 9, -0.0),
        span(2, 15),
        Call::Next,
        span(3, 40),
        Call::Next,
        Call::Close { time: 44 },
        Call::Close { time: 45 },
        Call::Read { id: 1 },
        Call::Read { id: 2 },
        Call::Read { id: 3 },
        Call::Next,
    ]);
    let text = "begin accepted\nnext 1 away\nspan accepted\nread pending\nreturn refused 13\n\
                return accepted\nspan accepted\nnext 3 here\nspan accepted\nnext none\n\
                close refused 17\nclose accepted\nread fresh 7 80000000\nread missing\n\
                read fresh 7 3f800000\nnext refused 12\n";
    assert_eq!(replay(&run), text);
}

#[test]
fn late_answers_and_refusals_with_a_place() {
    let run = run(&[
        Call::Begin {
            number: 0,
            table: &[0x10, 1, 0, 0x20],
            plan: &[],
        },
        BEGIN,
        span(1, 5),
        give_back(7, 1, 46, 1.0),
        Call::Read { id: 1 },
    ]);
    let text = "begin refused 2 at 3\nbegin accepted\nspan accepted\nreturn accepted\nread late\n";
    assert_eq!(replay(&run), text);
}

#[test]
fn the_bytes_of_the_calls() {
    let bytes = [
        0x41, 0x42, 1, 0x05, 0x01, 0x00, 0x00, 0x80, 0x3F, 0x43, 7, 0, 0, 0, 2, 0x09, 0x00, 0x00,
        0x00, 0x80, 0x3F, 0x44, 0x2D, 0x00, 0x45, 3,
    ];
    let calls = [
        Call::Next,
        span(1, 0x105),
        give_back(7, 2, 9, 1.0),
        Call::Close { time: 45 },
        Call::Read { id: 3 },
    ];
    assert_eq!(run(&calls), bytes);
    let begin = [0x40, 7, 0, 0, 0, 24, 0, 7, 0];
    assert_eq!(run(&[BEGIN]), [&begin[..], &E, &E_PLAN].concat());
}

#[test]
fn where_a_run_stops() {
    assert_eq!(replay(&[]), "");
    assert_eq!(
        replay(&[0x41, 0x46, 0x41]),
        "next refused 12\nstopped at 1\n"
    );
    let whole = run(&[Call::Next, BEGIN]);
    for length in 2..whole.len() {
        let text = replay(&whole[..length]);
        assert_eq!(text, "next refused 12\nstopped at 1\n", "{length}");
    }
    assert_eq!(replay(&whole), "next refused 12\nbegin accepted\n");
}

#[test]
fn a_long_run_is_judged_by_its_first_bytes() {
    let nexts = vec![0x41; LONGEST];
    let longer = vec![0x41; LONGEST + 1];
    assert_eq!(replay(&nexts), "next refused 12\n".repeat(LONGEST));
    assert_eq!(replay(&longer), replay(&nexts));

    let mut cut = vec![0x41; LONGEST - 1];
    Call::Read { id: 1 }.write(&mut cut);
    assert!(replay(&cut).ends_with("\nstopped at 65535\n"));
}

/// How often a text has a line that opens with some words.
fn lines(text: &str, words: &str) -> usize {
    let rest = |line: &str| line.strip_prefix(words).map(str::to_string);
    let ends = |rest: &String| rest.is_empty() || rest.starts_with(' ');
    text.lines().filter_map(rest).filter(ends).count()
}

fn assert_every_answer(text: &str) {
    for words in [
        "next none",
        "read fresh",
        "read pending",
        "read late",
        "read missing",
    ] {
        assert!(lines(text, words) > 50, "{words}");
    }
    for call in ["begin", "span", "return", "close"] {
        assert!(lines(text, &format!("{call} accepted")) > 50, "{call}");
    }
    for (call, numbers) in [
        ("begin", &[1, 2, 3, 4, 5, 6, 8, 9, 10, 11, 12, 13][..]),
        ("next", &[12]),
        ("span", &[12, 14, 15, 16]),
        ("return", &[12, 13, 14, 15, 16]),
        ("close", &[12, 14, 17]),
        ("read", &[12, 15]),
    ] {
        for number in numbers {
            let words = format!("{call} refused {number}");
            assert!(lines(text, &words) > 5, "{words}");
        }
    }
}

#[test]
fn generated_frames_reach_every_answer() {
    let mut random = Random::new(31);
    let logs = (0..2_000).map(|_| calls::frames(&mut random, 3));
    let text: String = logs.map(|log| replay(&log)).collect();
    assert_eq!(lines(&text, "stopped"), 0);
    assert_every_answer(&text);
}

#[test]
fn generated_calls_in_any_order_reach_every_answer() {
    let mut random = Random::new(32);
    let logs = (0..1_200).map(|_| calls::wild(&mut random, 200));
    let text: String = logs.map(|log| replay(&log)).collect();
    assert_eq!(lines(&text, "stopped"), 0);
    assert_eq!(text.lines().count(), 1_200 * 200);
    assert_every_answer(&text);
}

/// A long log does not run dry: frames are begun up to its end.
#[test]
fn generated_long_logs_begin_frames_to_the_end() {
    let mut random = Random::new(33);
    for _ in 0..20 {
        let log = calls::frames_up_to(&mut random, LONGEST);
        assert!(log.len() >= LONGEST);
        let text = replay(&log);
        let second_half = &text[text.len() / 2..];
        if lines(&text, "begin accepted") > 100 {
            assert!(lines(second_half, "begin accepted") > 20);
            assert!(lines(second_half, "read fresh") > 20);
            return;
        }
    }
    panic!("no log with many frames");
}

/// Of a damaged log as many lines as calls that stand before the damage are the same.
#[test]
fn damage_changes_nothing_before_it() {
    let mut random = Random::new(34);
    for _ in 0..500 {
        let log = calls::frames(&mut random, 3);
        let mut damaged = log.clone();
        random.pick(&Damage::ALL).apply(&mut random, &mut damaged);
        let same = log
            .iter()
            .zip(&damaged)
            .take_while(|(one, other)| one == other);
        let before = replay(&log[..same.count()]);
        let whole_lines = before.lines().filter(|line| !line.starts_with("stopped"));
        let (text, damaged_text) = (replay(&log), replay(&damaged));
        let mut lines = text.lines().zip(damaged_text.lines());
        for line in whole_lines {
            assert_eq!(lines.next(), Some((line, line)));
        }
    }
}
