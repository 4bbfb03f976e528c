//! The lister's text.

mod common;

use common::{e, E};
use peer::generate::{self, Random};
use peer::listing::listing;
use peer::table::Table;

#[test]
fn table_e() {
    let text =
        b"frame 45 jobs 3\n1 away 0 5 45\n2 away 5 15 25\n3 here 15 40 40\nbusy 40 last 45\n";
    assert_eq!(listing(&E).as_bytes(), text);
}

#[test]
fn no_jobs() {
    let text = "frame 4000 jobs 0\nbusy 0 last 0\n";
    assert_eq!(listing(&[0x10, 0xA0, 0x0F, 0x1F]), text);
}

#[test]
fn refusals() {
    assert_eq!(listing(&e(44)), "refused 7\n");
    assert_eq!(listing(&[]), "refused 1 at 0\n");
    assert_eq!(listing(&[0x10, 1, 0, 0x20]), "refused 2 at 3\n");
    assert_eq!(listing(&[&E[..], &[0]].concat()), "refused 6 at 24\n");
}

/// The first 267 bytes settle the text: 32 either jobs and the record of a 33rd.
#[test]
fn long_inputs_are_settled_by_their_first_bytes() {
    let settled = Table::LONGEST - 1 + 8;
    assert_eq!(settled, 267);
    let mut random = Random::new(41);
    let mut refusals = [0; 8];
    for _ in 0..4_000 {
        let jobs = random.below(34);
        let mut input = generate::table(&mut random, jobs, 50).write();
        if random.one_in(2) {
            input.pop();
        }
        let tail = generate::table(&mut random, 33, 50).write();
        input.extend(tail.iter().skip(3).cycle().take(600));
        let text = listing(&input);
        assert_eq!(listing(&input[..settled]), text);
        let number = text.strip_prefix("refused ").expect("a refusal");
        refusals[usize::from(number.as_bytes()[0] - b'0')] += 1;
    }
    for number in [4, 5, 6] {
        assert!(refusals[number] > 10, "{refusals:?}");
    }
}

#[test]
fn the_decimals_of_every_deadline() {
    for deadline in 1..=Table::LARGEST_TIME {
        let bytes = Table {
            deadline,
            jobs: vec![common::here_only(0, deadline)],
        }
        .write();
        let text = format!(
            "frame {deadline} jobs 1\n0 here 0 {deadline} {deadline}\n\
             busy {deadline} last {deadline}\n"
        );
        assert_eq!(listing(&bytes), text);
    }
}
