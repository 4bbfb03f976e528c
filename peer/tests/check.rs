//! The check against the definition of a run.

mod common;

use common::{e, either, here_only, table, E, E_PLAN};
use peer::check::{check_plan, Passed};
use peer::generate::{self, Random};
use peer::plan::{self, Choice, Record};
use peer::refusal::Refusal;
use peer::search::Timetable;
use peer::table::{Chosen, Table};

/// A table of a few jobs, with a plan of exactly these jobs in any order, here-only jobs
/// kept here.
fn table_and_plan(random: &mut Random, jobs: usize, largest: u16) -> (Table, Vec<Record>) {
    let mut table = generate::table(random, jobs, largest);
    table.deadline = random.within(1..=largest * 3 + 1);
    let mut records: Vec<Record> = table
        .jobs
        .iter()
        .map(|job| Record {
            id: job.id,
            choice: match job.offload.is_some() && random.one_in(2) {
                true => Choice::Away,
                false => Choice::Here,
            },
        })
        .collect();
    random.shuffle(&mut records);
    (table, records)
}

#[test]
fn passes_exactly_the_plans_whose_timetable_meets_d() {
    let mut random = Random::new(11);
    let mut passes = 0;
    for place in 0..5_000 {
        let (table, records) = table_and_plan(&mut random, place % 7, 10);
        let position = |record: &Record| table.jobs.iter().position(|job| job.id == record.id);
        let order: Vec<usize> = records.iter().filter_map(position).collect();
        let mut choices = vec![Choice::Here; table.jobs.len()];
        for (&job, record) in order.iter().zip(&records) {
            choices[job] = record.choice;
        }
        let timetable = Timetable::packed(&table.jobs, &choices, &order);

        let answer = check_plan(&table.write(), &plan::write(records));
        if !timetable.meets(&table.jobs, table.deadline.into()) {
            assert_eq!(answer, Err(Refusal::Late), "{table:?}");
            continue;
        }
        let finishes = (0..table.jobs.len()).map(|job| timetable.finish(&table.jobs, job));
        let spans = table.jobs.iter().zip(choices);
        let passed = Passed {
            last: finishes.max().unwrap_or(0),
            busy: spans
                .map(|(job, choice)| job.chosen(choice).unwrap().span)
                .sum(),
        };
        assert_eq!(answer, Ok(passed), "{table:?}");
        passes += 1;
    }
    assert!((1_000..4_000).contains(&passes), "{passes} passes");
}

/// "each span (C here, S away) and each return (I) takes a whole number of ticks from 0 up
/// to its entry": the check passes exactly if every such run is on time.
#[test]
fn passes_exactly_the_plans_whose_every_run_is_on_time() {
    let mut random = Random::new(12);
    for place in 0..3_000 {
        let (table, records) = table_and_plan(&mut random, place % 4, 3);
        let listed: Vec<Chosen> = records
            .iter()
            .map(|record| table.job(record.id).unwrap().chosen(record.choice).unwrap())
            .collect();
        let every_run = runs_on_time(&listed, 0, table.deadline.into());
        let answer = check_plan(&table.write(), &plan::write(records));
        assert_eq!(answer.is_ok(), every_run, "{table:?}");
    }
}

/// Whether every run of the listed jobs, the first of which starts at `now`, is on time.
fn runs_on_time(listed: &[Chosen], now: u32, deadline: u32) -> bool {
    let Some((first, rest)) = listed.split_first() else {
        return true;
    };
    (0..=first.span).all(|span| {
        (0..=first.until_finish).all(|back| now + span + back <= deadline)
            && runs_on_time(rest, now + span, deadline)
    })
}

#[test]
fn the_plan_of_e() {
    let passed = Passed { last: 45, busy: 40 };
    assert_eq!(check_plan(&E, &E_PLAN), Ok(passed));
    assert_eq!(check_plan(&e(44), &E_PLAN), Err(Refusal::Late));
}

#[test]
fn a_plan_may_list_the_jobs_in_any_order() {
    let jobs = [either(1, 9, 2, 5), here_only(2, 3)];
    let here_first = [0x20, 2, 0x21, 1, 0x2F];
    let passed = Passed { last: 10, busy: 5 };
    assert_eq!(check_plan(&table(10, &jobs), &here_first), Ok(passed));
    assert_eq!(
        check_plan(&table(9, &jobs), &here_first),
        Err(Refusal::Late)
    );
}

#[test]
fn the_order_of_the_refusals() {
    let e_44 = e(44);
    let cases: [(&[u8], &[u8], Refusal); 9] = [
        // The table before the plan.
        (&[0x10, 0x2D], &[], Refusal::Short(0)),
        // All of the plan's bytes before the first stranger.
        (&E, &[0x20, 9, 0x21, 3], Refusal::Short(4)),
        (&E, &[0x20, 9, 0x20, 9, 0x2F], Refusal::Twice(2)),
        // Record by record: the stranger or the kept job, whichever comes first.
        (&E, &[0x21, 3, 0x20, 9, 0x2F], Refusal::Kept),
        (&E, &[0x20, 9, 0x21, 3, 0x2F], Refusal::Stranger),
        // Both before a job left out.
        (&E, &[0x20, 1, 0x21, 3, 0x2F], Refusal::Kept),
        (&E, &[0x20, 1, 0x21, 9, 0x2F], Refusal::Stranger),
        // A job left out before a late one.
        (&e_44, &[0x21, 1, 0x21, 2, 0x2F], Refusal::Left),
        (&e_44, &E_PLAN, Refusal::Late),
    ];
    for (table, plan, refusal) in cases {
        assert_eq!(check_plan(table, plan), Err(refusal), "{plan:?}");
    }
}
