//! The planners against the search over all choices and orders.

mod common;

use common::{either, free, given, table};
use peer::check::{check_plan, Passed};
use peer::generate::{self, Random};
use peer::plan::{self, Record};
use peer::planner::{self, Planned};
use peer::refusal::Refusal;
use peer::search::{self, Found, Timetable};
use peer::table::Table;

const TABLES: usize = 3_500;

type Answer = Result<(Vec<u8>, Planned), Refusal>;

/// Generated tables of 0 to 6 jobs, a half of them at the edge.
fn tables(seed: u64) -> impl Iterator<Item = Table> {
    let mut random = Random::new(seed);
    (0..TABLES).map(move |place| {
        let largest = random.pick(&[2, 5, 12, 40, 2000]);
        let mut table = generate::table(&mut random, place % 7, largest);
        if random.one_in(2) {
            generate::to_the_edge(&mut random, &mut table);
        }
        table
    })
}

/// What a planner has to answer for a choice that the search found.
fn expected(table: &Table, found: Option<Found>) -> Answer {
    let found = found.ok_or(Refusal::NoTimetable)?;
    let records = found.order.iter().map(|&job| Record {
        id: table.jobs[job].id,
        choice: found.choices[job],
    });
    let plan = plan::write(records);
    let planned = Planned {
        length: plan.len(),
        busy: found.busy,
        last: found.last,
    };
    Ok((plan, planned))
}

/// A planner's plan passes the check with the same figures.
fn assert_passes(table: &Table, plan: &[u8], planned: &Planned) {
    let figures = Passed {
        last: planned.last,
        busy: planned.busy,
    };
    assert_eq!(check_plan(&table.write(), plan), Ok(figures), "{table:?}");
}

/// A planner answers as the search does on each table, and a fair share of them has a plan.
fn assert_as_searched(
    tables: impl Iterator<Item = Table>,
    plan: fn(&[u8]) -> Answer,
    search: fn(&Table) -> Option<Found>,
) {
    let mut plans = 0;
    for table in tables {
        let answer = plan(&table.write());
        assert_eq!(answer, expected(&table, search(&table)), "{table:?}");
        if let Ok((plan, planned)) = answer {
            assert_passes(&table, &plan, &planned);
            plans += 1;
        }
    }
    assert!(
        (TABLES / 4..TABLES * 9 / 10).contains(&plans),
        "{plans} plans"
    );
}

#[test]
fn the_free_order_plan() {
    assert_as_searched(tables(1), free, search::free_order);
}

#[test]
fn a_free_order_plan_exactly_when_some_timetable_meets_the_deadline() {
    for table in tables(1) {
        let planned = free(&table.write()).is_ok();
        assert_eq!(planned, search::some_timetable(&table), "{table:?}");
    }
}

#[test]
fn the_given_order_plan() {
    assert_as_searched(tables(2), given, search::given_order);
}

#[test]
fn the_least_deadline() {
    for table in tables(3) {
        let least = planner::least_deadline(&table.write());
        let expected = search::least_deadline(&table).ok_or(Refusal::NoTimetable);
        assert_eq!(least, expected, "{table:?}");
    }
}

/// The packed timetables of the search leave out none that would matter: here every start
/// is tried, and the definition alone decides.
#[test]
fn every_start_of_small_tables() {
    let mut random = Random::new(4);
    for place in 0..2_000 {
        let table = generate::table(&mut random, place % 4, 4);
        let table = Table {
            deadline: random.within(1..=7),
            ..table
        };
        let table_order: Vec<usize> = (0..table.jobs.len()).collect();
        let (mut any, mut in_table_order) = (false, false);
        for choices in search::all_choices(&table.jobs) {
            for_each_starts(table.jobs.len(), table.deadline.into(), &mut |starts| {
                let timetable = Timetable {
                    choices: choices.clone(),
                    starts: starts.to_vec(),
                };
                if timetable.meets(&table.jobs, table.deadline.into()) {
                    any = true;
                    in_table_order |= keeps_order(&table, &timetable, &table_order);
                }
            });
        }
        assert_eq!(free(&table.write()).is_ok(), any, "{table:?}");
        assert_eq!(given(&table.write()).is_ok(), in_table_order, "{table:?}");
    }
}

/// "an earlier job's span ends no later than a later job's starts".
fn keeps_order(table: &Table, timetable: &Timetable, order: &[usize]) -> bool {
    let end = |job: usize| {
        let chosen = table.jobs[job].chosen(timetable.choices[job]).unwrap();
        timetable.starts[job] + chosen.span
    };
    order
        .iter()
        .all(|&later| (0..later).all(|earlier| end(earlier) <= timetable.starts[later]))
}

fn for_each_starts(jobs: usize, latest: u32, visit: &mut impl FnMut(&[u32])) {
    let mut starts = vec![0; jobs];
    loop {
        visit(&starts);
        let Some(job) = starts.iter().position(|&start| start < latest) else {
            return;
        };
        starts[job] += 1;
        starts[..job].fill(0);
    }
}

/// Choices of the same busy total with different setup totals: the away order settles the
/// tie, not the setup total.
#[test]
fn a_tie_between_setup_totals() {
    let jobs = [either(1, 10, 4, 8), either(2, 12, 6, 10)];
    let (plan, planned) = free(&table(16, &jobs)).unwrap();
    assert_eq!(plan, [0x21, 2, 0x20, 1, 0x2F]);
    assert_eq!((planned.busy, planned.last), (16, 16));
}

#[test]
fn long_plans_pass_the_check() {
    let mut random = Random::new(5);
    let mut plans = 0;
    for place in 0..400 {
        let mut table = generate::table(&mut random, place % 33, 300);
        if random.one_in(2) {
            generate::to_the_edge(&mut random, &mut table);
        }
        for (plan, planned) in [free(&table.write()), given(&table.write())]
            .into_iter()
            .flatten()
        {
            assert_passes(&table, &plan, &planned);
            plans += 1;
        }
    }
    assert!(plans > 200, "{plans} plans");
}

#[test]
fn a_table_meets_its_least_deadline_and_none_below() {
    let mut random = Random::new(6);
    for place in 0..200 {
        let mut table = generate::table(&mut random, place % 33, 300);
        let Ok(least) = planner::least_deadline(&table.write()) else {
            table.deadline = Table::LARGEST_TIME;
            assert_eq!(free(&table.write()), Err(Refusal::NoTimetable));
            continue;
        };
        table.deadline = least;
        assert!(free(&table.write()).is_ok(), "{table:?}");
        if least > 1 {
            table.deadline = least - 1;
            assert_eq!(free(&table.write()), Err(Refusal::NoTimetable), "{table:?}");
        }
    }
}
