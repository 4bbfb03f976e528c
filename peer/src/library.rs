//! The planners and the check as figures, the shape in which this program and the proved
//! library are set side by side.

use crate::check::check_plan;
use crate::planner::{least_deadline, plan_free, plan_given, Planned};
#[cfg(proved)]
use crate::proved;
use crate::refusal::Refusal;

/// A refusal as figures.
#[derive(Clone, Copy, Debug, PartialEq, Eq)]
pub struct Refused {
    /// Document 01's number.
    pub number: u8,
    /// The place, where the refusal has one.
    pub place: Option<u64>,
}

/// The figures of an accepted call, or its refusal. A planner gives plan length, busy total
/// and last finish; the least deadline itself and two zeros; the check last finish, busy
/// total and a zero.
pub type Answer = Result<[u64; 3], Refused>;

/// A planner: table and output area.
pub type Planner = fn(&[u8], &mut [u8]) -> Answer;

/// One program of document 01's planners and check.
#[derive(Clone, Copy)]
pub struct Library {
    /// The free-order planner.
    pub plan_free: Planner,
    /// The given-order planner.
    pub plan_given: Planner,
    /// The least deadline of a table.
    pub least_deadline: fn(&[u8]) -> Answer,
    /// The check of a table and a plan.
    pub check_plan: fn(&[u8], &[u8]) -> Answer,
}

impl Library {
    /// This program.
    pub fn peer() -> Library {
        Library {
            plan_free: |table, area| answer(plan_free(table, area), planned),
            plan_given: |table, area| answer(plan_given(table, area), planned),
            least_deadline: |table| answer(least_deadline(table), |least| [least.into(), 0, 0]),
            check_plan: |table, plan| {
                answer(check_plan(table, plan), |passed| {
                    [passed.last.into(), passed.busy.into(), 0]
                })
            },
        }
    }

    /// The proved library, or a sentence that says what is missing.
    #[cfg(not(proved))]
    pub fn proved() -> Result<Library, &'static str> {
        Err(
            "the proved library is not linked: make libpanel.a with `tools/build` and build again",
        )
    }

    /// The proved library.
    #[cfg(proved)]
    pub fn proved() -> Result<Library, &'static str> {
        fn planned(planned: proved::Planned) -> [u64; 3] {
            [planned.length as u64, planned.busy, planned.last]
        }
        Ok(Library {
            plan_free: |table, area| answer(proved::plan_free(table, area), planned),
            plan_given: |table, area| answer(proved::plan_given(table, area), planned),
            least_deadline: |table| answer(proved::least_deadline(table), |least| [least, 0, 0]),
            check_plan: |table, plan| {
                answer(proved::check_plan(table, plan), |passed| {
                    [passed.last, passed.busy, 0]
                })
            },
        })
    }
}

fn planned(planned: Planned) -> [u64; 3] {
    [
        planned.length as u64,
        planned.busy.into(),
        planned.last.into(),
    ]
}

fn answer<T, E: Into<Refused>>(
    result: Result<T, E>,
    figures: impl FnOnce(T) -> [u64; 3],
) -> Answer {
    result.map(figures).map_err(Into::into)
}

impl From<Refusal> for Refused {
    fn from(refusal: Refusal) -> Refused {
        Refused {
            number: refusal.number(),
            place: refusal.place().map(|place| place as u64),
        }
    }
}

#[cfg(proved)]
impl From<proved::Refusal> for Refused {
    fn from(refusal: proved::Refusal) -> Refused {
        Refused {
            number: refusal.number(),
            place: refusal.place(),
        }
    }
}
