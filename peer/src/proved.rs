//! The proved library for Rust programs: a safe wrapper over include/zhiblator.h.
//!
//! This file stands alone. To use it elsewhere, copy it and link the archive
//! `libpanel.a` that `tools/build` makes (build.rs beside it shows how).
//!
//! ```
//! use peer::proved::{self, Refusal, LONGEST_PLAN};
//!
//! // A deadline of 45, the either jobs 1 (30, 5, 40) and 2 (20, 10, 10), and job 3 (25).
//! let mut table = [
//!     0x10, 45, 0, 0x12, 1, 30, 0, 5, 0, 40, 0, 0x12, 2, 20, 0, 10, 0, 10, 0, 0x11, 3, 25, 0,
//!     0x1F,
//! ];
//! let mut area = [0; LONGEST_PLAN];
//! let planned = proved::plan_free(&table, &mut area)?;
//! let plan = &area[..planned.length];
//! assert_eq!(plan, [0x21, 1, 0x21, 2, 0x20, 3, 0x2F]);
//! assert_eq!((planned.busy, planned.last), (40, 45));
//! assert_eq!(proved::check_plan(&table, plan)?.last, 45);
//!
//! table[1] = 44;
//! let refused = proved::plan_free(&table, &mut area).unwrap_err();
//! assert_eq!(refused, Refusal::NoTimetable);
//! assert_eq!(refused.to_string(), "refused 7, NONE");
//! assert_eq!(proved::least_deadline(&table)?, 45);
//! # Ok::<(), Refusal>(())
//! ```

use std::fmt;

/// The longest plan in bytes: a planner's output area must have room for it.
pub const LONGEST_PLAN: usize = 65;

/// A plan that was written at the front of the output area.
#[derive(Clone, Copy, Debug, PartialEq, Eq)]
pub struct Planned {
    /// The plan's length in bytes.
    pub length: usize,
    /// How many ticks the panel is busy: the sum of the plan's spans.
    pub busy: u64,
    /// The tick of the latest finish.
    pub last: u64,
}

/// A plan that passes the check: the figures of its run at full entries.
#[derive(Clone, Copy, Debug, PartialEq, Eq)]
pub struct Passed {
    /// The tick of the latest finish.
    pub last: u64,
    /// How many ticks the panel is busy: the sum of the plan's spans.
    pub busy: u64,
}

/// Why a call was refused. What concerns a file has a place: the offset of the record's
/// first byte, or the file's length where a record is missing.
#[derive(Clone, Copy, Debug, PartialEq, Eq)]
pub enum Refusal {
    /// 1: bytes end inside a record or before the end record.
    Short(u64),
    /// 2: kind unknown or not allowed at this place.
    Kind(u64),
    /// 3: a time above 4,000, or D = 0.
    Range(u64),
    /// 4: a 33rd job.
    Many(u64),
    /// 5: id used before in the same file.
    Twice(u64),
    /// 6: bytes after the end record.
    After(u64),
    /// 7: no timetable meets the deadline.
    NoTimetable,
    /// 8: plan names an id that the table lacks.
    Stranger,
    /// 9: plan sends a here-only job away.
    Kept,
    /// 10: plan lacks a job of the table.
    Left,
    /// 11: plan run at full entries misses D.
    Late,
    /// 18: output area shorter than 65 bytes.
    Room,
    /// An answer that the header does not know: another library is linked.
    Unknown,
}

impl Refusal {
    /// The refusal's number; 0 for an answer that the header does not know.
    pub fn number(self) -> u8 {
        match self {
            Refusal::Short(_) => 1,
            Refusal::Kind(_) => 2,
            Refusal::Range(_) => 3,
            Refusal::Many(_) => 4,
            Refusal::Twice(_) => 5,
            Refusal::After(_) => 6,
            Refusal::NoTimetable => 7,
            Refusal::Stranger => 8,
            Refusal::Kept => 9,
            Refusal::Left => 10,
            Refusal::Late => 11,
            Refusal::Room => 18,
            Refusal::Unknown => 0,
        }
    }

    /// The refusal's name in document 01.
    pub fn name(self) -> &'static str {
        match self {
            Refusal::Short(_) => "SHORT",
            Refusal::Kind(_) => "KIND",
            Refusal::Range(_) => "RANGE",
            Refusal::Many(_) => "MANY",
            Refusal::Twice(_) => "TWICE",
            Refusal::After(_) => "AFTER",
            Refusal::NoTimetable => "NONE",
            Refusal::Stranger => "STRANGER",
            Refusal::Kept => "KEPT",
            Refusal::Left => "LEFT",
            Refusal::Late => "LATE",
            Refusal::Room => "ROOM",
            Refusal::Unknown => "unknown",
        }
    }

    /// The refused record's place in its file, where the refusal is about one.
    pub fn place(self) -> Option<u64> {
        match self {
            Refusal::Short(place)
            | Refusal::Kind(place)
            | Refusal::Range(place)
            | Refusal::Many(place)
            | Refusal::Twice(place)
            | Refusal::After(place) => Some(place),
            _ => None,
        }
    }

    fn from_number(number: u64, place: u64) -> Refusal {
        match (number, place) {
            (1, _) => Refusal::Short(place),
            (2, _) => Refusal::Kind(place),
            (3, _) => Refusal::Range(place),
            (4, _) => Refusal::Many(place),
            (5, _) => Refusal::Twice(place),
            (6, _) => Refusal::After(place),
            (7, 0) => Refusal::NoTimetable,
            (8, 0) => Refusal::Stranger,
            (9, 0) => Refusal::Kept,
            (10, 0) => Refusal::Left,
            (11, 0) => Refusal::Late,
            (18, 0) => Refusal::Room,
            _ => Refusal::Unknown,
        }
    }
}

impl fmt::Display for Refusal {
    fn fmt(&self, out: &mut fmt::Formatter<'_>) -> fmt::Result {
        write!(out, "refused {}", self.number())?;
        if let Some(place) = self.place() {
            write!(out, " at {place}")?;
        }
        write!(out, ", {}", self.name())
    }
}

impl std::error::Error for Refusal {}

/// Writes the free-order plan of a table at the front of the area: of all choices that
/// meet the deadline, the one that keeps the panel busy for the least time.
///
/// With a refusal the area stays as it was.
pub fn plan_free(table: &[u8], area: &mut [u8]) -> Result<Planned, Refusal> {
    // SAFETY: each pointer is that of a live slice and is given with its length; the
    // library reads the table, and writes within the area alone.
    let answer =
        unsafe { c::zb_plan_free(table.as_ptr(), table.len(), area.as_mut_ptr(), area.len()) };
    planned(answer)
}

/// Writes the given-order plan of a table, which keeps the jobs in table order, at the
/// front of the area.
///
/// With a refusal the area stays as it was.
pub fn plan_given(table: &[u8], area: &mut [u8]) -> Result<Planned, Refusal> {
    // SAFETY: as for `plan_free`.
    let answer =
        unsafe { c::zb_plan_given(table.as_ptr(), table.len(), area.as_mut_ptr(), area.len()) };
    planned(answer)
}

/// The least deadline from 1 to 4,000 that some timetable meets. The table's own deadline
/// is ignored.
pub fn least_deadline(table: &[u8]) -> Result<u64, Refusal> {
    // SAFETY: the pointer is that of a live slice and is given with its length; the
    // library reads the table.
    let answer = unsafe { c::zb_least_deadline(table.as_ptr(), table.len()) };
    judge(answer.number, answer.place, &[answer.deadline])?;
    Ok(answer.deadline)
}

/// Checks anybody's plan for a table: it passes exactly when every permitted run of it is
/// on time.
pub fn check_plan(table: &[u8], plan: &[u8]) -> Result<Passed, Refusal> {
    // SAFETY: each pointer is that of a live slice and is given with its length; the
    // library reads both.
    let answer =
        unsafe { c::zb_check_plan(table.as_ptr(), table.len(), plan.as_ptr(), plan.len()) };
    judge(answer.number, answer.place, &[answer.last, answer.busy])?;
    Ok(Passed {
        last: answer.last,
        busy: answer.busy,
    })
}

fn planned(answer: c::Planned) -> Result<Planned, Refusal> {
    let figures = [answer.length, answer.busy, answer.last];
    judge(answer.number, answer.place, &figures)?;
    Ok(Planned {
        length: usize::try_from(answer.length).map_err(|_| Refusal::Unknown)?,
        busy: answer.busy,
        last: answer.last,
    })
}

/// Takes an answer's head apart: "With a refusal the other fields are 0", and an accepted
/// call has no place.
fn judge(number: u64, place: u64, figures: &[u64]) -> Result<(), Refusal> {
    if number == 0 && place == 0 {
        return Ok(());
    }
    if figures.iter().any(|&figure| figure != 0) {
        return Err(Refusal::Unknown);
    }
    Err(Refusal::from_number(number, place))
}

/// The header, word for word.
mod c {
    #[repr(C)]
    pub struct Planned {
        pub number: u64,
        pub place: u64,
        pub length: u64,
        pub busy: u64,
        pub last: u64,
    }

    #[repr(C)]
    pub struct Least {
        pub number: u64,
        pub place: u64,
        pub deadline: u64,
    }

    #[repr(C)]
    pub struct Checked {
        pub number: u64,
        pub place: u64,
        pub last: u64,
        pub busy: u64,
    }

    extern "C" {
        pub fn zb_plan_free(
            table: *const u8,
            table_len: usize,
            area: *mut u8,
            area_len: usize,
        ) -> Planned;

        pub fn zb_plan_given(
            table: *const u8,
            table_len: usize,
            area: *mut u8,
            area_len: usize,
        ) -> Planned;

        pub fn zb_least_deadline(table: *const u8, table_len: usize) -> Least;

        pub fn zb_check_plan(
            table: *const u8,
            table_len: usize,
            plan: *const u8,
            plan_len: usize,
        ) -> Checked;
    }
}
