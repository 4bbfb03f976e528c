//! The refusal numbers 1 to 18.

use std::fmt;

/// A refusal. "1 to 6 return number and place, the rest the number."
#[derive(Clone, Copy, Debug, PartialEq, Eq)]
pub enum Refusal {
    /// 1: "bytes end inside a record or before the end record".
    Short(usize),
    /// 2: "kind unknown or not allowed at this place".
    Kind(usize),
    /// 3: "a time above 4,000, or D = 0".
    Range(usize),
    /// 4: "a 33rd job".
    Many(usize),
    /// 5: "id used before in the same file".
    Twice(usize),
    /// 6: "bytes after the end record".
    After(usize),
    /// 7: "no timetable meets the deadline".
    NoTimetable,
    /// 8: "plan names an id that the table lacks".
    Stranger,
    /// 9: "plan sends a here-only job away".
    Kept,
    /// 10: "plan lacks a job of the table".
    Left,
    /// 11: "plan run at full entries misses D".
    Late,
    /// 12: "call not allowed in this phase".
    Phase,
    /// 13: "at begin: frame number not above the last one begun; at return: not the
    /// open frame's".
    Number,
    /// 14: "time below that of the last accepted event".
    Clock,
    /// 15: "id not the one allowed".
    Who,
    /// 16: "value not a number, or infinite".
    Value,
    /// 17: "close before D".
    Early,
    /// 18: "output area shorter than 65 bytes".
    Room,
}

impl Refusal {
    /// The number in document 01's table.
    pub fn number(self) -> u8 {
        self.entry().0
    }

    /// The name in document 01's table.
    pub fn name(self) -> &'static str {
        self.entry().1
    }

    /// "The place is the offset of the record's kind byte (the length, if no byte is
    /// left; the first extra byte, for AFTER)."
    pub fn place(self) -> Option<usize> {
        match self {
            Refusal::Short(place)
            | Refusal::Kind(place)
            | Refusal::Range(place)
            | Refusal::Many(place)
            | Refusal::Twice(place)
            | Refusal::After(place) => Some(place),
            _ => None,
        }
    }

    fn entry(self) -> (u8, &'static str) {
        match self {
            Refusal::Short(_) => (1, "SHORT"),
            Refusal::Kind(_) => (2, "KIND"),
            Refusal::Range(_) => (3, "RANGE"),
            Refusal::Many(_) => (4, "MANY"),
            Refusal::Twice(_) => (5, "TWICE"),
            Refusal::After(_) => (6, "AFTER"),
            Refusal::NoTimetable => (7, "NONE"),
            Refusal::Stranger => (8, "STRANGER"),
            Refusal::Kept => (9, "KEPT"),
            Refusal::Left => (10, "LEFT"),
            Refusal::Late => (11, "LATE"),
            Refusal::Phase => (12, "PHASE"),
            Refusal::Number => (13, "NUMBER"),
            Refusal::Clock => (14, "CLOCK"),
            Refusal::Who => (15, "WHO"),
            Refusal::Value => (16, "VALUE"),
            Refusal::Early => (17, "EARLY"),
            Refusal::Room => (18, "ROOM"),
        }
    }
}

/// The lister's words: "`refused 7`, or for 1 to 6 `refused 2 at 3` (number, place)".
impl fmt::Display for Refusal {
    fn fmt(&self, out: &mut fmt::Formatter<'_>) -> fmt::Result {
        write!(out, "refused {}", self.number())?;
        match self.place() {
            Some(place) => write!(out, " at {place}"),
            None => Ok(()),
        }
    }
}

impl std::error::Error for Refusal {}
