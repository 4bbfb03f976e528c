//! The bytes of a plan.

use std::fmt;

use crate::records::Records;
use crate::refusal::Refusal;
use crate::table::Table;

const HERE: u8 = 0x20;
const AWAY: u8 = 0x21;
const END: u8 = 0x2F;

/// "a choice (here or away; here-only jobs stay here)".
#[derive(Clone, Copy, Debug, PartialEq, Eq)]
pub enum Choice {
    /// The job runs on the panel.
    Here,
    /// The job goes to the server.
    Away,
}

impl fmt::Display for Choice {
    fn fmt(&self, out: &mut fmt::Formatter<'_>) -> fmt::Result {
        out.write_str(match self {
            Choice::Here => "here",
            Choice::Away => "away",
        })
    }
}

/// One record of a plan.
#[derive(Clone, Copy, Debug, PartialEq, Eq)]
pub struct Record {
    /// The job's id.
    pub id: u8,
    /// Run here, or send away.
    pub choice: Choice,
}

/// Reads a plan: "A plan is 0 to 32 of 0x20 and 0x21 with distinct ids, one 0x2F,
/// nothing after."
pub fn read(bytes: &[u8]) -> Result<Vec<Record>, Refusal> {
    let mut records = Records::new(bytes);
    let mut plan = Vec::with_capacity(Table::MOST_JOBS);
    let mut used = [false; 256];
    loop {
        let place = records.place();
        let choice = match records.kind()? {
            HERE => Choice::Here,
            AWAY => Choice::Away,
            END => {
                records.end()?;
                return Ok(plan);
            }
            _ => return Err(Refusal::Kind(place)),
        };
        let [id] = records.body()?;
        if plan.len() == Table::MOST_JOBS {
            return Err(Refusal::Many(place));
        }
        if used[usize::from(id)] {
            return Err(Refusal::Twice(place));
        }
        used[usize::from(id)] = true;
        plan.push(Record { id, choice });
    }
}

/// The bytes of a plan. A plan outside the limits is written as it stands.
pub fn write(plan: impl IntoIterator<Item = Record>) -> Vec<u8> {
    let mut bytes = Vec::with_capacity(Table::LONGEST_PLAN);
    for Record { id, choice } in plan {
        bytes.push(match choice {
            Choice::Here => HERE,
            Choice::Away => AWAY,
        });
        bytes.push(id);
    }
    bytes.push(END);
    bytes
}
