//! The text of a run of calls on one frame record.
//!
//! A run is a byte string of records: one byte of kind, then the call's arguments,
//! numbers low byte first, a value as the four bytes of its pattern.

use crate::frame::{Frame, Reading};
use crate::refusal::Refusal;

/// The longest run that is judged; a longer one is judged by its first bytes.
pub const LONGEST: usize = 65_536;

const BEGIN: u8 = 0x40;
const NEXT: u8 = 0x41;
const SPAN_END: u8 = 0x42;
const RETURN: u8 = 0x43;
const CLOSE: u8 = 0x44;
const READ: u8 = 0x45;

/// A call on the frame runner, with its arguments.
#[derive(Clone, Copy, Debug, PartialEq)]
#[allow(missing_docs)]
pub enum Call<'a> {
    Begin {
        number: u32,
        table: &'a [u8],
        plan: &'a [u8],
    },
    Next,
    SpanEnd {
        id: u8,
        time: u16,
        value: f32,
    },
    Return {
        number: u32,
        id: u8,
        time: u16,
        value: f32,
    },
    Close {
        time: u16,
    },
    Read {
        id: u8,
    },
}

/// The text of a run: a line for each call, and `stopped at N` where a record's kind is
/// unknown or its body is cut, N being the offset of its kind byte.
pub fn replay(run: &[u8]) -> String {
    let run = &run[..run.len().min(LONGEST)];
    let mut frame = Frame::idle();
    let mut text = String::new();
    let mut rest = run;
    while !rest.is_empty() {
        let place = run.len() - rest.len();
        let Some(call) = Call::read(&mut rest) else {
            return text + &format!("stopped at {place}\n");
        };
        let answer = call.answer(&mut frame);
        let answer = answer.unwrap_or_else(|refusal| refusal.to_string());
        text += &format!("{} {answer}\n", call.word());
    }
    text
}

impl<'a> Call<'a> {
    /// Takes the first call from a run, if its kind is known and its body whole.
    fn read(run: &mut &'a [u8]) -> Option<Call<'a>> {
        let [kind] = take(run)?;
        Some(match kind {
            BEGIN => {
                let number = u32::from_le_bytes(take(run)?);
                let table_length = u16::from_le_bytes(take(run)?);
                let plan_length = u16::from_le_bytes(take(run)?);
                Call::Begin {
                    number,
                    table: take_slice(run, table_length.into())?,
                    plan: take_slice(run, plan_length.into())?,
                }
            }
            NEXT => Call::Next,
            SPAN_END => Call::SpanEnd {
                id: u8::from_le_bytes(take(run)?),
                time: u16::from_le_bytes(take(run)?),
                value: f32::from_le_bytes(take(run)?),
            },
            RETURN => Call::Return {
                number: u32::from_le_bytes(take(run)?),
                id: u8::from_le_bytes(take(run)?),
                time: u16::from_le_bytes(take(run)?),
                value: f32::from_le_bytes(take(run)?),
            },
            CLOSE => Call::Close {
                time: u16::from_le_bytes(take(run)?),
            },
            READ => Call::Read {
                id: u8::from_le_bytes(take(run)?),
            },
            _ => return None,
        })
    }

    /// Adds the call's record to a run.
    ///
    /// # Panics
    ///
    /// Where a table or plan is too long for its two bytes of length.
    pub fn write(&self, run: &mut Vec<u8>) {
        match *self {
            Call::Begin {
                number,
                table,
                plan,
            } => write_begin(run, number, table, plan),
            Call::Next => run.push(NEXT),
            Call::SpanEnd { id, time, value } => {
                run.extend([SPAN_END, id]);
                run.extend(time.to_le_bytes());
                run.extend(value.to_le_bytes());
            }
            Call::Return {
                number,
                id,
                time,
                value,
            } => {
                run.push(RETURN);
                run.extend(number.to_le_bytes());
                run.push(id);
                run.extend(time.to_le_bytes());
                run.extend(value.to_le_bytes());
            }
            Call::Close { time } => {
                run.push(CLOSE);
                run.extend(time.to_le_bytes());
            }
            Call::Read { id } => run.extend([READ, id]),
        }
    }

    /// The word that opens the call's line.
    fn word(&self) -> &'static str {
        match self {
            Call::Begin { .. } => "begin",
            Call::Next => "next",
            Call::SpanEnd { .. } => "span",
            Call::Return { .. } => "return",
            Call::Close { .. } => "close",
            Call::Read { .. } => "read",
        }
    }

    /// Makes the call; the rest of its line, if it is not refused.
    fn answer(&self, frame: &mut Frame) -> Result<String, Refusal> {
        match *self {
            Call::Begin {
                number,
                table,
                plan,
            } => frame.begin(number, table, plan)?,
            Call::Next => {
                return Ok(match frame.next()? {
                    Some(record) => format!("{} {}", record.id, record.choice),
                    None => "none".to_string(),
                })
            }
            Call::SpanEnd { id, time, value } => frame.span_end(id, time, value)?,
            Call::Return {
                number,
                id,
                time,
                value,
            } => frame.give_back(number, id, time, value)?,
            Call::Close { time } => frame.close(time)?,
            Call::Read { id } => {
                return Ok(match frame.read(id)? {
                    Reading::Fresh(sent) => {
                        format!("fresh {} {:08x}", sent.frame, sent.value.to_bits())
                    }
                    Reading::Pending => "pending".to_string(),
                    Reading::Late => "late".to_string(),
                    Reading::Missing => "missing".to_string(),
                })
            }
        }
        Ok("accepted".to_string())
    }
}

fn write_begin(run: &mut Vec<u8>, number: u32, table: &[u8], plan: &[u8]) {
    run.push(BEGIN);
    run.extend(number.to_le_bytes());
    for part in [table, plan] {
        let length = u16::try_from(part.len()).expect("two bytes of length");
        run.extend(length.to_le_bytes());
    }
    run.extend(table);
    run.extend(plan);
}

fn take<const LENGTH: usize>(run: &mut &[u8]) -> Option<[u8; LENGTH]> {
    take_slice(run, LENGTH)?.try_into().ok()
}

fn take_slice<'a>(run: &mut &'a [u8], length: usize) -> Option<&'a [u8]> {
    if run.len() < length {
        return None;
    }
    let (taken, rest) = run.split_at(length);
    *run = rest;
    Some(taken)
}
