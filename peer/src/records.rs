//! The records of a file, judged one after the other.

use crate::refusal::Refusal;

/// A place in a file of records: "One byte of kind, then a body whose length the kind
/// fixes."
pub(crate) struct Records<'a> {
    bytes: &'a [u8],
    place: usize,
}

impl<'a> Records<'a> {
    pub(crate) fn new(bytes: &'a [u8]) -> Self {
        Records { bytes, place: 0 }
    }

    /// The offset of the present record's kind byte.
    pub(crate) fn place(&self) -> usize {
        self.place
    }

    /// The present record's kind: "no byte left SHORT".
    pub(crate) fn kind(&self) -> Result<u8, Refusal> {
        let kind = self.bytes.get(self.place).copied();
        kind.ok_or(Refusal::Short(self.place))
    }

    /// The present record's body, after which the next record is the present one:
    /// "body cut SHORT".
    pub(crate) fn body<const LENGTH: usize>(&mut self) -> Result<[u8; LENGTH], Refusal> {
        match self.bytes[self.place..].get(1..) {
            Some(rest) if rest.len() >= LENGTH => {
                let mut body = [0; LENGTH];
                body.copy_from_slice(&rest[..LENGTH]);
                self.place += 1 + LENGTH;
                Ok(body)
            }
            _ => Err(Refusal::Short(self.place)),
        }
    }

    /// Passes the end record: "After the end record, AFTER."
    pub(crate) fn end(mut self) -> Result<(), Refusal> {
        let [] = self.body()?;
        if self.place < self.bytes.len() {
            return Err(Refusal::After(self.place));
        }
        Ok(())
    }
}
