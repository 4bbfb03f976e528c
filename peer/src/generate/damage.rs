//! Damage to byte strings.

use super::Random;

/// What is done to a byte string.
#[derive(Clone, Copy, Debug, PartialEq, Eq)]
#[allow(missing_docs)]
pub enum Damage {
    Whole,
    Cut,
    Flipped,
    Inserted,
    Lost,
}

impl Damage {
    /// Every kind, the undamaged first.
    pub const ALL: [Damage; 5] = [
        Damage::Whole,
        Damage::Cut,
        Damage::Flipped,
        Damage::Inserted,
        Damage::Lost,
    ];

    /// Its name in reports.
    pub fn name(self) -> &'static str {
        match self {
            Damage::Whole => "whole",
            Damage::Cut => "cut",
            Damage::Flipped => "flipped",
            Damage::Inserted => "inserted",
            Damage::Lost => "lost",
        }
    }

    /// Does it to a byte string, at one to three places.
    pub fn apply(self, random: &mut Random, bytes: &mut Vec<u8>) {
        for _ in 0..1 + random.below(3) / 2 + random.below(3) / 2 {
            let place = random.below(bytes.len() + 1);
            let inside = place < bytes.len();
            match self {
                Damage::Cut => bytes.truncate(place),
                Damage::Flipped if inside => bytes[place] ^= flips(random),
                Damage::Inserted => bytes.insert(place, any_byte(random)),
                Damage::Lost if inside => {
                    bytes.remove(place);
                }
                _ => {}
            }
        }
    }
}

/// The bits that are flipped in a byte: one, all, or any.
fn flips(random: &mut Random) -> u8 {
    match random.below(4) {
        0 => 0xFF,
        1 => random.byte(),
        _ => 1 << random.below(8),
    }
}

/// A byte that is often a kind of record.
fn any_byte(random: &mut Random) -> u8 {
    match random.one_in(2) {
        true => random.pick(&[0x10, 0x11, 0x12, 0x1F, 0x20, 0x21, 0x2F, 0x00]),
        false => random.byte(),
    }
}
