//! The tables of all parts of the comparison.

use peer::generate::{self, Damage, Random};
use peer::table::Table;

/// A table of any size. Most are short, so that the few long ones do not take all the time.
pub fn any(random: &mut Random) -> Table {
    let (jobs, largest) = match random.below(20) {
        0..=9 => (random.below(7), 12),
        10..=14 => (random.below(15), 60),
        15..=18 => return generate::table_at_limits(random),
        _ => (random.below(34), random.pick(&[100, 300, 1500, 4001])),
    };
    let mut table = generate::table(random, jobs, largest);
    if jobs < 15 && random.one_in(4) {
        generate::to_the_edge(random, &mut table);
    }
    table
}

/// No damage for half of all byte strings.
pub fn damage(random: &mut Random) -> Damage {
    match random.one_in(2) {
        true => Damage::Whole,
        false => random.pick(&Damage::ALL[1..]),
    }
}
