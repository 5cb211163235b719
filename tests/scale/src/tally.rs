//! How many outlines of a run have headings and locks, and what the calls with them came to.

use crate::expect::Expected;
use crate::outline::Record;
use crate::{headings, locks};

#[derive(Clone, Copy, Debug, Default)]
pub struct Tally {
    pub headings: headings::Tally,
    pub locks: locks::Tally,
}

impl Tally {
    pub fn add(&mut self, records: &[Record]) {
        self.headings.add(records);
        self.locks.add(records);
    }

    pub fn add_call(&mut self, records: &[Record], expected: &Expected) {
        self.headings.add_set(records, expected);
        self.locks.add_call(records, expected);
    }
}

#[cfg(test)]
mod tests {
    use super::*;
    use crate::call::Call;
    use crate::expect;
    use crate::heading_cases::tree_a_with;
    use crate::lock_cases::locking;
    use crate::outline::{bytes, ROOTED};
    use crate::random::Random;

    #[test]
    fn both_parts_are_told_of_outlines_and_calls() {
        let rng = &mut Random::new(1);
        let mut tally = Tally::default();
        let records = locking(&[4], tree_a_with(0, 7));
        let call = Call::roomy(bytes(&records), 8, ROOTED, rng);
        tally.add(&records);
        tally.add_call(&records, &expect::by_table(&call));
        assert_eq!((tally.headings.with, tally.locks.with), (1, 1));
        assert_eq!((tally.headings.paid, tally.locks.headed), (1, 1));
    }
}
