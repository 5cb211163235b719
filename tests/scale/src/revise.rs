//! A call that revises one length, and what document 02, §10, says it gives: the length's four bytes are replaced, and what is
//! chosen from the outline before and after is worked out as for a choosing call.

use crate::call::Call;
use crate::expect::Expected;
use crate::outline::{self, RECORD_BYTES};
use crate::rules::{self, Refusal};

pub const MOST_LENGTH: u32 = 1_000_000;

/// `given` has the outline before it is revised, the page count, the way and the buffers' lengths.
#[derive(Clone, Debug, PartialEq, Eq)]
pub struct ReviseCall {
    pub given: Call,
    pub record: u32,
    pub length: u32,
}

impl ReviseCall {
    /// Where the record's length stands; there is such a record.
    fn place(&self) -> usize {
        RECORD_BYTES * (self.record as usize - 1) + 4
    }

    /// How many whole records there are.
    pub fn records(&self) -> usize {
        self.given.outline.len() / RECORD_BYTES
    }

    /// The length before, by its four bytes, low byte first.
    pub fn old_length(&self) -> u32 {
        let bytes = &self.given.outline[self.place()..][..4];
        let bytes = bytes.iter().rev();
        bytes.fold(0, |length, &byte| length << 8 | u32::from(byte))
    }

    /// The choosing call of the revised outline.
    pub fn revised(&self) -> Call {
        let mut call = self.given.clone();
        let bytes = &mut call.outline[self.place()..][..4];
        for (byte, shift) in bytes.iter_mut().zip([0, 8, 16, 24]) {
            *byte = (self.length >> shift & 255) as u8;
        }
        call
    }
}

/// What a choice from the revised outline gives and writes, and what moved; nothing on a refusal.
#[derive(Clone, Debug, PartialEq, Eq)]
pub struct ReviseExpected {
    pub choice: Expected,
    /// The best diversity and the length, each new minus old.
    pub moved: [i64; 2],
}

impl ReviseExpected {
    pub fn refused(refusal: Refusal) -> Self {
        ReviseExpected {
            choice: Expected::refused(refusal),
            moved: [0, 0],
        }
    }

    pub fn number(&self) -> u32 {
        self.choice.answer[0]
    }
}

/// What is expected, and what a choice from the outline before gives. Refused calls have no such choice.
pub type Revised = (ReviseExpected, Option<Expected>);

/// By `choose`, which works out what a choosing call gives.
pub fn expected(call: &ReviseCall, mut choose: impl FnMut(&Call) -> Expected) -> Revised {
    if let Some(refusal) = refusal(call) {
        return (ReviseExpected::refused(refusal), None);
    }
    let (old, new) = (choose(&call.given), choose(&call.revised()));
    // What fits does not depend on lengths, so 12 is given for both or for neither.
    assert_eq!(old.answer[0], new.answer[0], "{call:?}");
    if new.answer[0] != 0 {
        let [number, place, ..] = new.answer;
        return (ReviseExpected::refused(Refusal { number, place }), None);
    }
    let best = i64::from(new.answer[2]) - i64::from(old.answer[2]);
    let length = i64::from(call.length) - i64::from(call.old_length());
    let expected = ReviseExpected {
        choice: new,
        moved: [best, length],
    };
    (expected, Some(old))
}

/// The first of refusals 1, 2, 3, 4, 5 to 8, 16 and 9 that holds. 12, the last row, is the choices'.
fn refusal(call: &ReviseCall) -> Option<Refusal> {
    let given = &call.given;
    let records = outline::records(&given.outline);
    rules::unknown_way(given.way)
        .or_else(|| rules::partial_record(&given.outline))
        .or_else(|| rules::too_many_records(&records))
        .or_else(|| rules::count_too_large(given.count))
        .or_else(|| rules::content(&records))
        .or_else(|| rules::without_place(16, is_bad(call, records.len())))
        .or_else(|| rules::buffer_too_short(given, records.len()))
}

/// Whether there is no such record, of so many, or no such length.
pub(crate) fn is_bad(call: &ReviseCall, records: usize) -> bool {
    call.record == 0 || call.record as usize > records || call.length > MOST_LENGTH
}

#[cfg(test)]
mod tests {
    use super::*;
    use crate::cases::tree_a;
    use crate::expect::{by_exhaustive_search, by_size, by_table};
    use crate::lock_cases::locking;
    use crate::outline::bytes;
    use crate::random::Random;
    use crate::revise_cases;
    use crate::runs::small_outline;

    #[test]
    fn stated_revisions_are_given() {
        let rng = &mut Random::new(1);
        for case in revise_cases::all() {
            let (by_table, _) = expected(&case.call, by_table);
            let (by_size, _) = expected(&case.call, |call| by_size(call, rng));
            assert_eq!(by_table, case.expected, "{}", case.name);
            assert_eq!(by_size, case.expected, "{}", case.name);
        }
    }

    fn call(record: u32, length: u32) -> ReviseCall {
        ReviseCall {
            given: Call {
                outline: bytes(&tree_a()),
                count: 5,
                way: 0,
                marks: 5,
                curve: 12,
                work: 168,
            },
            record,
            length,
        }
    }

    #[test]
    fn four_bytes_are_replaced_and_all_others_kept() {
        let lengths = [0, 3, 4, 2, 5];
        for (record, old_length) in (1..).zip(lengths) {
            let call = call(record, 0x0403_0201);
            assert_eq!(call.old_length(), old_length);
            let at = 16 * record as usize - 12;
            let mut outline = bytes(&tree_a());
            outline.splice(at..at + 4, [1, 2, 3, 4]);
            let revised = call.revised();
            assert_eq!(revised.outline, outline);
            assert_eq!(revised.count, 5);
            let again = ReviseCall {
                given: revised,
                ..call
            };
            assert_eq!(again.old_length(), 0x0403_0201);
        }
    }

    #[test]
    fn the_first_row_that_holds_is_given() {
        let mut faulty = call(5, MOST_LENGTH);
        let is_given = |call: &ReviseCall, number, place| {
            let refused = ReviseExpected::refused(Refusal { number, place });
            assert_eq!(expected(call, by_table), (refused, None));
        };
        assert_eq!(expected(&faulty, by_table).0.number(), 0);
        faulty.given.outline = bytes(&locking(&[3, 4, 5], tree_a()));
        is_given(&faulty, 12, 0);
        faulty.given.work = 167;
        is_given(&faulty, 9, 0);
        for (record, length) in [(0, 5), (6, 5), (5, MOST_LENGTH + 1), (0, u32::MAX)] {
            (faulty.record, faulty.length) = (record, length);
            is_given(&faulty, 16, 0);
        }
        faulty.given.outline[44] = 12;
        is_given(&faulty, 8, 4);
        faulty.given.outline[0] = 2;
        is_given(&faulty, 6, 1);
        faulty.given.outline[26] = 1;
        is_given(&faulty, 5, 2);
        faulty.given.count = 4_097;
        is_given(&faulty, 4, 0);
        faulty.given.outline.resize(128 * RECORD_BYTES, 0);
        is_given(&faulty, 3, 0);
        faulty.given.outline.push(0);
        is_given(&faulty, 2, 0);
        faulty.given.way = 2;
        is_given(&faulty, 1, 0);
    }

    /// A small outline with lengths that are apart, and another length for one of its records.
    fn small_call(rng: &mut Random) -> ReviseCall {
        let (mut records, count) = small_outline(rng);
        for record in &mut records {
            record.length = rng.up_to(99);
        }
        ReviseCall {
            given: Call::roomy(bytes(&records), count, rng.up_to(1), rng),
            record: 1 + rng.index(records.len()) as u32,
            length: rng.up_to(199).saturating_sub(50),
        }
    }

    /// How often the best moves by all of the difference, by some of it, and not at all.
    #[test]
    fn the_best_moves_by_no_more_than_the_length_and_the_same_way() {
        let rng = &mut Random::new(2);
        let (mut all, mut some, mut none) = (0, 0, 0);
        for _ in 0..2_000 {
            let call = small_call(rng);
            let (by_subsets, old) = expected(&call, |call| by_exhaustive_search(call, rng));
            assert_eq!((by_subsets.clone(), old), expected(&call, by_table));
            let [best, length] = by_subsets.moved;
            assert!(best.abs() <= length.abs() && best * length >= 0, "{call:?}");
            if by_subsets.number() == 0 && length != 0 {
                all += u32::from(best == length);
                some += u32::from(best != length && best != 0);
                none += u32::from(best == 0);
            }
        }
        assert!(
            all > 200 && some > 20 && none > 200,
            "{all}, {some}, {none}"
        );
    }
}
