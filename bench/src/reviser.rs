//! A plain reviser: two calls of `plates_choose`, and between them a copy of the outline with the new length. It does what
//! `plates_revise` does, with the same refusals.

use crate::one_choice::Lent;
use plates_scale::library::choose;
use plates_scale::outline::RECORD_BYTES;
use std::ops::Range;

const MOST_LENGTH: u32 = 1_000_000;
const BUFFER_TOO_SHORT: u32 = 9;
const BAD_REVISION: u32 = 16;

/// A record's number, and its new length.
#[derive(Clone, Copy, Debug)]
pub struct Revision {
    pub record: u32,
    pub length: u32,
}

impl Revision {
    fn is_bad(self, outline: &[u8]) -> bool {
        let records = outline.len() / RECORD_BYTES;
        self.record == 0 || self.record as usize > records || self.length > MOST_LENGTH
    }

    /// Where the length stands.
    fn field(self) -> Range<usize> {
        let record = RECORD_BYTES * (self.record as usize - 1);
        record + 4..record + 8
    }
}

/// Number, place, diversity, cost, taxa, spare; and how far the best diversity and the length moved.
pub type Revised = ([u32; 6], [i64; 2]);

pub fn revise(
    outline: &[u8],
    revision: Revision,
    count: u32,
    way: u32,
    (marks, curve, work): Lent,
) -> Revised {
    if revision.is_bad(outline) {
        // Without marks nothing is chosen or written, and the refusals up to 8 come first.
        let [number, place, ..] = choose(outline, count, way, &mut [], curve, work);
        let is_sound = number == BUFFER_TOO_SHORT;
        let number = if is_sound { BAD_REVISION } else { number };
        return ([number, place, 0, 0, 0, 0], [0, 0]);
    }
    let given = choose(outline, count, way, marks, curve, work);
    if given[0] != 0 {
        return (given, [0, 0]);
    }
    let mut copy = outline.to_vec();
    let length = &mut copy[revision.field()];
    let of_length = moved(
        revision.length,
        u32::from_le_bytes(length.try_into().expect("4 bytes")),
    );
    length.copy_from_slice(&revision.length.to_le_bytes());
    let answer = choose(&copy, count, way, marks, curve, work);
    (answer, [moved(answer[2], given[2]), of_length])
}

fn moved(new: u32, old: u32) -> i64 {
    i64::from(new) - i64::from(old)
}

#[cfg(test)]
mod tests {
    use super::*;
    use plates_scale::call::needed;
    use plates_scale::cases::tree_a;
    use plates_scale::outline::{bytes, LOCK, ROOTED, UNROOTED};

    /// The answer and the movements, the marks and the curve.
    fn revised(record: u32, length: u32, way: u32) -> (Revised, Vec<u8>, Vec<u32>) {
        let revision = Revision { record, length };
        let [marks, curve, work] = needed(5, 5);
        let (mut marks, mut curve, mut work) = (vec![9; marks], vec![9; curve], vec![9; work]);
        let outline = bytes(&tree_a());
        let lent = (&mut marks[..], &mut curve[..], &mut work[..]);
        let revised = revise(&outline, revision, 5, way, lent);
        assert!(work.iter().all(|&number| number == 0));
        (revised, marks, curve)
    }

    #[test]
    fn tree_a_is_revised() {
        let (answer, marks, curve) = revised(4, 9, ROOTED);
        assert_eq!(answer, ([0, 0, 17, 3, 2, 2], [5, 7]));
        assert_eq!(marks, [0, 0, 0, 1, 1]);
        assert_eq!(curve, [0, 0, 12, 1, 12, 1, 17, 3, 17, 3, 17, 3]);
        assert_eq!(revised(3, 0, ROOTED).0, ([0, 0, 10, 3, 2, 2], [-2, -4]));
        assert_eq!(
            revised(5, 105, UNROOTED).0,
            ([0, 0, 112, 5, 2, 0], [100, 100])
        );
        assert_eq!(revised(1, 1_000_000, UNROOTED).0 .1, [0, 1_000_000]);
        assert_eq!(revised(2, 3, ROOTED).0 .1, [0, 0]);
    }

    #[test]
    fn refusals_come_in_their_order() {
        let mut records = tree_a();
        records[4].plate |= LOCK;
        let sound = bytes(&records);
        records[4].plate = 11;
        let twins = bytes(&records);
        let refused = |outline: &[u8], [record, length]: [u32; 2], count, way, room| {
            let revision = Revision { record, length };
            let (mut marks, mut curve, mut work) = (vec![9; room], vec![9; 12], vec![9; 168]);
            let lent = (&mut marks[..], &mut curve[..], &mut work[..]);
            let ([number, place, rest @ ..], moved) = revise(outline, revision, count, way, lent);
            assert_eq!((rest, moved), ([0; 4], [0; 2]));
            assert!(marks.iter().all(|&mark| mark == 9) && curve.iter().all(|&number| number == 9));
            assert!(work.iter().all(|&number| number == 9));
            [number, place]
        };
        assert_eq!(refused(&sound, [5, 1_000_000], 1, 0, 5), [12, 0]);
        assert_eq!(refused(&sound, [5, 1_000_000], 1, 0, 4), [9, 0]);
        for revision in [[0, 1], [6, 1], [u32::MAX, 1], [5, 1_000_001]] {
            assert_eq!(refused(&sound, revision, 5, 0, 5), [16, 0]);
            assert_eq!(refused(&sound, revision, 1, 0, 4), [16, 0]);
            assert_eq!(refused(&twins, revision, 1, 0, 4), [8, 5]);
            assert_eq!(refused(&twins, revision, 4_097, 0, 4), [4, 0]);
            assert_eq!(refused(&twins[1..], revision, 4_097, 0, 4), [2, 0]);
            assert_eq!(refused(&twins[1..], revision, 4_097, 2, 4), [1, 0]);
        }
    }
}
