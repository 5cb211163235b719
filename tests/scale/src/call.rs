//! A call of the library's chooser: its outline, numbers and buffer lengths.

use crate::library::work_len;
use crate::outline::RECORD_BYTES;
use crate::random::Random;

/// The lengths are counted in elements.
#[derive(Clone, Debug, PartialEq, Eq)]
pub struct Call {
    pub outline: Vec<u8>,
    pub count: u32,
    pub way: u32,
    pub marks: usize,
    pub curve: usize,
    pub work: usize,
}

/// The needed lengths of marks, curve and work for `records` records and a page count.
pub fn needed(records: usize, count: u32) -> [usize; 3] {
    let columns = count as usize + 1;
    [records, 2 * columns, work_len(records, count)]
}

impl Call {
    /// A call whose buffers are as long as needed or somewhat longer.
    pub fn roomy(outline: Vec<u8>, count: u32, way: u32, rng: &mut Random) -> Call {
        let [marks, curve, work] =
            needed(outline.len() / RECORD_BYTES, count).map(|length| length + extra(rng));
        Call {
            outline,
            count,
            way,
            marks,
            curve,
            work,
        }
    }

    /// Makes one buffer, at times more, shorter than needed; the page count is at most 4,096.
    pub fn shorten(&mut self, rng: &mut Random) {
        let [marks, curve, work] = needed(self.outline.len() / RECORD_BYTES, self.count);
        let which = 1 + rng.below(7);
        if which & 1 != 0 {
            self.marks = short(marks, rng);
        }
        if which & 2 != 0 {
            self.curve = short(curve, rng);
        }
        if which & 4 != 0 {
            self.work = short(work, rng);
        }
    }
}

/// Nothing, or a little more than needed.
pub(crate) fn extra(rng: &mut Random) -> usize {
    if rng.one_in(2) {
        0
    } else {
        1 + rng.index(20)
    }
}

/// A length below `needed`, if there is one.
pub(crate) fn short(needed: usize, rng: &mut Random) -> usize {
    match rng.below(3) {
        0 => 0,
        1 => needed.saturating_sub(1),
        _ => rng.index(needed.max(1)),
    }
}

#[cfg(test)]
mod tests {
    use super::*;

    #[test]
    fn roomy_calls_have_room_and_shortened_ones_have_not() {
        let rng = &mut Random::new(1);
        let mut exact = 0;
        for _ in 0..200 {
            let mut call = Call::roomy(vec![0; 80], 5, 0, rng);
            let lengths = [call.marks, call.curve, call.work];
            assert!(call.marks >= 5 && call.curve >= 12 && call.work >= 168);
            exact += u32::from(lengths == [5, 12, 168]);
            call.shorten(rng);
            assert!(call.marks < 5 || call.curve < 12 || call.work < 168);
        }
        assert!(exact > 5);
    }
}
