//! A plain ranger: the outlines compared, and two calls of `plates_choose`, at low prices and then at high ones. It does what
//! `plates_range` does, with the same refusals.

use crate::one_choice::Lent;
use plates_scale::call::needed;
use plates_scale::library::{check, choose};
use plates_scale::locks;
use plates_scale::outline::{records, RECORD_BYTES, UNROOTED};

const MOST_COUNT: u32 = 4_096;
const MOST_PRICE: u32 = 65_535;
const UNKNOWN_WAY: u32 = 1;
const COUNT_TOO_LARGE: u32 = 4;
const BUFFER_TOO_SHORT: u32 = 9;
const LOCKED_TOO_DEAR: u32 = 12;
const BAD_RANGE: u32 = 17;

/// The outlines with low and with high prices.
#[derive(Clone, Copy)]
pub struct Outlines<'a> {
    pub low: &'a [u8],
    pub high: &'a [u8],
}

/// Number, place, diversity, cost, taxa, spare; and the roof.
pub type Ranged = ([u32; 6], u32);

pub fn range(outlines: Outlines, count: u32, way: u32, (marks, curve, work): Lent) -> Ranged {
    let lent = [marks.len(), curve.len(), work.len()];
    // Two calls write at low prices what a refusal at high ones is to leave as it was.
    if is_to_be_judged(outlines, count, way) {
        if let Some([number, place]) = refusal(outlines, count, way, lent) {
            return ([number, place, 0, 0, 0, 0], 0);
        }
    }
    let at_low = choose(outlines.low, count, way, marks, curve, work);
    if at_low[0] != 0 {
        return (at_low, 0);
    }
    let at_high = choose(outlines.high, count, way, marks, curve, work);
    (at_high, at_low[2])
}

/// Whether `plates_choose` might accept the low outline and then refuse the high one, or refuse it by another row.
fn is_to_be_judged(Outlines { low, high }: Outlines, count: u32, way: u32) -> bool {
    let is_odd = |record: &[u8]| record[15] >= 0x80 || price(record) > MOST_PRICE;
    way > UNROOTED
        || count > MOST_COUNT
        || fault(low, high).is_some()
        || high.chunks_exact(RECORD_BYTES).any(is_odd)
}

/// The first row that holds, and its place.
fn refusal(outlines: Outlines, count: u32, way: u32, lent: [usize; 3]) -> Option<[u32; 2]> {
    let Outlines { low, high } = outlines;
    if way > UNROOTED {
        return Some([UNKNOWN_WAY, 0]);
    }
    for outline in [low, high] {
        let checked = check(outline);
        if checked[0] != 0 {
            return Some(checked);
        }
    }
    if let Some(place) = fault(low, high) {
        return Some([BAD_RANGE, place]);
    }
    if count > MOST_COUNT {
        return Some([COUNT_TOO_LARGE, 0]);
    }
    let records = records(high);
    let needed = needed(records.len(), count);
    if lent.iter().zip(needed).any(|(&lent, needed)| lent < needed) {
        return Some([BUFFER_TOO_SHORT, 0]);
    }
    (locks::cost(&records) > count).then_some([LOCKED_TOO_DEAR, 0])
}

/// The lowest record that differs in something else than its price, or whose low price is above its high one; 0 if the sizes differ.
fn fault(low: &[u8], high: &[u8]) -> Option<u32> {
    if low.len() != high.len() {
        return Some(0);
    }
    let mut pairs = low
        .chunks_exact(RECORD_BYTES)
        .zip(high.chunks_exact(RECORD_BYTES));
    let is_fault = |(low, high): (&[u8], &[u8])| {
        low[..8] != high[..8] || low[12..] != high[12..] || price(low) > price(high)
    };
    pairs.position(is_fault).map(|at| at as u32 + 1)
}

fn price(record: &[u8]) -> u32 {
    u32::from_le_bytes([record[8], record[9], record[10], record[11]])
}

#[cfg(test)]
mod tests {
    use super::*;
    use plates_scale::cases::tree_a;
    use plates_scale::outline::{bytes, Record, LOCK, ROOTED};

    /// Tree A with other prices of its taxa.
    fn priced(prices: [u32; 3]) -> Vec<Record> {
        let mut records = tree_a();
        for (record, price) in records[2..].iter_mut().zip(prices) {
            record.price = price;
        }
        records
    }

    /// The answer and the roof, and what stands in marks and curve.
    fn ranged(
        [low, high]: [&[Record]; 2],
        count: u32,
        way: u32,
        room: usize,
    ) -> (Ranged, Vec<u8>, Vec<u32>) {
        let [low, high] = [low, high].map(bytes);
        let outlines = Outlines {
            low: &low,
            high: &high,
        };
        let [_, curve, work] = needed(5, count.min(7));
        let (mut marks, mut curve, mut work) = (vec![9; room], vec![9; curve], vec![9; work]);
        let ranged = range(outlines, count, way, (&mut marks, &mut curve, &mut work));
        let left = if ranged.0[0] == 0 { 0 } else { 9 };
        assert!(work.iter().all(|&number| number == left));
        (ranged, marks, curve)
    }

    #[test]
    fn tree_a_has_a_range_of_prices() {
        let [low, high] = [priced([3, 1, 2]), priced([4, 1, 2])];
        let (answer, marks, curve) = ranged([&low, &high], 5, ROOTED, 5);
        assert_eq!(answer, ([0, 0, 10, 3, 2, 2], 12));
        assert_eq!(marks, [0, 0, 0, 1, 1]);
        assert_eq!(curve, [0, 0, 5, 1, 5, 1, 10, 3, 10, 3, 10, 3]);
        let (answer, marks, _) = ranged([&low, &high], 6, UNROOTED, 5);
        assert_eq!(answer, ([0, 0, 12, 6, 2, 0], 14));
        assert_eq!(marks, [0, 0, 1, 0, 1]);
        assert_eq!(
            ranged([&low, &low], 5, ROOTED, 5).0,
            ([0, 0, 12, 5, 2, 0], 12)
        );
    }

    #[test]
    fn refusals_come_in_their_order() {
        let [mut low, mut high] = [priced([3, 1, 2]), priced([3, 1, 4])];
        low[4].plate |= LOCK;
        high[4].plate |= LOCK;
        let refused = |low: &[Record], high: &[Record], count, way, room| {
            let (([number, place, rest @ ..], roof), marks, curve) =
                ranged([low, high], count, way, room);
            assert_eq!((rest, roof), ([0; 4], 0));
            assert!(marks.iter().all(|&mark| mark == 9) && curve.iter().all(|&number| number == 9));
            [number, place]
        };
        assert_eq!(refused(&low, &high, 3, 0, 5), [12, 0]);
        assert_eq!(refused(&low, &high, 3, 0, 4), [9, 0]);
        assert_eq!(refused(&low, &high, 4_097, 0, 4), [4, 0]);
        assert_eq!(refused(&high, &low, 4_097, 0, 4), [17, 5]);
        assert_eq!(refused(&low[..0], &high, 4_097, 0, 4), [2, 0]);
        assert_eq!(refused(&high[4..], &low, 4_097, 0, 4), [17, 0]);
        assert_eq!(refused(&low, &priced([3, 1, 4]), 4_097, 0, 4), [17, 5]);
        let [mut twins, mut too_dear] = [low.clone(), high.clone()];
        twins[4].plate = 11;
        too_dear[2].price = 65_536;
        assert_eq!(refused(&low, &twins, 4_097, 0, 4), [8, 5]);
        assert_eq!(refused(&low, &too_dear, 4_097, 0, 4), [5, 3]);
        assert_eq!(refused(&twins, &too_dear, 4_097, 0, 4), [8, 5]);
        assert_eq!(refused(&too_dear, &twins, 4_097, 0, 4), [5, 3]);
        assert_eq!(refused(&too_dear, &twins, 4_097, 2, 4), [1, 0]);
        // without locks it is the call at low prices that refuses
        let [unlocked, dearer] = [priced([3, 1, 2]), priced([4, 1, 2])];
        assert_eq!(refused(&unlocked, &dearer, 5, 0, 4), [9, 0]);
    }
}
