//! A call for prices that are not yet agreed, and what document 02, §12, says it gives. The two outlines are compared byte by byte,
//! and what is chosen at high prices and at low ones is worked out as for a choosing call.

use crate::call::Call;
use crate::expect::Expected;
use crate::outline::RECORD_BYTES;
use crate::rules::{self, Refusal};

/// `high` has the outline at high prices, the page count, the way and the buffers' lengths.
#[derive(Clone, Debug, PartialEq, Eq)]
pub struct RangeCall {
    pub high: Call,
    /// The outline at low prices.
    pub low: Vec<u8>,
    /// At which byte of the high outline's memory the low one begins, if it is a part of it.
    pub within: Option<usize>,
}

impl RangeCall {
    /// The choosing call at low prices.
    pub fn at_low(&self) -> Call {
        Call {
            outline: self.low.clone(),
            ..self.high.clone()
        }
    }

    /// The low outline and the high one.
    pub fn outlines(&self) -> [&[u8]; 2] {
        [&self.low, &self.high.outline]
    }
}

/// What a choice at high prices gives and writes, and the best diversity at low prices; nothing on a refusal.
#[derive(Clone, Debug, PartialEq, Eq)]
pub struct RangeExpected {
    pub choice: Expected,
    pub roof: u32,
}

impl RangeExpected {
    pub fn refused(refusal: Refusal) -> Self {
        RangeExpected {
            choice: Expected::refused(refusal),
            roof: 0,
        }
    }

    pub fn number(&self) -> u32 {
        self.choice.answer[0]
    }

    /// The sure set's diversity.
    pub fn floor(&self) -> u32 {
        self.choice.answer[2]
    }
}

/// What is expected, and what a choice at low prices gives. Refused calls have no such choice.
pub type Ranged = (RangeExpected, Option<Expected>);

/// By `choose`, which works out what a choosing call gives.
pub fn expected(call: &RangeCall, mut choose: impl FnMut(&Call) -> Expected) -> Ranged {
    if let Some(refusal) = refusal(call) {
        return (RangeExpected::refused(refusal), None);
    }
    // the rows that are left are those of choosing at high prices: 4, 9 and 12
    let choice = choose(&call.high);
    if choice.answer[0] != 0 {
        return (RangeExpected { choice, roof: 0 }, None);
    }
    let low = choose(&call.at_low());
    // what fits at high prices fits at low ones
    assert_eq!(low.answer[0], 0, "{call:?}");
    let roof = low.answer[2];
    (RangeExpected { choice, roof }, Some(low))
}

/// The first of refusals 1, 2, 3 and 5 to 8 of the low outline, the same of the high one, and 17 that holds.
fn refusal(call: &RangeCall) -> Option<Refusal> {
    let [low, high] = call.outlines();
    rules::unknown_way(call.high.way)
        .or_else(|| rules::check(low))
        .or_else(|| rules::check(high))
        .or_else(|| bad_range(low, high))
}

/// 17 of two accepted outlines: without a place where N differs, else at the lowest record of which a byte outside the price differs
/// or the low price is above the high one.
pub(crate) fn bad_range(low: &[u8], high: &[u8]) -> Option<Refusal> {
    if low.len() != high.len() {
        return rules::without_place(17, true);
    }
    let [low, high] = [low, high].map(|outline| outline.as_chunks::<RECORD_BYTES>().0);
    let mut pairs = low.iter().zip(high);
    let before = pairs.position(|(low, high)| {
        let [one, other] = [low, high].map(|record| [&record[..8], &record[12..]]);
        one != other || price(low) > price(high)
    })?;
    Some(Refusal {
        number: 17,
        place: before as u32 + 1,
    })
}

/// The number in bytes 8 to 11, low byte first.
fn price(record: &[u8; RECORD_BYTES]) -> u32 {
    let bytes = record[8..12].iter().rev();
    bytes.fold(0, |price, &byte| price << 8 | u32::from(byte))
}

#[cfg(test)]
mod tests {
    use super::*;
    use crate::cases::tree_a;
    use crate::expect::{by_exhaustive_search, by_size, by_table};
    use crate::lock_cases::locking;
    use crate::outline::{self, bytes, Record, LOCK};
    use crate::random::Random;
    use crate::range_cases;
    use crate::range_runs::some_range;
    use crate::runs::small_outline;

    #[test]
    fn stated_ranges_are_given() {
        let rng = &mut Random::new(1);
        for case in range_cases::all() {
            let (by_table, _) = expected(&case.call, by_table);
            let (by_size, _) = expected(&case.call, |call| by_size(call, rng));
            assert_eq!(by_table, case.expected, "{}", case.name);
            assert_eq!(by_size, case.expected, "{}", case.name);
        }
    }

    fn refusal_of(place: u32) -> Option<Refusal> {
        Some(Refusal { number: 17, place })
    }

    /// Every value of every byte, of low and of high: a byte outside the price makes 17 unless it is the same, and one of the price
    /// where low is above high by it.
    #[test]
    fn every_byte_but_those_of_the_price_is_to_be_the_same() {
        let own = bytes(&tree_a());
        for at in 0..own.len() {
            let place = at as u32 / 16 + 1;
            for value in 0..=255 {
                let mut other = own.clone();
                other[at] = value;
                let [is_price, is_more, is_other] = [
                    (8..12).contains(&(at % 16)),
                    value > own[at],
                    value != own[at],
                ];
                let refused = |holds: bool| if holds { refusal_of(place) } else { None };
                let of_low = if is_price { is_more } else { is_other };
                let of_high = if is_price {
                    is_other && !is_more
                } else {
                    is_other
                };
                assert_eq!(bad_range(&other, &own), refused(of_low), "{at}, {value}");
                assert_eq!(bad_range(&own, &other), refused(of_high), "{at}, {value}");
            }
        }
    }

    #[test]
    fn prices_are_compared_as_numbers_and_the_lowest_record_is_told() {
        let with = |price| Record {
            price,
            ..tree_a()[2]
        };
        let prices = [
            0,
            1,
            255,
            256,
            257,
            511,
            65_279,
            65_280,
            65_535,
            1 << 16,
            1 << 24,
            LOCK,
        ];
        for (at, &low) in prices.iter().enumerate() {
            for (other, &high) in prices.iter().enumerate() {
                let [low, high] = [low, high].map(|price| bytes(&[with(3), with(price)]));
                let expected = if at > other { refusal_of(2) } else { None };
                assert_eq!(bad_range(&low, &high), expected);
            }
        }
        let [two, fewer] = [bytes(&[with(4), with(5)]), bytes(&[with(3)])];
        assert_eq!(bad_range(&two, &bytes(&[with(3), with(4)])), refusal_of(1));
        assert_eq!(bad_range(&two, &fewer), refusal_of(0));
        assert_eq!(bad_range(&fewer, &two), refusal_of(0));
    }

    #[test]
    fn the_first_row_that_holds_is_given() {
        let dear = bytes(&locking(&[3, 4, 5], tree_a()));
        let mut call = RangeCall {
            high: Call::roomy(dear.clone(), 5, 0, &mut Random::new(1)),
            low: dear,
            within: None,
        };
        let is_given = |call: &RangeCall, number, place| {
            let refused = RangeExpected::refused(Refusal { number, place });
            assert_eq!(expected(call, by_table), (refused, None));
        };
        // it fits at low prices
        call.low[40] = 0;
        is_given(&call, 12, 0);
        call.high.work = 167;
        is_given(&call, 9, 0);
        call.high.count = 4_097;
        is_given(&call, 4, 0);
        call.low[72] = 3;
        is_given(&call, 17, 5);
        call.low[52] = 9;
        is_given(&call, 17, 4);
        call.high.outline[60] = 13;
        is_given(&call, 8, 5);
        call.high.outline[26] = 1;
        is_given(&call, 5, 2);
        call.high.outline.push(0);
        is_given(&call, 2, 0);
        call.low[44] = 13;
        is_given(&call, 8, 5);
        call.low[0] = 2;
        is_given(&call, 6, 1);
        call.low.resize(128 * RECORD_BYTES, 0);
        is_given(&call, 3, 0);
        call.high.way = 2;
        is_given(&call, 1, 0);
    }

    /// How often the floor is below the roof, and how often it is the roof though a price differs.
    #[test]
    fn no_floor_is_above_its_roof() {
        let rng = &mut Random::new(2);
        let (mut below, mut same, mut refused) = (0, 0, 0);
        for _ in 0..2_000 {
            let (records, count) = small_outline(rng);
            let [low, high] = some_range(&records, rng).map(|records| bytes(&records));
            let call = RangeCall {
                high: Call::roomy(high, count, rng.up_to(1), rng),
                low,
                within: None,
            };
            let by_subsets = expected(&call, |call| by_exhaustive_search(call, rng));
            assert_eq!(by_subsets, expected(&call, by_table));
            let (expected, at_low) = by_subsets;
            assert!(expected.floor() <= expected.roof, "{call:?}");
            assert_eq!(at_low.is_some(), expected.number() == 0);
            below += u32::from(expected.floor() < expected.roof);
            same += u32::from(expected.number() == 0 && expected.floor() == expected.roof);
            refused += u32::from(expected.number() == 12);
        }
        assert!(
            below > 200 && same > 200 && refused > 50,
            "{below}, {same}, {refused}"
        );
    }

    #[test]
    fn the_call_at_low_prices_has_the_low_outline_and_the_rest_of_the_other() {
        let mut cheaper = tree_a();
        cheaper[2].price = 2;
        let call = RangeCall {
            high: Call::roomy(bytes(&tree_a()), 5, 1, &mut Random::new(1)),
            low: bytes(&cheaper),
            within: None,
        };
        let at_low = call.at_low();
        assert_eq!(outline::records(&at_low.outline), cheaper);
        let outline = call.high.outline.clone();
        assert_eq!(Call { outline, ..at_low }, call.high);
    }
}
