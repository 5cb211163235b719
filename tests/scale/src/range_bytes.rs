//! Ranges of prices of which one byte is altered, low or high, each byte of a record in turn; and of which one low price is above its
//! high one, at each record in turn.

use crate::call::Call;
use crate::compare;
use crate::expect;
use crate::library;
use crate::outline::{bytes, groups, taxa, Record, RECORD_BYTES};
use crate::random::Random;
use crate::range::{self, RangeCall, RangeExpected};
use crate::range_runs::{some_range, some_sound_outline};
use crate::report::Stop;
use crate::runs::Runner;

/// The bits that are altered of a byte: the lowest, the highest, which is the lock in byte 15, and all.
const FLIPS: [u8; 3] = [1, 128, 255];

/// The bytes of a record beside its price.
const BYTES: [usize; 12] = [0, 1, 2, 3, 4, 5, 6, 7, 12, 13, 14, 15];

/// Low and high prices of which the low one is above: by 1, and where a higher byte decides.
const TURNED: [[u32; 2]; 3] = [[3, 2], [256, 255], [65_535, 255]];

/// The first record, the last, one amid them, and a taxon and a group, by their positions.
fn positions(records: &[Record], rng: &mut Random) -> Vec<usize> {
    let last = records.len() - 1;
    let mut positions = vec![0, last / 2, last, rng.pick(&taxa(records))];
    let groups = groups(records);
    if !groups.is_empty() {
        positions.push(rng.pick(&groups));
    }
    positions.sort_unstable();
    positions.dedup();
    positions
}

/// What is altered of a record.
#[derive(Clone, Copy, PartialEq)]
enum Altered {
    Byte(usize),
    Prices,
}

/// A call in which a record, by its position, is altered.
struct Alteration {
    altered: Altered,
    is_taxon: bool,
    at: usize,
    call: RangeCall,
}

/// Every alteration of some records of a range, low and high.
fn alterations(outlines: &[Vec<Record>; 2], count: u32, rng: &mut Random) -> Vec<Alteration> {
    let mut all = Vec::new();
    for at in positions(&outlines[1], rng) {
        let mut add = |altered, [low, high]: [Vec<u8>; 2]| {
            all.push(Alteration {
                altered,
                is_taxon: outlines[1][at].is_taxon(),
                at,
                call: some_call(low, high, count, rng),
            });
        };
        for byte in BYTES {
            for flip in FLIPS {
                for which in [0, 1] {
                    let mut altered = outlines.each_ref().map(|records| bytes(records));
                    altered[which][RECORD_BYTES * at + byte] ^= flip;
                    add(Altered::Byte(byte), altered);
                }
            }
        }
        for [low, high] in TURNED {
            let mut turned = outlines.clone();
            (turned[0][at].price, turned[1][at].price) = (low, high);
            add(Altered::Prices, turned.map(|records| bytes(&records)));
        }
    }
    all
}

/// Either way, at times with short buffers or a page count that is small or too great.
fn some_call(low: Vec<u8>, outline: Vec<u8>, count: u32, rng: &mut Random) -> RangeCall {
    let mut high = Call::roomy(outline, count.min(60), rng.up_to(1), rng);
    match rng.below(8) {
        0 | 1 => high.shorten(rng),
        2 => high.count = 0,
        3 => high.count = 4_097,
        _ => {}
    }
    RangeCall {
        high,
        low,
        within: None,
    }
}

/// How often an altered byte, or altered prices, came to 17, at a taxon and at a group, and how often to a refusal by the check.
#[derive(Default)]
struct Met {
    by_byte: [[u64; 3]; BYTES.len()],
    by_prices: [u64; 2],
    /// 17 at the first record, amid, and at the last one.
    at: [u64; 3],
    /// How often altered prices came to something else.
    others: u64,
}

impl Met {
    fn add(&mut self, alteration: &Alteration, expected: &RangeExpected) {
        let is_17 = expected.number() == 17;
        let of = match (is_17, alteration.is_taxon) {
            (true, true) => 0,
            (true, false) => 1,
            _ => 2,
        };
        match alteration.altered {
            Altered::Byte(byte) => {
                let at = BYTES.iter().position(|&other| other == byte);
                self.by_byte[at.expect("one of the bytes")][of] += 1;
            }
            Altered::Prices if is_17 => self.by_prices[of] += 1,
            Altered::Prices => self.others += 1,
        }
        if is_17 {
            let last = alteration.call.low.len() / RECORD_BYTES - 1;
            let place = match alteration.at {
                0 => 0,
                at => 1 + usize::from(at == last),
            };
            self.at[place] += 1;
        }
    }

    /// The bytes of which one alone can be another one in two accepted outlines, at taxa and at groups.
    fn named(&self) -> [(&'static str, u64); 15] {
        let byte = |at: usize, of: usize| {
            let place = BYTES.iter().position(|&byte| byte == at);
            self.by_byte[place.expect("one of the bytes")][of]
        };
        [
            ("byte 4 of a taxon", byte(4, 0)),
            ("byte 5", byte(5, 0)),
            ("byte 6", byte(6, 0)),
            ("byte 12", byte(12, 0)),
            ("byte 13", byte(13, 0)),
            ("byte 14", byte(14, 0)),
            ("byte 15", byte(15, 0)),
            ("byte 4 of a group", byte(4, 1)),
            ("byte 5", byte(5, 1)),
            ("byte 6", byte(6, 1)),
            ("a taxon's prices", self.by_prices[0]),
            ("a group's prices", self.by_prices[1]),
            ("the first record", self.at[0]),
            ("one amid", self.at[1]),
            ("the last", self.at[2]),
        ]
    }

    /// How often each byte was altered and the check refused it.
    fn refused(&self) -> Vec<u64> {
        self.by_byte.iter().map(|times| times[2]).collect()
    }
}

impl Runner {
    pub(crate) fn every_byte(&mut self, ranges: u64) -> Result<(), Stop> {
        self.start('J');
        let (mut met, mut calls) = (Met::default(), 0);
        for _ in 0..ranges {
            let (records, count) = some_sound_outline(&mut self.rng);
            let outlines = some_range(&records, &mut self.rng);
            for alteration in alterations(&outlines, count, &mut self.rng) {
                let call = &alteration.call;
                let (expected, _) = range::expected(call, expect::by_table);
                met.add(&alteration, &expected);
                calls += 1;
                let observed = library::guarded_range(call, &mut self.rng);
                let comparison = compare::range(&expected, &observed);
                self.add_range(call, &expected, &comparison)?;
            }
        }
        self.report.line(&format!(
            "J. {calls} times a byte of {ranges} ranges altered, low or high, each of a record in turn, or a low price above its high"
        ));
        println!(
            "   refused by the check by byte {BYTES:?}: {:?}",
            met.refused()
        );
        self.report.met("17 by", &met.named(), ranges / 4);
        Ok(())
    }
}

#[cfg(test)]
mod tests {
    use super::*;
    use crate::cases::tree_a;
    use crate::compare::differing;
    use crate::heading_cases::tree_of_125_headings;

    #[test]
    fn the_first_record_the_last_and_one_amid_are_altered_and_taxa_and_groups() {
        let rng = &mut Random::new(1);
        for _ in 0..100 {
            let of_125 = positions(&tree_of_125_headings(), rng);
            assert!([0, 63, 126].iter().all(|at| of_125.contains(at)));
            let of_a = positions(&tree_a(), rng);
            assert!(of_a.len() > 2 && [0, 2, 4].iter().all(|at| of_a.contains(at)));
            assert_eq!(positions(&tree_a()[4..], rng), [0]);
        }
    }

    /// Every bit that is altered of every byte beside the price, low and high, and each once at a record.
    #[test]
    fn every_byte_is_altered_by_itself() {
        let rng = &mut Random::new(2);
        let outlines = [tree_a(), tree_a()];
        let own = bytes(&tree_a());
        let mut met = Vec::new();
        for alteration in alterations(&outlines, 5, rng) {
            let [low, high] = alteration.call.outlines();
            let [of_low, of_high] = [low, high].map(|outline| differing([outline, &own]));
            let Altered::Byte(byte) = alteration.altered else {
                let place = RECORD_BYTES * alteration.at + 8;
                assert!(of_low
                    .iter()
                    .chain(&of_high)
                    .all(|at| (place..place + 4).contains(at)));
                assert!(range::bad_range(low, high).is_some());
                continue;
            };
            let place = RECORD_BYTES * alteration.at + byte;
            assert_eq!([of_low, of_high].concat(), [place]);
            met.push((place, low[place] ^ own[place], high[place] ^ own[place]));
        }
        let positions = positions(&tree_a(), &mut Random::new(2)).len();
        let times = met.len();
        assert_eq!(times, positions * BYTES.len() * FLIPS.len() * 2);
        met.sort_unstable();
        met.dedup();
        assert_eq!(met.len(), times);
    }

    #[test]
    fn alterations_are_counted_by_byte_and_by_place() {
        let rng = &mut Random::new(3);
        let mut met = Met::default();
        let all = alterations(&[tree_a(), tree_a()], 5, rng);
        for alteration in &all {
            let (expected, _) = range::expected(&alteration.call, expect::by_table);
            met.add(alteration, &expected);
        }
        let of_bytes: u64 = met.by_byte.as_flattened().iter().sum();
        let of_prices = met.by_prices[0] + met.by_prices[1];
        assert_eq!(of_bytes + of_prices, all.len() as u64);
        assert_eq!(met.others, 0);
        // a link of two accepted outlines is never another one alone, nor is the high byte of a length
        let refused = met.refused();
        assert!(refused[..4]
            .iter()
            .chain([&refused[7]])
            .all(|&times| times * 12 == of_bytes));
        assert!(
            met.named().iter().all(|&(_, times)| times > 0),
            "{:?}",
            met.named()
        );
        let of_17: u64 = met.by_byte.iter().map(|times| times[0] + times[1]).sum();
        assert_eq!(met.at.iter().sum::<u64>(), of_17 + of_prices);
    }
}
