//! Outlines with low and high prices, chosen for by `plates_range` and by the plain ranger, beside one call of `plates_choose`.

use crate::case::Buffers;
use crate::instances::{shapes_at_full_size, Instance, COUNT};
use crate::one_choice::{for_each_case, Beside, Lent, Outcome};
use crate::ranger::{self, Outlines, Ranged};
use plates_scale::call::Call;
use plates_scale::damage::damaged_call;
use plates_scale::locks;
use plates_scale::outline::{bytes, records, Record, LOCK, ROOTED, UNROOTED};
use plates_scale::random::Random;
use plates_scale::view_pairs::sound_outline;
use std::hint::black_box;

const MOST_PRICE: u32 = 65_535;

extern "C" {
    fn plates_range(
        low: *const u8,
        low_len: usize,
        high: *const u8,
        high_len: usize,
        count: u32,
        way: u32,
        marks: *mut u8,
        marks_len: usize,
        curve: *mut u32,
        curve_len: usize,
        work: *mut u64,
        work_len: usize,
        answer: *mut u32,
        roof: *mut u32,
    ) -> u32;
}

fn range(outlines: Outlines, count: u32, way: u32, (marks, curve, work): Lent) -> Ranged {
    let Outlines { low, high } = outlines;
    let (mut answer, mut roof) = ([0; 6], 0);
    // SAFETY: every pointer comes with the length of the slice it was taken from, and what is written overlaps nothing else.
    unsafe {
        plates_range(
            low.as_ptr(),
            low.len(),
            high.as_ptr(),
            high.len(),
            count,
            way,
            marks.as_mut_ptr(),
            marks.len(),
            curve.as_mut_ptr(),
            curve.len(),
            work.as_mut_ptr(),
            work.len(),
            answer.as_mut_ptr(),
            &mut roof,
        );
    }
    (answer, roof)
}

type Range = fn(Outlines, u32, u32, Lent) -> Ranged;

/// The call's outline is the high one.
fn renew(outcome: &mut Outcome<Ranged>, low: &[u8], call: &Call, range: Range) {
    let outlines = Outlines {
        low,
        high: &call.outline,
    };
    outcome.renew(call, |lent| range(outlines, call.count, call.way, lent));
}

pub struct Ranging {
    /// One choice is that at high prices.
    pub times: Beside,
    low: Vec<u8>,
    high: Vec<u8>,
}

impl Ranging {
    /// The instance has the low prices.
    fn new(instance: &Instance, way: u32, count: u32, high: &[Record]) -> Self {
        Ranging {
            times: Beside::new(instance, way, count),
            low: bytes(&instance.records),
            high: bytes(high),
        }
    }

    pub fn measure(&mut self, buffers: &mut Buffers) {
        let (low, high) = (&self.low[..], &self.high[..]);
        let (count, way) = (self.times.count, self.times.way);
        let by = |range: Range| {
            move |_: usize, lent: Lent| {
                let outlines = Outlines { low, high };
                range(black_box(outlines), count, way, lent)
            }
        };
        self.times
            .measure(high, buffers, by(range), by(ranger::range));
    }
}

/// High prices that are up to half as much again, those of headings too.
fn half_as_dear_again(records: &[Record]) -> Vec<Record> {
    let random = &mut Random::new(1);
    let mut high = records.to_vec();
    for record in &mut high {
        record.price += random.up_to(record.price.div_ceil(2));
    }
    high
}

/// What may be open, and high prices for it.
type Opening = (&'static str, fn(&mut Vec<Record>));

const OPENINGS: [Opening; 3] = [
    ("all prices agreed", |_| {}),
    ("one price open", |high| {
        let last = high.last_mut().expect("every outline has a record");
        last.price += 1;
    }),
    ("high prices double", |high| {
        high.iter_mut().for_each(|record| record.price *= 2);
    }),
];

/// The cases, and the first shape once more with other high prices.
pub fn all() -> Vec<Ranging> {
    let mut rangings = Vec::new();
    for_each_case(|instance, way, count| {
        let high = half_as_dear_again(&instance.records);
        rangings.push(Ranging::new(instance, way, count, &high));
    });
    let first = &shapes_at_full_size()[0];
    for way in [ROOTED, UNROOTED] {
        for (which, open) in OPENINGS {
            let mut high = first.records.clone();
            open(&mut high);
            let mut ranging = Ranging::new(first, way, 64, &high);
            ranging.times.name = format!("{}, {which}", first.name);
            rangings.push(ranging);
        }
    }
    rangings
}

/// What was compared.
#[derive(Default)]
pub struct Agreement {
    /// Answers of the plain ranger with those of plates, roofs, marks, curves and work included.
    pub answers: usize,
    /// How often the floor was the roof, and how often it was below.
    pub floors: [usize; 2],
}

/// Compares the measured calls, and calls of any outlines, sound and faulty ones. The first difference ends it.
pub fn agreement(rangings: &[Ranging]) -> Result<Agreement, String> {
    let mut agreement = Agreement::default();
    let outcomes = &mut [Outcome::default(), Outcome::default()];
    for ranging in rangings {
        agreement.add(&ranging.low, &ranging.times.call(&ranging.high), outcomes)?;
    }
    let random = &mut Random::new(3);
    for _ in 0..3_000 {
        for (low, call) in [sound_ranging(random), some_ranging(random)] {
            agreement.add(&low, &call, outcomes)?;
        }
    }
    Ok(agreement)
}

impl Agreement {
    fn add(
        &mut self,
        low: &[u8],
        call: &Call,
        [ours, theirs]: &mut [Outcome<Ranged>; 2],
    ) -> Result<(), String> {
        renew(ours, low, call, range);
        renew(theirs, low, call, ranger::range);
        if ours != theirs {
            return Err(format!(
                "plates_range gives {:?}, the plain ranger {:?}, or the buffers differ: low {low:?}, high in {call:?}",
                ours.answer, theirs.answer
            ));
        }
        self.answers += 1;
        let ([number, _, floor, ..], roof) = ours.answer;
        if number == 0 {
            self.floors[usize::from(floor < roof)] += 1;
        }
        Ok(())
    }
}

/// Outlines without a fault, which differ in prices, and a page count that the locked taxa mostly fit if any does.
fn sound_ranging(random: &mut Random) -> (Vec<u8>, Call) {
    let low = sound_outline(random);
    let high = somewhat_dearer(&low, random);
    let locked = locks::cost(if random.one_in(12) { &low } else { &high });
    let most = random.pick(&[5, 20, 70]);
    let count = (locked + random.up_to(most)).min(COUNT);
    let way = random.pick(&[ROOTED, UNROOTED]);
    let call = Call::roomy(bytes(&high), count, way, random);
    (bytes(&low), call)
}

/// Outlines of which each may be faulty, and which may differ as they may not.
fn some_ranging(random: &mut Random) -> (Vec<u8>, Call) {
    let mut call = damaged_call(random);
    let given = records(&call.outline);
    let mut other = somewhat_dearer(&given, random);
    if random.one_in(3) {
        alter(&mut other, random);
    }
    // The bytes after the last whole record are handed over with both.
    let rest = &call.outline[16 * given.len()..];
    let mut other = [&bytes(&other)[..], rest].concat();
    match random.below(12) {
        0 => other = damaged_call(random).outline,
        1 => other = bytes(&sound_outline(random)),
        2 => {}
        _ => std::mem::swap(&mut other, &mut call.outline),
    }
    (other, call)
}

/// Prices as they are and higher, in range where the given ones are.
fn somewhat_dearer(records: &[Record], random: &mut Random) -> Vec<Record> {
    let mut high = records.to_vec();
    let most = random.pick(&[0, 1, 3, 20]);
    for record in &mut high {
        let dearer = record.price.saturating_add(random.up_to(most));
        record.price = dearer.min(record.price.max(MOST_PRICE));
    }
    high
}

/// One record is another, or has a lower price.
fn alter(records: &mut [Record], random: &mut Random) {
    let Some(last) = records.len().checked_sub(1) else {
        return;
    };
    let record = &mut records[random.up_to(last as u32) as usize];
    match random.below(5) {
        0 => record.length ^= 1 << random.below(20),
        1 => record.price = record.price.saturating_sub(1 + random.up_to(30)),
        2 => record.plate ^= 1 << random.below(31),
        3 => record.plate ^= LOCK,
        _ => record.next ^= 1 << random.below(7),
    }
}

#[cfg(test)]
mod tests {
    use super::*;
    use plates_scale::outline::RECORD_BYTES;

    fn outcome(low: &[u8], call: &Call, range: Range) -> Outcome<Ranged> {
        let mut outcome = Outcome::default();
        renew(&mut outcome, low, call, range);
        outcome
    }

    #[test]
    fn the_plain_ranger_agrees_with_plates() {
        let agreement = agreement(&all()).unwrap();
        assert!(agreement.answers > 6_000, "{}", agreement.answers);
        let floors = agreement.floors;
        assert!(floors.iter().all(|&times| times > 500), "{floors:?}");
    }

    #[test]
    fn a_difference_in_the_roof_is_noticed() {
        let first = &shapes_at_full_size()[0];
        let high = half_as_dear_again(&first.records);
        let ranging = Ranging::new(first, ROOTED, 64, &high);
        let call = ranging.times.call(&ranging.high);
        let right = outcome(&ranging.low, &call, range);
        assert!(right == outcome(&ranging.low, &call, ranger::range));
        let wrong: Range = |outlines, count, way, lent| {
            let (answer, _) = range(outlines, count, way, lent);
            (answer, answer[2])
        };
        assert!(right != outcome(&ranging.low, &call, wrong));
    }

    #[test]
    fn sound_calls_are_answered_and_every_refusal_is_met() {
        let random = &mut Random::new(3);
        let (mut numbers, mut places) = ([[0; 18]; 2], [0; 2]);
        for _ in 0..3_000 {
            let calls = [sound_ranging(random), some_ranging(random)];
            for (numbers, (low, call)) in numbers.iter_mut().zip(calls) {
                let ([number, place, ..], _) = outcome(&low, &call, range).answer;
                numbers[number as usize] += 1;
                if number == 17 {
                    places[usize::from(place > 0)] += 1;
                }
            }
        }
        let [sound, any] = numbers;
        assert!(sound[0] > 2_000 && any[0] > 100, "{numbers:?}");
        for number in [1, 2, 3, 4, 5, 6, 7, 8, 9, 12, 17] {
            assert!(sound[number] + any[number] > 20, "{numbers:?}");
        }
        assert!(places.iter().all(|&times| times > 20), "{places:?}");
    }

    #[test]
    fn the_measured_outlines_differ_in_prices_only_and_rise() {
        for ranging in all() {
            let [low, high] = [&ranging.low, &ranging.high].map(|outline| records(outline));
            assert_eq!(ranging.times.records, low.len());
            assert_eq!(ranging.low.len(), RECORD_BYTES * high.len());
            let mut open = 0;
            for (low, high) in low.iter().zip(&high) {
                let price = high.price;
                assert_eq!(Record { price, ..*low }, *high);
                assert!(low.price <= price);
                open += usize::from(low.price < price);
            }
            let name = &ranging.times.name;
            match &name[name.find(", ").map_or(0, |at| at + 2)..] {
                "all prices agreed" => assert_eq!(open, 0),
                "one price open" => assert_eq!(open, 1),
                _ => assert!(open > 0, "{name}"),
            }
        }
    }
}
