//! Calls with faults: outlines damaged in their records, bytes or size, and numbers and lengths outside their limits.

use std::fmt;

use crate::call::Call;
use crate::expect::Expected;
use crate::headings;
use crate::locks;
use crate::outline::{bytes, groups, taxa, Record, LOCK, MOST_PLATE, RECORD_BYTES};
use crate::random::Random;
use crate::shapes;
use crate::tally::Tally;

/// A call with any number of faults, at times none.
pub fn damaged_call(rng: &mut Random) -> Call {
    // Beyond this the buffers would cost more time than they show.
    const MOST_WORK: usize = 200_000;
    let count = random_count(rng);
    let (outline, count) = damaged_outline(count, rng);
    let way = some_way(rng);
    let mut call = Call::roomy(outline, count.min(4_096), way, rng);
    if rng.one_in(6) {
        call.shorten(rng);
    }
    if call.work > MOST_WORK {
        call.work = rng.index(100);
    }
    call.count = count;
    call
}

/// Either way, at times a number that is neither.
pub(crate) fn some_way(rng: &mut Random) -> u32 {
    if rng.one_in(12) {
        rng.pick(&[2, 3, 256, 65_536, 1 << 31, u32::MAX])
    } else {
        rng.up_to(1)
    }
}

/// A refusal's number and what gives it at a record, by its position.
type Cause = (u32, &'static str, fn(&[Record], usize) -> bool);

/// Causes beside those that hold for every record alike.
const CAUSES: [Cause; 5] = [
    (5, "a group's price", |records, at| {
        !records[at].is_taxon() && records[at].price > 65_535
    }),
    (5, "a group's plate", |records, at| {
        !records[at].is_taxon() && records[at].plate > 0
    }),
    (5, "bit 31 alone at a group", |records, at| {
        !records[at].is_taxon() && records[at].plate == LOCK
    }),
    (5, "bit 31 alone at a taxon", |records, at| {
        records[at].is_taxon() && records[at].plate == LOCK
    }),
    (8, "taxa that differ in the lock only", |records, at| {
        let same = |record: &Record| record.is_taxon() && record.plate == records[at].plate;
        !records[..at].iter().any(same)
    }),
];

/// The refusals that a choosing call can get.
const REFUSALS: [usize; 10] = [1, 2, 3, 4, 5, 6, 7, 8, 9, 12];

/// What damaged calls came to.
#[derive(Default)]
pub struct Outcomes {
    /// How often each refusal was given, and at 0 how often none.
    numbers: [u64; 13],
    /// How often for each of the causes.
    causes: [u64; CAUSES.len()],
    pub tally: Tally,
}

impl Outcomes {
    pub fn add(&mut self, records: &[Record], expected: &Expected) {
        let [number, place, ..] = expected.answer;
        self.numbers[number as usize] += 1;
        self.tally.add(records);
        self.tally.add_call(records, expected);
        for (times, (refusal, _, holds)) in self.causes.iter_mut().zip(CAUSES) {
            *times += u64::from(number == refusal && holds(records, place as usize - 1));
        }
    }

    fn by_cause(&self) -> impl Iterator<Item = (String, u64)> + '_ {
        let named = CAUSES
            .iter()
            .map(|(number, name, _)| format!("{number} by {name}"));
        named.zip(self.causes)
    }

    /// How often each refusal was given, and how often for each of the causes.
    pub fn refusals(&self) -> Vec<(String, u64)> {
        REFUSALS
            .iter()
            .map(|&number| (number.to_string(), self.numbers[number]))
            .chain(self.by_cause())
            .map(|(name, times)| (format!("refusal {name}"), times))
            .collect()
    }
}

impl fmt::Display for Outcomes {
    fn fmt(&self, f: &mut fmt::Formatter) -> fmt::Result {
        let accepted = self.numbers[0];
        let refused = REFUSALS.map(|number| self.numbers[number]);
        write!(f, "accepted {accepted}, refusals {REFUSALS:?}: {refused:?}")?;
        self.by_cause()
            .try_for_each(|(cause, times)| write!(f, "; {cause} {times}"))
    }
}

fn random_count(rng: &mut Random) -> u32 {
    match rng.below(24) {
        0 | 1 => rng.pick(&[4_097, 4_098, 5_000, 65_535, 65_536, 1 << 31, u32::MAX]),
        2 => rng.pick(&[4_095, 4_096]),
        3 => rng.up_to(400),
        _ => rng.up_to(40),
    }
}

/// An outline with any number of faults, at times none, and a page count for it: the given one or one about the locked taxa.
pub fn damaged_outline(count: u32, rng: &mut Random) -> (Vec<u8>, u32) {
    let mut records = any_size(rng);
    shapes::fill_randomly(&mut records, 40, rng);
    headings::fill_at_times(&mut records, 40, rng);
    let count = locks::fill_at_times(&mut records, count, 400, rng);
    for _ in 0..rng.pick(&[0, 0, 1, 1, 1, 2, 3]) {
        damage_record(&mut records, rng);
    }
    let mut outline = bytes(&records);
    if rng.one_in(5) {
        for _ in 0..1 + rng.below(3) {
            damage_byte(&mut outline, rng);
        }
    }
    if rng.one_in(8) {
        damage_size(&mut outline, rng);
    }
    (outline, count)
}

/// Mostly small, but also at and beyond the limits of records and taxa.
pub(crate) fn any_size(rng: &mut Random) -> Vec<Record> {
    match rng.below(16) {
        0 => {
            let records = rng.pick(&[127, 127, 128, 128, 129, 140]);
            let taxa = 1 + rng.index(64);
            shapes::random_outline_of(taxa, records, rng)
        }
        1 => shapes::star(rng.pick(&[63, 64, 65, 66, 100, 126, 127])),
        2 => {
            let taxa = 60 + rng.index(10);
            shapes::random_outline(taxa, 127, rng)
        }
        3 => {
            let taxa = 1 + rng.index(64);
            shapes::random_outline(taxa, 127, rng)
        }
        _ => {
            let taxa = 1 + rng.index(10);
            shapes::random_outline(taxa, 24, rng)
        }
    }
}

fn damage_record(records: &mut [Record], rng: &mut Random) {
    let at = rng.index(records.len());
    let other = rng.index(records.len());
    match rng.below(14) {
        0 => records[at].length = rng.pick(&[0, 1_000_000, 1_000_001, 1 << 24, u32::MAX]),
        1 => records[at].price = rng.pick(&[0, 1, 65_535, 65_536, u32::MAX]),
        2 => {
            records[at].plate = rng.pick(&[0, 1, MOST_PLATE, LOCK, LOCK, LOCK, LOCK + 1, u32::MAX])
        }
        3 | 4 => records[at].next = odd_link(at, records.len(), rng),
        5 => records[at].first = odd_link(at, records.len(), rng),
        6 => records[at].next = records[other].next,
        7 => records[at].first = records[other].first,
        8 => {
            let next = records[at].next;
            records[at].next = records[other].next;
            records[other].next = next;
        }
        9 => records.swap(at, other),
        10 => damage_group(records, rng),
        11 => records[at].plate ^= LOCK,
        _ => repeat_plate(records, rng),
    }
}

/// None, own, one off, the last record, just beyond it, far beyond, or any record.
fn odd_link(at: usize, records: usize, rng: &mut Random) -> u16 {
    let number = at as u16 + 1;
    let last = records as u16;
    let any = 1 + rng.index(records) as u16;
    rng.pick(&[
        0,
        number,
        number - 1,
        number + 1,
        last,
        last + 1,
        u16::MAX,
        any,
        any + 256,
    ])
}

/// A heading's price at the limit or above it, or a plate, which no group has.
fn damage_group(records: &mut [Record], rng: &mut Random) {
    let groups = groups(records);
    if groups.is_empty() {
        return;
    }
    let group = &mut records[rng.pick(&groups)];
    if rng.one_in(3) {
        group.plate = rng.pick(&[1, 256, 1 << 16, LOCK, u32::MAX]);
    } else {
        group.price = rng.pick(&[65_535, 65_536, 65_537, 1 << 24, 1 << 31, u32::MAX]);
    }
}

/// The whole field or the plate number only: the lock may be the other way.
pub(crate) fn repeat_plate(records: &mut [Record], rng: &mut Random) {
    let taxa = taxa(records);
    if !taxa.is_empty() {
        let plate = records[rng.pick(&taxa)].plate;
        records[rng.pick(&taxa)].plate = plate ^ rng.pick(&[0, LOCK]);
    }
}

fn damage_byte(outline: &mut [u8], rng: &mut Random) {
    let at = rng.index(outline.len());
    if rng.one_in(2) {
        outline[at] ^= 1 << rng.below(8);
    } else {
        outline[at] = rng.bits() as u8;
    }
}

fn damage_size(outline: &mut Vec<u8>, rng: &mut Random) {
    let size = outline.len();
    let filler = rng.pick(&[0, 1, 255]);
    if rng.one_in(60) {
        // Record counts whose low byte or low two bytes are small.
        let records = rng.pick(&[255, 256, 257, 65_536, 65_537]);
        outline.resize(records * RECORD_BYTES, filler);
        return;
    }
    let resized = rng.pick(&[0, 1, 15, 17, 31, size - 1, size + 1, size + 15]);
    let whole = rng.pick(&[size - RECORD_BYTES, size + RECORD_BYTES]);
    outline.resize(if rng.one_in(4) { whole } else { resized }, filler);
}

#[cfg(test)]
mod tests {
    use super::*;
    use crate::cases::tree_a;
    use crate::outline::records;
    use crate::rules::{self, Refusal};

    #[test]
    fn a_damaged_group_is_refused_unless_its_price_is_at_the_limit() {
        let rng = &mut Random::new(1);
        let (mut at_limit, mut prices, mut plates) = (0, 0, 0);
        for _ in 0..500 {
            let mut records = tree_a();
            damage_group(&mut records, rng);
            let at = usize::from(records[1] != tree_a()[1]);
            let group = records[at];
            let place = at as u32 + 1;
            let refusal = Refusal { number: 5, place };
            let fits = group.price == 65_535;
            at_limit += u32::from(fits);
            prices += u32::from(group.price > 65_535);
            plates += u32::from(group.plate > 0);
            let expected = (!fits).then_some(refusal);
            assert_eq!(rules::check(&bytes(&records)), expected, "{records:?}");
        }
        assert!(at_limit > 20 && prices > 100 && plates > 100);
        let mut lone = [tree_a()[4]];
        damage_group(&mut lone, rng);
        assert_eq!(lone, [tree_a()[4]]);
    }

    #[test]
    fn outcomes_tell_the_causes_of_a_refusal() {
        let mut outcomes = Outcomes::default();
        let mut add = |alter: fn(&mut [Record])| {
            let mut records = tree_a();
            alter(&mut records);
            let refusal = rules::check(&bytes(&records)).expect("a refusal");
            outcomes.add(&records, &Expected::refused(refusal));
        };
        add(|r| r[1].price = 65_536);
        add(|r| r[0].price = u32::MAX);
        add(|r| r[1].plate = 1);
        add(|r| r[1].plate = LOCK);
        add(|r| r[2].price = 65_536);
        add(|r| r[2].plate = LOCK);
        add(|r| r[1].length = 1_000_001);
        add(|r| r[4].next = 1);
        add(|r| r[3].plate = 11);
        add(|r| r[3].plate = LOCK + 11);
        add(|r| r[2].plate = LOCK + 13);
        let place = 0;
        outcomes.add(&tree_a(), &Expected::refused(Refusal { number: 12, place }));
        let times: Vec<u64> = outcomes
            .refusals()
            .iter()
            .map(|(_, times)| *times)
            .collect();
        assert_eq!(times, [0, 0, 0, 0, 7, 1, 0, 3, 0, 1, 2, 2, 1, 1, 2]);
        let Tally { headings, locks } = outcomes.tally;
        assert_eq!((headings.with, headings.without), (2, 10));
        assert_eq!((locks.with, locks.without, locks.refused), (3, 9, 1));
        assert_eq!(
            outcomes.to_string(),
            "accepted 0, refusals [1, 2, 3, 4, 5, 6, 7, 8, 9, 12]: [0, 0, 0, 0, 7, 1, 0, 3, 0, 1]; 5 by a group's price 2; \
             5 by a group's plate 2; 5 by bit 31 alone at a group 1; 5 by bit 31 alone at a taxon 1; \
             8 by taxa that differ in the lock only 2"
        );
    }

    #[test]
    fn a_repeated_plate_is_refused_whatever_the_locks() {
        let rng = &mut Random::new(3);
        let mut locks = [0; 2];
        for _ in 0..500 {
            let mut records = tree_a();
            repeat_plate(&mut records, rng);
            let numbers: Vec<u32> = records[2..].iter().map(Record::plate_number).collect();
            let refusal = rules::check(&bytes(&records)).map(|refusal| refusal.number);
            let expected = (numbers != [11, 12, 13]).then_some(8);
            assert_eq!(refusal, expected, "{records:?}");
            if refusal.is_some() {
                locks[usize::from(locks::has_any(&records))] += 1;
            }
        }
        assert!(locks[0] > 100 && locks[1] > 100, "{locks:?}");
    }

    #[test]
    fn damaged_outlines_keep_headings_and_locks() {
        let rng = &mut Random::new(2);
        let mut tally = Tally::default();
        for _ in 0..1_000 {
            tally.add(&records(&damaged_outline(40, rng).0));
        }
        let Tally { headings, locks } = tally;
        assert!(headings.with > 500 && headings.without > 250, "{tally:?}");
        assert!(locks.with > 500 && locks.without > 250, "{tally:?}");
    }
}
