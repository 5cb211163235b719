//! The rules as they were before locks (document 02, §4): document 01's alone, and those with headings (§2). Outlines without
//! locks are to give what they gave, so these stay as they are, whatever becomes of today's. Rows and measures that no request
//! has changed are shared with today's.

use crate::call::Call;
use crate::exhaustive::{self, Solution, Subset};
use crate::headings;
use crate::locks;
use crate::outline::{self, Record};
use crate::rules::{self, Refusal};

/// The rules of one time. A plate is its whole field, and the empty set fits every page count.
#[derive(Clone, Copy)]
pub struct Rules {
    fields_fit: fn(&Record) -> bool,
    /// Whether a set pays for the headings above it.
    headings: bool,
}

/// A group has no price.
pub const DOCUMENT_01: Rules = Rules {
    fields_fit: fields_fit_document_01,
    headings: false,
};

pub const BEFORE_LOCKS: Rules = Rules {
    fields_fit: fields_fit_before_locks,
    headings: true,
};

/// The earlier rules by which an outline is to give what it gave.
pub fn still_hold(records: &[Record]) -> &'static [Rules] {
    if locks::has_any(records) {
        &[]
    } else if headings::has_any(records) {
        &[BEFORE_LOCKS]
    } else {
        &[BEFORE_LOCKS, DOCUMENT_01]
    }
}

impl Rules {
    /// The first of refusals 1 to 9 that holds.
    pub fn choose(self, call: &Call) -> Option<Refusal> {
        let records = outline::records(&call.outline);
        rules::unknown_way(call.way)
            .or_else(|| rules::partial_record(&call.outline))
            .or_else(|| rules::too_many_records(&records))
            .or_else(|| rules::count_too_large(call.count))
            .or_else(|| self.content(&records))
            .or_else(|| rules::buffer_too_short(call, records.len()))
    }

    /// The first of refusals 2, 3 and 5 to 8 that holds.
    pub fn check(self, outline: &[u8]) -> Option<Refusal> {
        let records = outline::records(outline);
        rules::partial_record(outline)
            .or_else(|| rules::too_many_records(&records))
            .or_else(|| self.content(&records))
    }

    fn content(self, records: &[Record]) -> Option<Refusal> {
        rules::field_out_of_range(self.fields_fit, records)
            .or_else(|| rules::bad_link(records))
            .or_else(|| rules::too_many_taxa(records))
            .or_else(|| rules::duplicate_plate(|record| record.plate, records))
    }

    /// The number of the record of the taxon with this plate; 0 where the finder's part is empty.
    pub fn find(self, outline: &[u8], plate: u32) -> u32 {
        if self.check(outline).is_some() {
            return 0;
        }
        let records = outline::records(outline);
        rules::numbers(&records)
            .find(|&number| {
                let record = records[number - 1];
                record.is_taxon() && record.plate == plate
            })
            .map_or(0, |number| number as u32)
    }

    /// Goes through every subset for each column from 0 to `count`.
    pub fn search(self, records: &[Record], way: u32, count: u32) -> Solution {
        let taxa = outline::taxa(records);
        let clades = exhaustive::clades(records, &taxa);
        let headings = |set| {
            if self.headings {
                exhaustive::headings_cost(records, &clades, set)
            } else {
                0
            }
        };
        let subsets: Vec<Subset> = exhaustive::subsets(taxa.len())
            .into_iter()
            .map(|set| Subset {
                set,
                diversity: exhaustive::diversity(records, &clades, way, set),
                cost: exhaustive::taxa_cost(records, &taxa, set) + headings(set),
            })
            .collect();
        let best: Vec<Subset> = (0..=count).map(|b| best_for(b, &subsets)).collect();
        let chosen = best[count as usize].set;
        Solution {
            columns: best.iter().map(|b| [b.diversity, b.cost]).collect(),
            marks: exhaustive::marks(records, &taxa, chosen),
        }
    }
}

fn fields_fit_document_01(record: &Record) -> bool {
    let fit = if record.is_taxon() {
        record.price <= 65_535 && record.plate >= 1
    } else {
        record.price == 0 && record.plate == 0
    };
    record.length <= 1_000_000 && fit
}

fn fields_fit_before_locks(record: &Record) -> bool {
    let plate_fits = if record.is_taxon() {
        record.plate >= 1
    } else {
        record.plate == 0
    };
    record.length <= 1_000_000 && record.price <= 65_535 && plate_fits
}

fn best_for(count: u32, subsets: &[Subset]) -> Subset {
    let mut best: Option<Subset> = None;
    for &subset in subsets {
        if subset.cost > count {
            continue;
        }
        if best.is_none_or(|best| subset.is_better_than(best)) {
            best = Some(subset);
        }
    }
    best.expect("the empty set fits every page count")
}

/// Read from the right end of the curve leftwards until the diversity drops.
pub fn spare(columns: &[[u32; 2]]) -> u32 {
    let last = columns.len() - 1;
    let mut column = last;
    while column > 0 && columns[column - 1][0] == columns[last][0] {
        column -= 1;
    }
    (last - column) as u32
}

#[cfg(test)]
mod tests {
    use super::*;
    use crate::cases::{self, tree_a, Case};
    use crate::damage;
    use crate::exhaustive::{search, subsets};
    use crate::heading_cases::{self, tree_a_with};
    use crate::lock_cases::locking;
    use crate::outline::{bytes, LOCK};
    use crate::random::Random;
    use crate::shapes;

    fn gives(rules: Rules, case: &Case) {
        let solution = rules.search(&case.records, case.way, case.count);
        let last = *solution.columns.last().unwrap();
        assert_eq!(last, [case.diversity, case.cost], "{}", case.name);
        assert_eq!(solution.marks, case.marks(), "{}", case.name);
        assert_eq!(spare(&solution.columns), case.spare, "{}", case.name);
    }

    #[test]
    fn give_the_cases_of_their_time() {
        for case in cases::starred() {
            gives(DOCUMENT_01, &case);
            gives(BEFORE_LOCKS, &case);
        }
        for case in heading_cases::all() {
            gives(BEFORE_LOCKS, &case);
        }
    }

    #[test]
    fn hold_for_outlines_without_what_came_later() {
        let holding = |records: Vec<Record>| -> Vec<bool> {
            let rules = still_hold(&records).iter();
            rules.map(|rules| rules.headings).collect()
        };
        assert_eq!(holding(tree_a()), [true, false]);
        assert_eq!(holding(tree_a_with(0, 1)), [true]);
        assert_eq!(holding(locking(&[3], tree_a())), []);
        assert_eq!(holding(locking(&[3], tree_a_with(0, 1))), []);
        // No group ever had a plate: bit 31 there is refused as it was.
        assert_eq!(holding(locking(&[2], tree_a())), [true, false]);
    }

    #[test]
    fn a_field_with_bit_31_was_a_plate() {
        let locked = bytes(&locking(&[3], tree_a()));
        let mut alone = tree_a();
        alone[2].plate = LOCK;
        let mut twins = tree_a();
        twins[2].plate = LOCK + 12;
        for rules in [DOCUMENT_01, BEFORE_LOCKS] {
            let found = [11, LOCK + 11, 12].map(|plate| rules.find(&locked, plate));
            assert_eq!(found, [0, 3, 4]);
            assert_eq!(rules.check(&bytes(&alone)), None);
            assert_eq!(rules.check(&bytes(&twins)), None);
            twins[3].plate = LOCK + 12;
            let refusal = rules.check(&bytes(&twins)).expect("a refusal");
            assert_eq!((refusal.number, refusal.place), (8, 4));
            twins[3].plate = 12;
            let columns = rules.search(&outline::records(&locked), 0, 2).columns;
            assert_eq!(columns, [[0, 0], [5, 1], [5, 1]]);
        }
    }

    #[test]
    fn refuse_the_same_where_they_hold_and_otherwise_not_always() {
        let rng = &mut Random::new(1);
        let (mut same, mut other) = ([0; 2], [0; 2]);
        for _ in 0..10_000 {
            let call = damage::damaged_call(rng);
            let holding = still_hold(&outline::records(&call.outline)).len();
            let today = rules::choose(&call, |_| Some(())).err();
            for (at, rules) in [BEFORE_LOCKS, DOCUMENT_01].into_iter().enumerate() {
                let agrees = rules.choose(&call) == today;
                assert!(agrees || at >= holding, "{call:?}");
                same[at] += u32::from(at < holding);
                other[at] += u32::from(!agrees);
            }
        }
        assert!(same[0] > 2_000 && same[1] > 1_000, "{same:?}");
        assert!(other[0] > 100 && other[1] > 1_000, "{other:?}");
    }

    #[test]
    fn find_the_same_where_they_hold_and_otherwise_not_always() {
        let rng = &mut Random::new(2);
        let (mut same, mut other) = (0, 0);
        for _ in 0..2_000 {
            let (outline, _) = damage::damaged_outline(40, rng);
            let records = outline::records(&outline);
            let Some(record) = records.last() else {
                continue;
            };
            let today = rules::find(&outline, record.plate);
            for rules in still_hold(&records) {
                assert_eq!(rules.find(&outline, record.plate), today);
                same += u32::from(today > 0);
            }
            other += u32::from(BEFORE_LOCKS.find(&outline, record.plate) != today);
        }
        assert!(same > 100 && other > 100, "{same}, {other}");
    }

    #[test]
    fn search_alike_where_they_hold_and_otherwise_not_always() {
        let rng = &mut Random::new(3);
        let (mut same, mut other) = ([0; 2], [0; 2]);
        for _ in 0..1_000 {
            let taxa = 1 + rng.index(7);
            let mut records = shapes::random_outline(taxa, 20, rng);
            let (count, way) = (rng.up_to(20), rng.up_to(1));
            shapes::fill_randomly(&mut records, count, rng);
            headings::fill_at_times(&mut records, count, rng);
            let count = locks::fill_at_times(&mut records, count, 30, rng);
            let holding = still_hold(&records).len();
            let today = search(&records, way, count, &subsets(taxa));
            for (at, rules) in [BEFORE_LOCKS, DOCUMENT_01].into_iter().enumerate() {
                let agrees = Some(rules.search(&records, way, count)) == today;
                assert!(agrees || at >= holding, "{records:?}");
                same[at] += u32::from(at < holding);
                other[at] += u32::from(!agrees);
            }
        }
        assert!(same[0] > 250 && same[1] > 100, "{same:?}");
        assert!(other[0] > 200 && other[1] > 300, "{other:?}");
    }
}
