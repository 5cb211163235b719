//! Views worked by hand. They are ours: document 02, §7, states the rule and no case.

use crate::cases::{group, taxon, tree_a};
use crate::heading_cases::{headed, tree_a_with, two_groups};
use crate::lock_cases::{locking, with_field};
use crate::outline::{bytes, groups, taxa, Record, LOCK, MOST_PLATE, RECORD_BYTES};
use crate::random::Random;
use crate::rules::Refusal;
use crate::shapes;
use crate::view::{Reader, ViewCall, ViewExpected, MOST_BYTES, READERS};
use crate::write_cases::{faulty_outlines, seven_records};

/// A call and what is stated for it.
pub struct ViewCase {
    pub name: &'static str,
    pub call: ViewCall,
    pub expected: ViewExpected,
}

impl ViewCase {
    /// The same outline with a view that is too short.
    fn short(mut self, view: usize) -> Self {
        self.call.view = view;
        self.expected = ViewExpected::refused(Refusal {
            number: 9,
            place: 0,
        });
        self
    }

    /// The same outline with a view that is longer than needed.
    fn roomy(mut self, view: usize) -> Self {
        self.call.view = view;
        self
    }
}

/// What either reader gets, with just enough room. A house reader gets the outline.
fn in_bytes(name: &'static str, outline: &[u8], to_buyer: &[u8]) -> [ViewCase; 2] {
    [(Reader::House, outline), (Reader::Buyer, to_buyer)].map(|(reader, view)| ViewCase {
        name,
        call: ViewCall {
            outline: outline.to_vec(),
            reader,
            view: view.len(),
        },
        expected: ViewExpected::shown(view),
    })
}

fn views(name: &'static str, records: &[Record], to_buyer: &[Record]) -> [ViewCase; 2] {
    in_bytes(name, &bytes(records), &bytes(to_buyer))
}

/// A refusal that does not depend on the view's length, for either reader: with room for any outline, just enough for this one, a
/// byte less and none.
fn refused(name: &'static str, outline: &[u8], number: u32, place: u32) -> Vec<ViewCase> {
    let lengths = [4_096, outline.len(), outline.len().max(1) - 1, 0];
    let calls = READERS.into_iter().flat_map(|reader| {
        lengths.map(|view| ViewCall {
            outline: outline.to_vec(),
            reader,
            view,
        })
    });
    let case = |call| ViewCase {
        name,
        call,
        expected: ViewExpected::refused(Refusal { number, place }),
    };
    calls.map(case).collect()
}

pub fn all() -> Vec<ViewCase> {
    let mut all = byte_by_byte();
    all.extend(prices());
    all.extend(locks());
    all.extend(both());
    all.extend(alone());
    all.extend(interleaved());
    all.extend(largest());
    all.extend(room());
    all.extend(prices_out_of_range());
    all.extend(locks_out_of_place());
    all.extend(too_many());
    all.extend(order());
    all
}

/// Tree A, a row for each record.
pub(crate) const TREE_A: [[u8; RECORD_BYTES]; 5] = [
    [0, 0, 2, 0, 0, 0, 0, 0, 0, 0, 0, 0, 0, 0, 0, 0],
    [5, 0, 3, 0, 3, 0, 0, 0, 0, 0, 0, 0, 0, 0, 0, 0],
    [4, 0, 0, 0, 4, 0, 0, 0, 3, 0, 0, 0, 11, 0, 0, 0],
    [0, 0, 0, 0, 2, 0, 0, 0, 1, 0, 0, 0, 12, 0, 0, 0],
    [0, 0, 0, 0, 5, 0, 0, 0, 2, 0, 0, 0, 13, 0, 0, 0],
];

const TREE_A_TO_BUYER: [[u8; RECORD_BYTES]; 5] = [
    [0, 0, 2, 0, 0, 0, 0, 0, 0, 0, 0, 0, 0, 0, 0, 0],
    [5, 0, 3, 0, 3, 0, 0, 0, 0, 0, 0, 0, 0, 0, 0, 0],
    [4, 0, 0, 0, 4, 0, 0, 0, 0, 0, 0, 0, 11, 0, 0, 0],
    [0, 0, 0, 0, 2, 0, 0, 0, 0, 0, 0, 0, 12, 0, 0, 0],
    [0, 0, 0, 0, 5, 0, 0, 0, 0, 0, 0, 0, 13, 0, 0, 0],
];

/// Its links with high numbers: headings of 65,535 and 258, and locks at the plates 2,147,483,647, 16,909,060 and 128.
const HIGH: [[u8; RECORD_BYTES]; 5] = [
    [0, 0, 2, 0, 64, 66, 15, 0, 255, 255, 0, 0, 0, 0, 0, 0],
    [5, 0, 3, 0, 64, 66, 15, 0, 2, 1, 0, 0, 0, 0, 0, 0],
    [4, 0, 0, 0, 9, 0, 0, 0, 255, 255, 0, 0, 255, 255, 255, 255],
    [0, 0, 0, 0, 64, 66, 15, 0, 0, 128, 0, 0, 4, 3, 2, 129],
    [0, 0, 0, 0, 64, 66, 15, 0, 128, 0, 0, 0, 128, 0, 0, 128],
];

const HIGH_TO_BUYER: [[u8; RECORD_BYTES]; 5] = [
    [0, 0, 2, 0, 64, 66, 15, 0, 0, 0, 0, 0, 0, 0, 0, 0],
    [5, 0, 3, 0, 64, 66, 15, 0, 0, 0, 0, 0, 0, 0, 0, 0],
    [4, 0, 0, 0, 9, 0, 0, 0, 0, 0, 0, 0, 255, 255, 255, 127],
    [0, 0, 0, 0, 64, 66, 15, 0, 0, 0, 0, 0, 4, 3, 2, 1],
    [0, 0, 0, 0, 64, 66, 15, 0, 0, 0, 0, 0, 128, 0, 0, 0],
];

fn byte_by_byte() -> Vec<ViewCase> {
    [
        in_bytes("tree A", &TREE_A.concat(), &TREE_A_TO_BUYER.concat()),
        in_bytes("high numbers", &HIGH.concat(), &HIGH_TO_BUYER.concat()),
    ]
    .into_iter()
    .flatten()
    .collect()
}

/// Tree A as a buyer's reader gets it, whatever its prices and locks.
fn tree_a_to_buyer() -> Vec<Record> {
    vec![
        group(0, 2, 0),
        group(5, 3, 3),
        taxon(4, 4, 0, 11),
        taxon(0, 2, 0, 12),
        taxon(0, 5, 0, 13),
    ]
}

/// Tree A with a price at one record alone, and its headings at their limits.
fn prices() -> Vec<ViewCase> {
    let one = |position: usize| {
        [1, 256, 65_535].map(|price| {
            let mut records = tree_a_to_buyer();
            records[position].price = price;
            records
        })
    };
    let headings = [(1, 2), (65_535, 0), (0, 65_535), (65_535, 65_535)];
    let headed = headings.map(|(root, second)| tree_a_with(root, second));
    let priced = (0..5).flat_map(one).chain(headed).chain([tree_a()]);
    priced
        .flat_map(|records| views("prices", &records, &tree_a_to_buyer()))
        .collect()
}

/// Tree A with any of its taxa locked, and one without a price where only a lock is hidden.
fn locks() -> Vec<ViewCase> {
    let locked: [&[usize]; 7] = [&[3], &[4], &[5], &[3, 4], &[3, 5], &[4, 5], &[3, 4, 5]];
    let free = locked.map(|numbers| locking(numbers, tree_a_to_buyer()));
    let priced = locked.map(|numbers| locking(numbers, tree_a()));
    let all = free.into_iter().chain(priced).chain([tree_a_to_buyer()]);
    all.flat_map(|records| views("locks", &records, &tree_a_to_buyer()))
        .collect()
}

/// Prices of taxa and headings together with locks, and the limits of a plate.
fn both() -> Vec<ViewCase> {
    let dressed = || locking(&[3, 5], tree_a_with(1, 2));
    let mut to_buyer = tree_a_to_buyer();
    let mut cases = Vec::from(views("headings and locks", &dressed(), &to_buyer));
    for (field, plate) in [
        (LOCK + MOST_PLATE, MOST_PLATE),
        (MOST_PLATE, MOST_PLATE),
        (LOCK + 1, 1),
        (LOCK + 1_073_741_824, 1_073_741_824),
    ] {
        to_buyer[4].plate = plate;
        let mut records = dressed();
        records[4].plate = field;
        cases.extend(views("a plate at its limit", &records, &to_buyer));
    }
    let groups = [
        group(0, 2, 0),
        group(5, 3, 1),
        taxon(4, 4, 0, 1),
        taxon(0, 3, 0, 2),
        group(0, 6, 1),
        taxon(0, 6, 0, 3),
    ];
    let in_groups = locking(&[4, 6], two_groups(3));
    cases.extend(views("two groups", &in_groups, &groups));
    cases
}

/// An outline of one record, which is a taxon, and one of two.
fn alone() -> Vec<ViewCase> {
    let one = |length, price, field, plate| {
        let (given, seen) = (taxon(0, length, price, field), taxon(0, length, 0, plate));
        views("one record", &[given], &[seen])
    };
    let below = [headed(7, group(0, 2, 1)), taxon(0, 5, 1, LOCK + 9)];
    let below_to_buyer = [group(0, 2, 1), taxon(0, 5, 0, 9)];
    [
        one(5, 1, 1, 1),
        one(5, 1, LOCK + 1, 1),
        one(0, 0, 70, 70),
        one(0, 0, LOCK + 70, 70),
        one(1_000_000, 65_535, u32::MAX, MOST_PLATE),
        views("two records", &below, &below_to_buyer),
    ]
    .into_iter()
    .flatten()
    .collect()
}

/// Record order is not text order; the records stand where they stood.
fn interleaved() -> [ViewCase; 2] {
    let mut records = seven_records();
    (records[0].price, records[1].price, records[2].price) = (1, 2, 3);
    let to_buyer = [
        group(0, 2, 1),
        group(3, 5, 20),
        group(4, 6, 300),
        taxon(0, 4, 0, 104),
        taxon(7, 5, 0, 105),
        taxon(0, 6, 0, 103),
        taxon(0, 7, 0, 101),
    ];
    views(
        "seven records",
        &locking(&[4, 7], records.into()),
        &to_buyer,
    )
}

/// Every record gets the highest price, and every taxon a lock.
pub(crate) fn dressed(mut records: Vec<Record>) -> Vec<Record> {
    records.iter_mut().for_each(|record| record.price = 65_535);
    let numbers: Vec<usize> = taxa(&records).iter().map(|taxon| taxon + 1).collect();
    locking(&numbers, records)
}

/// Outlines of 127 records and of 64 taxa, with a byte less for them, with some more, and with prices or locks at the last record
/// or at groups alone. A shape has neither.
fn largest() -> Vec<ViewCase> {
    let rng = &mut Random::new(0);
    let shapes = [
        ("pairs of pairs", shapes::balanced(6)),
        ("63 groups, each last", shapes::caterpillar_taxon_first(64)),
        ("63 groups, each first", shapes::caterpillar_group_first(64)),
        ("64 members", shapes::star(64)),
        ("126 groups", shapes::random_outline_of(1, 127, rng)),
    ];
    let cases = shapes.into_iter().flat_map(|(name, mut to_buyer)| {
        shapes::fill(&mut to_buyer, &mut Random::new(0), |_| 1_000_000, |_| 0);
        for taxon in taxa(&to_buyer) {
            to_buyer[taxon].plate += MOST_PLATE - 64;
        }
        largest_of(name, &to_buyer)
    });
    cases.collect()
}

fn largest_of(name: &'static str, to_buyer: &[Record]) -> Vec<ViewCase> {
    let all = to_buyer.len();
    let mut last = to_buyer.to_vec();
    last[all - 1].price = 65_535;
    let locked = locking(&[all], to_buyer.to_vec());
    let mut headings = to_buyer.to_vec();
    for group in groups(to_buyer) {
        headings[group].price = 65_535;
    }
    let dressed = dressed(to_buyer.to_vec());
    let view = RECORD_BYTES * all;
    let of_dressed = || views(name, &dressed, to_buyer);
    [
        of_dressed(),
        of_dressed().map(|case| case.short(view - 1)),
        of_dressed().map(|case| case.short(view - RECORD_BYTES)),
        of_dressed().map(|case| case.roomy(view + RECORD_BYTES)),
        views(name, &last, to_buyer),
        views(name, &locked, to_buyer),
        views(name, &headings, to_buyer),
        views(name, to_buyer, to_buyer),
    ]
    .into_iter()
    .flatten()
    .collect()
}

/// Tree A needs 80 bytes and an outline of one record 16.
pub(crate) const SHORT: [usize; 11] = [79, 78, 65, 64, 63, 48, 32, 16, 15, 1, 0];
pub(crate) const ROOMY: [usize; 8] = [81, 82, 95, 96, 97, 160, MOST_BYTES, 4_096];

fn room() -> Vec<ViewCase> {
    let of_tree_a = || {
        views(
            "room",
            &locking(&[3], tree_a_with(1, 2)),
            &tree_a_to_buyer(),
        )
    };
    let short = SHORT.map(|view| of_tree_a().map(|case| case.short(view)));
    let roomy = ROOMY.map(|view| of_tree_a().map(|case| case.roomy(view)));
    let alone = || views("room", &[taxon(0, 5, 1, LOCK + 1)], &[taxon(0, 5, 0, 1)]);
    let of_one = [
        alone().map(|case| case.short(15)),
        alone().map(|case| case.short(0)),
        alone().map(|case| case.roomy(17)),
        alone().map(|case| case.roomy(31)),
    ];
    let cases = short.into_iter().chain(roomy).chain(of_one);
    cases.flatten().collect()
}

/// A price that a buyer's reader would not see is refused all the same, at its record.
fn prices_out_of_range() -> Vec<ViewCase> {
    let with = |number: usize, price: u32| {
        let mut records = tree_a();
        records[number - 1].price = price;
        let place = number as u32;
        refused("a price out of range", &bytes(&records), 5, place)
    };
    let prices = [65_536, 65_537, 1 << 24, LOCK, u32::MAX];
    let anywhere = (1..=5).flat_map(|number| prices.map(|price| with(number, price)));
    let alone = bytes(&[taxon(0, 5, 65_536, 1)]);
    let of_one = refused("a price out of range", &alone, 5, 1);
    anywhere.chain([of_one]).flatten().collect()
}

/// Bit 31 makes no plate of 0 a plate, has no place at a group and does not part twins, though a buyer's reader would not see it.
fn locks_out_of_place() -> Vec<ViewCase> {
    let of = |records: &[Record], number, place| {
        refused("a lock out of place", &bytes(records), number, place)
    };
    let twins = |numbers: &[usize]| locking(numbers, with_field(5, 11));
    [
        of(&with_field(1, LOCK), 5, 1),
        of(&with_field(2, LOCK), 5, 2),
        of(&with_field(2, u32::MAX), 5, 2),
        of(&with_field(3, LOCK), 5, 3),
        of(&with_field(5, LOCK), 5, 5),
        of(&[taxon(0, 5, 1, LOCK)], 5, 1),
        of(&twins(&[]), 8, 5),
        of(&twins(&[3]), 8, 5),
        of(&twins(&[5]), 8, 5),
        of(&twins(&[3, 5]), 8, 5),
    ]
    .into_iter()
    .flatten()
    .collect()
}

/// 128 records and 65 taxa that are sound otherwise, and far more records.
fn too_many() -> Vec<ViewCase> {
    let records = |records| bytes(&shapes::random_outline_of(3, records, &mut Random::new(0)));
    [
        refused("128 records", &records(128), 3, 0),
        refused("256 records", &records(256), 3, 0),
        refused("65 taxa", &bytes(&dressed(shapes::star(65))), 7, 0),
    ]
    .into_iter()
    .flatten()
    .collect()
}

/// Each outline has the faults of those after it: 2, 3, 5, 6, 7, 8. All of them come before 9.
fn order() -> Vec<ViewCase> {
    faulty_outlines()
        .into_iter()
        .flat_map(|(name, outline, number, place)| refused(name, &outline, number, place))
        .collect()
}

#[cfg(test)]
mod tests {
    use super::*;

    #[test]
    fn every_answer_is_stated_for_either_reader() {
        for number in [0, 2, 3, 5, 6, 7, 8, 9] {
            for reader in READERS {
                let stated = all()
                    .into_iter()
                    .filter(|case| case.call.reader == reader && case.expected.answer[0] == number);
                assert!(stated.count() > 1, "{number}, {reader:?}");
            }
        }
    }

    #[test]
    fn the_rows_of_bytes_are_tree_a() {
        assert_eq!(TREE_A.concat(), bytes(&tree_a()));
        assert_eq!(TREE_A_TO_BUYER.concat(), bytes(&tree_a_to_buyer()));
    }
}
