//! House forms worked by hand. They are ours: document 02, §9, states the rule and no case.

use crate::cases::{group, taxon, tree_b};
use crate::form::{FormCall, FormExpected};
use crate::heading_cases::{headed, tree_a_with, two_groups};
use crate::lock_cases::{locking, with_field};
use crate::outline::{bytes, taxa, Record, LOCK, MOST_PLATE, RECORD_BYTES};
use crate::random::Random;
use crate::rules::Refusal;
use crate::shapes;
use crate::view_cases::{dressed, ROOMY, SHORT, TREE_A};
use crate::write_cases::{faulty_outlines, seven_records};

/// A call and what is stated for it.
pub struct FormCase {
    pub name: &'static str,
    pub call: FormCall,
    pub expected: FormExpected,
}

impl FormCase {
    /// The same outline with a form that is too short.
    fn short(mut self, form: usize) -> Self {
        self.call.form = form;
        self.expected = FormExpected::refused(Refusal {
            number: 9,
            place: 0,
        });
        self
    }

    /// The same outline with a form that is longer than needed.
    fn roomy(mut self, form: usize) -> Self {
        self.call.form = form;
        self
    }
}

/// An outline's house form, with just enough room.
fn in_bytes(name: &'static str, outline: &[u8], form: &[u8]) -> FormCase {
    FormCase {
        name,
        call: FormCall {
            outline: outline.to_vec(),
            form: form.len(),
        },
        expected: FormExpected::written(form),
    }
}

fn written(name: &'static str, records: &[Record], form: &[Record]) -> FormCase {
    in_bytes(name, &bytes(records), &bytes(form))
}

/// A refusal that does not depend on the form's length: with room for any outline, just enough for this one, a byte less and
/// none.
fn refused(name: &'static str, outline: &[u8], number: u32, place: u32) -> Vec<FormCase> {
    let lengths = [4_096, outline.len(), outline.len().max(1) - 1, 0];
    let case = |form| FormCase {
        name,
        call: FormCall {
            outline: outline.to_vec(),
            form,
        },
        expected: FormExpected::refused(Refusal { number, place }),
    };
    lengths.map(case).into()
}

pub fn all() -> Vec<FormCase> {
    let mut all = tree_a_shuffled();
    all.extend(tree_a_locked());
    all.extend(by_the_plate_of_a_field());
    all.extend(fields_kept());
    all.extend(far_below());
    all.extend(by_any_member());
    all.extend(plates());
    all.extend(alone());
    all.extend(interleaved());
    all.extend(combs());
    all.extend(largest());
    all.extend(room());
    all.extend(too_many());
    all.extend(order());
    all
}

/// Every other outline of tree A, a row for each record.
pub(crate) const SHUFFLED: [[[u8; RECORD_BYTES]; 5]; 7] = [
    // plate 13 as record 3, and as record 4
    [
        [0, 0, 2, 0, 0, 0, 0, 0, 0, 0, 0, 0, 0, 0, 0, 0],
        [3, 0, 4, 0, 3, 0, 0, 0, 0, 0, 0, 0, 0, 0, 0, 0],
        [0, 0, 0, 0, 5, 0, 0, 0, 2, 0, 0, 0, 13, 0, 0, 0],
        [5, 0, 0, 0, 4, 0, 0, 0, 3, 0, 0, 0, 11, 0, 0, 0],
        [0, 0, 0, 0, 2, 0, 0, 0, 1, 0, 0, 0, 12, 0, 0, 0],
    ],
    [
        [0, 0, 2, 0, 0, 0, 0, 0, 0, 0, 0, 0, 0, 0, 0, 0],
        [4, 0, 3, 0, 3, 0, 0, 0, 0, 0, 0, 0, 0, 0, 0, 0],
        [5, 0, 0, 0, 4, 0, 0, 0, 3, 0, 0, 0, 11, 0, 0, 0],
        [0, 0, 0, 0, 5, 0, 0, 0, 2, 0, 0, 0, 13, 0, 0, 0],
        [0, 0, 0, 0, 2, 0, 0, 0, 1, 0, 0, 0, 12, 0, 0, 0],
    ],
    // plate 12 before plate 11
    [
        [0, 0, 2, 0, 0, 0, 0, 0, 0, 0, 0, 0, 0, 0, 0, 0],
        [5, 0, 3, 0, 3, 0, 0, 0, 0, 0, 0, 0, 0, 0, 0, 0],
        [4, 0, 0, 0, 2, 0, 0, 0, 1, 0, 0, 0, 12, 0, 0, 0],
        [0, 0, 0, 0, 4, 0, 0, 0, 3, 0, 0, 0, 11, 0, 0, 0],
        [0, 0, 0, 0, 5, 0, 0, 0, 2, 0, 0, 0, 13, 0, 0, 0],
    ],
    [
        [0, 0, 2, 0, 0, 0, 0, 0, 0, 0, 0, 0, 0, 0, 0, 0],
        [3, 0, 4, 0, 3, 0, 0, 0, 0, 0, 0, 0, 0, 0, 0, 0],
        [0, 0, 0, 0, 5, 0, 0, 0, 2, 0, 0, 0, 13, 0, 0, 0],
        [5, 0, 0, 0, 2, 0, 0, 0, 1, 0, 0, 0, 12, 0, 0, 0],
        [0, 0, 0, 0, 4, 0, 0, 0, 3, 0, 0, 0, 11, 0, 0, 0],
    ],
    [
        [0, 0, 2, 0, 0, 0, 0, 0, 0, 0, 0, 0, 0, 0, 0, 0],
        [4, 0, 3, 0, 3, 0, 0, 0, 0, 0, 0, 0, 0, 0, 0, 0],
        [5, 0, 0, 0, 2, 0, 0, 0, 1, 0, 0, 0, 12, 0, 0, 0],
        [0, 0, 0, 0, 5, 0, 0, 0, 2, 0, 0, 0, 13, 0, 0, 0],
        [0, 0, 0, 0, 4, 0, 0, 0, 3, 0, 0, 0, 11, 0, 0, 0],
    ],
    // plate 13 before the group
    [
        [0, 0, 2, 0, 0, 0, 0, 0, 0, 0, 0, 0, 0, 0, 0, 0],
        [3, 0, 0, 0, 5, 0, 0, 0, 2, 0, 0, 0, 13, 0, 0, 0],
        [0, 0, 4, 0, 3, 0, 0, 0, 0, 0, 0, 0, 0, 0, 0, 0],
        [5, 0, 0, 0, 4, 0, 0, 0, 3, 0, 0, 0, 11, 0, 0, 0],
        [0, 0, 0, 0, 2, 0, 0, 0, 1, 0, 0, 0, 12, 0, 0, 0],
    ],
    [
        [0, 0, 2, 0, 0, 0, 0, 0, 0, 0, 0, 0, 0, 0, 0, 0],
        [3, 0, 0, 0, 5, 0, 0, 0, 2, 0, 0, 0, 13, 0, 0, 0],
        [0, 0, 4, 0, 3, 0, 0, 0, 0, 0, 0, 0, 0, 0, 0, 0],
        [5, 0, 0, 0, 2, 0, 0, 0, 1, 0, 0, 0, 12, 0, 0, 0],
        [0, 0, 0, 0, 4, 0, 0, 0, 3, 0, 0, 0, 11, 0, 0, 0],
    ],
];

/// Whichever it is, the house form is tree A as document 01 has it, which is its own.
fn tree_a_shuffled() -> Vec<FormCase> {
    let form = TREE_A.concat();
    let written = |outline: [[u8; RECORD_BYTES]; 5]| in_bytes("tree A", &outline.concat(), &form);
    [TREE_A].into_iter().chain(SHUFFLED).map(written).collect()
}

/// A lock moves no member: 11 with the field 2,147,483,659 stands before 12, and a group with it before 13.
fn tree_a_locked() -> Vec<FormCase> {
    let shuffled = |locks: [u8; 3]| {
        let [of_11, of_12, of_13] = locks;
        [
            [0, 0, 2, 0, 0, 0, 0, 0, 1, 0, 0, 0, 0, 0, 0, 0],
            [3, 0, 0, 0, 5, 0, 0, 0, 2, 0, 0, 0, 13, 0, 0, of_13],
            [0, 0, 4, 0, 3, 0, 0, 0, 255, 255, 0, 0, 0, 0, 0, 0],
            [5, 0, 0, 0, 2, 0, 0, 0, 1, 0, 0, 0, 12, 0, 0, of_12],
            [0, 0, 0, 0, 4, 0, 0, 0, 3, 0, 0, 0, 11, 0, 0, of_11],
        ]
    };
    let form = |locks: [u8; 3]| {
        let [of_11, of_12, of_13] = locks;
        [
            [0, 0, 2, 0, 0, 0, 0, 0, 1, 0, 0, 0, 0, 0, 0, 0],
            [5, 0, 3, 0, 3, 0, 0, 0, 255, 255, 0, 0, 0, 0, 0, 0],
            [4, 0, 0, 0, 4, 0, 0, 0, 3, 0, 0, 0, 11, 0, 0, of_11],
            [0, 0, 0, 0, 2, 0, 0, 0, 1, 0, 0, 0, 12, 0, 0, of_12],
            [0, 0, 0, 0, 5, 0, 0, 0, 2, 0, 0, 0, 13, 0, 0, of_13],
        ]
    };
    let locks = (0..8_u8).map(|set| [0, 1, 2].map(|taxon| set >> taxon << 7));
    locks
        .map(|locks| {
            in_bytes(
                "tree A with locks",
                &shuffled(locks).concat(),
                &form(locks).concat(),
            )
        })
        .collect()
}

/// A lone taxon keeps its field 3,487,356,841. The fields 1,575,935,438 and 3,069,279,632 are exchanged, since 3,069,279,632 has
/// plate 921,795,984.
fn by_the_plate_of_a_field() -> [FormCase; 3] {
    let alone = [0, 0, 0, 0, 1, 0, 0, 0, 2, 0, 0, 0, 169, 215, 220, 207];
    let outline = [
        [0, 0, 2, 0, 0, 0, 0, 0, 0, 0, 0, 0, 0, 0, 0, 0],
        [3, 0, 0, 0, 1, 0, 0, 0, 2, 0, 0, 0, 206, 221, 238, 93],
        [0, 0, 0, 0, 3, 0, 0, 0, 4, 0, 0, 0, 144, 125, 241, 182],
    ];
    let form = [
        [0, 0, 2, 0, 0, 0, 0, 0, 0, 0, 0, 0, 0, 0, 0, 0],
        [3, 0, 0, 0, 3, 0, 0, 0, 4, 0, 0, 0, 144, 125, 241, 182],
        [0, 0, 0, 0, 1, 0, 0, 0, 2, 0, 0, 0, 206, 221, 238, 93],
    ];
    [
        in_bytes("a field", &alone, &alone),
        in_bytes("two fields", &outline.concat(), &form.concat()),
        in_bytes("two fields in order", &form.concat(), &form.concat()),
    ]
}

/// Lengths and prices at their limits go with their records, headings' prices too, and decide nothing.
fn fields_kept() -> Vec<FormCase> {
    let outline = [
        headed(65_535, group(0, 2, 1_000_000)),
        headed(258, group(3, 5, 66_051)),
        headed(1, group(0, 4, 0)),
        taxon(0, 1, 65_535, LOCK + 7),
        taxon(6, 1_000_000, 0, MOST_PLATE),
        taxon(0, 0, 256, u32::MAX - 1),
    ];
    let form = [
        headed(65_535, group(0, 2, 1_000_000)),
        headed(1, group(4, 3, 0)),
        taxon(0, 1, 65_535, LOCK + 7),
        headed(258, group(0, 5, 66_051)),
        taxon(6, 0, 256, u32::MAX - 1),
        taxon(0, 1_000_000, 0, MOST_PLATE),
    ];
    let in_order = |records: Vec<Record>| written("in order", &records, &records);
    vec![
        written("limits", &outline, &form),
        in_order(form.into()),
        in_order(two_groups(3)),
        in_order(tree_a_with(1, 2)),
        in_order(locking(&[4, 6], two_groups(0))),
    ]
}

/// A group stands by a plate far below it: 4 is the last below the group of 9, 8 and 6, and 5 is alone.
fn far_below() -> Vec<FormCase> {
    let outline = [
        group(0, 2, 1),
        taxon(3, 2, 20, 5),
        group(0, 4, 3),
        taxon(5, 4, 40, 9),
        group(0, 6, 5),
        taxon(7, 6, 60, 8),
        group(0, 8, 7),
        taxon(9, 8, 80, 6),
        taxon(0, 9, 90, 4),
    ];
    let form = [
        group(0, 2, 1),
        group(9, 3, 3),
        group(8, 4, 5),
        group(7, 5, 7),
        taxon(6, 9, 90, 4),
        taxon(0, 8, 80, 6),
        taxon(0, 6, 60, 8),
        taxon(0, 4, 40, 9),
        taxon(0, 2, 20, 5),
    ];
    // 124 headings, one below the other, above plate 1, and plate 2 beside them
    let mut deep = vec![group(0, 2, 0), taxon(3, 2, 2, 2)];
    deep.extend((4..=127).map(|first| group(0, first, 1)));
    deep.push(taxon(0, 1, 1, 1));
    let mut deep_form = vec![group(0, 2, 0), group(127, 3, 1)];
    deep_form.extend((4..=126).map(|first| group(0, first, 1)));
    deep_form.push(taxon(0, 1, 1, 1));
    deep_form.push(taxon(0, 2, 2, 2));
    vec![
        written("a plate far below", &outline, &form),
        written("124 headings", &deep, &deep_form),
        written("124 headings in order", &deep_form, &deep_form),
    ]
}

/// The group of 1, 8 and 9 stands before that of 2, 3 and 4, whichever of its members has 1 and whichever comes first.
fn by_any_member() -> Vec<FormCase> {
    let of_three = |[first, second, third]: [u32; 3], next, number: u16| {
        let of = |next, plate| taxon(next, plate, 10 * plate, plate);
        [
            group(next, number + 1, 0),
            of(number + 2, first),
            of(number + 3, second),
            of(0, third),
        ]
    };
    let written = |low: [u32; 3], high: [u32; 3]| {
        let with_root = |one: [u32; 3], other: [u32; 3]| {
            let members = [of_three(one, 6, 2), of_three(other, 0, 6)];
            [vec![group(0, 2, 0)], members.concat()].concat()
        };
        let form = with_root([1, 8, 9], [2, 3, 4]);
        [
            written("any member", &with_root(low, high), &form),
            written("any member", &with_root(high, low), &form),
        ]
    };
    let orders = shapes::every_order(3).into_iter();
    let of = |order: &[usize], plates: [u32; 3]| [0, 1, 2].map(|at| plates[order[at]]);
    orders
        .flat_map(|order| written(of(&order, [1, 8, 9]), of(&order, [2, 3, 4])))
        .collect()
}

/// Two taxa with these plate fields below a root of length 1; each length and price is its place in the outline.
fn two_taxa(one: u32, other: u32) -> [Record; 3] {
    [group(0, 2, 1), taxon(3, 2, 2, one), taxon(0, 3, 3, other)]
}

/// Numbers and not bytes decide, and all 31 bits of them.
fn plates() -> Vec<FormCase> {
    let of_two = |(first, second): (u32, u32)| {
        let in_order = two_taxa(first, second);
        let outline = two_taxa(second, first);
        let form = [
            group(0, 2, 1),
            taxon(3, 3, 3, first),
            taxon(0, 2, 2, second),
        ];
        [
            written("plates", &outline, &form),
            written("plates in order", &in_order, &in_order),
        ]
    };
    [
        (1, 2),
        (255, 256),
        (65_535, 65_536),
        (16_777_215, 16_777_216),
        (1, 1_073_741_824),
        (1_073_741_823, 1_073_741_824),
        (1_073_741_824, MOST_PLATE),
        (MOST_PLATE - 1, MOST_PLATE),
        (LOCK + 1, 2),
        (1, LOCK + 2),
        (LOCK + 1, LOCK + 2),
        (LOCK + 1, MOST_PLATE),
        (1, u32::MAX),
        (u32::MAX - 1, MOST_PLATE),
    ]
    .into_iter()
    .flat_map(of_two)
    .collect()
}

/// Taxa and groups that are alone keep their places.
fn alone() -> Vec<FormCase> {
    let one = |length, price, field| vec![taxon(0, length, price, field)];
    let below = vec![headed(7, group(0, 2, 1)), taxon(0, 5, 1, LOCK + 9)];
    let mut groups: Vec<Record> = (2..=127).map(|first| group(0, first, 1)).collect();
    groups.push(taxon(0, 1, 1, u32::MAX));
    [
        one(5, 1, 1),
        one(0, 0, LOCK + 1),
        one(1_000_000, 65_535, u32::MAX),
        below,
        tree_b(),
        groups,
    ]
    .into_iter()
    .map(|records| written("alone", &records, &records))
    .collect()
}

/// The house form of the seven records that are not in text order.
pub(crate) fn seven_in_form() -> [Record; 7] {
    [
        group(0, 2, 1),
        group(5, 3, 20),
        taxon(4, 7, 70, 101),
        taxon(0, 5, 50, 105),
        group(7, 6, 300),
        taxon(0, 6, 60, 103),
        taxon(0, 4, 40, 104),
    ]
}

/// Records 5 and 7 are below record 2, record 6 below record 3.
fn interleaved() -> [FormCase; 2] {
    let dressed = |records: [Record; 7], numbers: &[usize]| {
        let mut records = locking(numbers, records.into());
        records[0].price = 9;
        records
    };
    let records = dressed(seven_records(), &[4, 7]);
    let form = dressed(seven_in_form(), &[3, 7]);
    [
        written("seven records", &seven_records(), &seven_in_form()),
        written("seven records with locks", &records, &form),
    ]
}

/// Four taxa of a comb, each group first, whose plates go up from the deepest on or down.
fn combs() -> [FormCase; 2] {
    let comb = |[first, second, third, fourth]: [u32; 4]| {
        [
            group(0, 2, 0),
            group(7, 3, 5),
            group(6, 4, 6),
            taxon(5, 1, 10, first),
            taxon(0, 2, 20, second),
            taxon(0, 3, 30, third),
            taxon(0, 4, 40, fourth),
        ]
    };
    let turned = [
        group(0, 2, 0),
        taxon(3, 4, 40, 1),
        group(0, 4, 5),
        taxon(5, 3, 30, 2),
        group(0, 6, 6),
        taxon(7, 2, 20, 3),
        taxon(0, 1, 10, 4),
    ];
    let in_order = comb([1, 2, 3, 4]);
    [
        written("a comb in order", &in_order, &in_order),
        written("a comb", &comb([4, 3, 2, 1]), &turned),
    ]
}

/// Each taxon's length and price tell its plate, which counts up or down with the records.
fn numbered(mut records: Vec<Record>, plate: impl Fn(u32) -> u32) -> Vec<Record> {
    for (at, taxon) in (1..).zip(taxa(&records)) {
        let plate = plate(at);
        (records[taxon].length, records[taxon].price) = (10_000 + plate, 1_000 + plate);
        records[taxon].plate = plate;
    }
    records
}

/// 64 taxa whose plates go down with the records, and up in the form: a comb is turned round, and a star and pairs of pairs keep
/// their shape. With a byte less for them, some more, and with prices and locks everywhere.
fn largest() -> Vec<FormCase> {
    let shapes = [
        ("64 members", shapes::star(64), shapes::star(64)),
        ("pairs of pairs", shapes::balanced(6), shapes::balanced(6)),
        (
            "63 groups, each first",
            shapes::caterpillar_group_first(64),
            shapes::caterpillar_taxon_first(64),
        ),
    ];
    let cases = shapes.into_iter().flat_map(|(name, shape, shape_of_form)| {
        let outline = numbered(shape, |at| 65 - at);
        let form = numbered(shape_of_form, |at| at);
        let bytes = RECORD_BYTES * form.len();
        [
            written(name, &outline, &form),
            written(name, &outline, &form).short(bytes - 1),
            written(name, &outline, &form).short(bytes - RECORD_BYTES),
            written(name, &outline, &form).roomy(bytes + 1),
            written(name, &dressed(outline), &dressed(form.clone())),
            written(name, &form, &form),
        ]
    });
    cases.collect()
}

/// Tree A needs 80 bytes and an outline of one record 16.
fn room() -> Vec<FormCase> {
    let of_tree_a = || in_bytes("room", &SHUFFLED[6].concat(), &TREE_A.concat());
    let alone = || {
        written(
            "room",
            &[taxon(0, 5, 1, LOCK + 1)],
            &[taxon(0, 5, 1, LOCK + 1)],
        )
    };
    let of_one = [
        alone().short(15),
        alone().short(0),
        alone().roomy(17),
        alone().roomy(31),
    ];
    let short = SHORT.map(|form| of_tree_a().short(form));
    let roomy = ROOMY.map(|form| of_tree_a().roomy(form));
    short.into_iter().chain(roomy).chain(of_one).collect()
}

/// 128 records and 65 taxa that are sound otherwise, and far more records. A lock does not part twins.
fn too_many() -> Vec<FormCase> {
    let records = |records| bytes(&shapes::random_outline_of(3, records, &mut Random::new(0)));
    let twins = |locked: &[usize]| bytes(&locking(locked, with_field(5, 11)));
    [
        refused("128 records", &records(128), 3, 0),
        refused("256 records", &records(256), 3, 0),
        refused("65 taxa", &bytes(&dressed(shapes::star(65))), 7, 0),
        refused("twins", &twins(&[3]), 8, 5),
        refused("twins", &twins(&[5]), 8, 5),
        refused("a lock of a group", &bytes(&with_field(2, LOCK)), 5, 2),
        refused("a lock alone", &bytes(&with_field(4, LOCK)), 5, 4),
    ]
    .into_iter()
    .flatten()
    .collect()
}

/// Each outline has the faults of those after it: 2, 3, 5, 6, 7, 8. All of them come before 9.
fn order() -> Vec<FormCase> {
    faulty_outlines()
        .into_iter()
        .flat_map(|(name, outline, number, place)| refused(name, &outline, number, place))
        .collect()
}

#[cfg(test)]
mod tests {
    use super::*;
    use crate::cases::tree_a;
    use crate::outline::{self, is_preorder};
    use crate::rules;
    use crate::same_tree::are_same;
    use std::collections::BTreeSet;

    #[test]
    fn every_answer_is_stated() {
        for number in [0, 2, 3, 5, 6, 7, 8, 9] {
            let stated = all()
                .into_iter()
                .filter(|case| case.expected.answer[0] == number);
            assert!(stated.count() > 1, "{number}");
        }
    }

    /// Those of 120 orders of five records that have each link lead to a later record, with the links of any shuffling.
    #[test]
    fn the_outlines_of_tree_a_are_all_there_are() {
        let outlines = [TREE_A].into_iter().chain(SHUFFLED);
        let stated: BTreeSet<Vec<u8>> = outlines.map(|rows| rows.concat()).collect();
        let shapes = shapes::every_outline(5).into_iter();
        let fields = |records: Vec<Record>| {
            let orders = shapes::every_order(5).into_iter();
            orders.map(move |order| -> Vec<Record> {
                let links = records.iter().zip(order);
                let record = |(links, from): (&Record, usize)| Record {
                    next: links.next,
                    first: links.first,
                    ..tree_a()[from]
                };
                links.map(record).collect()
            })
        };
        let same = |records: &Vec<Record>| {
            rules::check(&bytes(records)).is_none() && are_same(records, &tree_a())
        };
        let found = shapes.flat_map(fields).filter(same);
        let found: BTreeSet<Vec<u8>> = found.map(|records| bytes(&records)).collect();
        assert_eq!(stated, found);
    }

    #[test]
    fn stated_forms_are_the_same_trees_in_text_order() {
        let mut moved = 0;
        for case in all() {
            let form = &case.expected.form;
            if case.expected.answer[0] == 0 {
                let [records, form] = [&case.call.outline, form].map(|b| outline::records(b));
                assert!(is_preorder(&form), "{}", case.name);
                assert!(are_same(&records, &form), "{}", case.name);
                moved += u32::from(records != form);
            }
        }
        assert!(moved > 40, "{moved}");
    }
}
