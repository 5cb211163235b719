//! Outlines from bytes: their records, and finding a plate.

use crate::support::{bytes, sound, star, tree_a, LOCK, TREE_A};
use plates::{Outline, Record, Refusal, MOST_PLATE};

#[test]
fn records_have_the_fields() {
    let expected = (1..).zip(TREE_A).map(|(number, fields)| {
        let [next, first, length, price, plate] = fields;
        Record {
            number,
            next,
            first,
            length,
            price,
            plate,
            locked: false,
        }
    });
    let expected: Vec<Record> = expected.collect();
    let outline = tree_a();
    assert_eq!(outline.records().collect::<Vec<_>>(), expected);
    assert_eq!(outline.records().len(), 5);
    assert_eq!(outline.taxa().collect::<Vec<_>>(), expected[2..]);
    assert_eq!(outline.record(4), Some(expected[3]));
    assert_eq!((outline.record(0), outline.record(6)), (None, None));
    assert_eq!(outline.record(u32::MAX), None);
}

#[test]
fn fields_have_all_their_bytes() {
    for (lock, locked) in [(0, false), (LOCK, true)] {
        let largest = [0, 0, 1_000_000, 65_535, lock | MOST_PLATE];
        let outline = Outline::from_bytes(&bytes(&[largest])).unwrap();
        let record = outline.record(1).unwrap();
        assert_eq!(
            (record.length, record.price, record.plate),
            (1_000_000, 65_535, 2_147_483_647)
        );
        assert_eq!(record.locked, locked);
        assert_eq!(outline.find(2_147_483_647), Some(record));
    }
}

#[test]
fn free_taxa_are_taxa() {
    let outline = sound(star(&[(1, 0), (1, 2)]));
    let numbers: Vec<u32> = outline.taxa().map(|taxon| taxon.number).collect();
    assert_eq!(numbers, [2, 3]);
}

#[test]
fn bytes_are_kept() {
    assert_eq!(tree_a().as_bytes(), bytes(&TREE_A));
    assert_eq!(tree_a().as_ref(), bytes(&TREE_A));
}

#[test]
fn bytes_become_outlines() {
    let mut whole = bytes(&TREE_A);
    assert_eq!(Outline::try_from(&whole[..]), Ok(tree_a()));
    let cut: Result<Outline, Refusal> = whole[..79].try_into();
    assert_eq!(cut, Err(Refusal::PartialRecord));
    whole[64] = 1;
    let refusal = Refusal::BadLink { record: 5 };
    assert_eq!(Outline::try_from(&whole[..]), Err(refusal));
}

#[test]
fn finding_gives_the_taxon_of_the_plate() {
    let outline = tree_a();
    for (plate, number) in [(11, 3), (12, 4), (13, 5)] {
        assert_eq!(outline.find(plate), outline.record(number));
    }
    for plate in [0, 1, 10, 14, MOST_PLATE, LOCK, LOCK | 13, u32::MAX] {
        assert_eq!(outline.find(plate), None);
    }
}

#[test]
fn debug_shows_records() {
    let shown = format!("{:?}", tree_a());
    assert!(shown.contains(
        "Record { number: 5, next: 0, first: 0, length: 5, price: 2, plate: 13, locked: false }"
    ));
}
