//! Every refusal: through the safe interface where it can arise there, else through the C
//! interface.

use crate::support::{bytes, changed, star_records, tree_a, Buffers, Fields, LOCK, TREE_A};
use plates::{choose, sys, Outline, Refusal, Way};
use std::error::Error;

fn refused(records: &[Fields]) -> Refusal {
    Outline::from_bytes(&bytes(records)).expect_err("the outline isn't sound")
}

#[test]
fn unknown_way() {
    for way in [2, 3, u32::MAX] {
        let mut buffers = Buffers::new(5, 12, 168);
        assert_eq!(
            buffers.choose(tree_a().as_bytes(), 5, way),
            [1, 0, 0, 0, 0, 0]
        );
        assert!(buffers.is_untouched());
    }
}

#[test]
fn partial_record() {
    let whole = bytes(&TREE_A);
    for len in [0, 1, 15, 17, 79] {
        assert_eq!(
            Outline::from_bytes(&whole[..len]),
            Err(Refusal::PartialRecord)
        );
    }
}

#[test]
fn too_many_records() {
    assert_eq!(refused(&[[0; 5]; 128]), Refusal::TooManyRecords);
    assert_eq!(
        refused(&[[0; 5]; 127]),
        Refusal::FieldOutOfRange { record: 1 }
    );
}

#[test]
fn count_too_large() {
    for count in [4_097, 65_536, u32::MAX] {
        for way in [Way::Rooted, Way::Unrooted] {
            assert_eq!(choose(&tree_a(), count, way), Err(Refusal::CountTooLarge));
        }
    }
}

#[test]
fn field_out_of_range() {
    let taxon_faults = [(2, 1_000_001), (3, 65_536), (4, 0), (4, LOCK)];
    for (field, value) in taxon_faults {
        assert_eq!(
            refused(&changed(4, field, value)),
            Refusal::FieldOutOfRange { record: 4 }
        );
    }
    let group_faults = [(2, 1_000_001), (3, 65_536), (3, u32::MAX)];
    let group_plates = [1, LOCK, LOCK | 1, u32::MAX].map(|value| (4, value));
    for (field, value) in group_faults.into_iter().chain(group_plates) {
        assert_eq!(
            refused(&changed(2, field, value)),
            Refusal::FieldOutOfRange { record: 2 }
        );
    }
}

#[test]
fn bad_link() {
    let faults = [
        // record, field, value, place
        (1, 0, 2, 1), // the root has a next
        (3, 0, 3, 3), // to itself
        (3, 0, 2, 2), // to an earlier record, which is then named twice
        (3, 0, 6, 3), // past the last record
        (3, 0, 0, 4), // record 4 is named by no link
        (4, 0, 5, 5), // record 5 is named twice
        (1, 1, 3, 2), // record 2 is named by no link
    ];
    for (record, field, value, place) in faults {
        assert_eq!(
            refused(&changed(record, field, value)),
            Refusal::BadLink { record: place }
        );
    }
}

#[test]
fn too_many_taxa() {
    assert_eq!(refused(&star_records(65)), Refusal::TooManyTaxa);
    assert!(Outline::from_bytes(&bytes(&star_records(64))).is_ok());
}

#[test]
fn duplicate_plate() {
    for plate_field in [12, LOCK | 12] {
        assert_eq!(
            refused(&changed(5, 4, plate_field)),
            Refusal::DuplicatePlate { record: 5 }
        );
    }
}

#[test]
fn buffer_too_short() {
    let (marks, curve, work) = (sys::marks_len(5), sys::curve_len(5), sys::work_len(5, 5));
    let short = [
        (marks - 1, curve, work),
        (marks, curve - 1, work),
        (marks, curve, work - 1),
    ];
    for (marks, curve, work) in short {
        let mut buffers = Buffers::new(marks, curve, work);
        assert_eq!(buffers.choose(&bytes(&TREE_A), 5, 0), [9, 0, 0, 0, 0, 0]);
        assert!(buffers.is_untouched());
    }
    let mut buffers = Buffers::new(marks, curve, work);
    assert_eq!(buffers.choose(&bytes(&TREE_A), 5, 0), [0, 0, 12, 5, 2, 0]);
}

#[test]
fn locked_too_dear() {
    let locked = bytes(&changed(5, 4, LOCK | 13));
    for way in [0, 1] {
        for count in [0, 1] {
            let mut buffers = Buffers::new(5, 12, 168);
            assert_eq!(buffers.choose(&locked, count, way), [12, 0, 0, 0, 0, 0]);
            assert!(buffers.is_untouched());
        }
    }
    let mut buffers = Buffers::new(5, 12, 168);
    assert_eq!(buffers.choose(&locked, 5, 0), [0, 0, 12, 5, 2, 0]);
    let columns = [0, u32::MAX, 0, u32::MAX, 5, 2, 10, 3, 10, 3, 12, 5];
    assert_eq!(buffers.curve, columns);
}

#[test]
fn longer_buffers_keep_the_rest() {
    let mut buffers = Buffers::new(8, 20, 200);
    assert_eq!(buffers.choose(&bytes(&TREE_A), 5, 0)[0], 0);
    let rest = Buffers::new(3, 8, 32);
    assert_eq!(buffers.marks[..5], [0, 0, 1, 0, 1]);
    assert_eq!(buffers.marks[5..], rest.marks);
    assert_eq!(buffers.curve[..12], [0, 0, 5, 1, 5, 1, 10, 3, 10, 3, 12, 5]);
    assert_eq!(buffers.curve[12..], rest.curve);
    assert_eq!(buffers.work[..168], [0; 168]);
    assert_eq!(buffers.work[168..], rest.work);
}

#[test]
fn first_that_holds_is_given() {
    let mut records = star_records(65);
    records[65] = [1, 0, 1, 1, 1];
    let broken = bytes(&records);
    let judge = |outline: &[u8], count, way| Buffers::new(0, 0, 0).choose(outline, count, way);
    assert_eq!(judge(&[], 5_000, 2)[..2], [1, 0]);
    assert_eq!(judge(&[], 5_000, 1)[..2], [2, 0]);
    assert_eq!(judge(&[0; 2_048], 5_000, 1)[..2], [3, 0]);
    assert_eq!(judge(&broken, 5_000, 1)[..2], [4, 0]);
    records[64][3] = 65_536;
    assert_eq!(judge(&bytes(&records), 0, 1)[..2], [5, 65]);
    assert_eq!(judge(&broken, 0, 1)[..2], [6, 66]);
    records = star_records(65);
    records[65][4] = 1;
    assert_eq!(judge(&bytes(&records), 0, 1)[..2], [7, 0]);
    assert_eq!(judge(&bytes(&changed(4, 4, 11)), 0, 1)[..2], [8, 4]);
    // the locked taxon costs 2
    let locked = bytes(&changed(5, 4, LOCK | 13));
    assert_eq!(judge(&locked, 1, 1)[..2], [9, 0]);
    let answer = Buffers::new(5, 4, 56).choose(&locked, 1, 1);
    assert_eq!(answer[..2], [12, 0]);
}

#[test]
fn numbers_and_places() {
    for number in 1..=17 {
        let refusal = Refusal::from_parts(number, 7).expect("seventeen refusals");
        assert_eq!(refusal.number(), number);
        let has_place = [5, 6, 8, 13, 14, 17].contains(&number);
        assert_eq!(refusal.place(), has_place.then_some(7));
        assert!(!matches!(refusal, Refusal::Other { .. }));
    }
    let without_place = [
        (14, Refusal::BadMarks { record: None }),
        (17, Refusal::BadRange { record: None }),
    ];
    for (number, refusal) in without_place {
        assert_eq!(Refusal::from_parts(number, 0), Some(refusal));
        assert_eq!((refusal.number(), refusal.place()), (number, None));
    }
    for place in [0, 7] {
        assert_eq!(Refusal::from_parts(0, place), None);
    }
}

#[test]
fn numbers_of_later_versions() {
    for number in [4_000, u32::MAX] {
        for place in [0, 7] {
            let refusal = Refusal::from_parts(number, place).expect("not 0");
            assert!(matches!(refusal, Refusal::Other { .. }));
            assert_eq!(refusal.number(), number);
            assert_eq!(refusal.place(), (place != 0).then_some(place));
        }
    }
}

#[test]
fn refusals_are_errors_with_a_sentence() {
    let error: Box<dyn Error> = Box::new(Refusal::DuplicatePlate { record: 5 });
    assert_eq!(
        error.to_string(),
        "record 5: an earlier taxon has the same plate"
    );
    let count = Refusal::CountTooLarge.to_string();
    assert_eq!(count, "the page count is above 4096 quarters");
    let text = Refusal::BadText.to_string();
    assert_eq!(
        text,
        "the text is no tree in Newick form, or has more than 16384 bytes"
    );
    let pairs = Refusal::BadPairs.to_string();
    assert_eq!(
        pairs,
        "a taxon has no price or more than one, or a price is for a plate that no taxon has"
    );
    let locked = Refusal::LockedTooDear.to_string();
    assert_eq!(
        locked,
        "the locked taxa, with the headings above them, cost more than the page count"
    );
    let unwritable = Refusal::Unwritable { record: 2 }.to_string();
    assert_eq!(
        unwritable,
        "record 2: it has a heading's price, a lock or a plate of more than 9 digits, for which \
         a text has no form"
    );
    let mark = Refusal::BadMarks { record: Some(2) }.to_string();
    assert_eq!(
        mark,
        "record 2: its mark is neither 0 nor 1, or is 1 at a group"
    );
    let marks = Refusal::BadMarks { record: None }.to_string();
    assert_eq!(marks, "there are fewer marks than records");
    let picks = Refusal::TooManyPicks.to_string();
    assert_eq!(picks, "more than 64 picks are asked for");
    let revision = Refusal::BadRevision.to_string();
    assert_eq!(
        revision,
        "there is no record of the number to revise, or its new length is above 1000000"
    );
    let later = |place| Refusal::from_parts(4_000, place).map(|refusal| refusal.to_string());
    let sentence = "refusal 4000, which these bindings do not know";
    assert_eq!(later(0).as_deref(), Some(sentence));
    assert_eq!(later(7), Some(format!("record 7: {sentence}")));
}

#[test]
fn a_bad_range_has_a_sentence_with_and_without_a_record() {
    let record = Refusal::BadRange { record: Some(2) }.to_string();
    assert_eq!(
        record,
        "record 2: it differs in something else than its price, or its low price is above its \
         high one"
    );
    let records = Refusal::BadRange { record: None }.to_string();
    assert_eq!(
        records,
        "the outlines with low and high prices have different numbers of records"
    );
}
