//! What readers get: a house reader all of an outline, a buyer's reader no prices and no locks,
//! whatever these were; the refusals, and the buffers.

use crate::support::{bytes, changed, faulty, headed_a, locked_a, outline, outlines, plates};
use crate::support::{sound, star_records, tree_a, Draw, Fields, LOCK, TREE_A, WAYS};
use plates::{sys, view_buyer, view_house, Outline, Record, Refusal};
use plates::{MOST_PLATE, RECORD_BYTES};

/// Tree A as a buyer's reader gets it.
const BUYERS_A: [Fields; 5] = [
    [0, 2, 0, 0, 0],
    [5, 3, 3, 0, 0],
    [4, 0, 4, 0, 11],
    [0, 0, 2, 0, 12],
    [0, 0, 5, 0, 13],
];

/// What stands in a view before a call.
const BEFORE: u8 = 0xa5;

type View = fn(&[u8], &mut [u8]) -> Result<(), Refusal>;

const VIEWS: [View; 2] = [view_house, view_buyer];

/// The whole of a view that is longer than the outline by so many bytes.
fn viewed(view_of: View, outline: &[u8], more: usize) -> Vec<u8> {
    let mut view = vec![BEFORE; outline.len() + more];
    view_of(outline, &mut view).expect("the outline is sound, and the view has room");
    view
}

/// The refusal of a view of so many bytes, which is left as it was.
fn refused(view_of: View, outline: &[u8], len: usize) -> Refusal {
    let mut view = vec![BEFORE; len];
    let refusal = view_of(outline, &mut view).expect_err("the call is refused");
    assert_eq!(view, vec![BEFORE; len]);
    refusal
}

/// The outlines that several tests use, and drawn ones, with headings and locks among them.
fn samples(draw: &mut Draw) -> Vec<Outline> {
    let drawn = (0..100).map(|_| draw.outline(12));
    outlines().into_iter().chain(drawn).collect()
}

/// The same tree with other prices and other locks.
fn repriced(tree: &Outline, draw: &mut Draw) -> Outline {
    let fields = |record: Record| {
        let lock = if record.is_taxon() { draw.below(2) } else { 0 };
        let plate_field = (lock * LOCK) | record.plate;
        let price = draw.below(65_536);
        [record.next, record.first, record.length, price, plate_field]
    };
    let records: Vec<Fields> = tree.records().map(fields).collect();
    outline(&records)
}

#[test]
fn a_house_reader_gets_the_records_as_they_are() {
    for outline in samples(&mut Draw(1)) {
        let view = viewed(view_house, outline.as_bytes(), 0);
        assert_eq!(view, outline.as_bytes());
    }
}

#[test]
fn a_buyers_reader_gets_no_prices_and_no_locks() {
    let hidden = |record: Record| Record {
        price: 0,
        locked: false,
        ..record
    };
    for outline in samples(&mut Draw(2)) {
        let expected: Vec<Record> = outline.records().map(hidden).collect();
        let view = outline.for_buyer();
        assert_eq!(view.records().collect::<Vec<_>>(), expected);
        let lent = viewed(view_buyer, outline.as_bytes(), 0);
        assert_eq!(lent, view.as_bytes());
    }
}

#[test]
fn tree_a_for_a_buyer() {
    let locked: [&[u32]; 4] = [&[], &[11], &[12, 13], &[11, 12, 13]];
    for locked in locked {
        for (root, group) in [(0, 0), (0, 2), (1, 0), (65_535, 65_535)] {
            let view = sound(locked_a(root, group, locked)).for_buyer();
            assert_eq!(view.as_bytes(), bytes(&BUYERS_A));
        }
    }
}

#[test]
fn all_bits_of_the_price_and_one_of_the_plate_field_are_cleared() {
    for plate in [1, MOST_PLATE] {
        let largest = [0, 0, 1_000_000, 65_535, LOCK | plate];
        let view = outline(&[largest]).for_buyer();
        assert_eq!(view.as_bytes(), bytes(&[[0, 0, 1_000_000, 0, plate]]));
    }
}

#[test]
fn lengths_plates_and_links_are_not_hidden() {
    let mut views = vec![tree_a().for_buyer()];
    let moved = [
        [0, 2, 0, 0, 0],
        [3, 4, 3, 0, 0],
        [0, 0, 5, 2, 13],
        [5, 0, 4, 3, 11],
        [0, 0, 2, 1, 12],
    ];
    let others = [changed(2, 2, 4), changed(4, 4, 14), moved.to_vec()];
    for records in others {
        let view = outline(&records).for_buyer();
        assert!(!views.contains(&view));
        views.push(view);
    }
}

#[test]
fn other_prices_and_locks_give_a_buyer_the_same() {
    let draw = &mut Draw(3);
    for outline in samples(draw) {
        let other = repriced(&outline, draw);
        assert_ne!(other, outline);
        assert_eq!(other.for_buyer(), outline.for_buyer());
        let [one, two] = [&outline, &other].map(|of| viewed(view_buyer, of.as_bytes(), 100));
        assert_eq!(one, two);
    }
}

#[test]
fn the_views_own_length_and_bytes_make_no_difference() {
    let draw = &mut Draw(4);
    for outline in samples(draw) {
        let other = repriced(&outline, draw);
        let exact = viewed(view_buyer, outline.as_bytes(), 0);
        let mut longer = vec![0x5a; exact.len() + 7];
        view_buyer(other.as_bytes(), &mut longer).unwrap();
        assert_eq!(longer[..exact.len()], exact);
        assert_eq!(longer[exact.len()..], [0x5a; 7]);
    }
}

#[test]
fn a_buyers_view_is_sound() {
    for outline in samples(&mut Draw(5)) {
        let view = outline.for_buyer();
        assert_eq!(Outline::from_bytes(view.as_bytes()), Ok(view.clone()));
        assert_eq!(view.for_buyer(), view);
        assert_eq!(viewed(view_house, view.as_bytes(), 0), view.as_bytes());
    }
}

#[test]
fn a_buyers_plates_are_found_where_they_were() {
    for outline in samples(&mut Draw(6)) {
        let view = outline.for_buyer();
        for taxon in outline.taxa() {
            let found = view.find(taxon.plate).expect("the plate is kept");
            assert_eq!(found.number, taxon.number);
            assert!(!found.locked);
            assert_eq!(view.find(LOCK | taxon.plate), None);
        }
        assert_eq!(view.taxa().count(), outline.taxa().count());
    }
}

#[test]
fn every_taxon_is_chosen_from_a_buyers_view() {
    for outline in samples(&mut Draw(7)) {
        let view = outline.for_buyer();
        let all: Vec<u32> = outline.taxa().map(|taxon| taxon.plate).collect();
        for way in WAYS {
            for count in [0, 40] {
                let choice = view.choose(count, way).unwrap();
                assert_eq!(plates(&choice), all);
                assert_eq!((choice.cost(), choice.spare()), (0, count));
            }
        }
    }
}

#[test]
fn a_buyers_sheet_has_no_quarters() {
    let outline = sound(locked_a(1, 2, &[13]));
    let view = outline.for_buyer();
    for (way, rows) in WAYS.into_iter().zip(["11 0 7\n13 0 5", "11 0 0\n13 0 12"]) {
        let sheet = view.sheet(&[0, 0, 1, 0, 1], way).unwrap();
        assert_eq!(sheet.to_string(), format!("{rows}\ntotal 0 12"));
    }
}

#[test]
fn a_buyers_view_has_a_text() {
    let headed = sound(headed_a(0, 2));
    let locked = tree_a().with_locked([12]).unwrap();
    for (outline, record) in [(headed, 2), (locked, 4)] {
        assert_eq!(outline.to_newick(), Err(Refusal::Unwritable { record }));
        let newick = outline.for_buyer().to_newick().unwrap();
        assert_eq!(newick.text, "((11:4,12:2):3,13:5):0;");
        assert_eq!(newick.prices, [(11, 0), (12, 0), (13, 0)]);
    }
}

#[test]
fn views_too_short_are_refused_and_untouched() {
    for outline in outlines() {
        let needed = outline.as_bytes().len();
        for len in [0, 1, needed - RECORD_BYTES, needed - 1] {
            for view_of in VIEWS {
                let refusal = refused(view_of, outline.as_bytes(), len);
                assert_eq!(refusal, Refusal::BufferTooShort);
            }
        }
    }
    assert_eq!(
        Refusal::BufferTooShort.to_string(),
        "marks, curve, work, outline, text, pairs, sheet, view or house form is too short"
    );
}

#[test]
fn longer_views_keep_the_rest() {
    let locked = bytes(&changed(5, 4, LOCK | 13));
    for more in [0, 1, RECORD_BYTES, 3_000] {
        for (view_of, expected) in VIEWS.into_iter().zip([&locked, &bytes(&BUYERS_A)]) {
            let view = viewed(view_of, &locked, more);
            assert_eq!(view[..80], expected[..]);
            assert_eq!(view[80..], vec![BEFORE; more]);
        }
    }
}

#[test]
fn both_readers_are_refused_alike_before_9() {
    for (outline, refusal) in faulty() {
        for view_of in VIEWS {
            for len in [0, 15, 3_000] {
                assert_eq!(refused(view_of, &outline, len), refusal);
            }
        }
    }
}

#[test]
fn the_first_that_holds_is_given() {
    // each has wrong what is judged later, too
    let mut records = star_records(65);
    records[65] = [1, 0, 1, 1, 1];
    let broken = bytes(&records);
    records[64][3] = 65_536;
    let out_of_range = bytes(&records);
    let mut twins = star_records(65);
    twins[65][4] = 1;
    let cases = [
        (out_of_range.repeat(2)[1..].to_vec(), Refusal::PartialRecord),
        (out_of_range.repeat(2), Refusal::TooManyRecords),
        (out_of_range, Refusal::FieldOutOfRange { record: 65 }),
        (broken, Refusal::BadLink { record: 66 }),
        (bytes(&twins), Refusal::TooManyTaxa),
    ];
    for (outline, refusal) in cases {
        for view_of in VIEWS {
            assert_eq!(refused(view_of, &outline, 0), refusal);
        }
    }
}

#[test]
fn a_refusal_may_depend_on_a_price() {
    for record in 1..=5 {
        let sound = bytes(&changed(record, 3, 65_535));
        assert_eq!(viewed(view_buyer, &sound, 0), bytes(&BUYERS_A));
        let dear = bytes(&changed(record, 3, 65_536));
        let refusal = Refusal::FieldOutOfRange {
            record: record as u32,
        };
        assert_eq!(refused(view_buyer, &dear, 100), refusal);
    }
}

/// The answer of a call of the C interface, which gives its number too.
fn answered(buyer: bool, outline: &[u8], view: &mut [u8]) -> [u32; 2] {
    let view_of = if buyer {
        sys::plates_view_buyer
    } else {
        sys::plates_view_house
    };
    let mut answer = [0xa5a5_a5a5; 2];
    // SAFETY: each pointer and the length after it are those of one slice, answer has two numbers,
    // and no two overlap.
    let number = unsafe {
        view_of(
            outline.as_ptr(),
            outline.len(),
            view.as_mut_ptr(),
            view.len(),
            answer.as_mut_ptr(),
        )
    };
    assert_eq!(number, answer[0]);
    answer
}

#[test]
fn number_and_place_are_given_in_any_case() {
    let whole = bytes(&TREE_A);
    for buyer in [false, true] {
        assert_eq!(answered(buyer, &whole, &mut [BEFORE; 80]), [0, 0]);
        assert_eq!(answered(buyer, &whole, &mut [BEFORE; 79]), [9, 0]);
        for (outline, refusal) in faulty() {
            let expected = [refusal.number(), refusal.place().unwrap_or(0)];
            assert_eq!(answered(buyer, &outline, &mut [BEFORE; 3_000]), expected);
        }
    }
}
