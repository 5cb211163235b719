//! The sheet: what each taxon of a set adds, sets marked by hand, the sums of a choice, bad marks,
//! and the buffers.

use crate::support::{self, bytes, chain, changed, cost, headed_a, locked_a, outline, outlines};
use crate::support::{pairs, sound, star, star_records, tree_a, Draw};
use crate::support::{INTERLEAVED, LOCK, TREE_A, WAYS};
use plates::{sys, Outline, Record, Refusal, Row, Sheet, Tree, Way};
use plates::{MOST_COUNT, MOST_PLATE, MOST_RECORDS, MOST_TAXA};
use std::thread;

/// The marks of plates 11 and 13 of tree A.
const MARKS_A: [u8; 5] = [0, 0, 1, 0, 1];
const SHEET_A: [u32; 6] = [11, 3, 7, 13, 2, 5];

/// A mark for each record, 1 for these plates.
fn marks(outline: &Outline, plates: &[u32]) -> Vec<u8> {
    let records = outline.records();
    records
        .map(|record| u8::from(plates.contains(&record.plate)))
        .collect()
}

fn listed(outline: &Outline, plates: &[u32], way: Way) -> Sheet {
    let marks = marks(outline, plates);
    outline.sheet(&marks, way).expect("the marks are sound")
}

/// Plate, quarters and diversity of each row.
fn rows(sheet: &Sheet) -> Vec<[u32; 3]> {
    let rows = sheet.rows().iter();
    rows.map(|row| [row.plate, row.quarters, row.diversity])
        .collect()
}

fn sums(sheet: &Sheet) -> (u32, u32) {
    (sheet.quarters(), sheet.diversity())
}

/// The rows by the definitions: of each taxon, what the set up to it has more than the one before.
fn expected_rows(outline: &Outline, taxa: &[Record], way: Way) -> Vec<Row> {
    let (mut quarters, mut diversity) = (0, 0);
    let row = |k: usize| {
        let before = (quarters, diversity);
        let set = &taxa[..=k];
        (quarters, diversity) = (cost(outline, set), support::diversity(outline, set, way));
        Row {
            plate: taxa[k].plate,
            quarters: quarters - before.0,
            diversity: diversity - before.1,
        }
    };
    (0..taxa.len()).map(row).collect()
}

#[test]
fn tree_a_rooted() {
    let sheet = listed(&tree_a(), &[11, 13], Way::Rooted);
    assert_eq!(rows(&sheet), [[11, 3, 7], [13, 2, 5]]);
    assert_eq!(sums(&sheet), (5, 12));
    let all = listed(&tree_a(), &[11, 12, 13], Way::Rooted);
    assert_eq!(rows(&all), [[11, 3, 7], [12, 1, 2], [13, 2, 5]]);
    assert_eq!(sums(&all), (6, 14));
}

#[test]
fn tree_a_unrooted() {
    let sheet = listed(&tree_a(), &[11, 13], Way::Unrooted);
    assert_eq!(rows(&sheet), [[11, 3, 0], [13, 2, 12]]);
    assert_eq!(sums(&sheet), (5, 12));
    // group 2 is between the taxa from the third on
    let all = listed(&tree_a(), &[11, 12, 13], Way::Unrooted);
    assert_eq!(rows(&all), [[11, 3, 0], [12, 1, 6], [13, 2, 8]]);
    assert_eq!(sums(&all), (6, 14));
}

#[test]
fn lines_are_those_of_the_listing() {
    let sheet = listed(&tree_a(), &[11, 13], Way::Rooted);
    assert_eq!(sheet.to_string(), "11 3 7\n13 2 5\ntotal 5 12");
    let nothing = listed(&tree_a(), &[], Way::Rooted);
    assert_eq!(nothing.to_string(), "total 0 0");
}

#[test]
fn nothing_marked_has_no_rows() {
    for outline in outlines() {
        for way in WAYS {
            let sheet = listed(&outline, &[], way);
            assert_eq!((sheet.rows(), sums(&sheet)), (&[][..], (0, 0)));
        }
    }
}

#[test]
fn one_taxon_adds_what_is_above_it() {
    let outline = sound(headed_a(1, 2));
    for (plate, quarters, diversity) in [(11, 6, 7), (12, 4, 5), (13, 3, 5)] {
        let rooted = listed(&outline, &[plate], Way::Rooted);
        assert_eq!(rows(&rooted), [[plate, quarters, diversity]]);
        let unrooted = listed(&outline, &[plate], Way::Unrooted);
        assert_eq!(rows(&unrooted), [[plate, quarters, 0]]);
    }
    let root = sound(Tree::taxon(9, 5, 1));
    let [rooted, unrooted] = WAYS.map(|way| rows(&listed(&root, &[9], way)));
    assert_eq!((rooted, unrooted), (vec![[9, 1, 5]], vec![[9, 1, 0]]));
}

#[test]
fn headings_are_charged_to_the_first_taxon_below_them() {
    let sheet = listed(&sound(headed_a(0, 2)), &[11, 13], Way::Rooted);
    assert_eq!(rows(&sheet), [[11, 5, 7], [13, 2, 5]]);
    assert_eq!(sums(&sheet), (7, 12));
    let outline = sound(headed_a(1, 2));
    let quarters = |plates| -> Vec<u32> {
        let [rooted, unrooted] = WAYS.map(|way| listed(&outline, plates, way));
        let quarters = rooted.rows().iter().map(|row| row.quarters);
        assert_eq!(rooted.quarters(), quarters.clone().sum());
        assert!(quarters
            .clone()
            .eq(unrooted.rows().iter().map(|row| row.quarters)));
        quarters.collect()
    };
    assert_eq!(quarters(&[11, 12, 13]), [6, 1, 2]);
    assert_eq!(quarters(&[12, 13]), [4, 2]);
    assert_eq!(quarters(&[13]), [3]);
}

#[test]
fn rows_stand_in_record_order() {
    let mut records = INTERLEAVED;
    (records[0][3], records[1][3], records[2][3]) = (5, 6, 7);
    let outline = outline(&records);
    // given in another order
    let plates = [107, 104, 106, 105];
    let rooted = listed(&outline, &plates, Way::Rooted);
    let expected = [[104, 12, 70], [105, 9, 80], [106, 3, 60], [107, 4, 70]];
    assert_eq!(rows(&rooted), expected);
    assert_eq!(sums(&rooted), (28, 280));
    let unrooted = listed(&outline, &plates, Way::Unrooted);
    let expected = [[104, 12, 0], [105, 9, 140], [106, 3, 60], [107, 4, 70]];
    assert_eq!(rows(&unrooted), expected);
    assert_eq!(sums(&unrooted), (28, 270));
}

#[test]
fn plates_have_no_lock() {
    let free = tree_a();
    for locked in [&[11][..], &[13], &[11, 12, 13]] {
        let outline = sound(locked_a(0, 0, locked));
        for way in WAYS {
            let sheet = listed(&outline, &[11, 13], way);
            assert_eq!(sheet, listed(&free, &[11, 13], way));
        }
    }
    let largest = outline(&changed(5, 4, LOCK | MOST_PLATE));
    let sheet = listed(&largest, &[MOST_PLATE], Way::Rooted);
    assert_eq!(rows(&sheet), [[MOST_PLATE, 2, 5]]);
}

#[test]
fn locked_taxa_may_be_left_out() {
    let outline = sound(locked_a(1, 2, &[11]));
    let sheet = listed(&outline, &[12, 13], Way::Rooted);
    assert_eq!(rows(&sheet), [[12, 4, 5], [13, 2, 5]]);
    assert_eq!(sums(&listed(&outline, &[], Way::Rooted)), (0, 0));
}

#[test]
fn sets_that_fit_no_count_are_listed() {
    let dear = sound(star(&[(1, 65_535), (2, 65_535)]));
    let sheet = listed(&dear, &[1, 2], Way::Rooted);
    assert_eq!(rows(&sheet), [[1, 65_535, 1], [2, 65_535, 2]]);
    assert!(sheet.quarters() > MOST_COUNT);
}

#[test]
fn the_largest_sums_are_listed() {
    // groups one in the other, and in the innermost as many taxa as can be: 127 records
    let taxa = (1..=64).map(|plate| Tree::taxon(plate, 1_000_000, 65_535));
    let innermost = Tree::headed_group(1_000_000, 65_535, taxa);
    let tree = (0..62).fold(innermost, |below, _| {
        Tree::headed_group(1_000_000, 65_535, [below])
    });
    let outline = sound(tree);
    let plates: Vec<u32> = (1..=64).collect();
    let rooted = listed(&outline, &plates, Way::Rooted);
    assert_eq!(rows(&rooted)[0], [1, 64 * 65_535, 64_000_000]);
    assert_eq!(rows(&rooted)[63], [64, 65_535, 1_000_000]);
    assert_eq!(sums(&rooted), (127 * 65_535, 127_000_000));
    let unrooted = listed(&outline, &plates, Way::Unrooted);
    assert_eq!(rows(&unrooted)[1], [2, 65_535, 2_000_000]);
    assert_eq!(sums(&unrooted), (127 * 65_535, 64_000_000));
}

#[test]
fn rows_are_what_each_taxon_adds() {
    let draw = &mut Draw(1);
    let drawn = (0..10).map(|_| draw.outline(5));
    let small = outlines()
        .into_iter()
        .filter(|outline| outline.taxa().count() < 6);
    for outline in small.chain(drawn) {
        let taxa: Vec<Record> = outline.taxa().collect();
        for set in 0..1_u32 << taxa.len() {
            let chosen = (0..).zip(&taxa).filter(|(bit, _)| set >> bit & 1 == 1);
            let chosen: Vec<Record> = chosen.map(|(_, taxon)| *taxon).collect();
            let plates: Vec<u32> = chosen.iter().map(|taxon| taxon.plate).collect();
            for way in WAYS {
                let sheet = listed(&outline, &plates, way);
                let expected = expected_rows(&outline, &chosen, way);
                assert_eq!(sheet.rows(), expected);
                let quarters: u32 = expected.iter().map(|row| row.quarters).sum();
                let diversity: u32 = expected.iter().map(|row| row.diversity).sum();
                assert_eq!(sums(&sheet), (quarters, diversity));
            }
        }
    }
}

#[test]
fn sums_are_those_of_the_choice() {
    let draw = &mut Draw(2);
    let drawn = (0..200).map(|_| draw.outline(12));
    let mut choices = 0;
    for outline in outlines().into_iter().chain(drawn) {
        for way in WAYS {
            for count in [0, 3, 7, 12, 40] {
                let Ok(choice) = outline.choose(count, way) else {
                    continue;
                };
                choices += 1;
                let sheet = outline.sheet(choice.marks(), way).unwrap();
                assert_eq!(sums(&sheet), (choice.cost(), choice.diversity()));
                let of_sheet = sheet.rows().iter().map(|row| row.plate);
                assert!(of_sheet.eq(choice.taxa().iter().map(|taxon| taxon.plate)));
                let quarters: u32 = sheet.rows().iter().map(|row| row.quarters).sum();
                let diversity: u32 = sheet.rows().iter().map(|row| row.diversity).sum();
                assert_eq!((quarters, diversity), sums(&sheet));
            }
        }
    }
    assert!(choices > 1_000, "{choices}");
}

#[test]
fn fewer_marks_than_records_are_refused() {
    let refusal = Refusal::BadMarks { record: None };
    for marks in [&[][..], &[0; 4], &[0, 0, 1, 0], &[9, 1, 2, 0]] {
        for way in WAYS {
            assert_eq!(tree_a().sheet(marks, way), Err(refusal));
        }
    }
}

#[test]
fn the_lowest_bad_mark_is_told() {
    let cases = [
        ([1, 0, 0, 0, 0], 1),
        ([0, 1, 0, 0, 0], 2),
        ([0, 0, 2, 0, 0], 3),
        ([0, 0, 1, 255, 0], 4),
        ([0, 0, 1, 0, 3], 5),
        ([2, 0, 0, 0, 0], 1),
        ([0, 1, 2, 3, 4], 2),
        ([0, 0, 0, 2, 2], 4),
    ];
    for (marks, place) in cases {
        let refusal = Refusal::BadMarks {
            record: Some(place),
        };
        for way in WAYS {
            assert_eq!(tree_a().sheet(&marks, way), Err(refusal));
        }
    }
}

#[test]
fn marks_after_the_records_make_no_difference() {
    let marks = [&MARKS_A[..], &[1, 2, 255]].concat();
    for way in WAYS {
        let sheet = tree_a().sheet(&marks, way);
        assert_eq!(sheet, tree_a().sheet(&MARKS_A, way));
    }
}

#[test]
fn outline_and_marks_may_be_the_same_memory() {
    let outline = sound(Tree::group(0, [Tree::taxon(7, 5, 1)]));
    // the first two bytes are 0; the last of the taxon's length is 0, and the next its price
    for (from, expected) in [(0, vec![]), (23, vec![[7, 1, 5]])] {
        let marks = &outline.as_bytes()[from..];
        let sheet = outline.sheet(marks, Way::Rooted).unwrap();
        assert_eq!(rows(&sheet), expected);
    }
    let refused = tree_a();
    let refused = refused.sheet(refused.as_bytes(), Way::Rooted);
    assert_eq!(refused, Err(Refusal::BadMarks { record: Some(3) }));
}

#[test]
fn the_deepest_outline_needs_little_stack() {
    let deepest = sound(chain(MOST_RECORDS));
    let run = move || WAYS.map(|way| rows(&listed(&deepest, &[1], way)));
    let small = thread::Builder::new().stack_size(64 * 1024);
    let [rooted, unrooted] = small.spawn(run).unwrap().join().unwrap();
    assert_eq!((rooted, unrooted), (vec![[1, 1, 127]], vec![[1, 1, 0]]));
}

/// What stands in a sheet before a call.
const BEFORE: u32 = 0xa5a5_a5a5;

/// The answer of a call.
fn call(outline: &[u8], way: u32, marks: &[u8], sheet: &mut [u32]) -> [u32; 5] {
    let mut answer = [BEFORE; 5];
    // SAFETY: each pointer and the length after it are those of one slice, answer has five numbers,
    // and neither sheet nor answer overlaps the other or what is read.
    let number = unsafe {
        sys::plates_sheet(
            outline.as_ptr(),
            outline.len(),
            way,
            marks.as_ptr(),
            marks.len(),
            sheet.as_mut_ptr(),
            sheet.len(),
            answer.as_mut_ptr(),
        )
    };
    assert_eq!(number, answer[0]);
    answer
}

/// Number and place of a call that is refused, which leaves the sheet as it was and gives no sums.
fn refused(outline: &[u8], way: u32, marks: &[u8], sheet: usize) -> [u32; 2] {
    let mut buffer = vec![BEFORE; sheet];
    let [number, place, rest @ ..] = call(outline, way, marks, &mut buffer);
    assert_ne!(number, 0);
    assert_eq!(rest, [0; 3]);
    assert_eq!(buffer, vec![BEFORE; sheet]);
    [number, place]
}

#[test]
fn sheets_too_short_are_refused_and_untouched() {
    for len in [0, 1, 3, 5] {
        assert_eq!(refused(&bytes(&TREE_A), 0, &MARKS_A, len), [9, 0]);
    }
    let full = sound(pairs(6, 3, 1));
    let plates: Vec<u32> = (1..=64).collect();
    let marks = marks(&full, &plates);
    let enough = sys::sheet_len(MOST_TAXA);
    assert_eq!(refused(full.as_bytes(), 1, &marks, enough - 1), [9, 0]);
    let answer = call(full.as_bytes(), 1, &marks, &mut vec![BEFORE; enough]);
    assert_eq!(answer, [0, 0, 64, 192, 126]);
}

#[test]
fn longer_sheets_keep_the_rest() {
    for more in [0, 1, 100] {
        let mut sheet = vec![BEFORE; SHEET_A.len() + more];
        let answer = call(&bytes(&TREE_A), 0, &MARKS_A, &mut sheet);
        assert_eq!(answer, [0, 0, 2, 5, 12]);
        assert_eq!(sheet[..SHEET_A.len()], SHEET_A);
        assert_eq!(sheet[SHEET_A.len()..], vec![BEFORE; more]);
    }
}

#[test]
fn nothing_marked_needs_no_sheet() {
    for way in [0, 1] {
        let answer = call(&bytes(&TREE_A), way, &[0; 5], &mut []);
        assert_eq!(answer, [0; 5]);
    }
}

#[test]
fn refusals_leave_the_sheet_and_give_no_sums() {
    let many = vec![[0; 5]; MOST_RECORDS + 1];
    let cases = [
        (bytes(&[]), [2, 0]),
        (bytes(&TREE_A)[1..].to_vec(), [2, 0]),
        (bytes(&many), [3, 0]),
        (bytes(&changed(4, 2, 1_000_001)), [5, 4]),
        (bytes(&changed(3, 0, 6)), [6, 3]),
        (bytes(&star_records(65)), [7, 0]),
        (bytes(&changed(5, 4, 11)), [8, 5]),
    ];
    for (outline, expected) in cases {
        // they come before bad marks, and these before a sheet that is too short
        for marks in [&[][..], &[2; 200], &[0; 200]] {
            for len in [0, 200] {
                assert_eq!(refused(&outline, 1, marks, len), expected);
                assert_eq!(refused(&outline, 2, marks, len), [1, 0]);
            }
        }
    }
}

#[test]
fn bad_marks_are_judged_before_9() {
    let cases: [(&[u8], [u32; 2]); 4] = [
        (&[0, 0, 1, 1], [14, 0]),
        (&[0, 1, 1, 1, 1], [14, 2]),
        (&[0, 0, 1, 1, 2], [14, 5]),
        (&[0, 0, 1, 1, 1], [9, 0]),
    ];
    for (marks, expected) in cases {
        for way in [0, 1] {
            assert_eq!(refused(&bytes(&TREE_A), way, marks, 0), expected);
        }
        for way in [2, u32::MAX] {
            assert_eq!(refused(&bytes(&TREE_A), way, marks, 0), [1, 0]);
        }
    }
}
