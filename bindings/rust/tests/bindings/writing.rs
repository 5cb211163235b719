//! Outlines as text: the spelling, reading it back, what has no form in a text, and the buffers.

use crate::support::{bytes, chain, changed, headed_a, locked_a, outline, pairs, sound, star};
use crate::support::{star_records, tree_a, Fields, INTERLEAVED, LOCK, PRICES_A, TREE_A};
use plates::{sys, Newick, Outline, Refusal, Tree};
use plates::{MOST_PLATE, MOST_RECORDS, MOST_TAXA, RECORD_BYTES};
use std::thread;

const WRITTEN_A: &str = "((11:4,12:2):3,13:5):0;";
const PAIRS_A: [u32; 6] = [11, 3, 12, 1, 13, 2];

fn written(outline: &Outline) -> Newick {
    outline.to_newick().expect("the outline has a text")
}

fn read(newick: &Newick) -> Outline {
    let prices = newick.prices.iter().copied();
    Outline::from_newick(&newick.text, prices).expect("what is written is read")
}

/// What is written for a text whose taxa have price 1.
fn respelled(text: &str, plates: &[u32]) -> String {
    let prices = plates.iter().map(|&plate| (plate, 1));
    let outline = Outline::from_newick(text, prices).expect("the text is sound");
    written(&outline).text
}

#[test]
fn tree_a_as_text() {
    let newick = written(&tree_a());
    assert_eq!(newick.text, WRITTEN_A);
    assert_eq!(newick.prices, PRICES_A);
    assert_eq!(newick.to_string(), WRITTEN_A);
}

#[test]
fn a_taxon_alone_and_groups_of_one() {
    let taxon = Tree::taxon(7, 5, 65_535);
    let alone = written(&sound(taxon.clone()));
    assert_eq!(alone.text, "7:5;");
    assert_eq!(alone.prices, [(7, 65_535)]);
    let groups = Tree::group(0, [Tree::group(3, [taxon])]);
    assert_eq!(written(&sound(groups)).text, "((7:5):3):0;");
}

#[test]
fn blanks_and_leading_zeros_vanish() {
    let spelled = " (\t(\r\n11 : 4 ,\n000000012:0002\t)\r:30 , 013\n:\n500 ) :00 \t; \r\n\t ";
    assert_eq!(
        respelled(spelled, &[11, 12, 13]),
        "((11:4,12:2):30,13:500):0;"
    );
}

#[test]
fn every_length_is_shown() {
    assert_eq!(respelled("7;", &[7]), "7:0;");
    let spelled = "((1,2:5),3:0):6;";
    assert_eq!(respelled(spelled, &[1, 2, 3]), "((1:0,2:5):0,3:0):6;");
}

#[test]
fn members_are_written_by_their_links() {
    let newick = written(&outline(&INTERLEAVED));
    assert_eq!(newick.text, "((104:40,106:60):20,(105:50,107:70):30):10;");
    assert_eq!(newick.prices, [(104, 1), (106, 3), (105, 2), (107, 4)]);
}

#[test]
fn records_in_another_order_are_numbered_anew() {
    let newick = written(&outline(&INTERLEAVED));
    let again = read(&newick);
    let plates: Vec<u32> = again.records().map(|record| record.plate).collect();
    assert_eq!(plates, [0, 0, 104, 106, 0, 105, 107]);
    assert_eq!(written(&again), newick);
}

#[test]
fn records_in_text_order_come_back() {
    let uneven = [
        Tree::taxon(5, 0, 0),
        pairs(2, 9, 6),
        star(&[(8, 2), (0, 1)]),
    ];
    let outlines = [
        Tree::taxon(1, 0, 0),
        Tree::group(1_000_000, uneven),
        pairs(6, 3, 1),
        star(&[(10, 100); MOST_TAXA]),
        chain(MOST_RECORDS),
    ];
    for outline in outlines.map(sound) {
        assert_eq!(read(&written(&outline)), outline);
    }
    assert_eq!(read(&written(&tree_a())), tree_a());
}

#[test]
fn the_longest_numbers_are_written_and_read() {
    // 18 bytes for each taxon and 10 for each group; the semicolon has the place of a last comma
    for (levels, len) in [(0, 18), (1, 2 * 18 + 10), (6, 64 * 18 + 63 * 10)] {
        let short = written(&sound(pairs(levels, 65_535, 999_999_936)));
        let long = Newick {
            text: short.text.replace(":1", ":1000000"),
            prices: short.prices,
        };
        let outline = read(&long);
        assert_eq!(written(&outline), long);
        assert_eq!(long.text.len(), len);
        assert_eq!(
            len,
            sys::written_len(outline.records().len(), outline.taxa().count())
        );
    }
}

#[test]
fn what_has_no_form_in_a_text_is_refused_at_its_record() {
    let cases = [
        (sound(headed_a(1, 0)), 1),
        (sound(headed_a(0, 65_535)), 2),
        (sound(locked_a(0, 0, &[11])), 3),
        (sound(locked_a(0, 0, &[12])), 4),
        (outline(&changed(5, 4, 1_000_000_000)), 5),
        (outline(&changed(3, 4, MOST_PLATE)), 3),
        (outline(&changed(4, 4, LOCK | MOST_PLATE)), 4),
    ];
    for (outline, record) in cases {
        assert_eq!(outline.to_newick(), Err(Refusal::Unwritable { record }));
    }
    let largest = outline(&changed(5, 4, 999_999_999));
    assert_eq!(written(&largest).text, "((11:4,12:2):3,999999999:5):0;");
}

#[test]
fn the_lowest_record_of_the_three_causes_is_told() {
    let mut faults = [
        Tree::headed_group(1, 1, [Tree::taxon(1, 1, 1)]),
        Tree::locked_taxon(2, 1, 1),
        Tree::taxon(1_000_000_000, 1, 1),
    ];
    // each comes first in turn, behind a taxon that could be written
    for _ in 0..3 {
        let members = [Tree::taxon(3, 1, 1)].into_iter().chain(faults.clone());
        let outline = sound(Tree::group(0, members));
        let refusal = Refusal::Unwritable { record: 3 };
        assert_eq!(outline.to_newick(), Err(refusal));
        faults.rotate_left(1);
    }
}

#[test]
fn locks_cleared_in_a_copy_are_no_hindrance() {
    let locked = sound(locked_a(0, 0, &[12]));
    let mut copy = locked.as_bytes().to_vec();
    copy[4 * RECORD_BYTES - 1] &= 0x7f;
    let free = Outline::from_bytes(&copy).unwrap();
    assert_eq!(written(&free).text, WRITTEN_A);
}

#[test]
fn the_deepest_outline_needs_little_stack() {
    let deepest = sound(chain(MOST_RECORDS));
    let run = move || written(&deepest).text;
    let small = thread::Builder::new().stack_size(64 * 1024);
    let text = small.spawn(run).unwrap().join().unwrap();
    let groups = MOST_RECORDS - 1;
    let expected = format!("{}1:1{};", "(".repeat(groups), "):1".repeat(groups));
    assert_eq!(text, expected);
}

/// The buffers of a call, each full of a value before.
#[derive(Debug, PartialEq)]
struct Buffers {
    text: Vec<u8>,
    pairs: Vec<u32>,
}

impl Buffers {
    fn new(text: usize, pairs: usize) -> Buffers {
        Buffers {
            text: vec![0xa5; text],
            pairs: vec![0xa5a5_a5a5; pairs],
        }
    }

    fn write(&mut self, outline: &[u8]) -> [u32; 4] {
        let mut answer = [0xa5a5_a5a5; 4];
        // SAFETY: each pointer and the length after it are those of one slice or vector, answer has
        // four numbers, and no two overlap.
        let number = unsafe {
            sys::plates_write(
                outline.as_ptr(),
                outline.len(),
                self.text.as_mut_ptr(),
                self.text.len(),
                self.pairs.as_mut_ptr(),
                self.pairs.len(),
                answer.as_mut_ptr(),
            )
        };
        assert_eq!(number, answer[0]);
        answer
    }
}

/// The answer of a call that is refused, which leaves both buffers as they were.
fn refused(outline: &[u8], text: usize, pairs: usize) -> [u32; 4] {
    let mut buffers = Buffers::new(text, pairs);
    let answer = buffers.write(outline);
    assert_eq!(buffers, Buffers::new(text, pairs));
    answer
}

#[test]
fn buffers_too_short_are_refused_and_untouched() {
    let (text, pairs) = (WRITTEN_A.len(), PAIRS_A.len());
    let short = [
        (text - 1, pairs),
        (text, pairs - 1),
        (text - 1, pairs - 1),
        (0, 100),
        (100, 0),
        (0, 0),
    ];
    for (text, pairs) in short {
        assert_eq!(refused(&bytes(&TREE_A), text, pairs), [9, 0, 0, 0]);
    }
}

#[test]
fn longer_buffers_keep_the_rest() {
    let (text, pairs) = (WRITTEN_A.len(), PAIRS_A.len());
    for (more_text, more_pairs) in [(0, 0), (1, 0), (0, 1), (100, 50)] {
        let mut buffers = Buffers::new(text + more_text, pairs + more_pairs);
        assert_eq!(buffers.write(&bytes(&TREE_A)), [0, 0, 23, 3]);
        let rest = Buffers::new(more_text, more_pairs);
        assert_eq!(buffers.text[..text], *WRITTEN_A.as_bytes());
        assert_eq!(buffers.text[text..], rest.text);
        assert_eq!(buffers.pairs[..pairs], PAIRS_A);
        assert_eq!(buffers.pairs[pairs..], rest.pairs);
    }
}

#[test]
fn refusals_leave_the_buffers_and_give_no_counts() {
    let many = vec![[0; 5]; MOST_RECORDS + 1];
    let cases = [
        (bytes(&[]), [2, 0, 0, 0]),
        (bytes(&TREE_A)[1..].to_vec(), [2, 0, 0, 0]),
        (bytes(&many), [3, 0, 0, 0]),
        (bytes(&changed(4, 2, 1_000_001)), [5, 4, 0, 0]),
        (bytes(&changed(3, 0, 6)), [6, 3, 0, 0]),
        (bytes(&star_records(65)), [7, 0, 0, 0]),
        (bytes(&changed(5, 4, 11)), [8, 5, 0, 0]),
        (bytes(&changed(2, 3, 1)), [13, 2, 0, 0]),
        (bytes(&changed(5, 4, LOCK | 13)), [13, 5, 0, 0]),
    ];
    for (outline, answer) in cases {
        // they come before buffers that are too short
        for len in [2_000, 0] {
            assert_eq!(refused(&outline, len, len), answer);
        }
    }
}

#[test]
fn what_has_no_form_in_a_text_is_judged_after_8() {
    let headed = |mut records: Vec<Fields>| {
        records[0][3] = 1;
        bytes(&records)
    };
    let cases = [
        (headed(changed(4, 2, 1_000_001)), [5, 4, 0, 0]),
        (headed(changed(3, 0, 6)), [6, 3, 0, 0]),
        (headed(star_records(65)), [7, 0, 0, 0]),
        (headed(changed(5, 4, 11)), [8, 5, 0, 0]),
        (headed(TREE_A.to_vec()), [13, 1, 0, 0]),
    ];
    for (outline, answer) in cases {
        assert_eq!(refused(&outline, 0, 0), answer);
    }
}
