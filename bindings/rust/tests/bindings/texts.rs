//! Outlines from text: what the grammar allows, which prices go with it, and what is refused.

use crate::support::{bytes, sound, star, tree_a, PRICES_A, TREE_A};
use plates::{sys, Outline, Refusal, Tree, MOST_RECORDS, MOST_TEXT_LEN, RECORD_BYTES};
use std::collections::BTreeMap;
use std::thread;

const TEXT_A: &str = "((11:4,12:2):3,13:5);";

/// Reads with price 1 for each of these plates.
fn read(text: impl AsRef<[u8]>, plates: &[u32]) -> Result<Outline, Refusal> {
    Outline::from_newick(text, plates.iter().map(|&plate| (plate, 1)))
}

/// So many groups of one member around taxon 7.
fn nested(groups: usize) -> String {
    format!("{}7{};", "(".repeat(groups), ")".repeat(groups))
}

/// A group of taxa 1, 2, 3 and so on.
fn flat(taxa: u32) -> String {
    let members: Vec<String> = (1..=taxa).map(|plate| plate.to_string()).collect();
    format!("({});", members.join(","))
}

fn up_to(taxa: u32) -> Vec<u32> {
    (1..=taxa).collect()
}

/// The text with blanks behind it.
fn padded(text: &str, len: usize) -> String {
    format!("{text:len$}")
}

#[test]
fn tree_a_from_text() {
    assert_eq!(Outline::from_newick(TEXT_A, PRICES_A), Ok(tree_a()));
}

#[test]
fn texts_and_prices_may_have_any_type() {
    let map = BTreeMap::from(PRICES_A);
    let outlines = [
        Outline::from_newick(String::from(TEXT_A), Vec::from(PRICES_A)),
        Outline::from_newick(TEXT_A.as_bytes(), PRICES_A.iter().copied()),
        Outline::from_newick(Vec::from(TEXT_A), map),
        Outline::from_newick(TEXT_A, PRICES_A.into_iter().rev()),
    ];
    for outline in outlines {
        assert_eq!(outline, Ok(tree_a()));
    }
}

#[test]
fn blanks_and_leading_zeros_change_nothing() {
    let spelled = " (\t(\r\n11 : 4 ,\n000000012:0002\t)\r:3 , 013\n:\n5 ) \t; \r\n\t ";
    assert_eq!(Outline::from_newick(spelled, PRICES_A), Ok(tree_a()));
}

#[test]
fn without_a_length_it_is_0() {
    let outline = read("((1,2:5),3:0):6;", &[1, 2, 3]).unwrap();
    let lengths: Vec<u32> = outline.records().map(|record| record.length).collect();
    assert_eq!(lengths, [6, 0, 0, 5, 0]);
}

#[test]
fn a_taxon_alone_and_groups_of_one() {
    let taxon = Tree::taxon(7, 5, 1);
    assert_eq!(read("7:5;", &[7]), Ok(sound(taxon.clone())));
    let groups = Tree::group(0, [Tree::group(3, [taxon])]);
    assert_eq!(read("((7:5):3);", &[7]), Ok(sound(groups)));
}

#[test]
fn the_largest_numbers_are_read() {
    let prices = [(999_999_999, 65_535)];
    let outline = Outline::from_newick("999999999:1000000;", prices).unwrap();
    assert_eq!(outline, sound(Tree::taxon(999_999_999, 1_000_000, 65_535)));
}

#[test]
fn records_are_numbered_as_their_parts_begin() {
    let outline = read("(4,((1),2,3),(5));", &[1, 2, 3, 4, 5]).unwrap();
    let plates: Vec<u32> = outline.records().map(|record| record.plate).collect();
    assert_eq!(plates, [0, 4, 0, 0, 1, 2, 3, 0, 5]);
    let links: Vec<[u32; 2]> = outline.records().map(|r| [r.next, r.first]).collect();
    let expected = [
        [0, 2],
        [3, 0],
        [8, 4],
        [6, 5],
        [0, 0],
        [7, 0],
        [0, 0],
        [0, 9],
        [0, 0],
    ];
    assert_eq!(links, expected);
}

#[rustfmt::skip]
const OUTSIDE: [&str; 47] = [
    "", " ", ";", "7", "7;;", "7;7", "7; x", "();", "(7", "(7;", "7);", "(7));", "(7,);", "(,7);",
    "(7,,8);", "(7 8);", "7 8;", "7,8;", "(7)(8);", "(7)8;", "(7)label;", "7:;", "7::5;", "7:5:5;",
    "7:(8);", ":5;", "(7:);", "(:5);", "7:5.5;", "7:-5;", "7:+5;", "-7;", "7:1e3;", "1234567890;",
    "0000000007;", "7:0000000005;", "[7];", "{7};", "7[note];", "'7';", "a;", "7\0;", "7;\0",
    "7\u{b};", "7\u{c};", "\u{a0}7;", "7\u{2003};",
];

#[test]
fn texts_outside_the_grammar_are_refused() {
    for text in OUTSIDE {
        assert_eq!(read(text, &[7]), Err(Refusal::BadText), "{text:?}");
    }
}

#[test]
fn prices_are_one_for_each_taxon_and_no_more() {
    let wrong: [&[(u32, u32)]; 7] = [
        &[],
        &[(11, 3), (12, 1)],
        &[(11, 3), (12, 1), (14, 2)],
        &[(11, 3), (12, 1), (13, 2), (14, 2)],
        &[(11, 3), (12, 1), (13, 2), (13, 2)],
        &[(11, 3), (12, 1), (13, 2), (0, 0)],
        &[(11, 3), (12, 1), (13, 2), (1_000_000_000, 2)],
    ];
    for prices in wrong {
        let read = Outline::from_newick(TEXT_A, prices.iter().copied());
        assert_eq!(read, Err(Refusal::BadPairs), "{prices:?}");
    }
}

#[test]
fn endless_prices_are_refused() {
    let endless = (0..).map(|k| PRICES_A[k % 3]);
    assert_eq!(
        Outline::from_newick(TEXT_A, endless),
        Err(Refusal::BadPairs)
    );
    let most = read(flat(126), &up_to(126));
    assert_eq!(most, Err(Refusal::TooManyTaxa));
    assert_eq!(read(flat(126), &up_to(127)), Err(Refusal::BadPairs));
}

#[test]
fn fields_out_of_range_are_refused_at_their_record() {
    let cases = [
        ("(1,2:1000001);", [(1, 1), (2, 1)]),
        ("(1,2:999999999);", [(1, 1), (2, 1)]),
        ("(1,2);", [(1, 1), (2, 65_536)]),
        ("(1,0);", [(1, 1), (0, 1)]),
        ("(1,(2):1000001);", [(1, 1), (2, 1)]),
    ];
    for (text, prices) in cases {
        let refusal = Refusal::FieldOutOfRange { record: 3 };
        assert_eq!(Outline::from_newick(text, prices), Err(refusal), "{text}");
    }
    assert_eq!(read("(1,0);", &[1]), Err(Refusal::BadPairs));
}

#[test]
fn twins_with_one_price_are_duplicates() {
    let refusal = Refusal::DuplicatePlate { record: 4 };
    assert_eq!(read("(7,(07));", &[7]), Err(refusal));
    assert_eq!(read("(7,(07));", &[7, 7]), Err(Refusal::BadPairs));
}

#[test]
fn sizes_at_their_limits() {
    assert_eq!(read(padded("7;", MOST_TEXT_LEN), &[7]), read("7;", &[7]));
    let too_long = padded("7;", MOST_TEXT_LEN + 1);
    assert_eq!(read(too_long, &[7]), Err(Refusal::BadText));
    let deepest = read(nested(MOST_RECORDS - 1), &[7]).unwrap();
    assert_eq!(deepest.records().len(), MOST_RECORDS);
    let deeper = read(nested(MOST_RECORDS), &[7]);
    assert_eq!(deeper, Err(Refusal::TooManyRecords));
    let taxa = [(0, 1); 64];
    assert_eq!(read(flat(64), &up_to(64)), Ok(sound(star(&taxa))));
    assert_eq!(read(flat(65), &up_to(65)), Err(Refusal::TooManyTaxa));
}

#[test]
fn first_refusal_that_holds_is_given() {
    // each text has every fault of those after it
    let large = flat(127).replace("127", "1:1000001");
    let unfinished = read(large.replace(';', ""), &[]);
    assert_eq!(unfinished, Err(Refusal::BadText));
    assert_eq!(read(large, &[]), Err(Refusal::TooManyRecords));
    let pairs = read("(1:1000001,1);", &[]);
    assert_eq!(pairs, Err(Refusal::BadPairs));
    let many = flat(65).replace("65", "64:1000001");
    let refusal = Refusal::FieldOutOfRange { record: 66 };
    assert_eq!(read(&many, &up_to(64)), Err(refusal));
    let taxa = read(many.replace(":1000001", ""), &up_to(64));
    assert_eq!(taxa, Err(Refusal::TooManyTaxa));
}

#[test]
fn deep_texts_need_little_stack() {
    let run = || {
        let deepest = nested(MOST_TEXT_LEN / 2 - 1);
        assert_eq!(deepest.len(), MOST_TEXT_LEN);
        assert_eq!(read(deepest, &[7]), Err(Refusal::TooManyRecords));
        let open = "(".repeat(MOST_TEXT_LEN);
        assert_eq!(read(open, &[7]), Err(Refusal::BadText));
        read(nested(MOST_RECORDS - 1), &[7])
            .unwrap()
            .records()
            .len()
    };
    let small = thread::Builder::new().stack_size(128 * 1024);
    assert_eq!(small.spawn(run).unwrap().join().unwrap(), MOST_RECORDS);
}

/// A call through the C interface for tree A: the answer, and the buffer, full of a value before.
fn call(pairs: &[u32], outline_len: usize) -> ([u32; 3], Vec<u8>) {
    let mut outline = vec![0xa5; outline_len];
    let mut answer = [0xa5a5_a5a5; 3];
    // SAFETY: each pointer and the length after it are those of one slice or vector, answer has
    // three numbers, and no two overlap.
    let number = unsafe {
        sys::plates_read(
            TEXT_A.as_ptr(),
            TEXT_A.len(),
            pairs.as_ptr(),
            pairs.len(),
            outline.as_mut_ptr(),
            outline.len(),
            answer.as_mut_ptr(),
        )
    };
    assert_eq!(number, answer[0]);
    (answer, outline)
}

#[test]
fn buffers_too_short_are_refused_and_untouched() {
    let pairs = [11, 3, 12, 1, 13, 2];
    for len in [0, 15, 16, 79] {
        assert_eq!(call(&pairs, len), ([9, 0, 0], vec![0xa5; len]));
    }
    for len in [80, 81, 200] {
        let (answer, outline) = call(&pairs, len);
        assert_eq!(answer, [0, 0, 5]);
        assert_eq!(outline[..80], bytes(&TREE_A));
        assert_eq!(outline[80..], vec![0xa5; len - 80]);
    }
}

#[test]
fn an_odd_count_of_pair_numbers_is_refused_before_a_short_buffer() {
    for len in [0, 5 * RECORD_BYTES] {
        let odd = call(&[11, 3, 12, 1, 13, 2, 14], len);
        assert_eq!(odd, ([11, 0, 0], vec![0xa5; len]));
        assert_eq!(call(&[11, 3, 12, 1, 13], len).0, [11, 0, 0]);
    }
}
