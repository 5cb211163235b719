//! Cases with headings, worked by hand. They are ours: document 02, §2, states the rule and no case.

use crate::cases::{case, group, taxon, tree_a, Case, Limit};
use crate::outline::{bytes, Record, ROOTED, UNROOTED};

/// A group whose heading has this price.
pub(crate) fn headed(price: u32, group: Record) -> Record {
    Record { price, ..group }
}

/// Tree A with prices of the root's heading and of record 2's.
pub(crate) fn tree_a_with(root: u32, second: u32) -> Vec<Record> {
    let mut records = tree_a();
    (records[0].price, records[1].price) = (root, second);
    records
}

pub fn all() -> Vec<Case> {
    let mut all = rooted();
    all.extend(unrooted());
    all.extend(dear());
    all.extend(one_heading_for_two());
    all.extend(free());
    all.extend(of_the_root());
    all.extend(above_the_parting());
    all.extend(deep());
    all
}

/// Tree A with a heading of 2 above records 3 and 4: {5} is 5 for 2, {4} 5 for 3, {3} 7 for 5, {4, 5} 10 for 5, {3, 4} 9 for 6,
/// {3, 5} 12 for 7, all 14 for 8.
fn rooted() -> Vec<Case> {
    let given = |count, numbers, chosen: &[usize]| {
        let call = (tree_a_with(0, 2), count, ROOTED);
        case("tree A, heading 2", call, numbers, chosen)
    };
    vec![
        given(1, [0, 0, 1], &[]),
        given(2, [5, 2, 0], &[5]),
        given(4, [5, 2, 2], &[5]),
        given(5, [10, 5, 0], &[4, 5]),
        given(6, [10, 5, 1], &[4, 5]),
        given(7, [12, 7, 0], &[3, 5]),
        given(8, [14, 8, 0], &[3, 4, 5]),
    ]
}

/// Tree A with headings of 1 at the root and 2 below it: a lone taxon is 0, {4, 5} 10 for 6, {3, 4} 6 for 7, {3, 5} 12 for 8, all
/// 14 for 9.
fn unrooted() -> Vec<Case> {
    let given = |count, numbers, chosen: &[usize]| {
        let call = (tree_a_with(1, 2), count, UNROOTED);
        case("tree A, headings 1 and 2", call, numbers, chosen)
    };
    vec![
        given(5, [0, 0, 5], &[]),
        given(6, [10, 6, 0], &[4, 5]),
        given(7, [10, 6, 1], &[4, 5]),
        given(8, [12, 8, 0], &[3, 5]),
        given(9, [14, 9, 0], &[3, 4, 5]),
    ]
}

/// A heading dearer than the page count closes its group, and the root's closes the outline.
fn dear() -> Vec<Case> {
    let given = |(root, second), count, way, numbers, chosen: &[usize]| {
        let call = (tree_a_with(root, second), count, way);
        case("tree A, a dear heading", call, numbers, chosen)
    };
    vec![
        given((0, 7), 6, ROOTED, [5, 2, 4], &[5]),
        given((0, 7), 6, UNROOTED, [0, 0, 6], &[]),
        // {4} is 5 for 8, and {4, 5} 10 for 10
        given((0, 7), 9, ROOTED, [5, 2, 7], &[5]),
        given((0, 7), 10, ROOTED, [10, 10, 0], &[4, 5]),
        given((7, 0), 6, ROOTED, [0, 0, 6], &[]),
        given((7, 0), 6, UNROOTED, [0, 0, 6], &[]),
        given((0, 65_535), 4_096, ROOTED, [5, 2, 4_094], &[5]),
        given((65_535, 0), 4_096, ROOTED, [0, 0, 4_096], &[]),
        given((65_535, 0), 4_096, UNROOTED, [0, 0, 4_096], &[]),
    ]
}

/// Two groups of length 1: in the first taxa of lengths 4 and 3, in the second one of 6, each of price 1.
pub(crate) fn two_groups(heading: u32) -> Vec<Record> {
    vec![
        group(0, 2, 0),
        headed(heading, group(5, 3, 1)),
        taxon(4, 4, 1, 1),
        taxon(0, 3, 1, 2),
        headed(heading, group(0, 6, 1)),
        taxon(0, 6, 1, 3),
    ]
}

/// With headings of 3, {3}, {4} and {6} are 5, 4 and 7 for 4, {3, 4} 8 for 5, {3, 6} 12 for 8, {4, 6} 11 for 8. Unrooted {3, 4} is
/// 7. With headings of 0, {3, 4} and {3, 6} cost 2 both.
fn one_heading_for_two() -> Vec<Case> {
    let given = |heading, count, way, numbers, chosen: &[usize]| {
        let call = (two_groups(heading), count, way);
        case("two below one heading", call, numbers, chosen)
    };
    vec![
        given(3, 4, ROOTED, [7, 4, 0], &[6]),
        given(3, 5, ROOTED, [8, 5, 0], &[3, 4]),
        given(3, 7, ROOTED, [8, 5, 2], &[3, 4]),
        given(3, 8, ROOTED, [12, 8, 0], &[3, 6]),
        given(3, 4, UNROOTED, [0, 0, 4], &[]),
        given(3, 7, UNROOTED, [7, 5, 2], &[3, 4]),
        given(3, 8, UNROOTED, [12, 8, 0], &[3, 6]),
        given(0, 2, ROOTED, [12, 2, 0], &[3, 6]),
        given(0, 2, UNROOTED, [12, 2, 0], &[3, 6]),
    ]
}

/// A free taxon of this length alone below a heading.
pub(crate) fn lone(heading: u32, length: u32) -> Vec<Record> {
    vec![headed(heading, group(0, 2, 0)), taxon(0, length, 0, 1)]
}

/// A taxon of length 4 and price 1 and a free one of length 0, below a heading of 2.
pub(crate) fn beside() -> Vec<Record> {
    vec![
        headed(2, group(0, 2, 0)),
        taxon(3, 4, 1, 1),
        taxon(0, 0, 0, 2),
    ]
}

/// A free taxon that adds no diversity is chosen where its headings are free or paid for another, and else not.
fn free() -> Vec<Case> {
    let given = |records, count, way, numbers, chosen: &[usize]| {
        case("a free taxon", (records, count, way), numbers, chosen)
    };
    vec![
        given(lone(0, 0), 1, ROOTED, [0, 0, 1], &[2]),
        given(lone(0, 0), 1, UNROOTED, [0, 0, 1], &[2]),
        given(lone(1, 0), 1, ROOTED, [0, 0, 1], &[]),
        given(lone(1, 0), 1, UNROOTED, [0, 0, 1], &[]),
        given(lone(1, 5), 0, ROOTED, [0, 0, 0], &[]),
        given(lone(1, 5), 1, ROOTED, [5, 1, 0], &[2]),
        given(lone(1, 5), 1, UNROOTED, [0, 0, 1], &[]),
        given(beside(), 2, ROOTED, [0, 0, 2], &[]),
        given(beside(), 3, ROOTED, [4, 3, 0], &[2, 3]),
        given(beside(), 3, UNROOTED, [4, 3, 0], &[2, 3]),
    ]
}

/// Two taxa of length 4 and price 1 below a root of length 0 and price 2: one is 4 for 3, both are 8 for 4.
fn of_the_root() -> Vec<Case> {
    let records = [
        headed(2, group(0, 2, 0)),
        taxon(3, 4, 1, 1),
        taxon(0, 4, 1, 2),
    ];
    let given = |count, way, numbers, chosen: &[usize]| {
        let call = (records.to_vec(), count, way);
        case("the root's heading", call, numbers, chosen)
    };
    vec![
        given(2, ROOTED, [0, 0, 2], &[]),
        given(3, ROOTED, [4, 3, 0], &[2]),
        given(4, ROOTED, [8, 4, 0], &[2, 3]),
        given(3, UNROOTED, [0, 0, 3], &[]),
        given(4, UNROOTED, [8, 4, 0], &[2, 3]),
    ]
}

/// A root of price 2, below it alone a group of length 9 and price 3, below that taxa of lengths 4 and 5 and price 1. Unrooted the
/// group's branch does not count, but both headings are paid: both taxa are 9 for 7. Rooted they are 18, and record 4 14 for 6.
fn above_the_parting() -> Vec<Case> {
    let records = [
        headed(2, group(0, 2, 0)),
        headed(3, group(0, 3, 9)),
        taxon(4, 4, 1, 1),
        taxon(0, 5, 1, 2),
    ];
    let given = |count, way, numbers, chosen: &[usize]| {
        let call = (records.to_vec(), count, way);
        case("headings above the parting", call, numbers, chosen)
    };
    vec![
        given(6, UNROOTED, [0, 0, 6], &[]),
        given(7, UNROOTED, [9, 7, 0], &[3, 4]),
        given(5, ROOTED, [0, 0, 5], &[]),
        given(6, ROOTED, [14, 6, 0], &[4]),
        given(7, ROOTED, [18, 7, 0], &[3, 4]),
    ]
}

/// 125 groups one below the other, each of length 1 and price 32, and in the last one two taxa of length 1 and price 48.
pub(crate) fn tree_of_125_headings() -> Vec<Record> {
    let mut records: Vec<Record> = (2..=126)
        .map(|first| headed(32, group(0, first, 1)))
        .collect();
    records.extend([taxon(127, 1, 48, 1), taxon(0, 1, 48, 2)]);
    records
}

/// One taxon is 126 for 4,048, both are 127 for 4,096, and 2 unrooted.
fn deep() -> Vec<Case> {
    let given = |count, way, numbers, chosen: &[usize]| {
        let call = (tree_of_125_headings(), count, way);
        case("125 headings", call, numbers, chosen)
    };
    vec![
        given(4_047, ROOTED, [0, 0, 4_047], &[]),
        given(4_095, ROOTED, [126, 4_048, 47], &[126]),
        given(4_096, ROOTED, [127, 4_096, 0], &[126, 127]),
        given(4_095, UNROOTED, [0, 0, 4_095], &[]),
        given(4_096, UNROOTED, [2, 4_096, 0], &[126, 127]),
    ]
}

/// A heading's price of 65,535 passes and one above gives 5 at its group, and so does a group's plate whatever its price.
pub fn limits() -> Vec<Limit> {
    let limit = |records: Vec<Record>, number, place| Limit {
        outline: bytes(&records),
        count: 5,
        number,
        place,
    };
    let mut plated = tree_a_with(0, 1);
    plated[1].plate = 1;
    vec![
        limit(tree_a_with(0, 65_535), 0, 0),
        limit(tree_a_with(0, 65_536), 5, 2),
        limit(tree_a_with(0, u32::MAX), 5, 2),
        limit(tree_a_with(65_535, 65_535), 0, 0),
        limit(tree_a_with(65_535, 65_536), 5, 2),
        limit(tree_a_with(65_536, 65_536), 5, 1),
        limit(plated, 5, 2),
    ]
}
