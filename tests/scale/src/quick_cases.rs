//! Quick choices worked by hand. They are ours: document 02, §8, states the rule and no case.

use crate::cases::{group, taxon, tree_a, tree_b, tree_c, tree_d};
use crate::heading_cases::{beside, headed, lone, tree_a_with, tree_of_125_headings, two_groups};
use crate::lock_cases::{locking, with_field};
use crate::outline::{bytes, taxa, Record, LOCK};
use crate::quick::{QuickCall, QuickExpected, MOST_PICKS};
use crate::random::Random;
use crate::rules::Refusal;
use crate::shapes;
use crate::write_cases::{faulty_outlines, seven_records};

/// A call and what is stated for it.
pub struct QuickCase {
    pub name: &'static str,
    pub call: QuickCall,
    pub expected: QuickExpected,
}

impl QuickCase {
    /// The same choice with too few marks.
    fn short(mut self, marks: usize) -> Self {
        self.call.marks = marks;
        self.expected = QuickExpected::refused(Refusal {
            number: 9,
            place: 0,
        });
        self
    }

    /// The same choice with more marks than records.
    fn roomy(mut self, marks: usize) -> Self {
        self.call.marks = marks;
        self
    }
}

/// An outline and a page count, for which taxa are picked.
struct Picks {
    name: &'static str,
    records: Vec<Record>,
    count: u32,
}

impl Picks {
    /// The set by its record numbers, its diversity and cost, and the ceiling, with at most so many picks. There are as many marks
    /// as records.
    fn with(&self, picks: u32, chosen: &[usize], numbers: [u32; 2], ceiling: u64) -> QuickCase {
        let [diversity, cost] = numbers;
        let mut marks = vec![0; self.records.len()];
        for &number in chosen {
            marks[number - 1] = 1;
        }
        QuickCase {
            name: self.name,
            call: QuickCall {
                outline: bytes(&self.records),
                count: self.count,
                picks,
                marks: marks.len(),
            },
            expected: QuickExpected {
                answer: [0, 0, diversity, cost, chosen.len() as u32],
                ceiling,
                marks,
            },
        }
    }
}

/// A refusal of an outline for a page count and a number of picks, with each of these lengths of the marks.
fn refused(
    name: &'static str,
    outline: &[u8],
    [count, picks]: [u32; 2],
    lengths: &[usize],
    (number, place): (u32, u32),
) -> Vec<QuickCase> {
    let case = |&marks: &usize| QuickCase {
        name,
        call: QuickCall {
            outline: outline.to_vec(),
            count,
            picks,
            marks,
        },
        expected: QuickExpected::refused(Refusal { number, place }),
    };
    lengths.iter().map(case).collect()
}

pub fn all() -> Vec<QuickCase> {
    let mut all = by_count();
    all.extend(with_a_heading());
    all.extend(with_dear_headings());
    all.extend(in_two_groups());
    all.extend(ties());
    all.extend(ties_by_headings());
    all.extend(nothing_added());
    all.extend(free());
    all.extend(single());
    all.extend(with_locks());
    all.extend(with_locks_and_headings());
    all.extend(prices());
    all.extend(interleaved());
    all.extend(deep());
    all.extend(largest());
    all.extend(greatest_ceilings());
    all.extend(room());
    all.extend(dear_locks());
    all.extend(limits());
    all.extend(order());
    all
}

/// Plates 11, 12 and 13 are records 3, 4 and 5. At first they add 7 for 3, 5 for 1 and 5 for 2. After 11, 12 adds 2. The ceiling
/// of all is 17 before the first pick, and 14 after it.
fn by_count() -> Vec<QuickCase> {
    let tree = |count| Picks {
        name: "tree A",
        records: tree_a(),
        count,
    };
    vec![
        tree(0).with(0, &[], [0, 0], 0),
        tree(0).with(64, &[], [0, 0], 0),
        tree(1).with(0, &[], [0, 0], 5),
        tree(1).with(1, &[4], [5, 1], 5),
        tree(1).with(64, &[4], [5, 1], 5),
        // 12 and 13 add as much, and 12 is cheaper; 11 is too dear for the ceiling
        tree(2).with(0, &[], [0, 0], 10),
        tree(2).with(1, &[4], [5, 1], 10),
        tree(2).with(64, &[4], [5, 1], 10),
        // the best would be 12 and 13, which is 10
        tree(3).with(0, &[], [0, 0], 17),
        tree(3).with(1, &[3], [7, 3], 14),
        tree(3).with(64, &[3], [7, 3], 14),
        // 13 adds more than 12 and does not fit
        tree(4).with(1, &[3], [7, 3], 14),
        tree(4).with(2, &[3, 4], [9, 4], 14),
        tree(4).with(64, &[3, 4], [9, 4], 14),
        tree(5).with(0, &[], [0, 0], 17),
        tree(5).with(1, &[3], [7, 3], 14),
        tree(5).with(2, &[3, 5], [12, 5], 14),
        tree(5).with(3, &[3, 5], [12, 5], 14),
        tree(5).with(63, &[3, 5], [12, 5], 14),
        tree(5).with(64, &[3, 5], [12, 5], 14),
        tree(6).with(2, &[3, 5], [12, 5], 14),
        tree(6).with(3, &[3, 4, 5], [14, 6], 14),
        tree(64).with(1, &[3], [7, 3], 14),
        tree(64).with(64, &[3, 4, 5], [14, 6], 14),
        tree(4_096).with(0, &[], [0, 0], 17),
        tree(4_096).with(64, &[3, 4, 5], [14, 6], 14),
    ]
}

/// Tree A with a heading of 4 above 11 and 12, which now cost 7 and 5 at first. After one of them the other adds its own price.
fn with_a_heading() -> Vec<QuickCase> {
    let tree = |count| Picks {
        name: "tree A, heading 4",
        records: tree_a_with(0, 4),
        count,
    };
    vec![
        tree(4).with(64, &[5], [5, 2], 17),
        // 12 and 13 add as much, and 13 is cheaper
        tree(5).with(1, &[5], [5, 2], 17),
        tree(6).with(64, &[5], [5, 2], 17),
        tree(7).with(64, &[3], [7, 7], 14),
        // 13 would add more, for 2
        tree(8).with(1, &[3], [7, 7], 14),
        tree(8).with(64, &[3, 4], [9, 8], 14),
        tree(9).with(64, &[3, 5], [12, 9], 14),
        tree(10).with(2, &[3, 5], [12, 9], 14),
        tree(10).with(64, &[3, 4, 5], [14, 10], 14),
    ]
}

/// What does not fit with its headings counts in the ceiling by its own price.
fn with_dear_headings() -> Vec<QuickCase> {
    let tree = |(root, second), count| Picks {
        name: "tree A, a dear heading",
        records: tree_a_with(root, second),
        count,
    };
    vec![
        tree((7, 0), 6).with(64, &[], [0, 0], 17),
        tree((7, 0), 1).with(64, &[], [0, 0], 5),
        tree((7, 0), 0).with(64, &[], [0, 0], 0),
        tree((0, 7), 6).with(64, &[5], [5, 2], 17),
        tree((0, 7), 2).with(1, &[5], [5, 2], 10),
        tree((0, 65_535), 4_096).with(64, &[5], [5, 2], 17),
        tree((65_535, 0), 4_096).with(64, &[], [0, 0], 17),
        tree((65_535, 65_535), 4_096).with(64, &[], [0, 0], 17),
        // with headings of 1 and 2 they cost 6, 4 and 3
        tree((1, 2), 2).with(64, &[], [0, 0], 10),
        tree((1, 2), 5).with(64, &[5], [5, 3], 17),
        tree((1, 2), 6).with(64, &[3], [7, 6], 14),
        tree((1, 2), 7).with(64, &[3, 4], [9, 7], 14),
        tree((1, 2), 8).with(64, &[3, 5], [12, 8], 14),
    ]
}

/// Headings of 3: records 3, 4 and 6 add 5, 4 and 7 for 4 each at first. Records 3 and 4 together would be 8 for 5.
fn in_two_groups() -> Vec<QuickCase> {
    let tree = |heading, count| Picks {
        name: "two groups",
        records: two_groups(heading),
        count,
    };
    vec![
        tree(3, 0).with(64, &[], [0, 0], 0),
        tree(3, 3).with(64, &[], [0, 0], 16),
        tree(3, 4).with(64, &[6], [7, 4], 16),
        tree(3, 7).with(64, &[6], [7, 4], 16),
        tree(3, 8).with(1, &[6], [7, 4], 16),
        tree(3, 8).with(2, &[3, 6], [12, 8], 15),
        tree(3, 8).with(64, &[3, 6], [12, 8], 15),
        tree(3, 9).with(64, &[3, 4, 6], [15, 9], 15),
        tree(0, 1).with(64, &[6], [7, 1], 16),
        tree(0, 2).with(64, &[3, 6], [12, 2], 15),
        tree(0, 3).with(64, &[3, 4, 6], [15, 3], 15),
    ]
}

/// Two taxa under a root of length 0, by their lengths and prices.
fn two(one: [u32; 2], other: [u32; 2]) -> Vec<Record> {
    vec![
        group(0, 2, 0),
        taxon(3, one[0], one[1], 1),
        taxon(0, other[0], other[1], 2),
    ]
}

/// Three taxa of length 4, of which the last two cost as little.
fn two_cheap_of_three() -> Vec<Record> {
    vec![
        group(0, 2, 0),
        taxon(3, 4, 2, 1),
        taxon(4, 4, 1, 2),
        taxon(0, 4, 1, 3),
    ]
}

/// More diversity comes before fewer quarters, and these before the lower record.
fn ties() -> Vec<QuickCase> {
    let tree = |records, count| Picks {
        name: "ties",
        records,
        count,
    };
    // The longest of three is picked, and the others, which are better together, have no room.
    let longest = tree(tree_d(), 4);
    vec![
        tree(two([5, 3], [4, 0]), 3).with(1, &[2], [5, 3], 9),
        tree(two([4, 0], [5, 3]), 3).with(1, &[3], [5, 3], 9),
        tree(two([4, 2], [4, 1]), 3).with(1, &[3], [4, 1], 8),
        tree(two([4, 1], [4, 2]), 3).with(1, &[2], [4, 1], 8),
        tree(two([4, 2], [4, 1]), 2).with(64, &[3], [4, 1], 8),
        tree(two([4, 2], [4, 1]), 3).with(2, &[2, 3], [8, 3], 8),
        tree(tree_c(4, 1), 1).with(64, &[2], [4, 1], 8),
        tree(tree_c(4, 1), 2).with(1, &[2], [4, 1], 8),
        tree(tree_c(4, 1), 2).with(64, &[2, 3], [8, 2], 8),
        tree(two_cheap_of_three(), 4).with(1, &[3], [4, 1], 12),
        tree(two_cheap_of_three(), 4).with(2, &[3, 4], [8, 2], 12),
        tree(two_cheap_of_three(), 4).with(3, &[2, 3, 4], [12, 4], 12),
        tree(of_ones(shapes::star(3)), 2).with(1, &[2], [2, 1], 4),
        tree(of_ones(shapes::star(3)), 2).with(64, &[2, 3], [3, 2], 4),
        longest.with(1, &[2], [6, 3], 16),
        longest.with(64, &[2], [6, 3], 16),
    ]
}

/// The shape with lengths and prices of 1.
fn of_ones(mut shape: Vec<Record>) -> Vec<Record> {
    shapes::fill(&mut shape, &mut Random::new(0), |_| 1, |_| 1);
    shape
}

/// A group with a taxon of length 4 and price 1, and one with two taxa, of length 5 and price 1 and of length 4 and this price.
/// Both have headings of 3, and record 5 is locked.
fn beside_an_open_heading(price: u32) -> Vec<Record> {
    let records = [
        group(0, 2, 0),
        headed(3, group(4, 3, 0)),
        taxon(0, 4, 1, 1),
        headed(3, group(0, 5, 0)),
        taxon(6, 5, 1, 2),
        taxon(0, 4, price, 3),
    ];
    locking(&[5], records.into())
}

/// Record 3 adds 4 for 4 with its heading, and record 6 adds 4 for its own price, since its heading is paid for record 5.
fn ties_by_headings() -> Vec<QuickCase> {
    let tree = |price, count| Picks {
        name: "ties by headings",
        records: beside_an_open_heading(price),
        count,
    };
    vec![
        tree(2, 8).with(0, &[5], [5, 4], 13),
        tree(2, 8).with(1, &[5, 6], [9, 6], 13),
        tree(2, 8).with(64, &[5, 6], [9, 6], 13),
        tree(2, 10).with(64, &[3, 5, 6], [13, 10], 13),
        tree(3, 8).with(1, &[5, 6], [9, 7], 13),
        // as many quarters, so that the lower record is picked
        tree(4, 8).with(1, &[3, 5], [9, 8], 13),
        tree(5, 9).with(1, &[3, 5], [9, 8], 13),
        tree(5, 7).with(64, &[5], [5, 4], 13),
    ]
}

/// What adds nothing is not picked, though it fits.
fn nothing_added() -> Vec<QuickCase> {
    let tree = |records, count| Picks {
        name: "nothing added",
        records,
        count,
    };
    let of_two = |first, second| {
        vec![
            group(0, 2, 0),
            group(0, 3, 7),
            taxon(4, 0, first, 1),
            taxon(0, 0, second, 2),
        ]
    };
    vec![
        tree(tree_b(), 2).with(64, &[3], [7, 2], 7),
        tree(tree_b(), 1).with(64, &[], [0, 0], 0),
        // either adds the branch of 7 at first, and the other nothing then
        tree(of_two(2, 1), 5).with(64, &[4], [7, 1], 7),
        tree(of_two(1, 1), 5).with(64, &[3], [7, 1], 7),
        tree(of_two(1, 0), 5).with(64, &[4], [7, 0], 7),
        tree(locking(&[3], of_two(1, 0)), 5).with(64, &[3], [7, 1], 7),
        tree(tree_c(0, 1), 5).with(64, &[], [0, 0], 0),
        tree(tree_c(0, 0), 0).with(64, &[], [0, 0], 0),
        tree(two([0, 1], [4, 1]), 5).with(64, &[3], [4, 1], 4),
        tree(locking(&[3], tree_c(0, 2)), 3).with(64, &[3], [0, 2], 0),
        tree(locking(&[2, 3], tree_c(0, 0)), 0).with(64, &[2, 3], [0, 0], 0),
    ]
}

/// A free taxon is picked where it adds something and its headings fit.
fn free() -> Vec<QuickCase> {
    let tree = |records, count| Picks {
        name: "a free taxon",
        records,
        count,
    };
    vec![
        tree(tree_c(4, 0), 0).with(1, &[2], [4, 0], 8),
        tree(tree_c(4, 0), 0).with(64, &[2, 3], [8, 0], 8),
        tree(lone(0, 0), 1).with(64, &[], [0, 0], 0),
        tree(lone(1, 5), 0).with(64, &[], [0, 0], 5),
        tree(lone(1, 5), 1).with(64, &[2], [5, 1], 5),
        tree(beside(), 0).with(64, &[], [0, 0], 0),
        tree(beside(), 2).with(64, &[], [0, 0], 4),
        tree(beside(), 3).with(64, &[2], [4, 3], 4),
    ]
}

/// An outline of one record.
fn single() -> Vec<QuickCase> {
    let alone = |length, price, field, count| Picks {
        name: "a single taxon",
        records: vec![taxon(0, length, price, field)],
        count,
    };
    let most = 1_000_000;
    vec![
        alone(5, 1, 1, 0).with(64, &[], [0, 0], 0),
        alone(5, 1, 1, 1).with(0, &[], [0, 0], 5),
        alone(5, 1, 1, 1).with(1, &[1], [5, 1], 5),
        alone(5, 1, 1, 4_096).with(64, &[1], [5, 1], 5),
        alone(0, 1, 1, 1).with(1, &[], [0, 0], 0),
        alone(5, 1, LOCK + 1, 1).with(0, &[1], [5, 1], 5),
        alone(5, 1, LOCK + 1, 1).with(1, &[1], [5, 1], 5),
        alone(0, 0, LOCK + 1, 0).with(0, &[1], [0, 0], 0),
        alone(most, 4_096, u32::MAX, 4_096).with(1, &[1], [most, 4_096], most.into()),
        alone(most, 4_096, 1, 4_096).with(1, &[1], [most, 4_096], most.into()),
        alone(most, 4_097, 1, 4_096).with(1, &[], [0, 0], 0),
        alone(most, 65_535, 1, 4_096).with(1, &[], [0, 0], 0),
    ]
}

/// What is locked is there before the first pick, and is no pick.
fn with_locks() -> Vec<QuickCase> {
    let tree = |locked: &[usize], count| Picks {
        name: "tree A with locks",
        records: locking(locked, tree_a()),
        count,
    };
    vec![
        tree(&[3], 3).with(0, &[3], [7, 3], 14),
        tree(&[3], 3).with(64, &[3], [7, 3], 14),
        tree(&[3], 4).with(1, &[3, 4], [9, 4], 14),
        tree(&[3], 5).with(1, &[3, 5], [12, 5], 14),
        tree(&[3], 6).with(2, &[3, 4, 5], [14, 6], 14),
        // after 12, 11 adds 4, which is less than 13
        tree(&[4], 1).with(64, &[4], [5, 1], 5),
        tree(&[4], 2).with(64, &[4], [5, 1], 10),
        tree(&[4], 3).with(1, &[4, 5], [10, 3], 14),
        tree(&[4], 6).with(0, &[4], [5, 1], 14),
        tree(&[4], 6).with(1, &[4, 5], [10, 3], 14),
        tree(&[4], 6).with(2, &[3, 4, 5], [14, 6], 14),
        tree(&[5], 2).with(64, &[5], [5, 2], 10),
        tree(&[5], 5).with(1, &[3, 5], [12, 5], 14),
        tree(&[3, 4], 5).with(64, &[3, 4], [9, 4], 14),
        tree(&[3, 4], 6).with(1, &[3, 4, 5], [14, 6], 14),
        tree(&[3, 4, 5], 6).with(0, &[3, 4, 5], [14, 6], 14),
        tree(&[3, 4, 5], 64).with(64, &[3, 4, 5], [14, 6], 14),
    ]
}

/// A heading that is paid for a lock is open.
fn with_locks_and_headings() -> Vec<QuickCase> {
    let tree = |locked, count| Picks {
        name: "tree A, heading 4, with a lock",
        records: locking(&[locked], tree_a_with(0, 4)),
        count,
    };
    let groups = |count| Picks {
        name: "two groups with a lock",
        records: locking(&[4], two_groups(3)),
        count,
    };
    vec![
        tree(4, 5).with(64, &[4], [5, 5], 14),
        tree(4, 7).with(0, &[4], [5, 5], 14),
        tree(4, 7).with(1, &[4, 5], [10, 7], 14),
        tree(4, 7).with(64, &[4, 5], [10, 7], 14),
        tree(4, 8).with(64, &[4, 5], [10, 7], 14),
        tree(4, 10).with(64, &[3, 4, 5], [14, 10], 14),
        tree(5, 2).with(64, &[5], [5, 2], 10),
        tree(5, 8).with(64, &[4, 5], [10, 7], 14),
        tree(5, 9).with(64, &[3, 5], [12, 9], 14),
        groups(4).with(64, &[4], [4, 4], 15),
        groups(7).with(64, &[3, 4], [8, 5], 15),
        groups(8).with(0, &[4], [4, 4], 15),
        groups(8).with(64, &[4, 6], [11, 8], 15),
        groups(9).with(1, &[4, 6], [11, 8], 15),
        groups(9).with(64, &[3, 4, 6], [15, 9], 15),
    ]
}

/// Three taxa of lengths 9, 8, 7 and prices 5, 4, 3: a taxon counts in the ceiling up to the price that is the page count.
fn prices() -> Vec<QuickCase> {
    let tree = |count| Picks {
        name: "prices about the page count",
        records: vec![
            group(0, 2, 0),
            taxon(3, 9, 5, 1),
            taxon(4, 8, 4, 2),
            taxon(0, 7, 3, 3),
        ],
        count,
    };
    vec![
        tree(2).with(64, &[], [0, 0], 0),
        tree(3).with(64, &[4], [7, 3], 7),
        tree(4).with(0, &[], [0, 0], 15),
        tree(4).with(64, &[3], [8, 4], 15),
        tree(5).with(64, &[2], [9, 5], 24),
        tree(7).with(64, &[2], [9, 5], 24),
        tree(8).with(64, &[2, 4], [16, 8], 24),
        tree(9).with(64, &[2, 3], [17, 9], 24),
        tree(11).with(64, &[2, 3], [17, 9], 24),
        tree(12).with(64, &[2, 3, 4], [24, 12], 24),
    ]
}

/// Record order is not text order: record 4 is the root's last member, records 5 and 7 are below record 2, and record 6 is below
/// record 3. At first records 4 to 7 add 5, 26, 307 and 28.
fn interleaved() -> Vec<QuickCase> {
    let seven = |headings: [u32; 3], count| {
        let mut records = seven_records();
        for (record, price) in records.iter_mut().zip(headings) {
            record.price = price;
        }
        Picks {
            name: "seven records",
            records: records.into(),
            count,
        }
    };
    // In the text record 4 comes first.
    let four = Picks {
        name: "a tie of interleaved records",
        records: vec![
            group(0, 2, 0),
            group(3, 4, 0),
            taxon(0, 4, 1, 1),
            taxon(0, 4, 1, 2),
        ],
        count: 2,
    };
    vec![
        seven([0, 0, 0], 4_096).with(0, &[], [0, 0], 366),
        seven([0, 0, 0], 4_096).with(1, &[6], [307, 60], 363),
        seven([0, 0, 0], 4_096).with(2, &[6, 7], [334, 130], 343),
        seven([0, 0, 0], 4_096).with(3, &[5, 6, 7], [339, 180], 343),
        seven([0, 0, 0], 4_096).with(64, &[4, 5, 6, 7], [343, 220], 343),
        seven([0, 0, 0], 129).with(64, &[5, 6], [332, 110], 343),
        seven([0, 0, 0], 59).with(64, &[5], [26, 50], 30),
        // with headings of 1, 2 and 3 they cost 41, 53, 64 and 73 at first
        seven([1, 2, 3], 63).with(64, &[5], [26, 53], 336),
        seven([1, 2, 3], 64).with(64, &[6], [307, 64], 336),
        seven([1, 2, 3], 226).with(64, &[4, 5, 6, 7], [343, 226], 343),
        four.with(1, &[3], [4, 1], 8),
        four.with(2, &[3, 4], [8, 2], 8),
    ]
}

/// 125 headings of 32 and two taxa of 48 below them: the first costs 4,048 and the other 48 more.
fn deep() -> Vec<QuickCase> {
    let of = |locked: &[usize], count| Picks {
        name: "125 headings",
        records: locking(locked, tree_of_125_headings()),
        count,
    };
    vec![
        of(&[], 47).with(64, &[], [0, 0], 0),
        of(&[], 48).with(64, &[], [0, 0], 252),
        of(&[], 4_047).with(64, &[], [0, 0], 252),
        of(&[], 4_048).with(64, &[126], [126, 4_048], 127),
        of(&[], 4_095).with(64, &[126], [126, 4_048], 127),
        of(&[], 4_096).with(1, &[126], [126, 4_048], 127),
        of(&[], 4_096).with(64, &[126, 127], [127, 4_096], 127),
        of(&[127], 4_048).with(64, &[127], [126, 4_048], 127),
        of(&[127], 4_095).with(64, &[127], [126, 4_048], 127),
        of(&[127], 4_096).with(1, &[126, 127], [127, 4_096], 127),
    ]
}

/// What so many picks of 64 taxa make, where every length is 1 and every taxon fits: the set, its diversity and the ceiling.
type Stages = fn(u32) -> (Vec<usize>, u32, u64);

/// Every pick but the first adds its own branch, and so do the others in the ceiling.
fn in_one_group(picks: u32) -> (Vec<usize>, u32, u64) {
    let chosen = (2..=65).take(picks as usize).collect();
    if picks == 0 {
        (chosen, 0, 128)
    } else {
        (chosen, 1 + picks, 65)
    }
}

/// The first pick reaches all groups, and the others add their own branch. Of the two lowest taxa the first is picked; each other
/// one stands beside the group that has the rest.
fn in_groups_taxon_first(picks: u32) -> (Vec<usize>, u32, u64) {
    let order = [126].into_iter().chain((2..=124).step_by(2)).chain([127]);
    let chosen = order.take(picks as usize).collect();
    reaching_all(chosen, picks)
}

fn in_groups_group_first(picks: u32) -> (Vec<usize>, u32, u64) {
    reaching_all((64..=127).take(picks as usize).collect(), picks)
}

/// By themselves two taxa would add 64 branches, and the others 63, 62 and so on to 2.
fn reaching_all(chosen: Vec<usize>, picks: u32) -> (Vec<usize>, u32, u64) {
    if picks == 0 {
        (chosen, 0, 64 + (2..=64).sum::<u64>())
    } else {
        (chosen, 63 + picks, 127)
    }
}

/// A power of 2 picks is spread as wide as can be, one below each group of a level, and each the first taxon there. On each level
/// they reach as many branches as there are, or picks. Of the others below such a group half add as many branches as there are
/// levels below it, a quarter one less, and so on.
fn in_pairs_of_pairs(picks: u32) -> (Vec<usize>, u32, u64) {
    if picks == 0 {
        return (Vec::new(), 0, 64 * 7);
    }
    let taxa = taxa(&shapes::balanced(6));
    let wide = 64 / picks as usize;
    let chosen = taxa.iter().step_by(wide).map(|taxon| taxon + 1).collect();
    let diversity = (0..=6).map(|level| picks.min(1 << level)).sum();
    let below = wide.ilog2();
    let others: u64 = (1..=below)
        .map(|levels| u64::from(levels) << (levels - 1))
        .sum();
    let ceiling = u64::from(diversity) + u64::from(picks) * others;
    (chosen, diversity, ceiling)
}

/// 64 taxa of price 64, which all fit 4,096, with lengths of 1 and as great as can be.
fn largest() -> Vec<QuickCase> {
    let some: [u32; 10] = [0, 1, 2, 3, 31, 32, 33, 62, 63, 64];
    let powers: [u32; 8] = [0, 1, 2, 4, 8, 16, 32, 64];
    let shapes: [(_, _, Stages, &[u32]); 4] = [
        ("64 members", shapes::star(64), in_one_group, &some),
        (
            "63 groups, each last",
            shapes::caterpillar_taxon_first(64),
            in_groups_taxon_first,
            &some,
        ),
        (
            "63 groups, each first",
            shapes::caterpillar_group_first(64),
            in_groups_group_first,
            &some,
        ),
        (
            "pairs of pairs",
            shapes::balanced(6),
            in_pairs_of_pairs,
            &powers,
        ),
    ];
    let cases = shapes
        .into_iter()
        .flat_map(|(name, records, stages, picks)| {
            [1, 1_000_000].map(|length| largest_of(name, &records, length, stages, picks))
        });
    cases.flatten().chain(case_g()).collect()
}

fn largest_of(
    name: &'static str,
    records: &[Record],
    length: u32,
    stages: Stages,
    picks: &[u32],
) -> Vec<QuickCase> {
    let mut records = records.to_vec();
    shapes::fill(&mut records, &mut Random::new(0), |_| length, |_| 64);
    let of_all = Picks {
        name,
        records,
        count: 4_096,
    };
    let after = |&picks: &u32| {
        let (chosen, diversity, ceiling) = stages(picks);
        let numbers = [length * diversity, 64 * picks];
        of_all.with(picks, &chosen, numbers, u64::from(length) * ceiling)
    };
    picks.iter().map(after).collect()
}

/// Case G of document 01: there is no room for the last taxon, which would add its own branch.
fn case_g() -> Vec<QuickCase> {
    let mut records = shapes::balanced(6);
    shapes::fill(&mut records, &mut Random::new(0), |_| 1, |_| 64);
    let mut chosen: Vec<usize> = taxa(&records).iter().map(|taxon| taxon + 1).collect();
    chosen.pop();
    let of = |count| Picks {
        name: "case G",
        records: records.clone(),
        count,
    };
    vec![
        of(4_095).with(64, &chosen, [126, 4_032], 127),
        of(4_095).with(63, &chosen, [126, 4_032], 127),
        of(4_096).with(63, &chosen, [126, 4_032], 127),
    ]
}

/// 63 groups one below the other and 64 taxa in the last one, so that each by itself would add 64 branches of 1,000,000. No ceiling
/// is greater.
fn greatest_ceilings() -> Vec<QuickCase> {
    let of = |price, count| {
        let most = 1_000_000;
        let mut records: Vec<Record> = (2..=64).map(|first| group(0, first, most)).collect();
        let next = |plate| if plate == 64 { 0 } else { plate as u16 + 64 };
        records.extend((1..=64).map(|plate| taxon(next(plate), most, price, plate)));
        Picks {
            name: "a great ceiling",
            records,
            count,
        }
    };
    let all: Vec<usize> = (64..=127).collect();
    vec![
        of(0, 0).with(0, &[], [0, 0], 4_096_000_000),
        of(0, 0).with(1, &[64], [64_000_000, 0], 127_000_000),
        of(0, 0).with(64, &all, [127_000_000, 0], 127_000_000),
        of(64, 63).with(64, &[], [0, 0], 0),
        of(64, 64).with(0, &[], [0, 0], 4_096_000_000),
        of(64, 4_096).with(64, &all, [127_000_000, 4_096], 127_000_000),
        of(4_096, 4_096).with(0, &[], [0, 0], 4_096_000_000),
        of(4_096, 4_096).with(64, &[64], [64_000_000, 4_096], 127_000_000),
    ]
}

/// Tree A needs 5 marks and an outline of one record 1.
fn room() -> Vec<QuickCase> {
    let of_tree_a = |picks| {
        let tree = Picks {
            name: "room",
            records: locking(&[3], tree_a()),
            count: 5,
        };
        match picks {
            0 => tree.with(0, &[3], [7, 3], 14),
            _ => tree.with(picks, &[3, 5], [12, 5], 14),
        }
    };
    let alone = || {
        let alone = Picks {
            name: "room",
            records: vec![taxon(0, 5, 1, 1)],
            count: 5,
        };
        alone.with(1, &[1], [5, 1], 5)
    };
    let short = [4, 3, 2, 1, 0].map(|marks| [0, 64].map(|picks| of_tree_a(picks).short(marks)));
    let roomy = [6, 7, 16, 80, 127, 128, 4_096]
        .map(|marks| [0, 64].map(|picks| of_tree_a(picks).roomy(marks)));
    let of_one = [
        alone().short(0),
        alone().roomy(2),
        alone().roomy(16),
        alone().roomy(17),
    ];
    let of_tree_a = short.into_iter().chain(roomy).flatten();
    of_tree_a.chain(of_one).collect()
}

/// Enough marks for any outline, and just enough for tree A.
const ENOUGH: [usize; 2] = [127, 5];
/// Too few for tree A.
const FEW: [usize; 2] = [4, 0];
const ANY: [usize; 4] = [127, 5, 4, 0];

/// One quarter below the cost of the locked taxa with the headings above them gives 12, however many picks there are.
fn dear_locks() -> Vec<QuickCase> {
    let tree_a = |locked: &[usize]| locking(locked, tree_a());
    let headed = |root, second| locking(&[4], tree_a_with(root, second));
    let dear = [
        (tree_a(&[3]), 2),
        (tree_a(&[3]), 0),
        (tree_a(&[4]), 0),
        (tree_a(&[5]), 1),
        (tree_a(&[3, 4]), 3),
        (tree_a(&[3, 5]), 4),
        (tree_a(&[3, 4, 5]), 5),
        (headed(0, 4), 4),
        (headed(4, 0), 4),
        (headed(1, 2), 3),
        (headed(0, 65_535), 4_096),
        (headed(65_535, 0), 4_096),
    ];
    let of_tree_a = dear.into_iter().flat_map(|(records, count)| {
        [0, 1, 64].map(|picks| {
            let call = [count, picks];
            refused("dear locks", &bytes(&records), call, &ENOUGH, (12, 0))
        })
    });
    let others = [
        (vec![taxon(0, 4, 4_097, LOCK + 1)], 4_096),
        (vec![taxon(0, 4, 1, LOCK + 1)], 0),
        (locking(&[127], tree_of_125_headings()), 4_047),
        (locking(&[126, 127], tree_of_125_headings()), 4_095),
    ];
    let others = others.map(|(records, count)| {
        let call = [count, 64];
        refused("dear locks", &bytes(&records), call, &[127, 200], (12, 0))
    });
    of_tree_a.chain(others).flatten().collect()
}

/// A page count of 4,096 and 64 picks pass, and one more of either does not.
fn limits() -> Vec<QuickCase> {
    let outline = bytes(&tree_a());
    let counts = [
        4_097,
        4_098,
        8_192,
        65_536,
        65_541,
        LOCK,
        LOCK + 5,
        u32::MAX,
    ];
    let picks = [
        65,
        66,
        127,
        128,
        255,
        256,
        257,
        320,
        65_536,
        65_537,
        LOCK,
        LOCK + 1,
        u32::MAX,
    ];
    let great_counts = counts
        .into_iter()
        .flat_map(|count| [0, 1, 64].map(|picks| ("a great page count", [count, picks], 4)));
    let many_picks = picks
        .into_iter()
        .flat_map(|picks| [0, 5, 4_096].map(|count| ("many picks", [count, picks], 15)));
    let passing = Picks {
        name: "at the limits",
        records: tree_a(),
        count: 4_096,
    };
    let passing = passing.with(MOST_PICKS, &[3, 4, 5], [14, 6], 14);
    let refusals = great_counts.chain(many_picks);
    refusals
        .flat_map(|(name, call, number)| refused(name, &outline, call, &ANY, (number, 0)))
        .chain([passing])
        .collect()
}

/// Each call has faults of later rows too: 2, 3, 4, 15, 5 to 8, 9, 12.
fn order() -> Vec<QuickCase> {
    let mut cases = Vec::new();
    for (name, outline, number, place) in faulty_outlines() {
        let of_outline = (number, place);
        // 2 and 3 come before 4 and 15, and these before 5 to 8
        let or = |row| if number < 4 { of_outline } else { (row, 0) };
        for (call, given) in [
            ([5, 1], of_outline),
            ([4_097, 1], or(4)),
            ([5, 65], or(15)),
            ([4_097, 65], or(4)),
            ([u32::MAX, u32::MAX], or(4)),
        ] {
            cases.extend(refused(name, &outline, call, &ANY, given));
        }
    }
    let dear = bytes(&locking(&[3], tree_a()));
    let mut long = with_field(5, LOCK + 13);
    long[2].length = 1_000_001;
    for (name, outline, call, lengths, given) in [
        ("4 before 15", &dear, [4_097, 65], &ANY[..], (4, 0)),
        ("4 before 9 and 12", &dear, [4_097, 64], &ANY, (4, 0)),
        ("15 before 9 and 12", &dear, [2, 65], &ANY, (15, 0)),
        ("9 before 12", &dear, [2, 64], &FEW, (9, 0)),
        ("12", &dear, [2, 64], &ENOUGH, (12, 0)),
        ("15 before 5", &bytes(&long), [1, 65], &ANY, (15, 0)),
        ("5 before 9 and 12", &bytes(&long), [1, 64], &ANY, (5, 3)),
    ] {
        cases.extend(refused(name, outline, call, lengths, given));
    }
    cases
}

#[cfg(test)]
mod tests {
    use super::*;
    use crate::exhaustive;
    use crate::outline::{self, ROOTED};
    use crate::sheet;

    #[test]
    fn every_answer_is_stated() {
        for number in [0, 2, 3, 4, 15, 5, 6, 7, 8, 9, 12] {
            let stated = all()
                .into_iter()
                .filter(|case| case.expected.answer[0] == number);
            assert!(stated.count() > 1, "{number}");
        }
    }

    /// The cases that are no refusals, with their records.
    fn choices() -> Vec<(QuickCase, Vec<Record>)> {
        let mut choices = all();
        choices.retain(|case| case.expected.answer[0] == 0);
        let with_records = |case: QuickCase| {
            let records = outline::records(&case.call.outline);
            (case, records)
        };
        choices.into_iter().map(with_records).collect()
    }

    #[test]
    fn stated_sets_come_to_what_is_stated_and_fit() {
        for (
            QuickCase {
                name,
                call,
                expected,
            },
            records,
        ) in choices()
        {
            let [_, _, diversity, cost, taxa] = expected.answer;
            let sums = sheet::sums(&records, ROOTED, &expected.marks);
            assert_eq!(sums, [cost, diversity], "{name}");
            let chosen = sheet::chosen(&records, &expected.marks);
            assert_eq!(chosen.len(), taxa as usize, "{name}");
            assert!(cost <= call.count, "{name}");
            let left_out = |(record, mark): (&Record, &u8)| record.is_locked() && *mark == 0;
            let mut marked = records.iter().zip(&expected.marks);
            assert!(!marked.any(left_out), "{name}");
        }
    }

    #[test]
    fn the_best_is_between_what_is_stated() {
        let (mut as_good, mut worse) = (0, 0);
        for (
            QuickCase {
                name,
                call,
                expected,
            },
            records,
        ) in choices()
        {
            if taxa(&records).len() > 10 {
                continue;
            }
            let best = exhaustive::best(&records, ROOTED, call.count);
            let [best, _] = best.expect("a set that fits");
            let diversity = expected.answer[2];
            assert!(diversity <= best, "{name}");
            assert!(u64::from(best) <= expected.ceiling, "{name}");
            as_good += u32::from(diversity == best);
            worse += u32::from(diversity < best);
        }
        assert!(as_good > 50 && worse > 20, "{as_good}, {worse}");
    }

    #[test]
    fn the_greatest_numbers_are_stated() {
        let most = |at: usize| all().into_iter().map(|case| case.expected.answer[at]).max();
        assert_eq!(most(2), Some(127_000_000));
        assert_eq!(most(3), Some(4_096));
        assert_eq!(most(4), Some(64));
        let ceilings = all().into_iter().map(|case| case.expected.ceiling);
        assert_eq!(ceilings.max(), Some(4_096_000_000));
    }
}
