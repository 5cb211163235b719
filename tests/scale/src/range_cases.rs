//! Choices for prices that are not yet agreed, worked by hand. They are ours: document 02, §12, states the rule and no case.

use crate::call::{needed, Call};
use crate::cases::{case_g, curve_of_g, group, taxon, tree_a, tree_b, tree_c, tree_d};
use crate::exhaustive::NOTHING;
use crate::expect::Expected;
use crate::heading_cases::tree_of_125_headings;
use crate::library::work_len;
use crate::lock_cases::locking;
use crate::locks;
use crate::outline::{bytes, Record, LOCK, ROOTED, UNROOTED};
use crate::range::{RangeCall, RangeExpected};
use crate::rules::Refusal;
use crate::shapes;
use crate::write_cases::faulty_outlines;

/// A call and what is stated for it.
pub struct RangeCase {
    pub name: &'static str,
    pub call: RangeCall,
    pub expected: RangeExpected,
}

impl RangeCase {
    /// The same call with buffers of these lengths: marks, curve, work.
    fn in_buffers(mut self, [marks, curve, work]: [usize; 3]) -> Self {
        (self.call.high.marks, self.call.high.curve) = (marks, curve);
        self.call.high.work = work;
        self
    }

    /// The same call with buffers of which one or more are too short.
    fn short(self, lengths: [usize; 3]) -> Self {
        let mut short = self.in_buffers(lengths);
        short.expected = RangeExpected::refused(Refusal {
            number: 9,
            place: 0,
        });
        short
    }

    /// The same call with its low outline handed over from the high one's memory, from this byte on.
    fn within(mut self, at: usize) -> Self {
        self.call.within = Some(at);
        self
    }
}

/// A tree, its prices, low and high, a page count and a way.
struct Range {
    name: &'static str,
    tree: Vec<Record>,
    low: Vec<u32>,
    high: Vec<u32>,
    count: u32,
    way: u32,
}

impl Range {
    /// The steps of the curve at high prices, the records chosen and the roof. A step is a set's cost, from which on it is the best,
    /// and its diversity. Buffers are just long enough.
    fn of(&self, steps: &[[u32; 2]], chosen: &[usize], roof: u32) -> RangeCase {
        let locked = locks::has_any(&self.tree);
        let before = if locked { NOTHING } else { [0, 0] };
        let column = |b| {
            let last = steps.iter().rev().find(|[cost, _]| *cost <= b);
            last.map_or(before, |&[cost, diversity]| [diversity, cost])
        };
        self.with((0..=self.count).map(column).collect(), chosen, roof)
    }

    fn with(&self, columns: Vec<[u32; 2]>, chosen: &[usize], roof: u32) -> RangeCase {
        let [diversity, cost] = columns[self.count as usize];
        let mut marks = vec![0; self.tree.len()];
        for &number in chosen {
            marks[number - 1] = 1;
        }
        let taxa = chosen.len() as u32;
        let choice = Expected {
            answer: [0, 0, diversity, cost, taxa, self.count - cost],
            marks,
            curve: columns.concat(),
            work: work_len(self.tree.len(), self.count),
        };
        RangeCase {
            name: self.name,
            call: self.call(),
            expected: RangeExpected { choice, roof },
        }
    }

    fn call(&self) -> RangeCall {
        let [marks, curve, work] = needed(self.tree.len(), self.count);
        let [low, high] = [&self.low, &self.high].map(|prices| bytes(&priced(&self.tree, prices)));
        RangeCall {
            high: Call {
                outline: high,
                count: self.count,
                way: self.way,
                marks,
                curve,
                work,
            },
            low,
            within: None,
        }
    }
}

/// The tree with a price for each record.
fn priced(tree: &[Record], prices: &[u32]) -> Vec<Record> {
    assert_eq!(tree.len(), prices.len());
    let mut records = tree.to_vec();
    for (record, &price) in records.iter_mut().zip(prices) {
        record.price = price;
    }
    records
}

pub fn all() -> Vec<RangeCase> {
    let mut all = rooted();
    all.extend(unrooted());
    all.extend(other_counts());
    all.extend(prices_of_two_bytes());
    all.extend(one_memory());
    all.extend(with_locks());
    all.extend(ties());
    all.extend(great_lengths());
    all.extend(one_against_two());
    all.extend(a_long_one());
    all.extend(a_group_of_one());
    all.extend(single());
    all.extend(no_lengths());
    all.extend(interleaved());
    all.extend(room());
    all.extend(dear_locks());
    all.extend(two_sizes());
    all.extend(other_lengths());
    all.extend(other_plates());
    all.extend(other_links());
    all.extend(prices_the_other_way_round());
    all.extend(two_at_fault());
    all.extend(limits());
    all.extend(order());
    // last, since they take the longest
    all.extend(deep());
    all.extend(largest());
    all
}

/// The prices of tree A: the root's heading, that of record 2, plates 11, 12 and 13.
const OF_A: [u32; 5] = [0, 0, 3, 1, 2];

fn tree_a_at(count: u32, way: u32, low: [u32; 5], high: [u32; 5]) -> Range {
    Range {
        name: "tree A",
        tree: tree_a(),
        low: low.to_vec(),
        high: high.to_vec(),
        count,
        way,
    }
}

/// Tree A at 5. Rooted {4} and {5} are 5, {3} is 7, {3, 4} 9, {4, 5} 10, {3, 5} 12 and all are 14.
fn rooted() -> Vec<RangeCase> {
    let tree = |low, high| tree_a_at(5, ROOTED, low, high);
    let own: &[[u32; 2]] = &[[1, 5], [3, 10], [5, 12]];
    let without_3: &[[u32; 2]] = &[[1, 5], [3, 10]];
    let dear = [65_535; 5];
    vec![
        tree(OF_A, OF_A).of(own, &[3, 5], 12),
        // all cost 5 at low prices
        tree([0, 0, 2, 1, 2], OF_A).of(own, &[3, 5], 14),
        tree([0, 0, 3, 0, 2], OF_A).of(own, &[3, 5], 14),
        tree([0, 0, 3, 1, 1], OF_A).of(own, &[3, 5], 14),
        tree([0; 5], OF_A).of(own, &[3, 5], 14),
        // {3, 5} costs 6 at high prices
        tree(OF_A, [0, 0, 4, 1, 2]).of(without_3, &[4, 5], 12),
        tree(OF_A, [0, 0, 4, 2, 3]).of(&[[2, 5], [4, 7], [5, 10]], &[4, 5], 12),
        tree([0, 0, 2, 1, 2], [0, 0, 4, 1, 2]).of(without_3, &[4, 5], 14),
        // the best at both, though a price differs
        tree(OF_A, [0, 0, 3, 2, 2]).of(&[[2, 5], [3, 7], [4, 10], [5, 12]], &[3, 5], 12),
        // a heading of 2 at record 2, and one at the root
        tree(OF_A, [0, 2, 3, 1, 2]).of(&[[2, 5], [5, 10]], &[4, 5], 12),
        tree(OF_A, [2, 0, 3, 1, 2]).of(&[[3, 5], [5, 10]], &[4, 5], 12),
        tree([0, 0, 2, 1, 2], [0, 2, 3, 1, 2]).of(&[[2, 5], [5, 10]], &[4, 5], 14),
        // {3, 5} costs 6 with a heading of 1 at record 2 and {4, 5} 4
        tree([0, 1, 2, 1, 2], [0, 1, 3, 1, 2]).of(&[[2, 5], [4, 10]], &[4, 5], 12),
        // nothing is sure
        tree(OF_A, dear).of(&[], &[], 12),
        tree([0; 5], dear).of(&[], &[], 14),
        tree(OF_A, [6, 0, 3, 1, 2]).of(&[], &[], 12),
        tree(dear, dear).of(&[], &[], 0),
        // all is
        tree([0; 5], [0, 0, 2, 1, 2]).of(
            &[[1, 5], [2, 7], [3, 10], [4, 12], [5, 14]],
            &[3, 4, 5],
            14,
        ),
        tree([0; 5], [0; 5]).of(&[[0, 14]], &[3, 4, 5], 14),
    ]
}

/// Unrooted {3, 4} is 6, {4, 5} 10, {3, 5} 12, all are 14, and one taxon is 0.
fn unrooted() -> Vec<RangeCase> {
    let tree = |low, high| tree_a_at(5, UNROOTED, low, high);
    vec![
        tree(OF_A, OF_A).of(&[[3, 10], [5, 12]], &[3, 5], 12),
        tree([0, 0, 2, 1, 2], OF_A).of(&[[3, 10], [5, 12]], &[3, 5], 14),
        tree(OF_A, [0, 0, 4, 1, 2]).of(&[[3, 10]], &[4, 5], 12),
        tree(OF_A, [0, 2, 3, 1, 2]).of(&[[5, 10]], &[4, 5], 12),
        tree(OF_A, [2, 0, 3, 1, 2]).of(&[[5, 10]], &[4, 5], 12),
        tree(OF_A, [0, 0, 3, 1, 9]).of(&[[4, 6]], &[3, 4], 12),
        tree(OF_A, [65_535; 5]).of(&[], &[], 12),
        tree([0; 5], [0; 5]).of(&[[0, 14]], &[3, 4, 5], 14),
    ]
}

fn other_counts() -> Vec<RangeCase> {
    let tree = tree_a_at;
    let all: &[[u32; 2]] = &[[1, 5], [3, 10], [5, 12], [6, 14]];
    let cheap = [0, 0, 1, 1, 1];
    vec![
        tree(0, ROOTED, OF_A, OF_A).of(&[], &[], 0),
        tree(0, ROOTED, [0; 5], OF_A).of(&[], &[], 14),
        tree(0, UNROOTED, [0; 5], OF_A).of(&[], &[], 14),
        tree(0, ROOTED, [0, 0, 3, 0, 2], OF_A).of(&[], &[], 5),
        tree(1, ROOTED, cheap, OF_A).of(&[[1, 5]], &[4], 7),
        tree(2, ROOTED, [0, 0, 2, 1, 2], OF_A).of(&[[1, 5]], &[4], 7),
        tree(2, UNROOTED, cheap, OF_A).of(&[], &[], 12),
        tree(3, UNROOTED, [0, 0, 1, 1, 2], OF_A).of(&[[3, 10]], &[4, 5], 12),
        tree(4, ROOTED, OF_A, OF_A).of(&[[1, 5], [3, 10]], &[4, 5], 10),
        tree(4, ROOTED, [0, 0, 2, 1, 2], OF_A).of(&[[1, 5], [3, 10]], &[4, 5], 12),
        tree(6, ROOTED, OF_A, OF_A).of(all, &[3, 4, 5], 14),
        tree(6, ROOTED, [0; 5], OF_A).of(all, &[3, 4, 5], 14),
        tree(64, ROOTED, cheap, OF_A).of(all, &[3, 4, 5], 14),
        tree(4_096, ROOTED, OF_A, [0, 0, 4_096, 1, 2]).of(&[[1, 5], [3, 10]], &[4, 5], 14),
        tree(4_096, ROOTED, [0; 5], [0, 0, 4_096, 0, 0]).of(
            &[[0, 10], [4_096, 14]],
            &[3, 4, 5],
            14,
        ),
    ]
}

/// The same memory for both, and equal bytes that stand elsewhere.
fn one_memory() -> Vec<RangeCase> {
    let own: &[[u32; 2]] = &[[1, 5], [3, 10], [5, 12]];
    let tree = || tree_a_at(5, ROOTED, OF_A, OF_A).of(own, &[3, 5], 12);
    let unrooted = tree_a_at(5, UNROOTED, OF_A, OF_A).of(&[[3, 10], [5, 12]], &[3, 5], 12);
    let locked = locked_tree_a(&[3], 3, ROOTED, OF_A, OF_A);
    let dear = bytes(&locking(&[3], tree_a()));
    let either_way = |outline: &[u8], count, given| {
        let calls = [[count, ROOTED], [count, UNROOTED]];
        let each = |numbers| refused("one memory", [outline, outline], numbers, &ENOUGH, given);
        let cases = calls.into_iter().flat_map(each);
        cases.map(|case| case.within(0)).collect::<Vec<_>>()
    };
    let mut all = vec![
        tree().within(0),
        tree().in_buffers([9, 20, 200]).within(0),
        unrooted.within(0),
        locked.of(&[[3, 7]], &[3], 7).within(0),
        tree().short([5, 12, 167]).within(0),
    ];
    all.extend(either_way(&dear, 2, (12, 0)));
    all.extend(either_way(&bytes(&tree_a()), 4_097, (4, 0)));
    for (_, outline, number, place) in faulty_outlines() {
        all.extend(either_way(&outline, 5, (number, place)));
    }
    all
}

fn locked_tree_a(locked: &[usize], count: u32, way: u32, low: [u32; 5], high: [u32; 5]) -> Range {
    Range {
        name: "tree A with locks",
        tree: locking(locked, tree_a()),
        ..tree_a_at(count, way, low, high)
    }
}

/// What is locked is in the sure set and in the best at low prices.
fn with_locks() -> Vec<RangeCase> {
    let tree = locked_tree_a;
    let cheaper = [0, 0, 2, 1, 2];
    vec![
        tree(&[3], 3, ROOTED, OF_A, OF_A).of(&[[3, 7]], &[3], 7),
        // {3, 4} costs 3, and {4, 5}, which costs 3 too, does not fit
        tree(&[3], 3, ROOTED, cheaper, OF_A).of(&[[3, 7]], &[3], 9),
        tree(&[3], 3, UNROOTED, cheaper, OF_A).of(&[[3, 0]], &[3], 6),
        tree(&[3], 5, ROOTED, cheaper, OF_A).of(&[[3, 7], [4, 9], [5, 12]], &[3, 5], 14),
        tree(&[4], 3, UNROOTED, cheaper, OF_A).of(&[[1, 0], [3, 10]], &[4, 5], 10),
        tree(&[4], 3, UNROOTED, [0, 0, 1, 1, 1], OF_A).of(&[[1, 0], [3, 10]], &[4, 5], 14),
        tree(&[3], 4, ROOTED, OF_A, [0, 1, 3, 1, 2]).of(&[[4, 7]], &[3], 9),
        tree(&[3], 4, ROOTED, OF_A, [1, 0, 3, 1, 2]).of(&[[4, 7]], &[3], 9),
        tree(&[3, 4, 5], 6, ROOTED, [0; 5], OF_A).of(&[[6, 14]], &[3, 4, 5], 14),
        tree(&[3, 4, 5], 6, UNROOTED, OF_A, OF_A).of(&[[6, 14]], &[3, 4, 5], 14),
    ]
}

/// Two taxa of length 4, records 2 and 3: where both cost the same the lower record is chosen.
fn ties() -> Vec<RangeCase> {
    let tree = |count, way, low: [u32; 3], high: [u32; 3]| Range {
        name: "two taxa",
        tree: tree_c(4, 1),
        low: low.to_vec(),
        high: high.to_vec(),
        count,
        way,
    };
    vec![
        tree(1, ROOTED, [0, 1, 1], [0, 1, 1]).of(&[[1, 4]], &[2], 4),
        // the other one is chosen at low prices, and is as good
        tree(1, ROOTED, [0, 1, 1], [0, 2, 1]).of(&[[1, 4]], &[3], 4),
        tree(1, ROOTED, [0, 1, 0], [0, 1, 1]).of(&[[1, 4]], &[2], 8),
        tree(1, ROOTED, [0, 0, 1], [0, 1, 1]).of(&[[1, 4]], &[2], 8),
        tree(1, UNROOTED, [0, 0, 1], [0, 1, 1]).of(&[], &[], 8),
        tree(2, UNROOTED, [0, 1, 1], [0, 1, 1]).of(&[[2, 8]], &[2, 3], 8),
        tree(2, UNROOTED, [0, 1, 1], [1, 1, 1]).of(&[], &[], 8),
    ]
}

/// Two taxa of length 1,000,000: floor and roof take more than two bytes.
fn great_lengths() -> Vec<RangeCase> {
    let tree = |way, low: [u32; 3]| Range {
        name: "great lengths",
        tree: tree_c(1_000_000, 1),
        low: low.to_vec(),
        high: vec![0, 1, 1],
        count: 1,
        way,
    };
    let one: &[[u32; 2]] = &[[1, 1_000_000]];
    vec![
        tree(ROOTED, [0, 0, 1]).of(one, &[2], 2_000_000),
        tree(ROOTED, [0, 1, 1]).of(one, &[2], 1_000_000),
        tree(UNROOTED, [0, 1, 0]).of(&[], &[], 2_000_000),
    ]
}

/// A taxon of length 6 and two of length 5.
fn one_against_two() -> Vec<RangeCase> {
    let tree = |low: [u32; 4], high: [u32; 4]| Range {
        name: "one against two",
        tree: tree_d(),
        low: low.to_vec(),
        high: high.to_vec(),
        count: 4,
        way: ROOTED,
    };
    let both: &[[u32; 2]] = &[[2, 5], [3, 6], [4, 10]];
    vec![
        tree([0, 2, 2, 2], [0, 3, 2, 2]).of(both, &[3, 4], 11),
        tree([0, 3, 1, 2], [0, 3, 2, 2]).of(both, &[3, 4], 11),
        tree([0, 3, 2, 2], [0, 3, 2, 3]).of(&[[2, 5], [3, 6]], &[2], 10),
        tree([0, 1, 1, 1], [0, 3, 2, 3]).of(&[[2, 5], [3, 6]], &[2], 16),
    ]
}

/// A taxon of length 9 and two of length 2.
fn a_long_one() -> Vec<RangeCase> {
    let tree = |low: [u32; 4], high: [u32; 4]| Range {
        name: "a long one",
        tree: vec![
            group(0, 2, 0),
            taxon(3, 9, 0, 1),
            taxon(4, 2, 0, 2),
            taxon(0, 2, 0, 3),
        ],
        low: low.to_vec(),
        high: high.to_vec(),
        count: 2,
        way: ROOTED,
    };
    let short: &[[u32; 2]] = &[[1, 2], [2, 4]];
    vec![
        tree([0, 2, 1, 1], [0, 3, 1, 1]).of(short, &[3, 4], 9),
        tree([0, 1, 1, 1], [0, 3, 1, 1]).of(short, &[3, 4], 11),
    ]
}

/// A group of length 7 above one taxon of length 0.
fn a_group_of_one() -> Vec<RangeCase> {
    let tree = |way, low: [u32; 3], high: [u32; 3]| Range {
        name: "a group of one",
        tree: tree_b(),
        low: low.to_vec(),
        high: high.to_vec(),
        count: 2,
        way,
    };
    vec![
        tree(ROOTED, [0; 3], [0, 0, 2]).of(&[[2, 7]], &[3], 7),
        tree(ROOTED, [0, 0, 2], [0, 1, 2]).of(&[], &[], 7),
        tree(ROOTED, [0, 1, 1], [1, 1, 1]).of(&[], &[], 7),
        tree(UNROOTED, [0, 0, 2], [0, 1, 2]).of(&[], &[], 0),
        tree(UNROOTED, [0; 3], [0; 3]).of(&[], &[3], 0),
    ]
}

/// An outline of one record, which is the root and a taxon.
fn single() -> Vec<RangeCase> {
    let alone = |field, low, high, (count, way)| Range {
        name: "a single taxon",
        tree: vec![taxon(0, 5, 0, field)],
        low: vec![low],
        high: vec![high],
        count,
        way,
    };
    vec![
        alone(1, 1, 1, (1, ROOTED)).of(&[[1, 5]], &[1], 5),
        alone(1, 0, 1, (1, ROOTED)).of(&[[1, 5]], &[1], 5),
        alone(1, 1, 2, (1, ROOTED)).of(&[], &[], 5),
        alone(1, 0, 65_535, (0, ROOTED)).of(&[], &[], 5),
        alone(1, 0, 0, (0, ROOTED)).of(&[[0, 5]], &[1], 5),
        alone(1, 0, 65_535, (0, UNROOTED)).of(&[], &[], 0),
        alone(1, 0, 0, (0, UNROOTED)).of(&[], &[1], 0),
        alone(1, 65_534, 65_535, (4_096, ROOTED)).of(&[], &[], 0),
        alone(1, 4_096, 4_097, (4_096, ROOTED)).of(&[], &[], 5),
        alone(1, 255, 256, (255, ROOTED)).of(&[], &[], 5),
        alone(1, 1, 256, (256, ROOTED)).of(&[[256, 5]], &[1], 5),
        alone(LOCK + 1, 0, 1, (1, ROOTED)).of(&[[1, 5]], &[1], 5),
        alone(LOCK + 1, 0, 1, (1, UNROOTED)).of(&[[1, 0]], &[1], 0),
    ]
}

/// What adds nothing is chosen where it is free.
fn no_lengths() -> Vec<RangeCase> {
    let tree = |count, way, low: [u32; 3], high: [u32; 3]| Range {
        name: "no lengths",
        tree: tree_c(0, 1),
        low: low.to_vec(),
        high: high.to_vec(),
        count,
        way,
    };
    vec![
        tree(5, ROOTED, [0, 1, 1], [0, 1, 1]).of(&[], &[], 0),
        tree(5, ROOTED, [0; 3], [0, 1, 1]).of(&[], &[], 0),
        tree(5, UNROOTED, [0; 3], [0, 0, 1]).of(&[], &[2], 0),
        tree(0, ROOTED, [0; 3], [0; 3]).of(&[], &[2, 3], 0),
    ]
}

/// Tree A with the members of record 2 behind those of the root: 13 is record 3, 11 record 4, 12 record 5.
fn interleaved() -> Vec<RangeCase> {
    let tree = |high: [u32; 5]| Range {
        name: "tree A, interleaved",
        tree: vec![
            group(0, 2, 0),
            group(3, 4, 3),
            taxon(0, 5, 0, 13),
            taxon(5, 4, 0, 11),
            taxon(0, 2, 0, 12),
        ],
        low: vec![0, 0, 2, 3, 1],
        high: high.to_vec(),
        count: 5,
        way: ROOTED,
    };
    vec![
        tree([0, 0, 2, 3, 1]).of(&[[1, 5], [3, 10], [5, 12]], &[3, 4], 12),
        tree([0, 0, 2, 4, 1]).of(&[[1, 5], [3, 10]], &[3, 5], 12),
    ]
}

/// 125 headings of 32 and two taxa of 48 below them, at high prices: one of them is 126 for 4,048, both are 127 for 4,096, and 2
/// unrooted.
fn deep() -> Vec<RangeCase> {
    let tree = |count, way, cheaper: usize| {
        let tree = tree_of_125_headings();
        let high: Vec<u32> = tree.iter().map(|record| record.price).collect();
        let mut low = high.clone();
        low[cheaper - 1] -= 1;
        Range {
            name: "125 headings",
            tree,
            low,
            high,
            count,
            way,
        }
    };
    let one: &[[u32; 2]] = &[[4_048, 126]];
    vec![
        tree(4_096, ROOTED, 1).of(&[[4_048, 126], [4_096, 127]], &[126, 127], 127),
        tree(4_095, ROOTED, 62).of(one, &[126], 127),
        tree(4_095, ROOTED, 127).of(one, &[126], 127),
        tree(4_095, UNROOTED, 125).of(&[], &[], 2),
        tree(4_047, ROOTED, 1).of(&[], &[], 126),
        tree(4_047, ROOTED, 127).of(&[], &[], 126),
    ]
}

/// Case G of document 01 at high prices, where all but the last of 64 taxa are chosen. At a quarter less for one of them, or for
/// each, all are.
fn largest() -> Vec<RangeCase> {
    // from this record on
    let tree = |way, cheaper: usize| {
        let tree = case_g(way).records;
        let high: Vec<u32> = tree.iter().map(|record| record.price).collect();
        let mut low = high.clone();
        for price in &mut low[cheaper - 1..] {
            *price = price.saturating_sub(1);
        }
        Range {
            name: "case G",
            tree,
            low,
            high,
            count: 4_095,
            way,
        }
    };
    let chosen = case_g(ROOTED).chosen;
    let sure = |range: Range, roof| range.with(curve_of_g(range.way), &chosen, roof);
    vec![
        sure(tree(ROOTED, 127), 127),
        sure(tree(UNROOTED, 127), 126),
        sure(tree(ROOTED, 1), 127),
        sure(tree(UNROOTED, 1), 126),
    ]
}

/// Tree A at 5 needs 5 marks, 12 curve numbers and 168 work numbers.
fn room() -> Vec<RangeCase> {
    let tree = || {
        let range = tree_a_at(5, ROOTED, OF_A, [0, 0, 4, 1, 2]);
        range.of(&[[1, 5], [3, 10]], &[4, 5], 12)
    };
    let short = [
        [4, 12, 168],
        [5, 11, 168],
        [5, 12, 167],
        [4, 11, 167],
        [0, 12, 168],
        [5, 0, 168],
        [5, 12, 0],
        [0, 0, 0],
        [4, 4_096, 4_096],
        [127, 11, 4_096],
        [127, 4_096, 167],
        // the work of fewer records, or of fewer columns
        [5, 12, 144],
        [5, 12, 140],
        [5, 10, 168],
    ];
    let roomy = [
        [6, 12, 168],
        [5, 13, 168],
        [5, 12, 169],
        [6, 13, 169],
        [127, 12, 168],
        // room for two choices
        [10, 24, 336],
        [80, 1_024, 6_528],
        [4_096, 8_194, 20_000],
    ];
    let short = short.map(|lengths| tree().short(lengths));
    let roomy = roomy.map(|lengths| tree().in_buffers(lengths));
    short.into_iter().chain(roomy).collect()
}

/// Enough for tree A at 5 quarters, and none at all.
const ANY: [[usize; 3]; 3] = [[127, 12, 168], [5, 12, 168], [0, 0, 0]];
/// Just enough for tree A at 5 quarters, and more.
const ENOUGH: [[usize; 3]; 2] = [[5, 12, 168], [6, 20, 200]];
/// One too few for tree A at 5 quarters.
const FEW: [[usize; 3]; 3] = [[4, 12, 168], [5, 11, 168], [5, 12, 167]];

/// A refusal of two outlines, low and high, for a page count and a way, in buffers of each of these lengths.
fn refused(
    name: &'static str,
    [low, high]: [&[u8]; 2],
    [count, way]: [u32; 2],
    rooms: &[[usize; 3]],
    (number, place): (u32, u32),
) -> Vec<RangeCase> {
    let case = |&[marks, curve, work]: &[usize; 3]| RangeCase {
        name,
        call: RangeCall {
            high: Call {
                outline: high.to_vec(),
                count,
                way,
                marks,
                curve,
                work,
            },
            low: low.to_vec(),
            within: None,
        },
        expected: RangeExpected::refused(Refusal { number, place }),
    };
    rooms.iter().map(case).collect()
}

/// One quarter below the cost of the locked taxa with their headings at high prices gives 12, whatever they cost at low ones.
fn dear_locks() -> Vec<RangeCase> {
    let cases = [
        (&[3][..], OF_A, OF_A, 2),
        (&[3], [0; 5], OF_A, 2),
        (&[3], [0, 0, 2, 1, 2], OF_A, 2),
        (&[3], [0; 5], OF_A, 0),
        (&[3], OF_A, [0, 2, 3, 1, 2], 4),
        (&[3], OF_A, [2, 0, 3, 1, 2], 4),
        (&[4], OF_A, [0, 0, 3, 2, 2], 1),
        (&[5], OF_A, [0, 0, 3, 1, 3], 2),
        (&[3, 4, 5], [0, 0, 2, 1, 2], OF_A, 5),
        (&[3, 4, 5], OF_A, [65_535; 5], 5),
    ];
    let mut all = Vec::new();
    for (locked, low, high, count) in cases {
        let tree = locking(locked, tree_a());
        let [low, high] = [low, high].map(|prices| bytes(&priced(&tree, &prices)));
        for way in [ROOTED, UNROOTED] {
            let outlines = [&low[..], &high];
            all.extend(refused(
                "dear locks",
                outlines,
                [count, way],
                &ENOUGH,
                (12, 0),
            ));
        }
    }
    let [free, one] = [0, 1].map(|price| bytes(&[taxon(0, 4, price, LOCK + 1)]));
    let rooms = [[1, 2, 12], [9, 9, 99]];
    all.extend(refused(
        "dear locks",
        [&free, &one],
        [0, ROOTED],
        &rooms,
        (12, 0),
    ));
    all
}

/// 17 for what is wrong with two outlines, either way, with short buffers, a great page count and, where there are locks, dear ones.
fn bad_range(name: &'static str, low: &[Record], high: &[Record], place: u32) -> Vec<RangeCase> {
    let [low, high] = [low, high].map(bytes);
    let calls = [
        [5, ROOTED],
        [5, UNROOTED],
        [0, ROOTED],
        [4_096, ROOTED],
        [4_097, UNROOTED],
    ];
    let each = |numbers| refused(name, [&low, &high], numbers, &ANY, (17, place));
    calls.into_iter().flat_map(each).collect()
}

/// The same, and with the two outlines exchanged.
fn bad_either_way(
    name: &'static str,
    one: &[Record],
    other: &[Record],
    place: u32,
) -> Vec<RangeCase> {
    let mut all = bad_range(name, one, other, place);
    all.extend(bad_range(name, other, one, place));
    all
}

/// 17 without a place where there are two numbers of records, whatever the records are.
fn two_sizes() -> Vec<RangeCase> {
    let alone = vec![taxon(0, 0, 0, 1)];
    let two = vec![group(0, 2, 0), taxon(0, 4, 3, 11)];
    let locked = locking(&[3, 4, 5], tree_a());
    let mut all = bad_either_way("two sizes", &tree_a(), &alone, 0);
    all.extend(bad_either_way("two sizes", &tree_a(), &two, 0));
    all.extend(bad_either_way("two sizes", &tree_a(), &tree_d(), 0));
    all.extend(bad_either_way("two sizes", &locked, &tree_b(), 0));
    all.extend(bad_either_way("two sizes", &alone, &two, 0));
    let [most, fewer] = [64, 63].map(shapes::star);
    all.extend(bad_either_way("two sizes", &most, &fewer, 0));
    // record 5 of tree A is an outline too, and what stands from record 3 on is none
    let outline = bytes(&tree_a());
    for (from, given) in [(64, (17, 0)), (32, (6, 1)), (80, (2, 0)), (8, (2, 0))] {
        let low = &outline[from..];
        let cases = refused("a part", [low, &outline], [5, ROOTED], &ANY, given);
        all.extend(cases.into_iter().map(|case| case.within(from)));
    }
    all
}

/// Another length at each record of tree A.
fn other_lengths() -> Vec<RangeCase> {
    let mut all = Vec::new();
    for number in 1..=5 {
        for length in [1, 256, 65_536, 999_995] {
            let mut other = tree_a();
            other[number - 1].length += length;
            let place = number as u32;
            all.extend(bad_either_way("another length", &tree_a(), &other, place));
        }
    }
    // a price does not make up for it
    let mut longer = tree_a();
    (longer[3].length, longer[3].price) = (3, 0);
    all.extend(bad_either_way("another length", &longer, &tree_a(), 4));
    all
}

/// Another plate at each taxon of tree A, and a lock more or less.
fn other_plates() -> Vec<RangeCase> {
    let mut all = Vec::new();
    for number in 3..=5 {
        let place = number as u32;
        for field in [1, 14, 267, 65_547, 16_777_227, LOCK - 1] {
            let mut other = tree_a();
            other[number - 1].plate = field;
            all.extend(bad_either_way("another plate", &tree_a(), &other, place));
        }
        let locked = locking(&[number], tree_a());
        all.extend(bad_either_way("another lock", &tree_a(), &locked, place));
        let both = locking(&[3, 4, 5], tree_a());
        let mut freed = both.clone();
        freed[number - 1].plate -= LOCK;
        all.extend(bad_either_way("another lock", &both, &freed, place));
    }
    all
}

/// Outlines with other links: a group for a taxon, and links that are exchanged between two records.
fn other_links() -> Vec<RangeCase> {
    let mut all = bad_either_way("other links", &tree_c(4, 1), &tree_b(), 2);
    // records 2 and 3 exchange their members
    let firsts = |[one, other]: [u16; 2]| {
        vec![
            group(0, 2, 0),
            group(3, one, 1),
            group(0, other, 1),
            taxon(0, 2, 1, 11),
            taxon(0, 2, 1, 12),
        ]
    };
    all.extend(bad_either_way(
        "another first",
        &firsts([4, 5]),
        &firsts([5, 4]),
        2,
    ));
    // records 4 and 5, the first members of two groups, exchange what is next to them
    let nexts = |[one, other]: [u16; 2]| {
        vec![
            group(0, 2, 0),
            group(3, 4, 1),
            group(0, 5, 1),
            taxon(one, 2, 1, 11),
            taxon(other, 2, 1, 12),
            taxon(0, 2, 1, 13),
            taxon(0, 2, 1, 14),
        ]
    };
    all.extend(bad_either_way(
        "another next",
        &nexts([6, 7]),
        &nexts([7, 6]),
        4,
    ));
    all
}

/// Prices that differ by 1 in two bytes: a heading and a taxon of 255 at low prices and of 256 at high ones.
fn prices_of_two_bytes() -> Vec<RangeCase> {
    let tree = |count, low, high| tree_a_at(count, ROOTED, low, high);
    let [cheaper, dear] = [255, 256].map(|heading| [0, heading, 3, 1, 2]);
    let [cheaper_11, dear_11] = [255, 256].map(|price| [0, 0, price, 1, 2]);
    let of_dear: &[[u32; 2]] = &[[2, 5], [259, 10], [261, 12], [262, 14]];
    let of_dear_11: &[[u32; 2]] = &[[1, 5], [3, 10], [258, 12]];
    vec![
        tree(300, cheaper, dear).of(of_dear, &[3, 4, 5], 14),
        tree(258, cheaper, dear).of(&[[2, 5]], &[5], 10),
        tree(258, [0, 1, 3, 1, 2], dear).of(&[[2, 5]], &[5], 14),
        tree(258, cheaper_11, dear_11).of(of_dear_11, &[3, 5], 14),
        tree(257, cheaper_11, dear_11).of(&[[1, 5], [3, 10]], &[4, 5], 12),
        tree(257, [0, 0, 2, 1, 2], dear_11).of(&[[1, 5], [3, 10]], &[4, 5], 14),
        tree(5, [0, 0, 511, 1, 2], [0, 0, 512, 1, 2]).of(&[[1, 5], [3, 10]], &[4, 5], 10),
    ]
}

/// Low and high of which the lower one is greater: by 1, where a higher byte decides, and by as much as can be.
const TURNED: [[u32; 2]; 12] = [
    [1, 0],
    [2, 1],
    [128, 127],
    [256, 255],
    [256, 1],
    [257, 256],
    [512, 511],
    [32_768, 32_767],
    [65_280, 255],
    [65_535, 65_534],
    [65_535, 65_279],
    [65_535, 0],
];

/// The low price of a heading or of a taxon is above the high one.
fn prices_the_other_way_round() -> Vec<RangeCase> {
    let mut all = Vec::new();
    for place in 1..=5 {
        for [low, high] in TURNED {
            let outlines = [low, high].map(|price| {
                let mut records = tree_a();
                records[place - 1].price = price;
                records
            });
            let [low, high] = &outlines;
            all.extend(bad_range("a low above its high", low, high, place as u32));
        }
    }
    let deep = tree_of_125_headings();
    for place in [1, 2, 125, 126, 127] {
        let mut dearer = deep.clone();
        dearer[place - 1].price += 1;
        all.extend(bad_range(
            "a low above its high",
            &dearer,
            &deep,
            place as u32,
        ));
        let mut longer = deep.clone();
        longer[place - 1].length += 1;
        all.extend(bad_either_way(
            "another length",
            &longer,
            &deep,
            place as u32,
        ));
    }
    let [free, one] = [0, 1].map(|price| [taxon(0, 4, price, 1)]);
    all.extend(bad_range("a low above its high", &one, &free, 1));
    // what the others cost less does not make up for it
    let turned = priced(&tree_a(), &[0, 0, 0, 2, 0]);
    all.extend(bad_range("a low above its high", &turned, &tree_a(), 4));
    all
}

/// Of two records at fault the lower one is told, whatever is wrong with each.
fn two_at_fault() -> Vec<RangeCase> {
    let of = |low: [u32; 5]| priced(&tree_a(), &low);
    let with = |number: usize, mut records: Vec<Record>| {
        records[number - 1].length += 1;
        records
    };
    let bad = |low: &[Record], place| bad_range("two at fault", low, &tree_a(), place);
    let mut all = bad(&of([0, 0, 4, 1, 3]), 3);
    all.extend(bad(&of([1, 0, 3, 1, 3]), 1));
    all.extend(bad(&of([0, 1, 3, 2, 2]), 2));
    all.extend(bad(&of([1, 1, 4, 2, 3]), 1));
    all.extend(bad(&with(2, of([0, 0, 3, 2, 2])), 2));
    all.extend(bad(&with(4, of([0, 1, 3, 1, 2])), 2));
    all.extend(bad(&with(5, of([0, 0, 4, 1, 2])), 3));
    all.extend(bad(&with(3, with(5, tree_a())), 3));
    all.extend(bad(&locking(&[3, 5], tree_a()), 3));
    all.extend(bad(&locking(&[5], of([0, 0, 3, 2, 2])), 4));
    all.extend(bad(&locking(&[4], of([0, 0, 3, 1, 3])), 4));
    all.extend(bad(&with(1, locking(&[3], tree_a())), 1));
    // both at one record
    all.extend(bad(&locking(&[4], of([0, 0, 3, 2, 2])), 4));
    let dearer = priced(&tree_b(), &[1, 0, 2]);
    all.extend(bad_range("two at fault", &dearer, &tree_c(4, 1), 1));
    all
}

/// Ways beside 0 and 1.
const NO_WAYS: [u32; 8] = [2, 3, 255, 256, 65_537, LOCK, LOCK + 1, u32::MAX];
/// Page counts above 4,096.
const GREAT: [u32; 8] = [
    4_097,
    4_098,
    8_192,
    65_536,
    65_541,
    LOCK,
    LOCK + 5,
    u32::MAX,
];

/// Of a sound range, of one whose low price is above its high one, and of two sizes.
fn limits() -> Vec<RangeCase> {
    let [own, dearer] = [OF_A, [0, 0, 4, 1, 2]].map(|prices| bytes(&priced(&tree_a(), &prices)));
    let alone = bytes(&[taxon(0, 5, 1, 1)]);
    let ranges = [
        ([&own[..], &dearer], (4, 0)),
        ([&dearer, &own], (17, 3)),
        ([&own, &alone], (17, 0)),
    ];
    let mut all = Vec::new();
    for (outlines, given) in ranges {
        for way in NO_WAYS {
            all.extend(refused("a third way", outlines, [5, way], &ANY, (1, 0)));
        }
        for count in GREAT {
            for way in [ROOTED, UNROOTED] {
                let numbers = [count, way];
                all.extend(refused(
                    "a great page count",
                    outlines,
                    numbers,
                    &ANY,
                    given,
                ));
            }
        }
    }
    all
}

/// Each call has faults of later rows too: 1, 2, 3 and 5 to 8 of the low outline, the same of the high one, 17, 4, 9, 12.
fn order() -> Vec<RangeCase> {
    let tree = bytes(&tree_a());
    let sound = ("a sound one", tree, 0, 0);
    let outlines: Vec<_> = [sound].into_iter().chain(faulty_outlines()).collect();
    let mut all = Vec::new();
    for (_, low, number, place) in &outlines {
        for (_, high, other_number, other_place) in &outlines {
            let given = match (number, other_number) {
                (0, 0) => continue,
                (0, _) => (*other_number, *other_place),
                _ => (*number, *place),
            };
            for (numbers, given) in [
                ([5, ROOTED], given),
                ([4_097, UNROOTED], given),
                ([5, 2], (1, 0)),
                ([u32::MAX, u32::MAX], (1, 0)),
            ] {
                all.extend(refused(
                    "one after the other",
                    [low, high],
                    numbers,
                    &ANY,
                    given,
                ));
            }
        }
    }
    all.extend(order_of_the_last_rows());
    all
}

fn order_of_the_last_rows() -> Vec<RangeCase> {
    let tree = |prices: [u32; 5]| bytes(&priced(&locking(&[3], tree_a()), &prices));
    let [low, dear, dearer] = [[0, 0, 2, 1, 2], OF_A, [0, 0, 4, 1, 2]].map(tree);
    let alone = bytes(&[taxon(0, 5, 9, LOCK + 1)]);
    let [sound, turned] = [[&low[..], &dear], [&dearer[..], &dear]];
    let [more, fewer] = [[&dear[..], &alone], [&alone[..], &dear]];
    // at 2 quarters
    let short = [[4, 6, 84], [5, 5, 84], [5, 6, 83], [0, 0, 0]];
    let enough = [[5, 6, 84], [6, 20, 200]];
    [
        ("17 before 4", turned, 4_097, &ANY[..], (17, 3)),
        ("17 before 4", more, 4_097, &ANY, (17, 0)),
        ("17 before 9", turned, 5, &FEW, (17, 3)),
        ("17 before 9 and 12", turned, 2, &short, (17, 3)),
        ("17 before 12", turned, 2, &enough, (17, 3)),
        ("17 before 12", more, 2, &enough, (17, 0)),
        ("17 before 12", fewer, 2, &enough, (17, 0)),
        ("4 before 9 and 12", sound, 4_097, &ANY, (4, 0)),
        ("9 before 12", sound, 2, &short, (9, 0)),
        ("12", sound, 2, &enough, (12, 0)),
        ("9", sound, 5, &FEW, (9, 0)),
    ]
    .into_iter()
    .flat_map(|(name, outlines, count, rooms, given)| {
        refused(name, outlines, [count, ROOTED], rooms, given)
    })
    .collect()
}

#[cfg(test)]
mod tests {
    use super::*;
    use crate::exhaustive;
    use crate::outline::{self, taxa, RECORD_BYTES};
    use crate::sheet;

    #[test]
    fn every_answer_is_stated() {
        for number in [0, 1, 2, 3, 5, 6, 7, 8, 17, 4, 9, 12] {
            let stated = all()
                .into_iter()
                .filter(|case| case.expected.number() == number);
            assert!(stated.count() > 1, "{number}");
        }
    }

    #[test]
    fn stated_sets_come_to_what_is_stated_at_high_prices() {
        for case in all() {
            let (name, choice) = (case.name, &case.expected.choice);
            let [number, _, diversity, cost, taxa, spare] = choice.answer;
            if number != 0 {
                continue;
            }
            let high = &case.call.high;
            let records = outline::records(&high.outline);
            let sums = sheet::sums(&records, high.way, &choice.marks);
            assert_eq!(sums, [cost, diversity], "{name}");
            let chosen = sheet::chosen(&records, &choice.marks);
            assert_eq!(chosen.len(), taxa as usize, "{name}");
            let columns: Vec<[u32; 2]> = choice.curve.as_chunks().0.to_vec();
            assert_eq!(exhaustive::spare(&columns), spare, "{name}");
            assert!(diversity <= case.expected.roof, "{name}");
        }
    }

    /// Both where the floor is the roof, where it is not, and where nothing is sure.
    #[test]
    fn floors_and_roofs_of_every_kind_are_stated() {
        let holds: [fn(u32, u32) -> bool; 4] = [
            |floor, roof| floor == roof,
            |floor, roof| floor < roof && floor > 0,
            |floor, roof| floor == 0 && roof > 0,
            |floor, roof| floor == 0 && roof == 0,
        ];
        for holds in holds {
            let stated = all().into_iter().filter(|case| {
                let expected = &case.expected;
                expected.number() == 0 && holds(expected.floor(), expected.roof)
            });
            assert!(stated.count() > 2);
        }
    }

    #[test]
    fn the_largest_outlines_are_stated() {
        let stated = all().into_iter().filter(|case| case.expected.number() == 0);
        let stated: Vec<RangeCase> = stated.collect();
        let has = |records: usize, of_taxa: usize| {
            stated.iter().any(|case| {
                let outline = &case.call.low;
                outline.len() == RECORD_BYTES * records
                    && taxa(&outline::records(outline)).len() == of_taxa
            })
        };
        assert!(has(127, 64) && has(127, 2) && has(1, 1));
    }
}
