//! Revisions worked by hand. They are ours: document 02, §10 and §11, state the rules and no case.

use crate::call::{needed, Call};
use crate::cases::{case_g, curve_of_g, group, taxon, tree_a, tree_b, tree_c, tree_d};
use crate::exhaustive::NOTHING;
use crate::expect::Expected;
use crate::heading_cases::{tree_a_with, tree_of_125_headings};
use crate::library::work_len;
use crate::lock_cases::{locking, with_field};
use crate::locks;
use crate::outline::{bytes, Record, LOCK, ROOTED, UNROOTED};
use crate::revise::{ReviseCall, ReviseExpected};
use crate::rules::Refusal;
use crate::write_cases::faulty_outlines;

/// A call and what is stated for it.
pub struct ReviseCase {
    pub name: &'static str,
    pub call: ReviseCall,
    pub expected: ReviseExpected,
}

impl ReviseCase {
    /// The same call with buffers of these lengths: marks, curve, work.
    fn in_buffers(mut self, [marks, curve, work]: [usize; 3]) -> Self {
        (self.call.given.marks, self.call.given.curve) = (marks, curve);
        self.call.given.work = work;
        self
    }

    /// The same call with buffers of which one or more are too short.
    fn short(self, lengths: [usize; 3]) -> Self {
        let mut short = self.in_buffers(lengths);
        short.expected = ReviseExpected::refused(Refusal {
            number: 9,
            place: 0,
        });
        short
    }
}

/// An outline, a page count and a way, for which lengths are revised.
struct Revisions {
    name: &'static str,
    records: Vec<Record>,
    count: u32,
    way: u32,
}

impl Revisions {
    /// A record and its new length, the steps of the curve then, the records chosen, and what moved. A step is a set's cost, from
    /// which on it is the best, and its diversity. Buffers are just long enough.
    fn of(
        &self,
        record: u32,
        length: u32,
        steps: &[[u32; 2]],
        chosen: &[usize],
        moved: [i64; 2],
    ) -> ReviseCase {
        let locked = locks::has_any(&self.records);
        let before = if locked { NOTHING } else { [0, 0] };
        let column = |b| {
            let last = steps.iter().rev().find(|[cost, _]| *cost <= b);
            last.map_or(before, |&[cost, diversity]| [diversity, cost])
        };
        let columns = (0..=self.count).map(column).collect();
        self.with(record, length, columns, chosen, moved)
    }

    fn with(
        &self,
        record: u32,
        length: u32,
        columns: Vec<[u32; 2]>,
        chosen: &[usize],
        moved: [i64; 2],
    ) -> ReviseCase {
        let [diversity, cost] = columns[self.count as usize];
        let mut marks = vec![0; self.records.len()];
        for &number in chosen {
            marks[number - 1] = 1;
        }
        let taxa = chosen.len() as u32;
        let choice = Expected {
            answer: [0, 0, diversity, cost, taxa, self.count - cost],
            marks,
            curve: columns.concat(),
            work: work_len(self.records.len(), self.count),
        };
        ReviseCase {
            name: self.name,
            call: self.call(record, length),
            expected: ReviseExpected { choice, moved },
        }
    }

    fn call(&self, record: u32, length: u32) -> ReviseCall {
        let [marks, curve, work] = needed(self.records.len(), self.count);
        ReviseCall {
            given: Call {
                outline: bytes(&self.records),
                count: self.count,
                way: self.way,
                marks,
                curve,
                work,
            },
            record,
            length,
        }
    }
}

pub fn all() -> Vec<ReviseCase> {
    let mut all = rooted();
    all.extend(unrooted());
    all.extend(of_the_root());
    all.extend(other_counts());
    all.extend(of_every_size());
    all.extend(a_group_of_one());
    all.extend(single());
    all.extend(ties());
    all.extend(ties_of_three());
    all.extend(one_against_two());
    all.extend(no_lengths());
    all.extend(with_locks());
    all.extend(with_headings());
    all.extend(interleaved());
    all.extend(room());
    all.extend(dear_locks());
    all.extend(records());
    all.extend(lengths());
    all.extend(limits());
    all.extend(order());
    // last, since they take the longest
    all.extend(deep());
    all.extend(largest());
    all
}

/// Tree A at 5. Rooted {4} is 5 for 1, {5} 5 for 2, {3} 7 for 3, {4, 5} 10 for 3, {3, 4} 9 for 4, {3, 5} 12 for 5, which is the
/// best before.
fn rooted() -> Vec<ReviseCase> {
    let tree = tree_a_at(5, ROOTED);
    let as_before: &[[u32; 2]] = &[[1, 5], [3, 10], [5, 12]];
    // on the way to every taxon there is either the root or record 2
    let higher: &[[u32; 2]] = &[[1, 12], [3, 17], [5, 19]];
    let without_3: &[[u32; 2]] = &[[1, 5], [3, 10]];
    vec![
        tree.of(1, 0, as_before, &[3, 5], [0, 0]),
        tree.of(1, 7, higher, &[3, 5], [7, 7]),
        tree.of(
            1,
            1_000_000,
            &[[1, 1_000_005], [3, 1_000_010], [5, 1_000_012]],
            &[3, 5],
            [1_000_000, 1_000_000],
        ),
        tree.of(2, 10, higher, &[3, 5], [7, 7]),
        tree.of(2, 0, &[[1, 2], [2, 5], [3, 7], [5, 9]], &[3, 5], [-3, -3]),
        tree.of(3, 4, as_before, &[3, 5], [0, 0]),
        tree.of(3, 9, &[[1, 5], [3, 12], [4, 14], [5, 17]], &[3, 5], [5, 5]),
        tree.of(3, 3, &[[1, 5], [3, 10], [5, 11]], &[3, 5], [-1, -1]),
        // {3, 5} is as good as {4, 5} and costs more
        tree.of(3, 2, without_3, &[4, 5], [-2, -2]),
        tree.of(3, 0, without_3, &[4, 5], [-2, -4]),
        tree.of(4, 0, &[[1, 3], [2, 5], [3, 8], [5, 12]], &[3, 5], [0, -2]),
        // {4, 5} is as good as {3, 5} now and costs less
        tree.of(4, 4, &[[1, 7], [3, 12]], &[4, 5], [0, 2]),
        tree.of(4, 5, &[[1, 8], [3, 13]], &[4, 5], [1, 3]),
        tree.of(4, 9, &[[1, 12], [3, 17]], &[4, 5], [5, 7]),
        // {3, 5} is as good as {3, 4} and costs more
        tree.of(5, 2, &[[1, 5], [3, 7], [4, 9]], &[3, 4], [-3, -3]),
        tree.of(5, 0, &[[1, 5], [3, 7], [4, 9]], &[3, 4], [-3, -5]),
    ]
}

fn tree_a_at(count: u32, way: u32) -> Revisions {
    Revisions {
        name: "tree A",
        records: tree_a(),
        count,
        way,
    }
}

/// Unrooted {3, 4} is 6 for 4, {4, 5} 10 for 3 and {3, 5} 12 for 5, which is the best before. The root never counts.
fn unrooted() -> Vec<ReviseCase> {
    let tree = tree_a_at(5, UNROOTED);
    let as_before: &[[u32; 2]] = &[[3, 10], [5, 12]];
    let without_3: &[[u32; 2]] = &[[3, 10]];
    vec![
        tree.of(1, 0, as_before, &[3, 5], [0, 0]),
        tree.of(1, 7, as_before, &[3, 5], [0, 7]),
        tree.of(1, 1_000_000, as_before, &[3, 5], [0, 1_000_000]),
        tree.of(2, 0, &[[3, 7], [5, 9]], &[3, 5], [-3, -3]),
        tree.of(
            2,
            1_000_000,
            &[[3, 1_000_007], [5, 1_000_009]],
            &[3, 5],
            [999_997, 999_997],
        ),
        tree.of(3, 9, &[[3, 10], [4, 11], [5, 17]], &[3, 5], [5, 5]),
        tree.of(3, 4, as_before, &[3, 5], [0, 0]),
        tree.of(3, 2, without_3, &[4, 5], [-2, -2]),
        tree.of(3, 0, without_3, &[4, 5], [-2, -4]),
        tree.of(4, 0, &[[3, 8], [5, 12]], &[3, 5], [0, -2]),
        tree.of(4, 5, &[[3, 13]], &[4, 5], [1, 3]),
        tree.of(4, 9, &[[3, 17]], &[4, 5], [5, 7]),
        tree.of(5, 0, &[[3, 5], [4, 6], [5, 7]], &[3, 5], [-5, -5]),
    ]
}

/// Tree A with a length of 6 at the root, which any set but the empty one spans rooted, and none unrooted.
fn of_the_root() -> Vec<ReviseCase> {
    let tree = |count, way| {
        let mut tree = tree_a_at(count, way);
        tree.records[0].length = 6;
        tree
    };
    let unrooted: &[[u32; 2]] = &[[3, 10], [5, 12]];
    let shorter: &[[u32; 2]] = &[[1, 5], [3, 10], [5, 12]];
    let as_before: &[[u32; 2]] = &[[1, 11], [3, 16], [5, 18]];
    let longer: &[[u32; 2]] = &[[1, 15], [3, 20], [5, 22]];
    vec![
        tree(5, ROOTED).of(1, 0, shorter, &[3, 5], [-6, -6]),
        tree(5, ROOTED).of(1, 6, as_before, &[3, 5], [0, 0]),
        tree(5, ROOTED).of(1, 10, longer, &[3, 5], [4, 4]),
        tree(5, UNROOTED).of(1, 0, unrooted, &[3, 5], [0, -6]),
        tree(5, UNROOTED).of(1, 6, unrooted, &[3, 5], [0, 0]),
        tree(5, UNROOTED).of(1, 10, unrooted, &[3, 5], [0, 4]),
        // nothing is chosen
        tree(0, ROOTED).of(1, 0, &[], &[], [0, -6]),
        tree(0, ROOTED).of(1, 10, &[], &[], [0, 4]),
    ]
}

/// Tree A, rooted, where nothing fits, where one taxon does, and where all do.
fn other_counts() -> Vec<ReviseCase> {
    let tree = |count| tree_a_at(count, ROOTED);
    let nothing: &[[u32; 2]] = &[];
    vec![
        tree(0).of(3, 9, nothing, &[], [0, 5]),
        tree(0).of(4, 0, nothing, &[], [0, -2]),
        tree(0).of(1, 1_000_000, nothing, &[], [0, 1_000_000]),
        tree(1).of(4, 0, &[[1, 3]], &[4], [-2, -2]),
        tree(1).of(5, 100, &[[1, 5]], &[4], [0, 95]),
        tree(2).of(5, 6, &[[1, 5], [2, 6]], &[5], [1, 1]),
        // 13 is as good as 12 was
        tree(2).of(4, 0, &[[1, 3], [2, 5]], &[5], [0, -2]),
        tree(6).of(
            3,
            9,
            &[[1, 5], [3, 12], [4, 14], [5, 17], [6, 19]],
            &[3, 4, 5],
            [5, 5],
        ),
        // 11 adds nothing now and is left out
        tree(6).of(3, 0, &[[1, 5], [3, 10]], &[4, 5], [-4, -4]),
        tree(64).of(
            5,
            1,
            &[[1, 5], [3, 7], [4, 9], [6, 10]],
            &[3, 4, 5],
            [-4, -4],
        ),
        tree(4_096).of(
            2,
            0,
            &[[1, 2], [2, 5], [3, 7], [5, 9], [6, 11]],
            &[3, 4, 5],
            [-3, -3],
        ),
    ]
}

/// Record 3 of tree A with lengths of which other bytes are 0 or not, from 4 and back.
fn of_every_size() -> Vec<ReviseCase> {
    let lengths = [
        9, 127, 128, 255, 256, 257, 4_100, 32_768, 65_535, 65_536, 65_537, 65_540, 66_051, 131_072,
        999_999, 1_000_000,
    ];
    let there = |length: u32| {
        let steps = [[1, 5], [3, length + 3], [4, length + 5], [5, length + 8]];
        let moved = i64::from(length) - 4;
        tree_a_at(5, ROOTED).of(3, length, &steps, &[3, 5], [moved, moved])
    };
    let back = |length: u32| {
        let mut longer = tree_a_at(5, ROOTED);
        longer.records[2].length = length;
        let steps = [[1, 5], [3, 10], [5, 12]];
        let moved = 4 - i64::from(length);
        longer.of(3, 4, &steps, &[3, 5], [moved, moved])
    };
    let both = |length| [there(length), back(length)];
    lengths.into_iter().flat_map(both).collect()
}

/// A group of length 7 above one taxon of length 0 and price 2.
fn a_group_of_one() -> Vec<ReviseCase> {
    let tree = |count, way| Revisions {
        name: "a group of one",
        records: tree_b(),
        count,
        way,
    };
    let mut even = tree(2, ROOTED);
    even.records[1].length = 0;
    let two = |diversity| [[2, diversity]];
    let nothing: &[[u32; 2]] = &[];
    vec![
        // what costs something and adds nothing is not chosen
        tree(2, ROOTED).of(2, 0, nothing, &[], [-7, -7]),
        tree(2, ROOTED).of(2, 8, &two(8), &[3], [1, 1]),
        tree(2, ROOTED).of(3, 5, &two(12), &[3], [5, 5]),
        tree(2, ROOTED).of(1, 3, &two(10), &[3], [3, 3]),
        tree(1, ROOTED).of(2, 1_000_000, nothing, &[], [0, 999_993]),
        tree(2, UNROOTED).of(2, 0, nothing, &[], [0, -7]),
        tree(2, UNROOTED).of(3, 9, nothing, &[], [0, 9]),
        even.of(2, 7, &two(7), &[3], [7, 7]),
        even.of(2, 0, nothing, &[], [0, 0]),
    ]
}

/// An outline of one record, which is the root and a taxon.
fn single() -> Vec<ReviseCase> {
    let alone = |length, price, field, (count, way)| Revisions {
        name: "a single taxon",
        records: vec![taxon(0, length, price, field)],
        count,
        way,
    };
    let most = 1_000_000;
    let nothing: &[[u32; 2]] = &[];
    let one = |diversity| [[1, diversity]];
    let locked = |diversity| [[1, diversity]];
    vec![
        alone(5, 1, 1, (1, ROOTED)).of(1, 9, &one(9), &[1], [4, 4]),
        alone(5, 1, 1, (1, ROOTED)).of(1, 5, &one(5), &[1], [0, 0]),
        alone(5, 1, 1, (1, ROOTED)).of(1, 0, nothing, &[], [-5, -5]),
        alone(5, 1, 1, (1, UNROOTED)).of(1, 9, nothing, &[], [0, 4]),
        alone(5, 1, 1, (1, UNROOTED)).of(1, 0, nothing, &[], [0, -5]),
        alone(5, 1, 1, (0, ROOTED)).of(1, 9, nothing, &[], [0, 4]),
        alone(0, 1, 1, (1, ROOTED)).of(1, most, &one(most), &[1], [1_000_000; 2]),
        alone(most, 1, 1, (1, ROOTED)).of(1, 0, nothing, &[], [-1_000_000; 2]),
        alone(most, 1, 1, (1, ROOTED)).of(1, most, &one(most), &[1], [0, 0]),
        alone(0, 1, 1, (1, ROOTED)).of(1, 0, nothing, &[], [0, 0]),
        alone(5, 1, LOCK + 1, (1, ROOTED)).of(1, 0, &locked(0), &[1], [-5, -5]),
        alone(5, 1, LOCK + 1, (1, UNROOTED)).of(1, 0, &locked(0), &[1], [0, -5]),
        alone(5, 1, LOCK + 1, (1, ROOTED)).of(1, 6, &locked(6), &[1], [1, 1]),
        // what is free is chosen whatever it adds
        alone(0, 0, 1, (0, ROOTED)).of(1, 3, &[[0, 3]], &[1], [3, 3]),
        alone(3, 0, 1, (0, ROOTED)).of(1, 0, &[], &[1], [-3, -3]),
        alone(0, 0, 1, (0, UNROOTED)).of(1, 3, &[], &[1], [0, 3]),
    ]
}

/// Two taxa of length 4 and price 1, of which the lower record is chosen.
fn ties() -> Vec<ReviseCase> {
    let tree = |count, way| Revisions {
        name: "two taxa",
        records: tree_c(4, 1),
        count,
        way,
    };
    let one = |diversity| [[1, diversity]];
    let [mut lower, mut higher] = [(); 2].map(|()| tree(1, ROOTED));
    (lower.records[1].length, higher.records[2].length) = (5, 5);
    vec![
        tree(1, ROOTED).of(2, 4, &one(4), &[2], [0, 0]),
        tree(1, ROOTED).of(3, 4, &one(4), &[2], [0, 0]),
        tree(1, ROOTED).of(3, 5, &one(5), &[3], [1, 1]),
        tree(1, ROOTED).of(2, 5, &one(5), &[2], [1, 1]),
        tree(1, ROOTED).of(2, 3, &one(4), &[3], [0, -1]),
        tree(1, ROOTED).of(3, 0, &one(4), &[2], [0, -4]),
        tree(1, ROOTED).of(3, 1_000_000, &one(1_000_000), &[3], [999_996; 2]),
        tree(2, UNROOTED).of(2, 0, &[[2, 4]], &[2, 3], [-4, -4]),
        tree(2, UNROOTED).of(3, 6, &[[2, 10]], &[2, 3], [2, 2]),
        tree(1, UNROOTED).of(3, 6, &[], &[], [0, 2]),
        // a tie that is made, for the lower record
        lower.of(2, 4, &one(4), &[2], [-1, -1]),
        lower.of(3, 5, &one(5), &[2], [0, 1]),
        higher.of(3, 4, &one(4), &[2], [-1, -1]),
        higher.of(2, 5, &one(5), &[2], [0, 1]),
        higher.of(3, 6, &one(6), &[3], [1, 1]),
        higher.of(2, 0, &one(5), &[3], [0, -4]),
    ]
}

/// Three taxa of length 4 and price 1, records 2 to 4, of which the first two are chosen.
fn ties_of_three() -> Vec<ReviseCase> {
    let tree = |way| Revisions {
        name: "three taxa",
        records: vec![
            group(0, 2, 0),
            taxon(3, 4, 1, 11),
            taxon(4, 4, 1, 12),
            taxon(0, 4, 1, 13),
        ],
        count: 2,
        way,
    };
    let one_and_two = |one, two| [[1, one], [2, two]];
    let two = |diversity| [[2, diversity]];
    vec![
        tree(ROOTED).of(3, 5, &one_and_two(5, 9), &[2, 3], [1, 1]),
        tree(ROOTED).of(4, 3, &one_and_two(4, 8), &[2, 3], [0, -1]),
        tree(ROOTED).of(4, 5, &one_and_two(5, 9), &[2, 4], [1, 1]),
        tree(ROOTED).of(2, 3, &one_and_two(4, 8), &[3, 4], [0, -1]),
        tree(UNROOTED).of(3, 5, &two(9), &[2, 3], [1, 1]),
        tree(UNROOTED).of(3, 4, &two(8), &[2, 3], [0, 0]),
        tree(UNROOTED).of(4, 3, &two(8), &[2, 3], [0, -1]),
        tree(UNROOTED).of(4, 4, &two(8), &[2, 3], [0, 0]),
        tree(UNROOTED).of(4, 5, &two(9), &[2, 4], [1, 1]),
        tree(UNROOTED).of(2, 3, &two(8), &[3, 4], [0, -1]),
    ]
}

/// A taxon of length 6 and price 3 against two of length 5 and price 2, which are the best at 4: 10.
fn one_against_two() -> Vec<ReviseCase> {
    let tree = Revisions {
        name: "one against two",
        records: tree_d(),
        count: 4,
        way: ROOTED,
    };
    vec![
        tree.of(2, 9, &[[2, 5], [3, 9], [4, 10]], &[3, 4], [0, 3]),
        // as good and cheaper
        tree.of(2, 10, &[[2, 5], [3, 10]], &[2], [0, 4]),
        tree.of(2, 11, &[[2, 5], [3, 11]], &[2], [1, 5]),
        tree.of(3, 0, &[[2, 5], [3, 6]], &[2], [-4, -5]),
        tree.of(4, 0, &[[2, 5], [3, 6]], &[2], [-4, -5]),
        tree.of(3, 6, &[[2, 6], [4, 11]], &[3, 4], [1, 1]),
    ]
}

/// Every length is 0 before.
fn no_lengths() -> Vec<ReviseCase> {
    let tree = |price, count, way| Revisions {
        name: "no lengths",
        records: tree_c(0, price),
        count,
        way,
    };
    let nothing: &[[u32; 2]] = &[];
    vec![
        tree(1, 5, ROOTED).of(2, 0, nothing, &[], [0, 0]),
        tree(1, 5, ROOTED).of(2, 1, &[[1, 1]], &[2], [1, 1]),
        // a root that counts is a reason for the cheapest taxon, of two the lower record
        tree(1, 5, ROOTED).of(1, 1, &[[1, 1]], &[2], [1, 1]),
        tree(1, 5, UNROOTED).of(1, 1, nothing, &[], [0, 1]),
        tree(1, 5, UNROOTED).of(2, 1, &[[2, 1]], &[2, 3], [1, 1]),
        tree(0, 0, ROOTED).of(2, 6, &[[0, 6]], &[2, 3], [6, 6]),
        tree(0, 0, UNROOTED).of(2, 6, &[[0, 6]], &[2, 3], [6, 6]),
        tree(0, 5, ROOTED).of(1, 2, &[[0, 2]], &[2, 3], [2, 2]),
    ]
}

/// What is locked stays, whatever its length.
fn with_locks() -> Vec<ReviseCase> {
    let tree = |locked: &[usize], count, way| Revisions {
        name: "tree A with locks",
        records: locking(locked, tree_a()),
        count,
        way,
    };
    let from_3 = |diversity| [[3, diversity]];
    vec![
        tree(&[3], 3, ROOTED).of(3, 0, &from_3(3), &[3], [-4, -4]),
        tree(&[3], 3, ROOTED).of(3, 9, &from_3(12), &[3], [5, 5]),
        tree(&[3], 3, ROOTED).of(2, 0, &from_3(4), &[3], [-3, -3]),
        tree(&[3], 3, ROOTED).of(5, 1_000, &from_3(7), &[3], [0, 995]),
        tree(&[3], 3, UNROOTED).of(3, 9, &from_3(0), &[3], [0, 5]),
        tree(&[3], 3, UNROOTED).of(3, 0, &from_3(0), &[3], [0, -4]),
        tree(&[3], 5, ROOTED).of(3, 0, &[[3, 3], [4, 5], [5, 8]], &[3, 5], [-4, -4]),
        tree(&[3], 5, ROOTED).of(4, 9, &[[3, 7], [4, 16]], &[3, 4], [4, 7]),
        tree(&[3], 5, ROOTED).of(4, 0, &[[3, 7], [5, 12]], &[3, 5], [0, -2]),
        tree(&[3], 4, ROOTED).of(2, 0, &[[3, 4], [4, 6]], &[3, 4], [-3, -3]),
        // below record 2 alone, so that its branch does not count
        tree(&[3], 4, UNROOTED).of(2, 50, &[[3, 0], [4, 6]], &[3, 4], [0, 47]),
        tree(&[3], 4, UNROOTED).of(2, 0, &[[3, 0], [4, 6]], &[3, 4], [0, -3]),
        tree(&[3], 4, UNROOTED).of(3, 9, &[[3, 0], [4, 11]], &[3, 4], [5, 5]),
        tree(&[3], 4, UNROOTED).of(4, 0, &[[3, 0], [4, 4]], &[3, 4], [-2, -2]),
        tree(&[3, 4, 5], 6, ROOTED).of(4, 0, &[[6, 12]], &[3, 4, 5], [-2, -2]),
    ]
}

/// Tree A with a heading of 2 above 11 and 12: {5} is 5 for 2, {4} 5 for 3, {3} 7 for 5, {4, 5} 10 for 5, {3, 4} 9 for 6, {3, 5}
/// 12 for 7. With one of 1 at the root besides, unrooted, {4, 5} is 10 for 6, {3, 4} 6 for 7, {3, 5} 12 for 8, all 14 for 9.
fn with_headings() -> Vec<ReviseCase> {
    let tree = |count| Revisions {
        name: "tree A with a heading",
        records: tree_a_with(0, 2),
        count,
        way: ROOTED,
    };
    let both = Revisions {
        name: "tree A with two headings",
        records: tree_a_with(1, 2),
        count: 9,
        way: UNROOTED,
    };
    vec![
        tree(7).of(2, 0, &[[2, 5], [5, 7], [7, 9]], &[3, 5], [-3, -3]),
        tree(7).of(3, 0, &[[2, 5], [5, 10]], &[4, 5], [-2, -4]),
        tree(2).of(4, 3, &[[2, 5]], &[5], [0, 1]),
        tree(3).of(4, 3, &[[2, 5], [3, 6]], &[4], [1, 1]),
        both.of(1, 7, &[[6, 10], [8, 12], [9, 14]], &[3, 4, 5], [0, 7]),
        both.of(4, 0, &[[6, 8], [8, 12]], &[3, 5], [-2, -2]),
    ]
}

/// Tree A with the members of record 2 behind those of the root: 13 is record 3, 11 record 4, 12 record 5.
fn interleaved() -> Vec<ReviseCase> {
    let tree = Revisions {
        name: "tree A, interleaved",
        records: vec![
            group(0, 2, 0),
            group(3, 4, 3),
            taxon(0, 5, 2, 13),
            taxon(5, 4, 3, 11),
            taxon(0, 2, 1, 12),
        ],
        count: 5,
        way: ROOTED,
    };
    vec![
        tree.of(4, 9, &[[1, 5], [3, 12], [4, 14], [5, 17]], &[3, 4], [5, 5]),
        tree.of(3, 0, &[[1, 5], [3, 7], [4, 9]], &[4, 5], [-3, -5]),
        tree.of(5, 4, &[[1, 7], [3, 12]], &[3, 5], [0, 2]),
    ]
}

/// 125 headings of 32 and two taxa of 48 below them: one of them is 126 for 4,048, both are 127 for 4,096, and 2 unrooted. The last
/// group, record 125, is the one that has both.
fn deep() -> Vec<ReviseCase> {
    let tree = |way| Revisions {
        name: "125 headings",
        records: tree_of_125_headings(),
        count: 4_096,
        way,
    };
    let one = |diversity| [[4_048, diversity]];
    let both = |one, two| [[4_048, one], [4_096, two]];
    let unrooted = |diversity| [[4_096, diversity]];
    vec![
        tree(ROOTED).of(127, 0, &one(126), &[126], [-1, -1]),
        tree(ROOTED).of(126, 0, &one(126), &[127], [-1, -1]),
        tree(ROOTED).of(63, 0, &both(125, 126), &[126, 127], [-1, -1]),
        tree(ROOTED).of(125, 9, &both(134, 135), &[126, 127], [8, 8]),
        tree(ROOTED).of(
            1,
            1_000_000,
            &both(1_000_125, 1_000_126),
            &[126, 127],
            [999_999, 999_999],
        ),
        tree(UNROOTED).of(63, 0, &unrooted(2), &[126, 127], [0, -1]),
        tree(UNROOTED).of(125, 9, &unrooted(2), &[126, 127], [0, 8]),
        tree(UNROOTED).of(127, 9, &unrooted(10), &[126, 127], [8, 8]),
    ]
}

/// Case G of document 01, where all but the last of 64 taxa are chosen.
fn largest() -> Vec<ReviseCase> {
    let tree = |way| Revisions {
        name: "case G",
        records: case_g(way).records,
        count: 4_095,
        way,
    };
    let chosen = case_g(ROOTED).chosen;
    // one more or less in each column of so many taxa or more, 64 quarters each
    let moved = |way, taxa: u32, by: i32| -> Vec<[u32; 2]> {
        let of_g = curve_of_g(way).into_iter();
        let move_by = |[diversity, cost]: [u32; 2]| {
            let by = if cost >= 64 * taxa { by } else { 0 };
            [diversity.strict_add_signed(by), cost]
        };
        of_g.map(move_by).collect()
    };
    // the longest taxon is in every set, and of the others the last one is left out
    let mut with_127 = chosen.clone();
    with_127.retain(|&number| number != 126);
    with_127.push(127);
    vec![
        tree(ROOTED).with(127, 2, moved(ROOTED, 1, 1), &with_127, [1, 1]),
        tree(UNROOTED).with(127, 2, moved(UNROOTED, 2, 1), &with_127, [1, 1]),
        tree(ROOTED).with(127, 0, curve_of_g(ROOTED), &chosen, [0, -1]),
        tree(ROOTED).with(1, 0, moved(ROOTED, 1, -1), &chosen, [-1, -1]),
        tree(UNROOTED).with(1, 0, curve_of_g(UNROOTED), &chosen, [0, -1]),
        tree(ROOTED).with(2, 5, moved(ROOTED, 1, 4), &chosen, [4, 4]),
        // a single taxon is of the root's other member
        tree(ROOTED).with(2, 0, moved(ROOTED, 2, -1), &chosen, [-1, -1]),
    ]
}

/// Tree A at 5 needs 5 marks, 12 curve numbers and 168 work numbers.
fn room() -> Vec<ReviseCase> {
    let tree = || {
        let steps = [[1, 5], [3, 10]];
        tree_a_at(5, ROOTED).of(3, 0, &steps, &[4, 5], [-2, -4])
    };
    let short = [
        [4, 12, 168],
        [5, 11, 168],
        [5, 12, 167],
        [4, 11, 167],
        [0, 12, 168],
        [5, 0, 168],
        [5, 12, 0],
        [0, 0, 0],
        [4, 4_096, 4_096],
        [127, 11, 4_096],
        [127, 4_096, 167],
        // the work of fewer records, or of fewer columns
        [5, 12, 144],
        [5, 12, 140],
        [5, 10, 168],
    ];
    let roomy = [
        [6, 12, 168],
        [5, 13, 168],
        [5, 12, 169],
        [6, 13, 169],
        [127, 12, 168],
        [80, 1_024, 6_528],
        [4_096, 8_194, 20_000],
    ];
    let short = short.map(|lengths| tree().short(lengths));
    let roomy = roomy.map(|lengths| tree().in_buffers(lengths));
    // a length that stays is no reason to need less
    let as_before = tree_a_at(5, ROOTED).of(3, 4, &[], &[], [0, 0]);
    let as_before = as_before.short([5, 12, 167]);
    short.into_iter().chain(roomy).chain([as_before]).collect()
}

/// Enough for tree A at 5 quarters, and none at all.
const ANY: [[usize; 3]; 3] = [[127, 12, 168], [5, 12, 168], [0, 0, 0]];
/// Just enough for tree A at 5 quarters, and more.
const ENOUGH: [[usize; 3]; 2] = [[5, 12, 168], [6, 20, 200]];
/// One too few for tree A at 5 quarters.
const FEW: [[usize; 3]; 3] = [[4, 12, 168], [5, 11, 168], [5, 12, 167]];

/// What a refused call is made of: record, length, page count, way.
type Numbers = [u32; 4];

/// A refusal of an outline for these numbers, in buffers of each of these lengths.
fn refused(
    name: &'static str,
    outline: &[u8],
    [record, length, count, way]: Numbers,
    rooms: &[[usize; 3]],
    (number, place): (u32, u32),
) -> Vec<ReviseCase> {
    let case = |&[marks, curve, work]: &[usize; 3]| ReviseCase {
        name,
        call: ReviseCall {
            given: Call {
                outline: outline.to_vec(),
                count,
                way,
                marks,
                curve,
                work,
            },
            record,
            length,
        },
        expected: ReviseExpected::refused(Refusal { number, place }),
    };
    rooms.iter().map(case).collect()
}

/// One quarter below the cost of the locked taxa with the headings above them gives 12, whatever the new length.
fn dear_locks() -> Vec<ReviseCase> {
    let tree_a = |locked: &[usize]| locking(locked, tree_a());
    let headed = |root, second| locking(&[4], tree_a_with(root, second));
    let dear = [
        (tree_a(&[3]), 2),
        (tree_a(&[3]), 0),
        (tree_a(&[4]), 0),
        (tree_a(&[5]), 1),
        (tree_a(&[3, 4, 5]), 5),
        (headed(0, 4), 4),
        (headed(4, 0), 4),
        (headed(1, 2), 3),
    ];
    let of_tree_a = dear.into_iter().flat_map(|(records, count)| {
        let outline = bytes(&records);
        let revisions = [(1, 0), (3, 0), (3, 4), (4, 1_000_000), (5, 9)];
        revisions.map(|(record, length)| {
            let numbers = [record, length, count, u32::from(record == 4)];
            refused("dear locks", &outline, numbers, &ENOUGH, (12, 0))
        })
    });
    let mut all: Vec<ReviseCase> = of_tree_a.flatten().collect();
    let alone = bytes(&[taxon(0, 4, 1, LOCK + 1)]);
    let enough = [[1, 2, 12], [9, 9, 99]];
    all.extend(refused(
        "dear locks",
        &alone,
        [1, 9, 0, 0],
        &enough,
        (12, 0),
    ));
    all
}

/// Record numbers that tree A does not have. Some would pass by their last bytes, or by the place of the record's bytes where 32
/// bits do not hold it.
const NO_RECORDS: [u32; 30] = [
    0,
    6,
    7,
    8,
    16,
    80,
    81,
    127,
    128,
    129,
    255,
    256,
    257,
    261,
    65_535,
    65_536,
    65_537,
    65_541,
    1 << 24,
    (1 << 24) + 5,
    1 << 28,
    (1 << 28) + 1,
    (1 << 28) + 5,
    (2 << 28) + 3,
    LOCK,
    LOCK + 1,
    LOCK + 5,
    u32::MAX - 4,
    u32::MAX - 1,
    u32::MAX,
];

fn records() -> Vec<ReviseCase> {
    let outline = bytes(&tree_a());
    let dear = bytes(&locking(&[3], tree_a()));
    let of_record = |record| {
        let of =
            |outline: &[u8], numbers| refused("no such record", outline, numbers, &ANY, (16, 0));
        let mut all = of(&outline, [record, 5, 5, ROOTED]);
        all.extend(of(&outline, [record, 0, 5, UNROOTED]));
        all.extend(of(&dear, [record, 4, 2, ROOTED]));
        all
    };
    let alone = bytes(&[taxon(0, 5, 1, 1)]);
    let of_one = [0, 2, 16, 17, 257, 65_537, (1 << 28) + 1, u32::MAX];
    let of_one = of_one.into_iter().flat_map(|record| {
        let numbers = [record, 5, 1, ROOTED];
        refused("no such record", &alone, numbers, &ANY, (16, 0))
    });
    let of_tree_a = NO_RECORDS.into_iter().flat_map(of_record);
    of_tree_a.chain(of_one).collect()
}

/// Lengths above 1,000,000, of which some would pass by their last bytes.
fn lengths() -> Vec<ReviseCase> {
    let lengths = [
        1_000_001,
        1_000_002,
        1_048_576,
        1 << 24,
        (1 << 24) + 4,
        LOCK - 1,
        LOCK,
        LOCK + 4,
        u32::MAX - 3,
        u32::MAX,
    ];
    let outline = bytes(&tree_a());
    let dear = bytes(&locking(&[3], tree_a()));
    let of_length = |length| {
        let of =
            |outline: &[u8], numbers| refused("a great length", outline, numbers, &ANY, (16, 0));
        let mut all = of(&outline, [1, length, 5, ROOTED]);
        all.extend(of(&outline, [3, length, 5, UNROOTED]));
        all.extend(of(&outline, [5, length, 5, ROOTED]));
        all.extend(of(&dear, [3, length, 2, ROOTED]));
        // no such record either
        all.extend(of(&outline, [0, length, 5, ROOTED]));
        all.extend(of(&outline, [6, length, 5, ROOTED]));
        all.extend(of(&dear, [u32::MAX, length, 2, ROOTED]));
        all
    };
    lengths.into_iter().flat_map(of_length).collect()
}

/// Ways beside 0 and 1, and page counts above 4,096.
fn limits() -> Vec<ReviseCase> {
    let outline = bytes(&tree_a());
    let revisions = [(3, 9), (0, 9), (6, 9), (3, 1_000_001), (u32::MAX, u32::MAX)];
    let ways = [
        2,
        3,
        255,
        256,
        257,
        65_536,
        65_537,
        LOCK,
        LOCK + 1,
        u32::MAX,
    ];
    let counts = [
        4_097,
        4_098,
        8_192,
        65_536,
        65_541,
        LOCK,
        LOCK + 5,
        u32::MAX,
    ];
    let of_revision = |(record, length)| {
        let of_way = ways.map(|way| ("a third way", [record, length, 5, way], 1));
        let of_count = counts.map(|count| ("a great page count", [record, length, count, 0], 4));
        of_way.into_iter().chain(of_count)
    };
    let all = revisions.into_iter().flat_map(of_revision);
    all.flat_map(|(name, numbers, row)| refused(name, &outline, numbers, &ANY, (row, 0)))
        .collect()
}

/// Each call has faults of later rows too: 1, 2, 3, 4, 5 to 8, 16, 9, 12.
fn order() -> Vec<ReviseCase> {
    let revisions = [
        (1, 5),
        (0, 5),
        (67, 5),
        (128, 5),
        (1, 1_000_001),
        (u32::MAX, u32::MAX),
    ];
    let mut cases = Vec::new();
    for (name, outline, number, place) in faulty_outlines() {
        let of_outline = (number, place);
        // 2 and 3 come before 4, and 4 before 5 to 8
        let or_4 = if number < 4 { of_outline } else { (4, 0) };
        for (record, length) in revisions {
            for (count, way, given) in [
                (5, ROOTED, of_outline),
                (5, UNROOTED, of_outline),
                (4_097, ROOTED, or_4),
                (5, 2, (1, 0)),
                (u32::MAX, u32::MAX, (1, 0)),
            ] {
                let numbers = [record, length, count, way];
                cases.extend(refused(name, &outline, numbers, &ANY, given));
            }
        }
    }
    cases.extend(order_of_the_last_rows());
    cases
}

fn order_of_the_last_rows() -> Vec<ReviseCase> {
    let dear = bytes(&locking(&[3], tree_a()));
    let mut twins = with_field(5, LOCK + 11);
    let (of_8, outline) = (bytes(&twins), bytes(&tree_a()));
    twins[2].length = 1_000_001;
    let of_5 = bytes(&twins);
    let short = [[4, 6, 84], [5, 5, 84], [5, 6, 83], [0, 0, 0]];
    [
        ("4 before 16", &dear, [0, 9, 4_097, 0], &ANY[..], (4, 0)),
        ("5 before 16", &of_5, [0, 9, 5, 0], &ANY, (5, 3)),
        // a new length does not mend the old one
        ("5 before 9", &of_5, [3, 9, 5, 0], &ANY, (5, 3)),
        ("8 before 16", &of_8, [0, 9, 5, 0], &ANY, (8, 5)),
        ("8 before 16", &of_8, [3, 1_000_001, 5, 0], &ANY, (8, 5)),
        ("8 before 9", &of_8, [3, 9, 5, 0], &FEW, (8, 5)),
        ("16 before 9", &outline, [0, 9, 5, 0], &FEW, (16, 0)),
        ("16 before 9", &outline, [6, 9, 5, 0], &FEW, (16, 0)),
        ("16 before 9", &outline, [3, 1_000_001, 5, 0], &FEW, (16, 0)),
        ("16 before 9 and 12", &dear, [0, 9, 2, 0], &short, (16, 0)),
        ("16 before 12", &dear, [6, 9, 2, 0], &ENOUGH, (16, 0)),
        (
            "16 before 12",
            &dear,
            [3, 1_000_001, 2, 0],
            &ENOUGH,
            (16, 0),
        ),
        ("9 before 12", &dear, [3, 9, 2, 0], &short, (9, 0)),
        ("12", &dear, [3, 9, 2, 0], &ENOUGH, (12, 0)),
    ]
    .into_iter()
    .flat_map(|(name, outline, numbers, rooms, given)| {
        refused(name, outline, numbers, rooms, given)
    })
    .collect()
}

#[cfg(test)]
mod tests {
    use super::*;
    use crate::exhaustive;
    use crate::outline::{self, taxa, RECORD_BYTES};
    use crate::sheet;

    #[test]
    fn every_answer_is_stated() {
        for number in [0, 1, 2, 3, 4, 5, 6, 7, 8, 16, 9, 12] {
            let stated = all()
                .into_iter()
                .filter(|case| case.expected.number() == number);
            assert!(stated.count() > 1, "{number}");
        }
    }

    #[test]
    fn stated_sets_come_to_what_is_stated_with_the_new_length() {
        for ReviseCase {
            name,
            call,
            expected,
        } in all()
        {
            if expected.number() != 0 {
                continue;
            }
            let [_, _, diversity, cost, taxa, spare] = expected.choice.answer;
            let mut records = outline::records(&call.given.outline);
            records[call.record as usize - 1].length = call.length;
            let sums = sheet::sums(&records, call.given.way, &expected.choice.marks);
            assert_eq!(sums, [cost, diversity], "{name}");
            let chosen = sheet::chosen(&records, &expected.choice.marks);
            assert_eq!(chosen.len(), taxa as usize, "{name}");
            let columns: Vec<[u32; 2]> = expected
                .choice
                .curve
                .chunks(2)
                .map(|column| [column[0], column[1]])
                .collect();
            assert_eq!(exhaustive::spare(&columns), spare, "{name}");
        }
    }

    #[test]
    fn the_greatest_movements_are_stated() {
        let moved = |at: usize| {
            let moved = all().into_iter().map(move |case| case.expected.moved[at]);
            moved.collect::<Vec<i64>>()
        };
        for at in [0, 1] {
            assert_eq!(moved(at).into_iter().max(), Some(1_000_000));
            assert_eq!(moved(at).into_iter().min(), Some(-1_000_000));
        }
    }

    #[test]
    fn the_largest_outlines_are_stated() {
        let stated = all().into_iter().filter(|case| case.expected.number() == 0);
        let stated: Vec<ReviseCase> = stated.collect();
        let has = |records: usize, of_taxa: usize| {
            stated.iter().any(|case| {
                let outline = &case.call.given.outline;
                outline.len() == RECORD_BYTES * records
                    && taxa(&outline::records(outline)).len() == of_taxa
            })
        };
        assert!(has(127, 64) && has(127, 2) && has(1, 1));
    }
}
