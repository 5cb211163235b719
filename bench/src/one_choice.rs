//! A call that chooses more than once, and a plain program in its place, beside one call of `plates_choose`.

use crate::case::Buffers;
use crate::instances::{shapes_at_full_size, sizes, Instance, COUNT, TAXA};
use crate::times::{timed, Times};
use plates_scale::call::{needed, Call};
use plates_scale::cases::tree_a;
use plates_scale::library;
use plates_scale::outline::{taxa, ROOTED, UNROOTED};
use std::hint::black_box;

/// At small counts what is done once for each call tells.
pub const COUNTS: [u32; 6] = [0, 16, 64, 256, 1_024, COUNT];
/// Calls of each in a round go over about so many cells, a record's column being one: those at small counts are many.
const CELLS: usize = 600_000;
const LEAST_CALLS: usize = 2;
const MOST_CALLS: usize = 10;

/// What a call writes to: marks, curve and work.
pub type Lent<'a> = (&'a mut [u8], &'a mut [u32], &'a mut [u64]);

/// The times of all three, for one outline, way and count.
pub struct Beside {
    pub name: String,
    pub records: usize,
    pub way: u32,
    pub count: u32,
    pub choosing: Times,
    pub plates: Times,
    pub plain: Times,
}

impl Beside {
    pub fn new(instance: &Instance, way: u32, count: u32) -> Self {
        Beside {
            name: instance.name.clone(),
            records: instance.records.len(),
            way,
            count,
            choosing: Times::default(),
            plates: Times::default(),
            plain: Times::default(),
        }
    }

    /// A call for this way and count, with as much of each buffer as it needs.
    pub fn call(&self, outline: &[u8]) -> Call {
        let [marks, curve, work] = needed(self.records, self.count);
        Call {
            outline: outline.to_vec(),
            count: self.count,
            way: self.way,
            marks,
            curve,
            work,
        }
    }

    fn calls(&self) -> usize {
        let cells = self.records * (self.count as usize + 1);
        (CELLS / cells).clamp(LEAST_CALLS, MOST_CALLS)
    }

    /// Calls of each, in turn: of `plates_choose` on an outline, of plates and of the plain program. Those of these two are handed
    /// how many came before. A choice that is not timed comes first, so that all find the caches alike.
    pub fn measure<T>(
        &mut self,
        outline: &[u8],
        buffers: &mut Buffers,
        mut plates: impl FnMut(usize, Lent) -> T,
        mut plain: impl FnMut(usize, Lent) -> T,
    ) {
        let (records, count, way) = (self.records, self.count, self.way);
        let choose = |(marks, curve, work): Lent| {
            library::choose(black_box(outline), count, way, marks, curve, work)
        };
        choose(buffers.needed(records, count));
        for _ in 0..self.calls() {
            let turn = self.plates.len();
            let lent = buffers.needed(records, count);
            add_time(&mut self.choosing, || choose(lent));
            let lent = buffers.needed(records, count);
            add_time(&mut self.plates, || plates(turn, lent));
            let lent = buffers.needed(records, count);
            add_time(&mut self.plain, || plain(turn, lent));
        }
    }
}

fn add_time<T>(times: &mut Times, call: impl FnOnce() -> T) {
    let (answer, seconds) = timed(call);
    black_box(answer);
    times.add(seconds);
}

/// Each shape, both ways, by growing count; smaller trees at the largest count; and tree A.
pub fn for_each_case(mut add: impl FnMut(&Instance, u32, u32)) {
    let mut both_ways = |instance: &Instance, count| {
        [ROOTED, UNROOTED]
            .into_iter()
            .for_each(|way| add(instance, way, count));
    };
    for instance in &shapes_at_full_size() {
        for count in COUNTS {
            both_ways(instance, count.min(instance.count));
        }
    }
    let mut smaller = sizes();
    smaller.retain(|instance| taxa(&instance.records).len() < TAXA);
    for instance in &smaller {
        both_ways(instance, COUNT);
    }
    let tree_a = Instance {
        name: "tree A".to_string(),
        records: tree_a(),
        count: 5,
    };
    both_ways(&tree_a, tree_a.count);
}

/// What a program makes of a call: its answer, and the buffers after it.
#[derive(Default, PartialEq)]
pub struct Outcome<T> {
    pub answer: T,
    marks: Vec<u8>,
    curve: Vec<u32>,
    work: Vec<u64>,
}

impl<T> Outcome<T> {
    /// In the same memory: `work` may be 17 MB.
    pub fn renew(&mut self, call: &Call, program: impl FnOnce(Lent) -> T) {
        let Outcome {
            answer,
            marks,
            curve,
            work,
        } = self;
        fill(marks, call.marks, 0xa5);
        fill(curve, call.curve, 0xa5a5_a5a5);
        fill(work, call.work, 0xa5a5_a5a5_a5a5_a5a5);
        *answer = program((marks, curve, work));
    }
}

fn fill<T: Copy>(buffer: &mut Vec<T>, len: usize, value: T) {
    buffer.clear();
    buffer.resize(len, value);
}

#[cfg(test)]
mod tests {
    use super::*;
    use crate::RECORDS;
    use plates_scale::outline::bytes;

    #[test]
    fn a_round_has_as_many_calls_of_each_and_fewer_of_long_ones() {
        let mut buffers = Buffers::new(RECORDS, COUNT);
        let instance = &shapes_at_full_size()[0];
        let outline = bytes(&instance.records);
        for (count, calls) in [(0, 10), (256, 10), (1_024, 4), (4_096, 2)] {
            let mut beside = Beside::new(instance, ROOTED, count);
            let (mut turns, mut plain) = (vec![], vec![]);
            for _ in 0..2 {
                let plates = |turn, _: Lent| turns.push(turn);
                beside.measure(&outline, &mut buffers, plates, |turn, _| plain.push(turn));
            }
            let times = [&beside.choosing, &beside.plates, &beside.plain];
            assert_eq!(times.map(Times::len), [2 * calls; 3]);
            let expected: Vec<usize> = (0..2 * calls).collect();
            assert_eq!([turns, plain], [expected.clone(), expected]);
        }
    }

    #[test]
    fn what_a_call_writes_is_part_of_the_outcome() {
        let instance = &shapes_at_full_size()[0];
        let call = Beside::new(instance, ROOTED, 64).call(&bytes(&instance.records));
        let outcome = |program: fn(Lent) -> u32| {
            let mut outcome = Outcome::default();
            outcome.renew(&call, program);
            outcome
        };
        let right = outcome(|_| 1);
        assert!(right == outcome(|_| 1));
        let wrong: [fn(Lent) -> u32; 4] = [
            |_| 2,
            |(marks, _, _)| {
                marks[126] ^= 1;
                1
            },
            |(_, curve, _)| {
                curve[129] += 1;
                1
            },
            |(_, _, work)| {
                work[33_539] += 1;
                1
            },
        ];
        assert!(wrong.iter().all(|&wrong| right != outcome(wrong)));
    }
}
