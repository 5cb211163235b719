//! A record that gets lengths one after another and its own again, compared with every subset and beside the choice before each; and
//! what all steps so far come to, beside one step from the first outline.

use std::collections::HashMap;

use crate::call::Call;
use crate::compare::{self, Comparison};
use crate::expect::{by_exhaustive_search, Expected};
use crate::library::{self, ReviseBuffers, ReviseObserved, Reviser};
use crate::outline::{bytes, Record};
use crate::quick_runs::fill_for_ties;
use crate::random::Random;
use crate::report::Stop;
use crate::revise::{self, ReviseCall, ReviseExpected, Revised};
use crate::revise_runs::{beside_old_choices, near_length, outline_of_many_lengths};
use crate::runs::{small_outline, Runner, WAYS};
use crate::shapes;
use crate::spanning::Tally;

/// Every record of every shape of up to so many records is walked.
const SMALL: usize = 5;
/// Each of these shapes is filled so many times.
const FILLINGS: usize = 4;
/// They are chosen from for each page count up to this.
const SMALL_COUNT: u32 = 5;
/// Their own lengths are up to 9.
const SMALL_LENGTHS: [u32; 7] = [0, 1, 3, 9, 10, 1_000_000, 4];

/// How much of the length's movement the best takes part in.
#[derive(PartialEq)]
pub(crate) enum Part {
    All,
    Some,
    None,
}

/// Whether the length moves this way and the best with it so far.
pub(crate) fn moves([best, length]: [i64; 2], upwards: bool, part: Part) -> bool {
    let moves_so = match part {
        Part::All => best == length,
        Part::Some => best != length && best != 0,
        Part::None => best == 0,
    };
    length != 0 && upwards == (length > 0) && moves_so
}

/// A small outline, a record by its position, the lengths that it gets, and the page count and way to choose by.
struct Walk<'a> {
    records: &'a [Record],
    at: usize,
    lengths: &'a [u32],
    count: u32,
    way: u32,
}

/// A call, what is expected of it and what was compared.
struct Compared {
    call: ReviseCall,
    expected: ReviseExpected,
    /// What a choice before gives; nothing on a refusal.
    old: Option<Expected>,
    comparison: Comparison,
}

/// From the outline as it is by then, and from the first one.
type Step = [Compared; 2];

/// What a choosing call of an outline gives; each outline is solved once.
type Solved = HashMap<Vec<u8>, Expected>;

impl Walk<'_> {
    /// The last step leads back to the record's own length. Where no set fits, the first step is the last.
    fn steps(&self, reviser: Reviser, rng: &mut Random) -> Vec<Step> {
        let (mut solved, mut steps) = (Solved::new(), Vec::new());
        let mut records = self.records.to_vec();
        let own = records[self.at].length;
        let mut so_far = [0, 0];
        for &length in self.lengths.iter().chain([&own]) {
            let step = self.call(&records, length, rng);
            let revised = by_subsets(&step, &mut solved, rng);
            let observed = reviser(&step, ReviseBuffers::random(&step, rng));
            so_far = [0, 1].map(|at| observed.moved()[at].wrapping_add(so_far[at]));
            let direct = self.call(self.records, length, rng);
            let (mut together, old) = by_subsets(&direct, &mut solved, rng);
            together.moved = so_far;
            let at_once = reviser(&direct, ReviseBuffers::random(&direct, rng));
            records[self.at].length = length;
            steps.push([
                compared(step, revised, &observed),
                compared(direct, (together, old), &at_once),
            ]);
            if observed.chosen.returned != 0 {
                break;
            }
        }
        steps
    }

    fn call(&self, records: &[Record], length: u32, rng: &mut Random) -> ReviseCall {
        ReviseCall {
            given: Call::roomy(bytes(records), self.count, self.way, rng),
            record: self.at as u32 + 1,
            length,
        }
    }
}

fn by_subsets(call: &ReviseCall, solved: &mut Solved, rng: &mut Random) -> Revised {
    let solve = |call: &Call| {
        let entry = solved.entry(call.outline.clone());
        entry
            .or_insert_with(|| by_exhaustive_search(call, rng))
            .clone()
    };
    revise::expected(call, solve)
}

fn compared(call: ReviseCall, (expected, old): Revised, observed: &ReviseObserved) -> Compared {
    let mut comparison = compare::revise(&expected, observed);
    let differences = beside_old_choices(&call, old.as_ref(), observed);
    comparison.differences.extend(differences);
    Compared {
        call,
        expected,
        old,
        comparison,
    }
}

/// What the walks came to.
#[derive(Default)]
struct Met {
    /// Steps upwards by all of the difference, by some of it, by none, and the same downwards.
    moved: [u64; 6],
    /// Walks on which another set is chosen at times.
    other_sets: u64,
    /// Walks on which the best never moves.
    still: u64,
    refused: u64,
    /// Of every call, from the outline as it is by then and from the first one.
    beside_old: Tally,
}

impl Met {
    fn add(&mut self, steps: &[Step]) {
        let expected: Vec<&ReviseExpected> = steps.iter().map(|[step, _]| &step.expected).collect();
        for expected in &expected {
            self.add_step(expected.moved);
        }
        for compared in steps.iter().flatten() {
            let old = compared.old.as_ref();
            self.beside_old.add(&compared.call, &compared.expected, old);
        }
        let marks = |expected: &&ReviseExpected| expected.choice.marks.clone();
        let mut sets: Vec<Vec<u8>> = expected.iter().map(marks).collect();
        sets.dedup();
        let refused = expected[0].number() != 0;
        let still = expected.iter().all(|expected| expected.moved[0] == 0);
        self.other_sets += u64::from(sets.len() > 1);
        self.still += u64::from(still && !refused);
        self.refused += u64::from(refused);
    }

    fn add_step(&mut self, moved: [i64; 2]) {
        let ways = [true, false];
        let kinds =
            ways.map(|up| [Part::All, Part::Some, Part::None].map(|part| moves(moved, up, part)));
        for (times, holds) in self.moved.iter_mut().zip(kinds.concat()) {
            *times += u64::from(holds);
        }
    }

    fn named(&self) -> [(&'static str, u64); 9] {
        let [all, some, none, all_down, some_down, none_down] = self.moved;
        [
            ("steps up by all of it", all),
            ("up by some of it", some),
            ("up by none of it", none),
            ("down by all of it", all_down),
            ("down by some of it", some_down),
            ("down by none of it", none_down),
            ("walks by way of another set", self.other_sets),
            ("walks on which the best stays", self.still),
            ("walks refused by 12", self.refused),
        ]
    }
}

impl Runner {
    pub(crate) fn length_walks(&mut self, outlines: u64) -> Result<(), Stop> {
        self.start('G');
        let mut met = Met::default();
        for _ in 0..outlines {
            let (records, count) = some_small_outline(&mut self.rng);
            let at = self.rng.index(records.len());
            let lengths = [(); 4].map(|()| near_length(&records, at, &mut self.rng));
            self.walk_both_ways(&records, at, &lengths, count, &mut met)?;
        }
        for shape in (1..=SMALL).flat_map(shapes::every_outline) {
            for _ in 0..FILLINGS {
                let mut records = shape.clone();
                fill_for_ties(&mut records, &mut self.rng);
                self.walk_every_record(&records, &mut met)?;
            }
        }
        self.report.line(&format!(
            "G. a record of {outlines} outlines, and each of every shape of up to {SMALL} records filled {FILLINGS} times for page \
             counts up to {SMALL_COUNT}, given lengths one after another and its own again, against every subset and beside the \
             choice before each"
        ));
        self.report.met("with", &met.named(), outlines / 10);
        met.beside_old.report(&mut self.report, outlines / 10);
        Ok(())
    }

    fn walk_every_record(&mut self, records: &[Record], met: &mut Met) -> Result<(), Stop> {
        for at in 0..records.len() {
            for count in 0..=SMALL_COUNT {
                self.walk_both_ways(records, at, &SMALL_LENGTHS, count, met)?;
            }
        }
        Ok(())
    }

    fn walk_both_ways(
        &mut self,
        records: &[Record],
        at: usize,
        lengths: &[u32],
        count: u32,
        met: &mut Met,
    ) -> Result<(), Stop> {
        for way in WAYS {
            let walk = Walk {
                records,
                at,
                lengths,
                count,
                way,
            };
            let steps = walk.steps(&library::revise, &mut self.rng);
            met.add(&steps);
            for compared in steps.into_iter().flatten() {
                let Compared {
                    call,
                    expected,
                    comparison,
                    ..
                } = compared;
                self.add_revision(&call, &expected, &comparison)?;
            }
        }
        Ok(())
    }
}

pub(crate) fn some_small_outline(rng: &mut Random) -> (Vec<Record>, u32) {
    if rng.one_in(2) {
        small_outline(rng)
    } else {
        outline_of_many_lengths(rng)
    }
}

#[cfg(test)]
mod tests {
    use super::*;
    use crate::cases::tree_a;
    use crate::lock_cases::locking;
    use crate::wrong_revisions::{self, RIGHT};

    /// Record 3 of tree A, which is in the best set at lengths of 3 or more.
    fn walk(records: &[Record], count: u32) -> Walk<'_> {
        Walk {
            records,
            at: 2,
            lengths: &[9, 3, 0, 1],
            count,
            way: 0,
        }
    }

    #[test]
    fn the_steps_of_a_walk_come_to_one_step_and_at_last_to_nothing() {
        let rng = &mut Random::new(1);
        let steps = walk(&tree_a(), 5).steps(&RIGHT.run(), rng);
        let moved = |at: usize| -> Vec<[i64; 2]> {
            let steps = steps.iter();
            steps.map(|step| step[at].expected.moved).collect()
        };
        assert_eq!(moved(0), [[5, 5], [-6, -6], [-1, -3], [0, 1], [2, 3]]);
        assert_eq!(moved(1), [[5, 5], [-1, -1], [-2, -4], [-2, -3], [0, 0]]);
        let mut met = Met::default();
        met.add(&steps);
        assert_eq!(met.moved, [1, 1, 1, 1, 1, 0]);
        assert_eq!((met.other_sets, met.still, met.refused), (1, 0, 0));
        met.add(&walk(&tree_a(), 0).steps(&RIGHT.run(), rng));
        let refused = walk(&locking(&[3], tree_a()), 2).steps(&RIGHT.run(), rng);
        assert_eq!(refused.len(), 1);
        met.add(&refused);
        assert_eq!((met.other_sets, met.still, met.refused), (1, 1, 1));
    }

    /// How many of these walks have a difference.
    fn noticed(reviser: Reviser) -> usize {
        let rng = &mut Random::new(2);
        let mut differs = || {
            let (records, count) = some_small_outline(rng);
            let at = rng.index(records.len());
            let lengths = [(); 4].map(|()| near_length(&records, at, rng));
            let walk = Walk {
                records: &records,
                at,
                lengths: &lengths,
                count,
                way: rng.up_to(1),
            };
            let steps = walk.steps(reviser, rng);
            let mut compared = steps.iter().flatten();
            compared.any(|compared| !compared.comparison.differences.is_empty())
        };
        (0..100).filter(|_| differs()).count()
    }

    #[test]
    fn wrong_programs_are_noticed_on_walks() {
        assert_eq!(noticed(&RIGHT.run()), 0);
        for (name, program) in wrong_revisions::named(&[
            "stored at the record after",
            "the greater length stored",
            "the root left as it is",
            "the old best at one quarter less",
            "the length's movement for both",
            "no movement downwards",
            "no movement where the set is another",
            "the old curve left",
            "the last work number left",
            "the movement left on a refusal by 12",
            "one less where a spanned length rises",
            "a tie broken otherwise",
        ]) {
            assert!(noticed(&program.run()) > 3, "{name}");
        }
    }
}
