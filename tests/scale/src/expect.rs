//! What documents 01 and 02 say a choosing call gives, worked out without the library.

use crate::call::Call;
use crate::earlier::{self, Rules};
use crate::exhaustive::{self, Solution};
use crate::library::work_len;
use crate::outline::{self, Record};
use crate::random::Random;
use crate::rules::{self, Refusal};
use crate::table;

/// The answer and what is written into the buffers; nothing on a refusal.
#[derive(Clone, Debug, PartialEq, Eq)]
pub struct Expected {
    /// Number, place, diversity, cost, taxa, spare.
    pub answer: [u32; 6],
    pub marks: Vec<u8>,
    pub curve: Vec<u32>,
    /// So many zeros stand at the start of work.
    pub work: usize,
}

impl Expected {
    pub fn refused(refusal: Refusal) -> Self {
        Expected {
            answer: [refusal.number, refusal.place, 0, 0, 0, 0],
            marks: Vec::new(),
            curve: Vec::new(),
            work: 0,
        }
    }

    pub fn selection(solution: Solution) -> Self {
        let spare = exhaustive::spare(&solution.columns);
        Expected::with_spare(solution, spare)
    }

    fn with_spare(solution: Solution, spare: u32) -> Self {
        let Solution { columns, marks } = solution;
        let last = columns.len() - 1;
        let [diversity, cost] = columns[last];
        let taxa = marks.iter().filter(|&&mark| mark == 1).count() as u32;
        Expected {
            answer: [0, 0, diversity, cost, taxa, spare],
            work: work_len(marks.len(), last as u32),
            curve: columns.concat(),
            marks,
        }
    }
}

/// The refusal or, if there is none, the selection that is worked out.
fn judged(call: &Call, solve: impl FnOnce(&[Record]) -> Option<Solution>) -> Expected {
    match rules::choose(call, solve) {
        Ok(solution) => Expected::selection(solution),
        Err(refusal) => Expected::refused(refusal),
    }
}

/// By the exhaustive search, every other time in a mixed order of the subsets.
pub fn by_exhaustive_search(call: &Call, rng: &mut Random) -> Expected {
    judged(call, |records| {
        let mut order = exhaustive::subsets(outline::taxa(records).len());
        if rng.one_in(2) {
            rng.shuffle(&mut order);
        }
        exhaustive::search(records, call.way, call.count, &order)
    })
}

/// By rules that are earlier than locks.
pub fn by_earlier_rules(earlier: Rules, call: &Call) -> Expected {
    if let Some(refusal) = earlier.choose(call) {
        return Expected::refused(refusal);
    }
    let records = outline::records(&call.outline);
    let solution = earlier.search(&records, call.way, call.count);
    let spare = earlier::spare(&solution.columns);
    Expected::with_spare(solution, spare)
}

pub fn by_table(call: &Call) -> Expected {
    judged(call, |records| table::solve(records, call.way, call.count))
}

/// Whether the exhaustive search takes few steps.
pub fn is_small(call: &Call) -> bool {
    const MOST_STEPS: u64 = 1 << 17;
    let taxa = outline::taxa(&outline::records(&call.outline)).len();
    taxa <= 10 && (u64::from(call.count) + 1) << taxa <= MOST_STEPS
}

/// By the exhaustive search where it takes few steps, otherwise by the table.
pub fn by_size(call: &Call, rng: &mut Random) -> Expected {
    if is_small(call) {
        by_exhaustive_search(call, rng)
    } else {
        by_table(call)
    }
}

#[cfg(test)]
mod tests {
    use super::*;
    use crate::cases::tree_a;
    use crate::damage;
    use crate::lock_cases::{self, locking, CurveCase};
    use crate::outline::{bytes, ROOTED};

    #[test]
    fn refusal_12_comes_after_9_and_writes_nothing() {
        let rng = &mut Random::new(1);
        let outline = bytes(&locking(&[3], tree_a()));
        let mut call = Call::roomy(outline, 2, ROOTED, rng);
        for number in [12, 9] {
            for expected in [by_exhaustive_search(&call, rng), by_table(&call)] {
                assert_eq!(expected.answer, [number, 0, 0, 0, 0, 0]);
                assert_eq!((expected.marks, expected.curve), (vec![], vec![]));
                assert_eq!(expected.work, 0);
            }
            call.marks = 4;
        }
    }

    #[test]
    fn stated_answers_are_given() {
        let rng = &mut Random::new(3);
        for CurveCase { case, columns } in lock_cases::all() {
            let call = Call::roomy(bytes(&case.records), case.count, case.way, rng);
            let taxa = case.chosen.len() as u32;
            let answer = [0, 0, case.diversity, case.cost, taxa, case.spare];
            for expected in [by_table(&call), by_size(&call, rng)] {
                assert_eq!(expected.answer, answer, "{}", case.name);
                assert_eq!(expected.marks, case.marks(), "{}", case.name);
                assert_eq!(expected.curve, columns.concat(), "{}", case.name);
            }
        }
    }

    #[test]
    fn a_column_without_a_set_is_written_as_such() {
        let rng = &mut Random::new(1);
        let outline = bytes(&locking(&[3], tree_a()));
        let call = Call::roomy(outline, 3, ROOTED, rng);
        for expected in [by_exhaustive_search(&call, rng), by_table(&call)] {
            let blank = 4_294_967_295;
            assert_eq!(expected.answer, [0, 0, 7, 3, 1, 0]);
            assert_eq!(expected.curve, [0, blank, 0, blank, 0, blank, 7, 3]);
        }
    }

    #[test]
    fn earlier_rules_expect_the_same_where_they_hold() {
        let rng = &mut Random::new(2);
        let (mut selections, mut refusals) = (0, 0);
        for _ in 0..5_000 {
            let call = damage::damaged_call(rng);
            if !is_small(&call) {
                continue;
            }
            let today = by_exhaustive_search(&call, rng);
            for &rules in earlier::still_hold(&outline::records(&call.outline)) {
                assert_eq!(by_earlier_rules(rules, &call), today, "{call:?}");
                selections += u32::from(today.answer[0] == 0);
                refusals += u32::from(today.answer[0] != 0);
            }
        }
        assert!(
            selections > 300 && refusals > 1_000,
            "{selections}, {refusals}"
        );
    }
}
