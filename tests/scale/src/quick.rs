//! A call that chooses quickly, and what document 02, §8, says it gives: for each pick every set that it could make is measured
//! from the start, by the exhaustive search's measures.

use crate::measures::Measures;
use crate::outline::{self, Record, ROOTED};
use crate::rules::{self, Refusal};

pub const MOST_PICKS: u32 = 64;

/// `marks` is the buffer's length in bytes.
#[derive(Clone, Debug, PartialEq, Eq)]
pub struct QuickCall {
    pub outline: Vec<u8>,
    pub count: u32,
    pub picks: u32,
    pub marks: usize,
}

/// The answer, the ceiling and what is written to the marks; nothing on a refusal.
#[derive(Clone, Debug, PartialEq, Eq)]
pub struct QuickExpected {
    /// Number, place, diversity, cost, taxa.
    pub answer: [u32; 5],
    pub ceiling: u64,
    pub marks: Vec<u8>,
}

impl QuickExpected {
    pub fn refused(refusal: Refusal) -> Self {
        QuickExpected {
            answer: [refusal.number, refusal.place, 0, 0, 0],
            ceiling: 0,
            marks: Vec::new(),
        }
    }
}

pub fn expected(call: &QuickCall) -> QuickExpected {
    judged(call).map_or_else(QuickExpected::refused, |records| {
        let choice = Choice::after(&records, call.count, call.picks);
        QuickExpected {
            answer: [0, 0, choice.diversity, choice.cost, choice.taxa()],
            ceiling: choice.ceiling(),
            marks: choice.measures.marks(choice.set),
        }
    })
}

/// The records, or the first of refusals 2, 3, 4, 15, 5 to 8, 9 and 12 that holds.
fn judged(call: &QuickCall) -> Result<Vec<Record>, Refusal> {
    let records = outline::records(&call.outline);
    let refusal = rules::partial_record(&call.outline)
        .or_else(|| rules::too_many_records(&records))
        .or_else(|| rules::count_too_large(call.count))
        .or_else(|| rules::without_place(15, call.picks > MOST_PICKS))
        .or_else(|| rules::content(&records))
        .or_else(|| rules::without_place(9, call.marks < records.len()))
        .or_else(|| rules::without_place(12, locked_cost(&records) > call.count));
    refusal.map_or(Ok(records), Err)
}

/// What the locked taxa cost by themselves, with the headings above them.
fn locked_cost(records: &[Record]) -> u32 {
    let measures = Measures::new(records, ROOTED);
    let [cost, _] = measures.of(measures.locked());
    cost
}

/// What a taxon adds to a set.
#[derive(Clone, Copy, Debug, PartialEq, Eq)]
pub struct Added {
    /// Where the taxon stands, from 0.
    pub position: usize,
    /// The taxon's own price.
    pub price: u32,
    /// The quarters that the set costs more, headings included.
    pub quarters: u32,
    pub diversity: u32,
}

/// What a pick is made from, step by step. Nothing is picked where nothing can be.
#[derive(Clone, Debug)]
pub struct Pick {
    /// The quarters that the set leaves of the page count.
    pub room: u32,
    /// The taxa that are not in the set.
    pub others: Vec<Added>,
    /// Those that fit with their headings and add more than 0.
    pub candidates: Vec<Added>,
    /// Of these, those that add the most diversity.
    pub most: Vec<Added>,
    /// Of these, those that add the fewest quarters, in record order.
    pub fewest: Vec<Added>,
}

impl Pick {
    fn from(others: Vec<Added>, room: u32) -> Self {
        let candidates = only(&others, |added| {
            added.quarters <= room && added.diversity > 0
        });
        let diversity = candidates.iter().map(|added| added.diversity).max();
        let most = only(&candidates, |added| Some(added.diversity) == diversity);
        let quarters = most.iter().map(|added| added.quarters).min();
        let fewest = only(&most, |added| Some(added.quarters) == quarters);
        Pick {
            room,
            others,
            candidates,
            most,
            fewest,
        }
    }

    /// The lowest record of what is left.
    pub fn taken(&self) -> Option<Added> {
        self.fewest.first().copied()
    }
}

fn only(added: &[Added], holds: impl Fn(&Added) -> bool) -> Vec<Added> {
    let mut only = added.to_vec();
    only.retain(holds);
    only
}

/// A set of an accepted outline that fits a page count, and the picks that made it.
pub struct Choice<'a> {
    records: &'a [Record],
    measures: Measures<'a>,
    count: u32,
    set: u64,
    cost: u32,
    diversity: u32,
    pub picks: Vec<Pick>,
}

impl<'a> Choice<'a> {
    /// After at most so many picks. The locked taxa fit.
    pub fn after(records: &'a [Record], count: u32, picks: u32) -> Self {
        let mut choice = Choice::of_locked(records, count);
        for _ in 0..picks {
            let pick = choice.next_pick();
            let Some(taken) = pick.taken() else { break };
            choice.set |= choice.measures.bit(taken.position);
            choice.measure();
            choice.picks.push(pick);
        }
        choice
    }

    fn of_locked(records: &'a [Record], count: u32) -> Self {
        let measures = Measures::new(records, ROOTED);
        let mut choice = Choice {
            records,
            set: measures.locked(),
            measures,
            count,
            cost: 0,
            diversity: 0,
            picks: Vec::new(),
        };
        choice.measure();
        choice
    }

    fn measure(&mut self) {
        [self.cost, self.diversity] = self.measures.of(self.set);
    }

    /// The pick that would come next.
    pub fn next_pick(&self) -> Pick {
        Pick::from(self.others(), self.count - self.cost)
    }

    fn others(&self) -> Vec<Added> {
        let others = self.measures.outside(self.set).into_iter();
        others.map(|taxon| self.added(taxon)).collect()
    }

    fn added(&self, position: usize) -> Added {
        let with = self.set | self.measures.bit(position);
        let [cost, diversity] = self.measures.of(with);
        Added {
            position,
            price: self.records[position].price,
            quarters: cost - self.cost,
            diversity: diversity - self.diversity,
        }
    }

    fn taxa(&self) -> u32 {
        self.set.count_ones()
    }

    /// A taxon counts by its own price, whether it still fits or not.
    fn ceiling(&self) -> u64 {
        let affordable = only(&self.others(), |added| added.price <= self.count);
        let added = affordable.iter().map(|added| u64::from(added.diversity));
        u64::from(self.diversity) + added.sum::<u64>()
    }
}

#[cfg(test)]
mod tests {
    use super::*;
    use crate::exhaustive;
    use crate::locks;
    use crate::outline::bytes;
    use crate::quick_cases;
    use crate::random::Random;
    use crate::runs::small_outline;

    #[test]
    fn stated_quick_choices_are_given() {
        for case in quick_cases::all() {
            assert_eq!(expected(&case.call), case.expected, "{}", case.name);
        }
    }

    fn added(position: usize, quarters: u32, diversity: u32) -> Added {
        Added {
            position,
            price: 0,
            quarters,
            diversity,
        }
    }

    #[test]
    fn a_pick_is_made_step_by_step() {
        let others = [
            added(2, 8, 9),
            added(3, 0, 0),
            added(4, 6, 5),
            added(5, 4, 5),
            added(6, 4, 5),
            added(7, 1, 4),
        ];
        let pick = |room| Pick::from(others.into(), room);
        let lengths = |pick: &Pick| [&pick.candidates, &pick.most, &pick.fewest].map(Vec::len);
        for (room, left, taken) in [
            (0, [0, 0, 0], None),
            (1, [1, 1, 1], Some(7)),
            (4, [3, 2, 2], Some(5)),
            (7, [4, 3, 2], Some(5)),
            (8, [5, 1, 1], Some(2)),
        ] {
            let pick = pick(room);
            assert_eq!(lengths(&pick), left, "{room}");
            assert_eq!(pick.taken().map(|added| added.position), taken, "{room}");
            assert_eq!(pick.others, others);
        }
    }

    /// A small outline, and what is expected of a call with so many picks.
    fn choice(picks: u32, (records, count): &(Vec<Record>, u32)) -> QuickExpected {
        expected(&QuickCall {
            outline: bytes(records),
            count: *count,
            picks,
            marks: records.len(),
        })
    }

    #[test]
    fn refusal_12_is_given_exactly_where_no_set_fits() {
        let rng = &mut Random::new(1);
        let (mut refused, mut chosen) = (0, 0);
        for _ in 0..1_000 {
            let (records, count) = small_outline(rng);
            assert_eq!(locked_cost(&records), locks::cost(&records));
            let best = exhaustive::best(&records, ROOTED, count);
            let [number, ..] = choice(rng.up_to(9), &(records, count)).answer;
            assert_eq!(number, if best.is_none() { 12 } else { 0 });
            refused += u32::from(number == 12);
            chosen += u32::from(number == 0);
        }
        assert!(refused > 100 && chosen > 500, "{refused}, {chosen}");
    }

    #[test]
    fn the_best_is_between_the_diversity_and_the_ceiling() {
        let rng = &mut Random::new(2);
        let (mut as_good, mut worse, mut at_ceiling) = (0, 0, 0);
        for _ in 0..1_000 {
            let small = small_outline(rng);
            let Some([best, _]) = exhaustive::best(&small.0, ROOTED, small.1) else {
                continue;
            };
            let expected = choice(rng.pick(&[0, 1, 2, 64]), &small);
            let diversity = expected.answer[2];
            assert!(diversity <= best && u64::from(best) <= expected.ceiling);
            as_good += u32::from(diversity == best);
            worse += u32::from(diversity < best);
            at_ceiling += u32::from(u64::from(best) == expected.ceiling);
        }
        assert!(as_good > 100 && worse > 100 && at_ceiling > 100);
    }

    #[test]
    fn more_picks_keep_what_fewer_have_taken_and_raise_no_ceiling() {
        let rng = &mut Random::new(3);
        let mut steps = 0;
        for _ in 0..300 {
            let small = small_outline(rng);
            let mut fewer = choice(0, &small);
            for picks in 1..=12 {
                let more = choice(picks, &small);
                assert!(more.answer[2] >= fewer.answer[2]);
                assert!(more.ceiling <= fewer.ceiling);
                assert!(more.answer[4] - fewer.answer[4] <= 1);
                let mut pairs = fewer.marks.iter().zip(&more.marks);
                assert!(pairs.all(|(fewer, more)| fewer <= more));
                steps += more.answer[4] - fewer.answer[4];
                fewer = more;
            }
        }
        assert!(steps > 300, "{steps}");
    }
}
