//! Locked taxa (document 02, §4): how many outlines have any and what came of them, and random kinds of them with page counts
//! about their cost.

use crate::exhaustive::NOTHING;
use crate::expect::Expected;
use crate::headings;
use crate::outline::{members, taxa, Record, LOCK};
use crate::random::Random;

/// Whether a taxon is locked.
pub fn has_any(records: &[Record]) -> bool {
    records.iter().any(Record::is_locked)
}

fn are_all(records: &[Record]) -> bool {
    taxa(records).iter().all(|&at| records[at].is_locked())
}

/// The records that are, or have below them, a locked taxon. The links are sound.
fn above_locked(records: &[Record]) -> impl Iterator<Item = &Record> {
    let mut above: Vec<bool> = records.iter().map(Record::is_locked).collect();
    for group in (0..records.len()).rev() {
        let members = members(records, group);
        above[group] |= members.into_iter().any(|member| above[member]);
    }
    let pairs = records.iter().zip(above);
    pairs.filter(|(_, above)| *above).map(|(record, _)| record)
}

/// What the locked taxa of a sound outline cost with the headings above them.
pub fn cost(records: &[Record]) -> u32 {
    above_locked(records).map(|record| record.price).sum()
}

/// Whether a locked taxon of a sound outline stands below a heading that costs something.
fn has_below_heading(records: &[Record]) -> bool {
    above_locked(records).any(|record| !record.is_taxon() && record.price > 0)
}

/// How many outlines have locks, and what the calls with them came to.
#[derive(Clone, Copy, Debug, Default, PartialEq, Eq)]
pub struct Tally {
    pub with: u64,
    pub without: u64,
    /// Outlines that have no headings either.
    pub neither: u64,
    /// Outlines whose taxa are all locked.
    pub all: u64,
    /// Calls that no set fits.
    pub refused: u64,
    /// Selections with a column before that no set fits.
    pub blank: u64,
    /// Those of them where a set fits the last column only.
    pub tight: u64,
    /// Selections with locks and of diversity 0.
    pub no_diversity: u64,
    /// Selections with a locked taxon below a heading that costs something.
    pub headed: u64,
}

impl Tally {
    pub fn add(&mut self, records: &[Record]) {
        if has_any(records) {
            self.with += 1;
            self.all += u64::from(are_all(records));
        } else {
            self.without += 1;
            self.neither += u64::from(!headings::has_any(records));
        }
    }

    pub fn add_call(&mut self, records: &[Record], expected: &Expected) {
        let [number, _, diversity, ..] = expected.answer;
        self.refused += u64::from(number == 12);
        if number != 0 || !has_any(records) {
            return;
        }
        let columns = expected.curve.chunks(2);
        let blank = columns.filter(|&column| column == NOTHING).count();
        self.blank += u64::from(blank > 0);
        self.tight += u64::from(blank > 0 && 2 * (blank + 1) == expected.curve.len());
        self.no_diversity += u64::from(diversity == 0);
        self.headed += u64::from(has_below_heading(records));
    }
}

/// Five times in eight locks taxa. Gives the page count to be used: the one that is meant for the outline, or one about the cost
/// of the locked taxa that is at most `most`.
pub fn fill_at_times(records: &mut [Record], count: u32, most: u32, rng: &mut Random) -> u32 {
    if rng.below(8) < 5 {
        fill_randomly(records, count, most, rng)
    } else {
        count
    }
}

/// Locks one taxon, some or all, and gives the page count as above. Where it is not all, they mostly fit the given one.
pub fn fill_randomly(records: &mut [Record], count: u32, most: u32, rng: &mut Random) -> u32 {
    let mut some = taxa(records);
    rng.shuffle(&mut some);
    let all = some.len();
    some.truncate(match rng.below(6) {
        0 => 1,
        1 => all.div_ceil(4),
        2 => all.div_ceil(2),
        3 => 1 + rng.index(all),
        4 => all.max(2) - 1,
        _ => all,
    });
    let any_cost = some.len() == all || rng.one_in(8);
    lock(records, &some, if any_cost { u32::MAX } else { count });
    count_about(cost(records), count, most, rng)
}

/// Locks each of some taxa that fits the page count with those before it, and one if none does.
fn lock(records: &mut [Record], some: &[usize], count: u32) {
    for &position in some {
        records[position].plate |= LOCK;
        if cost(records) > count {
            records[position].plate &= !LOCK;
        }
    }
    if !has_any(records) {
        records[some[0]].plate |= LOCK;
    }
}

/// As it is, or one below the cost, at it, or somewhat above.
fn count_about(cost: u32, count: u32, most: u32, rng: &mut Random) -> u32 {
    let about = match rng.below(8) {
        0..4 => count,
        4 => cost.saturating_sub(1),
        5 => cost,
        _ => cost + 1 + rng.up_to(9),
    };
    if about <= most {
        about
    } else {
        count
    }
}

#[cfg(test)]
mod tests {
    use super::*;
    use crate::call::Call;
    use crate::cases::tree_a;
    use crate::expect;
    use crate::heading_cases::tree_a_with;
    use crate::lock_cases::locking;
    use crate::outline::{bytes, ROOTED, UNROOTED};
    use crate::rules;
    use crate::shapes;

    #[test]
    fn locked_taxa_are_counted_with_the_headings_above_them() {
        for (locked, price, below_heading) in [
            (&[][..], 0, false),
            (&[3], 5, true),
            (&[5], 2, false),
            (&[3, 5], 7, true),
            (&[3, 4], 6, true),
            (&[3, 4, 5], 8, true),
        ] {
            let records = locking(locked, tree_a_with(0, 2));
            assert_eq!(has_any(&records), !locked.is_empty());
            assert_eq!(are_all(&records), locked.len() == 3);
            assert_eq!(cost(&records), price, "{locked:?}");
            assert_eq!(has_below_heading(&records), below_heading, "{locked:?}");
            let with_root = locking(locked, tree_a_with(1, 2));
            assert_eq!(cost(&with_root), price + u32::from(price > 0));
        }
        assert!(!has_below_heading(&locking(&[3], tree_a())));
        // bit 31 at a group is no lock
        assert!(!has_any(&locking(&[1, 2], tree_a())));
    }

    #[test]
    fn outlines_are_told_apart() {
        let mut tally = Tally::default();
        tally.add(&tree_a());
        tally.add(&tree_a_with(0, 2));
        tally.add(&locking(&[3], tree_a()));
        tally.add(&locking(&[3], tree_a_with(0, 2)));
        tally.add(&locking(&[3, 4, 5], tree_a()));
        let Tally { with, without, .. } = tally;
        assert_eq!((with, without), (3, 2));
        assert_eq!((tally.neither, tally.all), (1, 1));
    }

    /// Refused, blank, tight, no diversity, headed.
    fn counted(records: Vec<Record>, count: u32, way: u32) -> [u64; 5] {
        let mut tally = Tally::default();
        let call = Call::roomy(bytes(&records), count, way, &mut Random::new(1));
        tally.add_call(&records, &expect::by_table(&call));
        [
            tally.refused,
            tally.blank,
            tally.tight,
            tally.no_diversity,
            tally.headed,
        ]
    }

    #[test]
    fn calls_are_told_apart() {
        let eleven = || locking(&[3], tree_a());
        assert_eq!(counted(eleven(), 2, ROOTED), [1, 0, 0, 0, 0]);
        assert_eq!(counted(eleven(), 3, ROOTED), [0, 1, 1, 0, 0]);
        assert_eq!(counted(eleven(), 4, ROOTED), [0, 1, 0, 0, 0]);
        assert_eq!(counted(eleven(), 3, UNROOTED), [0, 1, 1, 1, 0]);
        assert_eq!(counted(eleven(), 4, UNROOTED), [0, 1, 0, 0, 0]);
        let headed = locking(&[3], tree_a_with(0, 2));
        assert_eq!(counted(headed, 6, ROOTED), [0, 1, 0, 0, 1]);
        let mut free = eleven();
        free[2].price = 0;
        assert_eq!(counted(free, 0, UNROOTED), [0, 0, 0, 1, 0]);
        assert_eq!(counted(tree_a(), 0, UNROOTED), [0; 5]);
        assert_eq!(counted(tree_a_with(0, 2), 6, ROOTED), [0; 5]);
    }

    /// A kind of locks and page count: how many taxa of 12 are locked, their cost, and the count, where 30 was meant.
    type Kind = (&'static str, fn(usize, u32, u32) -> bool);

    const KINDS: [Kind; 9] = [
        ("one", |locked, _, _| locked == 1),
        ("some", |locked, _, _| (2..11).contains(&locked)),
        ("all but one", |locked, _, _| locked == 11),
        ("all", |locked, _, _| locked == 12),
        ("all, and they fit", |locked, cost, count| {
            locked == 12 && cost <= count
        }),
        ("the count as it was", |_, cost, count| {
            count == 30 && cost < 28
        }),
        ("one below the cost", |_, cost, count| cost == count + 1),
        ("at the cost", |_, cost, count| cost > 0 && cost == count),
        ("above the cost", |_, cost, count| {
            cost > 0 && count > cost && count != 30
        }),
    ];

    #[test]
    fn random_locks_are_of_every_kind() {
        let rng = &mut Random::new(1);
        let mut times = [0; KINDS.len()];
        for _ in 0..2_000 {
            let mut records = shapes::random_tree(12, rng);
            shapes::fill_randomly(&mut records, 30, rng);
            headings::fill_at_times(&mut records, 30, rng);
            let before = records.clone();
            let count = fill_randomly(&mut records, 30, 50, rng);
            assert!(count <= 50);
            assert_eq!(rules::check(&bytes(&records)), None, "{records:?}");
            let locked = records.iter().filter(|record| record.is_locked()).count();
            for (count_of_kind, (_, is)) in times.iter_mut().zip(&KINDS) {
                *count_of_kind += u32::from(is(locked, cost(&records), count));
            }
            assert!(locked > 0);
            records.iter_mut().for_each(|record| record.plate &= !LOCK);
            assert_eq!(records, before);
        }
        for (count, (name, _)) in times.into_iter().zip(KINDS) {
            assert!(count > 20, "{name}: {count}");
        }
    }

    #[test]
    fn what_does_not_fit_is_not_locked_unless_it_is_the_only_one() {
        let locked = |some: &[usize], count| -> Vec<usize> {
            let mut records = tree_a_with(0, 2);
            lock(&mut records, some, count);
            (0..5).filter(|&at| records[at].is_locked()).collect()
        };
        assert_eq!(locked(&[2, 3, 4], 8), [2, 3, 4]);
        assert_eq!(locked(&[2, 3, 4], 7), [2, 3]);
        assert_eq!(locked(&[2, 3, 4], 4), [3]);
        assert_eq!(locked(&[4, 3, 2], 5), [3, 4]);
        assert_eq!(locked(&[2, 3], 2), [2]);
    }

    #[test]
    fn page_counts_are_about_the_cost_where_there_is_room() {
        let rng = &mut Random::new(3);
        let mut times = [0; 31];
        for _ in 0..1_600 {
            times[count_about(10, 30, 20, rng) as usize] += 1;
            assert!([9, 10, 30].contains(&count_about(10, 30, 10, rng)));
        }
        let above: u32 = times[11..=20].iter().sum();
        assert!(times[30] > 600 && times[9] > 100 && times[10] > 100 && above > 300);
        assert_eq!(times[30] + times[9] + times[10] + above, 1_600);
    }

    #[test]
    fn locks_come_at_times() {
        let rng = &mut Random::new(2);
        let mut tally = Tally::default();
        for _ in 0..1_000 {
            for mut records in [tree_a(), shapes::star(1)] {
                let count = fill_at_times(&mut records, 5, 9, rng);
                assert!(count == 5 || has_any(&records) && count <= 9);
                tally.add(&records);
            }
        }
        assert!((1_150..1_350).contains(&tally.with), "{tally:?}");
        assert_eq!(tally.with + tally.without, 2_000);
    }
}
