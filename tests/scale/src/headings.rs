//! Prices of headings (document 02, §2): how many outlines have any, and random kinds of them.

use crate::expect::Expected;
use crate::outline::{groups, taxa, Record};
use crate::random::Random;

const HIGHEST: u32 = 65_535;

/// Whether a group has a price above 0.
pub fn has_any(records: &[Record]) -> bool {
    records
        .iter()
        .any(|record| !record.is_taxon() && record.price > 0)
}

/// Whether a set of this cost pays for a heading: it costs more than its taxa.
fn is_paid(records: &[Record], marks: &[u8], cost: u32) -> bool {
    let marked = records.iter().zip(marks).filter(|(_, &mark)| mark == 1);
    cost > marked.map(|(taxon, _)| taxon.price).sum()
}

/// How many outlines have headings, how many have none, and how many chosen sets pay for one.
#[derive(Clone, Copy, Debug, Default, PartialEq, Eq)]
pub struct Tally {
    pub with: u64,
    pub without: u64,
    pub paid: u64,
}

impl Tally {
    pub fn add(&mut self, records: &[Record]) {
        if has_any(records) {
            self.with += 1;
        } else {
            self.without += 1;
        }
    }

    pub fn add_set(&mut self, records: &[Record], expected: &Expected) {
        let [_, _, _, cost, ..] = expected.answer;
        self.paid += u64::from(is_paid(records, &expected.marks, cost));
    }
}

/// Sets every group's price.
pub fn fill(records: &mut [Record], rng: &mut Random, mut price: impl FnMut(&mut Random) -> u32) {
    for group in records.iter_mut().filter(|record| !record.is_taxon()) {
        group.price = price(rng);
    }
}

/// Five times in eight gives an outline headings, where it has a group; `count` is the page count meant for it.
pub fn fill_at_times(records: &mut [Record], count: u32, rng: &mut Random) {
    if rng.below(8) < 5 && !groups(records).is_empty() {
        fill_randomly(records, count, rng);
    }
}

/// Prices of a random kind at random groups, at least one of them above 0; there is a group.
pub fn fill_randomly(records: &mut [Record], count: u32, rng: &mut Random) {
    let taxa: Vec<u32> = taxa(records).iter().map(|&at| records[at].price).collect();
    let kind = rng.below(7);
    let same = 1 + rng.up_to(count / 8 + 2);
    for group in some_groups(records, rng) {
        records[group].price = random_price(kind, same, &taxa, count, rng);
    }
    let any = rng.pick(&groups(records));
    if rng.one_in(6) {
        records[any].price = rng.pick(&[count + 1, HIGHEST]);
    } else if !has_any(records) {
        records[any].price = 1;
    }
}

/// The root, one group, a few or all.
fn some_groups(records: &[Record], rng: &mut Random) -> Vec<usize> {
    let mut some = groups(records);
    match rng.below(6) {
        0 => some.truncate(1),
        1 => some = vec![rng.pick(&some)],
        2 => some.retain(|_| rng.one_in(4)),
        _ => {}
    }
    some
}

/// Tiny, as the taxa's, the same at all, or about the page count and at the limit.
fn random_price(kind: u64, same: u32, taxa: &[u32], count: u32, rng: &mut Random) -> u32 {
    match kind {
        0 => rng.up_to(1),
        1 | 2 => rng.up_to(3),
        3 | 4 => rng.pick(taxa),
        5 => same,
        _ => rng.pick(&[0, 0, 1, count / 2, count, count + 1, HIGHEST]),
    }
}

#[cfg(test)]
mod tests {
    use super::*;
    use crate::cases::tree_a;
    use crate::heading_cases::tree_a_with;
    use crate::outline::bytes;
    use crate::rules;
    use crate::shapes;

    #[test]
    fn taxa_have_prices_and_groups_have_headings() {
        assert!(!has_any(&tree_a()));
        assert!(has_any(&tree_a_with(1, 0)));
        assert!(has_any(&tree_a_with(0, 1)));
        let mut tally = Tally::default();
        for records in [tree_a(), tree_a_with(0, 2), tree_a_with(3, 0)] {
            tally.add(&records);
        }
        assert_eq!([tally.with, tally.without, tally.paid], [2, 1, 0]);
    }

    #[test]
    fn a_heading_is_paid_where_the_cost_is_above_that_of_the_taxa() {
        let paid = |marks: &[u8], cost| {
            let mut tally = Tally::default();
            let expected = Expected {
                answer: [0, 0, 0, cost, 0, 0],
                marks: marks.to_vec(),
                curve: Vec::new(),
                work: 0,
            };
            tally.add_set(&tree_a_with(0, 2), &expected);
            tally.paid
        };
        assert_eq!(paid(&[0, 0, 1, 0, 1], 7), 1);
        assert_eq!(paid(&[0, 0, 0, 0, 1], 2), 0);
        assert_eq!(paid(&[0, 0, 0, 0, 0], 0), 0);
        assert_eq!(paid(&[], 0), 0);
    }

    #[test]
    fn filling_changes_the_prices_of_groups_only() {
        let mut records = tree_a();
        let mut price = 7;
        let next = |_: &mut Random| {
            price += 1;
            price
        };
        fill(&mut records, &mut Random::new(0), next);
        assert_eq!(records, tree_a_with(8, 9));
    }

    /// A kind of headings, by the prices of the groups, the taxa's, and the page count.
    type Kind = (&'static str, fn(&[u32], &[u32], u32) -> bool);

    const KINDS: [Kind; 8] = [
        ("only at the root", |groups, _, _| {
            groups[0] > 0 && groups[1..].iter().all(|&price| price == 0)
        }),
        ("at one group below the root", |groups, _, _| {
            groups[0] == 0 && groups[1..].iter().filter(|&&price| price > 0).count() == 1
        }),
        ("at a few groups", |groups, _, _| {
            (2..groups.len() / 2).contains(&groups.iter().filter(|&&price| price > 0).count())
        }),
        ("at all groups", |groups, _, _| {
            groups.iter().all(|&price| price > 0)
        }),
        ("tiny", |groups, _, _| {
            groups.iter().all(|&price| price <= 3)
        }),
        ("the same at all", |groups, _, _| {
            groups[0] > 3 && groups.iter().all(|&price| price == groups[0])
        }),
        ("as the taxa's", |groups, taxa, count| {
            let varied = groups.iter().any(|&price| price > 3 && price != groups[0]);
            varied
                && groups
                    .iter()
                    .all(|price| taxa.contains(price) && *price < count)
        }),
        ("one dearer than the page count", |groups, _, count| {
            groups.iter().filter(|&&price| price > count).count() == 1
        }),
    ];

    #[test]
    fn random_headings_are_of_every_kind() {
        let rng = &mut Random::new(1);
        let mut times = [0; KINDS.len()];
        let mut highest = 0;
        for _ in 0..2_000 {
            let mut records = shapes::random_tree(12, rng);
            shapes::fill_randomly(&mut records, 30, rng);
            fill_randomly(&mut records, 30, rng);
            assert!(rules::check(&bytes(&records)).is_none(), "{records:?}");
            assert!(has_any(&records), "{records:?}");
            let prices = |places: Vec<usize>| -> Vec<u32> {
                places.into_iter().map(|at| records[at].price).collect()
            };
            let (groups, taxa) = (prices(groups(&records)), prices(taxa(&records)));
            for (count, (_, is)) in times.iter_mut().zip(&KINDS) {
                *count += u32::from(is(&groups, &taxa, 30));
            }
            highest = highest.max(*groups.iter().max().unwrap());
        }
        for (count, (name, _)) in times.into_iter().zip(KINDS) {
            assert!(count > 20, "{name}: {count}");
        }
        assert_eq!(highest, HIGHEST);
    }

    #[test]
    fn headings_come_at_times_and_never_without_a_group() {
        let rng = &mut Random::new(2);
        let mut tally = Tally::default();
        for _ in 0..1_000 {
            let mut records = tree_a();
            fill_at_times(&mut records, 5, rng);
            tally.add(&records);
            let lone = shapes::star(1)[1];
            let mut records = [lone];
            fill_at_times(&mut records, 5, rng);
            assert_eq!(records, [lone]);
        }
        assert!((550..700).contains(&tally.with), "{tally:?}");
        assert_eq!(tally.with + tally.without, 1_000);
    }
}
