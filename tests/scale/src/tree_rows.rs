//! Accepted outlines each of which is compared with each: the orders are to be those of one row, in which only outlines of the same
//! tree stand at the same place (document 02, §9).

use crate::call::extra;
use crate::compare;
use crate::comparing::{self, CompareCall};
use crate::library::{CompareBuffers, CompareObserved, Comparer};
use crate::outline::{bytes, taxa, Record, LOCK};
use crate::random::Random;
use crate::same_tree::are_same;
use crate::shapes::{every_order_of_plates, every_outline};
use crate::tree_pairs::Compared;
use crate::trees::{Tree, CHANGES};
use crate::view_pairs::sound_outline;

/// What a program gives of each outline beside each.
pub fn compared(outlines: &[Vec<Record>], comparer: Comparer, rng: &mut Random) -> Vec<Compared> {
    let (calls, observed) = observed(outlines, comparer, rng);
    let orders: Vec<i32> = observed.iter().map(CompareObserved::order).collect();
    let wrong = against_one_row(outlines, &orders);
    let compared = calls.into_iter().zip(&observed).zip(wrong);
    compared
        .map(|((call, observed), wrong)| {
            let mut comparison = compare::trees(&comparing::expected(&call), observed);
            comparison.differences.extend(wrong);
            (call, comparison)
        })
        .collect()
}

fn observed(
    outlines: &[Vec<Record>],
    comparer: Comparer,
    rng: &mut Random,
) -> (Vec<CompareCall>, Vec<CompareObserved>) {
    let outlines: Vec<Vec<u8>> = outlines.iter().map(|records| bytes(records)).collect();
    let pairs = outlines.iter().flat_map(|one| {
        let others = outlines.iter();
        others.map(move |other| [one, other])
    });
    let call = |outlines: [&Vec<u8>; 2]| CompareCall {
        outlines: outlines.map(Vec::clone),
        within: None,
        forms: outlines.map(|outline| outline.len() + extra(rng)),
    };
    let calls: Vec<CompareCall> = pairs.map(call).collect();
    let observed = calls
        .iter()
        .map(|call| comparer(CompareBuffers::random(call, rng)));
    let observed = observed.collect();
    (calls, observed)
}

/// How many outlines come before each, by these orders of each beside each.
pub fn places(orders: &[i32], outlines: usize) -> Vec<usize> {
    let rows = orders.chunks(outlines);
    rows.map(|row| row.iter().filter(|&&order| order == 1).count())
        .collect()
}

/// For each outline beside each what of the orders does not go with the places, or not with the judge.
fn against_one_row(outlines: &[Vec<Record>], orders: &[i32]) -> Vec<Vec<String>> {
    let places = places(orders, outlines.len());
    let pairs = (0..orders.len()).map(|at| [at / outlines.len(), at % outlines.len()]);
    let wrong = |([one, other], order): ([usize; 2], &i32)| {
        let by_places = places[one].cmp(&places[other]) as i32;
        let same = are_same(&outlines[one], &outlines[other]);
        let wrong = [
            (by_places != *order, "the orders are not those of one row"),
            (same != (*order == 0), "the order is not the trees'"),
        ];
        let wrong = wrong.into_iter().filter(|(holds, _)| *holds);
        wrong.map(|(_, what)| what.to_string()).collect()
    };
    pairs.zip(orders).map(wrong).collect()
}

/// How many trees they are.
pub fn trees(outlines: &[Vec<Record>]) -> usize {
    let is_first = |&at: &usize| {
        let mut before = outlines[..at].iter();
        !before.any(|other| are_same(other, &outlines[at]))
    };
    (0..outlines.len()).filter(is_first).count()
}

/// So many outlines of one tree, each with up to two changes, shuffled.
pub fn relatives(outlines: usize, rng: &mut Random) -> Vec<Vec<Record>> {
    let records = sound_outline(rng);
    let mut relative = || {
        let mut tree = Tree::of(&records);
        for _ in 0..rng.pick(&[0, 0, 1, 2]) {
            let (_, change) = CHANGES[rng.index(CHANGES.len())];
            change(&mut tree, rng);
        }
        tree.shuffle(rng);
        tree.numbered(rng)
    };
    (0..outlines).map(|_| relative()).collect()
}

/// Every outline of up to so many records, with its plates in every order and any of them locked.
pub fn every_small(most: usize) -> Vec<Vec<Record>> {
    let shapes = (1..=most).flat_map(every_outline);
    let ordered = shapes.flat_map(|shape| every_order_of_plates(&shape));
    ordered
        .flat_map(|records| with_every_lock(&records))
        .collect()
}

fn with_every_lock(records: &[Record]) -> Vec<Vec<Record>> {
    let taxa = taxa(records);
    let locked = |set: u32| {
        let mut records = records.to_vec();
        for (at, &taxon) in taxa.iter().enumerate() {
            records[taxon].plate |= (set >> at & 1) * LOCK;
        }
        records
    };
    (0..1 << taxa.len()).map(locked).collect()
}

#[cfg(test)]
mod tests {
    use super::*;
    use crate::wrong_orders::{self, RIGHT};

    /// One taxon, locked or not: 2. A group of it: 2. Of three records: a group of a group 2, two taxa 4. Of four records: one
    /// taxon below three groups 2; two taxa below the last of two groups 4; one of two taxa below a group of its own 8; three
    /// taxa 8.
    #[test]
    fn the_small_outlines_are_as_many_trees_as_can_be_counted() {
        for (most, outlines, all) in [(1, 2, 2), (2, 4, 4), (3, 14, 10), (4, 96, 32)] {
            let small = every_small(most);
            assert_eq!((small.len(), trees(&small)), (outlines, all), "{most}");
        }
    }

    #[test]
    fn relatives_are_one_tree_or_more() {
        let rng = &mut Random::new(1);
        let mut times = [0; 3];
        for _ in 0..500 {
            times[trees(&relatives(3, rng)) - 1] += 1;
        }
        assert!(times.iter().all(|&times| times > 30), "{times:?}");
    }

    #[test]
    fn a_place_is_how_many_come_before() {
        let row = [0, -1, -1, 1, 0, 0, 1, 0, 0];
        assert_eq!(places(&row, 3), [0, 1, 1]);
        let round = [0, -1, 1, 1, 0, -1, -1, 1, 0];
        assert_eq!(places(&round, 3), [1, 1, 1]);
    }

    #[test]
    fn a_right_program_keeps_the_row() {
        let rng = &mut Random::new(2);
        let triples = (0..100).map(|_| relatives(3, rng));
        let rows: Vec<Vec<Vec<Record>>> = triples.chain([every_small(3)]).collect();
        for outlines in rows {
            for (_, comparison) in compared(&outlines, &RIGHT.run(), rng) {
                assert_eq!(comparison.differences, [""; 0]);
            }
        }
    }

    /// Whether some of these show that a program's orders are not those of one row.
    fn is_noticed(comparer: Comparer, rows: &[Vec<Vec<Record>>]) -> bool {
        let rng = &mut Random::new(3);
        rows.iter().any(|outlines| {
            let (_, observed) = observed(outlines, comparer, rng);
            let orders: Vec<i32> = observed.iter().map(CompareObserved::order).collect();
            let wrong = against_one_row(outlines, &orders);
            wrong.iter().any(|wrong| !wrong.is_empty())
        })
    }

    /// An order that is turned round, or goes by something else that tells trees apart, is one row too.
    #[test]
    fn orders_of_no_row_or_of_fewer_trees_are_noticed_without_what_is_expected() {
        let rng = &mut Random::new(4);
        let rows: Vec<_> = (0..300).map(|_| relatives(3, rng)).collect();
        let one_row = [
            "order turned round",
            "the shorter first",
            "the longer first",
            "order by numbers",
            "order by signed bytes",
            "order from the last byte on",
        ];
        for (name, program) in wrong_orders::other_orders() {
            let noticed = is_noticed(&program.run(), &rows);
            assert_eq!(noticed, !one_row.contains(&name), "{name}");
        }
    }
}
