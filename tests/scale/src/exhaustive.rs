//! The exhaustive search: every subset of the taxa is tried for every column, as document 01 says. A set's cost (§2) and the
//! locked taxa it has to hold (§4) are document 02's.

use crate::outline::{self, Record, ROOTED};

/// A curve and the best set of its last column.
#[derive(Clone, Debug, PartialEq, Eq)]
pub struct Solution {
    /// Diversity and cost of each column.
    pub columns: Vec<[u32; 2]>,
    /// One byte per record, 1 at a chosen taxon.
    pub marks: Vec<u8>,
}

/// Diversity and cost of a column where the editor ends with nothing in hand.
pub const NOTHING: [u32; 2] = [0, 4_294_967_295];

/// A set of taxa, bit k for the k-th in record order.
#[derive(Clone, Copy)]
pub(crate) struct Subset {
    pub set: u64,
    pub diversity: u32,
    pub cost: u32,
}

impl Subset {
    /// `locked` are the locked taxa of the outline.
    fn fits(self, count: u32, locked: u64) -> bool {
        self.cost <= count && self.set & locked == locked
    }

    pub fn is_better_than(self, other: Subset) -> bool {
        if self.diversity != other.diversity {
            return self.diversity > other.diversity;
        }
        if self.cost != other.cost {
            return self.cost < other.cost;
        }
        let differing = self.set ^ other.set;
        let lowest = differing & differing.wrapping_neg();
        self.set & lowest != 0
    }
}

/// Every subset of so many taxa, in counting order.
pub fn subsets(taxa: usize) -> Vec<u64> {
    (0..1 << taxa).collect()
}

/// Goes through `order`, which names every subset once, for each column from 0 to `count`. Nothing where no set fits `count`.
pub fn search(records: &[Record], way: u32, count: u32, order: &[u64]) -> Option<Solution> {
    let taxa = outline::taxa(records);
    let locked = locked(records, &taxa);
    let subsets = measured(records, way, &taxa, order);
    let in_hand: Vec<Option<Subset>> = (0..=count)
        .map(|b| in_hand_at(b, locked, &subsets))
        .collect();
    let chosen = in_hand[count as usize]?.set;
    let column = |subset: &Option<Subset>| subset.map_or(NOTHING, |s| [s.diversity, s.cost]);
    Some(Solution {
        columns: in_hand.iter().map(column).collect(),
        marks: marks(records, &taxa, chosen),
    })
}

/// Diversity and cost of the best set that fits `count`, of every subset; nothing where none fits.
pub fn best(records: &[Record], way: u32, count: u32) -> Option<[u32; 2]> {
    let taxa = outline::taxa(records);
    let subsets = measured(records, way, &taxa, &subsets(taxa.len()));
    let best = in_hand_at(count, locked(records, &taxa), &subsets)?;
    Some([best.diversity, best.cost])
}

fn measured(records: &[Record], way: u32, taxa: &[usize], order: &[u64]) -> Vec<Subset> {
    let clades = clades(records, taxa);
    let subset = |&set: &u64| Subset {
        set,
        diversity: diversity(records, &clades, way, set),
        cost: taxa_cost(records, taxa, set) + headings_cost(records, &clades, set),
    };
    order.iter().map(subset).collect()
}

/// The taxa that a set has to hold.
pub(crate) fn locked(records: &[Record], taxa: &[usize]) -> u64 {
    (0..taxa.len())
        .filter(|&k| records[taxa[k]].is_locked())
        .fold(0, |locked, k| locked | 1 << k)
}

/// The best of the sets that fit; nothing where none does.
fn in_hand_at(count: u32, locked: u64, subsets: &[Subset]) -> Option<Subset> {
    let mut in_hand: Option<Subset> = None;
    for &subset in subsets {
        if !subset.fits(count, locked) {
            continue;
        }
        if in_hand.is_none_or(|other| subset.is_better_than(other)) {
            in_hand = Some(subset);
        }
    }
    in_hand
}

pub(crate) fn marks(records: &[Record], taxa: &[usize], chosen: u64) -> Vec<u8> {
    let mut marks = vec![0; records.len()];
    for (k, &position) in taxa.iter().enumerate() {
        marks[position] = (chosen >> k & 1) as u8;
    }
    marks
}

/// For each record the taxa at or below it, last record first, so that members are done before their group.
pub(crate) fn clades(records: &[Record], taxa: &[usize]) -> Vec<u64> {
    let mut clades = vec![0; records.len()];
    for (k, &position) in taxa.iter().enumerate() {
        clades[position] = 1 << k;
    }
    for group in (0..records.len()).rev() {
        for member in outline::members(records, group) {
            clades[group] |= clades[member];
        }
    }
    clades
}

pub(crate) fn diversity(records: &[Record], clades: &[u64], way: u32, set: u64) -> u32 {
    let counts = |clade: u64| set & clade != 0 && (way == ROOTED || set & !clade != 0);
    records
        .iter()
        .zip(clades)
        .filter(|(_, &clade)| counts(clade))
        .map(|(record, _)| record.length)
        .sum()
}

/// The prices of the chosen taxa.
pub(crate) fn taxa_cost(records: &[Record], taxa: &[usize], set: u64) -> u32 {
    (0..taxa.len())
        .filter(|k| set >> k & 1 == 1)
        .map(|k| records[taxa[k]].price)
        .sum()
}

/// The price of every group that has a chosen taxon below it, once, whatever the way.
pub(crate) fn headings_cost(records: &[Record], clades: &[u64], set: u64) -> u32 {
    records
        .iter()
        .zip(clades)
        .filter(|(record, &clade)| !record.is_taxon() && set & clade != 0)
        .map(|(group, _)| group.price)
        .sum()
}

/// Read from the right end of the curve leftwards until the diversity drops, and no further than to a column with a set.
pub fn spare(columns: &[[u32; 2]]) -> u32 {
    let last = columns.len() - 1;
    let goes_on = |to: [u32; 2]| to != NOTHING && to[0] == columns[last][0];
    let mut column = last;
    while column > 0 && goes_on(columns[column - 1]) {
        column -= 1;
    }
    (last - column) as u32
}

#[cfg(test)]
mod tests {
    use super::*;
    use crate::cases;
    use crate::heading_cases;
    use crate::headings;
    use crate::lock_cases::{self, CurveCase};
    use crate::locks;
    use crate::outline::UNROOTED;
    use crate::random::Random;
    use crate::shapes;

    /// The columns that are found, which show the case's numbers.
    fn stated(case: &cases::Case) -> Vec<[u32; 2]> {
        let order = subsets(outline::taxa(&case.records).len());
        let solution = search(&case.records, case.way, case.count, &order).unwrap();
        let last = *solution.columns.last().unwrap();
        assert_eq!(last, [case.diversity, case.cost], "{}", case.name);
        assert_eq!(solution.marks, case.marks(), "{}", case.name);
        assert_eq!(spare(&solution.columns), case.spare, "{}", case.name);
        solution.columns
    }

    #[test]
    fn gives_the_stated_cases() {
        for case in cases::starred().into_iter().chain(heading_cases::all()) {
            stated(&case);
        }
    }

    #[test]
    fn gives_the_stated_cases_with_locks_and_their_curves() {
        let mut cases = lock_cases::all();
        cases.retain(|CurveCase { case, .. }| outline::taxa(&case.records).len() < 64);
        assert!(cases.len() > 50);
        for CurveCase { case, columns } in cases {
            assert_eq!(stated(&case), columns, "{} at {}", case.name, case.count);
        }
    }

    #[test]
    fn gives_the_printed_curve_of_tree_a() {
        let solution = search(&cases::tree_a(), ROOTED, 5, &subsets(3)).unwrap();
        let printed = [[0, 0], [5, 1], [5, 1], [10, 3], [10, 3], [12, 5]];
        assert_eq!(solution.columns, printed);
        assert_eq!(solution.marks, [0, 0, 1, 0, 1]);
    }

    #[test]
    fn a_heading_is_paid_once_in_either_way() {
        let records = heading_cases::tree_a_with(1, 2);
        let columns = |way| search(&records, way, 9, &subsets(3)).unwrap().columns;
        let rooted = [
            [0, 0],
            [0, 0],
            [0, 0],
            [5, 3],
            [5, 3],
            [5, 3],
            [10, 6],
            [10, 6],
            [12, 8],
            [14, 9],
        ];
        let mut unrooted = rooted;
        unrooted[..6].fill([0, 0]);
        assert_eq!(columns(ROOTED), rooted);
        assert_eq!(columns(UNROOTED), unrooted);
    }

    #[test]
    fn reading_for_the_spare_ends_at_a_drop_and_before_a_column_without_a_set() {
        for (columns, expected) in [
            (vec![[0, 0], [0, 0], [0, 0]], 2),
            (vec![[0, 0], [5, 1], [5, 1]], 1),
            (vec![NOTHING, [0, 1], [0, 1]], 1),
            (vec![NOTHING, NOTHING, [0, 2]], 0),
            (vec![NOTHING, [5, 1], [5, 1], [5, 1]], 2),
            (vec![NOTHING, [0, 1], [5, 2], [5, 2]], 1),
        ] {
            assert_eq!(spare(&columns), expected, "{columns:?}");
        }
    }

    #[test]
    fn nothing_is_found_exactly_where_the_locked_taxa_cost_too_much() {
        let rng = &mut Random::new(3);
        let (mut none, mut some) = (0, 0);
        for _ in 0..1_000 {
            let (records, count) = random_outline(rng);
            let order = subsets(outline::taxa(&records).len());
            let cost = locks::cost(&records);
            let Some(solution) = search(&records, rng.up_to(1), count, &order) else {
                assert!(cost > count, "{records:?}");
                none += 1;
                continue;
            };
            for (column, b) in solution.columns.iter().zip(0..) {
                assert_eq!(*column == NOTHING, b < cost, "{records:?}");
            }
            let left_out = |(record, mark): (&Record, &u8)| record.is_locked() && *mark == 0;
            assert!(!records.iter().zip(&solution.marks).any(left_out));
            some += u32::from(cost > 0);
        }
        assert!(none > 100 && some > 200, "{none}, {some}");
    }

    /// At most 7 taxa, at times with headings and locks, and a page count.
    fn random_outline(rng: &mut Random) -> (Vec<Record>, u32) {
        let taxa = 1 + rng.index(7);
        let mut records = shapes::random_outline(taxa, 20, rng);
        let count = rng.up_to(20);
        shapes::fill_randomly(&mut records, count, rng);
        headings::fill_at_times(&mut records, count, rng);
        let count = locks::fill_at_times(&mut records, count, 30, rng);
        (records, count)
    }

    #[test]
    fn order_of_subsets_does_not_matter_and_spare_is_count_less_cost() {
        let rng = &mut Random::new(1);
        for _ in 0..300 {
            let (records, count) = random_outline(rng);
            let way = rng.up_to(1);
            let mut order = subsets(outline::taxa(&records).len());
            let solution = search(&records, way, count, &order);
            rng.shuffle(&mut order);
            assert_eq!(search(&records, way, count, &order), solution);
            let best = best(&records, way, count);
            assert_eq!(best.is_some(), solution.is_some());
            let Some(solution) = solution else { continue };
            let last = *solution.columns.last().unwrap();
            assert_eq!(best, Some(last));
            assert_eq!(spare(&solution.columns), count - last[1]);
        }
    }
}
