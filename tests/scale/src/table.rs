//! The table of Pardi and Goldman over the costs that occur: each group's members are joined one by one over all pairs of their
//! costs, O(N B^2) at worst. A group's price moves all its costs (document 02, §2), and a clade with a locked taxon inside is
//! never left empty (§4).

use std::iter::repeat_n;
use std::mem::take;

use crate::exhaustive::{Solution, NOTHING};
use crate::outline::{self, Record, ROOTED, UNROOTED};

/// The best set of a column; `set` has bit 63 - k for the k-th taxon in record order, so the greater number wins a tie.
#[derive(Clone, Copy, Debug, PartialEq, Eq)]
pub struct Best {
    pub diversity: u32,
    pub cost: u32,
    pub set: u64,
}

impl Best {
    const EMPTY_SET: Best = Best {
        diversity: 0,
        cost: 0,
        set: 0,
    };

    /// Of a column that no set fits.
    const NOTHING: Best = Best {
        diversity: NOTHING[0],
        cost: NOTHING[1],
        set: 0,
    };
}

/// For each exact cost the best nonempty set: its diversity above the 64 bits of the set, or 0 where there is none.
/// Two sets of disjoint clades join by addition, and of two sets of one cost the greater number is the better.
/// A row ends at the clade's dearest set or at the page count.
type Row = Vec<u128>;

const DIVERSITY_SHIFT: u32 = 64;

/// What the sets inside a clade are worth.
#[derive(Clone, Default)]
struct Clade {
    /// With a taxon chosen elsewhere, or rooted: every branch down from the clade's own counts.
    rooted: Row,
    /// With nothing chosen elsewhere: only branches between chosen taxa count. Kept in the unrooted way.
    unrooted: Row,
    /// Whether a locked taxon is inside: then no set may leave the clade empty, and each of its rows has only sets that hold all
    /// its locked taxa.
    locked: bool,
}

impl Clade {
    /// A taxon before its price and its branch.
    fn taxon(bit: u64, locked: bool, way: u32) -> Clade {
        let alone = vec![u128::from(bit)];
        Clade {
            locked,
            unrooted: if way == UNROOTED {
                alone.clone()
            } else {
                Row::new()
            },
            rooted: alone,
        }
    }

    fn join(&mut self, member: &Clade, way: u32, count: usize) {
        let pairs = pairs(&self.rooted, &member.rooted, count);
        let leave_out = [!self.locked, !member.locked];
        join_rows(&mut self.rooted, &member.rooted, &pairs, leave_out);
        if way == UNROOTED {
            join_rows(&mut self.unrooted, &member.unrooted, &pairs, leave_out);
        }
        self.locked |= member.locked;
    }

    /// Adds the branch of the clade's own record.
    fn lengthen(&mut self, length: u32) {
        for cell in self.rooted.iter_mut().filter(|cell| **cell != 0) {
            *cell += u128::from(length) << DIVERSITY_SHIFT;
        }
    }

    /// Adds the price of the clade's own record: every nonempty set inside pays it once, also with nothing chosen elsewhere.
    fn charge(&mut self, price: u32, count: usize) {
        for row in [&mut self.rooted, &mut self.unrooted] {
            move_right(row, price as usize, count);
        }
    }
}

/// Sets that the page count has no room for are dropped.
fn move_right(row: &mut Row, price: usize, count: usize) {
    row.truncate((count + 1).saturating_sub(price));
    if !row.is_empty() {
        row.splice(..0, repeat_n(0, price));
    }
}

/// The best of the member's sets alone, of the others' alone, and of `pairs` of both. `leave_out` says whether the others may be
/// left empty, then whether the member may.
fn join_rows(others: &mut Row, member: &Row, pairs: &Row, leave_out: [bool; 2]) {
    let [leave_out_others, leave_out_member] = leave_out;
    if !leave_out_member {
        others.clear();
    }
    if leave_out_others {
        keep_better(others, member);
    }
    keep_better(others, pairs);
}

/// The best unions of a set from each row.
fn pairs(one: &Row, other: &Row, count: usize) -> Row {
    if one.is_empty() || other.is_empty() {
        return Row::new();
    }
    let filled = |row: &Row| row.iter().filter(|&&cell| cell != 0).count();
    let (few, many) = if filled(one) <= filled(other) {
        (one, other)
    } else {
        (other, one)
    };
    let mut pairs = vec![0; (few.len() + many.len() - 1).min(count + 1)];
    for (cost, &left) in few.iter().enumerate() {
        if left == 0 {
            continue;
        }
        for (cell, &right) in pairs[cost..].iter_mut().zip(many) {
            if right != 0 && left + right > *cell {
                *cell = left + right;
            }
        }
    }
    pairs
}

fn keep_better(row: &mut Row, other: &Row) {
    if row.len() < other.len() {
        row.resize(other.len(), 0);
    }
    for (cell, &candidate) in row.iter_mut().zip(other) {
        *cell = candidate.max(*cell);
    }
}

/// The best sets of columns 0 to `count` of an accepted outline.
pub fn optima(records: &[Record], way: u32, count: usize) -> Vec<Best> {
    let mut clades = vec![Clade::default(); records.len()];
    let mut bit = 1 << (64 - outline::taxa(records).len());
    for position in (0..records.len()).rev() {
        let record = &records[position];
        let mut clade = Clade::default();
        if record.is_taxon() {
            clade = Clade::taxon(bit, record.is_locked(), way);
            bit = bit.rotate_left(1);
        }
        for member in outline::members(records, position) {
            clade.join(&take(&mut clades[member]), way, count);
        }
        clade.lengthen(record.length);
        clade.charge(record.price, count);
        clades[position] = clade;
    }
    let root = take(&mut clades[0]);
    let before = if root.locked {
        Best::NOTHING
    } else {
        Best::EMPTY_SET
    };
    let row = if way == ROOTED {
        &root.rooted
    } else {
        &root.unrooted
    };
    by_count(row, before, count)
}

/// From exact costs to page counts: a dearer set needs more diversity to be better. `best` is what there is before any set of the
/// row.
fn by_count(row: &Row, mut best: Best, count: usize) -> Vec<Best> {
    let mut columns = Vec::with_capacity(count + 1);
    for cost in 0..=count {
        let cell = row.get(cost).copied().unwrap_or(0);
        let diversity = (cell >> DIVERSITY_SHIFT) as u32;
        // At cost 0 the nonempty set wins the tie with the empty one.
        let first = cost == 0 || best == Best::NOTHING;
        if cell != 0 && (first || diversity > best.diversity) {
            best = Best {
                diversity,
                cost: cost as u32,
                set: cell as u64,
            };
        }
        columns.push(best);
    }
    columns
}

/// The same as curve and marks; nothing where no set fits `count`.
pub fn solve(records: &[Record], way: u32, count: u32) -> Option<Solution> {
    let best = optima(records, way, count as usize);
    let last = best[count as usize];
    if last == Best::NOTHING {
        return None;
    }
    let mut marks = vec![0; records.len()];
    for (k, position) in outline::taxa(records).into_iter().enumerate() {
        marks[position] = (last.set >> (63 - k) & 1) as u8;
    }
    Some(Solution {
        columns: best.iter().map(|b| [b.diversity, b.cost]).collect(),
        marks,
    })
}

#[cfg(test)]
mod tests {
    use super::*;
    use crate::cases;
    use crate::earlier;
    use crate::exhaustive::{search, subsets};
    use crate::heading_cases;
    use crate::headings;
    use crate::lock_cases::{self, CurveCase};
    use crate::locks;
    use crate::random::Random;
    use crate::shapes;
    use crate::tally::Tally;

    #[test]
    fn agrees_with_the_exhaustive_search_of_today_and_without_locks_of_earlier() {
        let rng = &mut Random::new(1);
        let mut tally = Tally::default();
        let mut none = 0;
        for _ in 0..3_000 {
            let taxa = 1 + rng.index(8);
            let mut records = shapes::random_outline(taxa, 30, rng);
            let count = rng.up_to(25);
            shapes::fill_randomly(&mut records, count, rng);
            headings::fill_at_times(&mut records, count, rng);
            let count = locks::fill_at_times(&mut records, count, 35, rng);
            tally.add(&records);
            let order = subsets(taxa);
            for way in [ROOTED, UNROOTED] {
                let expected = search(&records, way, count, &order);
                assert_eq!(solve(&records, way, count), expected, "{records:?}");
                none += u32::from(expected.is_none());
                for rules in earlier::still_hold(&records) {
                    assert_eq!(Some(rules.search(&records, way, count)), expected);
                }
            }
        }
        let Tally { headings, locks } = tally;
        assert!(headings.with > 1_500 && headings.without > 750, "{tally:?}");
        assert!(locks.with > 1_500 && locks.without > 750, "{tally:?}");
        assert!(locks.all > 300 && none > 600, "{tally:?}, {none}");
    }

    #[test]
    fn gives_the_cases_with_headings() {
        for case in heading_cases::all() {
            let solution = solve(&case.records, case.way, case.count).unwrap();
            let last = *solution.columns.last().unwrap();
            assert_eq!(last, [case.diversity, case.cost], "{}", case.name);
            assert_eq!(solution.marks, case.marks(), "{}", case.name);
        }
    }

    #[test]
    fn gives_the_cases_with_locks() {
        for CurveCase { case, columns } in lock_cases::all() {
            let solution = solve(&case.records, case.way, case.count).unwrap();
            assert_eq!(solution.columns, columns, "{}", case.name);
            assert_eq!(solution.marks, case.marks(), "{}", case.name);
        }
    }

    #[test]
    fn what_is_locked_is_not_left_out_of_a_join() {
        let member = vec![0, 0, 8];
        let pairs = vec![0, 0, 0, 12];
        for (leave_out, joined) in [
            ([true, true], vec![4, 0, 8, 12]),
            ([true, false], vec![0, 0, 8, 12]),
            ([false, true], vec![4, 0, 0, 12]),
            ([false, false], vec![0, 0, 0, 12]),
        ] {
            let mut row = vec![4];
            join_rows(&mut row, &member, &pairs, leave_out);
            assert_eq!(row, joined, "{leave_out:?}");
        }
    }

    #[test]
    fn columns_without_a_set_come_before_the_cheapest_one() {
        let row = vec![0, 1, 2, 1 << DIVERSITY_SHIFT | 3];
        let columns = |before| -> Vec<[u32; 2]> {
            let best = by_count(&row, before, 4).into_iter();
            best.map(|best| [best.diversity, best.cost]).collect()
        };
        let empty = [[0, 0], [0, 0], [0, 0], [1, 3], [1, 3]];
        assert_eq!(columns(Best::EMPTY_SET), empty);
        let nothing = [NOTHING, [0, 1], [0, 1], [1, 3], [1, 3]];
        assert_eq!(columns(Best::NOTHING), nothing);
    }

    #[test]
    fn moving_right_drops_what_the_page_count_has_no_room_for() {
        for (price, moved) in [
            (0, vec![7, 0, 9]),
            (1, vec![0, 7, 0, 9]),
            (2, vec![0, 0, 7, 0]),
            (3, vec![0, 0, 0, 7]),
            (4, vec![]),
            (65_535, vec![]),
        ] {
            let mut row = vec![7, 0, 9];
            move_right(&mut row, price, 3);
            assert_eq!(row, moved, "{price}");
        }
    }

    #[test]
    fn gives_case_g() {
        for way in [ROOTED, UNROOTED] {
            let case = cases::case_g(way);
            let solution = solve(&case.records, way, case.count).unwrap();
            assert_eq!(solution.columns, cases::curve_of_g(way));
            assert_eq!(solution.marks, case.marks());
        }
    }
}
