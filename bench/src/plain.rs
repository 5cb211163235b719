//! The plain table of Pardi and Goldman, O(N B²): for each clade a row with the best set of each budget, the members of a group
//! joined over every split of every budget.

use plates_scale::outline::{members, taxa, Record, UNROOTED};
use plates_scale::table::Best;
use std::iter::repeat_n;

/// The worth of the best nonempty set for each budget.
type Row = Vec<i128>;

/// No set: so far down that with whatever is added it stays below every set's worth, and that two can be added.
const NONE: i128 = i128::MIN / 4;

/// A cost is below 2 to this power.
const COST_BITS: u32 = 20;

/// Diversity less cost above the 64 bits of the set: the greater number is the better set, and the worths of disjoint sets add
/// up to that of their union. The set has bit 63 - k for the k-th taxon in record order.
fn worth(diversity: u32, cost: u32, set: u64) -> i128 {
    (((i128::from(diversity) << COST_BITS) - i128::from(cost)) << 64) + i128::from(set)
}

fn best(worth: i128) -> Best {
    let score = worth >> 64;
    let diversity = (score + (1 << COST_BITS) - 1) >> COST_BITS;
    Best {
        diversity: diversity as u32,
        cost: ((diversity << COST_BITS) - score) as u32,
        set: worth as u64,
    }
}

/// What the sets inside a clade are worth.
struct Clade {
    /// With something chosen elsewhere, or rooted: the clade's own branch counts.
    rooted: Row,
    /// With nothing chosen elsewhere: only branches between chosen taxa count.
    unrooted: Row,
}

impl Clade {
    fn taxon(record: &Record, set: u64, count: usize) -> Clade {
        let row = |diversity| {
            let worth = worth(diversity, record.price, set);
            let budgets = 0..=count;
            budgets
                .map(|budget| pick(record.price as usize <= budget, worth))
                .collect()
        };
        Clade {
            rooted: row(record.length),
            unrooted: row(0),
        }
    }

    fn joined(&self, member: &Clade) -> Clade {
        let pairs = pairs(&self.rooted, &member.rooted);
        Clade {
            rooted: best_of([&self.rooted, &member.rooted, &pairs]),
            unrooted: best_of([&self.unrooted, &member.unrooted, &pairs]),
        }
    }

    /// With the group's branch and price.
    fn charged(&self, group: &Record) -> Clade {
        Clade {
            rooted: moved(&self.rooted, group.length, group.price),
            unrooted: moved(&self.unrooted, 0, group.price),
        }
    }
}

/// Each set with a branch and a price more, and so at a budget that is greater by the price.
fn moved(row: &Row, length: u32, price: u32) -> Row {
    let charge = worth(length, price, 0);
    let charged = row.iter().map(|worth| worth + charge);
    let too_dear = repeat_n(NONE, price as usize);
    too_dear.chain(charged).take(row.len()).collect()
}

fn pick(fits: bool, worth: i128) -> i128 {
    if fits {
        worth
    } else {
        NONE
    }
}

fn pairs(one: &Row, other: &Row) -> Row {
    (0..one.len())
        .map(|budget| {
            let splits = one[..=budget].iter().zip(other[..=budget].iter().rev());
            splits
                .map(|(left, right)| left + right)
                .max()
                .unwrap()
                .max(NONE)
        })
        .collect()
}

fn best_of(rows: [&Row; 3]) -> Row {
    let [one, two, three] = rows;
    let cells = one.iter().zip(two).zip(three);
    cells
        .map(|((&one, &two), &three)| one.max(two).max(three))
        .collect()
}

/// The best sets of columns 0 to `count` of an accepted outline.
pub fn optima(records: &[Record], way: u32, count: usize) -> Vec<Best> {
    let root = clade(records, 0, count);
    let row = if way == UNROOTED {
        root.unrooted
    } else {
        root.rooted
    };
    // Nothing chosen is worth 0.
    row.into_iter().map(|worth| best(worth.max(0))).collect()
}

fn clade(records: &[Record], position: usize, count: usize) -> Clade {
    let record = &records[position];
    if record.is_taxon() {
        let k = taxa(records).binary_search(&position).expect("a taxon");
        return Clade::taxon(record, 1 << (63 - k), count);
    }
    let members = members(records, position).into_iter();
    let clades = members.map(|member| clade(records, member, count));
    let joined = clades.reduce(|one, other| one.joined(&other));
    joined.expect("a member").charged(record)
}

#[cfg(test)]
mod tests {
    use super::*;
    use crate::tree::Tree;
    use plates_scale::cases::tree_a;
    use plates_scale::outline::ROOTED;
    use plates_scale::random::Random;
    use plates_scale::shapes;
    use std::cmp::Reverse;

    /// By trying every set of taxa.
    fn tried(tree: &Tree, way: u32, count: u32) -> Best {
        let taxa = tree.taxa.len();
        let sets = (0..1u64 << taxa).map(|set| set << (64 - taxa));
        let bests = sets.map(|set| {
            let chosen = tree.in_walk_order(set);
            let (diversity, cost) = (tree.diversity(chosen, way), tree.cost(chosen));
            Best {
                diversity: diversity as u32,
                cost: cost as u32,
                set,
            }
        });
        let fitting = bests.filter(|best| best.cost <= count);
        fitting
            .max_by_key(|best| (best.diversity, Reverse(best.cost), best.set))
            .expect("the empty set fits")
    }

    #[test]
    fn gives_the_best_set_of_every_count() {
        let random = &mut Random::new(1);
        for _ in 0..500 {
            let mut records = shapes::random_outline(1 + random.index(6), 12, random);
            shapes::fill_randomly(&mut records, 20, random);
            for group in records.iter_mut().filter(|record| !record.is_taxon()) {
                group.price = random.pick(&[0, 0, 1, 2, 3, 25, 65_535]);
            }
            let tree = Tree::new(&records);
            for way in [ROOTED, UNROOTED] {
                let expected: Vec<Best> = (0..=20).map(|count| tried(&tree, way, count)).collect();
                assert_eq!(optima(&records, way, 20), expected, "{records:?}");
            }
        }
    }

    #[test]
    fn headings_of_tree_a_are_paid_once() {
        let mut records = tree_a();
        (records[0].price, records[1].price) = (1, 2);
        let curve = |way| -> Vec<[u32; 2]> {
            let best = optima(&records, way, 9).into_iter();
            best.map(|best| [best.diversity, best.cost]).collect()
        };
        let both = [[10, 6], [10, 6], [12, 8], [14, 9]];
        let rooted = [[0, 0], [0, 0], [0, 0], [5, 3], [5, 3], [5, 3]];
        assert_eq!(curve(ROOTED), [&rooted[..], &both].concat());
        assert_eq!(curve(UNROOTED), [&[[0, 0]; 6][..], &both].concat());
    }
}
