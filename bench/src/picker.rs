//! A plain picker of sets: for each pick one pass over the records hands down from the groups to their members what a choice would
//! add, and the best of the taxa that fit is taken. It does what `plates_quick` does, with the same refusals; the outline's check
//! is the library's own.

use plates_scale::library;
use plates_scale::outline::{records, Record};

const MOST_COUNT: u32 = 4_096;
pub const MOST_PICKS: u32 = 64;

/// Number, place, diversity, cost, taxa; and the ceiling.
pub type Answer = ([u32; 5], u64);

#[derive(Clone, Default)]
struct Node {
    /// The number of the record's group; the root's is 0.
    above: usize,
    length: u32,
    price: u32,
    is_taxon: bool,
    /// Whether a taxon of the set is at or below the record.
    counts: bool,
}

/// A set of taxa, and what a further one would add. Both lists go by the records' numbers; number 0, above the root, counts.
struct Picker {
    nodes: Vec<Node>,
    /// The diversity and the quarters of the records that do not count, from the root down to this one.
    added: Vec<[u32; 2]>,
    diversity: u32,
    cost: u32,
    taxa: u32,
}

impl Picker {
    fn new(records: &[Record]) -> Self {
        let mut nodes = vec![Node::default(); records.len() + 1];
        nodes[0].counts = true;
        for (number, record) in (1..).zip(records) {
            // Links go to later records, so a record's group is known before its own links are followed.
            let above = nodes[number].above;
            nodes[number] = Node {
                above,
                length: record.length,
                price: record.price,
                is_taxon: record.is_taxon(),
                counts: false,
            };
            if record.next != 0 {
                nodes[usize::from(record.next)].above = above;
            }
            if record.first != 0 {
                nodes[usize::from(record.first)].above = number;
            }
        }
        Picker {
            added: vec![[0, 0]; nodes.len()],
            nodes,
            diversity: 0,
            cost: 0,
            taxa: 0,
        }
    }

    /// Takes a taxon into the set.
    fn take(&mut self, taxon: usize) {
        self.taxa += 1;
        let mut at = taxon;
        while !self.nodes[at].counts {
            let node = &mut self.nodes[at];
            node.counts = true;
            self.added[at] = [0, 0];
            self.diversity += node.length;
            self.cost += node.price;
            at = node.above;
        }
    }

    /// What is added down to a record that does not count: its own to that of its group, which is known.
    fn hand_down(&mut self, at: usize) -> [u32; 2] {
        let node = &self.nodes[at];
        let [diversity, quarters] = self.added[node.above];
        let added = [diversity + node.length, quarters + node.price];
        self.added[at] = added;
        added
    }

    /// The taxon to be picked next.
    fn next(&mut self, count: u32) -> Option<usize> {
        let mut next = None;
        // Nothing is better than this unless it adds diversity.
        let mut best = [0, 0];
        for at in 1..self.nodes.len() {
            if self.nodes[at].counts {
                continue;
            }
            let [diversity, quarters] = self.hand_down(at);
            let is_better = diversity > best[0] || diversity == best[0] && quarters < best[1];
            let fits = self.cost + quarters <= count;
            if self.nodes[at].is_taxon && fits && is_better {
                next = Some(at);
                best = [diversity, quarters];
            }
        }
        next
    }

    /// The diversity, and what each taxon that is not in the set would add if its own price is at most the count.
    fn ceiling(&mut self, count: u32) -> u64 {
        let mut ceiling = u64::from(self.diversity);
        for at in 1..self.nodes.len() {
            if self.nodes[at].counts {
                continue;
            }
            let [diversity, _] = self.hand_down(at);
            if self.nodes[at].is_taxon && self.nodes[at].price <= count {
                ceiling += u64::from(diversity);
            }
        }
        ceiling
    }
}

pub fn pick(outline: &[u8], count: u32, picks: u32, marks: &mut [u8]) -> Answer {
    let refused = |number, place| ([number, place, 0, 0, 0], 0);
    let [number, place] = library::check(outline);
    if number == 2 || number == 3 {
        return refused(number, place);
    }
    if count > MOST_COUNT {
        return refused(4, 0);
    }
    if picks > MOST_PICKS {
        return refused(15, 0);
    }
    if number != 0 {
        return refused(number, place);
    }
    let records = records(outline);
    let Some(marks) = marks.get_mut(..records.len()) else {
        return refused(9, 0);
    };
    let mut picker = Picker::new(&records);
    for (number, record) in (1..).zip(&records) {
        if record.is_locked() {
            picker.take(number);
        }
    }
    if picker.cost > count {
        return refused(12, 0);
    }
    for _ in 0..picks {
        let Some(taxon) = picker.next(count) else {
            break;
        };
        picker.take(taxon);
    }
    for (mark, node) in marks.iter_mut().zip(&picker.nodes[1..]) {
        *mark = u8::from(node.is_taxon && node.counts);
    }
    let ceiling = picker.ceiling(count);
    let answer = [0, 0, picker.diversity, picker.cost, picker.taxa];
    (answer, ceiling)
}

#[cfg(test)]
mod tests {
    use super::*;
    use crate::tree::{members, Tree};
    use plates_scale::cases::tree_a;
    use plates_scale::outline::{bytes, LOCK, ROOTED};
    use plates_scale::random::Random;
    use plates_scale::{headings, locks, shapes};
    use std::cmp::Reverse;

    /// The answer after its number and place, the ceiling, and the marks.
    fn picked(records: &[Record], count: u32, picks: u32) -> ([u32; 3], u64, Vec<u8>) {
        let mut marks = vec![9; records.len() + 1];
        let ([number, place, rest @ ..], ceiling) = pick(&bytes(records), count, picks, &mut marks);
        assert_eq!([number, place], [0, 0]);
        assert_eq!(marks.pop(), Some(9));
        (rest, ceiling, marks)
    }

    #[test]
    fn tree_a_is_picked_from() {
        let picked = |count, picks| picked(&tree_a(), count, picks);
        assert_eq!(picked(5, 0), ([0, 0, 0], 17, vec![0; 5]));
        assert_eq!(picked(5, 1), ([7, 3, 1], 14, vec![0, 0, 1, 0, 0]));
        assert_eq!(picked(5, 2), ([12, 5, 2], 14, vec![0, 0, 1, 0, 1]));
        assert_eq!(picked(5, 64), picked(5, 2));
        assert_eq!(picked(6, 64), ([14, 6, 3], 14, vec![0, 0, 1, 1, 1]));
        // Of the two that add 5 it is the cheaper one, which does not leave room for the other.
        assert_eq!(picked(2, 64), ([5, 1, 1], 10, vec![0, 0, 0, 1, 0]));
        assert_eq!(picked(0, 64), ([0, 0, 0], 0, vec![0; 5]));
    }

    #[test]
    fn headings_are_paid_once_and_left_out_of_what_the_ceiling_asks() {
        let mut records = tree_a();
        records[1].price = 2;
        let picked = |count, picks| picked(&records, count, picks);
        assert_eq!(picked(5, 64), ([7, 5, 1], 14, vec![0, 0, 1, 0, 0]));
        assert_eq!(picked(7, 64), ([12, 7, 2], 14, vec![0, 0, 1, 0, 1]));
        assert_eq!(picked(1, 64), ([0, 0, 0], 5, vec![0; 5]));
    }

    #[test]
    fn locked_taxa_come_first_and_are_no_picks() {
        let mut records = tree_a();
        records[3].plate |= LOCK;
        let picked = |count, picks| picked(&records, count, picks);
        assert_eq!(picked(4, 0), ([5, 1, 1], 14, vec![0, 0, 0, 1, 0]));
        assert_eq!(picked(4, 1), ([10, 3, 2], 14, vec![0, 0, 0, 1, 1]));
        assert_eq!(picked(4, 64), picked(4, 1));
    }

    #[test]
    fn of_equal_taxa_the_cheaper_and_then_the_lower_record_is_picked() {
        let mut records = shapes::star(3);
        shapes::fill(&mut records, &mut Random::new(0), |_| 4, |_| 1);
        assert_eq!(picked(&records, 3, 1).2, [0, 1, 0, 0]);
        records[3].price = 0;
        assert_eq!(picked(&records, 3, 1).2, [0, 0, 0, 1]);
        assert_eq!(picked(&records, 3, 2).2, [0, 1, 0, 1]);
        // What adds nothing is never picked, though it is free.
        records[3].length = 0;
        assert_eq!(picked(&records, 3, 64).2, [0, 1, 1, 0]);
    }

    /// Diversity, cost, taxa and ceiling as document 02 has them, each set measured anew.
    fn by_the_rule(tree: &Tree, count: u32, picks: u32) -> ([u32; 3], u64, u64) {
        let count = u64::from(count);
        let is_locked = |&taxon: &usize| tree.records[tree.taxa[taxon]].is_locked();
        let taxa = || members(tree.all());
        let mut set = taxa()
            .filter(is_locked)
            .fold(0, |set, taxon| set | 1 << taxon);
        let adds = |set: u64, taxon: usize| {
            let with = set | 1 << taxon;
            tree.diversity(with, ROOTED) - tree.diversity(set, ROOTED)
        };
        for _ in 0..picks {
            let others = taxa().filter(|&taxon| set >> taxon & 1 == 0);
            let fitting = others.filter(|&taxon| tree.cost(set | 1 << taxon) <= count);
            let adding = fitting.filter(|&taxon| adds(set, taxon) > 0);
            let last = |&taxon: &usize| {
                let record = Reverse(tree.taxa[taxon]);
                (
                    adds(set, taxon),
                    Reverse(tree.cost(set | 1 << taxon)),
                    record,
                )
            };
            match adding.max_by_key(last) {
                Some(taxon) => set |= 1 << taxon,
                None => break,
            }
        }
        let others = taxa().filter(|&taxon| set >> taxon & 1 == 0);
        let cheap = others.filter(|&taxon| u64::from(tree.price(taxon)) <= count);
        let diversity = tree.diversity(set, ROOTED);
        let ceiling = diversity + cheap.map(|taxon| adds(set, taxon)).sum::<u64>();
        let answer = [diversity as u32, tree.cost(set) as u32, set.count_ones()];
        (answer, ceiling, set)
    }

    #[test]
    fn picks_follow_the_rule() {
        let random = &mut Random::new(1);
        for _ in 0..2_000 {
            let mut records = shapes::random_outline(1 + random.index(12), 30, random);
            shapes::fill_randomly(&mut records, 20, random);
            headings::fill_at_times(&mut records, 20, random);
            let count = locks::fill_at_times(&mut records, 20, 30, random);
            let count = count.max(locks::cost(&records));
            if count > MOST_COUNT {
                continue;
            }
            let tree = Tree::new(&records);
            let picks = random.up_to(12);
            let (answer, ceiling, marks) = picked(&records, count, picks);
            let given = (answer, ceiling, tree.marked(&marks));
            assert_eq!(given, by_the_rule(&tree, count, picks), "{records:?}");
        }
    }

    #[test]
    fn refusals_come_in_their_order() {
        let mut records = tree_a();
        let refused = |outline: &[u8], count, picks, room| {
            let mut marks = vec![9; room];
            let ([number, place, rest @ ..], ceiling) = pick(outline, count, picks, &mut marks);
            assert_eq!((rest, ceiling, marks), ([0; 3], 0, vec![9; room]));
            [number, place]
        };
        records[4].plate |= LOCK;
        let outline = bytes(&records);
        assert_eq!(refused(&outline, 1, 0, 5), [12, 0]);
        assert_eq!(refused(&outline, 1, 0, 4), [9, 0]);
        records[4].plate = 11;
        let twins = bytes(&records);
        assert_eq!(refused(&twins, 1, 64, 4), [8, 5]);
        assert_eq!(refused(&twins, 1, 65, 4), [15, 0]);
        assert_eq!(refused(&twins, 4_097, 65, 4), [4, 0]);
        assert_eq!(refused(&twins[1..], 4_097, 65, 4), [2, 0]);
        assert_eq!(refused(&[0; 128 * 16], 4_097, 65, 4), [3, 0]);
    }
}
