//! Outlines of given and of random shapes, and the lengths, prices and plates to fill them with.
//!
//! A shape has lengths and prices 0, no locks, and its taxa's plates are 1, 2, 3 and so on; `fill` sets lengths and the taxa's
//! prices, `headings::fill` the groups', and `locks` locks taxa.

use std::collections::BTreeSet;

use crate::outline::{taxa, Record, MOST_PLATE};
use crate::random::Random;

/// A tree before its nodes have record numbers; a node without members is a taxon.
#[derive(Clone, Default)]
pub(crate) struct Tree {
    pub members: Vec<Vec<usize>>,
    pub root: usize,
}

/// The link that will name a record once it has its number.
#[derive(Clone, Copy)]
enum Link {
    None,
    Next(usize),
    First(usize),
}

impl Tree {
    /// Adds a node above the given ones and makes it the root.
    fn add(&mut self, members: Vec<usize>) -> usize {
        self.members.push(members);
        self.root = self.members.len() - 1;
        self.root
    }

    fn add_taxa(&mut self, taxa: usize) -> Vec<usize> {
        (0..taxa).map(|_| self.add(Vec::new())).collect()
    }

    /// Puts a group with one member above a random node.
    pub fn add_single_member_group(&mut self, rng: &mut Random) {
        let node = rng.index(self.members.len());
        let root = self.root;
        let group = self.members.len();
        for member in self.members.iter_mut().flatten() {
            if *member == node {
                *member = group;
            }
        }
        self.add(vec![node]);
        self.root = if node == root { group } else { root };
    }

    /// Numbers the nodes at or below the root so that links go to later records; `pick` says which of the nodes that may come
    /// next does. Gives the links, and the nodes in the order of their records.
    pub fn numbered(&self, mut pick: impl FnMut(usize) -> usize) -> (Vec<Record>, Vec<usize>) {
        let (mut records, mut nodes) = (Vec::new(), Vec::new());
        let root = [self.root];
        let mut ready: Vec<(&[usize], Link)> = vec![(&root, Link::None)];
        while !ready.is_empty() {
            let (chain, link) = ready.remove(pick(ready.len()));
            let position = records.len();
            records.push(Record::default());
            nodes.push(chain[0]);
            let number = position as u16 + 1;
            match link {
                Link::None => {}
                Link::Next(before) => records[before].next = number,
                Link::First(group) => records[group].first = number,
            }
            if chain.len() > 1 {
                ready.push((&chain[1..], Link::Next(position)));
            }
            let members = &self.members[chain[0]];
            if !members.is_empty() {
                ready.push((members, Link::First(position)));
            }
        }
        (records, nodes)
    }

    fn records(&self, pick: impl FnMut(usize) -> usize) -> Vec<Record> {
        let (mut records, _) = self.numbered(pick);
        set_plates(&mut records, 1..);
        records
    }

    fn preorder(&self) -> Vec<Record> {
        self.records(|ready| ready - 1)
    }

    /// Preorder one time in six, otherwise any order in which links go to later records.
    fn any_order(&self, rng: &mut Random) -> Vec<Record> {
        if rng.one_in(6) {
            self.preorder()
        } else {
            self.records(|ready| rng.index(ready))
        }
    }
}

fn set_plates(records: &mut [Record], plates: impl IntoIterator<Item = u32>) {
    let taxa = records.iter_mut().filter(|record| record.is_taxon());
    for (taxon, plate) in taxa.zip(plates) {
        taxon.plate = plate;
    }
}

/// Pairs of pairs, in preorder: two to the power of `levels` taxa.
pub fn balanced(levels: u32) -> Vec<Record> {
    let mut tree = Tree::default();
    let mut nodes = tree.add_taxa(1 << levels);
    while nodes.len() > 1 {
        nodes = nodes
            .chunks(2)
            .map(|pair| tree.add(pair.to_vec()))
            .collect();
    }
    tree.preorder()
}

/// Each group is a taxon and then the rest, in preorder.
pub fn caterpillar_taxon_first(taxa: usize) -> Vec<Record> {
    caterpillar(taxa, |taxon, rest| vec![taxon, rest])
}

/// Each group is the rest and then a taxon, in preorder.
pub fn caterpillar_group_first(taxa: usize) -> Vec<Record> {
    caterpillar(taxa, |taxon, rest| vec![rest, taxon])
}

fn caterpillar(taxa: usize, pair: impl Fn(usize, usize) -> Vec<usize>) -> Vec<Record> {
    let mut tree = Tree::default();
    let mut rest = tree.add(Vec::new());
    for _ in 1..taxa {
        let taxon = tree.add(Vec::new());
        rest = tree.add(pair(taxon, rest));
    }
    tree.preorder()
}

/// All taxa directly under the root.
pub fn star(taxa: usize) -> Vec<Record> {
    let mut tree = Tree::default();
    let members = tree.add_taxa(taxa);
    tree.add(members);
    tree.preorder()
}

/// A random tree in which every group is a pair: 2 * `taxa` - 1 records, in preorder or interleaved.
pub fn random_tree(taxa: usize, rng: &mut Random) -> Vec<Record> {
    let mut tree = Tree::default();
    let mut pool = tree.add_taxa(taxa);
    while pool.len() > 1 {
        gather(&mut tree, &mut pool, 2, rng);
    }
    tree.any_order(rng)
}

/// Puts `size` random nodes of the pool under a new group.
fn gather(tree: &mut Tree, pool: &mut Vec<usize>, size: usize, rng: &mut Random) {
    rng.shuffle(pool);
    let members = pool.split_off(pool.len() - size);
    pool.push(tree.add(members));
}

/// Random groups of two or more members, at most `groups` of them.
fn random_groups(taxa: usize, mut groups: usize, rng: &mut Random) -> Tree {
    let mut tree = Tree::default();
    let mut pool = tree.add_taxa(taxa);
    while pool.len() > 1 {
        let more = if groups == 1 || rng.one_in(8) {
            pool.len() - 2
        } else {
            rng.pick(&[0, 0, 0, 1, 2]).min(pool.len() - 2)
        };
        gather(&mut tree, &mut pool, 2 + more, rng);
        groups -= 1;
    }
    tree
}

/// A random outline of at most `most` records: groups of any size, groups of one included, in preorder or interleaved.
pub fn random_outline(taxa: usize, most: usize, rng: &mut Random) -> Vec<Record> {
    let mut tree = random_groups(taxa, most - taxa, rng);
    let room = (most - tree.members.len()) as u64;
    let single = match rng.below(4) {
        0 | 1 => 0,
        2 => rng.below(4).min(room),
        _ => rng.below(room + 1),
    };
    for _ in 0..single {
        tree.add_single_member_group(rng);
    }
    tree.any_order(rng)
}

/// A random outline of exactly `records` records, which is at least 2 * `taxa` - 1.
pub fn random_outline_of(taxa: usize, records: usize, rng: &mut Random) -> Vec<Record> {
    let mut tree = random_groups(taxa, records - taxa, rng);
    while tree.members.len() < records {
        tree.add_single_member_group(rng);
    }
    tree.any_order(rng)
}

/// Every outline of so many records, by its links: each record from the second on has one of the links of earlier ones that name
/// no record yet.
pub fn every_outline(records: usize) -> Vec<Vec<Record>> {
    let mut all = vec![vec![Record::default()]];
    for _ in 1..records {
        all = all.iter().flat_map(|outline| one_more(outline)).collect();
    }
    for outline in &mut all {
        set_plates(outline, 1..);
    }
    all
}

/// The outline with one record more, in every place that there is for it.
fn one_more(outline: &[Record]) -> Vec<Vec<Record>> {
    let number = outline.len() as u16 + 1;
    let mut all = Vec::new();
    for (position, record) in outline.iter().enumerate() {
        let mut longer = [outline, &[Record::default()]].concat();
        if record.first == 0 {
            longer[position].first = number;
            all.push(longer.clone());
            longer[position].first = 0;
        }
        if record.next == 0 && position > 0 {
            longer[position].next = number;
            all.push(longer);
        }
    }
    all
}

/// The outline with the plate fields of its taxa in every order.
pub fn every_order_of_plates(records: &[Record]) -> Vec<Vec<Record>> {
    let fields: Vec<u32> = taxa(records).iter().map(|&at| records[at].plate).collect();
    let with_plates = |order: Vec<usize>| {
        let mut records = records.to_vec();
        set_plates(&mut records, order.into_iter().map(|at| fields[at]));
        records
    };
    every_order(fields.len())
        .into_iter()
        .map(with_plates)
        .collect()
}

/// The numbers below this one in every order.
pub(crate) fn every_order(numbers: usize) -> Vec<Vec<usize>> {
    let one_more = |orders: Vec<Vec<usize>>, number| {
        let longer = |order: &Vec<usize>| -> Vec<Vec<usize>> {
            let places = 0..=order.len();
            places
                .map(|place| [&order[..place], &[number], &order[place..]].concat())
                .collect()
        };
        orders.iter().flat_map(longer).collect()
    };
    (0..numbers).fold(vec![Vec::new()], one_more)
}

/// Sets every length and every taxon's price.
pub fn fill(
    records: &mut [Record],
    rng: &mut Random,
    mut length: impl FnMut(&mut Random) -> u32,
    mut price: impl FnMut(&mut Random) -> u32,
) {
    for record in records {
        record.length = length(rng);
        if record.is_taxon() {
            record.price = price(rng);
        }
    }
}

/// Fills an outline with lengths, prices and plates of a random kind; `count` is the page count meant for it.
pub fn fill_randomly(records: &mut [Record], count: u32, rng: &mut Random) {
    let length_kind = rng.below(6);
    let price_kind = rng.below(8);
    let same_length = rng.up_to(9);
    let same_price = rng.up_to(count / 2 + 2);
    fill(
        records,
        rng,
        |rng| random_length(length_kind, same_length, rng),
        |rng| random_price(price_kind, same_price, count, rng),
    );
    let taxa = records.iter().filter(|record| record.is_taxon()).count();
    set_plates(records, random_plates(taxa, rng));
}

/// Mostly tiny, so that ties abound, sometimes at the limits.
fn random_length(kind: u64, same: u32, rng: &mut Random) -> u32 {
    match kind {
        0 => rng.up_to(1),
        1 => rng.up_to(3),
        2 => rng.up_to(20),
        3 => rng.up_to(1_000_000),
        4 => rng.pick(&[0, 1, 999_999, 1_000_000]),
        _ => same,
    }
}

fn random_price(kind: u64, same: u32, count: u32, rng: &mut Random) -> u32 {
    match kind {
        0 => rng.up_to(1),
        1 => rng.up_to(3),
        2 => rng.up_to(count / 4 + 1),
        3 => rng.up_to(count / 2 + 1),
        4 => rng.up_to(count + 3),
        5 => rng.pick(&[0, 1, count / 2, count, count + 1, 65_535]),
        6 if rng.one_in(4) => rng.up_to(65_535),
        6 => rng.up_to(5),
        _ => same,
    }
    .min(65_535)
}

/// Distinct plates in random order, small, huge or anywhere.
fn random_plates(taxa: usize, rng: &mut Random) -> Vec<u32> {
    let kind = rng.below(5);
    let mut plates = BTreeSet::new();
    while plates.len() < taxa {
        let earlier = plates.len() as u32;
        plates.insert(match kind {
            0 => earlier + 1,
            1 => MOST_PLATE - earlier,
            2 => (earlier + 1) << 16,
            3 => 1 + rng.up_to(MOST_PLATE - 1),
            _ => 1 + rng.up_to(999),
        });
    }
    let mut plates: Vec<u32> = plates.into_iter().collect();
    rng.shuffle(&mut plates);
    plates
}

#[cfg(test)]
mod tests {
    use super::*;
    use crate::outline::{bytes, is_preorder, members};
    use crate::rules;

    fn accepted(records: &[Record]) -> bool {
        rules::check(&bytes(records)).is_none()
    }

    #[test]
    fn named_shapes_are_accepted_and_have_their_sizes() {
        for (records, taxon_count, record_count) in [
            (balanced(0), 1, 1),
            (balanced(6), 64, 127),
            (caterpillar_taxon_first(64), 64, 127),
            (caterpillar_group_first(64), 64, 127),
            (star(64), 64, 65),
            (random_tree(64, &mut Random::new(1)), 64, 127),
        ] {
            assert!(accepted(&records));
            assert!(taxon_count == 1 || members(&records, 0).len() >= 2);
            assert_eq!(taxa(&records).len(), taxon_count);
            assert_eq!(records.len(), record_count);
        }
        assert!(caterpillar_taxon_first(3)[1].is_taxon());
        assert!(!caterpillar_group_first(3)[1].is_taxon());
    }

    #[test]
    fn random_outlines_are_accepted_and_of_every_kind() {
        let rng = &mut Random::new(2);
        let (mut interleaved, mut preorder, mut single, mut wide, mut lone) = (0, 0, 0, 0, 0);
        for _ in 0..2_000 {
            let taxon_count = 1 + rng.index(10);
            let mut records = random_outline(taxon_count, 24, rng);
            fill_randomly(&mut records, 30, rng);
            assert!(accepted(&records), "{records:?}");
            assert_eq!(taxa(&records).len(), taxon_count);
            assert!(records.len() <= 24);
            let sizes: Vec<usize> = (0..records.len())
                .map(|at| members(&records, at).len())
                .collect();
            interleaved += u32::from(!is_preorder(&records));
            preorder += u32::from(is_preorder(&records));
            single += u32::from(sizes.contains(&1));
            wide += u32::from(sizes.iter().any(|&size| size > 3));
            lone += u32::from(records.len() == 1);
        }
        for times in [interleaved, preorder, single, wide, lone] {
            assert!(times > 20);
        }
    }

    #[test]
    fn outlines_of_a_given_size_have_it() {
        let rng = &mut Random::new(3);
        for (taxon_count, size) in [(1, 1), (1, 127), (3, 127), (64, 127), (64, 128)] {
            let records = random_outline_of(taxon_count, size, rng);
            assert_eq!(records.len(), size);
            assert_eq!(taxa(&records).len(), taxon_count);
            assert_eq!(accepted(&records), size < 128);
        }
    }

    #[test]
    fn every_outline_is_there_once() {
        for (size, times) in [(1, 1), (2, 1), (3, 2), (4, 6), (5, 24), (6, 120)] {
            let all = every_outline(size);
            let different: BTreeSet<Vec<u8>> = all.iter().map(|outline| bytes(outline)).collect();
            assert_eq!((all.len(), different.len()), (times, times));
            assert!(all.iter().all(|outline| accepted(outline)));
        }
        let rng = &mut Random::new(5);
        let all = every_outline(6);
        for _ in 0..200 {
            assert!(all.contains(&random_outline_of(1 + rng.index(3), 6, rng)));
        }
    }

    #[test]
    fn plates_stand_in_every_order() {
        let orders = [
            [2, 1, 0],
            [1, 2, 0],
            [1, 0, 2],
            [2, 0, 1],
            [0, 2, 1],
            [0, 1, 2],
        ];
        assert_eq!(every_order(3), orders);
        let mut stars = every_order_of_plates(&star(3));
        let plates = stars.iter().map(|star| [1, 2, 3].map(|at| star[at].plate));
        assert!(plates.eq(orders.map(|order| order.map(|at| at as u32 + 1))));
        stars
            .iter_mut()
            .for_each(|records| set_plates(records, 1..));
        assert_eq!(stars, vec![star(3); 6]);
        let different: BTreeSet<Vec<usize>> = every_order(6).into_iter().collect();
        assert_eq!((different.len(), every_order(0)), (720, vec![vec![]]));
    }

    #[test]
    fn random_values_reach_their_limits() {
        let rng = &mut Random::new(4);
        let (mut longest, mut dearest, mut free, mut last_plate) = (0, 0, 0, 0);
        for _ in 0..500 {
            let mut records = star(10);
            fill_randomly(&mut records, 30, rng);
            longest = longest.max(records.iter().map(|r| r.length).max().unwrap());
            dearest = dearest.max(records.iter().map(|r| r.price).max().unwrap());
            free += records[1..].iter().filter(|r| r.price == 0).count();
            last_plate = last_plate.max(records.iter().map(|r| r.plate).max().unwrap());
        }
        assert_eq!(
            (longest, dearest, last_plate),
            (1_000_000, 65_535, 2_147_483_647)
        );
        assert!(free > 100);
    }
}
