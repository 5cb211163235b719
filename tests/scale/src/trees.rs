//! The tree of an accepted outline: its members are shuffled, something in it is changed, and its records are numbered anew.

use crate::outline::{self, Record, LOCK, MOST_PLATE};
use crate::random::Random;
use crate::shapes;
use crate::view_pairs::another_price;

const MOST_RECORDS: usize = 127;
const MOST_TAXA: usize = 64;
const MOST_LENGTH: u32 = 1_000_000;

#[derive(Clone)]
pub struct Tree {
    shape: shapes::Tree,
    /// Each node's length, price and plate field.
    fields: Vec<Record>,
}

impl Tree {
    /// The nodes are the records.
    pub fn of(records: &[Record]) -> Self {
        let members = (0..records.len()).map(|at| outline::members(records, at));
        Tree {
            shape: shapes::Tree {
                members: members.collect(),
                root: 0,
            },
            fields: records.to_vec(),
        }
    }

    pub fn shuffle(&mut self, rng: &mut Random) {
        for members in &mut self.shape.members {
            rng.shuffle(members);
        }
    }

    /// The records in the order of the text, or in another one in which links go to later records.
    pub fn numbered(&self, rng: &mut Random) -> Vec<Record> {
        let kind = rng.below(6);
        let (links, nodes) = self.shape.numbered(|ready| match kind {
            0 | 1 => ready - 1,
            2 => 0,
            _ => rng.index(ready),
        });
        let record = |(links, node): (Record, usize)| Record {
            next: links.next,
            first: links.first,
            ..self.fields[node]
        };
        links.into_iter().zip(nodes).map(record).collect()
    }

    /// A node and all below it.
    fn at_or_below(&self, node: usize) -> Vec<usize> {
        let mut found = vec![node];
        let mut looked_at = 0;
        while let Some(&node) = found.get(looked_at) {
            found.extend(&self.shape.members[node]);
            looked_at += 1;
        }
        found
    }

    fn nodes(&self) -> Vec<usize> {
        self.at_or_below(self.shape.root)
    }

    fn is_taxon(&self, node: usize) -> bool {
        self.shape.members[node].is_empty()
    }

    fn taxa(&self) -> Vec<usize> {
        let mut taxa = self.nodes();
        taxa.retain(|&node| self.is_taxon(node));
        taxa
    }

    fn groups(&self) -> Vec<usize> {
        let mut groups = self.nodes();
        groups.retain(|&node| !self.is_taxon(node));
        groups
    }

    /// The members of each group for whose size it holds, with the group.
    fn members_of(&self, holds: fn(usize) -> bool) -> Vec<(usize, usize)> {
        let mut groups = self.groups();
        groups.retain(|&group| holds(self.shape.members[group].len()));
        let with_members = |group: usize| {
            let members = self.shape.members[group].iter();
            members.map(move |&member| (group, member))
        };
        groups.into_iter().flat_map(with_members).collect()
    }

    fn remove(&mut self, group: usize, member: usize) {
        self.shape.members[group].retain(|&other| other != member);
    }

    /// Puts a node at any place of a group's chain.
    fn insert(&mut self, group: usize, node: usize, rng: &mut Random) {
        let members = &mut self.shape.members[group];
        let place = rng.index(members.len() + 1);
        members.insert(place, node);
    }

    /// Adds a node that stands nowhere yet.
    fn add(&mut self, fields: Record, members: Vec<usize>) -> usize {
        self.shape.members.push(members);
        self.fields.push(fields);
        self.fields.len() - 1
    }

    /// Two nodes change places, of which one may stand nowhere.
    fn change_places(&mut self, one: usize, other: usize) {
        let members = self.shape.members.iter_mut().flatten();
        for node in members.chain([&mut self.shape.root]) {
            if *node == one {
                *node = other;
            } else if *node == other {
                *node = one;
            }
        }
    }
}

/// The same tree with its members shuffled and its records numbered anew.
pub fn shuffled(records: &[Record], rng: &mut Random) -> Vec<Record> {
    let mut tree = Tree::of(records);
    tree.shuffle(rng);
    tree.numbered(rng)
}

/// Makes a change if the tree has a place for it.
pub type Change = fn(&mut Tree, &mut Random) -> Option<()>;

/// Each changes one thing, so that it is another tree.
pub const CHANGES: [(&str, Change); 10] = [
    ("one length", one_length),
    ("one taxon's price", one_taxon_price),
    ("one heading's price", one_heading_price),
    ("one lock", one_lock),
    ("one plate", one_plate),
    ("one member's parent", one_parent),
    ("one taxon more", one_taxon_more),
    ("one taxon fewer", one_taxon_fewer),
    ("one group of one more", one_group_more),
    ("one group of one fewer", one_group_fewer),
];

/// Two things change places. It may be the same tree after that.
pub const EXCHANGES: [(&str, Change); 5] = [
    ("two lengths", |tree, rng| {
        let nodes = tree.nodes();
        exchange_fields(tree, &nodes, |fields| &mut fields.length, rng)
    }),
    ("two prices", |tree, rng| {
        let nodes = tree.nodes();
        exchange_fields(tree, &nodes, |fields| &mut fields.price, rng)
    }),
    ("two plate fields", |tree, rng| {
        let taxa = tree.taxa();
        exchange_fields(tree, &taxa, |fields| &mut fields.plate, rng)
    }),
    ("a lock and no lock", one_lock_elsewhere),
    ("two records with all below them", two_places),
];

fn any<T: Copy>(list: &[T], rng: &mut Random) -> Option<T> {
    (!list.is_empty()).then(|| rng.pick(list))
}

fn one_length(tree: &mut Tree, rng: &mut Random) -> Option<()> {
    let node = any(&tree.nodes(), rng)?;
    let length = &mut tree.fields[node].length;
    *length = another_length(*length, rng);
    Some(())
}

fn one_taxon_price(tree: &mut Tree, rng: &mut Random) -> Option<()> {
    let taxa = tree.taxa();
    one_price(tree, &taxa, rng)
}

fn one_heading_price(tree: &mut Tree, rng: &mut Random) -> Option<()> {
    let groups = tree.groups();
    one_price(tree, &groups, rng)
}

fn one_price(tree: &mut Tree, nodes: &[usize], rng: &mut Random) -> Option<()> {
    let price = &mut tree.fields[any(nodes, rng)?].price;
    *price = another_price(*price, rng);
    Some(())
}

fn one_lock(tree: &mut Tree, rng: &mut Random) -> Option<()> {
    let taxon = any(&tree.taxa(), rng)?;
    tree.fields[taxon].plate ^= LOCK;
    Some(())
}

fn one_plate(tree: &mut Tree, rng: &mut Random) -> Option<()> {
    let taxon = any(&tree.taxa(), rng)?;
    let field = tree.fields[taxon].plate;
    tree.fields[taxon].plate = field & LOCK | another_plate(tree, taxon, rng);
    Some(())
}

/// A group keeps a member, and no member gets below itself.
fn one_parent(tree: &mut Tree, rng: &mut Random) -> Option<()> {
    let (group, member) = any(&tree.members_of(|size| size > 1), rng)?;
    let below = tree.at_or_below(member);
    let mut others = tree.groups();
    others.retain(|other| *other != group && !below.contains(other));
    let other = any(&others, rng)?;
    tree.remove(group, member);
    tree.insert(other, member, rng);
    Some(())
}

fn one_taxon_more(tree: &mut Tree, rng: &mut Random) -> Option<()> {
    let taxa = tree.taxa();
    let group = any(&tree.groups(), rng)?;
    let model = any(&taxa, rng)?;
    if taxa.len() == MOST_TAXA || tree.nodes().len() == MOST_RECORDS {
        return None;
    }
    let plate = another_plate(tree, model, rng);
    let taxon = tree.add(
        Record {
            plate,
            ..tree.fields[model]
        },
        Vec::new(),
    );
    tree.insert(group, taxon, rng);
    Some(())
}

fn one_taxon_fewer(tree: &mut Tree, rng: &mut Random) -> Option<()> {
    let mut taxa = tree.members_of(|size| size > 1);
    taxa.retain(|&(_, member)| tree.is_taxon(member));
    let (group, taxon) = any(&taxa, rng)?;
    tree.remove(group, taxon);
    Some(())
}

/// Its length is mostly that of the record that is below it now.
fn one_group_more(tree: &mut Tree, rng: &mut Random) -> Option<()> {
    let nodes = tree.nodes();
    let node = any(&nodes, rng)?;
    if nodes.len() == MOST_RECORDS {
        return None;
    }
    let of_below = tree.fields[node].length;
    let fields = Record {
        length: rng.pick(&[of_below, of_below, 0]),
        ..Record::default()
    };
    let group = tree.add(fields, Vec::new());
    tree.change_places(node, group);
    tree.shape.members[group].push(node);
    Some(())
}

fn one_group_fewer(tree: &mut Tree, rng: &mut Random) -> Option<()> {
    let (group, member) = any(&tree.members_of(|size| size == 1), rng)?;
    tree.remove(group, member);
    tree.change_places(group, member);
    Some(())
}

/// Two of the nodes exchange a field.
fn exchange_fields(
    tree: &mut Tree,
    nodes: &[usize],
    field: fn(&mut Record) -> &mut u32,
    rng: &mut Random,
) -> Option<()> {
    let (one, other) = (any(nodes, rng)?, any(nodes, rng)?);
    let of_one = *field(&mut tree.fields[one]);
    let of_other = std::mem::replace(field(&mut tree.fields[other]), of_one);
    *field(&mut tree.fields[one]) = of_other;
    Some(())
}

fn one_lock_elsewhere(tree: &mut Tree, rng: &mut Random) -> Option<()> {
    let (locked, free): (Vec<_>, Vec<_>) = tree
        .taxa()
        .into_iter()
        .partition(|&taxon| tree.fields[taxon].is_locked());
    let (locked, free) = (any(&locked, rng)?, any(&free, rng)?);
    tree.fields[locked].plate ^= LOCK;
    tree.fields[free].plate ^= LOCK;
    Some(())
}

/// Neither is below the other.
fn two_places(tree: &mut Tree, rng: &mut Random) -> Option<()> {
    let (one, other) = (any(&tree.nodes(), rng)?, any(&tree.nodes(), rng)?);
    let apart = !tree.at_or_below(one).contains(&other) && !tree.at_or_below(other).contains(&one);
    apart.then(|| tree.change_places(one, other))
}

/// Mostly near this length.
fn another_length(length: u32, rng: &mut Random) -> u32 {
    let bit = length ^ 1 << rng.below(20);
    let any = rng.up_to(MOST_LENGTH);
    let other = rng.pick(&[bit, length + 1, any]);
    if other == length || other > MOST_LENGTH {
        return (length + 1) % (MOST_LENGTH + 1);
    }
    other
}

/// A plate that no taxon has, mostly near that of this one.
fn another_plate(tree: &Tree, taxon: usize, rng: &mut Random) -> u32 {
    let plate = |node: usize| tree.fields[node].plate_number();
    let taken: Vec<u32> = tree.taxa().into_iter().map(plate).collect();
    loop {
        let bit = plate(taxon) ^ 1 << rng.below(31);
        let any = rng.up_to(MOST_PLATE);
        let other = rng.pick(&[bit, plate(taxon) - 1, plate(taxon) + 1, any]);
        if (1..=MOST_PLATE).contains(&other) && !taken.contains(&other) {
            return other;
        }
    }
}

#[cfg(test)]
mod tests {
    use super::*;
    use crate::cases::tree_a;
    use crate::outline::{bytes, is_preorder, members};
    use crate::rules;
    use crate::same_tree::are_same;
    use crate::view_pairs::sound_outline;
    use std::collections::BTreeSet;

    /// The orders of the two chains and, where the group comes before plate 13, of the records: 2 * (3 + 1).
    #[test]
    fn tree_a_is_shuffled_in_every_way_and_in_no_other() {
        let rng = &mut Random::new(1);
        let found: BTreeSet<Vec<u8>> = (0..500).map(|_| bytes(&shuffled(&tree_a(), rng))).collect();
        assert_eq!(found.len(), 8);
        for outline in found {
            assert_eq!(rules::check(&outline), None);
            assert!(are_same(&outline::records(&outline), &tree_a()));
        }
    }

    #[test]
    fn numbering_anew_leaves_the_chains() {
        let rng = &mut Random::new(2);
        let mut in_text_order = 0;
        for _ in 0..300 {
            let records = sound_outline(rng);
            let numbered = Tree::of(&records).numbered(rng);
            let plates = |records: &[Record], at| -> Vec<u32> {
                let members = members(records, at).into_iter();
                members.map(|member| records[member].plate).collect()
            };
            assert_eq!(plates(&records, 0), plates(&numbered, 0));
            assert!(are_same(&records, &numbered));
            in_text_order += u32::from(is_preorder(&numbered));
        }
        assert!((100..200).contains(&in_text_order), "{in_text_order}");
    }

    /// How often a change was made, and how often it was the same tree after that.
    fn made(change: Change, seed: u64) -> [u32; 2] {
        let rng = &mut Random::new(seed);
        let mut times = [0; 2];
        for _ in 0..300 {
            let records = sound_outline(rng);
            let mut tree = Tree::of(&records);
            if change(&mut tree, rng).is_some() {
                let changed = tree.numbered(rng);
                assert_eq!(rules::check(&bytes(&changed)), None, "{changed:?}");
                times[0] += 1;
                times[1] += u32::from(are_same(&records, &changed));
            }
        }
        times
    }

    #[test]
    fn one_change_makes_another_tree() {
        for (name, change) in CHANGES {
            let [made, same] = made(change, 3);
            assert!(made > 50 && same == 0, "{name}: {made}, {same}");
        }
    }

    #[test]
    fn an_exchange_makes_another_tree_or_the_same() {
        for (name, change) in EXCHANGES {
            let [made, same] = made(change, 4);
            assert!(made > 100 && made - same > 50, "{name}: {made}, {same}");
        }
        let [_, same] = made(EXCHANGES[2].1, 5);
        assert!(same > 20, "{same}");
    }

    #[test]
    fn another_length_and_another_plate_are_in_range_and_others() {
        let rng = &mut Random::new(6);
        for length in [0, 1, 524_288, 999_999, MOST_LENGTH] {
            for _ in 0..200 {
                let other = another_length(length, rng);
                assert!(other != length && other <= MOST_LENGTH);
            }
        }
        let mut records = tree_a();
        (records[2].plate, records[3].plate) = (1, MOST_PLATE);
        let tree = Tree::of(&records);
        for taxon in [2, 3, 4].repeat(200) {
            let other = another_plate(&tree, taxon, rng);
            assert!((2..MOST_PLATE).contains(&other) && other != 13);
        }
    }
}
