//! Whether two accepted outlines are the same tree: whether a renumbering of the records keeps each one's parent, length, price and
//! plate field (document 02, §9). It is searched for from the root down; no house form is written for it.

use std::collections::BTreeSet;

use crate::outline::{members, parents, Record};

/// A renumbering: the position in the other outline of each record of the one.
type Renumbering = Vec<usize>;

/// Whether a renumbering was found. One that was is looked at again, by the definition.
pub fn are_same(one: &[Record], other: &[Record]) -> bool {
    let found = renumbering(one, other);
    assert!(found.iter().all(|to| keeps(one, other, to)));
    found.is_some()
}

/// Whether it names each record of the other outline once and keeps each one's parent, length, price and plate field.
fn keeps(one: &[Record], other: &[Record], to: &[usize]) -> bool {
    let named: BTreeSet<usize> = to.iter().copied().collect();
    if to.len() != one.len() || !named.into_iter().eq(0..other.len()) {
        return false;
    }
    let [parents, others] = [one, other].map(parents);
    let kept = |at: usize| {
        let parent = parents[at].map(|parent| to[parent]);
        parent == others[to[at]] && own(&one[at]) == own(&other[to[at]])
    };
    (0..one.len()).all(kept)
}

/// What a record keeps beside its parent.
fn own(record: &Record) -> [u32; 3] {
    [record.length, record.price, record.plate]
}

fn renumbering(one: &[Record], other: &[Record]) -> Option<Renumbering> {
    let pairs = Search { one, other }.matched(0, 0)?;
    if [one.len(), other.len()] != [pairs.len(); 2] {
        return None;
    }
    let mut to = vec![0; one.len()];
    for (at, place) in pairs {
        to[at] = place;
    }
    Some(to)
}

#[derive(Clone, Copy)]
struct Search<'a> {
    one: &'a [Record],
    other: &'a [Record],
}

impl Search<'_> {
    /// The records at or below one, each with that of the other outline that it goes with, if they go together. There is a taxon
    /// at or below each member and its plate is nowhere else, so a member goes with one at most, and the first that is met is it.
    fn matched(self, at: usize, place: usize) -> Option<Vec<(usize, usize)>> {
        if own(&self.one[at]) != own(&self.other[place]) {
            return None;
        }
        let mut left = members(self.other, place);
        let mut pairs = vec![(at, place)];
        for member in members(self.one, at) {
            let mut tried = left.iter().enumerate();
            let (taken, below) = tried
                .find_map(|(taken, &candidate)| Some((taken, self.matched(member, candidate)?)))?;
            left.swap_remove(taken);
            pairs.extend(below);
        }
        left.is_empty().then_some(pairs)
    }
}

#[cfg(test)]
mod tests {
    use super::*;
    use crate::cases::tree_a;
    use crate::form_cases::seven_in_form;
    use crate::outline::LOCK;
    use crate::shapes::every_order;
    use crate::tree_rows::every_small;
    use crate::write_cases::seven_records;

    /// The definition by every renumbering that there is.
    fn by_every_order(one: &[Record], other: &[Record]) -> bool {
        let mut orders = every_order(one.len()).into_iter();
        orders.any(|to| keeps(one, other, &to))
    }

    #[test]
    fn what_is_found_is_what_any_renumbering_shows() {
        let small = every_small(4);
        let mut same = 0;
        for (at, one) in small.iter().enumerate() {
            for other in &small[at..] {
                let found = are_same(one, other);
                assert_eq!(found, by_every_order(one, other), "{one:?}, {other:?}");
                same += u32::from(found);
            }
        }
        assert!(same > small.len() as u32, "{same}");
    }

    #[test]
    fn a_renumbering_takes_each_record_to_its_own() {
        let (records, form) = (seven_records(), seven_in_form());
        let to = vec![0, 1, 4, 6, 3, 5, 2];
        assert_eq!(renumbering(&records, &form), Some(to));
        assert!(keeps(&records, &form, &[0, 1, 4, 6, 3, 5, 2]));
        assert!(!keeps(&records, &form, &[0, 1, 4, 6, 2, 5, 3]));
    }

    /// Tree A is its own tree, and no longer so with anything changed.
    #[test]
    fn each_thing_that_is_kept_is_needed() {
        let tree_a = tree_a();
        assert!(keeps(&tree_a, &tree_a, &[0, 1, 2, 3, 4]));
        for to in [
            &[0, 1, 2, 3][..],
            &[0, 1, 2, 3, 3],
            &[0, 1, 2, 3, 5],
            &[0, 1, 3, 2, 4],
            &[0, 1, 2, 3, 4, 5],
        ] {
            assert!(!keeps(&tree_a, &tree_a, to), "{to:?}");
        }
        let changed: [fn(&mut [Record]); 7] = [
            |records| records[0].length = 1,
            |records| records[4].length = 4,
            |records| records[1].price = 1,
            |records| records[3].price = 0,
            |records| records[2].plate ^= LOCK,
            |records| records[2].plate = 14,
            // plate 12 below the root
            |records| (records[2].next, records[4].next) = (0, 4),
        ];
        for change in changed {
            let mut other = tree_a.clone();
            change(&mut other);
            assert!(!keeps(&tree_a, &other, &[0, 1, 2, 3, 4]), "{other:?}");
            assert!(!are_same(&tree_a, &other), "{other:?}");
        }
        let shorter = &tree_a[..1];
        assert!(!keeps(shorter, &tree_a, &[0]) && !keeps(&tree_a, shorter, &[0]));
    }
}
