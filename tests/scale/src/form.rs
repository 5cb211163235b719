//! A call that writes the house form of an outline, and what document 02, §9, says it gives. Each record gets the smallest
//! plates from the root's down to its own, and sorting by these paths puts the records in order.

use std::iter;

use crate::outline::{self, bytes, groups, members, parents, taxa, Record};
use crate::rules::{self, Refusal};
use crate::view::needed;

/// `form` is the buffer's length in bytes.
#[derive(Clone, Debug, PartialEq, Eq)]
pub struct FormCall {
    pub outline: Vec<u8>,
    pub form: usize,
}

/// The answer and what is written to the form; nothing on a refusal.
#[derive(Clone, Debug, PartialEq, Eq)]
pub struct FormExpected {
    /// Number, place.
    pub answer: [u32; 2],
    pub form: Vec<u8>,
}

impl FormExpected {
    pub fn written(form: &[u8]) -> Self {
        FormExpected {
            answer: [0, 0],
            form: form.to_vec(),
        }
    }

    pub fn refused(refusal: Refusal) -> Self {
        FormExpected {
            answer: [refusal.number, refusal.place],
            form: Vec::new(),
        }
    }
}

pub fn expected(call: &FormCall) -> FormExpected {
    refusal(call).map_or_else(
        || FormExpected::written(&house_form(&call.outline)),
        FormExpected::refused,
    )
}

/// The first of the check's refusals and 9 that holds.
fn refusal(call: &FormCall) -> Option<Refusal> {
    rules::check(&call.outline)
        .or_else(|| rules::without_place(9, call.form < needed(&call.outline)))
}

/// The house form of an accepted outline.
pub fn house_form(outline: &[u8]) -> Vec<u8> {
    bytes(&in_house_form(&outline::records(outline)))
}

/// The smallest plates from the root's down to the record's own. That of a heading is the beginning of its members', and no two
/// members have the same smallest plate.
type Path = Vec<u32>;

/// The records of an accepted outline in the order of their paths, linked by how long these are.
pub fn in_house_form(records: &[Record]) -> Vec<Record> {
    let paths = paths(records).into_iter();
    let mut sorted: Vec<(Path, Record)> = paths.zip(records.iter().copied()).collect();
    sorted.sort_by(|(path, _), (other, _)| path.cmp(other));
    let depths: Vec<usize> = sorted.iter().map(|(path, _)| path.len()).collect();
    let linked = |(at, (_, record))| Record {
        next: next(&depths, at),
        first: first(&depths, at),
        ..record
    };
    sorted.into_iter().enumerate().map(linked).collect()
}

fn paths(records: &[Record]) -> Vec<Path> {
    let parents = parents(records);
    let smallest = smallest(records, &parents);
    let path = |at| {
        let line = iter::successors(Some(at), |&at| parents[at]);
        let mut path: Path = line.map(|at| smallest[at]).collect();
        path.reverse();
        path
    };
    (0..records.len()).map(path).collect()
}

/// The smallest plate at or below each record: every taxon hands its own up to the root.
fn smallest(records: &[Record], parents: &[Option<usize>]) -> Vec<u32> {
    let mut smallest = vec![u32::MAX; records.len()];
    for taxon in taxa(records) {
        let plate = records[taxon].plate_number();
        let line = iter::successors(Some(taxon), |&at| parents[at]);
        line.for_each(|at| smallest[at] = smallest[at].min(plate));
    }
    smallest
}

/// The number of the next record if it is deeper.
fn first(depths: &[usize], at: usize) -> u16 {
    let deeper = depths.get(at + 1).is_some_and(|&next| next > depths[at]);
    if deeper {
        at as u16 + 2
    } else {
        0
    }
}

/// The number of the first record behind this one that is not deeper, if it is as deep.
fn next(depths: &[usize], at: usize) -> u16 {
    let mut behind = at + 1..depths.len();
    let end = behind.find(|&other| depths[other] <= depths[at]);
    let member = end.filter(|&other| depths[other] == depths[at]);
    member.map_or(0, |other| other as u16 + 1)
}

/// For each record of sound links what is made of the taxa at or below it, those of its first member first. Links go to later
/// records, so what is below a record is known before it.
pub(crate) fn gathered<T: Copy>(
    records: &[Record],
    own: fn(&Record) -> T,
    join: fn(T, T) -> T,
) -> Vec<T> {
    let mut gathered: Vec<T> = records.iter().map(own).collect();
    for group in groups(records).into_iter().rev() {
        let members = members(records, group).into_iter();
        let below = members.map(|member| gathered[member]).reduce(join);
        gathered[group] = below.expect("a member");
    }
    gathered
}

/// The smallest plate at or below each record.
pub(crate) fn least_plates(records: &[Record]) -> Vec<u32> {
    gathered(records, Record::plate_number, u32::min)
}

/// Whether the members of every group stand in the order of their numbers here, which are given for each record.
pub(crate) fn ascends(records: &[Record], numbers: &[u32]) -> bool {
    groups(records).into_iter().all(|group| {
        let members = members(records, group).into_iter();
        members.map(|member| numbers[member]).is_sorted()
    })
}

#[cfg(test)]
mod tests {
    use super::*;
    use crate::cases::tree_a;
    use crate::form_cases;
    use crate::outline::is_preorder;
    use crate::random::Random;
    use crate::same_tree;
    use crate::view_pairs::sound_outline;
    use crate::write_cases::seven_records;

    #[test]
    fn stated_forms_are_given() {
        for case in form_cases::all() {
            assert_eq!(expected(&case.call), case.expected, "{}", case.name);
        }
    }

    #[test]
    fn paths_go_down_from_the_root_and_tell_the_links() {
        let paths_of_tree_a: [&[u32]; 5] =
            [&[11], &[11, 11], &[11, 11, 11], &[11, 11, 12], &[11, 13]];
        assert_eq!(paths(&tree_a()), paths_of_tree_a);
        let depths = [1, 2, 3, 3, 2];
        let links = [0, 1, 2, 3, 4].map(|at| (next(&depths, at), first(&depths, at)));
        assert_eq!(links, [(0, 2), (5, 3), (4, 0), (0, 0), (0, 0)]);
    }

    #[test]
    fn the_smallest_plate_is_one_of_those_below() {
        let records = seven_records();
        let least = [101, 101, 103, 104, 105, 103, 101];
        assert_eq!(smallest(&records, &parents(&records)), least);
        assert_eq!(least_plates(&records), least);
        assert!(!ascends(&records, &least));
        assert!(ascends(&tree_a(), &least_plates(&tree_a())));
    }

    #[test]
    fn what_is_below_is_gathered_in_the_order_of_the_text() {
        let gathered = |join| gathered(&seven_records(), Record::plate_number, join);
        let first = [105, 105, 103, 104, 105, 103, 101];
        assert_eq!(gathered(|first, _| first), first);
        let last = [104, 101, 103, 104, 105, 103, 101];
        assert_eq!(gathered(|_, last| last), last);
    }

    /// The four things that §9 says of a form.
    #[test]
    fn a_form_ascends_in_text_order_and_is_its_own_form_and_the_same_tree() {
        let rng = &mut Random::new(1);
        let mut moved = 0;
        for _ in 0..1_000 {
            let records = sound_outline(rng);
            let form = in_house_form(&records);
            assert_eq!(rules::check(&bytes(&form)), None, "{records:?}");
            assert!(is_preorder(&form) && ascends(&form, &least_plates(&form)));
            assert!(same_tree::are_same(&records, &form));
            assert_eq!(in_house_form(&form), form);
            moved += u32::from(form != records);
        }
        assert!((500..1_000).contains(&moved), "{moved}");
    }
}
