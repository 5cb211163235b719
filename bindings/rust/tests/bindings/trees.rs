//! Building outlines by nesting: the records' order and links, and what is refused.

use crate::support::{bytes, chain, pairs, sound, star, tree_a};
use plates::{Outline, Refusal, Tree, TreeError};

fn refused(tree: Tree) -> Refusal {
    match tree.outline() {
        Err(TreeError::Refused(refusal)) => refusal,
        other => panic!("no refusal: {other:?}"),
    }
}

fn taxon(plate: u32) -> Tree {
    Tree::taxon(plate, 1, 1)
}

#[test]
fn tree_a_by_nesting() {
    let members = [
        Tree::group(3, [Tree::taxon(11, 4, 3), Tree::taxon(12, 2, 1)]),
        Tree::taxon(13, 5, 2),
    ];
    assert_eq!(sound(Tree::group(0, members)), tree_a());
}

#[test]
fn links_go_past_what_is_below() {
    let inner = Tree::group(5, [Tree::group(6, [taxon(1)]), taxon(2), taxon(3)]);
    let tree = Tree::group(7, [taxon(4), inner, Tree::group(8, [taxon(5)])]);
    let expected = [
        [0, 2, 7, 0, 0],
        [3, 0, 1, 1, 4],
        [8, 4, 5, 0, 0],
        [6, 5, 6, 0, 0],
        [0, 0, 1, 1, 1],
        [7, 0, 1, 1, 2],
        [0, 0, 1, 1, 3],
        [0, 9, 8, 0, 0],
        [0, 0, 1, 1, 5],
    ];
    assert_eq!(sound(tree), Outline::from_bytes(&bytes(&expected)).unwrap());
}

#[test]
fn members_may_come_from_any_iterator() {
    let from_vec = Tree::group(0, vec![taxon(1), taxon(2)]);
    let from_map = Tree::group(0, (1..=2).map(taxon));
    assert_eq!(sound(from_vec), sound(from_map));
}

#[test]
fn empty_groups_are_errors() {
    let alone = Tree::group(1, []);
    assert_eq!(alone.outline(), Err(TreeError::EmptyGroup { record: 1 }));
    let nested = Tree::group(0, [taxon(1), Tree::group(2, []), Tree::group(3, [])]);
    assert_eq!(nested.outline(), Err(TreeError::EmptyGroup { record: 3 }));
}

#[test]
fn empty_groups_come_before_refusals() {
    let bad_field = Tree::taxon(0, 0, 0);
    let tree = Tree::group(0, [bad_field, Tree::group(2, [])]);
    assert_eq!(tree.outline(), Err(TreeError::EmptyGroup { record: 3 }));
    // taxa, and then a group without members: of a tree that is too large, record 128 is the last
    // one that is looked at
    let after = |taxa: u32| {
        let members = (1..=taxa).map(taxon);
        Tree::group(0, members.chain([Tree::group(2, [])]))
    };
    let last = after(126).outline();
    assert_eq!(last, Err(TreeError::EmptyGroup { record: 128 }));
    assert_eq!(refused(after(127)), Refusal::TooManyRecords);
}

#[test]
fn first_refusal_that_holds_is_given() {
    let with = |taxa: u32, last: Tree| Tree::group(0, (1..=taxa).map(taxon).chain([last]));
    let bad_field = || Tree::taxon(1, 1_000_001, 1);
    assert_eq!(refused(with(126, bad_field())), Refusal::TooManyRecords);
    let refusal = Refusal::FieldOutOfRange { record: 66 };
    assert_eq!(refused(with(64, bad_field())), refusal);
    assert_eq!(refused(with(64, taxon(1))), Refusal::TooManyTaxa);
    let refusal = Refusal::DuplicatePlate { record: 65 };
    assert_eq!(refused(with(63, taxon(1))), refusal);
}

#[test]
fn fields_out_of_range_are_refused() {
    let faults = [
        Tree::taxon(2, 1_000_001, 0),
        Tree::taxon(2, 0, 65_536),
        Tree::taxon(0, 0, 0),
        Tree::group(1_000_001, [taxon(2)]),
        Tree::headed_group(0, 65_536, [taxon(2)]),
    ];
    for fault in faults {
        let refusal = refused(Tree::group(0, [taxon(1), fault]));
        assert_eq!(refusal, Refusal::FieldOutOfRange { record: 3 });
    }
}

#[test]
fn duplicates_are_refused() {
    let refusal = refused(Tree::group(0, [taxon(1), taxon(2), taxon(1)]));
    assert_eq!(refusal, Refusal::DuplicatePlate { record: 4 });
}

#[test]
fn too_many_taxa_are_refused() {
    assert_eq!(refused(star(&[(1, 1); 65])), Refusal::TooManyTaxa);
}

#[test]
fn too_many_records_are_refused() {
    assert_eq!(sound(chain(127)).records().len(), 127);
    assert_eq!(refused(chain(128)), Refusal::TooManyRecords);
    assert_eq!(
        refused(Tree::group(0, [pairs(6, 1, 1)])),
        Refusal::TooManyRecords
    );
    let both = [pairs(6, 1, 1), pairs(6, 1, 65)];
    assert_eq!(refused(Tree::group(0, both)), Refusal::TooManyRecords);
}

#[test]
fn very_deep_trees_are_refused() {
    assert_eq!(refused(chain(100_000)), Refusal::TooManyRecords);
}

#[test]
fn endless_members_are_refused() {
    let tree = Tree::group(0, (1..).map(taxon));
    assert_eq!(refused(tree), Refusal::TooManyRecords);
}

#[test]
fn errors_say_what_is_wrong() {
    let empty = TreeError::EmptyGroup { record: 2 };
    assert_eq!(empty.to_string(), "record 2: a group has no members");
    let error = TreeError::from(Refusal::TooManyTaxa);
    assert_eq!(error.to_string(), Refusal::TooManyTaxa.to_string());
}
