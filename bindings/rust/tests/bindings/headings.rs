//! Headings that take space: groups with a price, built and chosen.

use crate::support::{bytes, chain, headed_a, sound, told, tree_a, TREE_A, WAYS};
use plates::{Choice, Outline, Refusal, Tree, TreeError, Way, MOST_COUNT};

fn chosen(tree: &Tree, count: u32, way: Way) -> Choice {
    let outline = tree.outline().expect("the tree is sound");
    outline.choose(count, way).expect("the count is in range")
}

/// Diversity and cost for each count from 0 on.
fn curve(choice: &Choice) -> Vec<(u32, u32)> {
    let columns = choice.curve().iter().flatten();
    columns.map(|c| (c.diversity, c.cost)).collect()
}

/// A taxon that is free, below a group in the root.
fn free_taxon(root: u32, group: u32, length: u32) -> Tree {
    let inner = Tree::headed_group(0, group, [Tree::taxon(1, length, 0)]);
    Tree::headed_group(0, root, [inner])
}

#[test]
fn records_have_the_prices_of_headings() {
    let mut expected = TREE_A;
    expected[0][3] = 65_535;
    expected[1][3] = 2;
    let built = sound(headed_a(65_535, 2));
    assert_eq!(built.as_bytes(), bytes(&expected));
    let prices: Vec<u32> = built.records().map(|record| record.price).collect();
    assert_eq!(prices, [65_535, 2, 3, 1, 2]);
    assert_eq!(built.taxa().count(), 3);
    assert_eq!(Outline::from_bytes(&bytes(&expected)), Ok(built));
}

#[test]
fn groups_without_a_price_have_price_0() {
    assert_eq!(sound(headed_a(0, 0)), tree_a());
    let outline = sound(chain(5));
    let prices: Vec<u32> = outline.records().map(|record| record.price).collect();
    assert_eq!(prices, [0, 0, 0, 0, 1]);
}

#[test]
fn prices_above_the_largest_are_refused_at_their_group() {
    for (root, group, record) in [(65_536, 0, 1), (0, 65_536, 2), (u32::MAX, u32::MAX, 1)] {
        let refusal = Refusal::FieldOutOfRange { record };
        let refused = headed_a(root, group).outline();
        assert_eq!(refused, Err(TreeError::Refused(refusal)));
    }
}

#[test]
fn headings_are_paid_once_rooted() {
    let choice = chosen(&headed_a(0, 2), 9, Way::Rooted);
    assert_eq!(told(&choice), (vec![11, 12, 13], 14, 8, 1));
    // 13 at 2 quarters, 12 and 13 at 5, 11 and 13 at 7, all at 8
    let expected = [
        (0, 0),
        (0, 0),
        (5, 2),
        (5, 2),
        (5, 2),
        (10, 5),
        (10, 5),
        (12, 7),
        (14, 8),
        (14, 8),
    ];
    assert_eq!(curve(&choice), expected);
}

#[test]
fn headings_are_paid_once_unrooted() {
    let choice = chosen(&headed_a(1, 2), 9, Way::Unrooted);
    assert_eq!(told(&choice), (vec![11, 12, 13], 14, 9, 0));
    // 12 and 13 at 6 quarters, 11 and 13 at 8, all at 9
    let expected = [
        (0, 0),
        (0, 0),
        (0, 0),
        (0, 0),
        (0, 0),
        (0, 0),
        (10, 6),
        (10, 6),
        (12, 8),
        (14, 9),
    ];
    assert_eq!(curve(&choice), expected);
}

#[test]
fn headings_above_the_parting_are_paid() {
    // all groups are above both taxa, so no length of theirs counts unrooted, but their prices do
    let pair = Tree::headed_group(7, 2, [Tree::taxon(1, 4, 1), Tree::taxon(2, 5, 1)]);
    let tree = Tree::headed_group(8, 3, [Tree::headed_group(9, 10, [pair])]);
    for (way, diversity) in [(Way::Rooted, 33), (Way::Unrooted, 9)] {
        let choice = chosen(&tree, 17, way);
        assert_eq!(told(&choice), (vec![1, 2], diversity, 17, 0));
    }
    let alone = chosen(&tree, 16, Way::Rooted);
    assert_eq!(told(&alone), (vec![2], 29, 16, 0));
    let nothing = chosen(&tree, 16, Way::Unrooted);
    assert_eq!(told(&nothing), (vec![], 0, 0, 16));
}

#[test]
fn headings_dearer_than_the_count_leave_their_taxa_out() {
    for (heading, count) in [(6, 5), (65_535, 5), (65_535, MOST_COUNT)] {
        let rooted = chosen(&headed_a(0, heading), count, Way::Rooted);
        assert_eq!(told(&rooted), (vec![13], 5, 2, count - 2));
        for way in WAYS {
            let nothing = chosen(&headed_a(heading, 0), count, way);
            assert_eq!(told(&nothing), (vec![], 0, 0, count));
        }
    }
}

#[test]
fn headings_may_be_dear_at_every_depth() {
    let deep = (1..127).fold(Tree::taxon(1, 1, 0), |below, _| {
        Tree::headed_group(1, 65_535, [below])
    });
    for way in WAYS {
        let choice = chosen(&deep, MOST_COUNT, way);
        assert_eq!(told(&choice), (vec![], 0, 0, MOST_COUNT));
    }
}

#[test]
fn free_taxa_are_chosen_below_free_headings() {
    for way in WAYS {
        for length in [0, 5] {
            let (plates, _, cost, _) = told(&chosen(&free_taxon(0, 0, length), 0, way));
            assert_eq!((plates, cost), (vec![1], 0));
        }
    }
}

#[test]
fn free_taxa_below_a_priced_heading_cost_it() {
    for (root, group) in [(3, 0), (0, 3), (2, 1)] {
        for way in WAYS {
            // without diversity it is worth no quarter
            let worthless = chosen(&free_taxon(root, group, 0), 3, way);
            assert_eq!(told(&worthless), (vec![], 0, 0, 3));
        }
        let tree = free_taxon(root, group, 5);
        let short = chosen(&tree, 2, Way::Rooted);
        assert_eq!(told(&short), (vec![], 0, 0, 2));
        let paid = chosen(&tree, 3, Way::Rooted);
        assert_eq!(told(&paid), (vec![1], 5, 3, 0));
        let single = chosen(&tree, 3, Way::Unrooted);
        assert_eq!(told(&single), (vec![], 0, 0, 3));
    }
}

#[test]
fn free_taxa_join_others_that_pay_their_heading() {
    let tree = Tree::headed_group(0, 1, [Tree::taxon(1, 5, 2), Tree::taxon(2, 0, 0)]);
    for way in WAYS {
        assert_eq!(told(&chosen(&tree, 3, way)), (vec![1, 2], 5, 3, 0));
        assert_eq!(told(&chosen(&tree, 2, way)), (vec![], 0, 0, 2));
    }
}

#[test]
fn cheaper_is_judged_with_the_headings() {
    // two taxa of the same diversity; without the heading the first one would be cheaper
    let below = Tree::headed_group(0, 2, [Tree::taxon(1, 4, 1)]);
    let tree = Tree::group(0, [below, Tree::taxon(2, 4, 2)]);
    let choice = chosen(&tree, 3, Way::Rooted);
    assert_eq!(told(&choice), (vec![2], 4, 2, 1));
}
