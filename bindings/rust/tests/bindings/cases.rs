//! The proofing cases A1 to G of document 01.

use crate::support::{pairs, sound, star, told, tree_a, WAYS};
use plates::{choose, Choice, Outline, Tree, Way};

fn chosen(outline: &Outline, count: u32, way: Way) -> Choice {
    choose(outline, count, way).expect("the count is in range")
}

#[test]
fn a1_cheaper_at_equal_diversity() {
    let choice = chosen(&tree_a(), 2, Way::Rooted);
    assert_eq!(told(&choice), (vec![12], 5, 1, 1));
}

#[test]
fn a2_one_taxon_has_no_unrooted_diversity() {
    let choice = chosen(&tree_a(), 2, Way::Unrooted);
    assert_eq!(told(&choice), (vec![], 0, 0, 2));
}

#[test]
fn a3_two_taxa_unrooted() {
    let choice = chosen(&tree_a(), 3, Way::Unrooted);
    assert_eq!(told(&choice), (vec![12, 13], 10, 3, 0));
}

#[test]
fn a4_all_taxa_either_way() {
    for way in WAYS {
        let choice = chosen(&tree_a(), 6, way);
        assert_eq!(told(&choice), (vec![11, 12, 13], 14, 6, 0));
    }
}

#[test]
fn a_whole_curve() {
    let choice = chosen(&tree_a(), 5, Way::Rooted);
    let curve = choice.curve().iter().flatten();
    let curve: Vec<_> = curve.map(|c| (c.count, c.diversity, c.cost)).collect();
    let expected = [
        (0, 0, 0),
        (1, 5, 1),
        (2, 5, 1),
        (3, 10, 3),
        (4, 10, 3),
        (5, 12, 5),
    ];
    assert_eq!(curve, expected);
    assert_eq!(told(&choice), (vec![11, 13], 12, 5, 0));
    assert_eq!(choice.marks(), [0, 0, 1, 0, 1]);
}

#[test]
fn b_length_above_a_taxon_of_length_0() {
    let outline = sound(Tree::group(0, [Tree::group(7, [Tree::taxon(1, 0, 2)])]));
    assert_eq!(told(&chosen(&outline, 2, Way::Rooted)), (vec![1], 7, 2, 0));
    assert_eq!(told(&chosen(&outline, 1, Way::Rooted)), (vec![], 0, 0, 1));
}

#[test]
fn c1_lower_record_at_equal_diversity_and_cost() {
    let outline = sound(star(&[(4, 1), (4, 1)]));
    assert_eq!(told(&chosen(&outline, 1, Way::Rooted)), (vec![1], 4, 1, 0));
}

#[test]
fn c2_free_taxa_are_chosen() {
    let outline = sound(star(&[(0, 0), (0, 0)]));
    assert_eq!(
        told(&chosen(&outline, 0, Way::Rooted)),
        (vec![1, 2], 0, 0, 0)
    );
}

#[test]
fn d_two_cheap_taxa_before_the_longest() {
    let outline = sound(star(&[(6, 3), (5, 2), (5, 2)]));
    assert_eq!(
        told(&chosen(&outline, 4, Way::Rooted)),
        (vec![2, 3], 10, 4, 0)
    );
}

#[test]
fn e_one_taxon_that_is_the_root() {
    let outline = sound(Tree::taxon(9, 5, 1));
    let rooted = chosen(&outline, 1, Way::Rooted);
    assert_eq!(told(&rooted), (vec![9], 5, 1, 0));
    assert_eq!(rooted.marks(), [1]);
    let unrooted = chosen(&outline, 1, Way::Unrooted);
    assert_eq!(told(&unrooted), (vec![], 0, 0, 1));
    assert_eq!(unrooted.marks(), [0]);
}

#[test]
fn f_largest_values_pass() {
    let longest = sound(star(&[(1_000_000, 65_535), (1_000_000, 0)]));
    assert_eq!(
        told(&chosen(&longest, 4_096, Way::Rooted)),
        (vec![2], 1_000_000, 0, 4_096)
    );
    assert_eq!(sound(pairs(6, 1, 1)).records().len(), 127);
    assert_eq!(sound(star(&[(1, 1); 64])).taxa().count(), 64);
}

#[test]
fn g_six_levels_of_pairs() {
    let outline = sound(pairs(6, 64, 1));
    for (way, diversity) in [(Way::Rooted, 126), (Way::Unrooted, 125)] {
        let choice = chosen(&outline, 4_095, way);
        assert_eq!(told(&choice), ((1..=63).collect(), diversity, 4_032, 63));
        assert_eq!(choice.curve().len(), 4_096);
    }
}
