//! Locked taxa: built, found and always chosen.

use crate::support::{bytes, locked_a, plates, sound, star, told, tree_a, LOCK, TREE_A, WAYS};
use plates::{Choice, Outline, Refusal, Tree, TreeError, Way, MOST_COUNT, MOST_PLATE};

fn chosen(tree: &Tree, count: u32, way: Way) -> Choice {
    let outline = tree.outline().expect("the tree is sound");
    outline.choose(count, way).expect("the locked taxa fit")
}

/// Whether the locked taxa cost more than the count, whatever the way.
fn is_too_dear(tree: &Tree, count: u32) -> bool {
    let outline = tree.outline().expect("the tree is sound");
    let refused = WAYS.map(|way| outline.choose(count, way) == Err(Refusal::LockedTooDear));
    assert_eq!(refused[0], refused[1]);
    refused[0]
}

/// Diversity and cost for each count from 0 on; `None` where no set fits.
fn curve(choice: &Choice) -> Vec<Option<(u32, u32)>> {
    let columns = choice.curve().iter();
    columns
        .map(|column| column.map(|c| (c.diversity, c.cost)))
        .collect()
}

/// Which plates of tree A are locked, and what they cost: without headings, and with one of 1
/// quarter at the root and one of 2 at the group.
const LOCKED_A: [(&[u32], u32, u32); 8] = [
    (&[], 0, 0),
    (&[11], 3, 6),
    (&[12], 1, 4),
    (&[13], 2, 3),
    (&[11, 12], 4, 7),
    (&[11, 13], 5, 8),
    (&[12, 13], 3, 6),
    (&[11, 12, 13], 6, 9),
];

/// Tree A's records with this plate field at record 5.
fn changed_a(plate_field: u32) -> Vec<u8> {
    let mut records = TREE_A;
    records[4][4] = plate_field;
    bytes(&records)
}

#[test]
fn records_have_the_locks() {
    let mut expected = TREE_A;
    expected[2][4] = LOCK | 11;
    expected[4][4] = LOCK | 13;
    let built = sound(locked_a(0, 0, &[11, 13]));
    assert_eq!(built.as_bytes(), bytes(&expected));
    let fields: Vec<_> = built.records().map(|r| (r.plate, r.locked)).collect();
    assert_eq!(
        fields,
        [(0, false), (0, false), (11, true), (12, false), (13, true)]
    );
    assert_eq!(Outline::from_bytes(&bytes(&expected)), Ok(built));
}

#[test]
fn taxa_without_a_lock_are_not_locked() {
    assert_eq!(sound(locked_a(0, 0, &[])), tree_a());
    assert!(tree_a().records().all(|record| !record.locked));
}

#[test]
fn texts_make_no_locks() {
    let text = "((11:4,12:2):3,13:5);";
    let read = Outline::from_newick(text, [(11, 3), (12, 1), (13, 2)]).unwrap();
    assert!(read.records().all(|record| !record.locked));
    let locked_pair = Outline::from_newick(text, [(11, 3), (12, 1), (LOCK | 13, 2)]);
    assert_eq!(locked_pair, Err(Refusal::BadPairs));
    // the caller may lock afterwards
    let mut changed = read.as_bytes().to_vec();
    changed[5 * 16 - 1] |= 0x80;
    let locked = Outline::from_bytes(&changed);
    assert_eq!(locked, Ok(sound(locked_a(0, 0, &[13]))));
}

#[test]
fn outlines_are_locked_by_plate() {
    let free = tree_a();
    let built = |locked: &[u32]| Some(sound(locked_a(0, 0, locked)));
    assert_eq!(free.with_locked([]), built(&[]));
    let one = free.with_locked([13]).unwrap();
    assert_eq!(Some(one.clone()), built(&[13]));
    assert_eq!(one.with_locked([11, 13]), built(&[11, 13]));
    for plate in [0, 14, LOCK | 11] {
        assert_eq!(free.with_locked([11, plate]), None, "{plate}");
    }
}

#[test]
fn finding_leaves_the_lock_out() {
    let outline = sound(locked_a(0, 0, &[13]));
    for (plate, number, locked) in [(11, 3, false), (13, 5, true)] {
        let found = outline.find(plate).unwrap();
        assert_eq!((found.number, found.locked), (number, locked));
        assert_eq!(outline.find(LOCK | plate), None);
    }
    assert_eq!((outline.find(0), outline.find(LOCK)), (None, None));
}

#[test]
fn locked_taxa_are_in_every_choice() {
    for (locked, _, least) in LOCKED_A {
        let outline = sound(locked_a(1, 2, locked));
        for way in WAYS {
            for count in least..=12 {
                let choice = outline.choose(count, way).unwrap();
                let has = |plate| plates(&choice).contains(plate);
                assert!(locked.iter().all(has), "{locked:?} {count}");
            }
        }
    }
}

#[test]
fn locks_of_the_best_taxa_change_nothing() {
    let free = sound(locked_a(1, 2, &[]));
    for way in WAYS {
        for count in 0..=12 {
            let choice = free.choose(count, way).unwrap();
            let locked = sound(locked_a(1, 2, &plates(&choice)));
            assert_eq!(told(&locked.choose(count, way).unwrap()), told(&choice));
        }
    }
}

#[test]
fn counts_below_the_cost_of_the_locked_taxa_are_refused() {
    for (locked, bare, headed) in LOCKED_A {
        for (root, group, least) in [(0, 0, bare), (1, 2, headed)] {
            let tree = locked_a(root, group, locked);
            assert!((0..least).all(|count| is_too_dear(&tree, count)));
            assert!((least..=12).all(|count| !is_too_dear(&tree, count)));
        }
    }
}

#[test]
fn at_exactly_their_cost_the_locked_taxa_are_chosen() {
    for (locked, bare, headed) in LOCKED_A {
        for (root, group, least) in [(0, 0, bare), (1, 2, headed)] {
            for way in WAYS {
                let choice = chosen(&locked_a(root, group, locked), least, way);
                let (plates, _, cost, spare) = told(&choice);
                assert_eq!((&plates[..], cost, spare), (locked, least, 0));
            }
        }
    }
}

#[test]
fn one_locked_rooted() {
    let choice = chosen(&locked_a(0, 0, &[13]), 7, Way::Rooted);
    assert_eq!(told(&choice), (vec![11, 12, 13], 14, 6, 1));
    // 13 at 2 quarters and not 12 at 1, then 12 and 13, 11 and 13, all
    let expected = [
        None,
        None,
        Some((5, 2)),
        Some((10, 3)),
        Some((10, 3)),
        Some((12, 5)),
        Some((14, 6)),
        Some((14, 6)),
    ];
    assert_eq!(curve(&choice), expected);
    assert_eq!(choice.curve()[4].map(|column| column.count), Some(4));
}

#[test]
fn one_locked_unrooted() {
    let choice = chosen(&locked_a(0, 0, &[11]), 6, Way::Unrooted);
    assert_eq!(told(&choice), (vec![11, 12, 13], 14, 6, 0));
    // 11 at 3 quarters and not 12 and 13, then 11 and 12, 11 and 13, all
    let expected = [
        None,
        None,
        None,
        Some((0, 3)),
        Some((6, 4)),
        Some((12, 5)),
        Some((14, 6)),
    ];
    assert_eq!(curve(&choice), expected);
}

#[test]
fn all_locked() {
    for way in WAYS {
        let choice = chosen(&locked_a(0, 0, &[11, 12, 13]), 8, way);
        assert_eq!(told(&choice), (vec![11, 12, 13], 14, 6, 2));
        let mut expected = vec![None; 6];
        expected.extend([Some((14, 6)); 3]);
        assert_eq!(curve(&choice), expected);
    }
}

#[test]
fn locks_come_before_diversity_cost_and_order() {
    // the locked taxon has no length, costs most, and comes last
    let others = star(&[(9, 2), (9, 1)]);
    let tree = Tree::group(0, [others, Tree::locked_taxon(3, 0, 4)]);
    for way in WAYS {
        assert_eq!(plates(&chosen(&tree, 4, way)), [3]);
    }
    assert_eq!(told(&chosen(&tree, 5, Way::Rooted)), (vec![2, 3], 9, 5, 0));
    let twins = Tree::group(0, [Tree::taxon(1, 4, 1), Tree::locked_taxon(2, 4, 1)]);
    assert_eq!(told(&chosen(&twins, 1, Way::Rooted)), (vec![2], 4, 1, 0));
}

#[test]
fn locks_below_a_dear_heading_pay_it() {
    let tree = locked_a(0, 4_000, &[11]);
    assert!(is_too_dear(&tree, 4_002));
    let choice = chosen(&tree, 4_003, Way::Rooted);
    assert_eq!(told(&choice), (vec![11], 7, 4_003, 0));
    // the heading is paid, so the other taxon below it costs its price
    let choice = chosen(&tree, 4_004, Way::Rooted);
    assert_eq!(told(&choice), (vec![11, 12], 9, 4_004, 0));
    // without the lock the heading would buy something better
    let choice = chosen(&locked_a(0, 4_000, &[]), 4_003, Way::Rooted);
    assert_eq!(told(&choice), (vec![12, 13], 10, 4_003, 0));
}

#[test]
fn locks_may_be_dearer_than_the_largest_count() {
    for (price, dear) in [(4_096, false), (4_097, true), (65_535, true)] {
        let taxon = Tree::group(0, [Tree::locked_taxon(1, 1, price)]);
        assert_eq!(is_too_dear(&taxon, MOST_COUNT), dear);
        let heading = Tree::headed_group(0, price, [Tree::locked_taxon(1, 1, 0)]);
        assert_eq!(is_too_dear(&heading, MOST_COUNT), dear);
    }
    let dearest = (1..=64).map(|plate| Tree::locked_taxon(plate, 1, 65_535));
    assert!(is_too_dear(&Tree::group(0, dearest), MOST_COUNT));
    let deep = (1..127).fold(Tree::locked_taxon(1, 1, 65_535), |below, _| {
        Tree::headed_group(1, 65_535, [below])
    });
    assert!(is_too_dear(&deep, MOST_COUNT));
}

#[test]
fn counts_too_large_come_before_locks_too_dear() {
    let outline = sound(Tree::locked_taxon(1, 1, 65_535));
    for way in WAYS {
        let refused = outline.choose(MOST_COUNT + 1, way);
        assert_eq!(refused, Err(Refusal::CountTooLarge));
    }
}

#[test]
fn one_locked_taxon_has_no_unrooted_diversity() {
    let choice = chosen(&locked_a(0, 0, &[13]), 2, Way::Unrooted);
    assert_eq!(told(&choice), (vec![13], 0, 2, 0));
    assert_eq!(choice.marks(), [0, 0, 0, 0, 1]);
    let alone = chosen(&Tree::locked_taxon(9, 5, 1), 1, Way::Unrooted);
    assert_eq!(told(&alone), (vec![9], 0, 1, 0));
}

#[test]
fn the_spare_ends_before_a_column_without_a_set() {
    // all columns have as much diversity, but the first two have no set
    let choice = chosen(&Tree::locked_taxon(9, 5, 2), 5, Way::Unrooted);
    assert_eq!(told(&choice), (vec![9], 0, 2, 3));
    let mut expected = vec![None, None];
    expected.extend([Some((0, 2)); 4]);
    assert_eq!(curve(&choice), expected);
}

#[test]
fn free_locked_taxa_fit_every_count() {
    let tree = Tree::group(0, [Tree::locked_taxon(1, 0, 0), Tree::taxon(2, 3, 1)]);
    for way in WAYS {
        let choice = chosen(&tree, 1, way);
        assert_eq!(told(&choice), (vec![1, 2], 3, 1, 0));
        assert_eq!(curve(&choice), [Some((0, 0)), Some((3, 1))]);
    }
    // below a heading they are free no more
    let below = Tree::headed_group(0, 1, [Tree::locked_taxon(1, 0, 0)]);
    assert!(is_too_dear(&below, 0));
    assert!(!is_too_dear(&below, 1));
}

#[test]
fn plates_that_differ_in_the_lock_alone_are_duplicates() {
    let kinds = [Tree::taxon, Tree::locked_taxon];
    for first in kinds {
        for second in kinds {
            let twins = Tree::group(0, [first(11, 4, 3), second(11, 2, 1)]);
            let refusal = Refusal::DuplicatePlate { record: 3 };
            assert_eq!(twins.outline(), Err(TreeError::Refused(refusal)));
        }
    }
    let refusal = Refusal::DuplicatePlate { record: 5 };
    assert_eq!(Outline::from_bytes(&changed_a(LOCK | 11)), Err(refusal));
}

#[test]
fn locks_without_a_plate_are_refused() {
    let refusal = Refusal::FieldOutOfRange { record: 5 };
    assert_eq!(Outline::from_bytes(&changed_a(LOCK)), Err(refusal));
    assert!(Outline::from_bytes(&changed_a(LOCK | 1)).is_ok());
}

#[test]
fn groups_have_no_lock() {
    for plate_field in [LOCK, LOCK | 1, u32::MAX] {
        let mut records = TREE_A;
        records[1][4] = plate_field;
        let refusal = Refusal::FieldOutOfRange { record: 2 };
        assert_eq!(Outline::from_bytes(&bytes(&records)), Err(refusal));
    }
}

#[test]
fn plates_out_of_range_do_not_become_locks() {
    for kind in [Tree::taxon, Tree::locked_taxon] {
        for plate in [0, MOST_PLATE + 1, LOCK | 12, u32::MAX] {
            let tree = Tree::group(0, [Tree::taxon(11, 4, 3), kind(plate, 2, 1)]);
            let refusal = Refusal::FieldOutOfRange { record: 3 };
            assert_eq!(tree.outline(), Err(TreeError::Refused(refusal)), "{plate}");
        }
    }
}

#[test]
fn plates_out_of_range_are_refused_in_their_turn() {
    // the lowest record at fault is told, and before taxa that are too many or alike
    let with = |first: Tree| {
        let taxa = (0..65).map(|_| Tree::taxon(7, 1, 1));
        Tree::group(0, [first].into_iter().chain(taxa))
    };
    let refusal = Refusal::FieldOutOfRange { record: 2 };
    let refused = with(Tree::taxon(LOCK | 7, 1, 1)).outline();
    assert_eq!(refused, Err(TreeError::Refused(refusal)));
    let both = Tree::group(0, [Tree::taxon(7, 1_000_001, 1), Tree::taxon(LOCK, 1, 1)]);
    assert_eq!(both.outline(), Err(TreeError::Refused(refusal)));
    let refused = with(Tree::locked_taxon(7, 1, 1)).outline();
    assert_eq!(refused, Err(TreeError::Refused(Refusal::TooManyTaxa)));
}

#[test]
fn the_largest_plate_may_be_locked() {
    let tree = Tree::group(
        0,
        [Tree::taxon(1, 4, 3), Tree::locked_taxon(MOST_PLATE, 2, 1)],
    );
    let outline = sound(tree);
    let found = outline.find(2_147_483_647).unwrap();
    assert_eq!((found.number, found.locked), (3, true));
    assert_eq!(outline.choose(1, Way::Rooted).unwrap().taxa(), [found]);
}
