//! The house form, one outline for one tree, and comparing trees by it: what makes another tree and
//! what does not, the order, the text, the refusals, and the buffers.

use crate::support::{bytes, chain, changed, faulty, fields_of, outline, outlines, plates};
use crate::support::{sound, tree_a, with_links, Draw, Fields};
use crate::support::{INTERLEAVED, LOCK, PRICES_A, TREE_A, WAYS};
use plates::{compare, house_form, sys, Newick, Outline, Record, Refusal, Tree, Way};
use plates::{MOST_PLATE, MOST_RECORDS, MOST_TAXA, RECORD_BYTES};
use std::cmp::Ordering;
use std::collections::{BTreeMap, BTreeSet, HashSet};
use std::iter::successors;
use std::thread;

/// Tree A with the members of both groups in the other order.
const SHUFFLED_A: [Fields; 5] = [
    [0, 2, 0, 0, 0],
    [3, 0, 5, 2, 13],
    [0, 4, 3, 0, 0],
    [5, 0, 2, 1, 12],
    [0, 0, 4, 3, 11],
];

/// What stands in a form before a call.
const BEFORE: u8 = 0xa5;

/// The record of a number, of all of them in order.
fn record(records: &[Record], number: u32) -> Option<Record> {
    let index = (number as usize).checked_sub(1)?;
    records.get(index).copied()
}

fn members(records: &[Record], group: Record) -> impl Iterator<Item = Record> + '_ {
    let first = record(records, group.first);
    successors(first, |member| record(records, member.next))
}

/// What is at and below a record, with the members of each group by the smallest plate at or below
/// them; and the smallest plate of all.
fn by_plates(records: &[Record], record: Record) -> (u32, Tree) {
    let (plate, length, price) = (record.plate, record.length, record.price);
    if record.locked {
        return (plate, Tree::locked_taxon(plate, length, price));
    }
    if record.is_taxon() {
        return (plate, Tree::taxon(plate, length, price));
    }
    let below = members(records, record).map(|member| by_plates(records, member));
    let sorted: BTreeMap<u32, Tree> = below.collect();
    let smallest = *sorted.keys().next().expect("a group has a member");
    let group = Tree::headed_group(length, price, sorted.into_values());
    (smallest, group)
}

/// The house form, by nesting.
fn nested(tree: &Outline) -> Outline {
    let records: Vec<Record> = tree.records().collect();
    let (_, root) = by_plates(&records, records[0]);
    sound(root)
}

fn shuffle<T>(items: &mut [T], draw: &mut Draw) {
    for at in (1..items.len()).rev() {
        let other = draw.below(at as u32 + 1) as usize;
        items.swap(at, other);
    }
}

/// Links by record number, 0 for none: next, first.
type Links = [Vec<usize>; 2];

/// Links that have the members of each group in a drawn order.
fn drawn_links(records: &[Record], draw: &mut Draw) -> Links {
    let none = vec![0; records.len() + 1];
    let [mut next, mut first] = [none.clone(), none];
    for group in records.iter().filter(|record| !record.is_taxon()) {
        let chain = members(records, *group).map(|member| member.number as usize);
        let mut chain: Vec<usize> = chain.collect();
        shuffle(&mut chain, draw);
        first[group.number as usize] = chain[0];
        chain.windows(2).for_each(|pair| next[pair[0]] = pair[1]);
    }
    [next, first]
}

/// The records in a drawn order that has each after the one that names it.
fn drawn_order(links: &Links, draw: &mut Draw) -> Vec<usize> {
    let (mut named, mut order) = (vec![1], vec![]);
    while !named.is_empty() {
        let record = named.swap_remove(draw.below(named.len() as u32) as usize);
        order.push(record);
        let names = links.iter().map(|link| link[record]);
        named.extend(names.filter(|name| *name != 0));
    }
    order
}

/// The same tree with its members in a drawn order, and its records numbered in one.
fn shuffled(tree: &Outline, draw: &mut Draw) -> Outline {
    let records: Vec<Record> = tree.records().collect();
    let links = drawn_links(&records, draw);
    let order = drawn_order(&links, draw);
    let mut numbers = vec![0; order.len() + 1];
    for (number, record) in (1..).zip(&order) {
        numbers[*record] = number;
    }
    let fields = |record: &usize| {
        let [next, first] = [0, 1].map(|link: usize| numbers[links[link][*record]]);
        with_links(records[*record - 1], next, first)
    };
    outline(&order.iter().map(fields).collect::<Vec<_>>())
}

/// The largest plate that a text has a form for.
const MOST_WRITTEN: u32 = 999_999_999;

/// The tree with other plates, in no order: the smallest ones, small ones, or any that a text has a
/// form for.
fn replated(tree: &Outline, draw: &mut Draw) -> Outline {
    let taxa = tree.taxa().count();
    let limit = [taxa as u32, 300, MOST_WRITTEN][draw.below(3) as usize];
    let mut plates = BTreeSet::new();
    while plates.len() < taxa {
        plates.insert(1 + draw.below(limit));
    }
    let mut plates: Vec<u32> = plates.into_iter().collect();
    shuffle(&mut plates, draw);
    let mut records = fields_of(tree);
    for record in records.iter_mut().filter(|record| record[1] == 0) {
        record[4] = (record[4] & LOCK) | plates.pop().expect("one for each taxon");
    }
    outline(&records)
}

/// The outlines that several tests use, and drawn ones, of up to so many taxa, with any plates.
fn samples(draw: &mut Draw, most_taxa: u32) -> Vec<Outline> {
    let drawn = (0..100).map(|_| {
        let tree = draw.outline(most_taxa);
        let tree = replated(&tree, draw);
        shuffled(&tree, draw)
    });
    outlines().into_iter().chain(drawn).collect()
}

/// The tree without headings' prices and locks.
fn plain(tree: &Outline) -> Outline {
    let mut records = fields_of(tree);
    for record in &mut records {
        record[4] &= !LOCK;
        if record[1] != 0 {
            record[3] = 0;
        }
    }
    outline(&records)
}

/// What comparing tells of two outlines, either way round.
fn told(one: &Outline, two: &Outline) -> Ordering {
    let order = one.cmp_tree(two);
    assert_eq!(two.cmp_tree(one), order.reverse());
    assert_eq!(one.is_same_tree(two), order == Ordering::Equal);
    assert_eq!(two.is_same_tree(one), order == Ordering::Equal);
    order
}

fn assert_same(one: &Outline, two: &Outline) {
    assert_eq!(one.house_form(), two.house_form());
    assert_eq!(told(one, two), Ordering::Equal);
}

fn assert_other(one: &Outline, two: &Outline) {
    assert_ne!(one.house_form(), two.house_form());
    assert_ne!(told(one, two), Ordering::Equal);
}

#[test]
fn tree_a_however_it_is_shuffled() {
    let draw = &mut Draw(1);
    let all: HashSet<Outline> = (0..200).map(|_| shuffled(&tree_a(), draw)).collect();
    // the root's members in one order leave three ways to number the records, in the other one
    assert_eq!(all.len(), 2 * (3 + 1));
    assert!(all.contains(&tree_a()) && all.contains(&outline(&SHUFFLED_A)));
    for tree in &all {
        assert_eq!(tree.house_form().as_bytes(), bytes(&TREE_A));
        assert_same(tree, &tree_a());
    }
}

#[test]
fn members_stand_by_the_smallest_plate_at_or_below_them() {
    let taxon = |plate| Tree::taxon(plate, plate, 1);
    // neither the first plate below, nor the largest, nor their number decides
    let deep = Tree::group(7, [taxon(9), Tree::group(8, [taxon(50), taxon(3)])]);
    let pair = Tree::group(6, [taxon(100), taxon(4)]);
    let tree = sound(Tree::group(0, [taxon(5), pair, deep]));

    let deep = Tree::group(7, [Tree::group(8, [taxon(3), taxon(50)]), taxon(9)]);
    let pair = Tree::group(6, [taxon(4), taxon(100)]);
    let expected = sound(Tree::group(0, [deep, pair, taxon(5)]));
    assert_eq!(tree.house_form(), expected);
}

#[test]
fn plates_are_compared_as_numbers() {
    let plates = [1, 2, 255, 256, 257, 65_536, 16_777_216, MOST_PLATE];
    let draw = &mut Draw(2);
    for _ in 0..20 {
        let mut drawn = plates;
        shuffle(&mut drawn, draw);
        let members = drawn.map(|plate| Tree::taxon(plate, 1, 1));
        let form = sound(Tree::group(0, members)).house_form();
        let taxa: Vec<u32> = form.taxa().map(|taxon| taxon.plate).collect();
        assert_eq!(taxa, plates);
    }
}

#[test]
fn a_lock_moves_no_member_and_stays() {
    for locks in 0..8_u32 {
        let locked = (0..3).filter(|bit| locks >> bit & 1 == 1);
        let locked: Vec<u32> = locked.map(|bit| 11 + bit).collect();
        let expected = tree_a().with_locked(locked.clone()).unwrap();
        let tree = outline(&SHUFFLED_A).with_locked(locked).unwrap();
        assert_eq!(tree.house_form(), expected);
    }
}

#[test]
fn house_forms_are_as_by_nesting() {
    let draw = &mut Draw(3);
    for most_taxa in [12, 40] {
        for tree in samples(draw, most_taxa) {
            assert_eq!(tree.house_form(), nested(&tree));
        }
    }
}

#[test]
fn the_same_tree_has_the_same_house_form() {
    let draw = &mut Draw(4);
    for tree in samples(draw, 20) {
        for _ in 0..5 {
            assert_same(&tree, &shuffled(&tree, draw));
        }
    }
}

#[test]
fn a_house_form_is_sound_the_same_tree_and_its_own() {
    for tree in samples(&mut Draw(5), 20) {
        let form = tree.house_form();
        assert_eq!(Outline::from_bytes(form.as_bytes()), Ok(form.clone()));
        assert_eq!(form.house_form(), form);
        assert_same(&tree, &form);
    }
}

/// For each plate the record that has it and the groups above that: length, price and lock of each.
fn ways_up(tree: &Outline) -> BTreeMap<u32, Vec<(u32, u32, bool)>> {
    let records: Vec<Record> = tree.records().collect();
    let mut parents = BTreeMap::new();
    for group in &records {
        parents.extend(members(&records, *group).map(|member| (member.number, *group)));
    }
    let parent = |record: &Record| parents.get(&record.number).copied();
    let way = |taxon| {
        let above = successors(Some(taxon), parent);
        above.map(|record| (record.length, record.price, record.locked))
    };
    let taxa = tree.taxa();
    taxa.map(|taxon| (taxon.plate, way(taxon).collect()))
        .collect()
}

#[test]
fn lengths_prices_and_locks_stay() {
    for tree in samples(&mut Draw(6), 12) {
        let form = tree.house_form();
        assert_eq!(form.records().len(), tree.records().len());
        assert_eq!(ways_up(&form), ways_up(&tree));
    }
}

#[test]
fn one_field_changed_makes_another_tree() {
    let mut trees = vec![tree_a()];
    for record in 1..=5 {
        trees.push(outline(&changed(record, 2, 7)));
        trees.push(outline(&changed(record, 3, 7)));
    }
    for plate in 11..=13 {
        let record = plate as usize - 8;
        trees.push(outline(&changed(record, 4, 14)));
        trees.push(outline(&changed(record, 4, LOCK | plate)));
    }
    for (at, one) in trees.iter().enumerate() {
        for two in &trees[..at] {
            assert_other(one, two);
        }
    }
}

#[test]
fn one_length_changed_anywhere_makes_another_tree() {
    let draw = &mut Draw(7);
    for tree in samples(draw, 20) {
        let mut records = fields_of(&tree);
        let record = draw.below(records.len() as u32) as usize;
        records[record][2] += 1;
        let other = shuffled(&outline(&records), draw);
        assert_other(&tree, &other);
    }
}

#[test]
fn another_parent_makes_another_tree() {
    let taxon = |plate| Tree::taxon(plate, 0, 1);
    let group = |members: Vec<Tree>| Tree::group(0, members);
    let under_one = |tree: Tree| group(vec![tree]);
    let pairs = [(11, 12, 13), (11, 13, 12), (12, 13, 11)];
    let of_pairs = pairs.map(|(one, two, three)| {
        let pair = group(vec![taxon(one), taxon(two)]);
        group(vec![pair, taxon(three)])
    });
    // no group, and groups of one member, which change no diversity
    let flat = || group([11, 12, 13].map(taxon).to_vec());
    let ones = [
        flat(),
        under_one(flat()),
        group(vec![under_one(taxon(11)), taxon(12), taxon(13)]),
        group(vec![taxon(11), under_one(taxon(12)), taxon(13)]),
        group(vec![taxon(11), taxon(12), under_one(taxon(13))]),
        group(vec![under_one(under_one(taxon(11))), taxon(12), taxon(13)]),
    ];
    let trees: Vec<Outline> = of_pairs.into_iter().chain(ones).map(sound).collect();
    for (at, one) in trees.iter().enumerate() {
        for two in &trees[..at] {
            assert_other(one, two);
        }
    }
}

#[test]
fn the_same_tree_need_not_be_equal() {
    let (one, two) = (tree_a(), outline(&SHUFFLED_A));
    assert_ne!(one, two);
    assert!(one.is_same_tree(&two));
    assert!(one.is_same_tree(&one.clone()));
}

#[test]
fn comparing_is_a_total_order_by_the_bytes_of_house_forms() {
    let draw = &mut Draw(8);
    let mut trees = samples(draw, 4);
    trees.truncate(30);
    let again: Vec<Outline> = trees.iter().map(|tree| shuffled(tree, draw)).collect();
    trees.extend(again);
    let forms: Vec<Outline> = trees.iter().map(Outline::house_form).collect();

    let row = |one: &Outline| trees.iter().map(|two| told(one, two)).collect();
    let orders: Vec<Vec<Ordering>> = trees.iter().map(row).collect();
    let places = || 0..trees.len();
    for one in places() {
        for two in places() {
            let by_bytes = forms[one].as_bytes().cmp(forms[two].as_bytes());
            assert_eq!(orders[one][two], by_bytes);
            let after_two = |three: &usize| orders[two][*three].is_le();
            if orders[one][two].is_le() {
                assert!(places()
                    .filter(after_two)
                    .all(|three| orders[one][three].is_le()));
            }
        }
    }
}

#[test]
fn the_first_byte_that_differs_decides() {
    let taxon = |length, price| outline(&[[0, 0, length, price, 7]]);
    // 256 has the lower first byte
    assert_eq!(told(&taxon(256, 0), &taxon(1, 0)), Ordering::Less);
    assert_eq!(told(&taxon(128, 0), &taxon(127, 0)), Ordering::Greater);
    assert_eq!(told(&taxon(1, 9), &taxon(2, 0)), Ordering::Less);
    // a root that is a group has a first
    assert_eq!(told(&taxon(1_000_000, 65_535), &tree_a()), Ordering::Less);
    assert_eq!(told(&tree_a(), &outline(&INTERLEAVED)), Ordering::Less);
    // the members are compared as they stand in the house forms
    let shorter = outline(&changed(3, 2, 3));
    assert_eq!(told(&shorter, &outline(&SHUFFLED_A)), Ordering::Less);
}

#[test]
fn a_list_of_trees_is_sorted_and_searched() {
    let draw = &mut Draw(9);
    let mut trees = samples(draw, 6);
    let again: Vec<Outline> = trees.iter().map(|tree| shuffled(tree, draw)).collect();
    let different: HashSet<Outline> = trees.iter().map(Outline::house_form).collect();
    trees.extend(again);
    shuffle(&mut trees, draw);

    let mut by_key = trees.clone();
    by_key.sort_by_cached_key(|tree| tree.house_form().as_bytes().to_vec());
    trees.sort_by(Outline::cmp_tree);
    assert_eq!(trees, by_key);

    trees.dedup_by(|one, two| one.is_same_tree(two));
    assert_eq!(trees.len(), different.len());
    let sought = |tree: &Outline| trees.binary_search_by(|other| other.cmp_tree(tree));
    for (place, tree) in trees.iter().enumerate() {
        assert_eq!(sought(&shuffled(tree, draw)), Ok(place));
    }
    assert!(sought(&outline(&changed(4, 2, 999))).is_err());
}

fn written(tree: &Outline) -> Newick {
    tree.to_newick().expect("the outline has a text")
}

#[test]
fn one_tree_has_one_text() {
    let draw = &mut Draw(10);
    for tree in samples(draw, 20) {
        let tree = plain(&tree);
        let form = tree.house_form();
        let newick = written(&form);
        let read = Outline::from_newick(&newick.text, newick.prices.clone());
        assert_eq!(read, Ok(form));

        // an author's text of it
        let sent = written(&shuffled(&tree, draw));
        let sent = Outline::from_newick(sent.text, sent.prices).unwrap();
        assert_eq!(written(&sent.house_form()), newick);
    }
}

#[test]
fn another_tree_has_another_text_or_other_prices() {
    let draw = &mut Draw(13);
    for tree in samples(draw, 20) {
        let tree = plain(&tree);
        let newick = written(&tree.house_form());
        // the last record is a taxon
        let altered = |field: usize| {
            let mut records = fields_of(&tree);
            records.last_mut().expect("there is a taxon")[field] += 1;
            written(&outline(&records).house_form())
        };
        let (longer, dearer) = (altered(2), altered(3));
        assert_ne!(longer.text, newick.text);
        assert_eq!(longer.prices, newick.prices);
        assert_eq!(dearer.text, newick.text);
        assert_ne!(dearer.prices, newick.prices);
    }
}

#[test]
fn tree_a_has_one_text() {
    let shuffled = [
        "((11:4,12:2):3,13:5);",
        "(13:5,(12:2,11:4):3);",
        "(13:5,(11:4,12:2):3);",
        " ( ( 12 : 2 , 11 : 04 ) : 3 , 13 : 5 ) : 0 ; ",
    ];
    for text in shuffled {
        let form = Outline::from_newick(text, PRICES_A).unwrap().house_form();
        let newick = written(&form);
        assert_eq!(newick.text, "((11:4,12:2):3,13:5):0;");
        assert_eq!(newick.prices, PRICES_A);
    }
}

#[test]
fn what_has_no_form_in_a_text_is_told_by_the_numbers_of_the_house_form() {
    let locked = outline(&SHUFFLED_A).with_locked([11]).unwrap();
    let refusal = |record| Err(Refusal::Unwritable { record });
    assert_eq!(locked.to_newick(), refusal(5));
    assert_eq!(locked.house_form().to_newick(), refusal(3));
}

#[test]
fn the_curve_stays() {
    for tree in samples(&mut Draw(11), 10) {
        for way in WAYS {
            let curve = |of: &Outline| {
                let choice = of.choose(60, way);
                choice.map(|choice| choice.curve().to_vec())
            };
            assert_eq!(curve(&tree.house_form()), curve(&tree));
        }
    }
}

#[test]
fn of_equal_sets_another_may_be_the_best() {
    let equal = [12, 11].map(|plate| Tree::taxon(plate, 4, 1));
    let tree = sound(Tree::group(0, equal));
    let chosen = |tree: &Outline| plates(&tree.choose(1, Way::Rooted).unwrap());
    assert_eq!(chosen(&tree), [12]);
    assert_eq!(chosen(&tree.house_form()), [11]);
}

#[test]
fn marks_fit_the_numbers_that_they_were_made_for() {
    let tree = outline(&SHUFFLED_A);
    let choice = tree.choose(5, Way::Rooted).unwrap();
    assert_eq!(plates(&choice), [13, 11]);
    assert!(tree.sheet(choice.marks(), Way::Rooted).is_ok());
    let refused = tree.house_form().sheet(choice.marks(), Way::Rooted);
    assert_eq!(refused, Err(Refusal::BadMarks { record: Some(2) }));
}

/// Chains of groups and of members as long as they can be, the members in the order of the house
/// form and in the other one.
fn deepest() -> Vec<Outline> {
    let most = MOST_TAXA as u32;
    let taxa = || (1..=most).map(|plate| Tree::taxon(plate, 1, 1));
    let comb = |pair: fn(Tree, Tree) -> [Tree; 2]| {
        let grown = taxa().reduce(|below, taxon| Tree::group(1, pair(below, taxon)));
        grown.expect("there are taxa")
    };
    let star = Tree::group(1, taxa());
    let turned = Tree::group(1, taxa().rev());
    let groups = MOST_RECORDS - MOST_TAXA - 1;
    let below = (0..groups).fold(turned.clone(), |below, _| Tree::group(1, [below]));
    let combs = [
        comb(|below, taxon| [below, taxon]),
        comb(|below, taxon| [taxon, below]),
    ];
    let others = [chain(MOST_RECORDS), star, turned, below];
    combs.into_iter().chain(others).map(sound).collect()
}

#[test]
fn the_deepest_outlines_need_little_stack() {
    let run = || {
        for tree in deepest() {
            assert_same(&tree, &tree.house_form());
        }
    };
    let small = thread::Builder::new().stack_size(64 * 1024);
    small.spawn(run).unwrap().join().unwrap();
}

/// The whole of a form that is longer than the outline by so many bytes.
fn formed(outline: &[u8], more: usize) -> Vec<u8> {
    let mut form = vec![BEFORE; outline.len() + more];
    house_form(outline, &mut form).expect("the outline is sound, and the form has room");
    form
}

/// The refusal of a form of so many bytes, which is left as it was.
fn refused(outline: &[u8], len: usize) -> Refusal {
    let mut form = vec![BEFORE; len];
    let refusal = house_form(outline, &mut form).expect_err("the call is refused");
    assert_eq!(form, vec![BEFORE; len]);
    refusal
}

/// The order of two outlines, and the whole of both forms, which are longer than these by so many
/// bytes.
fn compared(a: &[u8], b: &[u8], more: [usize; 2]) -> (Ordering, [Vec<u8>; 2]) {
    let mut form_a = vec![BEFORE; a.len() + more[0]];
    let mut form_b = vec![BEFORE; b.len() + more[1]];
    let order = compare(a, b, &mut form_a, &mut form_b);
    let order = order.expect("both outlines are sound, and the forms have room");
    (order, [form_a, form_b])
}

/// The refusal of comparing, with forms of so many bytes, which are left as they were.
fn not_compared(a: &[u8], b: &[u8], lens: [usize; 2]) -> Refusal {
    let before = lens.map(|len| vec![BEFORE; len]);
    let [mut form_a, mut form_b] = before.clone();
    let refused = compare(a, b, &mut form_a, &mut form_b);
    assert_eq!([form_a, form_b], before);
    refused.expect_err("the call is refused")
}

#[test]
fn lent_memory_gets_the_same() {
    let draw = &mut Draw(12);
    let trees = samples(draw, 20);
    for tree in &trees {
        let form = formed(tree.as_bytes(), 0);
        assert_eq!(form, tree.house_form().as_bytes());
    }
    for (one, two) in trees.iter().zip(&trees[1..]) {
        let other = shuffled(one, draw);
        for two in [one, &other, two] {
            let (order, forms) = compared(one.as_bytes(), two.as_bytes(), [0, 0]);
            assert_eq!(order, one.cmp_tree(two));
            assert_eq!(forms[0], one.house_form().as_bytes());
            assert_eq!(forms[1], two.house_form().as_bytes());
        }
    }
}

#[test]
fn longer_forms_keep_the_rest() {
    let (one, two) = (bytes(&SHUFFLED_A), bytes(&INTERLEAVED));
    let two_formed = outline(&INTERLEAVED).house_form();
    for more in [0, 1, RECORD_BYTES, 3_000] {
        let form = formed(&one, more);
        assert_eq!(form[..80], bytes(&TREE_A));
        assert_eq!(form[80..], vec![BEFORE; more]);

        for [more_a, more_b] in [[more, 0], [0, more], [more, more]] {
            let (order, [form_a, form_b]) = compared(&one, &two, [more_a, more_b]);
            assert_eq!(order, Ordering::Less);
            assert_eq!(form_a[..80], bytes(&TREE_A));
            assert_eq!(form_b[..112], *two_formed.as_bytes());
            assert_eq!(form_a[80..], vec![BEFORE; more_a]);
            assert_eq!(form_b[112..], vec![BEFORE; more_b]);
        }
    }
}

#[test]
fn the_forms_own_length_and_bytes_make_no_difference() {
    let exact = formed(&bytes(&SHUFFLED_A), 0);
    for before in [0, 1, 0x5a, 0xff] {
        let mut longer = [before; 87];
        house_form(&bytes(&SHUFFLED_A), &mut longer).unwrap();
        assert_eq!(longer[..80], exact);
        assert_eq!(longer[80..], [before; 7]);
    }
}

#[test]
fn forms_too_short_are_refused_and_untouched() {
    for tree in outlines() {
        let needed = tree.as_bytes().len();
        for len in [0, 1, needed - RECORD_BYTES, needed - 1] {
            assert_eq!(refused(tree.as_bytes(), len), Refusal::BufferTooShort);
        }
    }
    for (one, two) in outlines().iter().zip(&outlines()[1..]) {
        let (a, b) = (one.as_bytes(), two.as_bytes());
        let short = [
            [a.len() - 1, b.len()],
            [a.len(), b.len() - 1],
            [a.len() - 1, b.len() - 1],
            [0, 3_000],
            [3_000, 0],
            [0, 0],
        ];
        for lens in short {
            assert_eq!(not_compared(a, b, lens), Refusal::BufferTooShort);
        }
    }
}

#[test]
fn each_form_has_its_own_length() {
    // what is enough for the one is not for the other
    let (five, seven) = (bytes(&TREE_A), bytes(&INTERLEAVED));
    let short = Refusal::BufferTooShort;
    assert_eq!(not_compared(&five, &seven, [112, 80]), short);
    assert_eq!(not_compared(&seven, &five, [80, 112]), short);
    assert_eq!(compared(&five, &seven, [0, 0]).0, Ordering::Less);
    assert_eq!(compared(&seven, &five, [0, 0]).0, Ordering::Greater);
}

#[test]
fn both_outlines_may_be_the_same_memory() {
    let outline = bytes(&SHUFFLED_A);
    let (order, forms) = compared(&outline, &outline, [0, 0]);
    assert_eq!(order, Ordering::Equal);
    assert_eq!(forms, [bytes(&TREE_A), bytes(&TREE_A)]);
    // the last record by itself is an outline too
    let (order, forms) = compared(&outline, &outline[64..], [0, 0]);
    assert_eq!(order, Ordering::Greater);
    assert_eq!(forms, [bytes(&TREE_A), outline[64..].to_vec()]);
}

#[test]
fn the_checks_refusals_come_before_9() {
    for (outline, refusal) in faulty() {
        for len in [0, 15, 3_000] {
            assert_eq!(refused(&outline, len), refusal);
        }
    }
}

#[test]
fn the_first_outlines_refusal_comes_before_the_seconds_and_9() {
    let whole = bytes(&TREE_A);
    for lens in [[0, 0], [0, 3_000], [3_000, 0], [3_000, 3_000]] {
        for (a, first) in faulty() {
            assert_eq!(not_compared(&a, &whole, lens), first);
            assert_eq!(not_compared(&whole, &a, lens), first);
            assert_eq!(not_compared(&a, &a, lens), first);
            for (b, _) in faulty() {
                assert_eq!(not_compared(&a, &b, lens), first);
            }
        }
    }
}

/// The answer of a call of the C interface, which gives its number too.
fn answered(outline: &[u8], len: usize) -> [u32; 2] {
    let mut form = vec![BEFORE; len];
    let mut answer = [0xa5a5_a5a5; 2];
    // SAFETY: each pointer and the length after it are those of one slice or vector, answer has two
    // numbers, and no two overlap.
    let number = unsafe {
        sys::plates_house_form(
            outline.as_ptr(),
            outline.len(),
            form.as_mut_ptr(),
            form.len(),
            answer.as_mut_ptr(),
        )
    };
    assert_eq!(number, answer[0]);
    answer
}

/// The same for comparing, with the order.
fn order_answered(a: &[u8], b: &[u8], lens: [usize; 2]) -> ([u32; 2], i32) {
    let [mut form_a, mut form_b] = lens.map(|len| vec![BEFORE; len]);
    let mut answer = [0xa5a5_a5a5; 2];
    let mut order = 0x5a5a_5a5a;
    // SAFETY: each pointer and the length after it are those of one slice or vector, answer has two
    // numbers and order is one, and no two overlap but the outlines.
    let number = unsafe {
        sys::plates_compare(
            a.as_ptr(),
            a.len(),
            b.as_ptr(),
            b.len(),
            form_a.as_mut_ptr(),
            form_a.len(),
            form_b.as_mut_ptr(),
            form_b.len(),
            answer.as_mut_ptr(),
            &mut order,
        )
    };
    assert_eq!(number, answer[0]);
    (answer, order)
}

#[test]
fn number_place_and_order_are_given_in_any_case() {
    let (one, two) = (bytes(&TREE_A), bytes(&SHUFFLED_A));
    let other = bytes(&changed(5, 2, 6));
    let room = [3_000; 2];
    assert_eq!(answered(&one, 80), [0, 0]);
    assert_eq!(answered(&one, 79), [9, 0]);
    assert_eq!(order_answered(&one, &two, room), ([0, 0], 0));
    assert_eq!(order_answered(&one, &other, room), ([0, 0], -1));
    assert_eq!(order_answered(&other, &two, room), ([0, 0], 1));
    for lens in [[79, 80], [80, 79]] {
        assert_eq!(order_answered(&one, &other, lens), ([9, 0], 0));
        assert_eq!(order_answered(&other, &two, lens), ([9, 0], 0));
    }
    for (outline, refusal) in faulty() {
        let expected = [refusal.number(), refusal.place().unwrap_or(0)];
        assert_eq!(answered(&outline, 3_000), expected);
        assert_eq!(order_answered(&outline, &other, room), (expected, 0));
        assert_eq!(order_answered(&other, &outline, room), (expected, 0));
    }
}
