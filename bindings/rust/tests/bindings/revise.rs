//! Revising a length: what is chosen then, how far the best moves, what is promised of that, the
//! revised outline, the refusals, and the buffers.

use crate::support::{bytes, chain, changed, faulty, fields_of, headed_a, held, locked_a};
use crate::support::{outline, outlines, plates, room, samples, sound, star, star_records, tree_a};
use crate::support::{Buffers, Draw, LOCK, TREE_A, WAYS};
use plates::{choose_in, sys, Choice, Outline, Refusal, Revision, Tree, Way, Work};
use plates::{MOST_COUNT, MOST_RECORDS};
use std::thread;

const MOST_LENGTH: u32 = 1_000_000;

fn revised(outline: &Outline, [record, length]: [u32; 2], count: u32, way: Way) -> Revision {
    let revision = outline.revise(record, length, count, way);
    revision.expect("record, length and count are in range, and the locked taxa fit")
}

fn moved(revision: &Revision) -> [i64; 2] {
    [revision.best_moved(), revision.length_moved()]
}

/// Plates, diversity, cost, and how far the best and the length have moved.
type Told = (Vec<u32>, u32, u32, [i64; 2]);

fn told(outline: &Outline, change: [u32; 2], count: u32, way: Way) -> Told {
    let revision = revised(outline, change, count, way);
    let choice = revision.choice();
    assert_eq!(choice.spare(), count - choice.cost());
    let (diversity, cost) = (choice.diversity(), choice.cost());
    (plates(choice), diversity, cost, moved(&revision))
}

/// The outline with another length at a record, by its fields.
fn with(tree: &Outline, [record, length]: [u32; 2]) -> Outline {
    let mut records = fields_of(tree);
    records[record as usize - 1][2] = length;
    outline(&records)
}

/// Some changes of an outline: records with new lengths, small and large ones.
fn changes(tree: &Outline, draw: &mut Draw) -> Vec<[u32; 2]> {
    let mut changes = vec![];
    for _ in 0..2 {
        let number = 1 + draw.below(tree.records().len() as u32);
        let old = tree.record(number).expect("there is a record").length;
        let drawn = draw.below(12);
        let lengths = [0, old + 1, drawn, MOST_LENGTH];
        changes.extend(lengths.map(|length| [number, length]));
    }
    changes
}

/// Calls for each sample: outline, change, count and way, where the locked taxa fit.
fn for_each_call(seed: u64, mut call: impl FnMut(&Outline, [u32; 2], u32, Way)) {
    let draw = &mut Draw(seed);
    for tree in samples(draw) {
        for change in changes(&tree, draw) {
            for count in [0, 3, 7] {
                for way in WAYS {
                    if tree.choose(count, way).is_ok() {
                        call(&tree, change, count, way);
                    }
                }
            }
        }
    }
}

#[test]
fn tree_a_length_by_length() {
    let cases: [([u32; 2], u32, Told); 18] = [
        // record and length, count, and what is told
        ([2, 1], 5, (vec![11, 13], 10, 5, [-2, -2])),
        ([3, 9], 5, (vec![11, 13], 17, 5, [5, 5])),
        ([3, 1], 5, (vec![12, 13], 10, 3, [-2, -3])),
        ([4, 3], 5, (vec![11, 13], 12, 5, [0, 1])),
        ([4, 6], 5, (vec![12, 13], 14, 3, [2, 4])),
        ([5, 0], 5, (vec![11, 12], 9, 4, [-3, -5])),
        ([1, 6], 5, (vec![11, 13], 18, 5, [6, 6])),
        ([3, 6], 3, (vec![12, 13], 10, 3, [0, 2])),
        ([3, 9], 3, (vec![11], 12, 3, [2, 5])),
        ([5, 1], 3, (vec![11], 7, 3, [-3, -4])),
        ([2, 0], 3, (vec![12, 13], 7, 3, [-3, -3])),
        ([4, 0], 3, (vec![12, 13], 8, 3, [-2, -2])),
        ([5, 6], 2, (vec![13], 6, 2, [1, 1])),
        ([5, 4], 2, (vec![12], 5, 1, [0, -1])),
        ([2, 4], 1, (vec![12], 6, 1, [1, 1])),
        ([3, 9], 0, (vec![], 0, 0, [0, 5])),
        ([1, 9], 0, (vec![], 0, 0, [0, 9])),
        (
            [5, MOST_LENGTH],
            9,
            (vec![11, 12, 13], 1_000_009, 6, [999_995; 2]),
        ),
    ];
    for (change, count, expected) in cases {
        assert_eq!(told(&tree_a(), change, count, Way::Rooted), expected);
    }
}

#[test]
fn tree_a_unrooted() {
    let cases: [([u32; 2], u32, Told); 6] = [
        // the root's length does not count, and a single plate has nothing
        ([1, 6], 5, (vec![11, 13], 12, 5, [0, 6])),
        ([5, 0], 5, (vec![11, 13], 7, 5, [-5, -5])),
        ([4, 6], 5, (vec![12, 13], 14, 3, [2, 4])),
        ([2, 0], 5, (vec![11, 13], 9, 5, [-3, -3])),
        ([3, 1_000], 3, (vec![12, 13], 10, 3, [0, 996])),
        ([5, MOST_LENGTH], 2, (vec![], 0, 0, [0, 999_995])),
    ];
    for (change, count, expected) in cases {
        assert_eq!(told(&tree_a(), change, count, Way::Unrooted), expected);
    }
}

#[test]
fn another_set_may_be_the_best_though_the_best_does_not_move() {
    let tree = tree_a();
    // plate 12 has 4 now, and plate 13 has 5, as plate 12 had
    let expected = (vec![13], 5, 2, [0, -1]);
    assert_eq!(told(&tree, [4, 1], 2, Way::Rooted), expected);
    // plates 12 and 13 have 12 now, as plates 11 and 13, and cost less
    let expected = (vec![12, 13], 12, 3, [0, 2]);
    assert_eq!(told(&tree, [4, 4], 5, Way::Rooted), expected);
}

#[test]
fn ties_are_those_of_the_revised_outline() {
    let longer = sound(star(&[(4, 1), (3, 1)]));
    let tie = (vec![1], 4, 1, [0, 1]);
    assert_eq!(told(&longer, [3, 4], 1, Way::Rooted), tie);
    let above = (vec![2], 5, 1, [1, 2]);
    assert_eq!(told(&longer, [3, 5], 1, Way::Rooted), above);
    // the lowest record comes first once they are equal
    let shorter = sound(star(&[(3, 1), (4, 1)]));
    let tie = (vec![1], 4, 1, [0, 1]);
    assert_eq!(told(&shorter, [2, 4], 1, Way::Rooted), tie);
}

#[test]
fn the_root_is_a_taxon() {
    let tree = sound(Tree::taxon(9, 5, 1));
    let expected = (vec![9], 8, 1, [3, 3]);
    assert_eq!(told(&tree, [1, 8], 1, Way::Rooted), expected);
    let expected = (vec![], 0, 0, [0, 3]);
    assert_eq!(told(&tree, [1, 8], 1, Way::Unrooted), expected);
    assert_eq!(told(&tree, [1, 8], 0, Way::Rooted), expected);
}

#[test]
fn headings_and_locks_are_the_given_ones() {
    let headed = sound(headed_a(0, 2));
    assert_eq!(headed.choose(5, Way::Rooted).unwrap().diversity(), 10);
    let expected = (vec![11], 7, 5, [-3, -4]);
    assert_eq!(told(&headed, [5, 1], 5, Way::Rooted), expected);
    // a locked plate stays, whatever its length
    let locked = sound(locked_a(0, 0, &[13]));
    let expected = (vec![12, 13], 5, 3, [-5, -5]);
    assert_eq!(told(&locked, [5, 0], 3, Way::Rooted), expected);
}

#[test]
fn chosen_taxa_have_the_new_length() {
    let revision = revised(&tree_a(), [3, 9], 5, Way::Rooted);
    let taxa = revision.choice().taxa().iter();
    let lengths: Vec<(u32, u32)> = taxa.map(|taxon| (taxon.plate, taxon.length)).collect();
    assert_eq!(lengths, [(11, 9), (13, 5)]);
}

#[test]
fn the_curve_is_that_of_the_revised_outline() {
    let revision = revised(&tree_a(), [3, 1], 6, Way::Rooted);
    let columns = revision.choice().curve().iter().flatten();
    let columns = columns.map(|column| (column.count, column.diversity, column.cost));
    let expected = [
        (0, 0, 0),
        (1, 5, 1),
        (2, 5, 1),
        (3, 10, 3),
        (4, 10, 3),
        (5, 10, 3),
        (6, 11, 6),
    ];
    assert!(columns.eq(expected));
    // all plates had 14
    assert_eq!(moved(&revision), [-3, -3]);
}

#[test]
fn the_choice_is_that_of_the_revised_outline() {
    for_each_call(1, |tree, change, count, way| {
        let revision = revised(tree, change, count, way);
        let expected = with(tree, change).choose(count, way).unwrap();
        assert_eq!(*revision.choice(), expected);
    });
}

#[test]
fn what_has_moved_is_the_new_less_the_old() {
    for_each_call(2, |tree, change, count, way| {
        let best = |tree: &Outline| tree.choose(count, way).unwrap().diversity();
        let [new, old] = [best(&with(tree, change)), best(tree)].map(i64::from);
        let [record, length] = change;
        let old_length = tree.record(record).unwrap().length;
        let lengths = i64::from(length) - i64::from(old_length);
        let revision = revised(tree, change, count, way);
        assert_eq!(moved(&revision), [new - old, lengths]);
    });
}

#[test]
fn the_best_moves_no_farther_than_the_length_and_not_the_other_way() {
    // as far and less far, up and down, and not at all
    let (mut up, mut down, mut not) = ([0; 2], [0; 2], 0);
    for_each_call(3, |tree, change, count, way| {
        let [best, length] = moved(&revised(tree, change, count, way));
        assert!(best.abs() <= length.abs());
        assert!(best.signum() * length.signum() >= 0);
        let full = usize::from(best.abs() == length.abs());
        up[full] += usize::from(best > 0);
        down[full] += usize::from(best < 0);
        not += usize::from(best == 0 && length != 0);
    });
    let least = up.iter().chain(&down).chain([&not]).min();
    assert!(least >= Some(&100), "{up:?} {down:?} {not}");
}

/// Whether a choice's diversity counts the length of a record.
fn spans(tree: &Outline, choice: &Choice, record: u32, way: Way) -> bool {
    let record = tree.record(record).expect("there is a record");
    let held = held(tree, choice.taxa(), record);
    held > 0 && (way == Way::Rooted || held < choice.taxa().len())
}

#[test]
fn what_was_chosen_tells_by_how_much_and_stays() {
    // spanned and longer, not spanned and shorter, either as it was
    let mut met = [0; 3];
    for_each_call(6, |tree, change, count, way| {
        let chosen = tree.choose(count, way).unwrap();
        let revision = revised(tree, change, count, way);
        let [best, length] = moved(&revision);
        let kind = match (spans(tree, &chosen, change[0], way), length.signum()) {
            (true, 1) => 0,
            (false, -1) => 1,
            (_, 0) => 2,
            _ => return,
        };
        assert_eq!(best, [length, 0, 0][kind]);
        let stays = revision.choice();
        assert_eq!(stays.marks(), chosen.marks());
        assert_eq!(
            i64::from(stays.diversity()),
            i64::from(chosen.diversity()) + best
        );
        assert_eq!(
            (stays.cost(), stays.spare()),
            (chosen.cost(), chosen.spare())
        );
        met[kind] += 1;
    });
    assert!(met.iter().all(|&times| times >= 100), "{met:?}");
}

#[test]
fn another_set_may_be_chosen_where_it_spans_what_shrinks_or_does_not_span_what_grows() {
    // how often, and how often the best moves by something else than the chosen set does
    let (mut other_set, mut other_best) = ([0; 2], [0; 2]);
    for_each_call(7, |tree, change, count, way| {
        let chosen = tree.choose(count, way).unwrap();
        let revision = revised(tree, change, count, way);
        let [best, length] = moved(&revision);
        let spanned = spans(tree, &chosen, change[0], way);
        if spanned == (length < 0) && length != 0 {
            let own = if spanned { length } else { 0 };
            let stays = revision.choice().marks() == chosen.marks();
            assert!(!stays || best == own);
            other_set[usize::from(spanned)] += usize::from(!stays);
            other_best[usize::from(spanned)] += usize::from(best != own);
        }
    });
    let least = other_set.iter().chain(&other_best).min();
    assert!(least >= Some(&100), "{other_set:?} {other_best:?}");
}

#[test]
fn the_same_length_moves_nothing() {
    for tree in outlines() {
        for record in tree.records() {
            for way in WAYS {
                let change = [record.number, record.length];
                let revision = revised(&tree, change, 9, way);
                assert_eq!(moved(&revision), [0, 0]);
                assert_eq!(Ok(revision.choice()), tree.choose(9, way).as_ref());
            }
        }
    }
}

#[test]
fn a_change_and_back_moves_as_far() {
    for_each_call(4, |tree, change, count, way| {
        let [record, _] = change;
        let old = tree.record(record).unwrap().length;
        let there = revised(tree, change, count, way);
        let back = revised(&with(tree, change), [record, old], count, way);
        assert_eq!(moved(&back), moved(&there).map(|number| -number));
    });
}

#[test]
fn the_farthest_moves() {
    let tree = |length| {
        let taxa = (1..=64).map(|plate| Tree::taxon(plate, MOST_LENGTH, 64));
        let innermost = Tree::group(length, taxa);
        let groups = (0..62).fold(innermost, |below, _| Tree::group(MOST_LENGTH, [below]));
        sound(groups)
    };
    let revision = revised(&tree(0), [63, MOST_LENGTH], MOST_COUNT, Way::Rooted);
    assert_eq!(moved(&revision), [1_000_000; 2]);
    assert_eq!(revision.choice().diversity(), 127_000_000);
    let revision = revised(&tree(MOST_LENGTH), [63, 0], MOST_COUNT, Way::Rooted);
    assert_eq!(moved(&revision), [-1_000_000; 2]);
    assert_eq!(revision.choice().diversity(), 126_000_000);
}

#[test]
fn lengths_are_replaced_in_the_outline_too() {
    for tree in outlines() {
        let before = tree.clone();
        for record in 1..=tree.records().len() as u32 {
            for length in [0, 255, 65_536, MOST_LENGTH] {
                let change = [record, length];
                assert_eq!(tree.with_length(record, length), Ok(with(&tree, change)));
            }
        }
        assert_eq!(tree, before);
    }
}

#[test]
fn memory_used_again_changes_nothing() {
    let draw = &mut Draw(5);
    let mut work = Work::new();
    for count in [30, 300, 7, 40] {
        for tree in outlines() {
            let [record, length] = [1 + draw.below(tree.records().len() as u32), draw.below(9)];
            for way in WAYS {
                let again = tree.revise_in(record, length, count, way, &mut work);
                assert_eq!(again, tree.revise(record, length, count, way));
                let again = choose_in(&tree, count, way, &mut work);
                assert_eq!(again, tree.choose(count, way));
            }
        }
        let refused = tree_a().revise_in(3, 9, MOST_COUNT + 1, Way::Rooted, &mut work);
        assert_eq!(refused, Err(Refusal::CountTooLarge));
        let refused = tree_a().revise_in(6, 9, count, Way::Rooted, &mut work);
        assert_eq!(refused, Err(Refusal::BadRevision));
    }
}

#[test]
fn threads_revise_at_the_same_time() {
    let tree = sound(star(&[(4, 1); 64]));
    let changes = || (1..=65).map(|record| [record, 9]);
    let all = || changes().map(|change| revised(&tree, change, 50, Way::Rooted));
    let expected: Vec<Revision> = all().collect();
    thread::scope(|scope| {
        for _ in 0..8 {
            scope.spawn(|| assert!(all().eq(expected.iter().cloned())));
        }
    });
}

#[test]
fn the_deepest_outline_needs_little_stack() {
    let deepest = sound(chain(MOST_RECORDS));
    let run = move || WAYS.map(|way| told(&deepest, [127, 5], MOST_COUNT, way));
    let small = thread::Builder::new().stack_size(64 * 1024);
    let told = small.spawn(run).unwrap().join().unwrap();
    let expected = [(vec![1], 131, 1, [4, 4]), (vec![], 0, 0, [0, 4])];
    assert_eq!(told, expected);
}

#[test]
fn records_and_lengths_out_of_range_are_refused() {
    for tree in outlines() {
        let records = tree.records().len() as u32;
        let out_of_range = [
            [0, 1],
            [records + 1, 1],
            [records + 256, 1],
            [records | 1 << 28, 1],
            [u32::MAX, 1],
            [1, MOST_LENGTH + 1],
            [1, 1 << 24],
            [records, u32::MAX],
            [0, u32::MAX],
        ];
        for [record, length] in out_of_range {
            for way in WAYS {
                // the locked taxa fit the one count and not the other
                for count in [0, 40] {
                    let refused = tree.revise(record, length, count, way);
                    assert_eq!(refused, Err(Refusal::BadRevision));
                }
            }
            assert_eq!(tree.with_length(record, length), Err(Refusal::BadRevision));
        }
        for record in [1, records] {
            assert!(tree.revise(record, MOST_LENGTH, 40, Way::Rooted).is_ok());
        }
    }
}

#[test]
fn counts_are_refused_as_by_choosing() {
    let draw = &mut Draw(6);
    let mut dear = 0;
    for tree in samples(draw) {
        let record = 1 + draw.below(tree.records().len() as u32);
        for count in (0..12).chain([MOST_COUNT + 1, 65_536, u32::MAX]) {
            for way in WAYS {
                let refused = tree.choose(count, way).err();
                for length in [0, MOST_LENGTH] {
                    let revision = tree.revise(record, length, count, way);
                    assert_eq!(revision.err(), refused);
                }
                dear += usize::from(refused == Some(Refusal::LockedTooDear));
            }
        }
    }
    assert!(dear > 100, "{dear}");
}

#[test]
fn counts_too_large_come_before_bad_revisions() {
    for [record, length] in [[0, 1], [6, 1], [1, MOST_LENGTH + 1]] {
        for way in WAYS {
            let refused = tree_a().revise(record, length, MOST_COUNT + 1, way);
            assert_eq!(refused, Err(Refusal::CountTooLarge));
        }
    }
}

impl Buffers {
    /// The answer, and both that have moved.
    fn revise(
        &mut self,
        outline: &[u8],
        [record, length]: [u32; 2],
        count: u32,
        way: u32,
    ) -> ([u32; 6], [i64; 2]) {
        let given = outline.to_vec();
        let (mut answer, mut moved) = ([0xa5a5_a5a5; 6], [0x5a5a_5a5a; 2]);
        // SAFETY: each pointer and the length after it are those of one slice or vector, answer has
        // six numbers and moved has two, and no two overlap.
        let number = unsafe {
            sys::plates_revise(
                outline.as_ptr(),
                outline.len(),
                record,
                length,
                count,
                way,
                self.marks.as_mut_ptr(),
                self.marks.len(),
                self.curve.as_mut_ptr(),
                self.curve.len(),
                self.work.as_mut_ptr(),
                self.work.len(),
                answer.as_mut_ptr(),
                moved.as_mut_ptr(),
            )
        };
        assert_eq!(number, answer[0]);
        assert_eq!(outline, given);
        (answer, moved)
    }
}

/// Number and place of a call that is refused, which leaves its buffers as they were and gives no
/// other numbers.
fn refused(
    outline: &[u8],
    change: [u32; 2],
    count: u32,
    way: u32,
    mut buffers: Buffers,
) -> [u32; 2] {
    let ([number, place, rest @ ..], moved) = buffers.revise(outline, change, count, way);
    assert_ne!(number, 0);
    assert_eq!((rest, moved), ([0; 4], [0; 2]));
    assert!(buffers.is_untouched());
    [number, place]
}

#[test]
fn numbers_are_given_as_c_callers_get_them() {
    let mut buffers = room(5, 5, 0);
    let told = buffers.revise(&bytes(&TREE_A), [3, 1], 5, 0);
    assert_eq!(told, ([0, 0, 10, 3, 2, 2], [-2, -3]));
    assert_eq!(buffers.marks, [0, 0, 0, 1, 1]);
    assert_eq!(buffers.curve, [0, 0, 5, 1, 5, 1, 10, 3, 10, 3, 10, 3]);
    assert_eq!(buffers.work, [0; 168]);

    let mut buffers = room(5, 4, 0);
    let told = buffers.revise(&bytes(&TREE_A), [4, 9], 4, 1);
    // plates 12 and 13
    assert_eq!(told, ([0, 0, 17, 3, 2, 1], [7, 7]));
    assert_eq!(buffers.marks, [0, 0, 0, 1, 1]);
    assert_eq!(buffers.curve, [0, 0, 0, 0, 0, 0, 17, 3, 17, 3]);
    assert_eq!(buffers.work, [0; 140]);
}

#[test]
fn buffers_end_as_a_choice_on_the_revised_outline_leaves_them() {
    for_each_call(7, |tree, change, count, way| {
        let way = way as u32;
        for more in [0, 7] {
            let mut buffers = room(tree.records().len(), count, more);
            let mut expected = buffers.clone();
            let (answer, _) = buffers.revise(tree.as_bytes(), change, count, way);
            let chosen = expected.choose(with(tree, change).as_bytes(), count, way);
            assert_eq!((answer, buffers), (chosen, expected));
        }
    });
}

#[test]
fn what_stands_in_the_buffers_makes_no_difference() {
    for before in [0, 1, u64::MAX] {
        let mut buffers = room(5, 5, 0);
        buffers.marks.fill(before as u8);
        buffers.curve.fill(before as u32);
        buffers.work.fill(before);
        let told = buffers.revise(&bytes(&TREE_A), [3, 1], 5, 0);
        assert_eq!(told, ([0, 0, 10, 3, 2, 2], [-2, -3]));
        assert_eq!(buffers.marks, [0, 0, 0, 1, 1]);
        assert_eq!(buffers.curve, [0, 0, 5, 1, 5, 1, 10, 3, 10, 3, 10, 3]);
        assert_eq!(buffers.work, [0; 168]);
    }
}

#[test]
fn longer_buffers_keep_the_rest() {
    for more in [1, 100] {
        let mut buffers = room(5, 5, more);
        let told = buffers.revise(&bytes(&TREE_A), [3, 1], 5, 0);
        assert_eq!(told, ([0, 0, 10, 3, 2, 2], [-2, -3]));
        let rest = Buffers {
            marks: buffers.marks.split_off(5),
            curve: buffers.curve.split_off(12),
            work: buffers.work.split_off(168),
        };
        assert_eq!(rest, Buffers::new(more, more, more));
        assert_eq!(buffers.marks, [0, 0, 0, 1, 1]);
    }
}

#[test]
fn buffers_too_short_are_refused_and_untouched() {
    let (marks, curve, work) = (sys::marks_len(5), sys::curve_len(5), sys::work_len(5, 5));
    let short = [
        (marks - 1, curve, work),
        (marks, curve - 1, work),
        (marks, curve, work - 1),
        (0, 0, 0),
    ];
    for (marks, curve, work) in short {
        for way in [0, 1] {
            let buffers = Buffers::new(marks, curve, work);
            assert_eq!(refused(&bytes(&TREE_A), [3, 1], 5, way, buffers), [9, 0]);
        }
    }
    let mut buffers = Buffers::new(marks, curve, work);
    assert_eq!(buffers.revise(&bytes(&TREE_A), [3, 1], 5, 0).0[0], 0);
}

#[test]
fn outlines_are_refused_as_by_the_check() {
    for (outline, refusal) in faulty() {
        let expected = [refusal.number(), refusal.place().unwrap_or(0)];
        for change in [[1, 1], [0, 1], [1, MOST_LENGTH + 1], [u32::MAX, u32::MAX]] {
            for more in [0, 200] {
                let given = refused(&outline, change, 3, 1, room(0, 0, more));
                assert_eq!(given, expected);
            }
        }
    }
    // no new length makes a faulty outline sound
    let faulty = bytes(&changed(4, 2, MOST_LENGTH + 1));
    assert_eq!(refused(&faulty, [4, 1], 3, 0, room(5, 3, 0)), [5, 4]);
}

#[test]
fn the_first_that_holds_is_given() {
    // each has wrong what is judged later, too
    let none = || Buffers::new(0, 0, 0);
    let bad = [0, MOST_LENGTH + 1];
    let mut records = star_records(65);
    records[65] = [1, 0, 1, 1, 1];
    let broken = bytes(&records);
    records[64][3] = 65_536;
    let out_of_range = bytes(&records);
    let mut twins = star_records(65);
    twins[65][4] = 1;
    let double = changed(4, 4, LOCK | 11);
    // the locked taxon costs 2
    let locked = bytes(&changed(5, 4, LOCK | 13));
    let cut = &out_of_range.repeat(2)[1..];
    assert_eq!(refused(cut, bad, 4_097, 2, none()), [1, 0]);
    assert_eq!(refused(cut, bad, 4_097, 1, none()), [2, 0]);
    let thick = out_of_range.repeat(2);
    assert_eq!(refused(&thick, bad, 4_097, 1, none()), [3, 0]);
    assert_eq!(refused(&out_of_range, bad, 4_097, 1, none()), [4, 0]);
    assert_eq!(refused(&out_of_range, bad, 0, 1, none()), [5, 65]);
    assert_eq!(refused(&broken, bad, 0, 1, none()), [6, 66]);
    assert_eq!(refused(&bytes(&twins), bad, 0, 1, none()), [7, 0]);
    assert_eq!(refused(&bytes(&double), bad, 0, 1, none()), [8, 4]);
    for change in [bad, [0, 1], [6, 1], [5, MOST_LENGTH + 1]] {
        assert_eq!(refused(&locked, change, 1, 1, none()), [16, 0]);
        assert_eq!(refused(&locked, change, 1, 1, room(5, 1, 0)), [16, 0]);
    }
    assert_eq!(refused(&locked, [5, 1], 1, 1, none()), [9, 0]);
    assert_eq!(refused(&locked, [5, 1], 1, 1, room(5, 1, 0)), [12, 0]);
    let told = room(5, 2, 0).revise(&locked, [5, 1], 2, 0);
    assert_eq!(told, ([0, 0, 1, 2, 1, 0], [-4, -4]));
}

#[test]
fn the_way_is_0_or_1() {
    for way in [2, 3, 256, u32::MAX] {
        let given = refused(&bytes(&TREE_A), [3, 1], 5, way, room(5, 5, 0));
        assert_eq!(given, [1, 0]);
    }
}
