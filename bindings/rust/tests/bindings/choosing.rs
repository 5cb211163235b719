//! What holds of every choice, memory that is used again, calls at the same time, and a small
//! stack.

use crate::support::{chain, cost, diversity, outlines, pairs, sound, tree_a, WAYS};
use plates::{choose, choose_in, Refusal, Way, Work, MOST_COUNT, MOST_RECORDS};
use std::thread;

#[test]
fn numbers_are_those_of_the_taxa() {
    for outline in outlines() {
        for way in WAYS {
            let choice = choose(&outline, 12, way).unwrap();
            assert_eq!(choice.cost(), cost(&outline, choice.taxa()));
            assert_eq!(choice.diversity(), diversity(&outline, choice.taxa(), way));
            assert_eq!(choice.spare(), 12 - choice.cost());
            for (record, mark) in outline.records().zip(choice.marks()) {
                assert_eq!(choice.taxa().contains(&record), *mark == 1);
            }
            assert_eq!(choice.marks().len(), outline.records().len());
        }
    }
}

#[test]
fn each_column_is_the_choice_for_its_count() {
    for outline in outlines() {
        for way in WAYS {
            let whole = choose(&outline, 20, way).unwrap();
            assert_eq!(whole.curve().len(), 21);
            for (count, column) in (0..).zip(whole.curve()) {
                let choice = choose(&outline, count, way);
                let best = choice.map(|choice| (count, choice.diversity(), choice.cost()));
                let column = column.map(|column| (column.count, column.diversity, column.cost));
                assert_eq!(best, column.ok_or(Refusal::LockedTooDear));
            }
        }
    }
}

#[test]
fn outlines_choose_for_themselves() {
    for outline in outlines() {
        for way in WAYS {
            for count in [0, 7, 40] {
                assert_eq!(outline.choose(count, way), choose(&outline, count, way));
            }
            let refused = outline.choose(MOST_COUNT + 1, way);
            assert_eq!(refused, Err(Refusal::CountTooLarge));
        }
    }
    let of_tree_a = WAYS.map(|way| tree_a().choose(2, way).unwrap().diversity());
    assert_eq!(of_tree_a, [5, 0]);
}

#[test]
fn memory_used_again_changes_nothing() {
    let mut work = Work::new();
    for count in [0, 300, 7, 40] {
        for outline in outlines() {
            for way in WAYS {
                let again = choose_in(&outline, count, way, &mut work);
                assert_eq!(again, choose(&outline, count, way));
            }
        }
        let refused = choose_in(&tree_a(), MOST_COUNT + 1, Way::Rooted, &mut work);
        assert_eq!(refused, Err(Refusal::CountTooLarge));
    }
}

#[test]
fn memory_shows_no_contents() {
    assert_eq!(format!("{:?}", Work::new()), "Work { .. }");
}

#[test]
fn threads_choose_at_the_same_time() {
    let outline = sound(pairs(6, 3, 1));
    let expected = WAYS.map(|way| choose(&outline, 500, way).unwrap());
    let repeat = || {
        for _ in 0..5 {
            let chosen = WAYS.map(|way| choose(&outline, 500, way).unwrap());
            assert_eq!(chosen, expected);
        }
    };
    thread::scope(|scope| {
        for _ in 0..8 {
            scope.spawn(repeat);
        }
    });
}

#[test]
fn deepest_outline_needs_little_stack() {
    let outline = sound(chain(MOST_RECORDS));
    let run = move || WAYS.map(|way| choose(&outline, MOST_COUNT, way).unwrap().diversity());
    let small = thread::Builder::new().stack_size(64 * 1024);
    let diversities = small.spawn(run).unwrap().join().unwrap();
    assert_eq!(diversities, [127, 0]);
}
