//! The quick choice: its rule, its ceiling, what holds of it beside the best, the refusals, and the
//! buffers.

use crate::support::{bytes, chain, changed, headed_a, locked_a, outline};
use crate::support::{outlines, pairs, plates, plates_of, sound, star, star_records, tree_a};
use crate::support::{Draw, INTERLEAVED, LOCK, TREE_A, WAYS};
use plates::{sys, Outline, QuickChoice, Record, Refusal, Tree, Way};
use plates::{MOST_COUNT, MOST_PICKS, MOST_RECORDS, MOST_TAXA};
use std::cmp::Reverse;
use std::iter::successors;
use std::thread;

fn quick(outline: &Outline, count: u32, picks: u32) -> QuickChoice {
    let choice = outline.quick_choice(count, picks);
    choice.expect("count and picks are in range, and the locked taxa fit")
}

/// Plates, diversity, cost, ceiling.
type Told = (Vec<u32>, u32, u32, u64);

fn told(choice: &QuickChoice) -> Told {
    let plates = plates_of(choice.taxa());
    (plates, choice.diversity(), choice.cost(), choice.ceiling())
}

/// The same for as many picks as there can be.
fn picked(outline: &Outline, count: u32) -> Told {
    told(&quick(outline, count, MOST_PICKS))
}

fn best(outline: &Outline, count: u32) -> u32 {
    let choice = outline.choose(count, Way::Rooted);
    choice.expect("a set fits the count").diversity()
}

/// Taxa as bits, those of their records' numbers.
type Set = u128;

fn set_of(taxa: impl IntoIterator<Item = Record>) -> Set {
    let bits = taxa.into_iter().map(|taxon| 1 << taxon.number);
    bits.fold(0, |set, bit: Set| set | bit)
}

fn set(choice: &QuickChoice) -> Set {
    set_of(choice.taxa().iter().copied())
}

/// An outline's records, each with the taxa at or below it.
struct Held(Vec<(Record, Set)>);

impl Held {
    fn new(outline: &Outline) -> Held {
        // what a record and the members after it hold
        let mut chains = [0; MOST_RECORDS + 1];
        let hold = |record: Record| {
            let held = if record.is_taxon() {
                set_of([record])
            } else {
                chains[record.first as usize]
            };
            chains[record.number as usize] = held | chains[record.next as usize];
            (record, held)
        };
        // links lead to later records
        Held(outline.records().rev().map(hold).collect())
    }

    /// The lengths, and the prices, of the records that are, or have below them, a taxon of the set.
    fn measures(&self, set: Set) -> (u32, u32) {
        let counted = self.0.iter().filter(|(_, held)| held & set != 0);
        counted.fold((0, 0), |(lengths, prices), (record, _)| {
            (lengths + record.length, prices + record.price)
        })
    }

    fn cost(&self, set: Set) -> u32 {
        self.measures(set).1
    }

    /// What a taxon adds to a set: diversity and quarters.
    fn added(&self, set: Set, taxon: &Record) -> (u32, u32) {
        let with = self.measures(set | 1 << taxon.number);
        let without = self.measures(set);
        (with.0 - without.0, with.1 - without.1)
    }

    /// The taxa that are not in a set.
    fn others(&self, set: Set) -> impl Iterator<Item = &Record> {
        let records = self.0.iter().map(|(record, _)| record);
        records.filter(move |record| record.is_taxon() && set >> record.number & 1 == 0)
    }

    fn locked(&self) -> Set {
        set_of(self.others(0).filter(|taxon| taxon.locked).copied())
    }

    /// The taxa that can be picked.
    fn candidates(&self, count: u32, set: Set) -> impl Iterator<Item = &Record> {
        let spent = self.cost(set);
        self.others(set).filter(move |taxon| {
            let (diversity, quarters) = self.added(set, taxon);
            diversity > 0 && spent + quarters <= count
        })
    }

    /// The sets by the rule, from the locked taxa on: one pick after the other.
    fn picked(&self, count: u32) -> impl Iterator<Item = Set> + '_ {
        successors(Some(self.locked()), move |set| {
            let rank = |taxon: &&Record| {
                let (diversity, quarters) = self.added(*set, taxon);
                (diversity, Reverse(quarters), Reverse(taxon.number))
            };
            let pick = self.candidates(count, *set).max_by_key(rank)?;
            Some(set | 1 << pick.number)
        })
    }

    fn ceiling(&self, count: u32, set: Set) -> u64 {
        let affordable = self.others(set).filter(|taxon| taxon.price <= count);
        let more = affordable.map(|taxon| u64::from(self.added(set, taxon).0));
        u64::from(self.measures(set).0) + more.sum::<u64>()
    }
}

/// The outlines that several tests use, and drawn ones, with headings and locks among them, each
/// with counts that its locked taxa fit.
fn samples(seed: u64) -> Vec<(Outline, Held, Vec<u32>)> {
    let draw = &mut Draw(seed);
    let drawn = (0..60).map(|_| draw.outline(12));
    let counted = outlines().into_iter().chain(drawn).map(|outline| {
        let held = Held::new(&outline);
        let least = held.cost(held.locked());
        let counts = [0, 1, 3, 5, 8, 12, 40].into_iter();
        let counts = counts.filter(|count| least <= *count).collect();
        (outline, held, counts)
    });
    counted.collect()
}

#[test]
fn tree_a_pick_by_pick() {
    let cases: [(u32, &[u32], Told); 11] = [
        // count, picks, and what is told
        (0, &[0, 64], (vec![], 0, 0, 0)),
        (1, &[0], (vec![], 0, 0, 5)),
        (1, &[1, 64], (vec![12], 5, 1, 5)),
        (2, &[1, 2, 64], (vec![12], 5, 1, 10)),
        (3, &[1, 2, 64], (vec![11], 7, 3, 14)),
        (4, &[2, 64], (vec![11, 12], 9, 4, 14)),
        (5, &[0], (vec![], 0, 0, 17)),
        (5, &[1], (vec![11], 7, 3, 14)),
        (5, &[2, 3, 64], (vec![11, 13], 12, 5, 14)),
        (6, &[2], (vec![11, 13], 12, 5, 14)),
        (6, &[3, 4, 64], (vec![11, 12, 13], 14, 6, 14)),
    ];
    for (count, picks, expected) in cases {
        for picks in picks {
            assert_eq!(told(&quick(&tree_a(), count, *picks)), expected);
        }
    }
}

#[test]
fn tree_a_beside_the_best() {
    // at counts 3 and 4 plates 12 and 13 would be better
    let told = (0..=6).map(|count| {
        let choice = quick(&tree_a(), count, MOST_PICKS);
        let short = choice.short_by_at_most();
        (choice.diversity(), best(&tree_a(), count), short)
    });
    let expected = [
        (0, 0, 0),
        (5, 5, 0),
        (5, 5, 5),
        (7, 10, 7),
        (9, 10, 5),
        (12, 12, 2),
        (14, 14, 0),
    ];
    assert!(told.eq(expected));
}

#[test]
fn the_longest_first_is_not_the_best() {
    let outline = sound(star(&[(6, 3), (5, 2), (5, 2)]));
    assert_eq!(picked(&outline, 4), (vec![1], 6, 3, 16));
    assert_eq!(best(&outline, 4), 10);
}

#[test]
fn the_root_is_a_taxon() {
    let outline = sound(Tree::taxon(9, 5, 1));
    assert_eq!(picked(&outline, 1), (vec![9], 5, 1, 5));
    assert_eq!(quick(&outline, 1, 1).marks(), [1]);
    assert_eq!(told(&quick(&outline, 1, 0)), (vec![], 0, 0, 5));
    assert_eq!(quick(&outline, 1, 0).marks(), [0]);
    assert_eq!(picked(&outline, 0), (vec![], 0, 0, 0));
}

#[test]
fn more_diversity_comes_before_fewer_quarters() {
    let outline = sound(star(&[(5, 1), (6, 3)]));
    assert_eq!(picked(&outline, 3), (vec![2], 6, 3, 11));
}

#[test]
fn what_is_added_counts_and_not_the_own_length() {
    // plate 1 has a longer branch, but plate 2 has its group's too
    let group = Tree::group(3, [Tree::taxon(2, 4, 1)]);
    let outline = sound(Tree::group(0, [Tree::taxon(1, 6, 1), group]));
    assert_eq!(picked(&outline, 1), (vec![2], 7, 1, 13));
}

#[test]
fn fewer_quarters_decide_at_equal_diversity() {
    let dear = sound(star(&[(4, 3), (4, 2), (4, 2)]));
    assert_eq!(picked(&dear, 3), (vec![2], 4, 2, 12));
    // plates 105 and 106 both add 90, for 2 and for 3
    let interleaved = outline(&INTERLEAVED);
    let one = told(&quick(&interleaved, 3, 1));
    assert_eq!(one, (vec![105], 90, 2, 230));
    // the heading's quarters count too: plate 1 costs 1 and its heading 2
    let headed = Tree::headed_group(0, 2, [Tree::taxon(1, 4, 1)]);
    let headed = sound(Tree::group(0, [headed, Tree::taxon(2, 4, 2)]));
    assert_eq!(picked(&headed, 3), (vec![2], 4, 2, 8));
}

#[test]
fn the_lowest_record_decides_at_equal_quarters() {
    // and not the lowest plate
    let outline = sound(Tree::group(0, [Tree::taxon(9, 4, 1), Tree::taxon(3, 4, 1)]));
    assert_eq!(picked(&outline, 1), (vec![9], 4, 1, 8));
}

#[test]
fn the_order_of_records_may_change_the_diversity() {
    let group = || Tree::group(3, [Tree::taxon(1, 4, 2), Tree::taxon(2, 2, 1)]);
    let taxon = || Tree::taxon(3, 7, 2);
    // plates 1 and 3 are equal, but only after plate 3 does plate 2 add its group's length
    let one = sound(Tree::group(0, [group(), taxon()]));
    assert_eq!(picked(&one, 3), (vec![1, 2], 9, 3, 16));
    let other = sound(Tree::group(0, [taxon(), group()]));
    assert_eq!(picked(&other, 3), (vec![3, 2], 12, 3, 16));
    assert_eq!([best(&one, 3), best(&other, 3)], [12, 12]);
}

#[test]
fn headings_count_with_the_taxon_that_opens_them() {
    let outline = sound(headed_a(0, 2));
    // plate 11 costs 5; plates 12 and 13 add as much as each other, for 3 and for 2
    assert_eq!(picked(&outline, 4), (vec![13], 5, 2, 17));
    assert_eq!(picked(&outline, 5), (vec![11], 7, 5, 14));
    // the heading is open, so plate 12 costs 1
    assert_eq!(picked(&outline, 6), (vec![11, 12], 9, 6, 14));
    assert_eq!(picked(&outline, 7), (vec![11, 13], 12, 7, 14));
    assert_eq!(picked(&outline, 8), (vec![11, 12, 13], 14, 8, 14));
    // the root's heading is paid once
    let outline = sound(headed_a(1, 2));
    assert_eq!(picked(&outline, 5), (vec![13], 5, 3, 17));
    assert_eq!(picked(&outline, 8), (vec![11, 13], 12, 8, 14));
}

#[test]
fn the_ceiling_leaves_headings_out() {
    // every plate costs at most 3, so each counts, whatever its headings cost
    for (root, group) in [(0, 65_535), (65_535, 0), (65_535, 65_535)] {
        let outline = sound(headed_a(root, group));
        assert_eq!(told(&quick(&outline, 3, 0)), (vec![], 0, 0, 17));
        let (plates, diversity, cost, _) = picked(&outline, MOST_COUNT);
        let open = if root == 0 {
            (vec![13], 5, 2)
        } else {
            (vec![], 0, 0)
        };
        assert_eq!((plates, diversity, cost), open);
    }
}

#[test]
fn the_ceiling_has_taxa_of_exactly_the_count() {
    let outline = sound(star(&[(9, 4), (2, 3)]));
    let ceilings = (0..6).map(|count| quick(&outline, count, 0).ceiling());
    assert!(ceilings.eq([0, 0, 0, 2, 11, 11]));
}

#[test]
fn taxa_that_add_nothing_are_not_picked() {
    let outline = sound(star(&[(0, 0), (0, 1), (3, 0)]));
    assert_eq!(picked(&outline, 9), (vec![3], 3, 0, 3));
    // a free taxon that adds something is picked at count 0
    assert_eq!(picked(&outline, 0), (vec![3], 3, 0, 3));
    // the group's length is there already
    let inner = [Tree::taxon(1, 0, 0), Tree::taxon(2, 0, 0)];
    let outline = sound(Tree::group(0, [Tree::group(7, inner)]));
    assert_eq!(picked(&outline, 0), (vec![1], 7, 0, 7));
    // the best has as much, and both
    let choice = outline.choose(0, Way::Rooted).unwrap();
    assert_eq!((plates(&choice), choice.diversity()), (vec![1, 2], 7));
}

#[test]
fn locked_taxa_come_first() {
    let outline = sound(locked_a(0, 0, &[13]));
    assert_eq!(told(&quick(&outline, 2, 0)), (vec![13], 5, 2, 10));
    assert_eq!(picked(&outline, 2), (vec![13], 5, 2, 10));
    // at 3 quarters plate 11 would be picked first, but does not fit any more
    assert_eq!(picked(&outline, 3), (vec![12, 13], 10, 3, 14));
    assert_eq!(told(&quick(&outline, 5, 1)), (vec![11, 13], 12, 5, 14));
}

#[test]
fn locked_taxa_are_no_picks() {
    for locked in [&[][..], &[11], &[12], &[11, 12], &[12, 13], &[11, 12, 13]] {
        let outline = sound(locked_a(1, 2, locked));
        for picks in 0..5 {
            let taxa = quick(&outline, 40, picks).taxa().len();
            assert_eq!(taxa, (locked.len() + picks as usize).min(3));
        }
    }
}

#[test]
fn locked_taxa_open_their_headings() {
    let outline = sound(locked_a(0, 4_000, &[11]));
    assert_eq!(told(&quick(&outline, 4_004, 0)), (vec![11], 7, 4_003, 14));
    assert_eq!(picked(&outline, 4_004), (vec![11, 12], 9, 4_004, 14));
    // a locked taxon may add nothing
    let tree = Tree::group(0, [Tree::taxon(1, 5, 1), Tree::locked_taxon(2, 0, 0)]);
    assert_eq!(picked(&sound(tree), 0), (vec![2], 0, 0, 0));
}

#[test]
fn the_rule_is_followed() {
    let mut made = 0;
    for (outline, held, counts) in samples(1) {
        for count in counts {
            let sets: Vec<Set> = held.picked(count).collect();
            for (picks, expected) in (0..).zip(&sets) {
                assert_eq!(set(&quick(&outline, count, picks)), *expected);
            }
            // then it ends, with one pick more and with all
            let last = sets.len() as u32 - 1;
            for picks in [last + 1, MOST_PICKS] {
                let choice = quick(&outline, count, picks.min(MOST_PICKS));
                assert_eq!(set(&choice), sets[last as usize]);
            }
            made += last;
        }
    }
    assert!(made > 300, "{made}");
}

#[test]
fn numbers_are_those_of_the_taxa() {
    for (outline, held, counts) in samples(2) {
        for count in counts {
            for picks in [0, 1, 4, MOST_PICKS] {
                let choice = quick(&outline, count, picks);
                let numbers = (choice.diversity(), choice.cost());
                assert_eq!(numbers, held.measures(set(&choice)));
                let marked = |record: Record| u8::from(choice.taxa().contains(&record));
                assert!(outline.records().map(marked).eq(choice.marks().to_vec()));
            }
        }
    }
}

#[test]
fn the_ceiling_is_what_the_others_would_add() {
    for (outline, held, counts) in samples(3) {
        for count in counts {
            for picks in [0, 1, 2, 4, MOST_PICKS] {
                let choice = quick(&outline, count, picks);
                let taxa = set(&choice);
                let expected = held.ceiling(count, taxa);
                assert_eq!(choice.ceiling(), expected);
                let (diversity, _) = held.measures(taxa);
                assert_eq!(choice.short_by_at_most(), expected - u64::from(diversity));
            }
        }
    }
}

#[test]
fn the_set_fits() {
    for (outline, held, counts) in samples(4) {
        let locked = held.locked();
        for count in counts {
            for picks in [0, 1, 3, MOST_PICKS] {
                let choice = quick(&outline, count, picks);
                let taxa = set(&choice);
                assert!(held.cost(taxa) <= count);
                assert_eq!(taxa & locked, locked);
                assert!(choice.taxa().iter().all(Record::is_taxon));
            }
        }
    }
}

#[test]
fn the_best_is_from_the_diversity_to_the_ceiling() {
    let (mut poorer, mut below, mut met) = (0, 0, 0);
    for (outline, _, counts) in samples(5) {
        for count in counts {
            let best = best(&outline, count);
            for picks in [0, 1, 2, 3, 6, MOST_PICKS] {
                let choice = quick(&outline, count, picks);
                assert!(choice.diversity() <= best);
                assert!(u64::from(best) <= choice.ceiling());
                poorer += usize::from(choice.diversity() < best);
                below += usize::from(u64::from(best) < choice.ceiling());
                met += usize::from(choice.short_by_at_most() == 0);
            }
        }
    }
    // each of these happens
    assert!(
        poorer > 300 && below > 300 && met > 300,
        "{poorer} {below} {met}"
    );
}

#[test]
fn more_picks_never_lower_the_diversity() {
    let mut rises = 0;
    for (outline, _, counts) in samples(6) {
        for count in counts {
            let choices = (0..14).map(|picks| quick(&outline, count, picks));
            let choices: Vec<QuickChoice> = choices.collect();
            for pair in choices.windows(2) {
                assert!(pair[0].diversity() <= pair[1].diversity());
                assert!(pair[0].taxa().iter().all(|t| pair[1].taxa().contains(t)));
                rises += usize::from(pair[0].diversity() < pair[1].diversity());
            }
        }
    }
    assert!(rises > 300, "{rises}");
}

#[test]
fn picking_ends_only_where_nothing_can_be_picked() {
    let (mut all, mut fewer) = (0, 0);
    for (outline, held, counts) in samples(7) {
        let locked = outline.taxa().filter(|taxon| taxon.locked).count();
        for count in counts {
            for picks in [0, 1, 2, 3, 5, MOST_PICKS] {
                let choice = quick(&outline, count, picks);
                let made = choice.taxa().len() - locked;
                assert!(made <= picks as usize);
                if made < picks as usize {
                    let taxa = set(&choice);
                    assert_eq!(held.candidates(count, taxa).next(), None);
                    fewer += 1;
                } else {
                    all += 1;
                }
            }
        }
    }
    assert!(all > 300 && fewer > 300, "{all} {fewer}");
}

#[test]
fn as_many_picks_as_there_can_be_taxa() {
    assert_eq!(MOST_PICKS as usize, MOST_TAXA);
    for outline in [sound(star(&[(4, 1); 64])), sound(pairs(6, 1, 1))] {
        for picks in [1, 63, 64] {
            let choice = quick(&outline, MOST_COUNT, picks);
            let numbers = (choice.taxa().len() as u32, choice.cost());
            assert_eq!(numbers, (picks, picks));
        }
        let choice = quick(&outline, MOST_COUNT, MOST_PICKS);
        assert_eq!(choice.diversity(), best(&outline, MOST_COUNT));
        assert_eq!(choice.short_by_at_most(), 0);
    }
}

#[test]
fn the_largest_ceiling_is_told() {
    // groups one in the other, and in the innermost as many taxa as can be: 127 records
    let taxa = (1..=64).map(|plate| Tree::taxon(plate, 1_000_000, 64));
    let innermost = Tree::group(1_000_000, taxa);
    let groups = (0..62).fold(innermost, |below, _| Tree::group(1_000_000, [below]));
    let outline = sound(groups);
    assert_eq!(told(&quick(&outline, MOST_COUNT, 0)).3, 64 * 64_000_000);
    // the groups are there once
    let one = told(&quick(&outline, MOST_COUNT, 1));
    assert_eq!(one, (vec![1], 64_000_000, 64, 127_000_000));
    let (plates, diversity, cost, ceiling) = picked(&outline, MOST_COUNT);
    assert_eq!(plates, Vec::from_iter(1..=64));
    assert_eq!(
        (diversity, cost, ceiling),
        (127_000_000, 4_096, 127_000_000)
    );
}

#[test]
fn the_sheet_has_the_sums_of_the_quick_choice() {
    for (outline, _, counts) in samples(8) {
        for count in counts {
            let choice = quick(&outline, count, MOST_PICKS);
            let sheet = outline.sheet(choice.marks(), Way::Rooted).unwrap();
            let sums = (sheet.quarters(), sheet.diversity());
            assert_eq!(sums, (choice.cost(), choice.diversity()));
            let of_sheet = sheet.rows().iter().map(|row| row.plate);
            assert!(of_sheet.eq(plates_of(choice.taxa())));
        }
    }
}

#[test]
fn the_deepest_outline_needs_little_stack() {
    let deepest = sound(chain(MOST_RECORDS));
    let run = move || picked(&deepest, MOST_COUNT);
    let small = thread::Builder::new().stack_size(64 * 1024);
    let told = small.spawn(run).unwrap().join().unwrap();
    assert_eq!(told, (vec![1], 127, 1, 127));
}

#[test]
fn counts_too_large_are_refused() {
    for count in [MOST_COUNT + 1, 65_536, u32::MAX] {
        for picks in [0, 64, 65, u32::MAX] {
            let refused = tree_a().quick_choice(count, picks);
            assert_eq!(refused, Err(Refusal::CountTooLarge));
        }
    }
    assert_eq!(picked(&tree_a(), MOST_COUNT).1, 14);
}

#[test]
fn more_than_64_picks_are_refused() {
    let dear = sound(Tree::locked_taxon(1, 1, 9));
    for outline in [tree_a(), dear] {
        for picks in [65, 256, 1 << 16, u32::MAX] {
            for count in [0, 5, MOST_COUNT] {
                let refused = outline.quick_choice(count, picks);
                assert_eq!(refused, Err(Refusal::TooManyPicks));
            }
        }
    }
    assert!(tree_a().quick_choice(5, 64).is_ok());
}

#[test]
fn counts_are_refused_as_by_choosing() {
    let draw = &mut Draw(9);
    let drawn = (0..100).map(|_| draw.outline(12));
    let mut dear = 0;
    for outline in outlines().into_iter().chain(drawn) {
        for count in 0..12 {
            let refused = WAYS.map(|way| outline.choose(count, way).err());
            for picks in [0, 1, MOST_PICKS] {
                let choice = outline.quick_choice(count, picks);
                assert_eq!([choice.err(); 2], refused);
            }
            dear += usize::from(refused[0] == Some(Refusal::LockedTooDear));
        }
    }
    assert!(dear > 300, "{dear}");
}

#[test]
fn locked_taxa_too_dear_are_refused_with_their_headings() {
    for (root, group, least) in [(0, 0, 3), (0, 2, 5), (1, 0, 4), (1, 2, 6)] {
        let outline = sound(locked_a(root, group, &[11]));
        for picks in [0, MOST_PICKS] {
            let refused = outline.quick_choice(least - 1, picks);
            assert_eq!(refused, Err(Refusal::LockedTooDear));
            let choice = quick(&outline, least, picks);
            assert_eq!((plates_of(choice.taxa()), choice.cost()), (vec![11], least));
        }
    }
}

/// What stands in marks, answer and ceiling before a call.
const BEFORE: u8 = 0xa5;

/// The answer of a call, and its ceiling.
fn call(outline: &[u8], count: u32, picks: u32, marks: &mut [u8]) -> ([u32; 5], u64) {
    let mut answer = [0xa5a5_a5a5; 5];
    let mut ceiling = 0xa5a5_a5a5_a5a5_a5a5;
    // SAFETY: each pointer and the length after it are those of one slice, answer has five numbers,
    // and no two overlap: answer and ceiling are variables of their own.
    let number = unsafe {
        sys::plates_quick(
            outline.as_ptr(),
            outline.len(),
            count,
            picks,
            marks.as_mut_ptr(),
            marks.len(),
            answer.as_mut_ptr(),
            &mut ceiling,
        )
    };
    assert_eq!(number, answer[0]);
    (answer, ceiling)
}

/// Number and place of a call that is refused, which leaves so many marks as they were and gives no
/// other numbers.
fn refused(outline: &[u8], count: u32, picks: u32, len: usize) -> [u32; 2] {
    let mut marks = vec![BEFORE; len];
    let ([number, place, rest @ ..], ceiling) = call(outline, count, picks, &mut marks);
    assert_ne!(number, 0);
    assert_eq!((rest, ceiling), ([0; 3], 0));
    assert_eq!(marks, vec![BEFORE; len]);
    [number, place]
}

#[test]
fn numbers_are_given_as_c_callers_get_them() {
    let outline = bytes(&TREE_A);
    let cases = [
        (5, 0, [0, 0, 0, 0, 0], 17, [0, 0, 0, 0, 0]),
        (5, 1, [0, 0, 7, 3, 1], 14, [0, 0, 1, 0, 0]),
        (5, 2, [0, 0, 12, 5, 2], 14, [0, 0, 1, 0, 1]),
        (5, 64, [0, 0, 12, 5, 2], 14, [0, 0, 1, 0, 1]),
        (2, 1, [0, 0, 5, 1, 1], 10, [0, 0, 0, 1, 0]),
        (6, 3, [0, 0, 14, 6, 3], 14, [0, 0, 1, 1, 1]),
    ];
    for (count, picks, answer, ceiling, marked) in cases {
        let mut marks = [BEFORE; 5];
        assert_eq!(call(&outline, count, picks, &mut marks), (answer, ceiling));
        assert_eq!(marks, marked);
    }
}

#[test]
fn marks_before_the_call_make_no_difference() {
    let locked = bytes(&changed(5, 4, LOCK | 13));
    for before in [0, 1, BEFORE] {
        let mut marks = [before; 5];
        let told = call(&locked, 3, 64, &mut marks);
        assert_eq!(told, ([0, 0, 10, 3, 2], 14));
        assert_eq!(marks, [0, 0, 0, 1, 1]);
    }
}

#[test]
fn longer_marks_keep_the_rest() {
    for more in [0, 1, 100] {
        let mut marks = vec![BEFORE; 5 + more];
        let told = call(&bytes(&TREE_A), 5, 64, &mut marks);
        assert_eq!(told, ([0, 0, 12, 5, 2], 14));
        assert_eq!(marks[..5], [0, 0, 1, 0, 1]);
        assert_eq!(marks[5..], vec![BEFORE; more]);
    }
}

#[test]
fn fewer_marks_than_records_are_refused() {
    for len in 0..5 {
        for (count, picks) in [(5, 64), (0, 0)] {
            assert_eq!(refused(&bytes(&TREE_A), count, picks, len), [9, 0]);
        }
    }
}

#[test]
fn outlines_are_refused_as_by_the_check() {
    let many = vec![[0; 5]; MOST_RECORDS + 1];
    let cases = [
        (bytes(&[]), [2, 0]),
        (bytes(&TREE_A)[1..].to_vec(), [2, 0]),
        (bytes(&many), [3, 0]),
        (bytes(&changed(4, 2, 1_000_001)), [5, 4]),
        (bytes(&changed(2, 3, 65_536)), [5, 2]),
        (bytes(&changed(5, 4, LOCK)), [5, 5]),
        (bytes(&changed(3, 0, 6)), [6, 3]),
        (bytes(&star_records(65)), [7, 0]),
        (bytes(&changed(5, 4, LOCK | 11)), [8, 5]),
    ];
    for (outline, expected) in cases {
        for (count, picks, len) in [(5, 1, 200), (0, 64, 0)] {
            assert_eq!(refused(&outline, count, picks, len), expected);
        }
        let of_records = [5, 6, 7, 8].contains(&expected[0]);
        for len in [0, 200] {
            let [count, picks, both] = [(4_097, 0), (4_096, 65), (4_097, 65)]
                .map(|(count, picks)| refused(&outline, count, picks, len));
            if of_records {
                assert_eq!([count, picks, both], [[4, 0], [15, 0], [4, 0]]);
            } else {
                assert_eq!([count, picks, both], [expected; 3]);
            }
        }
    }
}

#[test]
fn the_first_that_holds_is_given() {
    // each has wrong what is judged later, too
    let mut records = star_records(65);
    records[65] = [1, 0, 1, 1, 1];
    let broken = bytes(&records);
    records[64][3] = 65_536;
    let out_of_range = bytes(&records);
    let mut twins = star_records(65);
    twins[65][4] = 1;
    let double = changed(4, 4, LOCK | 11);
    // the locked taxon costs 2
    let locked = bytes(&changed(5, 4, LOCK | 13));
    assert_eq!(refused(&out_of_range.repeat(2)[1..], 4_097, 65, 0), [2, 0]);
    assert_eq!(refused(&out_of_range.repeat(2), 4_097, 65, 0), [3, 0]);
    assert_eq!(refused(&out_of_range, 4_097, 65, 0), [4, 0]);
    assert_eq!(refused(&out_of_range, 0, 65, 0), [15, 0]);
    assert_eq!(refused(&out_of_range, 0, 64, 0), [5, 65]);
    assert_eq!(refused(&broken, 0, 64, 0), [6, 66]);
    assert_eq!(refused(&bytes(&twins), 0, 64, 0), [7, 0]);
    assert_eq!(refused(&bytes(&double), 0, 64, 0), [8, 4]);
    assert_eq!(refused(&locked, 1, 64, 4), [9, 0]);
    assert_eq!(refused(&locked, 1, 64, 5), [12, 0]);
    assert_eq!(call(&locked, 2, 64, &mut [BEFORE; 5]).0, [0, 0, 5, 2, 1]);
}
