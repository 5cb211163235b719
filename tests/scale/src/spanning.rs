//! A revised length beside the set that was chosen before (document 02, §11): whether that set spans the revised branch, so that its
//! diversity counts the length, and what is promised then.

use std::cmp::Ordering::{self, Equal, Greater, Less};
use std::iter::successors;

use crate::expect::Expected;
use crate::outline::{self, parents, Record, ROOTED};
use crate::report::Report;
use crate::revise::{ReviseCall, ReviseExpected};
use crate::sheet;
use crate::view_pairs::Kind;
use crate::view_runs::{count, named};

/// Whether a set of taxa, by its marks, spans the branch of the record at a position: one of its taxa is the record or below it and,
/// unrooted, another one is neither. From each taxon the records above it are gone through up to the root.
pub fn spans(records: &[Record], way: u32, marks: &[u8], position: usize) -> bool {
    let parents = parents(records);
    let is_within = |taxon: &&usize| {
        let mut upwards = successors(Some(**taxon), |&at| parents[at]);
        upwards.any(|at| at == position)
    };
    let chosen = sheet::chosen(records, marks);
    let within = chosen.iter().filter(is_within).count();
    within > 0 && (way == ROOTED || within < chosen.len())
}

/// The revised branch beside a set.
#[derive(Clone, Copy, Debug, PartialEq, Eq)]
pub struct Branch {
    pub is_spanned: bool,
    /// The new length less the old one.
    pub difference: i64,
}

impl Branch {
    /// `old` are the marks of the set chosen before, one for each record. There is such a record.
    pub fn of(call: &ReviseCall, old: &[u8]) -> Self {
        let records = outline::records(&call.given.outline);
        let position = call.record as usize - 1;
        Branch {
            is_spanned: spans(&records, call.given.way, old, position),
            difference: i64::from(call.length) - i64::from(call.old_length()),
        }
    }

    /// What the set's own diversity moves by.
    pub fn own(self) -> i64 {
        if self.is_spanned {
            self.difference
        } else {
            0
        }
    }

    /// Whether the set is promised to stay chosen, so that the best moves as its own diversity does.
    pub fn stays(self) -> bool {
        if self.is_spanned {
            self.difference >= 0
        } else {
            self.difference <= 0
        }
    }
}

/// What became of a revised length and of the set chosen before.
struct Outcome {
    branch: Branch,
    is_same_set: bool,
    /// What the best moved by.
    best: i64,
}

impl Outcome {
    fn goes(&self, is_spanned: bool, length: Ordering) -> bool {
        self.branch.is_spanned == is_spanned && self.branch.difference.cmp(&0) == length
    }

    fn moves_otherwise(&self) -> bool {
        self.best != self.branch.own()
    }
}

/// What revised lengths are to be now and then, either way: first where something is promised, then where nothing is.
const KINDS: [Kind<Outcome>; 10] = [
    ("spanned and up", |o| o.goes(true, Greater)),
    ("spanned and as it is", |o| o.goes(true, Equal)),
    ("not spanned and down", |o| o.goes(false, Less)),
    ("not spanned and as it is", |o| o.goes(false, Equal)),
    ("spanned and down to another set", |o| {
        o.goes(true, Less) && !o.is_same_set
    }),
    ("spanned and down with the same set", |o| {
        o.goes(true, Less) && o.is_same_set
    }),
    ("spanned and down by more than the best", |o| {
        o.goes(true, Less) && o.moves_otherwise()
    }),
    ("not spanned and up to another set", |o| {
        o.goes(false, Greater) && !o.is_same_set
    }),
    ("not spanned and up with the same set", |o| {
        o.goes(false, Greater) && o.is_same_set
    }),
    ("not spanned and up with the best", |o| {
        o.goes(false, Greater) && o.moves_otherwise()
    }),
];

/// How often each was met, rooted and unrooted.
#[derive(Default)]
pub struct Tally([[u64; KINDS.len()]; 2]);

impl Tally {
    /// Adds what is expected of a call; on a refusal there is no choice before, and nothing to add.
    pub fn add(&mut self, call: &ReviseCall, expected: &ReviseExpected, old: Option<&Expected>) {
        if let Some(old) = old {
            let outcome = Outcome {
                branch: Branch::of(call, &old.marks),
                is_same_set: old.marks == expected.choice.marks,
                best: expected.moved[0],
            };
            count(&mut self.0[call.given.way as usize], &KINDS, &outcome);
        }
    }

    /// Prints how often each was met, and fails the whole if one was too seldom.
    pub fn report(&self, report: &mut Report, least: u64) {
        for (way, times) in ["rooted", "unrooted"].into_iter().zip(self.0) {
            let before = format!("beside the old choice, {way}:");
            report.met(&before, &named(&KINDS, times), least);
        }
    }
}

#[cfg(test)]
mod tests {
    use super::*;
    use crate::call::Call;
    use crate::cases::{taxon, tree_a};
    use crate::expect::{by_exhaustive_search, by_table};
    use crate::length_walks::some_small_outline;
    use crate::measures::Measures;
    use crate::outline::{bytes, UNROOTED};
    use crate::random::Random;
    use crate::revise::{self, Revised};
    use crate::revise_cases;
    use crate::revise_runs::near_length;
    use crate::runs::WAYS;
    use crate::shapes;

    /// The records that a set spans, by their numbers.
    fn spanned(records: &[Record], way: u32, marks: &[u8]) -> Vec<usize> {
        let spanned = |number: &usize| spans(records, way, marks, number - 1);
        (1..=records.len()).filter(spanned).collect()
    }

    #[test]
    fn sets_of_tree_a_span_the_branches_between_their_taxa_and_rooted_those_to_the_root() {
        for (marks, rooted, unrooted) in [
            ([0, 0, 0, 0, 0], &[][..], &[][..]),
            ([0, 0, 1, 0, 0], &[1, 2, 3], &[]),
            ([0, 0, 0, 0, 1], &[1, 5], &[]),
            ([0, 0, 1, 1, 0], &[1, 2, 3, 4], &[3, 4]),
            ([0, 0, 1, 0, 1], &[1, 2, 3, 5], &[2, 3, 5]),
            ([0, 0, 1, 1, 1], &[1, 2, 3, 4, 5], &[2, 3, 4, 5]),
        ] {
            assert_eq!(spanned(&tree_a(), ROOTED, &marks), rooted);
            assert_eq!(spanned(&tree_a(), UNROOTED, &marks), unrooted);
        }
        let alone = [taxon(0, 5, 1, 1)];
        assert_eq!(spanned(&alone, ROOTED, &[1, 1]), [1]);
        assert_eq!(spanned(&alone, UNROOTED, &[1, 1]), []);
        assert_eq!(spanned(&alone, ROOTED, &[0, 1]), []);
    }

    /// By every subset: with one more of the record's length there is one more diversity.
    #[test]
    fn a_set_spans_a_record_exactly_if_its_diversity_counts_the_length() {
        let rng = &mut Random::new(1);
        let mut times = [[0; 2]; 2];
        for _ in 0..100 {
            let taxa = 1 + rng.index(6);
            let records = shapes::random_outline(taxa, 16, rng);
            for (set, way) in (0..1 << taxa).flat_map(|set| WAYS.map(|way| (set, way))) {
                let marks = Measures::new(&records, way).marks(set);
                for position in 0..records.len() {
                    let mut longer = records.clone();
                    longer[position].length += 1;
                    let [old, new] =
                        [&records, &longer].map(|records| sheet::sums(records, way, &marks)[1]);
                    let is_spanned = spans(&records, way, &marks, position);
                    assert_eq!(u32::from(is_spanned), new - old, "{records:?}, {marks:?}");
                    times[way as usize][usize::from(is_spanned)] += 1;
                }
            }
        }
        assert!(
            times.concat().iter().all(|&times| times > 1_000),
            "{times:?}"
        );
    }

    #[test]
    fn a_set_is_promised_to_stay_where_a_spanned_length_rises_or_another_falls() {
        for (is_spanned, difference, stays, own) in [
            (true, 5, true, 5),
            (true, 0, true, 0),
            (true, -5, false, -5),
            (false, 5, false, 0),
            (false, 0, true, 0),
            (false, -5, true, 0),
        ] {
            let branch = Branch {
                is_spanned,
                difference,
            };
            assert_eq!((branch.stays(), branch.own()), (stays, own));
        }
    }

    #[test]
    fn a_branch_has_the_revised_record_and_the_new_length_less_the_old_one() {
        let mut call = small_call(&mut Random::new(2));
        call.given.outline = bytes(&tree_a());
        let marks = [0, 0, 1, 1, 0];
        for (way, record, length, is_spanned, difference) in [
            (ROOTED, 3, 9, true, 5),
            (ROOTED, 5, 9, false, 4),
            (ROOTED, 1, 9, true, 9),
            (ROOTED, 2, 0, true, -3),
            (UNROOTED, 1, 9, false, 9),
            (UNROOTED, 2, 0, false, -3),
            (UNROOTED, 4, 2, true, 0),
        ] {
            (call.given.way, call.record, call.length) = (way, record, length);
            let branch = Branch {
                is_spanned,
                difference,
            };
            assert_eq!(Branch::of(&call, &marks), branch);
        }
    }

    /// A length for a record of an outline of few taxa.
    fn small_call(rng: &mut Random) -> ReviseCall {
        let (records, count) = some_small_outline(rng);
        let at = rng.index(records.len());
        ReviseCall {
            given: Call::roomy(bytes(&records), count, rng.up_to(1), rng),
            record: at as u32 + 1,
            length: near_length(&records, at, rng),
        }
    }

    type Solved = (ReviseCall, ReviseExpected, Expected);

    /// Those that are not refused, each with the choice before.
    fn solved(calls: impl Iterator<Item = (ReviseCall, Revised)>) -> Vec<Solved> {
        let solved = |(call, (expected, old)): (_, Revised)| Some((call, expected, old?));
        calls.filter_map(solved).collect()
    }

    /// By every subset.
    fn small(calls: usize) -> Vec<Solved> {
        let rng = &mut Random::new(3);
        solved((0..calls).map(|_| {
            let call = small_call(rng);
            let revised = revise::expected(&call, |call| by_exhaustive_search(call, rng));
            (call, revised)
        }))
    }

    fn stated() -> Vec<Solved> {
        let cases = revise_cases::all().into_iter();
        solved(cases.map(|case| {
            let (_, old) = revise::expected(&case.call, by_table);
            (case.call, (case.expected, old))
        }))
    }

    /// What the best is to move by, if anything is promised.
    type Promise = fn(&Solved) -> Option<i64>;

    /// How often the best moves otherwise than is promised, or another set is chosen.
    fn broken(promise: Promise, solved: &[Solved]) -> usize {
        let is_broken = |solved: &&Solved| {
            let (_, expected, old) = solved;
            let is_kept = |best| expected.moved[0] == best && expected.choice.marks == old.marks;
            promise(solved).is_some_and(|best| !is_kept(best))
        };
        solved.iter().filter(is_broken).count()
    }

    fn promised(branch: Branch) -> Option<i64> {
        branch.stays().then_some(branch.own())
    }

    fn branch((call, _, old): &Solved) -> Branch {
        Branch::of(call, &old.marks)
    }

    /// By other words for what is spanned.
    fn by(solved: &Solved, is_spanned: impl Fn(&[Record], &[u8], usize) -> bool) -> Option<i64> {
        let (call, _, old) = solved;
        let records = outline::records(&call.given.outline);
        let is_spanned = is_spanned(&records, &old.marks, call.record as usize - 1);
        promised(Branch {
            is_spanned,
            ..branch(solved)
        })
    }

    const MISTAKEN: [(&str, Promise); 13] = [
        ("the rooted words either way", |solved| {
            by(solved, |records, old, at| spans(records, ROOTED, old, at))
        }),
        ("the unrooted words either way", |solved| {
            by(solved, |records, old, at| spans(records, UNROOTED, old, at))
        }),
        ("each way by the other's words", |solved| {
            let way = solved.0.given.way ^ 1;
            by(solved, |records, old, at| spans(records, way, old, at))
        }),
        ("the record's own mark", |solved| {
            by(solved, |_, old, at| old[at] == 1)
        }),
        ("a taxon below the record, and not the record", |solved| {
            let way = solved.0.given.way;
            by(solved, |records, old, at| {
                !records[at].is_taxon() && spans(records, way, old, at)
            })
        }),
        ("the root always spanned", |solved| {
            let way = solved.0.given.way;
            by(solved, |records, old, at| {
                at == 0 || spans(records, way, old, at)
            })
        }),
        ("the root never spanned", |solved| {
            let way = solved.0.given.way;
            by(solved, |records, old, at| {
                at > 0 && spans(records, way, old, at)
            })
        }),
        ("spanned exactly if it is not", |solved| {
            let way = solved.0.given.way;
            by(solved, |records, old, at| !spans(records, way, old, at))
        }),
        ("the set after", |(call, expected, _)| {
            promised(Branch::of(call, &expected.choice.marks))
        }),
        ("spanned and down", |solved| {
            let branch = branch(solved);
            (branch.is_spanned && branch.difference < 0).then_some(branch.own())
        }),
        ("not spanned and up", |solved| {
            let branch = branch(solved);
            (!branch.is_spanned && branch.difference > 0).then_some(branch.own())
        }),
        ("all of it where nothing is spanned", |solved| {
            let branch = branch(solved);
            branch.stays().then_some(branch.difference)
        }),
        ("nothing where it is spanned", |solved| {
            branch(solved).stays().then_some(0)
        }),
    ];

    #[test]
    fn what_is_promised_holds_and_each_mistake_in_it_does_not() {
        for solved in [stated(), small(4_000)] {
            assert_eq!(broken(|solved| promised(branch(solved)), &solved), 0);
            for (name, promise) in MISTAKEN {
                assert!(broken(promise, &solved) > 1, "{name}");
            }
        }
    }

    fn tallied(solved: &[Solved]) -> Tally {
        let mut tally = Tally::default();
        for (call, expected, old) in solved {
            tally.add(call, expected, Some(old));
        }
        tally
    }

    /// Either way: both where something is promised and where nothing is, with another set and by another movement.
    #[test]
    fn each_kind_is_met_among_small_outlines_and_stated_and_is_not_every_call() {
        for (solved, least) in [(small(4_000), 20), (stated(), 1)] {
            for (way, times) in WAYS.into_iter().zip(tallied(&solved).0) {
                let of_way = solved.iter().filter(|(call, ..)| call.given.way == way);
                let all = of_way.count() as u64;
                for (name, times) in named(&KINDS, times) {
                    assert!((least..all).contains(&times), "{name}, way {way}: {times}");
                }
            }
        }
    }

    /// Where the kind of this name stands.
    fn kind(name: &str) -> usize {
        let place = KINDS.iter().position(|(of_kind, _)| *of_kind == name);
        place.expect("a kind of this name")
    }

    #[test]
    fn all_kinds_but_those_of_the_movement_part_the_calls() {
        let of_movement = [
            "spanned and down by more than the best",
            "not spanned and up with the best",
        ]
        .map(kind);
        let solved = small(1_000);
        let times = tallied(&solved).0;
        for (way, times) in WAYS.into_iter().zip(times) {
            let of_way = solved.iter().filter(|(call, ..)| call.given.way == way);
            // not the kinds of another movement, whose calls are among those of the two before them
            let apart = times.into_iter().enumerate();
            let sum: u64 = apart
                .filter(|(at, _)| !of_movement.contains(at))
                .map(|(_, times)| times)
                .sum();
            assert_eq!(sum, of_way.count() as u64);
        }
    }

    #[test]
    fn a_kind_that_is_met_too_seldom_fails() {
        for (alter, passes) in [([0, 0], true), ([1, 0], false), ([0, 1], false)] {
            let mut tally = Tally([[3; KINDS.len()]; 2]);
            tally.0[0][kind("spanned and up")] -= alter[0];
            tally.0[1][kind("not spanned and up with the best")] -= alter[1];
            let mut report = Report::default();
            tally.report(&mut report, 3);
            assert_eq!(report.passed(), passes);
        }
    }
}
