//! Pairs of accepted outlines that are the same tree or differ in something, and what comparing gives of both: either way round,
//! and of the one with itself (document 02, §9).

use std::array;
use std::ops::Range;

use crate::call::extra;
use crate::compare::{self, differing, Comparison};
use crate::comparing::{self, CompareCall};
use crate::form::house_form;
use crate::library::{CompareBuffers, CompareObserved, Comparer};
use crate::outline::{self, bytes, taxa, Record, LOCK, RECORD_BYTES};
use crate::random::Random;
use crate::same_tree::are_same;
use crate::trees::{Change, Tree, CHANGES, EXCHANGES};
use crate::view_pairs::{sound_outline, Kind};

/// What is changed between the outlines of a pair: nothing, one thing, or two that change places. With each goes whether it is the
/// same tree after that, where this is known.
pub fn changes() -> Vec<(&'static str, Option<bool>, Change)> {
    let nothing: Change = |_, _| Some(());
    let mut changes = vec![("nothing", Some(true), nothing)];
    changes.extend(CHANGES.map(|(name, change)| (name, Some(false), change)));
    changes.extend(EXCHANGES.map(|(name, change)| (name, None, change)));
    changes
}

#[derive(Clone, Debug, PartialEq, Eq)]
pub struct Pair {
    pub one: Vec<Record>,
    pub other: Vec<Record>,
    pub change: &'static str,
    /// Whether they are the same tree, where the change tells.
    known: Option<bool>,
}

/// A call and what its comparison came to.
pub type Compared = (CompareCall, Comparison);

impl Pair {
    pub fn random(rng: &mut Random) -> Self {
        Pair::with(sound_outline(rng), rng)
    }

    /// The other is numbered anew and mostly shuffled too.
    pub fn with(one: Vec<Record>, rng: &mut Random) -> Self {
        let mut tree = Tree::of(&one);
        let (change, known) = change(&mut tree, rng);
        if !rng.one_in(4) {
            tree.shuffle(rng);
        }
        let other = tree.numbered(rng);
        Pair {
            one,
            other,
            change,
            known,
        }
    }

    /// What a program gives of both, of both the other way round, and of the one with itself in one memory.
    pub fn compared(&self, comparer: Comparer, rng: &mut Random) -> [Compared; 3] {
        let (calls, observed) = self.observed(comparer, rng);
        let against_the_laws = self.against_the_laws(&observed);
        let mut compared = array::from_fn(|at| {
            let expected = comparing::expected(&calls[at]);
            (calls[at].clone(), compare::trees(&expected, &observed[at]))
        });
        let (_, comparison) = &mut compared[0];
        comparison.differences.extend(against_the_laws);
        compared
    }

    fn observed(
        &self,
        comparer: Comparer,
        rng: &mut Random,
    ) -> ([CompareCall; 3], [CompareObserved; 3]) {
        let (one, other) = (bytes(&self.one), bytes(&self.other));
        let calls = [
            (&one, &other, None),
            (&other, &one, None),
            (&one, &one, Some(0)),
        ]
        .map(|(first, second, within)| CompareCall {
            outlines: [first.clone(), second.clone()],
            within,
            forms: [first, second].map(|outline| outline.len() + extra(rng)),
        });
        let observed = calls
            .each_ref()
            .map(|call| comparer(CompareBuffers::random(call, rng)));
        (calls, observed)
    }

    /// Where what was given does not go with the judge or not with itself. No house form but those that were given is looked at.
    fn against_the_laws(&self, [first, turned, itself]: &[CompareObserved; 3]) -> Vec<String> {
        let same = are_same(&self.one, &self.other);
        let same_turned = are_same(&self.other, &self.one);
        let (order, [form, other_form]) = (first.order(), first.forms());
        let wrong = [
            (self.known == Some(!same), "the judge is wrong"),
            (same_turned != same, "the judge is wrong one way round"),
            ((order == 0) != same, "the order is not the trees'"),
            ((form == other_form) != same, "the forms are not the trees'"),
            (
                order != comparing::order(form, other_form),
                "the order is not the forms'",
            ),
            (turned.order() != -order, "the order is not turned round"),
            (
                turned.forms() != [other_form, form],
                "the forms are not turned round",
            ),
            (
                itself.order() != 0,
                "an outline is another tree than itself",
            ),
            (
                itself.forms() != [form, form],
                "an outline has another form beside itself",
            ),
        ];
        let wrong = wrong.into_iter().filter(|(holds, _)| *holds);
        wrong.map(|(_, what)| what.to_string()).collect()
    }
}

/// Makes a change that the tree has a place for, one time in four none.
fn change(tree: &mut Tree, rng: &mut Random) -> (&'static str, Option<bool>) {
    let changes = changes();
    loop {
        let chosen = rng.pick(&[0, 1, 1, 1]) * (1 + rng.index(changes.len() - 1));
        let (name, known, change) = changes[chosen];
        if change(tree, rng).is_some() {
            return (name, known);
        }
    }
}

/// A pair beside its house forms and what they come to.
pub struct Judged {
    pair: Pair,
    forms: [Vec<u8>; 2],
    order: i32,
    /// Where both forms have another byte first: the record's position and the byte's in the record.
    parting: Option<(usize, usize)>,
}

impl Judged {
    pub fn of(pair: &Pair) -> Self {
        let forms = [&pair.one, &pair.other].map(|records| house_form(&bytes(records)));
        let differing = differing([&forms[0], &forms[1]]);
        let place = |at: &usize| (at / RECORD_BYTES, at % RECORD_BYTES);
        Judged {
            pair: pair.clone(),
            order: comparing::order(&forms[0], &forms[1]),
            parting: differing.first().map(place),
            forms,
        }
    }

    /// Whether the forms part at one of these bytes of a record for which it holds.
    fn parts(&self, by: Range<usize>, holds: impl Fn(&Record) -> bool) -> bool {
        self.parting.is_some_and(|(at, byte)| {
            by.contains(&byte) && holds(&outline::records(&self.forms[0])[at])
        })
    }

    /// The bytes that part the forms.
    fn parting_bytes(&self) -> Option<[u8; 2]> {
        let (at, byte) = self.parting?;
        let of = |form: &Vec<u8>| form[RECORD_BYTES * at + byte];
        Some(self.forms.each_ref().map(of))
    }

    /// The fields that these bytes are of.
    fn parting_fields(&self) -> Option<[u32; 2]> {
        let (at, byte) = self.parting?;
        let of = |form: &Vec<u8>| {
            let record = outline::records(form)[at];
            match byte {
                0..2 => record.next.into(),
                2..4 => record.first.into(),
                4..8 => record.length,
                8..12 => record.price,
                _ => record.plate,
            }
        };
        Some(self.forms.each_ref().map(of))
    }

    fn is_parted_by_a_lock(&self) -> bool {
        let fields = self.parting_fields();
        let lock_alone = fields.is_some_and(|[one, other]| one ^ other == LOCK);
        self.parts(15..16, |_| true) && lock_alone
    }

    fn sizes(&self) -> [usize; 2] {
        [self.pair.one.len(), self.pair.other.len()]
    }

    /// Whether this is the other way round.
    fn goes_against(&self, order: i32) -> bool {
        self.order != 0 && order == -self.order
    }
}

/// What the pairs are to come to now and then.
pub const KINDS: [Kind<Judged>; 25] = [
    ("the same bytes", |j| j.pair.one == j.pair.other),
    ("the same tree in other bytes", |j| {
        j.order == 0 && j.pair.one != j.pair.other
    }),
    ("the same tree after an exchange", |j| {
        j.order == 0 && j.pair.known.is_none()
    }),
    ("another tree after an exchange", |j| {
        j.order != 0 && j.pair.known.is_none()
    }),
    ("before", |j| j.order == -1),
    ("after", |j| j.order == 1),
    ("parted by a next", |j| j.parts(0..2, |_| true)),
    ("parted by a first", |j| j.parts(2..4, |_| true)),
    ("parted by a length", |j| j.parts(4..8, |_| true)),
    ("parted by a taxon's price", |j| {
        j.parts(8..12, Record::is_taxon)
    }),
    ("parted by a heading's price", |j| {
        j.parts(8..12, |record| !record.is_taxon())
    }),
    ("parted by a plate", |j| {
        j.parts(12..16, |_| true) && !j.is_parted_by_a_lock()
    }),
    ("parted by a lock", Judged::is_parted_by_a_lock),
    ("parted at the root", |j| {
        j.parting.is_some_and(|(at, _)| at == 0)
    }),
    ("parted at the last record", |j| {
        j.parting
            .is_some_and(|(at, _)| at > 0 && j.sizes() == [at + 1; 2])
    }),
    ("one byte that differs", |j| {
        let [one, other] = &j.forms;
        j.sizes()[0] == j.sizes()[1] && differing([one, other]).len() == 1
    }),
    ("two sizes", |j| j.sizes()[0] != j.sizes()[1]),
    ("a longer one before", |j| {
        let [one, other] = j.sizes();
        j.goes_against(one.cmp(&other) as i32)
    }),
    ("bytes against numbers", |j| {
        let fields = j.parting_fields();
        fields.is_some_and(|[one, other]| j.goes_against(one.cmp(&other) as i32))
    }),
    ("a byte above 127 that parts", |j| {
        j.parting_bytes()
            .is_some_and(|bytes| (bytes[0] > 127) != (bytes[1] > 127))
    }),
    ("outlines the other way round", |j| {
        let [one, other] = [&j.pair.one, &j.pair.other].map(|records| bytes(records));
        j.goes_against(comparing::order(&one, &other))
    }),
    ("one record", |j| j.sizes() == [1, 1]),
    ("127 records", |j| j.sizes() == [127, 127]),
    ("64 taxa", |j| taxa(&j.pair.one).len() == 64),
    ("locks", |j| j.pair.one.iter().any(Record::is_locked)),
];

#[cfg(test)]
mod tests {
    use super::*;
    use crate::rules;
    use crate::wrong_orders::{self, RIGHT};

    fn random_pairs(pairs: usize, seed: u64) -> Vec<Pair> {
        let rng = &mut Random::new(seed);
        (0..pairs).map(|_| Pair::random(rng)).collect()
    }

    #[test]
    fn random_pairs_are_accepted_and_of_every_change_and_kind() {
        let pairs = random_pairs(4_000, 1);
        for Pair { one, other, .. } in &pairs {
            let refusals = [one, other].map(|records| rules::check(&bytes(records)));
            assert_eq!(refusals, [None, None], "{one:?}, {other:?}");
        }
        for (change, ..) in changes() {
            let times = pairs.iter().filter(|pair| pair.change == change).count();
            assert!((20..2_000).contains(&times), "{change}: {times}");
        }
        let judged: Vec<Judged> = pairs.iter().map(Judged::of).collect();
        for (name, holds) in KINDS {
            let times = judged.iter().filter(|judged| holds(judged)).count();
            assert!((20..3_000).contains(&times), "{name}: {times}");
        }
    }

    #[test]
    fn a_right_program_keeps_the_laws() {
        let rng = &mut Random::new(2);
        for pair in random_pairs(500, 3) {
            for (_, comparison) in pair.compared(&RIGHT.run(), rng) {
                assert_eq!(comparison.differences, [""; 0]);
            }
        }
    }

    /// Whether a pair shows that a program is wrong, by what it gives alone.
    fn is_noticed(comparer: Comparer, pairs: &[Pair]) -> bool {
        let rng = &mut Random::new(4);
        pairs.iter().any(|pair| {
            let (_, observed) = pair.observed(comparer, rng);
            !pair.against_the_laws(&observed).is_empty()
        })
    }

    /// Any other order of forms that are right.
    #[test]
    fn another_order_is_noticed_without_what_is_expected() {
        let pairs = random_pairs(800, 5);
        assert!(!is_noticed(&RIGHT.run(), &pairs));
        for (name, program) in wrong_orders::other_orders() {
            assert!(is_noticed(&program.run(), &pairs), "{name}");
        }
    }

    /// What is dropped makes two trees one, and what depends on an outline's numbers or chains makes one tree two. Other rules by
    /// which each tree has one form, such as the largest plate's, keep the laws of pairs; a form by itself shows them.
    #[test]
    fn forms_that_do_not_tell_trees_are_noticed_without_what_is_expected() {
        let one_form = [
            "order by the whole field",
            "order by the field of the smallest plate",
            "order by the largest plate",
            "order downwards",
            "taxa after groups",
            "groups after taxa",
            "locked taxa first",
            "order by locked plates first",
            "order by a plate's first byte first",
            "order by 30 bits of a plate",
            "numbers by depth",
            "the members' numbers side by side",
        ];
        let pairs = random_pairs(400, 6);
        for (name, program) in wrong_orders::other_forms() {
            let noticed = is_noticed(&program.run(), &pairs);
            assert_eq!(noticed, !one_form.contains(&name), "{name}");
        }
    }
}
