//! The runs that revise a length.

use crate::call::{needed, Call};
use crate::compare::{self, Comparison};
use crate::damage::{repeat_plate, some_way};
use crate::expect::{self, by_exhaustive_search, is_small, Expected};
use crate::headings;
use crate::length_walks::{moves, Part};
use crate::library::{self, Buffers, ChooseObserved, ReviseBuffers, ReviseObserved, Reviser};
use crate::locks;
use crate::outline::{self, bytes, is_preorder, members, taxa, Record, LOCK, ROOTED, UNROOTED};
use crate::quick_runs::{some_count, some_outline};
use crate::random::Random;
use crate::report::{shell_line, Stop};
use crate::revise::{self, is_bad, ReviseCall, ReviseExpected, MOST_LENGTH};
use crate::revise_cases::{self, ReviseCase};
use crate::rules;
use crate::runs::Runner;
use crate::shapes;
use crate::spanning::Tally;
use crate::text_runs::{on_small_stack, SMALL_STACK};
use crate::view_pairs::Kind;
use crate::view_runs::{count, named};

/// The refusals that revising a length can give, in their order.
const REFUSALS: [usize; 11] = [1, 2, 3, 4, 5, 6, 7, 8, 16, 9, 12];

/// A revision and what is expected of it.
struct Revising {
    records: Vec<Record>,
    call: ReviseCall,
    expected: ReviseExpected,
    /// What a choice before gives; nothing on a refusal.
    old: Option<Expected>,
    /// What is expected by every subset of both outlines, where they are few.
    by_subsets: Option<ReviseExpected>,
}

impl Revising {
    fn of(call: ReviseCall, rng: &mut Random) -> Self {
        let (expected, old) = revise::expected(&call, expect::by_table);
        let few = (old.is_some() || expected.number() == 12) && is_small(&call.given);
        let mut by_subsets = || revise::expected(&call, |call| by_exhaustive_search(call, rng)).0;
        Revising {
            records: outline::records(&call.given.outline),
            by_subsets: few.then(&mut by_subsets),
            call,
            expected,
            old,
        }
    }

    fn is(&self, number: u32) -> bool {
        self.expected.number() == number
    }

    /// Whether the length is revised and it holds for its record, by position.
    fn is_at(&self, holds: impl Fn(&[Record], usize) -> bool) -> bool {
        self.is(0) && holds(&self.records, self.call.record as usize - 1)
    }

    /// Whether it is the length of a group below the root with so many members.
    fn is_group(&self, holds: fn(usize) -> bool) -> bool {
        self.is_at(|records, at| at > 0 && holds(members(records, at).len()))
    }

    /// Whether the length is revised, and it holds for the old one and the new one.
    fn goes(&self, holds: fn(u32, u32) -> bool) -> bool {
        self.is(0) && holds(self.call.old_length(), self.call.length)
    }

    fn moves(&self, way: u32, upwards: bool, part: Part) -> bool {
        self.is(0) && self.call.given.way == way && moves(self.expected.moved, upwards, part)
    }

    /// Whether it holds for the choice before and the one after, where the length is another one.
    fn has(&self, holds: fn(&Expected, &Expected) -> bool) -> bool {
        let changed = self.expected.moved[1] != 0;
        let mut old = self.old.iter();
        changed && old.any(|old| holds(old, &self.expected.choice))
    }

    fn has_locks(&self) -> bool {
        self.is(0) && locks::has_any(&self.records)
    }

    /// Whether it holds for what the buffers have more than they need, marks, curve and work.
    fn has_room(&self, holds: fn([i64; 3]) -> bool) -> bool {
        let given = &self.call.given;
        given.count <= 4_096 && {
            let needed = needed(self.records.len(), given.count);
            let more = |length: usize, needed: usize| length as i64 - needed as i64;
            holds([
                more(given.marks, needed[0]),
                more(given.curve, needed[1]),
                more(given.work, needed[2]),
            ])
        }
    }

    fn is_short(&self) -> bool {
        self.has_room(|more| more.into_iter().any(|more| more < 0))
    }

    fn has_dear_locks(&self) -> bool {
        !self.is_faulty() && locks::cost(&self.records) > self.call.given.count
    }

    fn is_faulty(&self) -> bool {
        rules::check(&self.call.given.outline).is_some()
    }

    fn is_bad(&self) -> bool {
        is_bad(&self.call, self.records.len())
    }

    /// Whether 16 is given for the record alone, and it holds for its number and that of the last one.
    fn is_no_record(&self, holds: fn(u32, u32) -> bool) -> bool {
        let last = self.records.len() as u32;
        self.is(16) && self.call.length <= MOST_LENGTH && holds(self.call.record, last)
    }

    /// Whether 16 is given for the length alone.
    fn is_too_long(&self, holds: fn(u32) -> bool) -> bool {
        let named = (1..=self.records.len()).contains(&(self.call.record as usize));
        self.is(16) && named && holds(self.call.length)
    }
}

/// Whether a number is one of a record of so many.
fn names(number: u32, last: u32) -> bool {
    number > 0 && number <= last
}

/// What the calls are to be now and then.
const KINDS: [Kind<Revising>; 79] = [
    ("the root", |r| {
        r.is_at(|records, at| at == 0 && !records[0].is_taxon())
    }),
    ("a root that is a taxon", |r| {
        r.is_at(|records, at| at == 0 && records[0].is_taxon())
    }),
    ("a group", |r| r.is_group(|members| members > 1)),
    ("a group of one", |r| r.is_group(|members| members == 1)),
    ("a taxon", |r| {
        r.is_at(|records, at| at > 0 && records[at].is_taxon())
    }),
    ("a locked taxon", |r| {
        r.is_at(|records, at| records[at].is_locked())
    }),
    ("a group above a lock", |r| {
        r.is_at(|records, at| {
            members(records, at)
                .into_iter()
                .any(|member| records[member].is_locked())
        })
    }),
    ("the last record", |r| {
        r.is_at(|records, at| at > 0 && at + 1 == records.len())
    }),
    ("the last of 127 records", |r| r.is_at(|_, at| at == 126)),
    ("a length that rises", |r| r.goes(|old, new| old < new)),
    ("a length that falls", |r| r.goes(|old, new| old > new)),
    ("a length that stays", |r| r.goes(|old, new| old == new)),
    ("0 that stays", |r| r.goes(|old, new| old == 0 && new == 0)),
    ("a rise from 0", |r| r.goes(|old, new| old == 0 && new > 0)),
    ("a fall to 0", |r| r.goes(|old, new| old > 0 && new == 0)),
    ("a rise to 1000000", |r| {
        r.goes(|old, new| old < new && new == MOST_LENGTH)
    }),
    ("a fall from 1000000", |r| {
        r.goes(|old, new| old > new && old == MOST_LENGTH)
    }),
    ("a rise by 1000000", |r| {
        r.goes(|old, new| old == 0 && new == MOST_LENGTH)
    }),
    ("a fall by 1000000", |r| {
        r.goes(|old, new| old == MOST_LENGTH && new == 0)
    }),
    ("three bytes that differ", |r| {
        r.goes(|old, new| {
            [0, 8, 16]
                .iter()
                .all(|shift| (old ^ new) >> shift & 255 != 0)
        })
    }),
    ("rooted, up by all of it", |r| {
        r.moves(ROOTED, true, Part::All)
    }),
    ("rooted, up by some of it", |r| {
        r.moves(ROOTED, true, Part::Some)
    }),
    ("rooted, up by none of it", |r| {
        r.moves(ROOTED, true, Part::None)
    }),
    ("rooted, down by all of it", |r| {
        r.moves(ROOTED, false, Part::All)
    }),
    ("rooted, down by some of it", |r| {
        r.moves(ROOTED, false, Part::Some)
    }),
    ("rooted, down by none of it", |r| {
        r.moves(ROOTED, false, Part::None)
    }),
    ("unrooted, up by all of it", |r| {
        r.moves(UNROOTED, true, Part::All)
    }),
    ("unrooted, up by some of it", |r| {
        r.moves(UNROOTED, true, Part::Some)
    }),
    ("unrooted, up by none of it", |r| {
        r.moves(UNROOTED, true, Part::None)
    }),
    ("unrooted, down by all of it", |r| {
        r.moves(UNROOTED, false, Part::All)
    }),
    ("unrooted, down by some of it", |r| {
        r.moves(UNROOTED, false, Part::Some)
    }),
    ("unrooted, down by none of it", |r| {
        r.moves(UNROOTED, false, Part::None)
    }),
    ("the same set", |r| r.has(|old, new| old.marks == new.marks)),
    ("another set", |r| r.has(|old, new| old.marks != new.marks)),
    ("another set at the same best", |r| {
        r.has(|old, new| old.marks != new.marks && old.answer[2] == new.answer[2])
    }),
    ("nothing chosen any more", |r| {
        r.has(|old, new| old.answer[4] > 0 && new.answer[4] == 0)
    }),
    ("nothing chosen before", |r| {
        r.has(|old, new| old.answer[4] == 0 && new.answer[4] > 0)
    }),
    ("a curve that moves in earlier columns only", |r| {
        r.has(|old, new| old.curve != new.curve && old.answer == new.answer)
    }),
    ("a curve that stays", |r| {
        r.has(|old, new| old.curve == new.curve)
    }),
    ("interleaved", |r| r.is(0) && !is_preorder(&r.records)),
    ("in text order", |r| r.is(0) && is_preorder(&r.records)),
    ("64 taxa", |r| r.is(0) && taxa(&r.records).len() == 64),
    ("no lock", |r| r.is(0) && !locks::has_any(&r.records)),
    ("a column that no set fits", |r| {
        r.has_locks() && locks::cost(&r.records) > 0
    }),
    ("locks that cost the page count", |r| {
        r.has_locks() && r.call.given.count > 0 && locks::cost(&r.records) == r.call.given.count
    }),
    ("a heading's price", |r| {
        r.is(0) && headings::has_any(&r.records)
    }),
    ("a page count of 0", |r| r.is(0) && r.call.given.count == 0),
    ("a page count of 4096", |r| {
        r.is(0) && r.call.given.count == 4_096
    }),
    ("just enough room", |r| {
        r.is(0) && r.has_room(|more| more == [0; 3])
    }),
    ("more room", |r| {
        r.is(0) && r.has_room(|more| more.into_iter().all(|more| more > 0))
    }),
    ("12 by one quarter", |r| {
        r.is(12) && locks::cost(&r.records) == r.call.given.count + 1
    }),
    ("12 with more room", |r| {
        r.is(12) && r.has_room(|more| more.into_iter().all(|more| more > 0))
    }),
    ("9 by one mark alone", |r| {
        r.is(9) && r.has_room(|more| more[0] == -1 && more[1] >= 0 && more[2] >= 0)
    }),
    ("9 by one curve number alone", |r| {
        r.is(9) && r.has_room(|more| more[1] == -1 && more[0] >= 0 && more[2] >= 0)
    }),
    ("9 by one work number alone", |r| {
        r.is(9) && r.has_room(|more| more[2] == -1 && more[0] >= 0 && more[1] >= 0)
    }),
    ("9 with dear locks", |r| r.is(9) && r.has_dear_locks()),
    ("9 for a length that stays", |r| {
        r.is(9) && r.call.old_length() == r.call.length
    }),
    ("16 by record 0", |r| {
        r.is_no_record(|record, _| record == 0)
    }),
    ("16 by the record after the last", |r| {
        r.is_no_record(|record, last| record == last + 1)
    }),
    ("16 by record 4294967295", |r| {
        r.is_no_record(|record, _| record == u32::MAX)
    }),
    ("16 by a record whose last byte is one", |r| {
        r.is_no_record(|record, last| names(record & 255, last))
    }),
    ("16 by a record whose last two bytes are one", |r| {
        r.is_no_record(|record, last| names(record & 65_535, last))
    }),
    ("16 by a record whose place in 32 bits is one's", |r| {
        r.is_no_record(|record, last| names(record << 4 >> 4, last) && record >> 28 != 0)
    }),
    ("16 by length 1000001", |r| {
        r.is_too_long(|length| length == MOST_LENGTH + 1)
    }),
    ("16 by length 4294967295", |r| {
        r.is_too_long(|length| length == u32::MAX)
    }),
    ("16 by a length whose last three bytes are one", |r| {
        r.is_too_long(|length| length & 0xff_ffff <= MOST_LENGTH)
    }),
    ("16 by both", |r| {
        r.is(16) && r.call.length > MOST_LENGTH && !names(r.call.record, r.records.len() as u32)
    }),
    ("16 with short buffers", |r| r.is(16) && r.is_short()),
    ("16 with dear locks", |r| r.is(16) && r.has_dear_locks()),
    ("16 with short buffers and dear locks", |r| {
        r.is(16) && r.is_short() && r.has_dear_locks()
    }),
    ("5 to 7 with a bad revision", |r| {
        (5..8).contains(&r.expected.number()) && r.is_bad()
    }),
    ("8 with a bad revision", |r| r.is(8) && r.is_bad()),
    ("5 to 8 with short buffers", |r| {
        (5..9).contains(&r.expected.number()) && r.is_short()
    }),
    ("4 by one quarter", |r| {
        r.is(4) && r.call.given.count == 4_097
    }),
    ("4 with a bad revision", |r| r.is(4) && r.is_bad()),
    ("4 with a faulty outline", |r| r.is(4) && r.is_faulty()),
    ("1 with a bad revision", |r| r.is(1) && r.is_bad()),
    ("1 with a faulty outline", |r| r.is(1) && r.is_faulty()),
    ("no outline", |r| r.call.given.outline.is_empty()),
];

/// What the calls came to.
struct Met {
    /// How often each refusal was given, and at 0 how often none.
    numbers: [u64; 17],
    kinds: [u64; KINDS.len()],
    /// How many were solved by every subset too.
    by_subsets: u64,
    /// How often the library chose before and after, and how often it refused both times.
    beside: [u64; 2],
    /// What became of the set chosen before, of every call that is not refused.
    beside_old: Tally,
}

impl Met {
    fn add(&mut self, revising: &Revising) {
        let number = revising.expected.number();
        self.numbers[number as usize] += 1;
        count(&mut self.kinds, &KINDS, revising);
        self.by_subsets += u64::from(revising.by_subsets.is_some());
        self.beside[0] += u64::from(number == 0);
        self.beside[1] += u64::from(number == 9 || number == 12);
        let Revising { call, expected, .. } = revising;
        self.beside_old.add(call, expected, revising.old.as_ref());
    }

    fn named(&self) -> [(&'static str, u64); 3] {
        [
            ("by every subset", self.by_subsets),
            ("beside two choices", self.beside[0]),
            ("beside two refusals", self.beside[1]),
        ]
    }
}

impl Runner {
    fn revise(&mut self, revising: &Revising) -> Result<(), Stop> {
        let Revising { call, expected, .. } = revising;
        let observed = library::guarded_revise(call, &mut self.rng);
        let mut comparison = compare::revise(expected, &observed);
        comparison.differences.extend(beside(revising, &observed));
        self.add_revision(call, expected, &comparison)?;
        if revising.is(0) {
            let used = after_choice(&library::revise, call, &observed);
            self.add_used_buffers(call, expected, &observed, &used)?;
        }
        Ok(())
    }

    /// As a program does that chooses first and then revises in the same buffers: that choice and the call after it.
    fn add_used_buffers(
        &mut self,
        call: &ReviseCall,
        expected: &ReviseExpected,
        fresh: &ReviseObserved,
        (old, observed): &(ChooseObserved, ReviseObserved),
    ) -> Result<(), Stop> {
        let mut comparison = compare::revise(expected, observed);
        let differences = compare::beside_used_buffers(call, old, fresh, observed);
        comparison.differences.extend(differences);
        self.add_revision(call, expected, &comparison)
    }

    pub(crate) fn add_revision(
        &mut self,
        call: &ReviseCall,
        expected: &ReviseExpected,
        comparison: &Comparison,
    ) -> Result<(), Stop> {
        let columns = expected.choice.curve.len() / 2;
        self.report.add(comparison, columns, || described(call))
    }

    pub(crate) fn revised_lengths(&mut self, calls: u64) -> Result<(), Stop> {
        self.start('F');
        let mut met = Met {
            numbers: [0; 17],
            kinds: [0; KINDS.len()],
            by_subsets: 0,
            beside: [0; 2],
            beside_old: Tally::default(),
        };
        for _ in 0..calls {
            let call = some_call(&mut self.rng);
            let revising = Revising::of(call, &mut self.rng);
            met.add(&revising);
            self.revise(&revising)?;
        }
        self.report.line(&format!(
            "F. {calls} revised lengths against the table and, where they are few, every subset, beside what the library \
             chooses before and after, and again in the buffers as the choice before leaves them"
        ));
        self.report
            .refusals("a revision", &REFUSALS, &met.numbers, calls / 200);
        self.report
            .require("a length revised", met.numbers[0], calls / 4);
        self.report
            .met("with", &named(&KINDS, met.kinds), calls / 2_000);
        self.report.met("compared", &met.named(), calls / 20);
        met.beside_old.report(&mut self.report, calls / 2_000);
        Ok(())
    }

    /// What is given is as stated, and little stack is there for it.
    pub(crate) fn stated_revisions(&mut self) -> Result<(), Stop> {
        self.start('H');
        let (cases, mut beside_old) = (revise_cases::all(), Tally::default());
        for ReviseCase { call, expected, .. } in &cases {
            let observed = on_small_stack(|| library::guarded_revise(call, &mut self.rng));
            let (_, old) = revise::expected(call, expect::by_table);
            beside_old.add(call, expected, old.as_ref());
            let mut comparison = compare::revise(expected, &observed);
            let differences = beside_old_choices(call, old.as_ref(), &observed);
            comparison.differences.extend(differences);
            self.add_revision(call, expected, &comparison)?;
            if expected.number() == 0 {
                let used = on_small_stack(|| after_choice(&library::revise, call, &observed));
                self.add_used_buffers(call, expected, &observed, &used)?;
            }
        }
        self.report.line(&format!(
            "H. {} revisions worked by hand, beside the choice before, and again in the buffers as that choice leaves them, on a \
             stack of {SMALL_STACK} bytes",
            cases.len()
        ));
        beside_old.report(&mut self.report, 1);
        Ok(())
    }
}

/// Where the table does not go with every subset, or what was observed with what the library chooses before and after, with what is
/// promised of a movement, or with what is promised beside the old choice.
fn beside(revising: &Revising, observed: &ReviseObserved) -> Vec<String> {
    let Revising {
        call,
        expected,
        old,
        by_subsets,
        ..
    } = revising;
    let mut differences = Vec::new();
    if by_subsets
        .as_ref()
        .is_some_and(|by_subsets| by_subsets != expected)
    {
        differences.push(format!("every subset: {by_subsets:?}"));
    }
    if [0, 9, 12].contains(&expected.number()) {
        differences.extend(beside_library(call, observed));
    }
    differences.extend(beside_old_choices(call, old.as_ref(), observed));
    differences
}

/// The library chooses in buffers that are as they were before the call.
fn beside_library(call: &ReviseCall, observed: &ReviseObserved) -> Vec<String> {
    let mut buffers = observed.chosen.before.clone();
    let old = old_choice(call, &buffers);
    buffers.outline.write(&call.revised().outline);
    let new = library::choose_in(call.given.count, call.given.way, buffers);
    let mut differences = compare::beside_choices(observed, &old, &new);
    differences.extend(compare::beyond_length(observed));
    differences
}

/// What the library chooses from the outline before, in buffers as they were before the call.
fn old_choice(call: &ReviseCall, buffers: &Buffers) -> ChooseObserved {
    library::choose_in(call.given.count, call.given.way, buffers.clone())
}

/// That choice, and the call in the buffers as it leaves them.
fn after_choice(
    reviser: Reviser,
    call: &ReviseCall,
    fresh: &ReviseObserved,
) -> (ChooseObserved, ReviseObserved) {
    let old = old_choice(call, &fresh.chosen.before);
    let before = ReviseBuffers {
        choice: old.after.clone(),
        moved: fresh.moved_before.clone(),
    };
    let again = reviser(call, before);
    (old, again)
}

/// Where what was observed does not go with the choice before, as it is expected or, if that is another one, as the library makes it.
/// On a refusal there is none, and nothing to go with.
pub(crate) fn beside_old_choices(
    call: &ReviseCall,
    expected: Option<&Expected>,
    observed: &ReviseObserved,
) -> Vec<String> {
    let Some(expected) = expected else {
        return Vec::new();
    };
    let chosen = old_choice(call, &observed.chosen.before);
    let mut differences = compare::beside_old_set(call, &expected.marks, observed);
    let old = chosen.marks(call.records());
    if old != expected.marks {
        differences.extend(compare::beside_old_set(call, old, observed));
    }
    differences
}

/// Beyond this the buffers would cost more time than they show.
const MOST_WORK: usize = 200_000;

/// A call of any outline, record, length, page count, way and lengths of the buffers.
fn some_call(rng: &mut Random) -> ReviseCall {
    let (outline, count) = some_revised_outline(rng);
    let records = outline::records(&outline);
    let mut given = Call::roomy(outline, count.min(4_096), some_way(rng), rng);
    if rng.one_in(8) {
        given.shorten(rng);
    }
    if given.work > MOST_WORK {
        given.work = rng.index(100);
    }
    given.count = count;
    let record = some_record(records.len() as u32, rng);
    let at = (record as usize).saturating_sub(1);
    ReviseCall {
        given,
        record,
        length: some_length(&records, at, rng),
    }
}

/// Mostly sound, often one whose best set changes soon, at times with a plate that is there twice. With a page count.
fn some_revised_outline(rng: &mut Random) -> (Vec<u8>, u32) {
    match rng.below(40) {
        0 => {
            let (mut records, count) = outline_of_many_lengths(rng);
            repeat_plate(&mut records, rng);
            (bytes(&records), count)
        }
        1..10 => {
            let (records, count) = outline_of_many_lengths(rng);
            (bytes(&records), count)
        }
        _ => {
            let (outline, count) = some_outline(rng);
            let count = some_count(&outline, count, rng);
            (outline, count)
        }
    }
}

/// Up to 10 taxa, for a page count that has room for some of them, at times with headings and locks.
pub(crate) fn outline_of_many_lengths(rng: &mut Random) -> (Vec<Record>, u32) {
    let taxa = 2 + rng.index(9);
    let mut records = shapes::random_outline(taxa, 24, rng);
    shapes::fill(
        &mut records,
        rng,
        |rng| rng.up_to(99),
        |rng| 1 + rng.up_to(3),
    );
    if rng.one_in(3) {
        headings::fill(&mut records, rng, |rng| rng.up_to(2));
    }
    let count = 1 + rng.up_to(taxa as u32 + 4);
    if rng.one_in(4) {
        return (records, count);
    }
    let count = locks::fill_at_times(&mut records, count, 40, rng);
    (records, count)
}

/// Mostly a record's number, often the first or the last one; else one that is none.
fn some_record(last: u32, rng: &mut Random) -> u32 {
    let any = 1 + rng.index(last.max(1) as usize) as u32;
    match rng.below(24) {
        0 => 0,
        1 => last + 1,
        2 => rng.pick(&[
            last + 2,
            128,
            256,
            256 + any,
            65_536 + any,
            (1 << 24) + any,
            (1 << 28) + any,
            LOCK + any,
            u32::MAX - any,
            u32::MAX,
            u32::MAX,
        ]),
        3..6 => 1,
        6 | 7 => last,
        8..12 if last == 127 => last,
        _ => any,
    }
}

/// Mostly a length, often near one that is there; else one that is too great.
fn some_length(records: &[Record], at: usize, rng: &mut Random) -> u32 {
    match rng.below(24) {
        0 => MOST_LENGTH + 1,
        1 => rng.pick(&[
            MOST_LENGTH + 2,
            1 << 20,
            1 << 24,
            (1 << 24) + 5,
            LOCK + 5,
            u32::MAX - 3,
            u32::MAX,
            u32::MAX,
        ]),
        _ => near_length(records, at, rng),
    }
}

/// None, the most, as it is, a little more or less than it or than another one, up to twice as much, few, or any.
pub(crate) fn near_length(records: &[Record], at: usize, rng: &mut Random) -> u32 {
    let length = |at: usize| records.get(at).map_or(0, |record| record.length);
    let (own, other) = (length(at), length(rng.index(records.len().max(1))));
    let few = 1 + rng.up_to(3);
    let near = match rng.below(20) {
        0..4 => 0,
        4 => MOST_LENGTH,
        5 => own,
        6..9 => own.saturating_add(few),
        9..12 => own.saturating_sub(few),
        12 => other.saturating_add(few),
        13..17 => rng.up_to(own.max(other).saturating_mul(2)),
        17 | 18 => rng.up_to(12),
        _ => rng.up_to(MOST_LENGTH),
    };
    near.min(MOST_LENGTH)
}

fn described(call: &ReviseCall) -> String {
    let ReviseCall {
        given,
        record,
        length,
    } = call;
    format!(
        "revise record {record} to length {length} with page count {}, way {}, {} marks, {} curve numbers, {} work numbers\n  {}",
        given.count,
        given.way,
        given.marks,
        given.curve,
        given.work,
        shell_line(given.count, given.way, &given.outline)
    )
}

#[cfg(test)]
mod tests {
    use super::*;
    use crate::wrong_revisions::{self, Program, RIGHT};

    #[test]
    fn every_kind_is_stated_and_is_not_every_call() {
        let rng = &mut Random::new(1);
        let stated: Vec<Revising> = revise_cases::all()
            .into_iter()
            .map(|case| Revising::of(case.call, rng))
            .collect();
        for (name, holds) in KINDS {
            let times = stated.iter().filter(|revising| holds(revising)).count();
            assert!((1..stated.len()).contains(&times), "{name}: {times}");
        }
    }

    type Expectation = (ReviseCall, ReviseExpected);

    fn stated() -> Vec<Expectation> {
        let both = |case: ReviseCase| (case.call, case.expected);
        revise_cases::all().into_iter().map(both).collect()
    }

    /// The largest take long and show no more.
    fn stated_but_for_the_largest() -> Vec<Expectation> {
        let mut stated = stated();
        stated.retain(|(call, _)| call.given.count < 4_000);
        stated
    }

    /// By the table.
    fn random(calls: usize) -> Vec<Expectation> {
        let rng = &mut Random::new(1);
        let some = |_| {
            let call = some_call(rng);
            let (expected, _) = revise::expected(&call, expect::by_table);
            (call, expected)
        };
        (0..calls).map(some).collect()
    }

    /// Of these calls those that are refused or have few subsets, by every subset.
    fn by_subsets(calls: &[Expectation]) -> Vec<Expectation> {
        let rng = &mut Random::new(2);
        let mut few = calls.to_vec();
        few.retain(|(call, expected)| {
            ![0, 12].contains(&expected.number()) || is_small(&call.given)
        });
        for (call, expected) in &mut few {
            *expected = revise::expected(call, |call| by_exhaustive_search(call, rng)).0;
        }
        few
    }

    fn is_noticed(reviser: Reviser, calls: &[Expectation]) -> bool {
        let rng = &mut Random::new(3);
        calls.iter().any(|(call, expected)| {
            let observed = reviser(call, ReviseBuffers::random(call, rng));
            !compare::revise(expected, &observed).differences.is_empty()
        })
    }

    #[test]
    fn wrong_programs_are_noticed_and_a_right_one_is_not() {
        let random = random(4_000);
        for calls in [stated(), by_subsets(&random), random] {
            assert!(!is_noticed(&RIGHT.run(), &calls));
            for (name, program) in wrong_revisions::all() {
                assert!(is_noticed(&program.run(), &calls), "{name}");
            }
        }
    }

    /// Whether accepted calls show by themselves, without what is expected, that a program is wrong.
    fn is_noticed_beside(program: Program, calls: &[Expectation]) -> bool {
        let rng = &mut Random::new(4);
        let program = program.run();
        calls.iter().any(|(call, expected)| {
            let is_accepted = [0, 9, 12].contains(&expected.number());
            let mut observed = || program(call, ReviseBuffers::random(call, rng));
            is_accepted && !beside_library(call, &observed()).is_empty()
        })
    }

    #[test]
    fn what_does_not_go_with_the_library_is_noticed_without_what_is_expected() {
        let calls = random(1_000);
        assert!(!is_noticed_beside(RIGHT, &calls));
        for (name, program) in wrong_revisions::named(&SHOWN_BY_THE_LIBRARY) {
            assert!(is_noticed_beside(program, &calls), "{name}");
        }
    }

    /// Wrong programs that do not go with two choices of the library.
    const SHOWN_BY_THE_LIBRARY: [&str; 22] = [
        "stored at the record after",
        "stored at the record before",
        "stored in bytes 8 to 11, the price",
        "the two low bytes stored",
        "nothing stored",
        "the old best at one quarter less",
        "the old best in the other way",
        "the new choice in the other way",
        "both the other way round",
        "best and length exchanged",
        "the best's in size only",
        "the movement of the set before",
        "the movement of the set after",
        "the last record refused",
        "1,000,000 refused",
        "12 before 16",
        "the old choice left",
        "the old marks left",
        "the old curve left",
        "work left as it came",
        "marks cleared on a refusal by 12",
        "the movement left on a refusal by 12",
    ];

    /// Whether the set that the library chooses before shows by itself that a program is wrong, without what is expected and without
    /// a choice from the revised outline.
    fn is_noticed_beside_old(program: Program, calls: &[Expectation]) -> bool {
        let rng = &mut Random::new(7);
        let program = program.run();
        calls.iter().any(|(call, _)| {
            let before = ReviseBuffers::random(call, rng);
            let old = old_choice(call, &before.choice);
            let differences = || {
                let old = old.marks(call.records());
                compare::beside_old_set(call, old, &program(call, before))
            };
            old.returned == 0 && !is_bad(call, call.records()) && !differences().is_empty()
        })
    }

    #[test]
    fn what_breaks_a_promise_is_noticed_by_the_old_set_alone_and_what_keeps_both_is_not() {
        for calls in [stated_but_for_the_largest(), random(2_000)] {
            assert!(!is_noticed_beside_old(RIGHT, &calls));
            for (name, program) in wrong_revisions::named(&SHOWN_BY_THE_OLD_SET) {
                assert!(is_noticed_beside_old(program, &calls), "{name}");
            }
            for (name, program) in wrong_revisions::named(&WRONG_BEYOND_THE_PROMISES) {
                assert!(!is_noticed_beside_old(program, &calls), "{name}");
            }
        }
    }

    /// Wrong programs that move the best otherwise than is promised of the old set, choose another one or tell another one's numbers.
    const SHOWN_BY_THE_OLD_SET: [&str; 52] = [
        "stored at the record after",
        "stored at the record before",
        "stored in bytes 8 to 11, the price",
        "stored in bytes 12 to 15, the plate",
        "stored a byte too far",
        "the low byte stored",
        "the two low bytes stored",
        "nothing stored",
        "added to the old length",
        "the smaller length stored",
        "groups left as they are",
        "taxa left as they are",
        "the root left as it is",
        "locked taxa left as they are",
        "stored at every record",
        "stored at the taxon of that number",
        "the old best at one quarter more",
        "the old best at one quarter less",
        "the old best at 4,096 quarters",
        "the old best at no quarter",
        "the old best in the other way",
        "the old best without locks",
        "the new choice at one quarter less",
        "the new choice in the other way",
        "the new choice without locks",
        "both the other way round",
        "the best's the other way round",
        "best and length exchanged",
        "the new numbers",
        "the old numbers",
        "the new best for its movement",
        "the cost's movement",
        "the movement of the number of taxa",
        "the spare's movement",
        "16 bits with a sign",
        "the length's movement for both",
        "no movement",
        "no movement of the best",
        "the rooted movement",
        "no movement of the best upwards",
        "one less where a spanned length rises",
        "one less where a length falls that is not spanned",
        "the length's movement where one falls that is not spanned",
        "the length's movement where the set is the same",
        "the old choice left",
        "the old answer given",
        "the old diversity given",
        "32 bits of each movement written",
        "a tie broken otherwise",
        "as much diversity for more quarters",
        "the old best as the answer came",
        "marks added to those that came",
    ];

    /// Wrong programs that keep to both promises.
    const WRONG_BEYOND_THE_PROMISES: [&str; 13] = [
        "no movement downwards",
        "no movement where the set is another",
        "the movement of the set before",
        "the movement of the set after",
        "the length's movement wherever it is spanned",
        "no movement wherever a length is not spanned",
        "the old marks left",
        "the old set left wherever it spans the branch",
        "the old set left wherever it does not span the branch",
        "the old set left where the length rises",
        "the old set left where the length falls",
        "the old set left where it is to stay by the rooted words",
        "the old set left where it is to stay by the unrooted words",
    ];

    /// Whether a call in the buffers that the choice before has left shows that a program is wrong.
    fn is_noticed_after_choice(program: Program, calls: &[Expectation]) -> bool {
        let rng = &mut Random::new(8);
        let program = program.run();
        let mut accepted = calls.iter().filter(|(_, expected)| expected.number() == 0);
        accepted.any(|(call, _)| {
            let fresh = program(call, ReviseBuffers::random(call, rng));
            let (old, again) = after_choice(&program, call, &fresh);
            !compare::beside_used_buffers(call, &old, &fresh, &again).is_empty()
        })
    }

    #[test]
    fn what_goes_wrong_in_used_buffers_alone_is_noticed_there() {
        for mut calls in [stated_but_for_the_largest(), random(4_000)] {
            // fewer marks may be a set as they come
            calls.retain(|(call, _)| call.records() > 3);
            assert!(!is_noticed_after_choice(RIGHT, &calls));
            for (name, program) in wrong_revisions::in_used_buffers() {
                assert!(!is_noticed(&program.run(), &calls), "{name}");
                assert!(is_noticed_after_choice(program, &calls), "{name}");
            }
        }
    }

    #[test]
    fn subsets_that_come_to_something_else_are_noticed() {
        let rng = &mut Random::new(6);
        let case = revise_cases::all().swap_remove(0);
        let mut revising = Revising::of(case.call, rng);
        let before = ReviseBuffers::random(&revising.call, rng);
        let observed = RIGHT.run()(&revising.call, before);
        assert_eq!(beside(&revising, &observed), [""; 0]);
        let by_subsets = revising.by_subsets.as_mut().expect("few subsets");
        by_subsets.moved[0] += 1;
        assert_eq!(beside(&revising, &observed).len(), 1);
    }

    /// {4, 5} for {3, 5} of tree A, whose root is revised: that goes with another old choice, and not with the library's.
    #[test]
    fn a_set_that_does_not_go_with_an_old_choice_is_told_once() {
        let rng = &mut Random::new(9);
        let case = revise_cases::all().swap_remove(1);
        let mut revising = Revising::of(case.call, rng);
        let before = ReviseBuffers::random(&revising.call, rng);
        let mut observed = RIGHT.run()(&revising.call, before);
        let other = vec![0, 0, 0, 1, 1];
        let after = &mut observed.chosen.after;
        after.marks.write(&other);
        after.answer.write(&[0, 0, 17, 3, 2, 2]);
        let mut told = |old: Vec<u8>| {
            revising.old.as_mut().expect("a choice before").marks = old;
            beside_old_choices(&revising.call, revising.old.as_ref(), &observed).len()
        };
        // the marks and the answer
        assert_eq!(told(vec![0, 0, 1, 0, 1]), 2);
        assert_eq!(told(other), 2);
        assert_eq!(told(vec![0, 0, 1, 1, 0]), 4);
    }

    /// {4, 5} for {3, 5} of tree A, whose root is revised: that is spanned by both.
    #[test]
    fn an_old_choice_that_is_another_one_is_noticed() {
        let rng = &mut Random::new(9);
        let case = revise_cases::all().swap_remove(1);
        let mut revising = Revising::of(case.call, rng);
        let before = ReviseBuffers::random(&revising.call, rng);
        let observed = RIGHT.run()(&revising.call, before);
        assert_eq!(beside(&revising, &observed), [""; 0]);
        let old = revising.old.as_mut().expect("a choice before");
        old.marks = vec![0, 0, 0, 1, 1];
        assert_eq!(beside(&revising, &observed).len(), 2);
    }

    #[test]
    fn outlines_of_many_lengths_are_accepted_and_often_too_dear_to_choose_all() {
        let rng = &mut Random::new(5);
        let (mut some, mut locked, mut headed) = (0, 0, 0);
        for _ in 0..1_000 {
            let (records, count) = outline_of_many_lengths(rng);
            assert_eq!(rules::check(&bytes(&records)), None, "{records:?}");
            let all: u32 = records.iter().map(|record| record.price).sum();
            some += u32::from(locks::cost(&records) < count && count < all);
            locked += u32::from(locks::has_any(&records));
            headed += u32::from(headings::has_any(&records));
        }
        assert!(
            some > 500 && locked > 200 && headed > 200,
            "{some}, {locked}, {headed}"
        );
    }
}
