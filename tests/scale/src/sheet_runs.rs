//! The runs that list marked sets.

use crate::call::{extra, short, Call};
use crate::compare;
use crate::damage;
use crate::expect::{self, Expected};
use crate::library::{self, ChooseObserved};
use crate::outline::{self, bytes, is_preorder, taxa, Record, RECORD_BYTES, ROOTED, UNROOTED};
use crate::random::Random;
use crate::report::{shell_line, Stop};
use crate::rules;
use crate::runs::{self, Runner, WAYS};
use crate::shapes;
use crate::sheet::{self, SheetCall, SheetExpected, CAUSES, ROW};
use crate::sheet_cases;
use crate::tally::Tally;
use crate::text_runs::{on_small_stack, SMALL_STACK};

/// The refusals that listing can give, in their order.
const REFUSALS: [usize; 9] = [1, 2, 3, 5, 6, 7, 8, 14, 9];

/// A listing call and what is expected of it.
struct Listing {
    records: Vec<Record>,
    call: SheetCall,
    expected: SheetExpected,
}

impl Listing {
    fn of(call: SheetCall) -> Self {
        Listing {
            records: outline::records(&call.outline),
            expected: sheet::expected(&call),
            call,
        }
    }

    fn is(&self, number: u32) -> bool {
        self.expected.answer[0] == number
    }

    /// Whether it is listed and has so many rows.
    fn has(&self, rows: usize) -> bool {
        self.is(0) && self.chosen().len() == rows
    }

    /// Whether it is listed in this way.
    fn goes(&self, way: u32) -> bool {
        self.is(0) && self.call.way == way
    }

    fn chosen(&self) -> Vec<usize> {
        sheet::chosen(&self.records, &self.call.marks)
    }

    fn needed(&self) -> usize {
        sheet::needed(&self.records, &self.call.marks)
    }

    /// The chosen records of a listed set with their rows.
    fn rows(&self) -> impl Iterator<Item = (Record, &[u32])> {
        let chosen = self.chosen().into_iter().map(|at| self.records[at]);
        chosen.zip(self.expected.sheet.chunks(ROW))
    }

    /// How many marks of records are bad, among those that there are.
    fn bad_marks(&self) -> usize {
        let marked = self.records.iter().zip(&self.call.marks);
        marked
            .filter(|(record, &mark)| sheet::is_bad(record, mark))
            .count()
    }

    /// What stands behind the marks of the records.
    fn behind(&self) -> &[u8] {
        self.call.marks.get(self.records.len()..).unwrap_or(&[])
    }

    fn has_too_few_marks(&self) -> bool {
        self.call.marks.len() < self.records.len()
    }

    /// Whether it is refused by 14 and the mark at the place has this cause.
    fn is_bad_by(&self, cause: usize) -> bool {
        let place = self.expected.answer[1] as usize;
        self.is(14)
            && place > 0
            && CAUSES[cause].1(&self.records[place - 1], self.call.marks[place - 1])
    }

    /// Whether unrooted a row from the third on adds more than it would rooted: a branch above earlier taxa counts from it on.
    fn completes_a_branch(&self) -> bool {
        if !self.goes(UNROOTED) {
            return false;
        }
        let rooted = sheet::rows(&self.records, ROOTED, &self.call.marks);
        let mut pairs = self.rows().zip(rooted).skip(2);
        pairs.any(|((_, row), rooted)| row[2] > rooted[2])
    }
}

type Kind = (&'static str, fn(&Listing) -> bool);

/// What the calls are to be now and then.
const KINDS: [Kind; 40] = [
    ("rooted", |l| l.goes(ROOTED)),
    ("unrooted", |l| l.goes(UNROOTED)),
    ("interleaved", |l| l.is(0) && !is_preorder(&l.records)),
    ("in text order", |l| l.is(0) && is_preorder(&l.records)),
    ("127 records", |l| l.is(0) && l.records.len() == 127),
    ("no row", |l| l.has(0)),
    ("one row, unrooted", |l| l.has(1) && l.goes(UNROOTED)),
    ("64 rows", |l| l.has(64)),
    ("every taxon", |l| l.has(taxa(&l.records).len())),
    ("some taxa only", |l| {
        l.is(0) && (1..taxa(&l.records).len()).contains(&l.chosen().len())
    }),
    ("a first row that opens a heading", |l| {
        let mut first = l.rows().take(1);
        first.any(|(taxon, row)| row[1] > taxon.price)
    }),
    ("a later row that opens a heading", |l| {
        let mut later = l.rows().skip(1);
        later.any(|(taxon, row)| row[1] > taxon.price)
    }),
    ("a later row that completes a branch", |l| {
        l.completes_a_branch()
    }),
    ("a lock listed", |l| {
        l.rows().any(|(taxon, _)| taxon.is_locked())
    }),
    ("a lock left out", |l| {
        let listed = l.rows().filter(|(taxon, _)| taxon.is_locked()).count();
        l.is(0) && listed < l.records.iter().filter(|record| record.is_locked()).count()
    }),
    ("a cost above any page count", |l| {
        l.expected.answer[3] > 4_096
    }),
    ("just enough room", |l| {
        l.is(0) && !l.has(0) && l.call.sheet == l.needed()
    }),
    ("more room", |l| l.is(0) && l.call.sheet > l.needed()),
    ("no row and no room", |l| l.has(0) && l.call.sheet == 0),
    ("as many marks as records", |l| {
        l.is(0) && l.call.marks.len() == l.records.len()
    }),
    ("a 1 behind the marks", |l| {
        l.is(0) && l.behind().contains(&1)
    }),
    ("another byte behind the marks", |l| {
        l.is(0) && l.behind().iter().any(|&byte| byte > 1)
    }),
    ("marks in the outline", |l| {
        l.is(0) && l.call.within.is_some()
    }),
    ("14 by too few marks", |l| l.is(14) && l.has_too_few_marks()),
    ("14 by one mark too few", |l| {
        l.is(14) && l.call.marks.len() + 1 == l.records.len()
    }),
    ("14 by no marks", |l| l.is(14) && l.call.marks.is_empty()),
    ("14 by too few marks with a bad one", |l| {
        l.is(14) && l.has_too_few_marks() && l.bad_marks() > 0
    }),
    ("14 by a mark neither 0 nor 1", |l| l.is_bad_by(0)),
    ("14 by a 1 at a group", |l| l.is_bad_by(1)),
    ("14 at the last record", |l| {
        l.is(14) && l.expected.answer[1] as usize == l.records.len()
    }),
    ("14 by several marks", |l| {
        l.is(14) && !l.has_too_few_marks() && l.bad_marks() > 1
    }),
    ("14 with a short sheet", |l| {
        l.is(14) && l.call.sheet < l.needed()
    }),
    ("14 by marks in the outline", |l| {
        l.is(14) && l.call.within.is_some()
    }),
    ("9 by one number", |l| {
        l.is(9) && l.call.sheet + 1 == l.needed()
    }),
    ("9 with room for a row", |l| l.is(9) && l.call.sheet >= ROW),
    ("9 without room", |l| l.is(9) && l.call.sheet == 0),
    ("1 with a faulty outline", |l| {
        l.is(1) && rules::check(&l.call.outline).is_some()
    }),
    ("1 with bad marks", |l| l.is(1) && l.bad_marks() > 0),
    ("a faulty outline with bad marks", |l| {
        (2..=8).contains(&l.expected.answer[0]) && l.bad_marks() > 0
    }),
    ("a faulty outline with a short sheet", |l| {
        (2..=8).contains(&l.expected.answer[0]) && l.call.sheet < l.needed()
    }),
];

impl Runner {
    fn list(&mut self, call: &SheetCall, expected: &SheetExpected) -> Result<(), Stop> {
        let observed = library::guarded_sheet(call, &mut self.rng);
        let comparison = compare::sheet(expected, &observed);
        self.report.add(&comparison, 0, || described(call))
    }

    pub(crate) fn marked_sets(&mut self, sets: u64) -> Result<(), Stop> {
        self.start('o');
        let mut numbers = [0; 15];
        let mut times = [0; KINDS.len()];
        for _ in 0..sets {
            let listing = Listing::of(some_call(&mut self.rng));
            numbers[listing.expected.answer[0] as usize] += 1;
            for (count, (_, holds)) in times.iter_mut().zip(KINDS) {
                *count += u64::from(holds(&listing));
            }
            self.list(&listing.call, &listing.expected)?;
        }
        self.report.line(&format!("o. {sets} marked sets listed"));
        self.report
            .refusals("a marked set", &REFUSALS, &numbers, sets / 200);
        self.report
            .require("a marked set listed", numbers[0], sets / 4);
        let named: Vec<_> = KINDS.iter().map(|(name, _)| *name).zip(times).collect();
        self.report.met("with", &named, sets / 1_000);
        Ok(())
    }

    pub(crate) fn listed_choices(&mut self, small: u64, larger: u64) -> Result<(), Stop> {
        self.start('p');
        let mut tally = Tally::default();
        let (mut listed, mut empty, mut longer) = (0, 0, 0);
        for turn in 0..small + larger {
            let (records, count) = if turn < small {
                runs::small_outline(&mut self.rng)
            } else {
                runs::larger_outline(&mut self.rng)
            };
            tally.add(&records);
            for way in WAYS {
                let call = Call::roomy(bytes(&records), count, way, &mut self.rng);
                let choice = expect::by_table(&call);
                let observed = self.choose(&call, &choice)?;
                tally.add_call(&records, &choice);
                if choice.answer[0] != 0 {
                    continue;
                }
                listed += 1;
                empty += u64::from(choice.answer[4] == 0);
                longer += u64::from(call.marks > records.len());
                self.list_choice(&call, &choice, &observed)?;
            }
        }
        self.report.line(&format!(
            "p. {small} small outlines and {larger} larger ones chosen from in both ways, and {listed} choices listed \
             ({empty} empty, {longer} with more marks than records)"
        ));
        let least = small / 10;
        for (what, times) in [
            ("a choice listed", listed - empty),
            ("an empty choice listed", empty),
            ("a choice with just as many marks", listed - longer),
            ("a choice with more marks", longer),
        ] {
            self.report.require(what, times, least);
        }
        self.report.tally("outlines chosen from", &tally);
        Ok(())
    }

    /// Lists what was chosen, by the marks as they were left and with just enough room. The answer is to be the choice's.
    fn list_choice(
        &mut self,
        call: &Call,
        choice: &Expected,
        observed: &ChooseObserved,
    ) -> Result<(), Stop> {
        let [_, _, diversity, cost, taxa, _] = choice.answer;
        let call = SheetCall {
            outline: call.outline.clone(),
            way: call.way,
            marks: observed.after.marks.content().to_vec(),
            within: None,
            sheet: ROW * taxa as usize,
        };
        let mut expected = sheet::expected(&call);
        expected.answer = [0, 0, taxa, cost, diversity];
        self.list(&call, &expected)
    }

    /// What is given is as stated, and little stack is there for it.
    pub(crate) fn stated_sheets(&mut self) -> Result<(), Stop> {
        self.start('q');
        let cases = sheet_cases::all();
        for case in &cases {
            let observed = on_small_stack(|| library::guarded_sheet(&case.call, &mut self.rng));
            let comparison = compare::sheet(&case.expected, &observed);
            self.report.add(&comparison, 0, || described(&case.call))?;
        }
        self.report.line(&format!(
            "q. {} sheets worked by hand, on a stack of {SMALL_STACK} bytes",
            cases.len()
        ));
        Ok(())
    }
}

/// A call of any outline and any marks.
fn some_call(rng: &mut Random) -> SheetCall {
    let outline = some_outline(rng);
    let records = outline::records(&outline);
    let (marks, within) = if rng.one_in(12) {
        let (marks, at) = part_of(&outline, rng);
        (marks, Some(at))
    } else {
        (some_marks(&records, rng), None)
    };
    let needed = sheet::needed(&records, &marks);
    SheetCall {
        outline,
        way: damage::some_way(rng),
        marks,
        within,
        sheet: if rng.one_in(6) {
            short(needed, rng)
        } else {
            needed + extra(rng)
        },
    }
}

/// Mostly sound, and at times with headings and locks; else with too many records or taxa, or damaged.
pub(crate) fn some_outline(rng: &mut Random) -> Vec<u8> {
    match rng.below(8) {
        0 | 1 => damage::damaged_outline(40, rng).0,
        2 => bytes(&runs::larger_outline(rng).0),
        3 => bytes(&runs::full_outline(rng.below(840), rng).0),
        4 => {
            let mut records = damage::any_size(rng);
            shapes::fill_randomly(&mut records, 40, rng);
            bytes(&records)
        }
        _ => bytes(&runs::small_outline(rng).0),
    }
}

/// A set's marks: at times damaged, and at times too few or with bytes behind them.
fn some_marks(records: &[Record], rng: &mut Random) -> Vec<u8> {
    let mut marks = some_set(records, rng);
    if rng.one_in(5) && !records.is_empty() {
        for _ in 0..1 + rng.below(3) {
            damage_mark(records, &mut marks, rng);
        }
    }
    match rng.below(8) {
        0 => marks.truncate(short(records.len(), rng)),
        1..5 => {
            let behind = 1 + rng.index(20);
            marks.extend((0..behind).map(|_| rng.pick(&[0, 1, 1, 2, 255])));
        }
        _ => {}
    }
    marks
}

/// No taxon, one, some, all but one or all, by their marks.
fn some_set(records: &[Record], rng: &mut Random) -> Vec<u8> {
    let mut some = taxa(records);
    rng.shuffle(&mut some);
    let all = some.len();
    some.truncate(match rng.below(8) {
        0 => 0,
        1 => 1,
        2 => all,
        3 => all.saturating_sub(1),
        _ => rng.index(all + 1),
    });
    let mut marks = vec![0; records.len()];
    for taxon in some {
        marks[taxon] = 1;
    }
    marks
}

/// Neither 0 nor 1, or 1 at a group.
fn damage_mark(records: &[Record], marks: &mut [u8], rng: &mut Random) {
    let at = rng.index(records.len());
    marks[at] = if !records[at].is_taxon() && rng.one_in(2) {
        1
    } else {
        rng.pick(&[2, 3, 127, 128, 129, 254, 255])
    };
}

/// Bytes of the outline itself, mostly one for each record, and at which byte they begin.
fn part_of(outline: &[u8], rng: &mut Random) -> (Vec<u8>, usize) {
    let at = rng.index(outline.len() + 1);
    let behind = outline.len() - at;
    let len = if rng.one_in(4) {
        behind
    } else {
        behind.min(outline.len() / RECORD_BYTES)
    };
    (outline[at..][..len].to_vec(), at)
}

fn described(call: &SheetCall) -> String {
    format!(
        "list to {} numbers with way {} and marks {:?}{}\n  {}",
        call.sheet,
        call.way,
        call.marks,
        call.within
            .map_or(String::new(), |at| format!(", byte {at} of the outline on")),
        shell_line(0, call.way, &call.outline)
    )
}

#[cfg(test)]
mod tests {
    use super::*;
    use crate::cases::tree_a;

    #[test]
    fn every_kind_is_stated_and_is_not_every_call() {
        let stated: Vec<Listing> = sheet_cases::all()
            .into_iter()
            .map(|case| Listing::of(case.call))
            .collect();
        for (name, holds) in KINDS {
            let times = stated.iter().filter(|listing| holds(listing)).count();
            assert!((1..stated.len() / 2).contains(&times), "{name}: {times}");
        }
    }

    #[test]
    fn a_set_has_taxa_only() {
        let rng = &mut Random::new(1);
        let mut times = [0; 4];
        for _ in 0..1_000 {
            let marks = some_set(&tree_a(), rng);
            assert_eq!((marks.len(), &marks[..2]), (5, &[0, 0][..]));
            assert!(marks.iter().all(|&mark| mark <= 1));
            times[marks.iter().filter(|&&mark| mark == 1).count()] += 1;
        }
        assert!(times.iter().all(|&times| times > 100), "{times:?}");
        assert_eq!(some_set(&[], rng), []);
    }

    #[test]
    fn a_damaged_mark_is_bad() {
        let rng = &mut Random::new(2);
        let mut ones = 0;
        for _ in 0..500 {
            let mut marks = vec![0; 5];
            damage_mark(&tree_a(), &mut marks, rng);
            let at = marks.iter().position(|&mark| mark != 0).expect("a mark");
            assert!(sheet::is_bad(&tree_a()[at], marks[at]), "{marks:?}");
            ones += u32::from(marks[at] == 1);
        }
        assert!((50..200).contains(&ones), "{ones}");
    }

    #[test]
    fn a_part_of_an_outline_is_where_it_is_said_to_be() {
        let rng = &mut Random::new(3);
        let outline = bytes(&tree_a());
        let (mut enough, mut whole) = (0, 0);
        for _ in 0..1_000 {
            let (marks, at) = part_of(&outline, rng);
            assert_eq!(outline[at..][..marks.len()], marks);
            enough += u32::from(marks.len() == 5);
            whole += u32::from(at + marks.len() == 80);
        }
        assert!(enough > 500 && whole > 200, "{enough}, {whole}");
        assert_eq!(part_of(&[], rng), (vec![], 0));
    }
}
