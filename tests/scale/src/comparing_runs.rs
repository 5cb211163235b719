//! The runs that compare trees.

use crate::call::extra;
use crate::compare;
use crate::comparing::{self, CompareCall, CompareExpected};
use crate::comparing_cases;
use crate::damage;
use crate::library;
use crate::outline::{self, bytes, Record, RECORD_BYTES};
use crate::random::Random;
use crate::report::{shell_line, Stop};
use crate::rules::{self, Refusal};
use crate::runs::Runner;
use crate::sheet_runs::some_outline;
use crate::text_runs::{on_small_stack, SMALL_STACK};
use crate::tree_pairs::{self, Compared, Judged, Pair};
use crate::tree_rows;
use crate::view::needed;
use crate::view_pairs::Kind;
use crate::view_runs::{count, lent, named, FAULTS};

/// The refusals that comparing can give, in their order.
const REFUSALS: [usize; 7] = [2, 3, 5, 6, 7, 8, 9];

/// Outlines of up to so many records are compared each with each.
const SMALL: usize = 4;

/// A call that compares two trees, what is expected of it, and of each outline the refusal by the check and the bytes that its
/// form needs.
struct Comparing {
    call: CompareCall,
    expected: CompareExpected,
    refusals: [Option<Refusal>; 2],
    needed: [usize; 2],
}

impl Comparing {
    fn of(call: CompareCall) -> Self {
        let outlines = call.outlines.each_ref();
        Comparing {
            expected: comparing::expected(&call),
            refusals: outlines.map(|outline| rules::check(outline)),
            needed: outlines.map(|outline| needed(outline)),
            call,
        }
    }

    fn is(&self, number: u32) -> bool {
        self.expected.answer[0] == number
    }

    fn has_order(&self, order: i32) -> bool {
        self.is(0) && self.expected.order == order
    }

    fn is_one_outline_twice(&self) -> bool {
        self.call.outlines[0] == self.call.outlines[1]
    }

    fn are_of(&self, records: usize) -> bool {
        self.is(0) && self.needed == [RECORD_BYTES * records; 2]
    }

    /// Which outlines the check refuses.
    fn refuses(&self, outlines: [bool; 2]) -> bool {
        self.refusals.map(|refusal| refusal.is_some()) == outlines
    }

    /// The numbers by which the check refuses both.
    fn both_refusals(&self) -> Option<[Refusal; 2]> {
        let [one, other] = self.refusals;
        Some([one?, other?])
    }

    fn are_refused(&self, holds: fn([Refusal; 2]) -> bool) -> bool {
        self.both_refusals().is_some_and(holds)
    }

    /// How many bytes each form has beyond what it needs.
    fn spare(&self) -> [i64; 2] {
        [0, 1].map(|which| self.call.forms[which] as i64 - self.needed[which] as i64)
    }

    /// Which forms are short.
    fn is_short(&self) -> [bool; 2] {
        self.spare().map(|spare| spare < 0)
    }

    /// Whether 9 is given though the forms would do the other way round.
    fn would_do_turned(&self) -> bool {
        let [needed, other_needed] = self.needed;
        let [form, other_form] = self.call.forms;
        self.is(9) && form >= other_needed && other_form >= needed
    }
}

/// What the calls are to be now and then.
const KINDS: [Kind<Comparing>; 37] = [
    ("before", |c| c.has_order(-1)),
    ("after", |c| c.has_order(1)),
    ("the same tree in other bytes", |c| {
        c.has_order(0) && !c.is_one_outline_twice()
    }),
    ("one outline twice", |c| c.is(0) && c.is_one_outline_twice()),
    ("one memory", |c| c.is(0) && c.call.within == Some(0)),
    ("an outline in the other's memory", |c| {
        c.is(0) && c.call.within > Some(0)
    }),
    ("one record each", |c| c.are_of(1)),
    ("127 records each", |c| c.are_of(127)),
    ("two sizes", |c| {
        let [one, other] = c.needed;
        c.is(0) && one != other
    }),
    ("just enough room", |c| c.is(0) && c.spare() == [0, 0]),
    ("a byte more in the first form", |c| {
        c.is(0) && c.spare()[0] == 1
    }),
    ("a byte more in the second form", |c| {
        c.is(0) && c.spare()[1] == 1
    }),
    ("room for a record more in both", |c| {
        c.is(0) && c.spare().iter().all(|&spare| spare >= 16)
    }),
    ("9 by the first form alone", |c| {
        c.is(9) && c.is_short() == [true, false]
    }),
    ("9 by the second form alone", |c| {
        c.is(9) && c.is_short() == [false, true]
    }),
    ("9 by both forms", |c| {
        c.is(9) && c.is_short() == [true, true]
    }),
    ("9 by one byte of the first form", |c| {
        c.is(9) && c.spare()[0] == -1
    }),
    ("9 by one byte of the second form", |c| {
        c.is(9) && c.spare()[1] == -1
    }),
    ("9 without room in the first form", |c| {
        c.is(9) && c.call.forms[0] == 0
    }),
    ("9 without room in the second form", |c| {
        c.is(9) && c.call.forms[1] == 0
    }),
    (
        "9 with forms that would do turned round",
        Comparing::would_do_turned,
    ),
    ("9 with one memory", |c| c.is(9) && c.call.within.is_some()),
    ("the first alone refused", |c| c.refuses([true, false])),
    ("the second alone refused", |c| c.refuses([false, true])),
    ("both refused", |c| c.refuses([true, true])),
    ("both refused, the second by a lower number", |c| {
        c.are_refused(|[one, other]| other.number < one.number)
    }),
    ("both refused, the second by a higher number", |c| {
        c.are_refused(|[one, other]| other.number > one.number)
    }),
    (
        "both refused by one number, the second at a lower record",
        |c| c.are_refused(|[one, other]| one.number == other.number && other.place < one.place),
    ),
    ("both refused in one memory", |c| {
        c.refuses([true, true]) && c.call.within == Some(0)
    }),
    ("a refused part of the first", |c| {
        c.refuses([false, true]) && c.call.within.is_some()
    }),
    ("the first refused with short forms", |c| {
        c.refuses([true, false]) && c.is_short() == [true, true]
    }),
    ("the second refused with a short first form", |c| {
        c.refuses([false, true]) && c.is_short() == [true, false]
    }),
    ("the second refused with a short second form", |c| {
        c.refuses([false, true]) && c.is_short() == [false, true]
    }),
    ("the second refused with room", |c| {
        c.refuses([false, true]) && c.is_short() == [false, false]
    }),
    ("the second refused by 8 with a short form", |c| {
        c.refuses([false, true]) && c.is(8) && c.is_short() != [false, false]
    }),
    ("no first outline", |c| c.call.outlines[0].is_empty()),
    ("no second outline", |c| {
        c.refuses([false, true]) && c.call.outlines[1].is_empty()
    }),
];

/// What the calls came to.
struct Met {
    /// How often each refusal was given, and at 0 how often none.
    numbers: [u64; 10],
    kinds: [u64; KINDS.len()],
}

impl Met {
    fn add(&mut self, comparing: &Comparing) {
        self.numbers[comparing.expected.answer[0] as usize] += 1;
        count(&mut self.kinds, &KINDS, comparing);
    }
}

impl Runner {
    pub(crate) fn compared_outlines(&mut self, calls: u64) -> Result<(), Stop> {
        self.start('B');
        let mut met = Met {
            numbers: [0; 10],
            kinds: [0; KINDS.len()],
        };
        for _ in 0..calls {
            let comparing = Comparing::of(some_call(&mut self.rng));
            met.add(&comparing);
            let observed = library::guarded_compare(&comparing.call, &mut self.rng);
            let comparison = compare::trees(&comparing.expected, &observed);
            self.report
                .add(&comparison, 0, || described(&comparing.call))?;
        }
        self.report
            .line(&format!("B. {calls} calls that compare two outlines"));
        self.report
            .refusals("a comparing call", &REFUSALS, &met.numbers, calls / 200);
        self.report
            .require("two trees compared", met.numbers[0], calls / 4);
        self.report
            .met("with", &named(&KINDS, met.kinds), calls / 1_000);
        Ok(())
    }

    fn add_compared(&mut self, compared: impl IntoIterator<Item = Compared>) -> Result<(), Stop> {
        compared
            .into_iter()
            .try_for_each(|(call, comparison)| self.report.add(&comparison, 0, || described(&call)))
    }

    pub(crate) fn compared_pairs(&mut self, pairs: u64) -> Result<(), Stop> {
        self.start('C');
        let names = tree_pairs::changes().into_iter().map(|(name, ..)| name);
        let mut changes: Vec<(&str, u64)> = names.map(|name| (name, 0)).collect();
        let mut kinds = [0; tree_pairs::KINDS.len()];
        for _ in 0..pairs {
            let pair = Pair::random(&mut self.rng);
            let made = changes.iter_mut().find(|(name, _)| *name == pair.change);
            made.expect("a change by name").1 += 1;
            count(&mut kinds, &tree_pairs::KINDS, &Judged::of(&pair));
            let compared = pair.compared(&library::compare, &mut self.rng);
            self.add_compared(compared)?;
        }
        self.report.line(&format!(
            "C. {pairs} pairs of outlines, of the same tree or with something changed, compared either way round, and each first \
             one with itself in one memory"
        ));
        let least = pairs / 200;
        self.report.met("that differ in", &changes, least);
        self.report
            .met("that come to", &named(&tree_pairs::KINDS, kinds), least);
        Ok(())
    }

    fn compare_each_with_each(&mut self, outlines: &[Vec<Record>]) -> Result<(), Stop> {
        let compared = tree_rows::compared(outlines, &library::compare, &mut self.rng);
        self.add_compared(compared)
    }

    pub(crate) fn compared_rows(&mut self, triples: u64) -> Result<(), Stop> {
        self.start('D');
        let mut trees = [0; 3];
        for _ in 0..triples {
            let outlines = tree_rows::relatives(3, &mut self.rng);
            trees[tree_rows::trees(&outlines) - 1] += 1;
            self.compare_each_with_each(&outlines)?;
        }
        let small = tree_rows::every_small(SMALL);
        self.compare_each_with_each(&small)?;
        self.report.line(&format!(
            "D. {triples} times three outlines, and all {} of up to {SMALL} records with their plates in every order and any of \
             them locked, which are {} trees, compared each with each",
            small.len(),
            tree_rows::trees(&small)
        ));
        let names = ["one tree", "two trees", "three trees"];
        let times: Vec<_> = names.into_iter().zip(trees).collect();
        self.report.met("three outlines of", &times, triples / 20);
        Ok(())
    }

    /// What is given is as stated, and little stack is there for it.
    pub(crate) fn stated_orders(&mut self) -> Result<(), Stop> {
        self.start('E');
        let cases = comparing_cases::all();
        for case in &cases {
            let observed = on_small_stack(|| library::guarded_compare(&case.call, &mut self.rng));
            let comparison = compare::trees(&case.expected, &observed);
            self.report.add(&comparison, 0, || described(&case.call))?;
        }
        self.report.line(&format!(
            "E. {} pairs of outlines compared by hand, on a stack of {SMALL_STACK} bytes",
            cases.len()
        ));
        Ok(())
    }
}

/// A call with any two outlines, of which the second is at times a part of the first, and any forms.
fn some_call(rng: &mut Random) -> CompareCall {
    let one = some_outline(rng);
    let (other, within) = another_outline(&one, rng);
    let needed = [needed(&one), needed(&other)];
    let outlines = [one, other];
    let forms = match rng.below(8) {
        0 => [needed[1], needed[0]],
        1..4 => needed.map(|needed| lent(needed, rng)),
        _ => needed.map(|needed| needed + extra(rng)),
    };
    CompareCall {
        outlines,
        within,
        forms,
    }
}

/// The outline itself or a part of it, of which the last record is an outline too; if it is a tree, the same or one with
/// something changed, at times with a fault or twins; or any outline. With where it stands in the first one's memory, if it does.
fn another_outline(one: &[u8], rng: &mut Random) -> (Vec<u8>, Option<usize>) {
    match rng.below(8) {
        0 => (one.to_vec(), rng.pick(&[None, Some(0)])),
        1 => part_of(one, rng),
        kind @ 2..6 if rules::check(one).is_none() => {
            let mut other = Pair::with(outline::records(one), rng).other;
            let (fault, at) = (rng.pick(&FAULTS), rng.index(other.len()));
            match kind {
                4 => fault(&mut other, at),
                5 => damage::repeat_plate(&mut other, rng),
                _ => {}
            }
            (bytes(&other), None)
        }
        _ => (some_outline(rng), None),
    }
}

/// Bytes of an outline from any byte on, mostly its last record, at times none.
fn part_of(outline: &[u8], rng: &mut Random) -> (Vec<u8>, Option<usize>) {
    let end = outline.len();
    let last = end.saturating_sub(RECORD_BYTES);
    let any = rng.index(end + 1);
    let from = rng.pick(&[last, last, last, any, any, end]);
    (outline[from..].to_vec(), Some(from))
}

fn described(call: &CompareCall) -> String {
    let [one, other] = call
        .outlines
        .each_ref()
        .map(|outline| shell_line(0, 0, outline));
    let within = call.within;
    format!(
        "compare in {:?} bytes{}\n  {one}\n  {other}",
        call.forms,
        within.map_or(String::new(), |at| format!(
            ", the second from byte {at} of the first on"
        )),
    )
}

#[cfg(test)]
mod tests {
    use super::*;
    use crate::comparing_cases::CompareCase;
    use crate::library::{CompareBuffers, Comparer};
    use crate::wrong_orders::{self, RIGHT};

    #[test]
    fn every_kind_is_stated_and_is_not_every_call() {
        let stated: Vec<Comparing> = comparing_cases::all()
            .into_iter()
            .map(|case| Comparing::of(case.call))
            .collect();
        for (name, holds) in KINDS {
            let times = stated.iter().filter(|comparing| holds(comparing)).count();
            assert!((1..stated.len()).contains(&times), "{name}: {times}");
        }
    }

    type Expectation = (CompareCall, CompareExpected);

    fn stated() -> Vec<Expectation> {
        let both = |case: CompareCase| (case.call, case.expected);
        comparing_cases::all().into_iter().map(both).collect()
    }

    fn random(calls: usize) -> Vec<Expectation> {
        let rng = &mut Random::new(1);
        let some = |_| {
            let comparing = Comparing::of(some_call(rng));
            (comparing.call, comparing.expected)
        };
        (0..calls).map(some).collect()
    }

    /// Whether a call shows that a program is wrong.
    fn is_noticed(comparer: Comparer, calls: &[Expectation]) -> bool {
        let rng = &mut Random::new(2);
        calls.iter().any(|(call, expected)| {
            let observed = comparer(CompareBuffers::random(call, rng));
            !compare::trees(expected, &observed).differences.is_empty()
        })
    }

    #[test]
    fn wrong_programs_are_noticed_and_a_right_one_is_not() {
        for calls in [stated(), random(2_000)] {
            assert!(!is_noticed(&RIGHT.run(), &calls));
            for (name, program) in wrong_orders::all() {
                assert!(is_noticed(&program.run(), &calls), "{name}");
            }
        }
    }

    /// A record of the longer one that stands past the shorter one would be named by no link.
    #[test]
    fn no_form_is_the_beginning_of_another_so_no_call_tells_which_comes_first() {
        for calls in [stated(), random(1_000)] {
            for (name, program) in wrong_orders::of_beginnings() {
                assert!(!is_noticed(&program.run(), &calls), "{name}");
            }
        }
    }

    #[test]
    fn parts_of_an_outline_stand_where_it_is_said() {
        let rng = &mut Random::new(3);
        let (mut whole, mut parts) = (0, 0);
        for _ in 0..2_000 {
            let CompareCall {
                outlines: [one, other],
                within,
                ..
            } = some_call(rng);
            if let Some(at) = within {
                assert_eq!(one[at..][..other.len()], other);
                whole += u32::from(at == 0 && one == other);
                parts += u32::from(at > 0 && other.len() == RECORD_BYTES);
            }
        }
        assert!(whole > 50 && parts > 50, "{whole}, {parts}");
    }
}
