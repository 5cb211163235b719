//! The runs that show outlines to readers.

use crate::call::{extra, short};
use crate::compare;
use crate::headings;
use crate::library;
use crate::locks;
use crate::outline::{self, bytes, is_preorder, taxa, Record, LOCK, MOST_PLATE, RECORD_BYTES};
use crate::random::Random;
use crate::report::{shell_line, Stop};
use crate::rules;
use crate::runs::Runner;
use crate::shapes;
use crate::sheet_runs::some_outline;
use crate::text_runs::{on_small_stack, SMALL_STACK};
use crate::view::{self, Reader, ViewCall, ViewExpected, READERS};
use crate::view_cases;
use crate::view_pairs::{self, sound_outline, Kind, Pair, CHANGES};

/// The refusals that showing can give, in their order.
const REFUSALS: [usize; 7] = [2, 3, 5, 6, 7, 8, 9];

/// Outlines of up to so many records are shown in every shape, sound and faulty.
const SMALL: usize = 6;
/// Outlines of up to so many records are paired in every shape with every filling.
const SMALL_PAIRS: usize = 5;

/// A showing call and what is expected of it.
struct Showing {
    records: Vec<Record>,
    call: ViewCall,
    expected: ViewExpected,
}

impl Showing {
    fn of(call: ViewCall) -> Self {
        Showing {
            records: outline::records(&call.outline),
            expected: view::expected(&call),
            call,
        }
    }

    fn is(&self, number: u32) -> bool {
        self.expected.answer[0] == number
    }

    /// Whether it is shown to this reader.
    fn goes(&self, reader: Reader) -> bool {
        self.is(0) && self.call.reader == reader
    }

    /// Whether a buyer's reader gets it and something is hidden at a record for which it holds.
    fn hides(&self, holds: impl Fn(&Record) -> bool) -> bool {
        self.goes(Reader::Buyer) && self.records.iter().any(holds)
    }

    fn hides_at_last(&self, holds: impl Fn(&Record) -> bool) -> bool {
        self.goes(Reader::Buyer) && self.records.last().is_some_and(holds)
    }

    fn needed(&self) -> usize {
        RECORD_BYTES * self.records.len()
    }

    fn is_short(&self) -> bool {
        self.call.view < self.needed()
    }

    fn is_refused_by_check(&self) -> bool {
        (2..=8).contains(&self.expected.answer[0])
    }

    /// Whether the check refuses what a buyer's reader asks for, and would not with each record altered.
    fn would_pass(&self, alter: fn(&mut Record)) -> bool {
        let mut records = self.records.clone();
        records.iter_mut().for_each(alter);
        self.call.reader == Reader::Buyer
            && self.is_refused_by_check()
            && !self.is(2)
            && rules::check(&bytes(&records)).is_none()
    }
}

/// What the calls are to be now and then.
const KINDS: [Kind<Showing>; 33] = [
    ("a house reader", |s| s.goes(Reader::House)),
    ("a buyer's reader", |s| s.goes(Reader::Buyer)),
    ("interleaved", |s| s.is(0) && !is_preorder(&s.records)),
    ("in text order", |s| s.is(0) && is_preorder(&s.records)),
    ("one record", |s| s.is(0) && s.records.len() == 1),
    ("127 records", |s| s.is(0) && s.records.len() == 127),
    ("64 taxa", |s| s.is(0) && taxa(&s.records).len() == 64),
    ("a taxon's price hidden", |s| {
        s.hides(|record| record.is_taxon() && record.price > 0)
    }),
    ("a heading's price hidden", |s| {
        s.hides(|record| !record.is_taxon() && record.price > 0)
    }),
    ("the root's price hidden", |s| {
        s.goes(Reader::Buyer) && s.records[0].price > 0
    }),
    ("the last record's price hidden", |s| {
        s.hides_at_last(|record| record.price > 0)
    }),
    ("a price of 65535 hidden", |s| {
        s.hides(|record| record.price == 65_535)
    }),
    ("a lock hidden", |s| s.hides(Record::is_locked)),
    ("the last record's lock hidden", |s| {
        s.hides_at_last(Record::is_locked)
    }),
    ("the highest plate's lock hidden", |s| {
        s.hides(|record| record.plate == u32::MAX)
    }),
    ("only a price hidden", |s| {
        s.hides(|record| record.price > 0) && !locks::has_any(&s.records)
    }),
    ("only a lock hidden", |s| {
        s.hides(Record::is_locked) && s.records.iter().all(|record| record.price == 0)
    }),
    ("nothing to hide", |s| {
        s.goes(Reader::Buyer) && s.expected.view == s.call.outline
    }),
    ("just enough room", |s| s.is(0) && s.call.view == s.needed()),
    ("a byte more", |s| s.is(0) && s.call.view == s.needed() + 1),
    ("room for a record more", |s| {
        s.is(0) && s.call.view >= s.needed() + RECORD_BYTES
    }),
    ("9 by one byte", |s| {
        s.is(9) && s.call.view + 1 == s.needed()
    }),
    ("9 with room for a record", |s| {
        s.is(9) && s.call.view >= RECORD_BYTES
    }),
    ("9 without room", |s| s.is(9) && s.call.view == 0),
    ("a faulty outline with room", |s| {
        s.is_refused_by_check() && !s.is_short()
    }),
    ("a faulty outline with a short view", |s| {
        s.is_refused_by_check() && s.is_short()
    }),
    ("8 with a short view", |s| s.is(8) && s.is_short()),
    ("no outline", |s| s.call.outline.is_empty()),
    ("3 with room", |s| s.is(3) && !s.is_short()),
    ("refused for prices a buyer would not see", |s| {
        s.would_pass(|record| record.price = 0)
    }),
    ("refused for a heading's price", |s| {
        let place = s.expected.answer[1] as usize;
        s.is(5) && !s.records[place - 1].is_taxon() && s.records[place - 1].price > 65_535
    }),
    ("refused for locks a buyer would not see", |s| {
        s.would_pass(|record| record.plate &= MOST_PLATE)
    }),
    ("twins that differ in the lock", |s| {
        let place = s.expected.answer[1] as usize;
        let same = |record: &Record| record.plate == s.records[place - 1].plate;
        s.is(8) && !s.records[..place - 1].iter().any(same)
    }),
];

/// Counts what holds of it.
pub(crate) fn count<T>(times: &mut [u64], kinds: &[Kind<T>], of: &T) {
    for (times, (_, holds)) in times.iter_mut().zip(kinds) {
        *times += u64::from(holds(of));
    }
}

pub(crate) fn named<T, const N: usize>(
    kinds: &[Kind<T>; N],
    times: [u64; N],
) -> Vec<(&'static str, u64)> {
    kinds.iter().map(|(name, _)| *name).zip(times).collect()
}

/// What the calls came to.
struct Met {
    /// How often each refusal was given, and at 0 how often none.
    numbers: [u64; 10],
    kinds: [u64; KINDS.len()],
}

impl Met {
    fn add(&mut self, showing: &Showing) {
        self.numbers[showing.expected.answer[0] as usize] += 1;
        count(&mut self.kinds, &KINDS, showing);
    }
}

impl Runner {
    fn show(&mut self, call: &ViewCall, expected: &ViewExpected) -> Result<(), Stop> {
        let observed = library::guarded_view(call, &mut self.rng);
        let comparison = compare::view(expected, &observed);
        self.report.add(&comparison, 0, || described(call))
    }

    pub(crate) fn shown_outlines(&mut self, outlines: u64) -> Result<(), Stop> {
        self.start('r');
        let mut met = Met {
            numbers: [0; 10],
            kinds: [0; KINDS.len()],
        };
        for _ in 0..outlines {
            let outline = some_outline(&mut self.rng);
            let view = lent(view::needed(&outline), &mut self.rng);
            self.show_to_both(&outline, view, &mut met)?;
        }
        let faulty = self.show_small(&mut met)?;
        self.report.line(&format!(
            "r. {outlines} outlines, every shape of up to {SMALL} records in views of every length, and {faulty} such with a \
             fault, shown to both readers"
        ));
        self.report
            .refusals("a shown outline", &REFUSALS, &met.numbers, outlines / 200);
        self.report
            .require("an outline shown", met.numbers[0], outlines / 2);
        self.report
            .met("with", &named(&KINDS, met.kinds), outlines / 500);
        Ok(())
    }

    fn show_to_both(&mut self, outline: &[u8], view: usize, met: &mut Met) -> Result<(), Stop> {
        for reader in READERS {
            let showing = Showing::of(ViewCall {
                outline: outline.to_vec(),
                reader,
                view,
            });
            met.add(&showing);
            self.show(&showing.call, &showing.expected)?;
        }
        Ok(())
    }

    /// Every small shape, with headings and locks, in views of every length, and with each fault at each record. Gives the number
    /// of outlines with a fault.
    fn show_small(&mut self, met: &mut Met) -> Result<u64, Stop> {
        let mut faulty = 0;
        for mut records in (1..=SMALL).flat_map(shapes::every_outline) {
            shapes::fill_randomly(&mut records, 40, &mut self.rng);
            headings::fill(&mut records, &mut self.rng, |rng| 1 + rng.up_to(65_534));
            locks::fill_randomly(&mut records, 40, 40, &mut self.rng);
            let outline = bytes(&records);
            for view in 0..=outline.len() + RECORD_BYTES {
                self.show_to_both(&outline, view, met)?;
            }
            for outline in with_faults(&records) {
                faulty += u64::from(rules::check(&outline).is_some());
                for view in [outline.len(), outline.len() - 1] {
                    self.show_to_both(&outline, view, met)?;
                }
            }
        }
        Ok(faulty)
    }

    pub(crate) fn shown_pairs(&mut self, pairs: u64) -> Result<(), Stop> {
        self.start('s');
        let (mut changes, mut kinds) = ([0; CHANGES.len()], [0; view_pairs::KINDS.len()]);
        for _ in 0..pairs {
            let pair = Pair::random(&mut self.rng);
            count(&mut changes, &CHANGES, &pair);
            count(&mut kinds, &view_pairs::KINDS, &pair);
            self.show_pair(&pair)?;
        }
        let small = view_pairs::every_small(SMALL_PAIRS, &mut self.rng);
        for pair in &small {
            self.show_pair(pair)?;
        }
        self.report.line(&format!(
            "s. {pairs} pairs of outlines that agree except in prices and locks, and {} of up to {SMALL_PAIRS} records, shown to \
             both readers",
            small.len()
        ));
        let least = pairs / 200;
        self.report
            .met("that differ in", &named(&CHANGES, changes), least);
        self.report
            .met("that have", &named(&view_pairs::KINDS, kinds), least);
        Ok(())
    }

    fn show_pair(&mut self, pair: &Pair) -> Result<(), Stop> {
        let to_buyer = pair.to_buyer(&library::view, &mut self.rng);
        let to_house = pair.to_house(&library::view, &mut self.rng);
        for (call, comparison) in to_buyer.into_iter().chain(to_house) {
            self.report.add(&comparison, 0, || described(&call))?;
        }
        Ok(())
    }

    pub(crate) fn shown_again(&mut self, outlines: u64) -> Result<(), Stop> {
        self.start('t');
        let (mut taxa, mut hidden) = (0, 0);
        for _ in 0..outlines {
            let records = sound_outline(&mut self.rng);
            let outline = bytes(&records);
            self.show_as(Reader::House, &outline, &outline)?;
            let given = self.show_to_buyer(&records)?;
            taxa += outline::taxa(&records).len() as u64;
            hidden += u64::from(given != outline);
            self.stated_check(&given, None)?;
            for reader in READERS {
                self.show_as(reader, &given, &given)?;
            }
            self.find_in_both(&records, [&outline, &given])?;
        }
        self.report.line(&format!(
            "t. {outlines} outlines shown to both readers, and what a buyer's gets ({hidden} times not the outline) checked, \
             shown to both again and searched for {taxa} plates"
        ));
        self.report
            .require("a view that is not the outline", hidden, outlines / 2);
        self.report.require(
            "a view that is the outline",
            outlines - hidden,
            outlines / 1_000,
        );
        Ok(())
    }

    /// A reader is to get these bytes of an accepted outline.
    fn show_as(&mut self, reader: Reader, outline: &[u8], view: &[u8]) -> Result<(), Stop> {
        let call = ViewCall {
            outline: outline.to_vec(),
            reader,
            view: outline.len() + extra(&mut self.rng),
        };
        self.show(&call, &ViewExpected::shown(view))
    }

    /// What a buyer's reader gets of an accepted outline, compared as bytes and by its records.
    fn show_to_buyer(&mut self, records: &[Record]) -> Result<Vec<u8>, Stop> {
        let outline = bytes(records);
        let call = ViewCall {
            view: outline.len() + extra(&mut self.rng),
            reader: Reader::Buyer,
            outline,
        };
        let observed = library::guarded_view(&call, &mut self.rng);
        let given = observed.after.view.content()[..call.outline.len()].to_vec();
        let mut comparison = compare::view(&view::expected(&call), &observed);
        comparison
            .differences
            .extend(compare::seen_by_buyer(records, &given));
        self.report.add(&comparison, 0, || described(&call))?;
        Ok(given)
    }

    /// Each plate is to be found at its record in either.
    fn find_in_both(&mut self, records: &[Record], outlines: [&[u8]; 2]) -> Result<(), Stop> {
        for position in taxa(records) {
            let plate = records[position].plate_number();
            for outline in outlines {
                self.stated_find(outline, plate, position as u32 + 1)?;
            }
        }
        Ok(())
    }

    /// What is given is as stated, and little stack is there for it.
    pub(crate) fn stated_views(&mut self) -> Result<(), Stop> {
        self.start('u');
        let cases = view_cases::all();
        for case in &cases {
            let observed = on_small_stack(|| library::guarded_view(&case.call, &mut self.rng));
            let comparison = compare::view(&case.expected, &observed);
            self.report.add(&comparison, 0, || described(&case.call))?;
        }
        self.report.line(&format!(
            "u. {} views worked by hand, on a stack of {SMALL_STACK} bytes",
            cases.len()
        ));
        Ok(())
    }
}

/// Enough or more, at times less or nothing.
pub(crate) fn lent(needed: usize, rng: &mut Random) -> usize {
    if rng.one_in(4) {
        short(needed, rng)
    } else {
        needed + extra(rng)
    }
}

/// What becomes of the record at a position; it is no fault at every record.
pub(crate) type Fault = fn(&mut [Record], usize);

pub(crate) const FAULTS: [Fault; 14] = [
    |records, at| records[at].price = 65_536,
    |records, at| records[at].price = LOCK,
    |records, at| records[at].length = 1_000_001,
    |records, at| records[at].plate = 0,
    |records, at| records[at].plate = LOCK,
    |records, at| records[at].plate = records[records.len() - 1].plate,
    |records, at| records[at].plate = records[records.len() - 1].plate ^ LOCK,
    |records, at| records[at].next = 0,
    |records, at| records[at].first = 0,
    |records, at| records[at].next = at as u16 + 1,
    |records, at| records[at].next = at as u16 + 2,
    |records, at| records[at].first = at as u16 + 2,
    |records, at| records[at].next = records.len() as u16,
    |records, at| records[at].first = u16::MAX,
];

/// The outline with each fault at each record.
pub(crate) fn with_faults(records: &[Record]) -> Vec<Vec<u8>> {
    let places = (0..records.len()).flat_map(|at| FAULTS.map(|fault| (at, fault)));
    let faulty = |(at, fault): (usize, Fault)| {
        let mut records = records.to_vec();
        fault(&mut records, at);
        bytes(&records)
    };
    places.map(faulty).collect()
}

fn described(call: &ViewCall) -> String {
    format!(
        "show to {:?} in {} bytes\n  {}",
        call.reader,
        call.view,
        shell_line(0, 0, &call.outline)
    )
}

#[cfg(test)]
mod tests {
    use super::*;
    use crate::cases::tree_a;
    use crate::library::{ViewBuffers, Viewer};
    use crate::view_cases::ViewCase;
    use crate::wrong_views::{right, with, OTHERS, TELLING};

    #[test]
    fn every_kind_is_stated_and_is_not_every_call() {
        let stated: Vec<Showing> = view_cases::all()
            .into_iter()
            .map(|case| Showing::of(case.call))
            .collect();
        for (name, holds) in KINDS {
            let times = stated.iter().filter(|showing| holds(showing)).count();
            assert!((1..stated.len() / 2).contains(&times), "{name}: {times}");
        }
    }

    type Expectation = (ViewCall, ViewExpected);

    fn stated() -> Vec<Expectation> {
        let both = |case: ViewCase| (case.call, case.expected);
        view_cases::all().into_iter().map(both).collect()
    }

    /// An outline for either reader, and what is expected.
    fn for_both(outline: &[u8], view: usize) -> [Expectation; 2] {
        READERS.map(|reader| {
            let outline = outline.to_vec();
            let showing = Showing::of(ViewCall {
                outline,
                reader,
                view,
            });
            (showing.call, showing.expected)
        })
    }

    fn random() -> Vec<Expectation> {
        let rng = &mut Random::new(1);
        let some = |_| {
            let outline = some_outline(rng);
            let view = lent(view::needed(&outline), rng);
            for_both(&outline, view)
        };
        (0..1_500).flat_map(some).collect()
    }

    /// How many calls show that a program is wrong.
    fn noticed(viewer: Viewer, calls: &[Expectation]) -> usize {
        let rng = &mut Random::new(2);
        let mut differs = |(call, expected): &Expectation| {
            let observed = viewer(call.reader, ViewBuffers::random(call, rng));
            !compare::view(expected, &observed).differences.is_empty()
        };
        calls.iter().filter(|call| differs(call)).count()
    }

    #[test]
    fn wrong_programs_are_noticed_and_a_right_one_is_not() {
        for calls in [stated(), random()] {
            assert_eq!(noticed(&right, &calls), 0);
            for (name, fault) in TELLING.iter().chain(&OTHERS) {
                let times = noticed(&with(*fault), &calls);
                assert!((1..calls.len()).contains(&times), "{name}: {times}");
            }
        }
    }

    /// The place and what stands past the records are not read by records.
    #[test]
    fn what_a_buyer_is_told_is_noticed_by_records_alone() {
        let rng = &mut Random::new(3);
        for (name, fault) in TELLING {
            let mut times = 0;
            for _ in 0..200 {
                let records = sound_outline(rng);
                let (call, _) = &for_both(&bytes(&records), 3_000)[1];
                let observed = with(fault)(call.reader, ViewBuffers::random(call, rng));
                let given = &observed.after.view.content()[..call.outline.len()];
                times += u32::from(!compare::seen_by_buyer(&records, given).is_empty());
            }
            let elsewhere = name.contains("place") || name.contains("past");
            assert_eq!(times == 0, elsewhere, "{name}: {times}");
        }
    }

    #[test]
    fn each_fault_is_one_at_some_record() {
        let mut numbers = [0; 9];
        let mut faults = [0; FAULTS.len()];
        for (turn, outline) in with_faults(&tree_a()).iter().enumerate() {
            if let Some(refusal) = rules::check(outline) {
                numbers[refusal.number as usize] += 1;
                faults[turn % FAULTS.len()] += 1;
            }
        }
        assert!(faults.iter().all(|&times| times > 0), "{faults:?}");
        assert!([5, 6, 8].iter().all(|&number| numbers[number] > 3));
    }

    #[test]
    fn views_are_short_just_enough_and_long() {
        let rng = &mut Random::new(4);
        let mut times = [0; 4];
        for _ in 0..1_000 {
            times[match lent(80, rng) {
                0 => 0,
                1..80 => 1,
                80 => 2,
                _ => 3,
            }] += 1;
        }
        assert!(times.iter().all(|&times| times > 50), "{times:?}");
    }
}
