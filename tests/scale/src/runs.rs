//! The runs of the comparison, each of which prints a line with its counts.

use crate::call::Call;
use crate::compare;
use crate::damage::{self, Outcomes};
use crate::earlier;
use crate::expect::{self, Expected};
use crate::headings;
use crate::library::{self, ChooseObserved};
use crate::locks;
use crate::outline::{self, Record, LOCK, ROOTED, UNROOTED};
use crate::random::Random;
use crate::report::{shell_line, Report, Stop};
use crate::rules::{self, Refusal};
use crate::shapes;
use crate::tally::Tally;

pub const DEFAULT_SEED: u64 = 1;
pub const DEFAULT_OUTLINES: u64 = 50_000;

pub(crate) const WAYS: [u32; 2] = [ROOTED, UNROOTED];

/// Makes calls, compares them and keeps count.
pub struct Runner {
    seed: u64,
    pub(crate) rng: Random,
    pub report: Report,
}

impl Runner {
    pub fn new(seed: u64) -> Self {
        Runner {
            seed,
            rng: Random::new(seed),
            report: Report::default(),
        }
    }

    /// All runs; `outlines` is the number of small random outlines, and the other runs go with it.
    pub fn run(&mut self, outlines: u64) -> Result<(), Stop> {
        self.case_g()?;
        self.cases()?;
        self.small(outlines)?;
        self.damaged(outlines)?;
        self.finder(outlines / 4)?;
        self.larger(outlines / 25, outlines / 500)?;
        self.sound_texts(outlines)?;
        self.faulty_texts(2 * outlines)?;
        self.stated_texts()?;
        self.heading_cases()?;
        self.lock_cases()?;
        self.written_outlines(2 * outlines)?;
        self.rewritten_texts(2 * outlines)?;
        self.stated_writings()?;
        self.marked_sets(2 * outlines)?;
        self.listed_choices(outlines / 2, outlines / 50)?;
        self.stated_sheets()?;
        self.shown_outlines(outlines)?;
        self.shown_pairs(outlines / 4)?;
        self.shown_again(outlines / 10)?;
        self.stated_views()?;
        self.quick_choices(2 * outlines)?;
        self.more_picks(outlines / 10)?;
        self.stated_quick_choices()?;
        self.house_forms(outlines)?;
        self.spelled_forms(outlines / 10)?;
        self.stated_forms()?;
        self.compared_outlines(outlines / 2)?;
        self.compared_pairs(outlines / 4)?;
        self.compared_rows(outlines / 20)?;
        self.stated_orders()?;
        self.revised_lengths(2 * outlines)?;
        self.length_walks(outlines / 10)?;
        self.stated_revisions()?;
        self.price_ranges(outlines)?;
        self.every_byte(outlines / 500)?;
        self.every_price_between(outlines / 50)?;
        self.some_prices_between(outlines / 100, outlines / 2_500)?;
        self.stated_ranges()
    }

    /// Starts a run with numbers that do not depend on the runs before it.
    pub(crate) fn start(&mut self, run: char) {
        self.rng = Random::new(self.seed ^ u64::from(run) << 32);
    }

    pub(crate) fn choose(
        &mut self,
        call: &Call,
        expected: &Expected,
    ) -> Result<ChooseObserved, Stop> {
        let observed = library::guarded_choose(call, &mut self.rng);
        let comparison = compare::choose(expected, &observed);
        let columns = expected.curve.len() / 2;
        self.report.add(&comparison, columns, || {
            format!(
                "choose with page count {}, way {}, {} marks, {} curve numbers, {} work numbers\n  {}",
                call.count,
                call.way,
                call.marks,
                call.curve,
                call.work,
                shell_line(call.count, call.way, &call.outline)
            )
        })?;
        Ok(observed)
    }

    /// An outline without locks, or without headings too, is to give what it gave.
    fn choose_by_earlier_rules(&mut self, call: &Call) -> Result<(), Stop> {
        for &earlier in earlier::still_hold(&outline::records(&call.outline)) {
            self.choose(call, &expect::by_earlier_rules(earlier, call))?;
        }
        Ok(())
    }

    pub(crate) fn check(&mut self, outline: &[u8]) -> Result<(), Stop> {
        self.stated_check(outline, rules::check(outline))?;
        for earlier in earlier::still_hold(&outline::records(outline)) {
            self.stated_check(outline, earlier.check(outline))?;
        }
        Ok(())
    }

    pub(crate) fn stated_check(
        &mut self,
        outline: &[u8],
        stated: Option<Refusal>,
    ) -> Result<(), Stop> {
        let observed = library::guarded_check(outline, &mut self.rng);
        let comparison = compare::check(stated, &observed);
        self.report.add(&comparison, 0, || {
            format!("check\n  {}", shell_line(0, 0, outline))
        })
    }

    fn find(&mut self, outline: &[u8], plate: u32) -> Result<(), Stop> {
        self.stated_find(outline, plate, rules::find(outline, plate))?;
        for earlier in earlier::still_hold(&outline::records(outline)) {
            self.stated_find(outline, plate, earlier.find(outline, plate))?;
        }
        Ok(())
    }

    pub(crate) fn stated_find(
        &mut self,
        outline: &[u8],
        plate: u32,
        stated: u32,
    ) -> Result<(), Stop> {
        let observed = library::guarded_find(outline, plate, &mut self.rng);
        let comparison = compare::find(stated, &observed);
        self.report.add(&comparison, 0, || {
            format!("find plate {plate}\n  {}", shell_line(0, 0, outline))
        })
    }

    fn small(&mut self, outlines: u64) -> Result<(), Stop> {
        self.start('c');
        let mut interleaved = 0;
        let mut tally = Tally::default();
        for _ in 0..outlines {
            let (records, count) = small_outline(&mut self.rng);
            interleaved += u64::from(!outline::is_preorder(&records));
            tally.add(&records);
            self.check(&outline::bytes(&records))?;
            for way in WAYS {
                let expected = self.against_search(&records, count, way)?;
                tally.add_call(&records, &expected);
            }
        }
        self.report.line(&format!(
            "c. {outlines} small outlines ({interleaved} interleaved) against the exhaustive search, without locks also by the \
             rules before them, and with neither locks nor headings by document 01 alone"
        ));
        self.report
            .require("an interleaved outline", interleaved, outlines / 3);
        self.report.tally("small outlines", &tally);
        Ok(())
    }

    /// At times a buffer is made short.
    fn against_search(
        &mut self,
        records: &[Record],
        count: u32,
        way: u32,
    ) -> Result<Expected, Stop> {
        let mut call = Call::roomy(outline::bytes(records), count, way, &mut self.rng);
        let expected = expect::by_exhaustive_search(&call, &mut self.rng);
        self.choose(&call, &expected)?;
        self.choose_by_earlier_rules(&call)?;
        if self.rng.one_in(8) {
            call.shorten(&mut self.rng);
            let refused = expect::by_exhaustive_search(&call, &mut self.rng);
            self.choose(&call, &refused)?;
        }
        Ok(expected)
    }

    fn damaged(&mut self, calls: u64) -> Result<(), Stop> {
        self.start('d');
        let mut outcomes = Outcomes::default();
        for _ in 0..calls {
            let call = damage::damaged_call(&mut self.rng);
            let expected = expect::by_size(&call, &mut self.rng);
            outcomes.add(&outline::records(&call.outline), &expected);
            self.choose(&call, &expected)?;
            if expect::is_small(&call) {
                self.choose_by_earlier_rules(&call)?;
            }
            self.check(&call.outline)?;
            let plate = some_plate(&call.outline, &mut self.rng);
            self.find(&call.outline, plate)?;
        }
        self.report.line(&format!("d. {calls} damaged calls"));
        println!("   {outcomes}");
        for (refusal, times) in outcomes.refusals() {
            self.report.require(&refusal, times, calls / 200);
        }
        self.report.tally("damaged calls", &outcomes.tally);
        Ok(())
    }

    fn finder(&mut self, outlines: u64) -> Result<(), Stop> {
        self.start('e');
        let (mut accepted, mut taxa, mut locked) = (0, 0, 0);
        for _ in 0..outlines {
            let outline = if self.rng.one_in(2) {
                outline::bytes(&small_outline(&mut self.rng).0)
            } else {
                damage::damaged_outline(40, &mut self.rng).0
            };
            if rules::check(&outline).is_none() {
                let records = outline::records(&outline);
                accepted += 1;
                taxa += outline::taxa(&records).len() as u64;
                locked += records.iter().filter(|record| record.is_locked()).count() as u64;
            }
            self.find_all(&outline)?;
        }
        self.report.line(&format!(
            "e. every plate, with bit 31 and without, of {outlines} outlines ({accepted} accepted, {locked} of {taxa} taxa locked)"
        ));
        self.report
            .require("a locked taxon to find", locked, outlines / 2);
        self.report
            .require("another taxon to find", taxa - locked, outlines / 2);
        Ok(())
    }

    fn find_all(&mut self, outline: &[u8]) -> Result<(), Stop> {
        let records = outline::records(outline);
        // More than 127 are refused, whatever the plate, so a few plates do where there are far more.
        let asked = if records.len() > 200 { 10 } else { 200 };
        for record in records.iter().take(asked) {
            self.find(outline, record.plate)?;
            self.find(outline, record.plate ^ LOCK)?;
        }
        let near = some_plate(outline, &mut self.rng);
        for plate in [0, 1, LOCK, u32::MAX, near ^ 1, near << 8, near >> 8] {
            self.find(outline, plate)?;
        }
        Ok(())
    }

    fn larger(&mut self, outlines: u64, full: u64) -> Result<(), Stop> {
        self.start('f');
        let [mut larger_tally, mut full_tally] = [Tally::default(); 2];
        for _ in 0..outlines {
            let (records, count) = larger_outline(&mut self.rng);
            self.against_table(&records, count, &mut larger_tally)?;
        }
        for turn in 0..full {
            let (records, count) = full_outline(turn, &mut self.rng);
            self.against_table(&records, count, &mut full_tally)?;
        }
        self.report.line(&format!(
            "f. {outlines} larger outlines and {full} of 64 taxa, those without locks with page count 4096, against the table"
        ));
        self.report.tally("larger outlines", &larger_tally);
        self.report.tally("outlines of 64 taxa", &full_tally);
        Ok(())
    }

    fn against_table(
        &mut self,
        records: &[Record],
        count: u32,
        tally: &mut Tally,
    ) -> Result<(), Stop> {
        tally.add(records);
        let outline = outline::bytes(records);
        for way in WAYS {
            let call = Call::roomy(outline.clone(), count, way, &mut self.rng);
            let expected = expect::by_table(&call);
            tally.add_call(records, &expected);
            self.choose(&call, &expected)?;
        }
        Ok(())
    }
}

/// An outline of at most 10 taxa and a page count; few taxa at times get a great page count.
pub(crate) fn small_outline(rng: &mut Random) -> (Vec<Record>, u32) {
    let taxa = 1 + rng.index(10);
    let most = if rng.one_in(30) { 127 } else { 24 };
    let mut records = shapes::random_outline(taxa, most, rng);
    let count = match rng.below(12) {
        0 if taxa <= 4 => rng.up_to(4_096),
        1 if taxa <= 2 => 4_096,
        _ => rng.up_to(70),
    };
    shapes::fill_randomly(&mut records, count, rng);
    headings::fill_at_times(&mut records, count, rng);
    let count = locks::fill_at_times(&mut records, count, count.max(70), rng);
    (records, count)
}

/// The plate of a random record, at times with bit 31, or 0 if there is none.
fn some_plate(outline: &[u8], rng: &mut Random) -> u32 {
    let records = outline::records(outline);
    if records.is_empty() {
        0
    } else {
        rng.pick(&records).plate_number() | rng.pick(&[0, 0, 0, LOCK])
    }
}

/// 64 taxa and a page count; the shape and the kind of filling by turns.
pub(crate) fn full_outline(turn: u64, rng: &mut Random) -> (Vec<Record>, u32) {
    let mut records = match turn % 6 {
        0 => shapes::balanced(6),
        1 => shapes::caterpillar_taxon_first(64),
        2 => shapes::caterpillar_group_first(64),
        3 => shapes::star(64),
        4 => shapes::random_tree(64, rng),
        _ => shapes::random_outline_of(64, 127, rng),
    };
    // Prices up to 127 make the page count tight and every cost possible.
    let dense = |rng: &mut Random| rng.up_to(127);
    let kind = turn / 6 % 4;
    match kind {
        0 => shapes::fill(&mut records, rng, |rng| rng.up_to(1_000_000), dense),
        1 => shapes::fill(&mut records, rng, |rng| rng.up_to(2), dense),
        _ => shapes::fill_randomly(&mut records, 4_096, rng),
    }
    // Three of five, so that each shape and each kind has headings in some turns and none in others.
    match turn % 5 {
        0..3 if kind < 2 => headings::fill(&mut records, rng, |rng| 1 + rng.up_to(126)),
        0..3 => headings::fill_randomly(&mut records, 4_096, rng),
        _ => {}
    }
    // Four of seven, likewise.
    let count = match turn % 7 {
        0 | 2 | 4 | 6 => locks::fill_randomly(&mut records, 4_096, 4_096, rng),
        _ => 4_096,
    };
    (records, count)
}

pub(crate) fn larger_outline(rng: &mut Random) -> (Vec<Record>, u32) {
    let mut records = larger_shape(rng);
    let most = rng.pick(&[60, 300, 1_000]);
    let count = rng.up_to(most);
    shapes::fill_randomly(&mut records, count, rng);
    headings::fill_at_times(&mut records, count, rng);
    let count = locks::fill_at_times(&mut records, count, most, rng);
    (records, count)
}

fn larger_shape(rng: &mut Random) -> Vec<Record> {
    let taxa = 11 + rng.index(54);
    match rng.below(8) {
        0 => shapes::balanced(4 + rng.up_to(2)),
        1 => shapes::caterpillar_taxon_first(taxa),
        2 => shapes::caterpillar_group_first(taxa),
        3 => shapes::star(taxa),
        4 | 5 => shapes::random_tree(taxa, rng),
        _ => shapes::random_outline(taxa, 127, rng),
    }
}

#[cfg(test)]
mod tests {
    use super::*;

    #[test]
    fn full_outlines_of_every_shape_and_kind_have_headings_and_locks_in_some_turns_only() {
        let rng = &mut Random::new(1);
        let mut tallies = [Tally::default(); 24];
        for turn in 0..840 {
            let (records, count) = full_outline(turn, rng);
            assert_eq!(outline::taxa(&records).len(), 64);
            assert_eq!(rules::check(&outline::bytes(&records)), None);
            assert!(count == 4_096 || locks::has_any(&records) && count < 4_096);
            tallies[turn as usize % 24].add(&records);
        }
        for Tally { headings, locks } in tallies {
            assert_eq!((headings.with, headings.without), (21, 14));
            assert_eq!((locks.with, locks.without), (20, 15));
            assert_eq!(locks.neither, 6);
        }
    }

    #[test]
    fn other_outlines_have_headings_and_locks_at_times() {
        let rng = &mut Random::new(2);
        for random in [small_outline, larger_outline] {
            let mut tally = Tally::default();
            for _ in 0..1_000 {
                let (records, _) = random(rng);
                assert_eq!(rules::check(&outline::bytes(&records)), None);
                tally.add(&records);
            }
            let Tally { headings, locks } = tally;
            assert!(headings.with > 500 && headings.without > 250, "{tally:?}");
            assert!(locks.with > 500 && locks.without > 250, "{tally:?}");
            assert!(locks.all > 50 && locks.neither > 50, "{tally:?}");
        }
    }
}
