//! The runs that choose quickly.

use crate::call::{extra, needed, short};
use crate::compare::{self, Best};
use crate::damage;
use crate::exhaustive;
use crate::headings;
use crate::library::{self, QuickObserved};
use crate::locks;
use crate::outline::{self, bytes, groups, is_preorder, taxa, Record, RECORD_BYTES, ROOTED};
use crate::quick::{self, Added, Choice, Pick, QuickCall, QuickExpected, MOST_PICKS};
use crate::quick_cases;
use crate::random::Random;
use crate::report::{shell_line, Stop};
use crate::rules;
use crate::runs::{full_outline, larger_outline, small_outline, Runner};
use crate::shapes;
use crate::text_runs::{on_small_stack, SMALL_STACK};
use crate::view_pairs::Kind;
use crate::view_runs::{count, named};
use crate::writing;

/// The refusals that choosing quickly can give, in their order.
const REFUSALS: [usize; 10] = [2, 3, 4, 15, 5, 6, 7, 8, 9, 12];

/// Up to so many taxa every subset is tried for the best.
const FEW_TAXA: usize = 10;
/// Outlines of up to so many records are picked from in every shape.
const SMALL: usize = 6;
/// Each of these shapes is filled so many times.
const FILLINGS: usize = 20;
/// They are picked from for each page count up to this.
const SMALL_COUNT: u32 = 7;

/// A quick choice and what is expected of it.
struct Picking {
    records: Vec<Record>,
    call: QuickCall,
    expected: QuickExpected,
    /// The picks of a choice, and the one that would come next; none on a refusal.
    picks: Vec<Pick>,
    next: Option<Pick>,
}

impl Picking {
    fn of(call: QuickCall) -> Self {
        let records = outline::records(&call.outline);
        let expected = quick::expected(&call);
        let (mut picks, mut next) = (Vec::new(), None);
        if expected.answer[0] == 0 {
            let choice = Choice::after(&records, call.count, call.picks);
            next = Some(choice.next_pick());
            picks = choice.picks;
        }
        Picking {
            records,
            call,
            expected,
            picks,
            next,
        }
    }

    fn is(&self, number: u32) -> bool {
        self.expected.answer[0] == number
    }

    /// Whether there is a choice, of so many taxa.
    fn has(&self, taxa: usize) -> bool {
        self.is(0) && self.expected.answer[4] as usize == taxa
    }

    /// Whether there is a choice for this page count.
    fn is_at(&self, count: u32) -> bool {
        self.is(0) && self.call.count == count
    }

    /// Whether there is a choice and so many picks were asked for.
    fn asks_for(&self, picks: u32) -> bool {
        self.is(0) && self.call.picks == picks
    }

    fn picks_fewer(&self) -> bool {
        self.picks.len() < self.call.picks as usize
    }

    /// Whether it holds for a taxon that a choice leaves out, with the room that is left.
    fn leaves(&self, holds: impl Fn(&Added, u32) -> bool) -> bool {
        let next = self.next.iter();
        let mut others = next.flat_map(|pick| pick.others.iter().map(|added| (added, pick.room)));
        others.any(|(added, room)| holds(added, room))
    }

    /// Whether a taxon would be picked if it were not for its headings.
    fn is_kept_out_by_headings(&self) -> bool {
        let mut picks = self.picks.iter().chain(&self.next);
        picks.any(|pick| {
            let most = pick.taken().map_or(0, |taken| taken.diversity);
            let kept_out = |other: &Added| {
                other.price <= pick.room && pick.room < other.quarters && other.diversity > most
            };
            pick.others.iter().any(kept_out)
        })
    }

    /// Whether a taxon is picked that adds less than it would have at first.
    fn picks_less_of(&self, of: fn(&Added) -> u32) -> bool {
        let mut picks = self.picks.iter();
        let Some(first) = picks.next() else {
            return false;
        };
        picks.filter_map(Pick::taken).any(|taken| {
            let mut others = first.others.iter();
            others.any(|other| other.position == taken.position && of(other) > of(&taken))
        })
    }

    /// Whether of taxa that add as much diversity one is picked though another one is cheaper without headings.
    fn picks_against_prices(&self) -> bool {
        self.picks.iter().any(|pick| {
            let cheapest = pick.most.iter().map(|added| added.price).min();
            pick.taken().map(|taken| taken.price) > cheapest
        })
    }

    /// Whether of taxa that add as much and as many quarters one is picked though another one comes first in the text.
    fn picks_against_text(&self) -> bool {
        if self.picks.is_empty() || is_preorder(&self.records) {
            return false;
        }
        let pairs = writing::pairs(&self.records);
        let plates: Vec<u32> = pairs.into_iter().step_by(2).collect();
        let place = |added: &Added| {
            let plate = self.records[added.position].plate_number();
            plates.iter().position(|&other| other == plate)
        };
        self.picks.iter().any(|pick| {
            let first = pick.fewest.iter().min_by_key(|added| place(added));
            first.copied() != pick.taken()
        })
    }

    fn has_locks(&self) -> bool {
        self.is(0) && locks::has_any(&self.records)
    }

    /// Whether 12 is given where the locked taxa cost so many quarters more than the page count.
    fn is_refused_by(&self, quarters: u32) -> bool {
        self.is(12) && locks::cost(&self.records) == self.call.count + quarters
    }

    fn locked(&self) -> impl Iterator<Item = &Record> {
        self.records.iter().filter(|record| record.is_locked())
    }

    fn is_short(&self) -> bool {
        self.call.marks < self.records.len()
    }

    fn is_faulty(&self) -> bool {
        rules::check(&self.call.outline).is_some()
    }

    fn has_dear_locks(&self) -> bool {
        !self.is_faulty() && locks::cost(&self.records) > self.call.count
    }

    fn is_refused_by_content(&self) -> bool {
        (5..=8).contains(&self.expected.answer[0])
    }
}

/// What the calls are to be now and then.
const KINDS: [Kind<Picking>; 64] = [
    ("interleaved", |p| p.is(0) && !is_preorder(&p.records)),
    ("in text order", |p| p.is(0) && is_preorder(&p.records)),
    ("one record", |p| p.is(0) && p.records.len() == 1),
    ("127 records", |p| p.is(0) && p.records.len() == 127),
    ("64 taxa", |p| p.is(0) && taxa(&p.records).len() == 64),
    ("nothing chosen", |p| p.has(0)),
    ("every taxon chosen", |p| p.has(taxa(&p.records).len())),
    ("some taxa chosen", |p| {
        p.is(0) && !p.has(0) && !p.has(taxa(&p.records).len())
    }),
    ("no pick asked for", |p| p.asks_for(0)),
    ("one pick asked for", |p| p.asks_for(1)),
    ("two picks asked for", |p| p.asks_for(2)),
    ("63 picks asked for", |p| p.asks_for(63)),
    ("64 picks asked for", |p| p.asks_for(64)),
    ("20 picks made", |p| p.picks.len() >= 20),
    ("fewer made than asked for", |p| p.is(0) && p.picks_fewer()),
    ("as many made as asked for", |p| {
        p.is(0) && !p.picks_fewer() && p.call.picks > 0
    }),
    ("another that is not asked for", |p| {
        p.next.as_ref().is_some_and(|pick| pick.taken().is_some()) && !p.picks_fewer()
    }),
    ("no room for what would add", |p| {
        p.picks_fewer() && p.leaves(|added, room| added.quarters > room && added.diversity > 0)
    }),
    ("room for what adds nothing", |p| {
        p.picks_fewer() && p.leaves(|added, room| added.quarters <= room)
    }),
    ("a free taxon that adds nothing", |p| {
        p.picks_fewer() && p.leaves(|added, _| added.quarters == 0)
    }),
    ("a taxon kept out by headings", |p| {
        p.is_kept_out_by_headings()
    }),
    ("a pick below an open heading", |p| {
        p.picks_less_of(|added| added.quarters)
    }),
    ("a pick below a branch that counts", |p| {
        p.picks_less_of(|added| added.diversity)
    }),
    ("a pick of a dearer taxon for its headings", |p| {
        p.picks_against_prices()
    }),
    ("a pick against the text's order", |p| {
        p.picks_against_text()
    }),
    ("no lock", |p| p.is(0) && !locks::has_any(&p.records)),
    ("one lock", |p| p.is(0) && p.locked().count() == 1),
    ("every taxon locked", |p| {
        p.is(0) && p.locked().count() == taxa(&p.records).len()
    }),
    ("locks and picks", |p| p.has_locks() && !p.picks.is_empty()),
    ("locks alone", |p| p.has_locks() && p.picks.is_empty()),
    ("locks and as many made as asked for", |p| {
        p.has_locks() && !p.picks_fewer() && p.call.picks > 0
    }),
    ("locks that cost the page count", |p| {
        p.has_locks() && p.call.count > 0 && locks::cost(&p.records) == p.call.count
    }),
    ("a ceiling that is the diversity", |p| {
        p.is(0) && p.expected.ceiling == u64::from(p.expected.answer[2]) && !p.has(0)
    }),
    ("a higher ceiling", |p| {
        p.is(0) && p.expected.ceiling > u64::from(p.expected.answer[2])
    }),
    ("a taxon too dear for the ceiling", |p| {
        p.leaves(|added, _| added.price > p.call.count && added.diversity > 0)
    }),
    ("a taxon of the page count's price", |p| {
        p.leaves(|added, _| added.price == p.call.count && added.diversity > 0)
    }),
    ("a taxon in the ceiling that does not fit", |p| {
        p.leaves(|added, room| {
            added.price <= p.call.count && added.quarters > room && added.diversity > 0
        })
    }),
    ("a taxon in the ceiling that never fits", |p| {
        p.leaves(|added, _| {
            added.price <= p.call.count && added.quarters > p.call.count && added.diversity > 0
        })
    }),
    ("a page count of 0", |p| p.is_at(0)),
    ("a page count of 1", |p| p.is_at(1)),
    ("a page count of 64", |p| p.is_at(64)),
    ("a page count of 4096", |p| p.is_at(4_096)),
    ("as many marks as records", |p| {
        p.is(0) && p.call.marks == p.records.len()
    }),
    ("more marks", |p| p.is(0) && p.call.marks > p.records.len()),
    ("12 by one quarter", |p| p.is_refused_by(1)),
    ("12 for headings", |p| {
        let prices: u32 = p.locked().map(|taxon| taxon.price).sum();
        p.is(12) && prices <= p.call.count
    }),
    ("12 with picks", |p| p.is(12) && p.call.picks > 0),
    ("12 with more marks", |p| {
        p.is(12) && p.call.marks > p.records.len()
    }),
    ("9 by one mark", |p| {
        p.is(9) && p.call.marks + 1 == p.records.len()
    }),
    ("9 without marks", |p| p.is(9) && p.call.marks == 0),
    ("9 with dear locks", |p| p.is(9) && p.has_dear_locks()),
    ("a faulty outline with few marks", |p| {
        p.is_refused_by_content() && p.is_short()
    }),
    ("a faulty outline with enough marks", |p| {
        p.is_refused_by_content() && !p.is_short()
    }),
    ("15 by one pick", |p| p.is(15) && p.call.picks == 65),
    ("15 by picks whose last byte is small", |p| {
        p.is(15) && p.call.picks & 255 <= 64
    }),
    ("15 with a faulty outline", |p| p.is(15) && p.is_faulty()),
    ("15 with few marks", |p| p.is(15) && p.is_short()),
    ("15 with dear locks", |p| p.is(15) && p.has_dear_locks()),
    ("4 by one quarter", |p| p.is(4) && p.call.count == 4_097),
    ("4 with many picks", |p| p.is(4) && p.call.picks > 64),
    ("4 with a faulty outline", |p| p.is(4) && p.is_faulty()),
    ("3 with a great page count or many picks", |p| {
        p.is(3) && (p.call.count > 4_096 || p.call.picks > 64)
    }),
    ("2 with a great page count or many picks", |p| {
        p.is(2) && (p.call.count > 4_096 || p.call.picks > 64)
    }),
    ("no outline", |p| p.call.outline.is_empty()),
];

/// What decides a pick.
const DECIDING: [Kind<Pick>; 5] = [
    ("being the only one", |pick| pick.candidates.len() == 1),
    ("added diversity", |pick| {
        pick.candidates.len() > 1 && pick.most.len() == 1
    }),
    ("added quarters", |pick| {
        pick.most.len() > 1 && pick.fewest.len() == 1
    }),
    ("the lowest record", |pick| {
        pick.fewest.len() > 1 && pick.fewest.len() == pick.most.len()
    }),
    ("added quarters and the lowest record", |pick| {
        pick.fewest.len() > 1 && pick.fewest.len() < pick.most.len()
    }),
];

/// How quick choices stand to the best ones of the same outlines and page counts.
#[derive(Default)]
struct Standing {
    as_good: u64,
    worse: u64,
    /// How many have a ceiling that the best reaches.
    reached: u64,
    /// How many have few taxa, so that the best of every subset is known too.
    by_subsets: u64,
    refused: u64,
}

impl Standing {
    fn add(&mut self, observed: &QuickObserved, bests: &[(&str, Best)]) {
        let Some((_, best)) = bests.first() else {
            return;
        };
        let Ok(best) = *best else {
            self.refused += 1;
            return;
        };
        self.as_good += u64::from(observed.diversity() == best);
        self.worse += u64::from(observed.diversity() < best);
        self.reached += u64::from(observed.ceiling() == best.into());
        self.by_subsets += u64::from(bests.len() > 1);
    }

    fn named(&self) -> [(&'static str, u64); 5] {
        [
            ("as good", self.as_good),
            ("worse", self.worse),
            ("a ceiling that is reached", self.reached),
            ("every subset tried", self.by_subsets),
            ("both refused", self.refused),
        ]
    }
}

/// What the calls came to.
struct Met {
    /// How often each refusal was given, and at 0 how often none.
    numbers: [u64; 16],
    kinds: [u64; KINDS.len()],
    deciding: [u64; DECIDING.len()],
    standing: Standing,
    /// How often more picks add nothing, and how often diversity.
    steps: [u64; 2],
}

impl Met {
    fn new() -> Self {
        Met {
            numbers: [0; 16],
            kinds: [0; KINDS.len()],
            deciding: [0; DECIDING.len()],
            standing: Standing::default(),
            steps: [0; 2],
        }
    }

    fn add(&mut self, picking: &Picking) {
        self.numbers[picking.expected.answer[0] as usize] += 1;
        count(&mut self.kinds, &KINDS, picking);
        self.add_picks(picking);
    }

    fn add_picks(&mut self, picking: &Picking) {
        for pick in &picking.picks {
            count(&mut self.deciding, &DECIDING, pick);
        }
    }

    fn add_step(&mut self, fewer: &QuickObserved, more: &QuickObserved) {
        let adds = more.diversity() > fewer.diversity();
        self.steps[usize::from(adds)] += 1;
    }

    fn named_steps(&self) -> [(&'static str, u64); 2] {
        [
            ("add nothing", self.steps[0]),
            ("add diversity", self.steps[1]),
        ]
    }
}

impl Runner {
    /// Beside the best, and beside what fewer picks gave, if that is there.
    fn choose_quickly(
        &mut self,
        picking: &Picking,
        bests: &[(&str, Best)],
        fewer: Option<&QuickObserved>,
    ) -> Result<QuickObserved, Stop> {
        let observed = library::guarded_quick(&picking.call, &mut self.rng);
        let mut comparison = compare::quick(&picking.expected, &observed);
        let beside = |(by, best): &(&str, Best)| compare::beside_best(by, &observed, *best);
        comparison
            .differences
            .extend(bests.iter().filter_map(beside));
        if let (Some(fewer), true) = (fewer, picking.is(0)) {
            let records = picking.records.len();
            let differences = compare::more_picks(fewer, &observed, records);
            comparison.differences.extend(differences);
        }
        self.report
            .add(&comparison, 0, || described(&picking.call))?;
        Ok(observed)
    }

    pub(crate) fn quick_choices(&mut self, calls: u64) -> Result<(), Stop> {
        self.start('v');
        let mut met = Met::new();
        for _ in 0..calls {
            let picking = Picking::of(some_call(&mut self.rng));
            met.add(&picking);
            let bests = if picking.is(0) || picking.is(12) {
                bests(&picking.records, picking.call.count)
            } else {
                Vec::new()
            };
            let observed = self.choose_quickly(&picking, &bests, None)?;
            met.standing.add(&observed, &bests);
        }
        self.report.line(&format!(
            "v. {calls} quick choices, beside the best of the same outlines and page counts"
        ));
        self.report
            .refusals("a quick choice", &REFUSALS, &met.numbers, calls / 200);
        self.report
            .require("a quick choice made", met.numbers[0], calls / 4);
        self.report
            .met("with", &named(&KINDS, met.kinds), calls / 1_000);
        self.report.met(
            "picks decided by",
            &named(&DECIDING, met.deciding),
            calls / 200,
        );
        self.report
            .met("beside the best:", &met.standing.named(), calls / 50);
        Ok(())
    }

    pub(crate) fn more_picks(&mut self, outlines: u64) -> Result<(), Stop> {
        self.start('w');
        let mut met = Met::new();
        for _ in 0..outlines {
            let (records, count) = some_sound_outline(&mut self.rng);
            self.pick_more_and_more(&records, count, &mut met)?;
        }
        for shape in (1..=SMALL).flat_map(shapes::every_outline) {
            for _ in 0..FILLINGS {
                let mut records = shape.clone();
                fill_for_ties(&mut records, &mut self.rng);
                for count in 0..=SMALL_COUNT {
                    self.pick_more_and_more(&records, count, &mut met)?;
                }
            }
        }
        self.report.line(&format!(
            "w. {outlines} outlines, and every shape of up to {SMALL} records filled {FILLINGS} times for page counts up to \
             {SMALL_COUNT}, with more and more picks, beside the best"
        ));
        let least = outlines / 50;
        self.report
            .met("more picks that", &met.named_steps(), outlines);
        self.report
            .met("picks decided by", &named(&DECIDING, met.deciding), least);
        self.report
            .met("all picks beside the best:", &met.standing.named(), least);
        Ok(())
    }

    /// No pick, one and so on up to one that is not made, and as many as can be asked for.
    fn pick_more_and_more(
        &mut self,
        records: &[Record],
        count: u32,
        met: &mut Met,
    ) -> Result<(), Stop> {
        let bests = bests(records, count);
        let mut fewer = None;
        let mut picks = 0;
        loop {
            let picking = Picking::of(QuickCall {
                outline: bytes(records),
                count,
                picks,
                marks: records.len() + extra(&mut self.rng),
            });
            let observed = self.choose_quickly(&picking, &bests, fewer.as_ref())?;
            if let (Some(fewer), true) = (&fewer, picking.is(0)) {
                met.add_step(fewer, &observed);
            }
            if picks == MOST_PICKS {
                met.add_picks(&picking);
                met.standing.add(&observed, &bests);
                return Ok(());
            }
            picks = if picking.picks_fewer() {
                MOST_PICKS
            } else {
                picks + 1
            };
            fewer = Some(observed);
        }
    }

    /// What is given is as stated, and little stack is there for it.
    pub(crate) fn stated_quick_choices(&mut self) -> Result<(), Stop> {
        self.start('x');
        let cases = quick_cases::all();
        for case in &cases {
            let observed = on_small_stack(|| library::guarded_quick(&case.call, &mut self.rng));
            let comparison = compare::quick(&case.expected, &observed);
            self.report.add(&comparison, 0, || described(&case.call))?;
        }
        self.report.line(&format!(
            "x. {} quick choices worked by hand, on a stack of {SMALL_STACK} bytes",
            cases.len()
        ));
        Ok(())
    }
}

/// The best of an accepted outline, by what the library chooses and, where there are few taxa, by every subset.
fn bests(records: &[Record], count: u32) -> Vec<(&'static str, Best)> {
    let mut bests = vec![("plates_choose", chosen(records, count))];
    if taxa(records).len() <= FEW_TAXA {
        let best = exhaustive::best(records, ROOTED, count);
        let diversity = best.map(|[diversity, _]| diversity);
        bests.push(("every subset", diversity.ok_or(12)));
    }
    bests
}

fn chosen(records: &[Record], count: u32) -> Best {
    let [marks, curve, work] = needed(records.len(), count);
    let (mut marks, mut curve, mut work) = (vec![0; marks], vec![0; curve], vec![0; work]);
    let outline = bytes(records);
    let answer = library::choose(&outline, count, ROOTED, &mut marks, &mut curve, &mut work);
    match answer {
        [0, _, diversity, ..] => Ok(diversity),
        [number, ..] => Err(number),
    }
}

/// A call of any outline, page count, number of picks and length of marks.
fn some_call(rng: &mut Random) -> QuickCall {
    let (outline, count) = some_outline(rng);
    let records = outline.len() / RECORD_BYTES;
    QuickCall {
        count: some_count(&outline, count, rng),
        outline,
        picks: some_picks(rng),
        marks: if rng.one_in(8) {
            short(records, rng)
        } else {
            records + extra(rng)
        },
    }
}

/// Mostly sound; else with too many records or taxa, or damaged. With the page count that is meant for it.
pub(crate) fn some_outline(rng: &mut Random) -> (Vec<u8>, u32) {
    match rng.below(16) {
        0..3 => damage::damaged_outline(40, rng),
        3 | 4 => {
            let mut records = damage::any_size(rng);
            shapes::fill_randomly(&mut records, 40, rng);
            (bytes(&records), 40)
        }
        _ => {
            let (records, count) = some_sound_outline(rng);
            (bytes(&records), count)
        }
    }
}

/// Mostly small, at times with headings and locks, and often with ties.
fn some_sound_outline(rng: &mut Random) -> (Vec<Record>, u32) {
    match rng.below(48) {
        0 => full_outline_with_ties(rng),
        1..5 => larger_outline(rng),
        5..25 => small_outline(rng),
        _ => outline_with_ties(rng),
    }
}

/// Mostly for few quarters, since choosing the best for many takes long.
fn full_outline_with_ties(rng: &mut Random) -> (Vec<Record>, u32) {
    let turn = rng.below(840);
    let (mut records, count) = full_outline(turn, rng);
    if rng.one_in(4) {
        return (records, count);
    }
    fill_for_ties(&mut records, rng);
    (records, rng.up_to(300))
}

/// At most 10 taxa, for a page count up to what all of them cost.
fn outline_with_ties(rng: &mut Random) -> (Vec<Record>, u32) {
    let taxa = 1 + rng.index(10);
    let mut records = match rng.below(5) {
        0 => shapes::balanced(rng.up_to(3)),
        1 => shapes::star(taxa),
        _ => shapes::random_outline(taxa, 24, rng),
    };
    fill_for_ties(&mut records, rng);
    let all: u32 = records.iter().map(|record| record.price).sum();
    let count = rng.up_to(all + 1);
    (records, count)
}

/// Lengths, prices and headings of few values, at times groups without branches, taxa whose price is their length, or locks.
pub(crate) fn fill_for_ties(records: &mut [Record], rng: &mut Random) {
    let [length, price, heading] =
        [[0, 1, 1, 2, 9], [0, 1, 2, 3, 9], [0, 1, 2, 3, 9]].map(|most| rng.pick(&most));
    shapes::fill(
        records,
        rng,
        |rng| rng.up_to(length),
        |rng| rng.up_to(price),
    );
    headings::fill(records, rng, |rng| rng.up_to(heading));
    if rng.one_in(3) {
        for group in groups(records) {
            records[group].length = 0;
        }
    }
    if rng.one_in(4) {
        for taxon in taxa(records) {
            records[taxon].length = rng.up_to(9);
            records[taxon].price = records[taxon].length;
        }
    }
    if rng.one_in(3) {
        locks::fill_randomly(records, 8, 8, rng);
    }
}

/// As it is meant, about the cost of the locked taxa, few quarters, or as many as can be or more.
pub(crate) fn some_count(outline: &[u8], meant: u32, rng: &mut Random) -> u32 {
    match rng.below(24) {
        0 => 0,
        1 => 1,
        2 | 3 => rng.up_to(8),
        4 => 64,
        5 => rng.pick(&[4_095, 4_096]),
        6 | 7 => rng.pick(&[4_097, 4_098, 65_536, 1 << 31, u32::MAX]),
        8..12 if rules::check(outline).is_none() => {
            let cost = locks::cost(&outline::records(outline));
            let about = [cost.saturating_sub(1), cost, cost + 1, cost + rng.up_to(8)];
            rng.pick(&about).min(4_096)
        }
        _ => meant,
    }
}

/// None, few, as many as can be, or more.
fn some_picks(rng: &mut Random) -> u32 {
    match rng.below(16) {
        0 => 0,
        1 | 2 => 1,
        3 | 4 => 2,
        5..9 => 1 + rng.up_to(9),
        9 => rng.up_to(64),
        10 => 63,
        11..14 => 64,
        14 => 65,
        _ => rng.pick(&[
            66,
            127,
            128,
            255,
            256,
            257,
            320,
            65_536,
            65_537,
            1 << 31,
            u32::MAX,
        ]),
    }
}

fn described(call: &QuickCall) -> String {
    format!(
        "choose quickly with page count {}, {} picks, {} marks\n  {}",
        call.count,
        call.picks,
        call.marks,
        shell_line(call.count, ROOTED, &call.outline)
    )
}

#[cfg(test)]
mod tests {
    use super::*;
    use crate::library::{Picker, QuickBuffers};
    use crate::quick_cases::QuickCase;
    use crate::wrong_picks::{self, Program, RIGHT};

    #[test]
    fn every_kind_is_stated_and_is_not_every_call() {
        let stated: Vec<Picking> = quick_cases::all()
            .into_iter()
            .map(|case| Picking::of(case.call))
            .collect();
        for (name, holds) in KINDS {
            let times = stated.iter().filter(|picking| holds(picking)).count();
            assert!((1..stated.len()).contains(&times), "{name}: {times}");
        }
        let picks: Vec<&Pick> = stated.iter().flat_map(|picking| &picking.picks).collect();
        for (name, holds) in DECIDING {
            let times = picks.iter().filter(|pick| holds(pick)).count();
            assert!((1..picks.len()).contains(&times), "{name}: {times}");
        }
    }

    type Expectation = (QuickCall, QuickExpected);

    fn stated() -> Vec<Expectation> {
        let both = |case: QuickCase| (case.call, case.expected);
        quick_cases::all().into_iter().map(both).collect()
    }

    fn random(calls: usize) -> Vec<Expectation> {
        let rng = &mut Random::new(1);
        let some = |_| {
            let call = some_call(rng);
            let expected = quick::expected(&call);
            (call, expected)
        };
        (0..calls).map(some).collect()
    }

    fn run(picker: Picker, call: &QuickCall, rng: &mut Random) -> QuickObserved {
        picker(call.count, call.picks, QuickBuffers::random(call, rng))
    }

    /// How many calls show that a program is wrong.
    fn noticed(picker: Picker, calls: &[Expectation]) -> usize {
        let rng = &mut Random::new(2);
        let mut differs = |(call, expected): &Expectation| {
            let observed = run(picker, call, rng);
            !compare::quick(expected, &observed).differences.is_empty()
        };
        calls.iter().filter(|call| differs(call)).count()
    }

    #[test]
    fn wrong_programs_are_noticed_and_a_right_one_is_not() {
        for calls in [stated(), random(2_000)] {
            assert_eq!(noticed(&RIGHT.run(), &calls), 0);
            for (name, program) in wrong_picks::all() {
                assert!(noticed(&program.run(), &calls) > 0, "{name}");
            }
        }
    }

    /// Calls that get an answer or 12, with the best of their outlines and page counts.
    fn with_bests(calls: usize) -> Vec<(QuickCall, Vec<(&'static str, Best)>)> {
        let mut calls = random(calls);
        calls.retain(|(_, expected)| [0, 12].contains(&expected.answer[0]));
        let with_bests = |(call, _): Expectation| {
            let bests = bests(&outline::records(&call.outline), call.count);
            (call, bests)
        };
        calls.into_iter().map(with_bests).collect()
    }

    #[test]
    fn the_best_is_the_same_by_the_library_and_by_every_subset() {
        let (mut same, mut refused) = (0, 0);
        for (_, bests) in with_bests(1_000) {
            if let [(_, chosen), (_, of_subsets)] = bests[..] {
                assert_eq!(chosen, of_subsets);
                same += u32::from(chosen.is_ok());
                refused += u32::from(chosen == Err(12));
            }
        }
        assert!(same > 200 && refused > 30, "{same}, {refused}");
    }

    /// A ceiling that is too low, a set that does not fit or leaves a lock out, and 12 where it is not to be.
    #[test]
    fn what_the_best_does_not_allow_is_noticed_without_what_is_expected() {
        let not_allowed = [
            "headings left out of what fits",
            "what fits the page count without the set",
            "picks that start from nothing",
            "a ceiling of what still fits",
            "a ceiling of what could be picked",
            "a ceiling of as many taxa as picks",
            "a ceiling by prices that there is room for",
            "a ceiling of the taxa's own branches",
            "a ceiling without the set's diversity",
            "a ceiling that is the diversity",
            "12 never given",
            "12 at the page count",
            "12 without headings",
            "nothing chosen refused by 12",
        ];
        let calls = with_bests(3_000);
        let noticed = |program: Program| {
            let rng = &mut Random::new(3);
            let mut differs = |(call, bests): &(QuickCall, Vec<(&str, Best)>)| {
                let observed = run(&program.run(), call, rng);
                let mut bests = bests.iter();
                bests.any(|(by, best)| compare::beside_best(by, &observed, *best).is_some())
            };
            calls.iter().filter(|call| differs(call)).count()
        };
        assert_eq!(noticed(RIGHT), 0);
        for (name, program) in wrong_picks::named(&not_allowed) {
            assert!(noticed(program) > 0, "{name}");
        }
    }

    /// More picks by one program than by another.
    #[test]
    fn what_more_picks_undo_is_noticed_without_what_is_expected() {
        let undoing = [
            "higher record first on a tie",
            "dearer first on a tie",
            "fewest quarters first",
            "least diversity first",
            "one pick less",
        ];
        let calls = with_bests(1_000);
        let noticed = |program: Program| {
            let rng = &mut Random::new(4);
            let mut differs = |(call, _): &(QuickCall, Vec<(&str, Best)>)| {
                let fewer = run(&RIGHT.run(), call, rng);
                let more = QuickCall {
                    picks: call.picks.max(1),
                    ..call.clone()
                };
                let more = run(&program.run(), &more, rng);
                let records = call.outline.len() / RECORD_BYTES;
                fewer.returned == 0 && !compare::more_picks(&fewer, &more, records).is_empty()
            };
            calls.iter().filter(|call| differs(call)).count()
        };
        assert_eq!(noticed(RIGHT), 0);
        for (name, program) in wrong_picks::named(&undoing) {
            assert!(noticed(program) > 10, "{name}");
        }
    }

    #[test]
    fn outlines_with_ties_are_accepted_and_have_few_values() {
        let rng = &mut Random::new(5);
        let (mut even, mut locked) = (0, 0);
        for _ in 0..1_000 {
            let (records, count) = outline_with_ties(rng);
            assert_eq!(rules::check(&bytes(&records)), None, "{records:?}");
            assert!(records
                .iter()
                .all(|record| record.length.max(record.price) <= 9));
            assert!(taxa(&records).len() <= 10 && count <= 24 * 9 + 1);
            even += u32::from(records.iter().all(|record| record.length == 0));
            locked += u32::from(locks::has_any(&records));
        }
        assert!(even > 50 && locked > 200, "{even}, {locked}");
    }
}
