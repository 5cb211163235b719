//! Outlines with prices between low and high ones, and what is promised of each (document 02, §12): the sure set fits there and has
//! the floor's diversity, and the best there lies from floor to roof.

use crate::call::Call;
use crate::compare::{self, Comparison};
use crate::expect::{self, by_exhaustive_search, Expected};
use crate::headings;
use crate::library::{self, Buffers, ChooseObserved, RangeBuffers, RangeObserved, Ranger};
use crate::locks;
use crate::outline::{self, bytes, Record, RECORD_BYTES};
use crate::quick_runs::fill_for_ties;
use crate::random::Random;
use crate::range::{self, RangeCall, Ranged};
use crate::range_runs::some_range;
use crate::report::{shell_line, Stop};
use crate::runs::{full_outline, larger_outline, Runner, WAYS};
use crate::shapes;
use crate::sheet;

/// No range of which every outline is tried has more of them.
const MOST_BETWEEN: u64 = 2_048;
/// Every shape of up to so many records has its ranges tried.
const SMALL: usize = 4;
/// Each of these shapes is filled so many times.
const FILLINGS: usize = 6;
/// They are chosen from for each page count up to this.
const SMALL_COUNT: u32 = 6;
/// So many outlines are drawn between larger ones.
const DRAWN: usize = 3;

/// Every outline with prices from those of low to those of high, both included; the two differ in nothing else.
fn every_between([low, high]: &[Vec<Record>; 2]) -> Vec<Vec<Record>> {
    let mut all = vec![low.clone()];
    for (at, record) in high.iter().enumerate() {
        let at_each_price = |records: Vec<Record>| {
            let prices = records[at].price..=record.price;
            prices.map(move |price| {
                let mut records = records.clone();
                records[at].price = price;
                records
            })
        };
        all = all.into_iter().flat_map(at_each_price).collect();
    }
    all
}

/// How many these are.
fn times([low, high]: &[Vec<Record>; 2]) -> u64 {
    let pairs = low.iter().zip(high);
    pairs
        .map(|(low, high)| u64::from(high.price - low.price) + 1)
        .product()
}

fn some_between([low, high]: &[Vec<Record>; 2], rng: &mut Random) -> Vec<Record> {
    let pairs = low.iter().zip(high);
    let drawn = pairs.map(|(low, high)| Record {
        price: low.price + rng.up_to(high.price - low.price),
        ..*high
    });
    drawn.collect()
}

/// Where an outline between does not keep what is promised beside a call for the range that is not refused. `best` is what a choice
/// there is expected to give, and `chosen` what the library makes of it.
fn not_kept(
    observed: &RangeObserved,
    between: &Call,
    best: &Expected,
    chosen: &ChooseObserved,
) -> Vec<String> {
    let records = outline::records(&between.outline);
    let Some(marks) = observed.chosen.after.marks.content().get(..records.len()) else {
        return vec![format!("fewer than {} marks", records.len())];
    };
    let (floor, roof) = (observed.chosen.after.answer.content()[2], observed.roof());
    let [cost, diversity] = sheet::sums(&records, between.way, marks);
    let mut pairs = records.iter().zip(marks);
    let has_locks = pairs.all(|(record, &mark)| mark == 1 || !record.is_locked());
    let [number, _, best, ..] = best.answer;
    let of_library = chosen.after.answer.content();
    let is_between = |number: u32, best: u32| number == 0 && (floor..=roof).contains(&best);
    let wrong = [
        (cost > between.count, format!("the sure set costs {cost}")),
        (!has_locks, "the sure set lacks a lock".to_string()),
        (diversity != floor, format!("the sure set has {diversity}")),
        (
            !is_between(number, best),
            format!("the best is {best}, refusal {number}"),
        ),
        (
            !is_between(of_library[0], of_library[2]),
            format!("plates_choose gives {of_library:?}"),
        ),
    ];
    let wrong = wrong.into_iter().filter(|(holds, _)| *holds);
    wrong
        .map(|(_, what)| format!("floor {floor}, roof {roof}: {what}"))
        .collect()
}

/// Two outlines, low and high, a page count and a way.
struct Range<'a> {
    outlines: &'a [Vec<Record>; 2],
    count: u32,
    way: u32,
}

/// What works out a choosing call.
type Choose<'a> = &'a dyn Fn(&Call, &mut Random) -> Expected;

/// A call for a range, and of outlines between a choosing call each, with what was compared.
struct Tried {
    call: RangeCall,
    ranged: Ranged,
    comparison: Comparison,
    between: Vec<(Call, Expected, Comparison)>,
}

impl Range<'_> {
    fn call(&self, rng: &mut Random) -> RangeCall {
        let [low, high] = self.outlines.each_ref().map(|records| bytes(records));
        RangeCall {
            high: Call::roomy(high, self.count, self.way, rng),
            low,
            within: None,
        }
    }

    /// Nothing is promised where the range is refused.
    fn tried(
        &self,
        between: impl IntoIterator<Item = Vec<Record>>,
        choose: Choose,
        ranger: Ranger,
        rng: &mut Random,
    ) -> Tried {
        let call = self.call(rng);
        let ranged = range::expected(&call, |call| choose(call, rng));
        let observed = ranger(&call, RangeBuffers::random(&call, rng));
        let comparison = compare::range(&ranged.0, &observed);
        let mut tried = Vec::new();
        if ranged.0.number() == 0 {
            for records in between {
                let call = Call::roomy(bytes(&records), self.count, self.way, rng);
                let best = choose(&call, rng);
                let chosen = library::choose_in(self.count, self.way, Buffers::random(&call, rng));
                let mut comparison = compare::choose(&best, &chosen);
                let differences = not_kept(&observed, &call, &best, &chosen);
                comparison.differences.extend(differences);
                tried.push((call, best, comparison));
            }
        }
        Tried {
            call,
            ranged,
            comparison,
            between: tried,
        }
    }
}

/// What the ranges and the outlines between came to.
#[derive(Default)]
struct Met {
    /// Ranges whose floor is below their roof, and whose floor it is, and those refused by 12.
    ranges: [u64; 3],
    /// Outlines between a floor and a roof above it: of which the best is the floor, the roof, and neither.
    apart: [u64; 3],
    /// Outlines where floor and roof are one.
    alike: u64,
    /// Outlines of which the sure set is the best.
    sure: u64,
    /// The most outlines of one range.
    most: u64,
}

impl Met {
    fn add(&mut self, tried: &Tried) {
        let (expected, at_low) = &tried.ranged;
        let (floor, roof) = (expected.floor(), expected.roof);
        if at_low.is_none() {
            self.ranges[2] += 1;
            return;
        }
        self.ranges[usize::from(floor == roof)] += 1;
        self.most = self.most.max(tried.between.len() as u64);
        for (_, best, _) in &tried.between {
            self.sure += u64::from(best.marks == expected.choice.marks);
            let best = best.answer[2];
            if floor == roof {
                self.alike += 1;
            } else if best == floor {
                self.apart[0] += 1;
            } else if best == roof {
                self.apart[1] += 1;
            } else {
                self.apart[2] += 1;
            }
        }
    }

    fn outlines(&self) -> u64 {
        self.apart.iter().sum::<u64>() + self.alike
    }

    fn named(&self) -> [(&'static str, u64); 8] {
        let [below, same, refused] = self.ranges;
        let [floor, roof, neither] = self.apart;
        [
            ("ranges whose floor is below the roof", below),
            ("whose floor is the roof", same),
            ("refused by 12", refused),
            (
                "outlines between whose best is the floor, the roof above it",
                floor,
            ),
            ("whose best is the roof, the floor below it", roof),
            ("whose best is strictly between", neither),
            ("whose best is floor and roof", self.alike),
            ("whose best set is the sure set", self.sure),
        ]
    }
}

impl Runner {
    fn try_between(
        &mut self,
        outlines: &[Vec<Record>; 2],
        (count, way): (u32, u32),
        between: impl IntoIterator<Item = Vec<Record>>,
        choose: Choose,
        met: &mut Met,
    ) -> Result<(), Stop> {
        let range = Range {
            outlines,
            count,
            way,
        };
        let tried = range.tried(between, choose, &library::range, &mut self.rng);
        met.add(&tried);
        let (expected, _) = &tried.ranged;
        self.add_range(&tried.call, expected, &tried.comparison)?;
        for (call, best, comparison) in &tried.between {
            let columns = best.curve.len() / 2;
            self.report
                .add(comparison, columns, || described(call, &tried.call))?;
        }
        Ok(())
    }

    fn try_every_between(
        &mut self,
        outlines: &[Vec<Record>; 2],
        count: u32,
        met: &mut Met,
    ) -> Result<(), Stop> {
        let choose: Choose = &by_exhaustive_search;
        for way in WAYS {
            let between = every_between(outlines);
            self.try_between(outlines, (count, way), between, choose, met)?;
        }
        Ok(())
    }

    pub(crate) fn every_price_between(&mut self, ranges: u64) -> Result<(), Stop> {
        self.start('K');
        let mut met = Met::default();
        for _ in 0..ranges {
            let (outlines, count) = some_small_range(&mut self.rng);
            self.try_every_between(&outlines, count, &mut met)?;
        }
        for shape in (1..=SMALL).flat_map(shapes::every_outline) {
            for _ in 0..FILLINGS {
                let mut records = shape.clone();
                fill_for_ties(&mut records, &mut self.rng);
                let outlines = raised(&records, records.len(), &mut self.rng);
                for count in 0..=SMALL_COUNT {
                    self.try_every_between(&outlines, count, &mut met)?;
                }
            }
        }
        self.report.line(&format!(
            "K. {ranges} small ranges, and those of every shape of up to {SMALL} records filled {FILLINGS} times for page counts up \
             to {SMALL_COUNT}, each with every outline between, {} of them and at most {} of one range, against every subset",
            met.outlines(),
            met.most
        ));
        self.report.met("with", &met.named(), ranges / 4);
        Ok(())
    }

    pub(crate) fn some_prices_between(&mut self, outlines: u64, full: u64) -> Result<(), Stop> {
        self.start('L');
        let mut met = Met::default();
        for turn in 0..outlines + full {
            let (records, count) = match turn.checked_sub(outlines) {
                Some(turn) => full_outline(turn, &mut self.rng),
                None => larger_outline(&mut self.rng),
            };
            let range = some_range(&records, &mut self.rng);
            for way in WAYS {
                let between = [(); DRAWN].map(|()| some_between(&range, &mut self.rng));
                let choose: Choose = &|call, _| expect::by_table(call);
                self.try_between(&range, (count, way), between, choose, &mut met)?;
            }
        }
        self.report.line(&format!(
            "L. {outlines} larger ranges and {full} of 64 taxa, either way, each with {DRAWN} outlines between, against the table"
        ));
        self.report.met("with", &met.named(), outlines / 50);
        Ok(())
    }
}

/// At most 5 taxa, at times with headings and locks, and higher prices at some records, for a page count that has room for some.
fn some_small_range(rng: &mut Random) -> ([Vec<Record>; 2], u32) {
    let taxa = 1 + rng.index(5);
    let mut records = shapes::random_outline(taxa, taxa + 4, rng);
    if rng.one_in(3) {
        fill_for_ties(&mut records, rng);
    } else {
        shapes::fill(&mut records, rng, |rng| rng.up_to(30), |rng| rng.up_to(3));
        if rng.one_in(2) {
            headings::fill(&mut records, rng, |rng| rng.up_to(2));
        }
    }
    let tries = 2 * records.len();
    let outlines = raised(&records, tries, rng);
    let all: u32 = outlines[1].iter().map(|record| record.price).sum();
    let count = rng.up_to(all.min(12) + 1);
    if locks::has_any(&records) || !rng.one_in(4) {
        return (outlines, count);
    }
    let [mut low, mut high] = outlines;
    let count = locks::fill_randomly(&mut high, count, 12, rng);
    for (low, high) in low.iter_mut().zip(&high) {
        low.plate = high.plate;
    }
    ([low, high], count)
}

/// The records and the same with higher prices at some, as long as there are not too many outlines between.
fn raised(records: &[Record], tries: usize, rng: &mut Random) -> [Vec<Record>; 2] {
    let mut outlines = [records.to_vec(), records.to_vec()];
    for _ in 0..1 + rng.index(tries) {
        let at = rng.index(records.len());
        let price = outlines[1][at].price;
        outlines[1][at].price += 1 + rng.up_to(2);
        if times(&outlines) > MOST_BETWEEN {
            outlines[1][at].price = price;
        }
    }
    outlines
}

fn described(between: &Call, range: &RangeCall) -> String {
    let line = |outline: &[u8]| shell_line(between.count, between.way, outline);
    format!(
        "choose between two prices, with {} records, page count {}, way {}\n  {}\n  low: {}\n  high: {}",
        between.outline.len() / RECORD_BYTES,
        between.count,
        between.way,
        line(&between.outline),
        line(&range.low),
        line(&range.high.outline)
    )
}

#[cfg(test)]
mod tests {
    use super::*;
    use crate::cases::tree_a;
    use crate::heading_cases::tree_a_with;
    use crate::lock_cases::locking;
    use crate::wrong_ranges::{self, Program, RIGHT};

    /// Tree A with a heading of 0 to 2 at record 2, and plate 11 for 3 or 4 quarters.
    fn range_of_tree_a() -> [Vec<Record>; 2] {
        let mut high = tree_a_with(0, 2);
        high[2].price = 4;
        [tree_a(), high]
    }

    #[test]
    fn every_outline_between_is_there_once() {
        let outlines = range_of_tree_a();
        let all = every_between(&outlines);
        let prices: Vec<[u32; 2]> = all
            .iter()
            .map(|records| [records[1].price, records[2].price])
            .collect();
        assert_eq!(prices, [[0, 3], [0, 4], [1, 3], [1, 4], [2, 3], [2, 4]]);
        assert_eq!(times(&outlines), 6);
        for mut records in all {
            (records[1].price, records[2].price) = (0, 3);
            assert_eq!(records, tree_a());
        }
        let same = [tree_a(), tree_a()];
        assert_eq!((every_between(&same), times(&same)), (vec![tree_a()], 1));
    }

    #[test]
    fn drawn_outlines_lie_between() {
        let rng = &mut Random::new(1);
        let outlines = range_of_tree_a();
        let all = every_between(&outlines);
        let drawn: Vec<Vec<Record>> = (0..200).map(|_| some_between(&outlines, rng)).collect();
        assert!(all.iter().all(|records| drawn.contains(records)));
        assert!(drawn.iter().all(|records| all.contains(records)));
    }

    #[test]
    fn small_ranges_are_accepted_and_have_not_too_many_outlines_between() {
        let rng = &mut Random::new(2);
        let (mut locked, mut many, mut one) = (0, 0, 0);
        for _ in 0..1_000 {
            let (outlines, count) = some_small_range(rng);
            let [low, high] = outlines.each_ref().map(|records| bytes(records));
            assert_eq!(crate::rules::check(&low), None);
            assert_eq!(range::bad_range(&low, &high), None, "{outlines:?}");
            assert!(count <= 13 && times(&outlines) <= MOST_BETWEEN);
            locked += u32::from(locks::has_any(&outlines[0]));
            many += u32::from(times(&outlines) > 100);
            one += u32::from(times(&outlines) < 5);
        }
        assert!(
            locked > 100 && many > 100 && one > 100,
            "{locked}, {many}, {one}"
        );
    }

    /// What is found of a right program's range of tree A with plate 13 locked, altered, at prices between, for 5 quarters.
    fn found(alter: fn(&mut RangeObserved), best: u32, chosen: [u32; 3]) -> Vec<String> {
        let rng = &mut Random::new(3);
        let outlines = range_of_tree_a().map(|records| locking(&[5], records));
        let (count, way) = (5, 0);
        let range = Range {
            outlines: &outlines,
            count,
            way,
        };
        let call = range.call(rng);
        let mut observed = RIGHT.run()(&call, RangeBuffers::random(&call, rng));
        assert_eq!(observed.chosen.after.answer.content(), [0, 0, 10, 5, 2, 0]);
        assert_eq!(observed.roof(), 12);
        alter(&mut observed);
        let between = Call::roomy(bytes(&every_between(&outlines)[2]), count, way, rng);
        let mut expected = expect::by_table(&between);
        let mut of_library = library::guarded_choose(&between, rng);
        assert_eq!(expected.answer[2], 10);
        expected.answer[2] = best;
        let [number, place, diversity] = chosen;
        of_library.after.answer.write(&[number, place, diversity]);
        not_kept(&observed, &between, &expected, &of_library)
    }

    #[test]
    fn what_is_not_kept_between_is_said() {
        assert_eq!(found(|_| {}, 10, [0, 0, 10]), [""; 0]);
        assert_eq!(found(|_| {}, 12, [0, 0, 12]), [""; 0]);
        let of = |text: &str| [format!("floor 10, roof 12: {text}")];
        assert_eq!(found(|_| {}, 9, [0, 0, 10]), of("the best is 9, refusal 0"));
        assert_eq!(
            found(|_| {}, 13, [0, 0, 10]),
            of("the best is 13, refusal 0")
        );
        let refused = "plates_choose gives [12, 0, 11, 4, 2, 1]";
        assert_eq!(found(|_| {}, 10, [12, 0, 11]), of(refused));
        let below = "plates_choose gives [0, 0, 9, 4, 2, 1]";
        assert_eq!(found(|_| {}, 10, [0, 0, 9]), of(below));
        let above = "plates_choose gives [0, 0, 13, 4, 2, 1]";
        assert_eq!(found(|_| {}, 10, [0, 0, 13]), of(above));
    }

    #[test]
    fn a_sure_set_that_is_none_between_is_said() {
        // {3, 5} has 12 for 6, and {3, 4} has 9 for 5 without the lock
        let dear: fn(&mut RangeObserved) = |observed| {
            observed.chosen.after.marks.write(&[0, 0, 1, 0, 1]);
            observed.chosen.after.answer.cells[observed.chosen.after.answer.start + 2] = 12;
        };
        assert_eq!(
            found(dear, 12, [0, 0, 12]),
            ["floor 12, roof 12: the sure set costs 6"]
        );
        let unlocked: fn(&mut RangeObserved) = |observed| {
            observed.chosen.after.marks.write(&[0, 0, 1, 1, 0]);
            observed.chosen.after.answer.cells[observed.chosen.after.answer.start + 2] = 9;
        };
        assert_eq!(
            found(unlocked, 10, [0, 0, 10]),
            ["floor 9, roof 12: the sure set lacks a lock"]
        );
        let floor: fn(&mut RangeObserved) = |observed| {
            observed.chosen.after.answer.cells[observed.chosen.after.answer.start + 2] = 9;
        };
        assert_eq!(
            found(floor, 10, [0, 0, 10]),
            ["floor 9, roof 12: the sure set has 10"]
        );
        let roof: fn(&mut RangeObserved) = |observed| observed.roof_after.write(&[9]);
        assert_eq!(found(roof, 10, [0, 0, 10]).len(), 2);
    }

    #[test]
    fn outlines_between_are_counted_by_what_their_best_is() {
        let outlines = range_of_tree_a();
        let mut met = Met::default();
        let mut add = |count| {
            let range = Range {
                outlines: &outlines,
                count,
                way: 0,
            };
            let rng = &mut Random::new(4);
            let between = every_between(&outlines);
            let tried = range.tried(between, &by_exhaustive_search, &RIGHT.run(), rng);
            assert!(tried.comparison.differences.is_empty());
            met.add(&tried);
        };
        // {3, 5} fits at low prices alone, and 10 is the best of all others
        add(5);
        // all cost 9 at high prices, and fit there
        add(9);
        assert_eq!((met.ranges, met.apart), ([1, 1, 0], [5, 1, 0]));
        assert_eq!((met.alike, met.outlines(), met.most), (6, 12, 6));
    }

    /// Whether outlines between show by themselves, without what is expected of the range, that a program is wrong.
    fn is_noticed_between(program: Program) -> bool {
        let rng = &mut Random::new(5);
        let program = program.run();
        (0..300).any(|_| {
            let (outlines, count) = some_small_range(rng);
            let range = Range {
                outlines: &outlines,
                count,
                way: rng.up_to(1),
            };
            let between = [(); 8].map(|()| some_between(&outlines, rng));
            let tried = range.tried(between, &by_exhaustive_search, &program, rng);
            let mut between = tried.between.iter();
            between.any(|(_, _, comparison)| !comparison.differences.is_empty())
        })
    }

    #[test]
    fn what_breaks_a_promise_is_noticed_between_alone_and_what_keeps_all_is_not() {
        assert!(!is_noticed_between(RIGHT));
        for (name, program) in wrong_ranges::named(&SHOWN_BETWEEN) {
            assert!(is_noticed_between(program), "{name}");
        }
        for (name, program) in wrong_ranges::named(&WRONG_BEYOND_THE_PROMISES) {
            assert!(!is_noticed_between(program), "{name}");
        }
    }

    /// Wrong programs whose sure set is none, whose floor is not its diversity, or whose roof is too low.
    const SHOWN_BETWEEN: [&str; 24] = [
        "prices the other way round",
        "the sure set from low",
        "the sure set at high headings alone",
        "the sure set at high prices of taxa alone",
        "the sure set halfway",
        "the sure set in the other way",
        "the sure set without locks",
        "the roof from high",
        "the roof at low prices of taxa alone",
        "the roof at low headings alone",
        "the roof halfway",
        "the roof at one quarter less",
        "the roof at no quarter",
        "the roof in the other way",
        "the floor",
        "the cost at low prices",
        "the number of taxa at low prices",
        "the curve's other column",
        "the curve's last but one",
        "no roof",
        "low and high exchanged once judged",
        "the choice at low prices left",
        "the marks of low left",
        "the diversity of low given",
    ];

    /// Wrong programs whose roof is too high, or that are wrong in what nothing is promised of between.
    const WRONG_BEYOND_THE_PROMISES: [&str; 7] = [
        "the roof without prices",
        "the roof at one quarter more",
        "the roof at 4,096 quarters",
        "one more than the best",
        "the lengths of the whole tree",
        "the curve of low left",
        "the cost of low given",
    ];

    /// What is told of an outline between, beside what is expected of its range: the choice at high prices, at low ones and there.
    type Promise = fn([&Expected; 3]) -> bool;

    fn diversities(choices: [&Expected; 3]) -> [u32; 3] {
        choices.map(|choice| choice.answer[2])
    }

    /// Whether each record that the one set marks is marked by the other.
    fn is_within(one: &Expected, other: &Expected) -> bool {
        let mut pairs = one.marks.iter().zip(&other.marks);
        pairs.all(|(one, other)| one <= other)
    }

    /// Whether it holds for the diversity of each column, at high prices, at low ones and between.
    fn in_each_column(choices: [&Expected; 3], holds: fn([u32; 3]) -> bool) -> bool {
        let columns = choices[0].curve.len() / 2;
        (0..columns).all(|column| holds(choices.map(|choice| choice.curve[2 * column])))
    }

    const KEPT: [(&str, Promise); 2] = [
        ("the best lies from floor to roof", |choices| {
            let [floor, roof, best] = diversities(choices);
            floor <= best && best <= roof
        }),
        ("so it does at each smaller page count", |choices| {
            in_each_column(choices, |[floor, roof, best]| floor <= best && best <= roof)
        }),
    ];

    /// What might be thought to be promised and is not.
    const MISTAKEN: [(&str, Promise); 12] = [
        ("the sure set is the best", |[high, _, best]| {
            high.marks == best.marks
        }),
        (
            "the sure set is the best where the floor is the roof",
            |choices| {
                let [floor, roof, _] = diversities(choices);
                floor < roof || choices[0].marks == choices[2].marks
            },
        ),
        (
            "the sure set is the best at low prices where the floor is the roof",
            |choices| {
                let [floor, roof, _] = diversities(choices);
                floor < roof || choices[0].marks == choices[1].marks
            },
        ),
        ("the best is the floor or the roof", |choices| {
            let [floor, roof, best] = diversities(choices);
            best == floor || best == roof
        }),
        ("the best is below a roof above the floor", |choices| {
            let [floor, roof, best] = diversities(choices);
            floor == roof || best < roof
        }),
        ("the best is above a floor below the roof", |choices| {
            let [floor, roof, best] = diversities(choices);
            floor == roof || best > floor
        }),
        ("the best has what is sure", |[high, _, best]| {
            is_within(high, best)
        }),
        (
            "what is best at low prices has the best",
            |[_, low, best]| is_within(best, low),
        ),
        (
            "the best has no more taxa than at low prices",
            |[_, low, best]| best.answer[4] <= low.answer[4],
        ),
        (
            "the best has no fewer taxa than are sure",
            |[high, _, best]| best.answer[4] >= high.answer[4],
        ),
        (
            "the best costs no more than the sure set at high prices",
            |[high, _, best]| best.answer[3] <= high.answer[3],
        ),
        (
            "the best costs no less than the sure set at high prices",
            |[high, _, best]| best.answer[3] >= high.answer[3],
        ),
    ];

    /// Of small ranges every outline between, by every subset.
    #[test]
    fn what_is_promised_is_kept_between_and_what_might_be_thought_is_not() {
        let rng = &mut Random::new(6);
        let mut broken = [0; MISTAKEN.len()];
        for _ in 0..400 {
            let (outlines, count) = some_small_range(rng);
            let way = rng.up_to(1);
            let chosen = |records: &[Record], rng: &mut Random| {
                let call = Call::roomy(bytes(records), count, way, rng);
                by_exhaustive_search(&call, rng)
            };
            let [low, high] = outlines.each_ref().map(|records| chosen(records, rng));
            if high.answer[0] != 0 {
                continue;
            }
            for records in every_between(&outlines) {
                let best = chosen(&records, rng);
                let choices = [&high, &low, &best];
                for (name, holds) in KEPT {
                    assert!(holds(choices), "{name}: {outlines:?}, {records:?}");
                }
                for (times, (_, holds)) in broken.iter_mut().zip(MISTAKEN) {
                    *times += u32::from(!holds(choices));
                }
            }
        }
        for (times, (name, _)) in broken.into_iter().zip(MISTAKEN) {
            assert!(times > 10, "{name}: {times}");
        }
    }
}
