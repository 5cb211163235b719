//! The runs that choose for prices that are not yet agreed.

use crate::call::{needed, Call};
use crate::compare::{self, Comparison};
use crate::damage::{damaged_outline, some_way};
use crate::exhaustive::NOTHING;
use crate::expect::{self, by_exhaustive_search, is_small, Expected};
use crate::headings;
use crate::library::{self, RangeObserved};
use crate::locks;
use crate::outline::{
    self, bytes, is_preorder, taxa, Record, LOCK, RECORD_BYTES, ROOTED, UNROOTED,
};
use crate::quick_runs::{some_count, some_outline};
use crate::random::Random;
use crate::range::{self, RangeCall, RangeExpected};
use crate::range_cases::{self, RangeCase};
use crate::report::{shell_line, Stop};
use crate::revise_runs::outline_of_many_lengths;
use crate::rules::{self, Refusal};
use crate::runs::Runner;
use crate::shapes;
use crate::text_runs::{on_small_stack, SMALL_STACK};
use crate::view_pairs::Kind;
use crate::view_runs::{count, named, FAULTS};

/// The refusals that choosing for a range of prices can give, in their order.
const REFUSALS: [usize; 11] = [1, 2, 3, 5, 6, 7, 8, 17, 4, 9, 12];

/// A call for a range of prices and what is expected of it.
struct Ranging {
    /// The records of the low outline and of the high one.
    records: [Vec<Record>; 2],
    /// What the check says of each.
    checks: [Option<Refusal>; 2],
    call: RangeCall,
    expected: RangeExpected,
    /// What a choice at low prices gives; nothing on a refusal.
    at_low: Option<Expected>,
    /// What is expected by every subset at both prices, where they are few.
    by_subsets: Option<RangeExpected>,
}

impl Ranging {
    fn of(call: RangeCall, rng: &mut Random) -> Self {
        let (expected, at_low) = range::expected(&call, expect::by_table);
        let few = (at_low.is_some() || expected.number() == 12) && is_small(&call.high);
        let mut by_subsets = || range::expected(&call, |call| by_exhaustive_search(call, rng)).0;
        Ranging {
            records: call.outlines().map(outline::records),
            checks: call.outlines().map(rules::check),
            by_subsets: few.then(&mut by_subsets),
            call,
            expected,
            at_low,
        }
    }

    fn is(&self, number: u32) -> bool {
        self.expected.number() == number
    }

    fn high(&self) -> &[Record] {
        &self.records[1]
    }

    /// Whether it is chosen and it holds for floor and roof.
    fn has(&self, holds: fn(u32, u32) -> bool) -> bool {
        self.is(0) && holds(self.expected.floor(), self.expected.roof)
    }

    fn has_by(&self, way: u32, holds: fn(u32, u32) -> bool) -> bool {
        self.call.high.way == way && self.has(holds)
    }

    /// Whether it holds for the choices at low prices and at high ones.
    fn are(&self, holds: fn(&Expected, &Expected) -> bool) -> bool {
        let mut at_low = self.at_low.iter();
        at_low.any(|low| holds(low, &self.expected.choice))
    }

    /// Whether it is chosen and a price is higher, at a record for which it holds.
    fn rises_at(&self, holds: fn(&Record) -> bool) -> bool {
        let mut pairs = self.records[0].iter().zip(self.high());
        self.is(0) && pairs.any(|(low, high)| low.price < high.price && holds(high))
    }

    /// Whether it is chosen and a price is higher, of which it holds for low and high.
    fn rises(&self, holds: fn(u32, u32) -> bool) -> bool {
        let mut pairs = self.records[0].iter().zip(self.high());
        self.is(0)
            && pairs.any(|(low, high)| low.price < high.price && holds(low.price, high.price))
    }

    fn is_in_one_memory(&self) -> bool {
        self.call.within == Some(0)
    }

    /// What the buffers have more than they need, marks, curve and work, where the page count is no reason to refuse.
    fn has_room(&self, holds: fn([i64; 3]) -> bool) -> bool {
        let high = &self.call.high;
        high.count <= 4_096 && {
            let needed = needed(self.high().len(), high.count);
            let more = |length: usize, needed: usize| length as i64 - needed as i64;
            holds([
                more(high.marks, needed[0]),
                more(high.curve, needed[1]),
                more(high.work, needed[2]),
            ])
        }
    }

    fn is_short(&self) -> bool {
        self.has_room(|more| more.into_iter().any(|more| more < 0))
    }

    /// Whether both outlines are accepted and the locked taxa cost too much: at low prices, and at high ones.
    fn are_dear(&self, [low, high]: [bool; 2]) -> bool {
        let are = |at: usize| {
            self.checks[at].is_none() && locks::cost(&self.records[at]) > self.call.high.count
        };
        are(0) == low && are(1) == high
    }

    /// Whether 17 is given at a record and it holds for the number of records and its position.
    fn is_at(&self, holds: impl Fn(usize, usize) -> bool) -> bool {
        let place = self.expected.choice.answer[1] as usize;
        self.is(17) && place > 0 && holds(self.high().len(), place - 1)
    }

    /// Whether 17 is given at a record of which it holds for low and high.
    fn is_by(&self, holds: fn(&Record, &Record) -> bool) -> bool {
        self.is_at(|_, at| holds(&self.records[0][at], &self.records[1][at]))
    }

    /// Whether 17 is given at a record and it holds for what is wrong with it and with a later one.
    fn is_before(&self, holds: fn(Wrong, Wrong) -> bool) -> bool {
        self.is_at(|records, at| {
            let wrong = |at: usize| Wrong::of(&self.records[0][at], &self.records[1][at]);
            let mut later = at + 1..records;
            later.any(|later| wrong(later) != Wrong::Nothing && holds(wrong(at), wrong(later)))
        })
    }

    /// Whether 17 is given without a place, and it holds for the numbers of records of low and high.
    fn are_of(&self, holds: fn(usize, usize) -> bool) -> bool {
        let [low, high] = [0, 1].map(|at| self.records[at].len());
        self.is(17) && self.expected.choice.answer[1] == 0 && holds(low, high)
    }

    /// Which outlines the check refuses, where the way is one.
    fn refuses(&self, outlines: [bool; 2]) -> bool {
        self.checks.map(|refusal| refusal.is_some()) == outlines && !self.is(1)
    }

    /// Whether the check refuses both, and it holds for what is given for low and for high.
    fn refuses_both(&self, holds: fn(Refusal, Refusal) -> bool) -> bool {
        match self.checks {
            [Some(low), Some(high)] => !self.is(1) && holds(low, high),
            _ => false,
        }
    }

    fn is_bad_range(&self) -> bool {
        let [low, high] = self.call.outlines();
        self.checks == [None; 2] && range::bad_range(low, high).is_some()
    }
}

/// What is wrong with a record.
#[derive(Clone, Copy, PartialEq)]
enum Wrong {
    Nothing,
    Price,
    Another,
}

impl Wrong {
    fn of(low: &Record, high: &Record) -> Self {
        let price = high.price;
        if (Record { price, ..*low }) != *high {
            Wrong::Another
        } else if low.price > price {
            Wrong::Price
        } else {
            Wrong::Nothing
        }
    }
}

/// Whether the low price is above the high one, and nothing else is wrong.
fn is_turned(low: &Record, high: &Record) -> bool {
    Wrong::of(low, high) == Wrong::Price
}

/// The same record but for its price and for what is made of it.
fn is_but_for(low: &Record, high: &Record, make: fn(&mut Record, &Record)) -> bool {
    let mut made = *low;
    made.price = high.price;
    let other = made != *high;
    make(&mut made, high);
    other && made == *high
}

/// How many columns of the curve no set fits.
fn blank_columns(choice: &Expected) -> usize {
    let columns = choice.curve.chunks(2);
    columns.filter(|&column| column == NOTHING).count()
}

/// What the calls are to be now and then.
const KINDS: [Kind<Ranging>; 86] = [
    ("rooted, floor below roof", |r| {
        r.has_by(ROOTED, |floor, roof| floor < roof)
    }),
    ("rooted, floor that is the roof", |r| {
        r.has_by(ROOTED, |floor, roof| floor == roof)
    }),
    ("unrooted, floor below roof", |r| {
        r.has_by(UNROOTED, |floor, roof| floor < roof)
    }),
    ("unrooted, floor that is the roof", |r| {
        r.has_by(UNROOTED, |floor, roof| floor == roof)
    }),
    ("a floor of 0 and a roof", |r| {
        r.has(|floor, roof| floor == 0 && roof > 0)
    }),
    ("a roof of 0", |r| r.has(|_, roof| roof == 0)),
    ("nothing sure and something at low prices", |r| {
        r.are(|low, high| low.answer[4] > 0 && high.answer[4] == 0)
    }),
    ("the same set at both", |r| {
        r.are(|low, high| low.marks == high.marks)
    }),
    ("another set at low prices", |r| {
        r.are(|low, high| low.marks != high.marks)
    }),
    ("another set that is as good", |r| {
        r.are(|low, high| low.marks != high.marks && low.answer[2] == high.answer[2])
    }),
    ("fewer taxa at low prices", |r| {
        r.are(|low, high| low.answer[4] < high.answer[4])
    }),
    ("more cost at low prices", |r| {
        r.are(|low, high| low.answer[3] > high.answer[3])
    }),
    ("a curve that differs in earlier columns only", |r| {
        r.are(|low, high| low.curve != high.curve && low.answer == high.answer)
    }),
    ("a column that a set fits at low prices alone", |r| {
        r.are(|low, high| blank_columns(low) < blank_columns(high))
    }),
    ("the same prices", |r| {
        r.is(0) && r.call.low == r.call.high.outline && r.call.within.is_none()
    }),
    ("one memory", |r| r.is(0) && r.is_in_one_memory()),
    ("a taxon's price that rises", |r| {
        r.rises_at(Record::is_taxon)
    }),
    ("a locked taxon's price that rises", |r| {
        r.rises_at(Record::is_locked)
    }),
    ("a heading's price that rises", |r| {
        r.rises_at(|record| !record.is_taxon())
    }),
    ("the root's price that rises", |r| {
        r.is(0) && r.records[0][0].price < r.high()[0].price
    }),
    ("the last price that rises", |r| {
        let [low, high] = r.records.each_ref().map(|records| records.last());
        r.is(0)
            && low
                .zip(high)
                .is_some_and(|(low, high)| low.price < high.price)
    }),
    ("a price from 0", |r| r.rises(|low, _| low == 0)),
    ("a price to 65535", |r| r.rises(|_, high| high == 65_535)),
    ("a price from 0 to 65535", |r| {
        r.rises(|low, high| low == 0 && high == 65_535)
    }),
    ("a price that rises by 1", |r| {
        r.rises(|low, high| low + 1 == high)
    }),
    ("a price whose low byte falls", |r| {
        r.rises(|low, high| low & 255 > high & 255)
    }),
    ("interleaved", |r| r.is(0) && !is_preorder(r.high())),
    ("in text order", |r| r.is(0) && is_preorder(r.high())),
    ("64 taxa", |r| r.is(0) && taxa(r.high()).len() == 64),
    ("127 records", |r| r.is(0) && r.high().len() == 127),
    ("one record", |r| r.is(0) && r.high().len() == 1),
    ("a lock", |r| r.is(0) && locks::has_any(r.high())),
    ("no lock", |r| r.is(0) && !locks::has_any(r.high())),
    ("locks that cost the page count at high prices", |r| {
        let count = r.call.high.count;
        r.is(0) && count > 0 && locks::cost(r.high()) == count
    }),
    ("a heading at high prices", |r| {
        r.is(0) && headings::has_any(r.high())
    }),
    ("a page count of 0", |r| r.is(0) && r.call.high.count == 0),
    ("a page count of 4096", |r| {
        r.is(0) && r.call.high.count == 4_096
    }),
    ("just enough room", |r| {
        r.is(0) && r.has_room(|more| more == [0; 3])
    }),
    ("more room", |r| {
        r.is(0) && r.has_room(|more| more.into_iter().all(|more| more > 0))
    }),
    ("12 by one quarter", |r| {
        r.is(12) && locks::cost(r.high()) == r.call.high.count + 1
    }),
    ("12 at high prices alone", |r| {
        r.is(12) && r.are_dear([false, true])
    }),
    ("12 at low prices too", |r| {
        r.is(12) && r.are_dear([true, true])
    }),
    ("12 with more room", |r| {
        r.is(12) && r.has_room(|more| more.into_iter().all(|more| more > 0))
    }),
    ("9 by one mark alone", |r| {
        r.is(9) && r.has_room(|more| more[0] == -1 && more[1] >= 0 && more[2] >= 0)
    }),
    ("9 by one curve number alone", |r| {
        r.is(9) && r.has_room(|more| more[1] == -1 && more[0] >= 0 && more[2] >= 0)
    }),
    ("9 by one work number alone", |r| {
        r.is(9) && r.has_room(|more| more[2] == -1 && more[0] >= 0 && more[1] >= 0)
    }),
    ("9 with locks that are dear at high prices", |r| {
        r.is(9) && r.are_dear([false, true])
    }),
    ("9 in one memory", |r| r.is(9) && r.is_in_one_memory()),
    ("17 by a longer low outline", |r| {
        r.are_of(|low, high| low > high)
    }),
    ("17 by a longer high outline", |r| {
        r.are_of(|low, high| low < high)
    }),
    ("17 by one record more", |r| {
        r.are_of(|low, high| low.abs_diff(high) == 1)
    }),
    ("17 by a part of the high outline", |r| {
        r.are_of(|_, _| true) && r.call.within.is_some()
    }),
    ("17 by a next", |r| {
        r.is_by(|low, high| is_but_for(low, high, |made, high| made.next = high.next))
    }),
    ("17 by a first", |r| {
        r.is_by(|low, high| is_but_for(low, high, |made, high| made.first = high.first))
    }),
    ("17 by a taxon for a group", |r| {
        r.is_by(|low, high| low.is_taxon() != high.is_taxon())
    }),
    ("17 by a length", |r| {
        r.is_by(|low, high| is_but_for(low, high, |made, high| made.length = high.length))
    }),
    ("17 by the length of a group", |r| {
        r.is_by(|low, high| {
            let length: fn(&mut Record, &Record) = |made, high| made.length = high.length;
            !high.is_taxon() && is_but_for(low, high, length)
        })
    }),
    ("17 by a plate", |r| {
        r.is_by(|low, high| low.plate_number() != high.plate_number())
    }),
    ("17 by a lock that low prices have", |r| {
        r.is_by(|low, high| is_but_for(low, high, |made, _| made.plate ^= LOCK) && low.is_locked())
    }),
    ("17 by a lock that high prices have", |r| {
        r.is_by(|low, high| is_but_for(low, high, |made, _| made.plate ^= LOCK) && high.is_locked())
    }),
    ("17 by a taxon's price", |r| {
        r.is_by(|low, high| is_turned(low, high) && high.is_taxon())
    }),
    ("17 by a heading's price", |r| {
        r.is_by(|low, high| is_turned(low, high) && !high.is_taxon())
    }),
    ("17 by a quarter of a taxon's price", |r| {
        r.is_by(|low, high| is_turned(low, high) && high.is_taxon() && low.price == high.price + 1)
    }),
    ("17 by a quarter of a heading's price", |r| {
        r.is_by(|low, high| is_turned(low, high) && !high.is_taxon() && low.price == high.price + 1)
    }),
    ("17 by a price whose low byte rises", |r| {
        r.is_by(|low, high| is_turned(low, high) && low.price & 255 <= high.price & 255)
    }),
    ("17 by a price and something else of one record", |r| {
        r.is_by(|low, high| Wrong::of(low, high) == Wrong::Another && low.price > high.price)
    }),
    ("17 at the root", |r| r.is_at(|_, at| at == 0)),
    ("17 at the last record", |r| {
        r.is_at(|records, at| at > 0 && at + 1 == records)
    }),
    ("17 at the last of 127 records", |r| {
        r.is_at(|_, at| at == 126)
    }),
    ("17 by two prices", |r| {
        r.is_before(|one, other| (one, other) == (Wrong::Price, Wrong::Price))
    }),
    ("17 by a price before something else", |r| {
        r.is_before(|one, other| (one, other) == (Wrong::Price, Wrong::Another))
    }),
    ("17 by something else before a price", |r| {
        r.is_before(|one, other| (one, other) == (Wrong::Another, Wrong::Price))
    }),
    ("17 with short buffers", |r| r.is(17) && r.is_short()),
    ("17 with locks that are dear at high prices", |r| {
        r.is(17) && r.are_dear([false, true])
    }),
    ("17 with locks that are dear at both", |r| {
        r.is(17) && r.are_dear([true, true])
    }),
    ("17 with a great page count", |r| {
        r.is(17) && r.call.high.count > 4_096
    }),
    ("4 by one quarter", |r| {
        r.is(4) && r.call.high.count == 4_097
    }),
    ("the low outline alone refused", |r| {
        r.refuses([true, false])
    }),
    ("the high outline alone refused", |r| {
        r.refuses([false, true])
    }),
    ("both refused, the low one by a higher number", |r| {
        r.refuses_both(|low, high| low.number > high.number)
    }),
    ("both refused, the low one by a lower number", |r| {
        r.refuses_both(|low, high| low.number < high.number)
    }),
    ("both refused in one memory", |r| {
        r.refuses([true, true]) && r.is_in_one_memory()
    }),
    ("a refused outline with a great page count", |r| {
        !r.is(1) && r.checks != [None; 2] && r.call.high.count > 4_096
    }),
    ("1 with a bad range", |r| r.is(1) && r.is_bad_range()),
    ("1 with a faulty outline", |r| {
        r.is(1) && r.checks != [None; 2]
    }),
    ("no outline", |r| {
        r.call.low.is_empty() || r.call.high.outline.is_empty()
    }),
];

/// What the calls came to.
struct Met {
    /// How often each refusal was given, and at 0 how often none.
    numbers: [u64; 18],
    kinds: [u64; KINDS.len()],
    /// How many were solved by every subset too.
    by_subsets: u64,
    /// How often the library chose at both prices, and how often it refused at high ones.
    beside: [u64; 2],
}

impl Met {
    fn add(&mut self, ranging: &Ranging) {
        let number = ranging.expected.number();
        self.numbers[number as usize] += 1;
        count(&mut self.kinds, &KINDS, ranging);
        self.by_subsets += u64::from(ranging.by_subsets.is_some());
        self.beside[0] += u64::from(number == 0);
        self.beside[1] += u64::from(number == 9 || number == 12);
    }

    fn named(&self) -> [(&'static str, u64); 3] {
        [
            ("by every subset", self.by_subsets),
            ("beside two choices", self.beside[0]),
            ("beside a refusal at high prices", self.beside[1]),
        ]
    }
}

impl Runner {
    pub(crate) fn add_range(
        &mut self,
        call: &RangeCall,
        expected: &RangeExpected,
        comparison: &Comparison,
    ) -> Result<(), Stop> {
        let columns = expected.choice.curve.len() / 2;
        self.report.add(comparison, columns, || described(call))
    }

    pub(crate) fn price_ranges(&mut self, calls: u64) -> Result<(), Stop> {
        self.start('I');
        let mut met = Met {
            numbers: [0; 18],
            kinds: [0; KINDS.len()],
            by_subsets: 0,
            beside: [0; 2],
        };
        for _ in 0..calls {
            let ranging = Ranging::of(some_call(&mut self.rng), &mut self.rng);
            met.add(&ranging);
            let Ranging { call, expected, .. } = &ranging;
            let observed = library::guarded_range(call, &mut self.rng);
            let mut comparison = compare::range(expected, &observed);
            comparison.differences.extend(beside(&ranging, &observed));
            self.add_range(call, expected, &comparison)?;
        }
        self.report.line(&format!(
            "I. {calls} choices for prices not yet agreed against the table and, where they are few, every subset, beside what the \
             library chooses at high prices and at low ones"
        ));
        self.report
            .refusals("a range of prices", &REFUSALS, &met.numbers, calls / 200);
        self.report
            .require("a range of prices chosen for", met.numbers[0], calls / 4);
        self.report
            .met("with", &named(&KINDS, met.kinds), calls / 2_000);
        self.report.met("compared", &met.named(), calls / 25);
        Ok(())
    }

    /// What is given is as stated, and little stack is there for it.
    pub(crate) fn stated_ranges(&mut self) -> Result<(), Stop> {
        self.start('M');
        let cases = range_cases::all();
        for RangeCase { call, expected, .. } in &cases {
            let observed = on_small_stack(|| library::guarded_range(call, &mut self.rng));
            let mut comparison = compare::range(expected, &observed);
            if [0, 9, 12].contains(&expected.number()) {
                let differences = beside_library(call, &observed);
                comparison.differences.extend(differences);
            }
            self.add_range(call, expected, &comparison)?;
        }
        self.report.line(&format!(
            "M. {} choices for prices not yet agreed worked by hand, beside what the library chooses at both, on a stack of \
             {SMALL_STACK} bytes",
            cases.len()
        ));
        Ok(())
    }
}

/// Where the table does not go with every subset, or what was observed with what the library chooses at high prices and at low ones.
fn beside(ranging: &Ranging, observed: &RangeObserved) -> Vec<String> {
    let Ranging {
        call,
        expected,
        by_subsets,
        ..
    } = ranging;
    let mut differences = Vec::new();
    if by_subsets
        .as_ref()
        .is_some_and(|by_subsets| by_subsets != expected)
    {
        differences.push(format!("every subset: {by_subsets:?}"));
    }
    if [0, 9, 12].contains(&expected.number()) {
        differences.extend(beside_library(call, observed));
    }
    differences
}

/// The library chooses in buffers that are as they were before the call.
fn beside_library(call: &RangeCall, observed: &RangeObserved) -> Vec<String> {
    let (count, way) = (call.high.count, call.high.way);
    let mut buffers = observed.chosen.before.clone();
    let high = library::choose_in(count, way, buffers.clone());
    buffers.outline.write(&call.low);
    let low = library::choose_in(count, way, buffers);
    compare::beside_both_prices(observed, &low, &high)
}

/// Beyond this the buffers would cost more time than they show.
const MOST_WORK: usize = 200_000;

/// A call of any two outlines, page count, way and lengths of the buffers.
fn some_call(rng: &mut Random) -> RangeCall {
    let (low, outline, count) = some_outlines(rng);
    let mut high = Call::roomy(outline, count.min(4_096), some_way(rng), rng);
    if rng.one_in(8) {
        high.shorten(rng);
    }
    if high.work > MOST_WORK {
        high.work = rng.index(100);
    }
    high.count = count;
    let (low, within) = match low {
        Low::Own(low) => (low, None),
        Low::Part(at) => (high.outline[at..].to_vec(), Some(at)),
    };
    RangeCall { high, low, within }
}

/// An outline at low prices: in its own memory, or a part of the high one from a byte on.
enum Low {
    Own(Vec<u8>),
    Part(usize),
}

/// Mostly two sound ones that differ in prices alone, often spoiled; at times faulty ones, or two of their own. With a page count.
fn some_outlines(rng: &mut Random) -> (Low, Vec<u8>, u32) {
    let kind = rng.below(40);
    if kind < 7 {
        return some_odd_outlines(kind, rng);
    }
    let (records, meant) = some_sound_outline(rng);
    let mut range = some_range(&records, rng);
    match kind {
        7 | 8 => fault_in(&mut range[0], rng),
        9 => fault_in(&mut range[1], rng),
        10 => range.iter_mut().for_each(|records| fault_in(records, rng)),
        11..18 => spoil(&mut range, rng),
        18 | 19 => (0..2).for_each(|_| spoil(&mut range, rng)),
        20 => range[0] = range[1].clone(),
        _ => {}
    }
    let count = some_count(&bytes(&range[1]), meant, rng);
    let [low, high] = range.map(|records| bytes(&records));
    if kind == 21 {
        return (Low::Part(0), high, count);
    }
    (Low::Own(low), high, count)
}

/// Two outlines of their own, two of one size, a damaged one twice, a part of one, or a range that is out of the way.
fn some_odd_outlines(kind: u64, rng: &mut Random) -> (Low, Vec<u8>, u32) {
    let own = |[low, high]: [Vec<Record>; 2], count| (Low::Own(bytes(&low)), bytes(&high), count);
    match kind {
        0 | 1 => {
            let ((low, _), (high, count)) = (some_outline(rng), some_outline(rng));
            (Low::Own(low), high, count)
        }
        2 => {
            let (outline, count) = damaged_outline(40, rng);
            let low = if rng.one_in(2) {
                Low::Part(0)
            } else {
                Low::Own(outline.clone())
            };
            (low, outline, count)
        }
        3 => own(some_range(&at_the_limits(rng), rng), 40),
        4 => own(two_shapes(rng), 3),
        5 => {
            let (range, count) = one_for_many(rng);
            own(range, count)
        }
        _ => {
            let (outline, count) = some_outline(rng);
            let end = outline.len();
            let last = end.saturating_sub(RECORD_BYTES);
            let any = rng.index(end + 1);
            (Low::Part(rng.pick(&[last, last, any, end])), outline, count)
        }
    }
}

/// With as many records or taxa as can be, or some more.
fn at_the_limits(rng: &mut Random) -> Vec<Record> {
    let mut records = if rng.one_in(2) {
        shapes::star(rng.pick(&[64, 65, 66, 127]))
    } else {
        let (taxa, records) = (1 + rng.index(64), rng.pick(&[127, 128, 129]));
        shapes::random_outline_of(taxa, records, rng)
    };
    shapes::fill_randomly(&mut records, 40, rng);
    records
}

/// A long branch that at low prices takes the place of some short ones, which are cheap.
fn one_for_many(rng: &mut Random) -> ([Vec<Record>; 2], u32) {
    let others = 2 + rng.index(4);
    let mut low = shapes::star(others + 1);
    shapes::fill(&mut low, rng, |rng| 1 + rng.up_to(4), |_| 1);
    let (at, count) = (1 + rng.index(others + 1), others as u32);
    (low[at].length, low[at].price) = (30, count);
    let mut high = low.clone();
    high[at].price += 1 + rng.up_to(3);
    ([low, high], count)
}

/// Two outlines of as many records, with any links of so many.
fn two_shapes(rng: &mut Random) -> [Vec<Record>; 2] {
    let all = shapes::every_outline(3 + rng.index(3));
    [(); 2].map(|()| {
        let mut records = all[rng.index(all.len())].clone();
        for record in &mut records {
            (record.length, record.price) = (2, 1);
        }
        records
    })
}

/// Often one whose best set changes soon.
pub(crate) fn some_sound_outline(rng: &mut Random) -> (Vec<Record>, u32) {
    if rng.one_in(4) {
        return outline_of_many_lengths(rng);
    }
    loop {
        let (outline, count) = some_outline(rng);
        if rules::check(&outline).is_none() {
            return (outline::records(&outline), count);
        }
    }
}

/// The records at low prices and at high ones: at one of the two they have their own prices.
pub(crate) fn some_range(records: &[Record], rng: &mut Random) -> [Vec<Record>; 2] {
    let mut other = records.to_vec();
    let is_lower = rng.one_in(2);
    let (which, by) = (rng.below(7), rng.below(6));
    let any = rng.index(records.len());
    let one = rng.pick(&[0, records.len() - 1, any]);
    for (at, record) in other.iter_mut().enumerate() {
        let moves = match which {
            0 => at == one,
            1 => record.is_taxon(),
            2 => !record.is_taxon(),
            3 => rng.one_in(4),
            4 => rng.one_in(2),
            _ => true,
        };
        if moves && is_lower {
            record.price = lowered(record.price, by, rng);
        } else if moves {
            record.price = raised(record.price, by, rng);
        }
    }
    if is_lower {
        [other, records.to_vec()]
    } else {
        [records.to_vec(), other]
    }
}

fn lowered(price: u32, by: u64, rng: &mut Random) -> u32 {
    match by {
        0 => 0,
        1 => price.saturating_sub(1),
        2 => price.saturating_sub(1 + rng.up_to(3)),
        3 => price / 2,
        4 => rng.up_to(price),
        _ => price.saturating_sub(rng.up_to(1)),
    }
}

fn raised(price: u32, by: u64, rng: &mut Random) -> u32 {
    let more = match by {
        0 => rng.pick(&[65_535, 256, 20]),
        1 => 1,
        2 => 1 + rng.up_to(3),
        3 => price,
        4 => rng.up_to(20),
        _ => rng.up_to(1),
    };
    (price + more).min(65_535)
}

/// A fault that the check refuses, mostly.
fn fault_in(records: &mut [Record], rng: &mut Random) {
    let at = rng.index(records.len());
    rng.pick(&FAULTS)(records, at);
}

/// Makes one of the outlines another one beside its prices, or a low price greater than its high one.
fn spoil(range: &mut [Vec<Record>; 2], rng: &mut Random) {
    let last = range[0].len() - 1;
    let any = if last == 126 {
        last
    } else {
        rng.index(last + 1)
    };
    let at = rng.pick(&[0, last, any, any]);
    let one = rng.index(2);
    let taxa = taxa(&range[one]);
    let taxon = rng.pick(&taxa);
    match rng.below(16) {
        0 | 1 => {
            let length = &mut range[one][at].length;
            *length = (*length + rng.pick(&[1, 256, 65_536])) % 1_000_001;
        }
        2 | 3 => range[one][taxon].plate ^= 1 << rng.below(31),
        4..6 => range[one][taxon].plate ^= LOCK,
        6..8 => exchange_links(&mut range[one], rng),
        _ => turn(range, rng.pick(&[at, at, taxon]), rng),
    }
}

/// The low price is above the high one.
fn turn(range: &mut [Vec<Record>; 2], at: usize, rng: &mut Random) {
    let price = range[1][at].price.min(65_534);
    let [low, high] = match rng.below(6) {
        0 => [256, 255],
        1 => [(price | 255) + 1, price | 255],
        2 => [65_535, price],
        _ => [price + 1, price],
    };
    (range[0][at].price, range[1][at].price) = (low.min(65_535), high.min(65_534));
}

/// Two records exchange what is next to them or their first members, if the links are sound then.
fn exchange_links(records: &mut Vec<Record>, rng: &mut Random) {
    let is_next = rng.one_in(2);
    for _ in 0..20 {
        let [one, other] = [(); 2].map(|()| rng.index(records.len()));
        let mut exchanged = records.clone();
        if is_next {
            (exchanged[one].next, exchanged[other].next) = (records[other].next, records[one].next);
        } else {
            (exchanged[one].first, exchanged[other].first) =
                (records[other].first, records[one].first);
        }
        if exchanged != *records && rules::check(&bytes(&exchanged)).is_none() {
            *records = exchanged;
            return;
        }
    }
}

pub(crate) fn described(call: &RangeCall) -> String {
    let RangeCall { high, low, within } = call;
    format!(
        "choose for a range of prices with page count {}, way {}, {} marks, {} curve numbers, {} work numbers{}\n  low: {}\n  \
         high: {}",
        high.count,
        high.way,
        high.marks,
        high.curve,
        high.work,
        within.map_or(String::new(), |at| format!(
            ", the low outline from byte {at} of the high one on"
        )),
        shell_line(high.count, high.way, low),
        shell_line(high.count, high.way, &high.outline)
    )
}

#[cfg(test)]
mod tests {
    use super::*;
    use crate::library::{RangeBuffers, Ranger};
    use crate::wrong_ranges::{self, Program, RIGHT};

    #[test]
    fn every_kind_is_stated_and_is_not_every_call() {
        let rng = &mut Random::new(1);
        let stated: Vec<Ranging> = range_cases::all()
            .into_iter()
            .map(|case| Ranging::of(case.call, rng))
            .collect();
        let missed: Vec<_> = KINDS
            .iter()
            .map(|(name, holds)| (name, stated.iter().filter(|ranging| holds(ranging)).count()))
            .filter(|(_, times)| !(1..stated.len()).contains(times))
            .collect();
        assert!(missed.is_empty(), "{missed:?}");
    }

    type Expectation = (RangeCall, RangeExpected);

    fn stated() -> Vec<Expectation> {
        let both = |case: RangeCase| (case.call, case.expected);
        range_cases::all().into_iter().map(both).collect()
    }

    /// By the table.
    fn random(calls: usize) -> Vec<Expectation> {
        let rng = &mut Random::new(1);
        let some = |_| {
            let call = some_call(rng);
            let (expected, _) = range::expected(&call, expect::by_table);
            (call, expected)
        };
        (0..calls).map(some).collect()
    }

    /// Of these calls those that are refused or have few subsets, by every subset.
    fn by_subsets(calls: &[Expectation]) -> Vec<Expectation> {
        let rng = &mut Random::new(2);
        let mut few = calls.to_vec();
        few.retain(|(call, expected)| {
            ![0, 12].contains(&expected.number()) || is_small(&call.high)
        });
        for (call, expected) in &mut few {
            *expected = range::expected(call, |call| by_exhaustive_search(call, rng)).0;
        }
        few
    }

    fn is_noticed(ranger: Ranger, calls: &[Expectation]) -> bool {
        let rng = &mut Random::new(3);
        calls.iter().any(|(call, expected)| {
            let observed = ranger(call, RangeBuffers::random(call, rng));
            !compare::range(expected, &observed).differences.is_empty()
        })
    }

    #[test]
    fn wrong_programs_are_noticed_and_a_right_one_is_not() {
        let random = random(6_000);
        for (by, calls) in [
            ("the stated calls", stated()),
            ("all subsets", by_subsets(&random)),
            ("the table", random),
        ] {
            assert!(!is_noticed(&RIGHT.run(), &calls), "{by}");
            let wrong = wrong_ranges::all().into_iter();
            let missed = wrong.filter(|(_, program)| !is_noticed(&program.run(), &calls));
            let missed: Vec<&str> = missed.map(|(name, _)| name).collect();
            assert_eq!(missed, [""; 0], "{by}");
        }
    }

    /// Whether calls that only choosing can refuse show by themselves, without what is expected, that a program is wrong.
    fn is_noticed_beside(program: Program, calls: &[Expectation]) -> bool {
        let rng = &mut Random::new(4);
        let program = program.run();
        calls.iter().any(|(call, expected)| {
            let is_chosen = [0, 9, 12].contains(&expected.number());
            let mut observed = || program(call, RangeBuffers::random(call, rng));
            is_chosen && !beside_library(call, &observed()).is_empty()
        })
    }

    #[test]
    fn what_does_not_go_with_the_library_is_noticed_without_what_is_expected() {
        let calls = random(1_500);
        assert!(!is_noticed_beside(RIGHT, &calls));
        for (name, program) in wrong_ranges::named(&SHOWN_BY_THE_LIBRARY) {
            assert!(is_noticed_beside(program, &calls), "{name}");
        }
    }

    /// Wrong programs that do not go with what the library chooses at both prices.
    const SHOWN_BY_THE_LIBRARY: [&str; 21] = [
        "prices the other way round",
        "equal prices refused",
        "every other price refused",
        "a free low refused",
        "the sure set from low",
        "the sure set halfway",
        "the sure set without locks",
        "the roof from high",
        "the roof halfway",
        "the roof at one quarter less",
        "the roof in the other way",
        "the roof without locks",
        "the floor",
        "the curve's other column",
        "12 judged at low",
        "low and high exchanged",
        "the marks of low left",
        "the curve of low left",
        "work left as it came",
        "marks cleared on a refusal by 12",
        "the roof given on a refusal by 12",
    ];

    #[test]
    fn subsets_that_come_to_something_else_are_noticed() {
        let rng = &mut Random::new(6);
        let case = range_cases::all().swap_remove(0);
        let mut ranging = Ranging::of(case.call, rng);
        let before = RangeBuffers::random(&ranging.call, rng);
        let observed = RIGHT.run()(&ranging.call, before);
        assert_eq!(beside(&ranging, &observed), [""; 0]);
        let by_subsets = ranging.by_subsets.as_mut().expect("few subsets");
        by_subsets.roof += 1;
        assert_eq!(beside(&ranging, &observed).len(), 1);
    }

    #[test]
    fn ranges_are_accepted_and_spoiled_ones_are_refused_by_17_mostly() {
        let rng = &mut Random::new(5);
        let mut numbers = [0; 18];
        for _ in 0..2_000 {
            let (records, _) = some_sound_outline(rng);
            let mut range = some_range(&records, rng);
            let refusal = |range: &[Vec<Record>; 2]| {
                let [low, high] = range.each_ref().map(|records| bytes(records));
                let check = rules::check(&low).or_else(|| rules::check(&high));
                check.or_else(|| range::bad_range(&low, &high))
            };
            assert_eq!(refusal(&range), None, "{range:?}");
            spoil(&mut range, rng);
            let number = refusal(&range).map_or(0, |refusal| refusal.number);
            numbers[number as usize] += 1;
        }
        assert!(numbers[17] > 1_700, "{numbers:?}");
    }
}
