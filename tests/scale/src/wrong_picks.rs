//! A right program that chooses quickly, and what wrong ones do otherwise: the tests of the comparisons run them in the library's
//! place. It goes by the line of records from each taxon up to the root, and by which of them the set has reached.

use std::cmp::Reverse;
use std::iter;
use std::ops::RangeInclusive;

use crate::library::{QuickBuffers, QuickObserved};
use crate::outline::{self, groups, parents, taxa, Record, ROOTED, UNROOTED};
use crate::quick::{QuickCall, QuickExpected, MOST_PICKS};
use crate::rules::{self, Refusal};
use crate::{sheet, table};

/// How a program goes about it, and what is altered of what it has done.
#[derive(Clone, Copy)]
pub struct Program {
    rows: &'static [Row],
    begins: Begins,
    picks: Picks,
    can_pick: CanPick,
    /// Whether the picking ends before the taxon that comes first.
    ends: CanPick,
    rank: Rank,
    ceiling: Ceiling,
    alter: Alter,
}

/// A row of the table of refusals. Each asks of the outline no more than the rows before it have settled.
type Row = fn(&QuickCall) -> Option<Refusal>;
/// Whether a taxon is in the set before the first pick.
type Begins = fn(&Record) -> bool;
/// How many picks there are, if so many are asked for and so many taxa are in the set.
type Picks = fn(u32, u32) -> u32;
type CanPick = fn(&Beside) -> bool;
/// The least of those that can be picked comes first.
type Rank = fn(&Beside) -> [i64; 3];
/// By the set before the first pick and the one after the last.
type Ceiling = fn(&Set, &Set) -> u64;
type Alter = fn(&QuickCall, &mut QuickObserved);

const SIZE: Row = |call| {
    let records = outline::records(&call.outline);
    rules::partial_record(&call.outline).or_else(|| rules::too_many_records(&records))
};
const COUNT: Row = |call| rules::count_too_large(call.count);
const PICKS: Row = |call| rules::without_place(15, call.picks > MOST_PICKS);
const CONTENT: Row = |call| rules::content(&outline::records(&call.outline));
const FIELDS: Row = |call| CONTENT(call).filter(|refusal| refusal.number == 5);
const ROOM: Row = |call| room(call, 0);
const LOCKS: Row = |call| locks(call, Set::cost);

/// 9 where more than so many marks are missing.
fn room(call: &QuickCall, missing: usize) -> Option<Refusal> {
    let records = outline::records(&call.outline).len();
    rules::without_place(9, call.marks + missing < records)
}

fn locks(call: &QuickCall, cost: fn(&Set) -> u32) -> Option<Refusal> {
    rules::without_place(12, cost(&locked(call)) > call.count)
}

/// The locked taxa.
fn locked(call: &QuickCall) -> Set {
    let records = outline::records(&call.outline);
    Set::of(&records, call.count, Record::is_locked)
}

/// What a right program does.
pub const RIGHT: Program = Program {
    rows: &[SIZE, COUNT, PICKS, CONTENT, ROOM, LOCKS],
    begins: Record::is_locked,
    picks: |asked, _| asked,
    can_pick: |beside| beside.fits() && beside.diversity > 0,
    rank: |beside| [-beside.diversity, beside.quarters, beside.position],
    ends: |_| false,
    ceiling: |_, set| set.with(Beside::is_affordable),
    alter: |_, _| {},
};

/// A taxon beside a set. Numbers are signed, so that they can be turned round.
#[derive(Clone, Copy)]
struct Beside {
    position: i64,
    length: i64,
    price: i64,
    /// What it adds to the set.
    quarters: i64,
    diversity: i64,
    /// What it would come to without the set.
    alone: [i64; 2],
    count: i64,
    room: i64,
}

impl Beside {
    fn fits(&self) -> bool {
        self.quarters <= self.room
    }

    fn is_affordable(&self) -> bool {
        self.price <= self.count
    }

    fn fits_alone(&self) -> bool {
        self.alone[0] <= self.count
    }
}

/// A set of taxa, and the records that are or have below them one of it.
#[derive(Clone)]
struct Set {
    records: Vec<Record>,
    /// The group that each record is a member of.
    above: Vec<Option<usize>>,
    count: u32,
    chosen: Vec<bool>,
    reached: Vec<bool>,
    /// How many picks have been made, and how many there are.
    picks: [u32; 2],
}

impl Set {
    fn of(records: &[Record], count: u32, holds: fn(&Record) -> bool) -> Self {
        let mut set = Set {
            records: records.to_vec(),
            above: parents(records),
            count,
            chosen: vec![false; records.len()],
            reached: vec![false; records.len()],
            picks: [0; 2],
        };
        for taxon in taxa(records) {
            if holds(&records[taxon]) {
                set.take(taxon);
            }
        }
        set
    }

    /// The records from a taxon up to the root.
    fn line(&self, taxon: usize) -> impl Iterator<Item = usize> + '_ {
        iter::successors(Some(taxon), |&at| self.above[at])
    }

    /// The prices and the lengths of these records.
    fn sums(&self, records: impl Iterator<Item = usize>) -> [i64; 2] {
        records.fold([0; 2], |[prices, lengths], at| {
            let record = self.records[at];
            [
                prices + i64::from(record.price),
                lengths + i64::from(record.length),
            ]
        })
    }

    /// The records that would be reached first with this taxon.
    fn opened(&self, taxon: usize) -> impl Iterator<Item = usize> + '_ {
        self.line(taxon).filter(|&at| !self.reached[at])
    }

    fn take(&mut self, taxon: usize) {
        let opened: Vec<usize> = self.opened(taxon).collect();
        for at in opened {
            self.reached[at] = true;
        }
        self.chosen[taxon] = true;
    }

    /// Cost and diversity.
    fn numbers(&self) -> [u32; 2] {
        let reached = (0..self.records.len()).filter(|&at| self.reached[at]);
        self.sums(reached).map(|sum| sum as u32)
    }

    fn cost(&self) -> u32 {
        self.numbers()[0]
    }

    fn diversity(&self) -> u32 {
        self.numbers()[1]
    }

    /// What its taxa cost without headings.
    fn prices(&self) -> u32 {
        let taxa = self.records.iter().zip(&self.chosen);
        let chosen = taxa.filter(|(_, chosen)| **chosen);
        chosen.map(|(taxon, _)| taxon.price).sum()
    }

    fn taxa(&self) -> u32 {
        self.chosen.iter().filter(|chosen| **chosen).count() as u32
    }

    /// The taxa that are not in it.
    fn others(&self) -> Vec<Beside> {
        let mut others = taxa(&self.records);
        others.retain(|&taxon| !self.chosen[taxon]);
        let room = i64::from(self.count) - i64::from(self.cost());
        let others = others.into_iter();
        others.map(|taxon| self.beside(taxon, room)).collect()
    }

    fn beside(&self, taxon: usize, room: i64) -> Beside {
        let [quarters, diversity] = self.sums(self.opened(taxon));
        let record = self.records[taxon];
        Beside {
            position: taxon as i64,
            length: record.length.into(),
            price: record.price.into(),
            quarters,
            diversity,
            alone: self.sums(self.line(taxon)),
            count: self.count.into(),
            room,
        }
    }

    /// Its diversity and what those of the others add for which it holds.
    fn with(&self, holds: fn(&Beside) -> bool) -> u64 {
        self.plus(holds, |beside| beside.diversity)
    }

    fn plus(&self, holds: fn(&Beside) -> bool, of: fn(&Beside) -> i64) -> u64 {
        let others = self.others().into_iter();
        let sum: i64 = others.filter(holds).map(|beside| of(&beside)).sum();
        u64::from(self.diversity()) + sum as u64
    }

    fn marks(&self) -> Vec<u8> {
        self.chosen.iter().map(|&chosen| u8::from(chosen)).collect()
    }
}

impl Program {
    /// A program to be run in the library's place.
    pub fn run(self) -> impl Fn(u32, u32, QuickBuffers) -> QuickObserved {
        move |count, picks, before| {
            let call = QuickCall {
                outline: before.outline.content().to_vec(),
                count,
                picks,
                marks: before.marks.len,
            };
            let mut observed = observed(&self.given(&call), before);
            (self.alter)(&call, &mut observed);
            observed
        }
    }

    fn given(self, call: &QuickCall) -> QuickExpected {
        if let Some(refusal) = self.rows.iter().find_map(|row| row(call)) {
            return QuickExpected::refused(refusal);
        }
        let records = outline::records(&call.outline);
        let before = Set::of(&records, call.count, self.begins);
        let after = self.pick(before.clone(), call.picks);
        QuickExpected {
            answer: [0, 0, after.diversity(), after.cost(), after.taxa()],
            ceiling: (self.ceiling)(&before, &after),
            marks: after.marks(),
        }
    }

    fn pick(self, mut set: Set, asked: u32) -> Set {
        let picks = (self.picks)(asked, set.taxa());
        set.picks[1] = picks;
        while set.picks[0] < picks {
            let mut others = set.others();
            others.retain(self.can_pick);
            match others.into_iter().min_by_key(self.rank) {
                Some(first) if !(self.ends)(&first) => set.take(first.position as usize),
                _ => break,
            }
            set.picks[0] += 1;
        }
        set
    }
}

/// A call that gives this and writes nothing else.
fn observed(given: &QuickExpected, before: QuickBuffers) -> QuickObserved {
    let mut after = before.clone();
    after.answer.write(&given.answer);
    after.ceiling.write(&[given.ceiling]);
    after.marks.write(&given.marks);
    QuickObserved {
        returned: given.answer[0],
        before,
        after,
    }
}

/// What a wrong program does otherwise.
type Otherwise<T> = (&'static str, T);
pub type Wrong = Otherwise<Program>;

const BEGINNING: [Otherwise<Begins>; 2] = [
    ("picks that start from nothing", |_| false),
    ("free taxa there before the first pick", |taxon| {
        taxon.is_locked() || taxon.price == 0
    }),
];

const COUNTING: [Otherwise<Picks>; 5] = [
    ("locks counted among the picks", |asked, locked| {
        asked.saturating_sub(locked)
    }),
    ("one pick at least", |asked, _| asked.max(1)),
    ("one pick more", |asked, _| asked + 1),
    ("one pick less", |asked, _| asked.saturating_sub(1)),
    ("picks without end", |_, _| u32::MAX),
];

const PICKING: [Otherwise<CanPick>; 7] = [
    ("headings left out of what fits", |taxon| {
        taxon.price <= taxon.room && taxon.diversity > 0
    }),
    ("open headings paid again", |taxon| {
        taxon.alone[0] <= taxon.room && taxon.diversity > 0
    }),
    ("what fits the page count without the set", |taxon| {
        taxon.fits_alone() && taxon.diversity > 0
    }),
    ("one quarter of room kept", |taxon| {
        taxon.quarters < taxon.room && taxon.diversity > 0
    }),
    ("picking that goes on where 0 is added", Beside::fits),
    ("free taxa picked where 0 is added", |taxon| {
        taxon.fits() && (taxon.diversity > 0 || taxon.quarters == 0)
    }),
    ("free taxa left out", |taxon| {
        taxon.fits() && taxon.diversity > 0 && taxon.quarters > 0
    }),
];

const RANKING: [Otherwise<Rank>; 11] = [
    ("a pick by diversity per quarter", |taxon| {
        let rate = (taxon.diversity << 24) / taxon.quarters.max(1);
        [-i64::from(taxon.quarters == 0), -rate, taxon.position]
    }),
    ("headings left out of added quarters", |taxon| {
        [-taxon.diversity, taxon.price, taxon.position]
    }),
    ("open headings in added quarters", |taxon| {
        [-taxon.diversity, taxon.alone[0], taxon.position]
    }),
    ("higher record first on a tie", |taxon| {
        [-taxon.diversity, taxon.quarters, -taxon.position]
    }),
    ("dearer first on a tie", |taxon| {
        [-taxon.diversity, -taxon.quarters, taxon.position]
    }),
    ("lower record before fewer quarters", |taxon| {
        [-taxon.diversity, taxon.position, 0]
    }),
    ("fewest quarters first", |taxon| {
        [taxon.quarters, -taxon.diversity, taxon.position]
    }),
    ("lowest record first", |taxon| [taxon.position, 0, 0]),
    ("least diversity first", |taxon| {
        [taxon.diversity, taxon.quarters, taxon.position]
    }),
    ("a pick by diversity without the set", |taxon| {
        [-taxon.alone[1], taxon.quarters, taxon.position]
    }),
    ("a pick by the taxon's own branch", |taxon| {
        [-taxon.length, taxon.quarters, taxon.position]
    }),
];

const NOT_FITTING: Wrong = (
    "picking that ends at what does not fit",
    Program {
        can_pick: |taxon| taxon.diversity > 0,
        ends: |taxon| !taxon.fits(),
        ..RIGHT
    },
);

const CEILINGS: [Otherwise<Ceiling>; 13] = [
    ("a ceiling of what still fits", |_, set| {
        set.with(Beside::fits)
    }),
    ("a ceiling of what could be picked", |_, set| {
        let [picked, picks] = set.picks;
        let fits: CanPick = Beside::fits;
        set.with(if picked < picks { fits } else { |_| false })
    }),
    ("a ceiling of as many taxa as picks", |_, set| {
        let mut others = set.others();
        others.retain(Beside::is_affordable);
        others.sort_by_key(|taxon| Reverse(taxon.diversity));
        let most = others.iter().take(set.picks[1] as usize);
        let sum: i64 = most.map(|taxon| taxon.diversity).sum();
        u64::from(set.diversity()) + sum as u64
    }),
    ("a ceiling of any price", |_, set| set.with(|_| true)),
    ("a ceiling by prices with headings", |_, set| {
        set.with(Beside::fits_alone)
    }),
    ("a ceiling by added quarters", |_, set| {
        set.with(|taxon| taxon.quarters <= taxon.count)
    }),
    ("a ceiling by prices below the page count", |_, set| {
        set.with(|taxon| taxon.price < taxon.count)
    }),
    ("a ceiling by prices that there is room for", |_, set| {
        set.with(|taxon| taxon.price <= taxon.room)
    }),
    ("the ceiling before the first pick", |before, _| {
        before.with(Beside::is_affordable)
    }),
    ("a ceiling of diversity without the set", |_, set| {
        set.plus(Beside::is_affordable, |taxon| taxon.alone[1])
    }),
    ("a ceiling of the taxa's own branches", |_, set| {
        set.plus(Beside::is_affordable, |taxon| taxon.length)
    }),
    ("a ceiling without the set's diversity", |_, set| {
        set.with(Beside::is_affordable) - u64::from(set.diversity())
    }),
    ("a ceiling that is the diversity", |_, set| {
        set.diversity().into()
    }),
];

const PICKS_BELOW_66: Row = |call| rules::without_place(15, call.picks > 65);
const PICKS_BELOW_64: Row = |call| rules::without_place(15, call.picks >= 64);
const LAST_BYTE_OF_PICKS: Row = |call| rules::without_place(15, call.picks & 255 > 64);
const COUNT_BELOW_4_098: Row = |call| rules::without_place(4, call.count > 4_097);
const COUNT_BELOW_4_096: Row = |call| rules::without_place(4, call.count >= 4_096);
const ROOM_BUT_ONE: Row = |call| room(call, 1);
const LOCKS_BELOW_COUNT: Row = |call| locks(call, |set| set.cost() + 1);
const LOCKS_BY_PRICES: Row = |call| locks(call, Set::prices);

const JUDGING: [Otherwise<&[Row]>; 21] = [
    (
        "65 picks allowed",
        &[SIZE, COUNT, PICKS_BELOW_66, CONTENT, ROOM, LOCKS],
    ),
    (
        "64 picks refused",
        &[SIZE, COUNT, PICKS_BELOW_64, CONTENT, ROOM, LOCKS],
    ),
    (
        "the last byte of the picks judged",
        &[SIZE, COUNT, LAST_BYTE_OF_PICKS, CONTENT, ROOM, LOCKS],
    ),
    ("picks not judged", &[SIZE, COUNT, CONTENT, ROOM, LOCKS]),
    ("15 before 2", &[PICKS, SIZE, COUNT, CONTENT, ROOM, LOCKS]),
    ("15 before 4", &[SIZE, PICKS, COUNT, CONTENT, ROOM, LOCKS]),
    (
        "15 after 5",
        &[SIZE, COUNT, FIELDS, PICKS, CONTENT, ROOM, LOCKS],
    ),
    ("15 after 8", &[SIZE, COUNT, CONTENT, PICKS, ROOM, LOCKS]),
    ("15 after 9", &[SIZE, COUNT, CONTENT, ROOM, PICKS, LOCKS]),
    ("15 after 12", &[SIZE, COUNT, CONTENT, ROOM, LOCKS, PICKS]),
    ("4 before 2", &[COUNT, SIZE, PICKS, CONTENT, ROOM, LOCKS]),
    ("4 after 8", &[SIZE, PICKS, CONTENT, COUNT, ROOM, LOCKS]),
    (
        "4,097 allowed",
        &[SIZE, COUNT_BELOW_4_098, PICKS, CONTENT, ROOM, LOCKS],
    ),
    (
        "4,096 refused",
        &[SIZE, COUNT_BELOW_4_096, PICKS, CONTENT, ROOM, LOCKS],
    ),
    ("9 before 15", &[SIZE, COUNT, ROOM, PICKS, CONTENT, LOCKS]),
    ("9 before 5", &[SIZE, COUNT, PICKS, ROOM, CONTENT, LOCKS]),
    ("9 after 12", &[SIZE, COUNT, PICKS, CONTENT, LOCKS, ROOM]),
    (
        "a mark too few is enough",
        &[SIZE, COUNT, PICKS, CONTENT, ROOM_BUT_ONE, LOCKS],
    ),
    ("12 never given", &[SIZE, COUNT, PICKS, CONTENT, ROOM]),
    (
        "12 at the page count",
        &[SIZE, COUNT, PICKS, CONTENT, ROOM, LOCKS_BELOW_COUNT],
    ),
    (
        "12 without headings",
        &[SIZE, COUNT, PICKS, CONTENT, ROOM, LOCKS_BY_PRICES],
    ),
];

const WRITING: [Otherwise<Alter>; 23] = [
    ("one byte past the marks", |_, observed| {
        let records = chosen_from(observed).len();
        if records > 0 {
            mark(observed, records, |byte| !byte);
        }
    }),
    ("the rest of the marks cleared", |call, observed| {
        let records = chosen_from(observed).len();
        for at in records..call.marks {
            if records > 0 {
                mark(observed, at, |_| 0);
            }
        }
    }),
    ("marks written on a refusal by 9", |call, observed| {
        clear_on(9..=9, call, observed);
    }),
    ("marks written on a refusal by 12", |call, observed| {
        clear_on(12..=12, call, observed);
    }),
    ("marks written on another refusal", |call, observed| {
        clear_on(2..=8, call, observed);
    }),
    ("a group's mark set", |_, observed| {
        let records = chosen_from(observed);
        if let (true, [.., last]) = (number(observed, 4) > 0, &groups(&records)[..]) {
            mark(observed, *last, |_| 1);
        }
    }),
    ("a lock not marked", |_, observed| {
        for (at, record) in chosen_from(observed).iter().enumerate() {
            if record.is_locked() {
                mark(observed, at, |_| 0);
            }
        }
    }),
    ("the ceiling left on a refusal", |_, observed| {
        if observed.returned != 0 {
            observed.after.ceiling = observed.before.ceiling.clone();
        }
    }),
    ("32 bits of the ceiling written", |_, observed| {
        let before = observed.before.ceiling.content()[0];
        let ceiling = observed.ceiling() | before >> 32 << 32;
        observed.after.ceiling.write(&[ceiling]);
    }),
    ("the answer left on a refusal", |_, observed| {
        if observed.returned != 0 {
            observed.after.answer = observed.before.answer.clone();
        }
    }),
    ("a refusal that is not returned", |_, observed| {
        observed.returned = 0;
    }),
    ("12 with the cost of the locks", |call, observed| {
        if observed.returned == 12 {
            let cost = locked(call).cost();
            write(observed, 3, cost);
        }
    }),
    ("12 with the ceiling of the locks", |call, observed| {
        if observed.returned == 12 {
            let ceiling = locked(call).with(Beside::is_affordable);
            observed.after.ceiling.write(&[ceiling]);
        }
    }),
    ("9, 12 and 15 with a place", |_, observed| {
        if [9, 12, 15].contains(&observed.returned) {
            write(observed, 1, 1);
        }
    }),
    ("the cost without headings", |call, observed| {
        let cost = marked(call, observed).prices();
        write(observed, 3, cost);
    }),
    ("the root's branch left out", |call, observed| {
        let set = marked(call, observed);
        let root = (0..1).filter(|&at| set.reached.get(at) == Some(&true));
        let [_, branch] = set.sums(root);
        write(observed, 2, set.diversity() - branch as u32);
    }),
    ("the unrooted diversity", |_, observed| {
        let records = chosen_from(observed);
        let marks = observed.after.marks.content();
        let [_, diversity] = sheet::sums(&records, UNROOTED, marks);
        write(observed, 2, diversity);
    }),
    ("cost and diversity exchanged", |_, observed| {
        let [diversity, cost] = [2, 3].map(|at| number(observed, at));
        write(observed, 2, cost);
        write(observed, 3, diversity);
    }),
    ("the number of picks for that of taxa", |call, observed| {
        if observed.returned == 0 {
            let picks = number(observed, 4) - locked(call).taxa();
            write(observed, 4, picks);
        }
    }),
    ("the best set in its place", |call, observed| {
        let records = chosen_from(observed);
        if records.is_empty() {
            return;
        }
        let best = table::solve(&records, ROOTED, call.count).expect("a set that fits");
        observed.after.marks.write(&best.marks);
        let set = marked(call, observed);
        for (at, number) in [(2, set.diversity()), (3, set.cost()), (4, set.taxa())] {
            write(observed, at, number);
        }
    }),
    ("nothing chosen refused by 12", |_, observed| {
        if observed.returned == 0 && number(observed, 4) == 0 {
            refuse(observed, 12);
        }
    }),
    ("a sound choice refused", |_, observed| {
        if observed.returned == 0 {
            refuse(observed, 9);
        }
    }),
    ("the outline itself written to", |_, observed| {
        let outline = &mut observed.after.outline;
        if observed.returned == 0 {
            let last = outline.start + outline.len - 1;
            outline.cells[last] ^= 128;
        }
    }),
];

/// Every wrong program.
pub fn all() -> Vec<Wrong> {
    let beginning = BEGINNING.map(|(name, begins)| (name, Program { begins, ..RIGHT }));
    let counting = COUNTING.map(|(name, picks)| (name, Program { picks, ..RIGHT }));
    let picking = PICKING.map(|(name, can_pick)| (name, Program { can_pick, ..RIGHT }));
    let ranking = RANKING.map(|(name, rank)| (name, Program { rank, ..RIGHT }));
    let ceilings = CEILINGS.map(|(name, ceiling)| (name, Program { ceiling, ..RIGHT }));
    let judging = JUDGING.map(|(name, rows)| (name, Program { rows, ..RIGHT }));
    let writing = WRITING.map(|(name, alter)| (name, Program { alter, ..RIGHT }));
    let mut all = vec![NOT_FITTING];
    all.extend(beginning);
    all.extend(counting);
    all.extend(picking);
    all.extend(ranking);
    all.extend(ceilings);
    all.extend(judging);
    all.extend(writing);
    all
}

/// Those of these names.
pub fn named(names: &[&str]) -> Vec<Wrong> {
    let mut named = all();
    named.retain(|(name, _)| names.contains(name));
    assert_eq!(named.len(), names.len());
    named
}

/// The outline's records where there was a choice; none on a refusal.
fn chosen_from(observed: &QuickObserved) -> Vec<Record> {
    if observed.returned == 0 {
        outline::records(observed.before.outline.content())
    } else {
        Vec::new()
    }
}

/// The set that was marked where there was a choice.
fn marked(call: &QuickCall, observed: &QuickObserved) -> Set {
    let records = chosen_from(observed);
    let mut set = Set::of(&records, call.count, |_| false);
    for taxon in sheet::chosen(&records, observed.after.marks.content()) {
        set.take(taxon);
    }
    set
}

/// Alters one of the marks, or of what stands behind them.
fn mark(observed: &mut QuickObserved, at: usize, byte: impl Fn(u8) -> u8) {
    let marks = &mut observed.after.marks;
    let cell = &mut marks.cells[marks.start + at];
    *cell = byte(*cell);
}

/// A number of the answer.
fn number(observed: &QuickObserved, at: usize) -> u32 {
    observed.after.answer.content()[at]
}

fn write(observed: &mut QuickObserved, at: usize, number: u32) {
    let answer = &mut observed.after.answer;
    answer.cells[answer.start + at] = number;
}

/// Clears the marks on these refusals, as many as there are of records.
fn clear_on(numbers: RangeInclusive<u32>, call: &QuickCall, observed: &mut QuickObserved) {
    if numbers.contains(&observed.returned) {
        let records = outline::records(&call.outline).len();
        let marks = vec![0; records.min(call.marks)];
        observed.after.marks.write(&marks);
    }
}

/// Refuses what was chosen.
fn refuse(observed: &mut QuickObserved, number: u32) {
    let refusal = Refusal { number, place: 0 };
    let before = observed.before.clone();
    *observed = self::observed(&QuickExpected::refused(refusal), before);
}
