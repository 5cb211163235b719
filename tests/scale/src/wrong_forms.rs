//! A right program that writes house forms, and what wrong ones do otherwise: the tests of the comparisons run them in the library's
//! place. It sorts the members of each group by what is below them, and numbers the records by walking down.

use crate::form::{FormCall, FormExpected};
use crate::library::{FormBuffers, FormObserved};
use crate::outline::{self, bytes, members, Record, LOCK, MOST_PLATE};
use crate::rules::{self, Refusal};
use crate::view::{needed, MOST_BYTES};

/// How a program goes about it, and what is altered of what it has done.
#[derive(Clone, Copy)]
pub struct Program {
    rows: &'static [Row],
    sorts: Sorts,
    by: By,
    numbers: Numbers,
    keeps: Keeps,
    alter: Alter,
}

/// A row of the table of refusals.
type Row = fn(&FormCall) -> Option<Refusal>;
/// Whether the members of a part are sorted.
type Sorts = fn(&Part) -> bool;
/// The member of which this is the least comes first.
type By = fn(&Part) -> i64;
/// The records in the order of their numbers, by the members of each as they were and as they are sorted.
type Numbers = fn([&[Chain]; 2]) -> Vec<usize>;
/// What is written of the record at a position, where it gets another one.
type Keeps = fn(&[Record], usize, usize) -> Record;
type Alter = fn(&FormCall, &mut FormObserved);

type Chain = Vec<usize>;

const CHECK: Row = |call| rules::check(&call.outline);
const ROOM: Row = |call| room(call, 0);

/// 9 where more than so many bytes are missing.
fn room(call: &FormCall, missing: usize) -> Option<Refusal> {
    rules::without_place(9, call.form + missing < needed(&call.outline))
}

/// What a right program does.
pub const RIGHT: Program = Program {
    rows: &[CHECK, ROOM],
    sorts: |_| true,
    by: |part| part.least_plate(),
    numbers: |[_, chains]| down(chains),
    keeps: |records, at, _| records[at],
    alter: |_, _| {},
};

/// A record, its members, and the taxa at or below it, in the order of the text.
struct Part {
    position: usize,
    record: Record,
    members: Vec<Record>,
    taxa: Vec<Record>,
}

impl Part {
    /// The least number of this of its taxa.
    fn least(&self, of: fn(&Record) -> u32) -> i64 {
        let numbers = self.taxa.iter().map(of);
        numbers.min().expect("a taxon").into()
    }

    fn least_plate(&self) -> i64 {
        self.least(Record::plate_number)
    }
}

/// Every record's part, by the members of each.
fn parts(records: &[Record], chains: &[Chain]) -> Vec<Part> {
    let part = |position: usize| {
        let below = below(chains, position).into_iter().map(|at| records[at]);
        let members = chains[position].iter().map(|&member| records[member]);
        Part {
            position,
            record: records[position],
            members: members.collect(),
            taxa: below.filter(Record::is_taxon).collect(),
        }
    };
    (0..records.len()).map(part).collect()
}

/// All records from the root down: each, and then its members with all below them.
fn down(chains: &[Chain]) -> Vec<usize> {
    below(chains, 0)
}

/// A record and all below it.
fn below(chains: &[Chain], at: usize) -> Vec<usize> {
    let mut found = Vec::new();
    let mut waiting = vec![at];
    while let Some(at) = waiting.pop() {
        found.push(at);
        waiting.extend(chains[at].iter().rev());
    }
    found
}

impl Program {
    /// A program to be run in the library's place.
    pub fn run(self) -> impl Fn(FormBuffers) -> FormObserved {
        move |before| {
            let call = FormCall {
                outline: before.outline.content().to_vec(),
                form: before.form.len,
            };
            let mut observed = observed(&self.given(&call), before);
            (self.alter)(&call, &mut observed);
            observed
        }
    }

    fn given(self, call: &FormCall) -> FormExpected {
        let refusal = self.rows.iter().find_map(|row| row(call));
        refusal.map_or_else(
            || FormExpected::written(&self.form(&call.outline)),
            FormExpected::refused,
        )
    }

    /// What it writes of an accepted outline.
    pub fn form(self, outline: &[u8]) -> Vec<u8> {
        let records = outline::records(outline);
        let chains: Vec<Chain> = (0..records.len()).map(|at| members(&records, at)).collect();
        let sorted = self.sorted(&records, &chains);
        let order = (self.numbers)([&chains, &sorted]);
        let links = links(&sorted, &order);
        let record = |(place, &at): (usize, &usize)| Record {
            next: links[at].next,
            first: links[at].first,
            ..(self.keeps)(&records, at, place)
        };
        bytes(&order.iter().enumerate().map(record).collect::<Vec<_>>())
    }

    /// The members of each record as they are written.
    fn sorted(self, records: &[Record], chains: &[Chain]) -> Vec<Chain> {
        let parts = parts(records, chains);
        let mut sorted = chains.to_vec();
        for (chain, part) in sorted.iter_mut().zip(&parts) {
            if (self.sorts)(part) {
                chain.sort_by_cached_key(|&member| (self.by)(&parts[member]));
            }
        }
        sorted
    }
}

/// Each record's links, if the records get their numbers in this order.
fn links(chains: &[Chain], order: &[usize]) -> Vec<Record> {
    let number = |at: usize| {
        let place = order.iter().position(|&other| other == at);
        place.expect("each record once") as u16 + 1
    };
    let mut links = vec![Record::default(); chains.len()];
    for (at, chain) in chains.iter().enumerate() {
        links[at].first = chain.first().map_or(0, |&member| number(member));
        let pairs = chain.windows(2);
        pairs.for_each(|pair| links[pair[0]].next = number(pair[1]));
    }
    links
}

/// A call that gives this and writes nothing else.
fn observed(given: &FormExpected, before: FormBuffers) -> FormObserved {
    let mut after = before.clone();
    after.answer.write(&given.answer);
    after.form.write(&given.form);
    FormObserved {
        returned: given.answer[0],
        before,
        after,
    }
}

/// What a wrong program does otherwise.
type Otherwise<T> = (&'static str, T);
pub type Wrong = Otherwise<Program>;

const SORTING: [Otherwise<Sorts>; 6] = [
    ("no chain sorted", |_| false),
    ("the root's chain alone sorted", |part| part.position == 0),
    ("the root's chain not sorted", |part| part.position > 0),
    ("chains of taxa alone sorted", |part| {
        part.members.iter().all(Record::is_taxon)
    }),
    ("chains of groups not sorted", |part| {
        part.members.iter().any(Record::is_taxon)
    }),
    ("chains of two alone sorted", |part| part.members.len() == 2),
];

/// The plate of a taxon, after all of groups or before them.
fn taxa_apart(part: &Part, after: bool) -> i64 {
    i64::from(part.record.is_taxon() == after) << 32 | part.least_plate()
}

const ORDERING: [Otherwise<By>; 20] = [
    ("order by the whole field", |part| {
        part.least(|taxon| taxon.plate)
    }),
    ("order by the field of the smallest plate", |part| {
        let least = part.taxa.iter().min_by_key(|taxon| taxon.plate_number());
        least.expect("a taxon").plate.into()
    }),
    ("order by the largest plate", |part| {
        -part.least(|taxon| MOST_PLATE - taxon.plate_number())
    }),
    ("order downwards", |part| -part.least_plate()),
    ("order by record number", |part| part.position as i64),
    ("order by the last record number first", |part| {
        -(part.position as i64)
    }),
    ("order by the first member's plate", |part| {
        part.taxa[0].plate_number().into()
    }),
    ("order by the last member's plate", |part| {
        part.taxa[part.taxa.len() - 1].plate_number().into()
    }),
    ("order by the first two taxa's plates", |part| {
        let two = part.taxa.iter().take(2).map(Record::plate_number);
        two.min().expect("a taxon").into()
    }),
    ("order by the members' own plates", |part| {
        let own = part.members.iter().chain([&part.record]);
        let plates = own.filter(|record| record.is_taxon());
        let least = plates.map(Record::plate_number).min();
        least.unwrap_or(u32::MAX).into()
    }),
    ("own plate left out", |part| {
        if part.record.is_taxon() {
            return 0;
        }
        part.least_plate()
    }),
    ("taxa after groups", |part| taxa_apart(part, true)),
    ("groups after taxa", |part| taxa_apart(part, false)),
    ("locked taxa first", |part| {
        i64::from(!part.record.is_locked()) << 32 | part.least_plate()
    }),
    ("order by locked plates first", |part| {
        part.least(|taxon| taxon.plate ^ LOCK)
    }),
    ("order by a plate's first byte first", |part| {
        part.least(|taxon| taxon.plate_number().swap_bytes())
    }),
    ("order by 30 bits of a plate", |part| {
        part.least(|taxon| taxon.plate & MOST_PLATE >> 1)
    }),
    ("order by the number of taxa", |part| part.taxa.len() as i64),
    ("order by length", |part| part.record.length.into()),
    ("order by price", |part| part.record.price.into()),
];

const NUMBERING: [Otherwise<Numbers>; 4] = [
    ("the outline's numbers", |[chains, _]| {
        (0..chains.len()).collect()
    }),
    ("the numbers of the outline's text", |[chains, _]| {
        down(chains)
    }),
    ("numbers by depth", |[_, chains]| {
        let mut order = vec![0];
        let mut looked_at = 0;
        while let Some(&at) = order.get(looked_at) {
            order.extend(&chains[at]);
            looked_at += 1;
        }
        order
    }),
    ("the members' numbers side by side", |[_, chains]| {
        let mut order = Vec::new();
        let mut waiting = vec![vec![0]];
        while let Some(chain) = waiting.pop() {
            waiting.extend(chain.iter().rev().map(|&at| chains[at].clone()));
            order.extend(chain);
        }
        order
    }),
];

const KEEPING: [Otherwise<Keeps>; 14] = [
    ("the plate for the plate field", |records, at, _| Record {
        plate: records[at].plate_number(),
        ..records[at]
    }),
    ("every taxon locked", |records, at, _| {
        let record = records[at];
        let lock = u32::from(record.is_taxon()) * LOCK;
        Record {
            plate: record.plate | lock,
            ..record
        }
    }),
    ("the lock of the place", |records, at, place| {
        let lock = u32::from(records[at].is_taxon()) * (records[place].plate & LOCK);
        Record {
            plate: records[at].plate_number() | lock,
            ..records[at]
        }
    }),
    ("no price", |records, at, _| Record {
        price: 0,
        ..records[at]
    }),
    ("no heading's price", |records, at, _| Record {
        price: u32::from(records[at].is_taxon()) * records[at].price,
        ..records[at]
    }),
    ("no taxon's price", |records, at, _| Record {
        price: u32::from(!records[at].is_taxon()) * records[at].price,
        ..records[at]
    }),
    ("the price of the place", |records, at, place| Record {
        price: records[place].price,
        ..records[at]
    }),
    ("the first byte of a price", |records, at, _| Record {
        price: records[at].price & 255,
        ..records[at]
    }),
    ("no length", |records, at, _| Record {
        length: 0,
        ..records[at]
    }),
    ("no length of the root", |records, at, _| Record {
        length: u32::from(at > 0) * records[at].length,
        ..records[at]
    }),
    ("no group's length", |records, at, _| Record {
        length: u32::from(records[at].is_taxon()) * records[at].length,
        ..records[at]
    }),
    ("the length of the place", |records, at, place| Record {
        length: records[place].length,
        ..records[at]
    }),
    ("two bytes of a length", |records, at, _| Record {
        length: records[at].length & 65_535,
        ..records[at]
    }),
    ("price for length", |records, at, _| Record {
        length: records[at].price,
        ..records[at]
    }),
];

const CHECK_TO_7: Row = |call| CHECK(call).filter(|refusal| refusal.number < 8);
const ROOM_BUT_ONE: Row = |call| room(call, 1);
const ROOM_AND_ONE: Row = |call| rules::without_place(9, call.form <= needed(&call.outline));
const ROOM_FOR_ANY: Row = |call| rules::without_place(9, call.form < MOST_BYTES);

const JUDGING: [Otherwise<&[Row]>; 5] = [
    ("9 before the check's refusals", &[ROOM, CHECK]),
    ("9 before 8", &[CHECK_TO_7, ROOM, CHECK]),
    ("a byte too few is enough", &[CHECK, ROOM_BUT_ONE]),
    ("9 with just enough room", &[CHECK, ROOM_AND_ONE]),
    ("9 without room for any outline", &[CHECK, ROOM_FOR_ANY]),
];

const WRITING: [Otherwise<Alter>; 12] = [
    ("one byte past the form", |_, observed| {
        let written = written(observed);
        if written > 0 {
            alter(observed, written, |byte| !byte);
        }
    }),
    ("the rest of the form cleared", |call, observed| {
        let written = written(observed);
        for at in written..call.form {
            if written > 0 {
                alter(observed, at, |_| 0);
            }
        }
    }),
    ("the last record not written", |_, observed| {
        let written = written(observed);
        if written > 0 {
            let last = written - outline::RECORD_BYTES;
            let before = observed.before.form.content()[last..written].to_vec();
            for (at, byte) in before.into_iter().enumerate() {
                alter(observed, last + at, |_| byte);
            }
        }
    }),
    ("the outline in its place", |call, observed| {
        if observed.returned == 0 {
            observed.after.form.write(&call.outline);
        }
    }),
    ("what fits written on a refusal by 9", |call, observed| {
        if observed.returned == 9 {
            let form = RIGHT.form(&call.outline);
            observed.after.form.write(&form[..call.form]);
        }
    }),
    ("what fits written on another refusal", |call, observed| {
        if (2..=8).contains(&observed.returned) {
            let room = call.outline.len().min(call.form);
            observed.after.form.write(&call.outline[..room]);
        }
    }),
    ("9 with a place", |_, observed| {
        if observed.returned == 9 {
            observed.after.answer.write(&[9, 1]);
        }
    }),
    ("the number of records as the place", |call, observed| {
        if observed.returned == 0 {
            let records = outline::records(&call.outline).len();
            observed.after.answer.write(&[0, records as u32]);
        }
    }),
    ("the answer left on a refusal", |_, observed| {
        if observed.returned != 0 {
            observed.after.answer = observed.before.answer.clone();
        }
    }),
    ("a refusal that is not returned", |_, observed| {
        observed.returned = 0;
    }),
    ("the outline itself written over", |_, observed| {
        if observed.returned == 0 {
            let form = observed.after.form.content();
            let form = form[..observed.before.outline.len].to_vec();
            observed.after.outline.write(&form);
        }
    }),
    ("a sound outline refused", |_, observed| {
        if observed.returned == 0 {
            let refusal = Refusal {
                number: 9,
                place: 0,
            };
            let before = observed.before.clone();
            *observed = self::observed(&FormExpected::refused(refusal), before);
        }
    }),
];

/// Those that write another form.
pub fn other_forms() -> Vec<Wrong> {
    let sorting = SORTING.map(|(name, sorts)| (name, Program { sorts, ..RIGHT }));
    let ordering = ORDERING.map(|(name, by)| (name, Program { by, ..RIGHT }));
    let numbering = NUMBERING.map(|(name, numbers)| (name, Program { numbers, ..RIGHT }));
    let keeping = KEEPING.map(|(name, keeps)| (name, Program { keeps, ..RIGHT }));
    let mut forms = Vec::from(sorting);
    forms.extend(ordering);
    forms.extend(numbering);
    forms.extend(keeping);
    forms
}

/// Every wrong program.
pub fn all() -> Vec<Wrong> {
    let mut all = other_forms();
    all.extend(JUDGING.map(|(name, rows)| (name, Program { rows, ..RIGHT })));
    all.extend(WRITING.map(|(name, alter)| (name, Program { alter, ..RIGHT })));
    all
}

/// How many bytes of a form were written; none on a refusal.
fn written(observed: &FormObserved) -> usize {
    if observed.returned == 0 {
        observed.before.outline.len
    } else {
        0
    }
}

/// Alters one byte of the form, or of what stands behind it.
fn alter(observed: &mut FormObserved, at: usize, byte: impl Fn(u8) -> u8) {
    let form = &mut observed.after.form;
    let cell = &mut form.cells[form.start + at];
    *cell = byte(*cell);
}
