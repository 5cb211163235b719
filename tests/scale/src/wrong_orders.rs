//! A right program that compares trees, and what wrong ones do otherwise: the tests of the comparisons run them in the library's
//! place. The forms are those of a program that writes house forms, right or wrong.

use crate::comparing::{CompareCall, CompareExpected};
use crate::library::{CompareBuffers, CompareObserved};
use crate::outline::{self, Record, RECORD_BYTES};
use crate::rules::{self, Refusal};
use crate::view::needed;
use crate::wrong_forms;

/// How a program goes about it, and what is altered of what it has done.
#[derive(Clone, Copy)]
pub struct Program {
    rows: &'static [Row],
    forms: wrong_forms::Program,
    order: Order,
    alter: Alter,
}

/// A row of the table of refusals.
type Row = fn(&CompareCall) -> Option<Refusal>;
/// The order of two forms.
pub type Order = fn(&[u8], &[u8]) -> i32;
type Alter = fn(&CompareCall, &mut CompareObserved);

const FIRST: Row = |call| rules::check(&call.outlines[0]);
const SECOND: Row = |call| rules::check(&call.outlines[1]);
const ROOM: Row = |call| is_short(call, 0).or_else(|| is_short(call, 1));

/// 9 where this form is short.
fn is_short(call: &CompareCall, which: usize) -> Option<Refusal> {
    lacks(call, which, 0)
}

/// 9 where more than so many bytes of a form are missing.
fn lacks(call: &CompareCall, which: usize, missing: usize) -> Option<Refusal> {
    let needed = needed(&call.outlines[which]);
    rules::without_place(9, call.forms[which] + missing < needed)
}

/// What a right program does.
pub const RIGHT: Program = Program {
    rows: &[FIRST, SECOND, ROOM],
    forms: wrong_forms::RIGHT,
    order: |one, other| one.cmp(other) as i32,
    alter: |_, _| {},
};

impl Program {
    /// A program to be run in the library's place.
    pub fn run(self) -> impl Fn(CompareBuffers) -> CompareObserved {
        move |before| {
            let call = CompareCall {
                outlines: before
                    .outlines
                    .each_ref()
                    .map(|outline| outline.content().to_vec()),
                within: before.within,
                forms: before.forms.each_ref().map(|form| form.len),
            };
            let mut observed = observed(&self.given(&call), before);
            (self.alter)(&call, &mut observed);
            observed
        }
    }

    fn given(self, call: &CompareCall) -> CompareExpected {
        if let Some(refusal) = self.rows.iter().find_map(|row| row(call)) {
            return CompareExpected::refused(refusal);
        }
        let [one, other] = self.forms_of(call);
        CompareExpected::compared((self.order)(&one, &other), [&one, &other])
    }

    fn forms_of(self, call: &CompareCall) -> [Vec<u8>; 2] {
        call.outlines
            .each_ref()
            .map(|outline| self.forms.form(outline))
    }
}

/// A call that gives this and writes nothing else. Where a form is short, it writes one byte past it.
fn observed(given: &CompareExpected, before: CompareBuffers) -> CompareObserved {
    let mut after = before.clone();
    after.answer.write(&given.answer);
    after.order.write(&[given.order]);
    for (form, given) in after.forms.iter_mut().zip(&given.forms) {
        form.write(&given[..given.len().min(form.len + 1)]);
    }
    CompareObserved {
        returned: given.answer[0],
        before,
        after,
    }
}

/// What a wrong program does otherwise.
type Otherwise<T> = (&'static str, T);
pub type Wrong = Otherwise<Program>;

/// A form is never the beginning of another one, so these are wrong of bytes alone.
pub const OF_BEGINNINGS: [Otherwise<Order>; 3] = [
    ("longer before its beginning", |one, other| {
        let both = one.len().min(other.len());
        let order = one[..both].cmp(&other[..both]);
        order.then(other.len().cmp(&one.len())) as i32
    }),
    ("the same as its beginning", |one, other| {
        let both = one.len().min(other.len());
        one[..both].cmp(&other[..both]) as i32
    }),
    ("nothing after everything", |one, other| {
        match (one, other) {
            ([], [_, ..]) => 1,
            ([_, ..], []) => -1,
            _ => one.cmp(other) as i32,
        }
    }),
];

/// The order of what is made of each.
fn by<T: Ord>(one: &[u8], other: &[u8], of: impl Fn(&[u8]) -> T) -> i32 {
    of(one).cmp(&of(other)) as i32
}

/// The order of what is made of each record.
fn by_records<T: Ord>(one: &[u8], other: &[u8], of: fn(Record) -> T) -> i32 {
    by(one, other, |form| -> Vec<T> {
        outline::records(form).into_iter().map(of).collect()
    })
}

pub const ORDERING: [Otherwise<Order>; 18] = [
    ("order turned round", |one, other| other.cmp(one) as i32),
    ("the shorter first", |one, other| {
        by(one, other, |form| (form.len(), form.to_vec()))
    }),
    ("the longer first", |one, other| {
        let order = other.len().cmp(&one.len());
        order.then(one.cmp(other)) as i32
    }),
    ("order by numbers", |one, other| {
        by_records(one, other, |record| {
            let links = [record.next, record.first].map(u32::from);
            (links, record.length, record.price, record.plate)
        })
    }),
    ("order by signed bytes", |one, other| {
        by(one, other, |form| -> Vec<i8> {
            form.iter().map(|&byte| byte as i8).collect()
        })
    }),
    ("order from the last byte on", |one, other| {
        by(one, other, |form| -> Vec<u8> {
            form.iter().rev().copied().collect()
        })
    }),
    ("the difference of two bytes", |one, other| {
        let mut pairs = one.iter().zip(other);
        let parting = pairs.find(|(byte, other)| byte != other);
        parting.map_or(0, |(byte, other)| i32::from(*byte) - i32::from(*other))
    }),
    ("1 for another tree", |one, other| i32::from(one != other)),
    ("-1 for another tree", |one, other| -i32::from(one != other)),
    ("0 for any tree", |_, _| 0),
    ("0 for trees of one size", |one, other| {
        one.len().cmp(&other.len()) as i32
    }),
    ("order by the first record", |one, other| {
        one[..16].cmp(&other[..16]) as i32
    }),
    ("the last record left out", |one, other| {
        by(one, other, |form| {
            form[..form.len() - RECORD_BYTES].to_vec()
        })
    }),
    ("the last byte left out", |one, other| {
        by(one, other, |form| form[..form.len() - 1].to_vec())
    }),
    ("links left out", |one, other| {
        by_records(one, other, |record| {
            (record.length, record.price, record.plate)
        })
    }),
    ("locks left out", |one, other| {
        by_records(one, other, |record| {
            let links = [record.next, record.first];
            (links, record.length, record.price, record.plate_number())
        })
    }),
    ("prices left out", |one, other| {
        by_records(one, other, |record| {
            ([record.next, record.first], record.length, record.plate)
        })
    }),
    ("headings' prices left out", |one, other| {
        by_records(one, other, |record| {
            let price = u32::from(record.is_taxon()) * record.price;
            (
                [record.next, record.first],
                record.length,
                price,
                record.plate,
            )
        })
    }),
];

const FIRST_ROOM: Row = |call| is_short(call, 0);
const SECOND_ROOM: Row = |call| is_short(call, 1);
const ROOM_BUT_ONE: Row = |call| lacks(call, 0, 1).or_else(|| lacks(call, 1, 0));
const ROOM_BUT_ONE_OF_SECOND: Row = |call| lacks(call, 0, 0).or_else(|| lacks(call, 1, 1));
const ROOM_TURNED: Row = |call| {
    let [needed, other_needed] = call.outlines.each_ref().map(|outline| needed(outline));
    let [form, other_form] = call.forms;
    rules::without_place(9, form < other_needed || other_form < needed)
};
const ROOM_OF_LONGER: Row = |call| {
    let longer = call.outlines.iter().map(|outline| needed(outline)).max();
    rules::without_place(9, call.forms.iter().min() < longer.as_ref())
};
const ROOM_IN_ONE: Row = |call| is_short(call, 0).and(is_short(call, 1));
const ROOM_IN_ALL: Row = |call| {
    let needed: usize = call.outlines.iter().map(|outline| needed(outline)).sum();
    rules::without_place(9, call.forms.iter().sum::<usize>() < needed)
};
const LOWER_NUMBER: Row = |call| {
    let refusals = [FIRST(call), SECOND(call)].into_iter().flatten();
    refusals.min_by_key(|refusal| refusal.number)
};
const LOWER_PLACE: Row = |call| {
    let refusals = [FIRST(call), SECOND(call)].into_iter().flatten();
    refusals.min_by_key(|refusal| refusal.place)
};
const SECOND_WITHOUT_PLACE: Row = |call| {
    let number = SECOND(call)?.number;
    rules::without_place(number, true)
};
const SECOND_TO_7: Row = |call| SECOND(call).filter(|refusal| refusal.number < 8);

const JUDGING: [Otherwise<&[Row]>; 16] = [
    ("second refusal first", &[SECOND, FIRST, ROOM]),
    ("the lower number of two refusals", &[LOWER_NUMBER, ROOM]),
    ("the lower place of two refusals", &[LOWER_PLACE, ROOM]),
    (
        "the second refusal without its place",
        &[FIRST, SECOND_WITHOUT_PLACE, ROOM],
    ),
    ("9 before both refusals", &[ROOM, FIRST, SECOND]),
    ("9 before the second refusal", &[FIRST, ROOM, SECOND]),
    (
        "9 before the second refusal by 8",
        &[FIRST, SECOND_TO_7, ROOM, SECOND],
    ),
    (
        "9 by the first form before the second refusal",
        &[FIRST, FIRST_ROOM, SECOND, SECOND_ROOM],
    ),
    ("9 by the first form alone", &[FIRST, SECOND, FIRST_ROOM]),
    ("9 by the second form alone", &[FIRST, SECOND, SECOND_ROOM]),
    ("9 only by both forms", &[FIRST, SECOND, ROOM_IN_ONE]),
    ("9 by both forms together", &[FIRST, SECOND, ROOM_IN_ALL]),
    ("9 by forms turned round", &[FIRST, SECOND, ROOM_TURNED]),
    ("9 by the longer outline", &[FIRST, SECOND, ROOM_OF_LONGER]),
    (
        "a byte too few in the first form is enough",
        &[FIRST, SECOND, ROOM_BUT_ONE],
    ),
    (
        "a byte too few in the second form is enough",
        &[FIRST, SECOND, ROOM_BUT_ONE_OF_SECOND],
    ),
];

const WRITING: [Otherwise<Alter>; 27] = [
    (
        "the first form written where the second is short",
        |call, observed| {
            if observed.returned == 9 && is_short(call, 0).is_none() {
                write(call, observed, 0);
            }
        },
    ),
    (
        "the second form written where the first is short",
        |call, observed| {
            if observed.returned == 9 && is_short(call, 1).is_none() {
                write(call, observed, 1);
            }
        },
    ),
    (
        "the first form written where the second outline is refused",
        |call, observed| {
            if FIRST(call).is_none() && SECOND(call).is_some() && is_short(call, 0).is_none() {
                write(call, observed, 0);
            }
        },
    ),
    (
        "the second form written where the first outline is refused",
        |call, observed| {
            if FIRST(call).is_some() && SECOND(call).is_none() && is_short(call, 1).is_none() {
                write(call, observed, 1);
            }
        },
    ),
    ("order -1 on a refusal", |_, observed| {
        order_on_refusal(observed, -1)
    }),
    ("order 1 on a refusal", |_, observed| {
        order_on_refusal(observed, 1)
    }),
    ("the order left on a refusal", |_, observed| {
        let before = observed.before.order.content()[0];
        order_on_refusal(observed, before);
    }),
    ("the order of the trees on 9", |call, observed| {
        if observed.returned == 9 {
            let [one, other] = RIGHT.forms_of(call);
            order_on_refusal(observed, one.cmp(&other) as i32);
        }
    }),
    ("the order left on the same tree", |_, observed| {
        if observed.returned == 0 && observed.order() == 0 {
            observed.after.order = observed.before.order.clone();
        }
    }),
    ("the order of the outlines", |call, observed| {
        if observed.returned == 0 {
            let [one, other] = &call.outlines;
            observed.after.order.write(&[one.cmp(other) as i32]);
        }
    }),
    ("forms exchanged", |_, observed| {
        if observed.returned == 0 {
            let forms = observed.forms().map(<[u8]>::to_vec);
            let [form, other_form] = &mut observed.after.forms;
            form.write(&forms[1][..forms[1].len().min(form.len)]);
            other_form.write(&forms[0][..forms[0].len().min(other_form.len)]);
        }
    }),
    ("the first form left on the same tree", |_, observed| {
        leave_on_the_same(observed, 0);
    }),
    ("the second form left on the same tree", |_, observed| {
        leave_on_the_same(observed, 1);
    }),
    (
        "the forms left after the first difference",
        |_, observed| {
            if observed.returned == 0 {
                let forms = observed.forms().map(<[u8]>::to_vec);
                let pairs = forms[0].iter().zip(&forms[1]);
                let alike = pairs.take_while(|(byte, other)| byte == other).count();
                for which in [0, 1] {
                    observed.after.forms[which] = observed.before.forms[which].clone();
                    observed.after.forms[which].write(&forms[which][..alike]);
                }
            }
        },
    ),
    ("the outlines in the forms' place", |call, observed| {
        if observed.returned == 0 {
            for (form, outline) in observed.after.forms.iter_mut().zip(&call.outlines) {
                form.write(outline);
            }
        }
    }),
    ("the rest of the first form cleared", |_, observed| {
        clear_rest(observed, 0)
    }),
    ("the rest of the second form cleared", |_, observed| {
        clear_rest(observed, 1)
    }),
    ("one byte past the first form", |_, observed| {
        write_past(observed, 0)
    }),
    ("one byte past the second form", |_, observed| {
        write_past(observed, 1)
    }),
    ("9 with the first form as its place", |_, observed| {
        if observed.returned == 9 {
            observed.after.answer.write(&[9, 1]);
        }
    }),
    ("the answer left on a refusal", |_, observed| {
        if observed.returned != 0 {
            observed.after.answer = observed.before.answer.clone();
        }
    }),
    ("a refusal that is not returned", |_, observed| {
        observed.returned = 0;
    }),
    ("the order returned", |_, observed| {
        if observed.returned == 0 {
            observed.returned = observed.order() as u32;
        }
    }),
    ("the first outline written over", |_, observed| {
        write_over(observed, 0)
    }),
    ("the second outline written over", |_, observed| {
        write_over(observed, 1)
    }),
    ("one memory refused", |call, observed| {
        if observed.returned == 0 && call.within.is_some() {
            let refusal = Refusal {
                number: 9,
                place: 0,
            };
            let before = observed.before.clone();
            *observed = self::observed(&CompareExpected::refused(refusal), before);
        }
    }),
    ("one memory taken for one tree", |call, observed| {
        if observed.returned == 0 && call.within.is_some() {
            observed.after.order.write(&[0]);
        }
    }),
];

/// Those whose order is another one for forms that are right.
pub fn other_orders() -> Vec<Wrong> {
    ORDERING
        .map(|(name, order)| (name, Program { order, ..RIGHT }))
        .into()
}

/// Those whose forms are other ones.
pub fn other_forms() -> Vec<Wrong> {
    let others = wrong_forms::other_forms().into_iter();
    others
        .map(|(name, forms)| (name, Program { forms, ..RIGHT }))
        .collect()
}

/// Every wrong program.
pub fn all() -> Vec<Wrong> {
    let mut all = other_forms();
    all.extend(other_orders());
    all.extend(JUDGING.map(|(name, rows)| (name, Program { rows, ..RIGHT })));
    all.extend(WRITING.map(|(name, alter)| (name, Program { alter, ..RIGHT })));
    all
}

/// Those that no call of accepted outlines can show to be wrong.
pub fn of_beginnings() -> Vec<Wrong> {
    OF_BEGINNINGS
        .map(|(name, order)| (name, Program { order, ..RIGHT }))
        .into()
}

/// Writes a form that there is room for.
fn write(call: &CompareCall, observed: &mut CompareObserved, which: usize) {
    let form = RIGHT.forms.form(&call.outlines[which]);
    observed.after.forms[which].write(&form);
}

fn order_on_refusal(observed: &mut CompareObserved, order: i32) {
    if observed.returned != 0 {
        observed.after.order.write(&[order]);
    }
}

fn leave_on_the_same(observed: &mut CompareObserved, which: usize) {
    if observed.returned == 0 && observed.order() == 0 {
        observed.after.forms[which] = observed.before.forms[which].clone();
    }
}

fn clear_rest(observed: &mut CompareObserved, which: usize) {
    let written = observed.before.outlines[which].len;
    let form = &mut observed.after.forms[which];
    if observed.returned == 0 {
        form.cells[form.start + written..form.start + form.len].fill(0);
    }
}

fn write_past(observed: &mut CompareObserved, which: usize) {
    let written = observed.before.outlines[which].len;
    let form = &mut observed.after.forms[which];
    if observed.returned == 0 {
        form.cells[form.start + written] ^= 255;
    }
}

fn write_over(observed: &mut CompareObserved, which: usize) {
    if observed.returned == 0 {
        let form = observed.forms()[which].to_vec();
        observed.after.outlines[which].write(&form);
    }
}
