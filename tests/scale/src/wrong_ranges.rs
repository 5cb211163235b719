//! A right program that chooses for prices not yet agreed, and what wrong ones do otherwise: the tests of the comparisons run them in
//! the library's place. It chooses by the library, at high prices in the call's buffers and at low ones in its own, and compares the
//! two outlines field by field.

use std::ops::RangeInclusive;

use crate::call::{needed, Call};
use crate::frame::Frame;
use crate::library::{self, ChooseObserved, RangeBuffers, RangeObserved};
use crate::outline::{self, bytes, Record, LOCK, RECORD_BYTES, ROOTED};
use crate::random::Random;
use crate::range::RangeCall;
use crate::rules::{self, Refusal};
use crate::wrong_revisions::{
    chosen, clear, in_the_other_way, one_quarter_less, roomy, without_locks, Otherwise,
};

/// How a program goes about it, and what is altered of what it has done.
#[derive(Clone, Copy)]
pub struct Program {
    rows: [Row; 7],
    high: Choosing,
    low: Choosing,
    roof: Roof,
    alter: Alter,
}

/// A row of the table of refusals. Each asks of the outlines no more than the rows before it have settled.
type Row = fn(&RangeCall) -> Option<Refusal>;
/// What is altered of a choosing call, of the one at high prices or of the one at low ones.
type Choosing = fn(&RangeCall, &mut Call);
type Roof = fn(&Choices) -> u32;
type Alter = fn(&Choices, &mut RangeObserved);

const WAY: Row = |call| rules::unknown_way(call.high.way);
const LOW: Row = |call| rules::check(&call.low);
const HIGH: Row = |call| rules::check(&call.high.outline);
const RANGE: Row = |call| judge(call, differ);
const COUNT: Row = |call| rules::count_too_large(call.high.count);
const ROOM: Row = |call| rules::buffer_too_short(&call.high, records(call));
/// By what the library says at high prices.
const LOCKS: Row = |call| locks(&call.high);

/// What a right program does.
pub const RIGHT: Program = Program {
    rows: [WAY, LOW, HIGH, RANGE, COUNT, ROOM, LOCKS],
    high: |_, _| {},
    low: |_, _| {},
    roof: |choices| choices.of_low(2),
    alter: |_, _| {},
};

fn records(call: &RangeCall) -> usize {
    call.high.outline.len() / RECORD_BYTES
}

fn locks(call: &Call) -> Option<Refusal> {
    rules::without_place(12, chosen(&roomy(call)).returned == 12)
}

/// Whether two records, low and high, are at fault.
type Fault = fn(&Record, &Record) -> bool;

const NEXT: Fault = |low, high| low.next != high.next;
const FIRST: Fault = |low, high| low.first != high.first;
const LENGTH: Fault = |low, high| low.length != high.length;
const PLATE: Fault = |low, high| low.plate_number() != high.plate_number();
const LOCK_BIT: Fault = |low, high| (low.plate ^ high.plate) & LOCK != 0;
const PRICE: Fault = |low, high| low.price > high.price;

const FAULTS: [Fault; 6] = [NEXT, FIRST, LENGTH, PLATE, LOCK_BIT, PRICE];

fn differ(low: &Record, high: &Record) -> bool {
    FAULTS.iter().any(|fault| fault(low, high))
}

/// All but the prices.
fn differ_elsewhere(low: &Record, high: &Record) -> bool {
    FAULTS[..5].iter().any(|fault| fault(low, high))
}

/// All but one of them.
fn differ_but_for(at: usize, low: &Record, high: &Record) -> bool {
    let mut others = FAULTS.iter().enumerate();
    others.any(|(other, fault)| other != at && fault(low, high))
}

fn two_sizes(call: &RangeCall) -> Option<Refusal> {
    rules::without_place(17, call.low.len() != call.high.outline.len())
}

/// Each record of both outlines, low and high.
fn pairs(call: &RangeCall) -> Vec<(Record, Record)> {
    let [low, high] = call.outlines().map(outline::records);
    low.into_iter().zip(high).collect()
}

/// 17 where the numbers of records differ, else at the lowest record at fault.
fn judge(call: &RangeCall, fault: impl Fn(&Record, &Record) -> bool) -> Option<Refusal> {
    two_sizes(call).or_else(|| lowest(call, fault))
}

fn lowest(call: &RangeCall, fault: impl Fn(&Record, &Record) -> bool) -> Option<Refusal> {
    let mut pairs = pairs(call).into_iter();
    let before = pairs.position(|(low, high)| fault(&low, &high))?;
    Some(at_fault(before as u32 + 1))
}

fn at_fault(place: u32) -> Refusal {
    Refusal { number: 17, place }
}

/// The refusal by 17 with another place.
fn placed(call: &RangeCall, place: fn(u32) -> u32) -> Option<Refusal> {
    RANGE(call).map(|refusal| at_fault(place(refusal.place)))
}

/// A call and what was chosen: at high prices in the call's buffers, and at low ones.
pub struct Choices {
    call: RangeCall,
    high: ChooseObserved,
    low: ChooseObserved,
}

impl Choices {
    /// A number of the answer at low prices.
    fn of_low(&self, at: usize) -> u32 {
        self.low.after.answer.content()[at]
    }

    fn of_high(&self, at: usize) -> u32 {
        self.high.after.answer.content()[at]
    }

    /// The number of the curve at low prices that has so many from it to the end.
    fn last_but(&self, numbers: usize) -> u32 {
        let curve = self.low.after.curve.content();
        curve.len().checked_sub(numbers).map_or(0, |at| curve[at])
    }

    /// The number of records of the low outline.
    fn records(&self) -> usize {
        self.call.low.len() / RECORD_BYTES
    }
}

impl Program {
    /// A program to be run in the library's place.
    pub fn run(self) -> impl Fn(&RangeCall, RangeBuffers) -> RangeObserved {
        move |call, before| {
            let choices = self.choices(call, &before);
            let refusal = self.rows.iter().find_map(|row| row(call));
            let mut observed = match refusal {
                Some(refusal) => refused(refusal, before),
                None => self.chosen(&choices, before),
            };
            (self.alter)(&choices, &mut observed);
            observed
        }
    }

    /// With another row in the place of one.
    fn with_row(mut self, at: usize, row: Row) -> Self {
        self.rows[at] = row;
        self
    }

    fn choices(self, call: &RangeCall, before: &RangeBuffers) -> Choices {
        let (mut high, mut low) = (call.high.clone(), call.at_low());
        (self.high)(call, &mut high);
        (self.low)(call, &mut low);
        let mut buffers = before.choice.clone();
        buffers.outline = Frame::holding(&high.outline, &mut Random::new(0));
        Choices {
            call: call.clone(),
            high: library::choose_in(high.count, high.way, buffers),
            low: chosen(&roomy(&low)),
        }
    }

    /// What the choice at high prices leaves is left; both outlines are as they were.
    fn chosen(self, choices: &Choices, before: RangeBuffers) -> RangeObserved {
        let answer = choices.high.after.answer.content();
        let (number, place) = (answer[0], answer[1]);
        if number != 0 {
            return refused(Refusal { number, place }, before);
        }
        let mut after = choices.high.after.clone();
        after.outline = before.choice.outline.clone();
        observed(0, before, after, (self.roof)(choices))
    }
}

fn observed(
    returned: u32,
    before: RangeBuffers,
    after: library::Buffers,
    roof: u32,
) -> RangeObserved {
    let mut roof_after = before.roof.clone();
    roof_after.write(&[roof]);
    RangeObserved {
        chosen: ChooseObserved {
            returned,
            before: before.choice,
            after,
        },
        low_after: before.low.clone(),
        low_before: before.low,
        roof_before: before.roof,
        roof_after,
    }
}

fn refused(refusal: Refusal, before: RangeBuffers) -> RangeObserved {
    let mut after = before.choice.clone();
    after
        .answer
        .write(&[refusal.number, refusal.place, 0, 0, 0, 0]);
    observed(refusal.number, before, after, 0)
}

pub type Wrong = Otherwise<Program>;

/// Rows in the place of 17.
const RANGES: [Otherwise<Row>; 47] = [
    ("nothing judged", |_| None),
    ("the number of records alone judged", two_sizes),
    ("one memory refused", |call| {
        let refusal = call.within.map(|_| at_fault(0));
        refusal.or_else(|| RANGE(call))
    }),
    ("another next let through", |call| {
        judge(call, |low, high| differ_but_for(0, low, high))
    }),
    ("another first let through", |call| {
        judge(call, |low, high| differ_but_for(1, low, high))
    }),
    ("another length let through", |call| {
        judge(call, |low, high| differ_but_for(2, low, high))
    }),
    ("another plate let through", |call| {
        judge(call, |low, high| differ_but_for(3, low, high))
    }),
    ("another lock let through", |call| {
        judge(call, |low, high| differ_but_for(4, low, high))
    }),
    ("a low above its high let through", |call| {
        judge(call, differ_elsewhere)
    }),
    ("other links let through", |call| {
        judge(call, |low, high| {
            FAULTS[2..].iter().any(|fault| fault(low, high))
        })
    }),
    ("another plate field let through", |call| {
        judge(call, |low, high| {
            [NEXT, FIRST, LENGTH, PRICE]
                .iter()
                .any(|fault| fault(low, high))
        })
    }),
    ("a lock that high prices add let through", |call| {
        judge(call, |low, high| {
            differ_but_for(4, low, high) || low.plate & !high.plate & LOCK != 0
        })
    }),
    ("a lock that high prices lose let through", |call| {
        judge(call, |low, high| {
            differ_but_for(4, low, high) || !low.plate & high.plate & LOCK != 0
        })
    }),
    ("the length's low byte judged", |call| {
        judge(call, |low, high| {
            differ_but_for(2, low, high) || low.length as u8 != high.length as u8
        })
    }),
    ("the length's two low bytes judged", |call| {
        judge(call, |low, high| {
            differ_but_for(2, low, high) || low.length as u16 != high.length as u16
        })
    }),
    ("the length's second byte let through", |call| {
        judge(call, |low, high| {
            differ_but_for(2, low, high) || (low.length ^ high.length) & !0xff00 != 0
        })
    }),
    ("the plate's low byte judged", |call| {
        judge(call, |low, high| {
            differ_but_for(3, low, high) || low.plate as u8 != high.plate as u8
        })
    }),
    ("the plate's low byte let through", |call| {
        judge(call, |low, high| {
            differ_but_for(3, low, high) || low.plate >> 8 != high.plate >> 8
        })
    }),
    ("the plate's second byte let through", |call| {
        judge(call, |low, high| {
            differ_but_for(3, low, high) || (low.plate ^ high.plate) & !0xff00 != 0
        })
    }),
    ("the plate's third byte let through", |call| {
        judge(call, |low, high| {
            differ_but_for(3, low, high) || (low.plate ^ high.plate) & !0xff_0000 != 0
        })
    }),
    ("the plate's high byte let through", |call| {
        judge(call, |low, high| {
            differ_but_for(3, low, high) || (low.plate ^ high.plate) & 0xff_ffff != 0
        })
    }),
    ("a heading's low above its high let through", |call| {
        judge(call, |low, high| {
            differ_elsewhere(low, high) || low.is_taxon() && PRICE(low, high)
        })
    }),
    ("a taxon's low above its high let through", |call| {
        judge(call, |low, high| {
            differ_elsewhere(low, high) || !low.is_taxon() && PRICE(low, high)
        })
    }),
    ("a low above its high by 1 let through", |call| {
        judge(call, |low, high| {
            differ_elsewhere(low, high) || low.price > high.price + 1
        })
    }),
    ("a low above a high of 0 let through", |call| {
        judge(call, |low, high| {
            differ_elsewhere(low, high) || high.price > 0 && PRICE(low, high)
        })
    }),
    ("prices judged by their low byte", |call| {
        judge(call, |low, high| {
            differ_elsewhere(low, high) || low.price as u8 > high.price as u8
        })
    }),
    ("prices judged by their second byte", |call| {
        judge(call, |low, high| {
            differ_elsewhere(low, high) || low.price >> 8 > high.price >> 8
        })
    }),
    ("prices judged high byte first", |call| {
        judge(call, |low, high| {
            let [low_price, high_price] = [low, high].map(|record| record.price.swap_bytes());
            differ_elsewhere(low, high) || low_price > high_price
        })
    }),
    ("each byte of the prices judged", |call| {
        judge(call, |low, high| {
            let [one, other] = [low, high].map(|record| record.price.to_le_bytes());
            let above = one.iter().zip(other).any(|(low, high)| *low > high);
            differ_elsewhere(low, high) || above
        })
    }),
    ("prices of 16 bits judged with a sign", |call| {
        judge(call, |low, high| {
            differ_elsewhere(low, high) || low.price as i16 > high.price as i16
        })
    }),
    ("prices the other way round", |call| {
        judge(call, |low, high| {
            differ_elsewhere(low, high) || low.price < high.price
        })
    }),
    ("equal prices refused", |call| {
        judge(call, |low, high| {
            differ_elsewhere(low, high) || low.price >= high.price
        })
    }),
    ("every other price refused", |call| {
        judge(call, |low, high| low != high)
    }),
    ("a free low refused", |call| {
        judge(call, |low, high| {
            differ(low, high) || low.price == 0 && high.price > 0
        })
    }),
    ("the sum of the prices judged", |call| {
        let sum = |at: usize| -> u32 {
            let records = outline::records(call.outlines()[at]);
            records.iter().map(|record| record.price).sum()
        };
        judge(call, differ_elsewhere).or_else(|| {
            let above = sum(0) > sum(1);
            above.then(|| RANGE(call)).flatten()
        })
    }),
    ("the root not judged", |call| {
        let mut call = call.clone();
        copy_record(&mut call, 0);
        RANGE(&call)
    }),
    ("the last record not judged", |call| {
        let mut call = call.clone();
        let last = records(&call).saturating_sub(1);
        copy_record(&mut call, last);
        RANGE(&call)
    }),
    ("the highest record told", |call| {
        two_sizes(call).or_else(|| {
            let pairs = pairs(call);
            let at = pairs.iter().rposition(|(low, high)| differ(low, high))?;
            Some(at_fault(at as u32 + 1))
        })
    }),
    ("what differs beside the prices told first", |call| {
        judge(call, differ_elsewhere).or_else(|| judge(call, PRICE))
    }),
    ("prices told first", |call| {
        judge(call, PRICE).or_else(|| judge(call, differ_elsewhere))
    }),
    ("taxa told first", |call| {
        judge(call, |low, high| high.is_taxon() && differ(low, high)).or_else(|| RANGE(call))
    }),
    ("no place", |call| placed(call, |_| 0)),
    ("the place from 0", |call| {
        placed(call, |place| place.saturating_sub(1))
    }),
    ("the place's first byte", |call| {
        placed(call, |place| 16 * place.saturating_sub(1))
    }),
    ("place 1 where the numbers of records differ", |call| {
        placed(call, |place| place.max(1))
    }),
    ("the record after the shorter one told", |call| {
        let [low, high] = call.outlines().map(<[u8]>::len);
        let shorter = (low.min(high) / RECORD_BYTES) as u32;
        let refusal = two_sizes(call).map(|_| at_fault(shorter + 1));
        refusal.or_else(|| RANGE(call))
    }),
    ("the records of two sizes told first", |call| {
        lowest(call, differ).or_else(|| two_sizes(call))
    }),
];

/// Rows that let pass what is of two sizes.
const SIZES: [Otherwise<Row>; 3] = [
    ("a shorter low outline let through", |call| {
        let shorter = call.low.len() < call.high.outline.len();
        RANGE(call).filter(|_| !shorter)
    }),
    ("a longer low outline let through", |call| {
        let longer = call.low.len() > call.high.outline.len();
        RANGE(call).filter(|_| !longer)
    }),
    (
        "the records of both judged, and not their numbers",
        |call| lowest(call, differ),
    ),
];

/// Makes a record of the low outline that of the high one.
fn copy_record(call: &mut RangeCall, at: usize) {
    let bytes = RECORD_BYTES * at..RECORD_BYTES * (at + 1);
    if call.low.len() == call.high.outline.len() && bytes.end <= call.low.len() {
        call.low[bytes.clone()].copy_from_slice(&call.high.outline[bytes]);
    }
}

/// Gives the outline of a choosing call the prices that are made of the low ones and the high ones.
fn with_prices(call: &RangeCall, choosing: &mut Call, price: fn(&Record, &Record) -> u32) {
    let mut records = outline::records(&choosing.outline);
    for (record, (low, high)) in records.iter_mut().zip(pairs(call)) {
        record.price = price(&low, &high);
    }
    choosing.outline = bytes(&records);
}

const LOW_FOR_TAXA: Choosing = |call, choosing| {
    with_prices(call, choosing, |low, high| {
        if high.is_taxon() {
            low.price
        } else {
            high.price
        }
    });
};
const LOW_FOR_HEADINGS: Choosing = |call, choosing| {
    with_prices(call, choosing, |low, high| {
        if high.is_taxon() {
            high.price
        } else {
            low.price
        }
    });
};
const HALFWAY: Choosing = |call, choosing| {
    with_prices(call, choosing, |low, high| {
        u32::midpoint(low.price, high.price)
    });
};
const AT_LOW: Choosing = |call, choosing| choosing.outline.clone_from(&call.low);
const AT_HIGH: Choosing = |call, choosing| choosing.outline.clone_from(&call.high.outline);

/// What the sure set is chosen by.
const SURE: [Otherwise<Choosing>; 7] = [
    ("the sure set from low", AT_LOW),
    ("the sure set at high headings alone", LOW_FOR_TAXA),
    (
        "the sure set at high prices of taxa alone",
        LOW_FOR_HEADINGS,
    ),
    ("the sure set halfway", HALFWAY),
    ("the sure set at one quarter less", |_, call| {
        one_quarter_less(call);
    }),
    ("the sure set in the other way", |_, call| {
        in_the_other_way(call);
    }),
    ("the sure set without locks", |_, call| without_locks(call)),
];

/// What the roof is chosen by.
const BEST: [Otherwise<Choosing>; 11] = [
    ("the roof from high", AT_HIGH),
    ("the roof at low prices of taxa alone", LOW_FOR_TAXA),
    ("the roof at low headings alone", LOW_FOR_HEADINGS),
    ("the roof halfway", HALFWAY),
    ("the roof without prices", |call, choosing| {
        with_prices(call, choosing, |_, _| 0);
    }),
    ("the roof at one quarter less", |_, call| {
        one_quarter_less(call);
    }),
    ("the roof at one quarter more", |_, call| {
        call.count = call.count.saturating_add(1);
    }),
    ("the roof at 4,096 quarters", |_, call| call.count = 4_096),
    ("the roof at no quarter", |_, call| call.count = 0),
    ("the roof in the other way", |_, call| {
        in_the_other_way(call)
    }),
    ("the roof without locks", |_, call| without_locks(call)),
];

/// What is told for the roof.
const ROOFS: [Otherwise<Roof>; 17] = [
    ("the floor", |choices| choices.of_high(2)),
    ("the cost at low prices", |choices| choices.of_low(3)),
    ("the number of taxa at low prices", |choices| {
        choices.of_low(4)
    }),
    ("the spare at low prices", |choices| choices.of_low(5)),
    ("the cost at high prices", |choices| choices.of_high(3)),
    ("the curve's other column", |choices| choices.last_but(1)),
    ("the curve's last but one", |choices| choices.last_but(4)),
    ("the curve's first", |choices| {
        choices
            .low
            .after
            .curve
            .content()
            .first()
            .copied()
            .unwrap_or(0)
    }),
    ("the roof less the floor", |choices| {
        choices.of_low(2).wrapping_sub(choices.of_high(2))
    }),
    ("floor and roof", |choices| {
        choices.of_low(2).wrapping_add(choices.of_high(2))
    }),
    ("one more than the best", |choices| choices.of_low(2) + 1),
    ("16 bits of the roof", |choices| choices.of_low(2) & 0xffff),
    ("no roof", |_| 0),
    ("no roof where the sets are the same", |choices| {
        let n = choices.records();
        let same =
            choices.low.marks(n) == choices.high.after.marks.content().get(..n).unwrap_or(&[]);
        if same {
            0
        } else {
            choices.of_low(2)
        }
    }),
    ("the rooted roof", |choices| {
        let mut call = roomy(&choices.call.at_low());
        call.way = ROOTED;
        chosen(&call).after.answer.content()[2]
    }),
    ("the lengths of the whole tree", |choices| {
        let records = outline::records(&choices.call.low);
        records
            .iter()
            .fold(0, |sum, record| record.length.wrapping_add(sum))
    }),
    ("the floor where nothing is sure", |choices| {
        if choices.of_high(4) == 0 {
            choices.of_high(2)
        } else {
            choices.of_low(2)
        }
    }),
];

/// 9 where fewer marks, curve numbers or work numbers than needed and so many more are there.
fn room(call: &RangeCall, more: [usize; 3]) -> Option<Refusal> {
    let high = &call.high;
    let needed = needed(records(call), high.count);
    let lengths = [high.marks, high.curve, high.work];
    let mut short = lengths.into_iter().zip(needed).zip(more);
    let short = short.any(|((length, needed), more)| length < needed + more);
    rules::without_place(9, short)
}

const A_MARK_MORE: Row = |call| room(call, [1, 0, 0]);
const A_CURVE_NUMBER_MORE: Row = |call| room(call, [0, 1, 0]);
const A_WORK_NUMBER_MORE: Row = |call| room(call, [0, 0, 1]);
const ROOM_FOR_TWO: Row = |call| {
    let high = &call.high;
    room(call, needed(records(call), high.count))
};

/// Rows in the place of 9.
const ROOMS: [Otherwise<Row>; 4] = [
    ("a mark more asked for", A_MARK_MORE),
    ("a curve number more asked for", A_CURVE_NUMBER_MORE),
    ("a work number more asked for", A_WORK_NUMBER_MORE),
    ("room for two choices asked for", ROOM_FOR_TWO),
];

const COUNT_BELOW_4_096: Row = |call| rules::without_place(4, call.high.count >= 4_096);
const LOCKS_AT_LOW: Row = |call| locks(&call.at_low());
const EITHER_SIZE: Row = |call| {
    let size = |outline: &[u8]| {
        let records = outline::records(outline);
        rules::partial_record(outline).or_else(|| rules::too_many_records(&records))
    };
    let [low, high] = call.outlines();
    size(low).or_else(|| size(high))
};
const LOW_AND_HIGH: Row = |call| {
    EITHER_SIZE(call)
        .or_else(|| LOW(call))
        .or_else(|| HIGH(call))
};
const HIGH_THEN_LOW: Row = |call| HIGH(call).or_else(|| LOW(call));
/// 17 for what may be of any size.
const BYTES: Row = |call| lowest(call, differ).or_else(|| two_sizes(call));
const NO_ROW: Row = |_| None;

const JUDGING: [Otherwise<[Row; 7]>; 21] = [
    ("17 before 1", [BYTES, WAY, LOW, HIGH, COUNT, ROOM, LOCKS]),
    (
        "17 before the checks",
        [WAY, BYTES, LOW, HIGH, COUNT, ROOM, LOCKS],
    ),
    (
        "17 before the check of high",
        [WAY, LOW, BYTES, HIGH, COUNT, ROOM, LOCKS],
    ),
    (
        "high checked first",
        [WAY, HIGH, LOW, RANGE, COUNT, ROOM, LOCKS],
    ),
    (
        "the sizes of both checked first",
        [WAY, LOW_AND_HIGH, NO_ROW, RANGE, COUNT, ROOM, LOCKS],
    ),
    (
        "low not checked",
        [WAY, HIGH, NO_ROW, BYTES, COUNT, ROOM, LOCKS],
    ),
    (
        "high not checked",
        [WAY, LOW, NO_ROW, BYTES, COUNT, ROOM, LOCKS],
    ),
    ("17 after 4", [WAY, LOW, HIGH, COUNT, RANGE, ROOM, LOCKS]),
    ("17 after 9", [WAY, LOW, HIGH, COUNT, ROOM, RANGE, LOCKS]),
    ("17 after 12", [WAY, LOW, HIGH, COUNT, ROOM, LOCKS, RANGE]),
    ("12 before 17", [WAY, LOW, HIGH, LOCKS, RANGE, COUNT, ROOM]),
    ("9 before 17", [WAY, LOW, HIGH, ROOM, RANGE, COUNT, LOCKS]),
    ("9 before 4", [WAY, LOW, HIGH, RANGE, ROOM, COUNT, LOCKS]),
    ("12 before 9", [WAY, LOW, HIGH, RANGE, COUNT, LOCKS, ROOM]),
    (
        "4 before the checks",
        [WAY, COUNT, LOW, HIGH, RANGE, ROOM, LOCKS],
    ),
    (
        "4 before the check of high",
        [WAY, LOW, COUNT, HIGH, RANGE, ROOM, LOCKS],
    ),
    (
        "1 after the check of low",
        [LOW, WAY, HIGH, RANGE, COUNT, ROOM, LOCKS],
    ),
    (
        "1 after the checks",
        [LOW, HIGH, WAY, RANGE, COUNT, ROOM, LOCKS],
    ),
    ("1 after 17", [LOW, HIGH, RANGE, WAY, COUNT, ROOM, LOCKS]),
    ("1 after 4", [LOW, HIGH, RANGE, COUNT, WAY, ROOM, LOCKS]),
    (
        "4,096 refused",
        [WAY, LOW, HIGH, RANGE, COUNT_BELOW_4_096, ROOM, LOCKS],
    ),
];

/// What is altered of the choice that is made.
const WRITING: [Otherwise<Alter>; 39] = [
    ("the choice at low prices left", |choices, observed| {
        if observed.chosen.returned == 0 {
            let low = &choices.low.after;
            observed.chosen.after.answer.write(low.answer.content());
            observed.chosen.after.marks.write(low.marks.content());
            observed.chosen.after.curve.write(low.curve.content());
        }
    }),
    ("the marks of low left", |choices, observed| {
        if observed.chosen.returned == 0 {
            let low = choices.low.after.marks.content();
            observed.chosen.after.marks.write(low);
        }
    }),
    ("the marks of both left", |choices, observed| {
        if observed.chosen.returned == 0 {
            let marks = choices.high.marks(choices.records()).iter();
            let both = marks.zip(choices.low.after.marks.content());
            let both: Vec<u8> = both.map(|(high, low)| high | low).collect();
            observed.chosen.after.marks.write(&both);
        }
    }),
    ("the curve of low left", |choices, observed| {
        if observed.chosen.returned == 0 {
            let low = choices.low.after.curve.content();
            observed.chosen.after.curve.write(low);
        }
    }),
    (
        "the curve of low left but for its last column",
        |choices, observed| {
            if observed.chosen.returned == 0 {
                let low = choices.low.after.curve.content();
                observed.chosen.after.curve.write(&low[..low.len() - 2]);
            }
        },
    ),
    ("the answer of low given", |choices, observed| {
        if observed.chosen.returned == 0 {
            let low = choices.low.after.answer.content();
            observed.chosen.after.answer.write(low);
        }
    }),
    ("the diversity of low given", |choices, observed| {
        give_low(2, choices, observed);
    }),
    ("the cost of low given", |choices, observed| {
        give_low(3, choices, observed);
    }),
    ("the number of taxa of low given", |choices, observed| {
        give_low(4, choices, observed);
    }),
    ("the spare of low given", |choices, observed| {
        give_low(5, choices, observed);
    }),
    ("the sure set's cost at low prices", |choices, observed| {
        let low = outline::records(&choices.call.low);
        if observed.chosen.returned == 0 {
            let marks = choices.high.marks(low.len());
            let [cost, _] = crate::sheet::sums(&low, choices.call.high.way, marks);
            give(3, cost, observed);
        }
    }),
    ("work left as it came", |_, observed| {
        observed.chosen.after.work = observed.chosen.before.work.clone();
    }),
    ("the last work number left", |choices, observed| {
        if observed.chosen.returned == 0 {
            let last = choices.low.after.work.len - 1;
            let before = observed.chosen.before.work.content()[last];
            let work = &mut observed.chosen.after.work;
            work.cells[work.start + last] = before;
        }
    }),
    ("all of work cleared", |_, observed| {
        if observed.chosen.returned == 0 {
            clear(&mut observed.chosen.after.work, 0);
        }
    }),
    ("the rest of the marks cleared", |choices, observed| {
        if observed.chosen.returned == 0 {
            clear(&mut observed.chosen.after.marks, choices.records());
        }
    }),
    ("the rest of the curve cleared", |choices, observed| {
        if observed.chosen.returned == 0 {
            let columns = choices.low.after.curve.len;
            clear(&mut observed.chosen.after.curve, columns);
        }
    }),
    (
        "the marks of low behind those of high",
        |choices, observed| {
            if observed.chosen.returned == 0 {
                let low = choices.low.marks(choices.records());
                let marks = &mut observed.chosen.after.marks;
                let behind = marks.len.saturating_sub(low.len()).min(low.len());
                let at = marks.start + low.len();
                marks.cells[at..at + behind].copy_from_slice(&low[..behind]);
            }
        },
    ),
    ("one mark past the last written", |choices, observed| {
        if observed.chosen.returned == 0 {
            let marks = &mut observed.chosen.after.marks;
            marks.cells[marks.start + choices.records()] ^= 1;
        }
    }),
    ("marks cleared on a refusal by 17", |_, observed| {
        clear_on(17..=17, observed);
    }),
    ("marks cleared on a refusal by 9", |_, observed| {
        clear_on(9..=9, observed);
    }),
    ("marks cleared on a refusal by 12", |_, observed| {
        clear_on(12..=12, observed);
    }),
    ("marks cleared on another refusal", |_, observed| {
        clear_on(1..=8, observed);
    }),
    ("work cleared on a refusal", |_, observed| {
        if observed.chosen.returned != 0 {
            clear(&mut observed.chosen.after.work, 0);
        }
    }),
    ("the choice left on a refusal by 17", |choices, observed| {
        if observed.chosen.returned == 17 && choices.high.returned == 0 {
            observed.chosen.after.marks = choices.high.after.marks.clone();
            observed.chosen.after.work = choices.high.after.work.clone();
        }
    }),
    (
        "the choice at low prices left on a refusal by 12",
        |choices, observed| {
            if observed.chosen.returned == 12 && choices.low.returned == 0 {
                let low = choices.low.after.marks.content();
                observed.chosen.after.marks.write(low);
            }
        },
    ),
    ("the roof never written", |_, observed| {
        observed.roof_after = observed.roof_before.clone();
    }),
    ("the roof left on a refusal", |_, observed| {
        if observed.chosen.returned != 0 {
            observed.roof_after = observed.roof_before.clone();
        }
    }),
    ("the roof left on a refusal by 17", |_, observed| {
        if observed.chosen.returned == 17 {
            observed.roof_after = observed.roof_before.clone();
        }
    }),
    ("the roof given on a refusal by 12", |choices, observed| {
        if observed.chosen.returned == 12 {
            observed.roof_after.write(&[choices.of_low(2)]);
        }
    }),
    ("16 bits of the roof written", |_, observed| {
        let before = observed.roof_before.content()[0];
        let roof = before & !0xffff | observed.roof() & 0xffff;
        observed.roof_after.write(&[roof]);
    }),
    ("64 bits of the roof written", |_, observed| {
        let roof = &mut observed.roof_after;
        roof.cells[roof.start + 1] = 0;
    }),
    ("the answer left on a refusal", |_, observed| {
        if observed.chosen.returned != 0 {
            observed.chosen.after.answer = observed.chosen.before.answer.clone();
        }
    }),
    ("a refusal that is not returned", |_, observed| {
        observed.chosen.returned = 0;
    }),
    ("16 for 17", |_, observed| {
        if observed.chosen.returned == 17 {
            observed.chosen.returned = 16;
            give(0, 16, observed);
        }
    }),
    ("9 and 12 with a place", |_, observed| {
        if [9, 12].contains(&observed.chosen.returned) {
            give(1, 1, observed);
        }
    }),
    ("5, 6 and 8 without a place", |_, observed| {
        if (5..=8).contains(&observed.chosen.returned) {
            give(1, 0, observed);
        }
    }),
    (
        "the low outline given the high prices",
        |choices, observed| {
            if observed.chosen.returned == 0 {
                observed.low_after.write(&choices.call.high.outline);
            }
        },
    ),
    (
        "the high outline given the low prices",
        |choices, observed| {
            if observed.chosen.returned == 0 {
                observed.chosen.after.outline.write(&choices.call.low);
            }
        },
    ),
    (
        "the high outline given the low prices on a refusal by 17",
        |choices, observed| {
            let low = &choices.call.low;
            if observed.chosen.returned == 17 && low.len() == choices.call.high.outline.len() {
                observed.chosen.after.outline.write(low);
            }
        },
    ),
];

/// Every wrong program.
pub fn all() -> Vec<Wrong> {
    let ranges = RANGES.into_iter().chain(SIZES);
    let ranges = ranges.map(|(name, row)| (name, RIGHT.with_row(3, row)));
    let sure = SURE.map(|(name, high)| (name, Program { high, ..RIGHT }));
    let best = BEST.map(|(name, low)| (name, Program { low, ..RIGHT }));
    let roofs = ROOFS.map(|(name, roof)| (name, Program { roof, ..RIGHT }));
    let rooms = ROOMS.map(|(name, row)| (name, RIGHT.with_row(5, row)));
    let judging = JUDGING.map(|(name, rows)| (name, Program { rows, ..RIGHT }));
    let writing = WRITING.map(|(name, alter)| (name, Program { alter, ..RIGHT }));
    let mut all: Vec<Wrong> = ranges.collect();
    all.extend(sure);
    all.extend(best);
    all.extend(roofs);
    all.extend(rooms);
    all.extend(judging);
    all.extend(writing);
    all.push(("12 judged at low", FITTING_AT_LOW));
    all.push(("low and high exchanged", EXCHANGED));
    all.push((
        "low and high exchanged once judged",
        Program {
            rows: RIGHT.rows,
            ..EXCHANGED
        },
    ));
    all
}

/// Where the locked taxa fit at low prices alone, it is chosen at these.
const FITTING_AT_LOW: Program = Program {
    rows: [WAY, LOW, HIGH, RANGE, COUNT, ROOM, LOCKS_AT_LOW],
    high: |call, choosing| {
        if locks(&call.high).is_some() {
            AT_LOW(call, choosing);
        }
    },
    ..RIGHT
};

/// As a caller would have it who hands over high and then low.
const EXCHANGED: Program = Program {
    rows: [
        WAY,
        HIGH_THEN_LOW,
        NO_ROW,
        TURNED,
        COUNT,
        ROOM,
        LOCKS_AT_LOW,
    ],
    high: AT_LOW,
    low: AT_HIGH,
    ..RIGHT
};
const TURNED: Row = |call| judge(call, |low, high| differ(high, low));

/// Those of these names.
pub fn named(names: &[&str]) -> Vec<Wrong> {
    let mut named = all();
    named.retain(|(name, _)| names.contains(name));
    assert_eq!(named.len(), names.len());
    named
}

fn give(at: usize, number: u32, observed: &mut RangeObserved) {
    let answer = &mut observed.chosen.after.answer;
    answer.cells[answer.start + at] = number;
}

/// A number of the answer at low prices in the place of the one at high prices.
fn give_low(at: usize, choices: &Choices, observed: &mut RangeObserved) {
    if observed.chosen.returned == 0 {
        give(at, choices.of_low(at), observed);
    }
}

fn clear_on(numbers: RangeInclusive<u32>, observed: &mut RangeObserved) {
    if numbers.contains(&observed.chosen.returned) {
        clear(&mut observed.chosen.after.marks, 0);
    }
}
