//! A right program that revises a length, and what wrong ones do otherwise: the tests of the comparisons run them in the library's
//! place. It chooses by the library, from the outline as it is and from a copy in which the length is stored.

use std::ops::RangeInclusive;

use crate::call::{needed, Call};
use crate::exhaustive::subsets;
use crate::expect::is_small;
use crate::frame::{Cell, Frame};
use crate::library::{self, ChooseObserved, ReviseBuffers, ReviseObserved};
use crate::measures::Measures;
use crate::outline::{self, taxa, Record, RECORD_BYTES, ROOTED, UNROOTED};
use crate::random::Random;
use crate::revise::{is_bad, ReviseCall, MOST_LENGTH};
use crate::rules::{self, Refusal};
use crate::sheet;
use crate::spanning::Branch;

/// How a program goes about it, and what is altered of what it has done.
#[derive(Clone, Copy)]
pub struct Program {
    rows: [Row; 7],
    store: Store,
    before: Choosing,
    after: Choosing,
    movement: Movement,
    alter: Alter,
}

/// A row of the table of refusals. Each asks of the outline no more than the rows before it have settled.
type Row = fn(&ReviseCall) -> Option<Refusal>;
/// What becomes of a copy of the outline.
type Store = fn(&ReviseCall, &mut [u8]);
/// What is altered of a choosing call, of the one before or of the one after.
type Choosing = fn(&mut Call);
type Movement = fn(&Choices) -> [i64; 2];
type Alter = fn(&Choices, &mut ReviseObserved);

const WAY: Row = |call| rules::unknown_way(call.given.way);
const SIZE: Row = |call| {
    let records = outline::records(&call.given.outline);
    rules::partial_record(&call.given.outline).or_else(|| rules::too_many_records(&records))
};
const COUNT: Row = |call| rules::count_too_large(call.given.count);
const CONTENT: Row = |call| rules::content(&outline::records(&call.given.outline));
const REVISION: Row = |call| rules::without_place(16, is_bad(call, call.records()));
const ROOM: Row = |call| rules::buffer_too_short(&call.given, call.records());
/// By what the library says of the outline as it is.
const LOCKS: Row = |call| {
    let call = roomy(&call.given);
    rules::without_place(12, chosen(&call).returned == 12)
};

/// What a right program does.
pub const RIGHT: Program = Program {
    rows: [WAY, SIZE, COUNT, CONTENT, REVISION, ROOM, LOCKS],
    store: |call, outline| put(outline, place(call), &call.length.to_le_bytes()),
    before: |_| {},
    after: |_| {},
    movement: Choices::moved,
    alter: |_, _| {},
};

/// Where the record's length stands; beyond every outline if there is no such record.
fn place(call: &ReviseCall) -> usize {
    (call.record as usize)
        .checked_sub(1)
        .map_or(usize::MAX / 2, |before| RECORD_BYTES * before + 4)
}

/// Bytes that do not stand in the outline are dropped.
fn put(outline: &mut [u8], at: usize, bytes: &[u8]) {
    for (place, byte) in (at..).zip(bytes) {
        if let Some(cell) = outline.get_mut(place) {
            *cell = *byte;
        }
    }
}

/// Stores the length so many bytes from where it stands.
fn put_off(call: &ReviseCall, outline: &mut [u8], by: isize) {
    let at = place(call).checked_add_signed(by);
    put(
        outline,
        at.unwrap_or(usize::MAX / 2),
        &call.length.to_le_bytes(),
    );
}

/// Stores what is made of the old length and the new one.
fn put_of_both(call: &ReviseCall, outline: &mut [u8], of: fn(u32, u32) -> u32) {
    let old = stored(outline, place(call));
    let length = old.map_or(call.length, |old| of(old, call.length));
    put(outline, place(call), &length.to_le_bytes());
}

/// Stores the length if it holds for the record.
fn put_if(call: &ReviseCall, outline: &mut [u8], holds: fn(&Record, u32) -> bool) {
    let before = call.record.wrapping_sub(1) as usize;
    let record = outline::records(outline).get(before).copied();
    if record.is_none_or(|record| holds(&record, call.record)) {
        (RIGHT.store)(call, outline);
    }
}

/// The number in four bytes of the outline, if they are there.
fn stored(outline: &[u8], at: usize) -> Option<u32> {
    let bytes = outline.get(at..at + 4)?;
    Some(u32::from_le_bytes(bytes.try_into().ok()?))
}

/// The same call with room for what it needs and no more, unless the page count is refused anyway.
pub(crate) fn roomy(call: &Call) -> Call {
    if call.count > 4_096 {
        return call.clone();
    }
    let [marks, curve, work] = needed(call.outline.len() / RECORD_BYTES, call.count);
    Call {
        marks,
        curve,
        work,
        ..call.clone()
    }
}

/// What the library chooses in buffers of its own.
pub(crate) fn chosen(call: &Call) -> ChooseObserved {
    library::guarded_choose(call, &mut Random::new(0))
}

/// A call and what was chosen: from the outline before, and in the call's buffers from the revised one.
pub struct Choices {
    call: ReviseCall,
    old: ChooseObserved,
    new: ChooseObserved,
}

impl Choices {
    /// A number of the answer before, and of the one after.
    fn both(&self, at: usize) -> [i64; 2] {
        [&self.old, &self.new].map(|choice| choice.after.answer.content()[at].into())
    }

    /// The record's length before and after; 0 before if there is no such record.
    fn lengths(&self) -> [i64; 2] {
        let old = stored(&self.call.given.outline, place(&self.call));
        [old.unwrap_or(0).into(), self.call.length.into()]
    }

    fn moved(&self) -> [i64; 2] {
        let ([old, new], [from, to]) = (self.both(2), self.lengths());
        [new - old, to - from]
    }

    /// The marks before and after.
    fn marks(&self) -> [&[u8]; 2] {
        let records = self.call.records();
        [&self.old, &self.new].map(|choice| choice.marks(records))
    }

    /// The revised branch beside the set chosen before.
    fn branch(&self) -> Branch {
        Branch::of(&self.call, self.marks()[0])
    }

    /// The same by the words of one way for both.
    fn branch_by(&self, way: u32) -> Branch {
        let mut call = self.call.clone();
        call.given.way = way;
        Branch::of(&call, self.marks()[0])
    }

    /// The diversity of the set chosen before and of the one after, each in the outline before and in the one after.
    fn diversities(&self, way: u32) -> [[i64; 2]; 2] {
        let outlines = [&self.old, &self.new].map(|choice| choice.before.outline.content());
        let records = outlines.map(outline::records);
        self.marks().map(|marks| {
            records.each_ref().map(|records| {
                let [_, diversity] = sheet::sums(records, way, marks);
                diversity.into()
            })
        })
    }

    fn sizes(&self) -> [i64; 2] {
        self.moved().map(i64::abs)
    }

    fn difference(&self, at: usize) -> i64 {
        let [old, new] = self.both(at);
        new - old
    }
}

impl Program {
    /// A program to be run in the library's place.
    pub fn run(self) -> impl Fn(&ReviseCall, ReviseBuffers) -> ReviseObserved {
        move |call, before| {
            let choices = self.choices(call, &before);
            let refusal = self.rows.iter().find_map(|row| row(call));
            let mut observed = match refusal {
                Some(refusal) => refused(refusal, before),
                None => self.revised(&choices, before),
            };
            (self.alter)(&choices, &mut observed);
            observed
        }
    }

    /// With another row in the place of one.
    fn with_row(mut self, at: usize, row: Row) -> Self {
        self.rows[at] = row;
        self
    }

    fn choices(self, call: &ReviseCall, before: &ReviseBuffers) -> Choices {
        let mut given = call.given.clone();
        (self.before)(&mut given);
        let mut revised = call.given.clone();
        (self.store)(call, &mut revised.outline);
        (self.after)(&mut revised);
        let mut buffers = before.choice.clone();
        buffers.outline.write(&revised.outline);
        Choices {
            old: chosen(&roomy(&given)),
            new: library::choose_in(revised.count, revised.way, buffers),
            call: call.clone(),
        }
    }

    /// What the second choice leaves is left; the given outline is as it was.
    fn revised(self, choices: &Choices, before: ReviseBuffers) -> ReviseObserved {
        let answer = choices.new.after.answer.content();
        let (number, place) = (answer[0], answer[1]);
        if number != 0 {
            return refused(Refusal { number, place }, before);
        }
        let mut after = choices.new.after.clone();
        after.outline = before.choice.outline.clone();
        let mut moved = before.moved.clone();
        moved.write(&(self.movement)(choices));
        ReviseObserved {
            chosen: ChooseObserved {
                returned: 0,
                before: before.choice,
                after,
            },
            moved_before: before.moved,
            moved_after: moved,
        }
    }
}

fn refused(refusal: Refusal, before: ReviseBuffers) -> ReviseObserved {
    let mut after = before.choice.clone();
    after
        .answer
        .write(&[refusal.number, refusal.place, 0, 0, 0, 0]);
    let mut moved = before.moved.clone();
    moved.write(&[0, 0]);
    ReviseObserved {
        chosen: ChooseObserved {
            returned: refusal.number,
            before: before.choice,
            after,
        },
        moved_before: before.moved,
        moved_after: moved,
    }
}

/// What a wrong program does otherwise.
pub(crate) type Otherwise<T> = (&'static str, T);
pub type Wrong = Otherwise<Program>;

const STORING: [Otherwise<Store>; 19] = [
    ("stored at the record after", |call, outline| {
        put_off(call, outline, 16);
    }),
    ("stored at the record before", |call, outline| {
        put_off(call, outline, -16);
    }),
    ("stored in bytes 8 to 11, the price", |call, outline| {
        put_off(call, outline, 4);
    }),
    ("stored in bytes 12 to 15, the plate", |call, outline| {
        put_off(call, outline, 8);
    }),
    ("stored in bytes 0 to 3, the links", |call, outline| {
        put_off(call, outline, -4);
    }),
    ("stored a byte too far", |call, outline| {
        put_off(call, outline, 1);
    }),
    ("stored high byte first", |call, outline| {
        put(outline, place(call), &call.length.to_be_bytes());
    }),
    ("the low byte stored", |call, outline| {
        put(outline, place(call), &call.length.to_le_bytes()[..1]);
    }),
    ("the two low bytes stored", |call, outline| {
        put(outline, place(call), &call.length.to_le_bytes()[..2]);
    }),
    ("nothing stored", |_, _| {}),
    ("added to the old length", |call, outline| {
        put_of_both(call, outline, u32::wrapping_add);
    }),
    ("the greater length stored", |call, outline| {
        put_of_both(call, outline, u32::max);
    }),
    ("the smaller length stored", |call, outline| {
        put_of_both(call, outline, u32::min);
    }),
    ("groups left as they are", |call, outline| {
        put_if(call, outline, |record, _| record.is_taxon());
    }),
    ("taxa left as they are", |call, outline| {
        put_if(call, outline, |record, _| !record.is_taxon());
    }),
    ("the root left as it is", |call, outline| {
        put_if(call, outline, |_, number| number > 1);
    }),
    ("locked taxa left as they are", |call, outline| {
        put_if(call, outline, |record, _| !record.is_locked());
    }),
    ("stored at every record", |call, outline| {
        for record in outline.chunks_mut(RECORD_BYTES) {
            put(record, 4, &call.length.to_le_bytes());
        }
    }),
    ("stored at the taxon of that number", |call, outline| {
        let taxa = taxa(&outline::records(outline));
        if let Some(at) = taxa.get(call.record.wrapping_sub(1) as usize) {
            put(outline, RECORD_BYTES * at + 4, &call.length.to_le_bytes());
        }
    }),
];

const BEFORE: [Otherwise<Choosing>; 6] = [
    ("the old best at one quarter more", |call| {
        call.count = call.count.saturating_add(1);
    }),
    ("the old best at one quarter less", one_quarter_less),
    ("the old best at 4,096 quarters", |call| call.count = 4_096),
    ("the old best at no quarter", |call| call.count = 0),
    ("the old best in the other way", in_the_other_way),
    ("the old best without locks", without_locks),
];

const AFTER: [Otherwise<Choosing>; 3] = [
    ("the new choice at one quarter less", one_quarter_less),
    ("the new choice in the other way", in_the_other_way),
    ("the new choice without locks", without_locks),
];

pub(crate) fn one_quarter_less(call: &mut Call) {
    call.count = call.count.saturating_sub(1);
}

pub(crate) fn in_the_other_way(call: &mut Call) {
    call.way ^= 1;
}

pub(crate) fn without_locks(call: &mut Call) {
    for at in taxa(&outline::records(&call.outline)) {
        call.outline[RECORD_BYTES * at + 15] &= 127;
    }
}

const MOVING: [Otherwise<Movement>; 32] = [
    ("both the other way round", |choices| {
        choices.moved().map(|moved| -moved)
    }),
    ("the best's the other way round", |choices| {
        let [best, length] = choices.moved();
        [-best, length]
    }),
    ("the length's the other way round", |choices| {
        let [best, length] = choices.moved();
        [best, -length]
    }),
    ("best and length exchanged", |choices| {
        let [best, length] = choices.moved();
        [length, best]
    }),
    ("both in size only", Choices::sizes),
    ("the best's in size only", |choices| {
        [choices.sizes()[0], choices.moved()[1]]
    }),
    ("the length's in size only", |choices| {
        [choices.moved()[0], choices.sizes()[1]]
    }),
    ("the new numbers", |choices| {
        [choices.both(2)[1], choices.lengths()[1]]
    }),
    ("the old numbers", |choices| {
        [choices.both(2)[0], choices.lengths()[0]]
    }),
    ("the new best for its movement", |choices| {
        [choices.both(2)[1], choices.moved()[1]]
    }),
    ("the new length for its movement", |choices| {
        [choices.moved()[0], choices.lengths()[1]]
    }),
    ("the cost's movement", |choices| {
        [choices.difference(3), choices.moved()[1]]
    }),
    ("the movement of the number of taxa", |choices| {
        [choices.difference(4), choices.moved()[1]]
    }),
    ("the spare's movement", |choices| {
        [choices.difference(5), choices.moved()[1]]
    }),
    ("32 bits without a sign", |choices| {
        choices.moved().map(|moved| (moved as u32).into())
    }),
    ("16 bits with a sign", |choices| {
        choices.moved().map(|moved| (moved as i16).into())
    }),
    ("the length's movement for both", |choices| {
        [choices.moved()[1]; 2]
    }),
    ("the best's movement for both", |choices| {
        [choices.moved()[0]; 2]
    }),
    ("no movement", |_| [0, 0]),
    ("no movement of the best", |choices| [0, choices.moved()[1]]),
    ("no movement downwards", |choices| {
        choices.moved().map(|moved| moved.max(0))
    }),
    ("no movement where the set is another", |choices| {
        let [old, new] = choices.marks();
        let [best, length] = choices.moved();
        [if old == new { best } else { 0 }, length]
    }),
    ("the movement of the set before", |choices| {
        let [[old, new], _] = choices.diversities(choices.call.given.way);
        [new - old, choices.moved()[1]]
    }),
    ("the movement of the set after", |choices| {
        let [_, [old, new]] = choices.diversities(choices.call.given.way);
        [new - old, choices.moved()[1]]
    }),
    ("the rooted movement", |choices| {
        let [[old, _], [_, new]] = choices.diversities(ROOTED);
        [new - old, choices.moved()[1]]
    }),
    ("no movement of the best upwards", |choices| {
        let [best, length] = choices.moved();
        [best.min(0), length]
    }),
    ("one less where a spanned length rises", |choices| {
        let [best, length] = choices.moved();
        let less = choices.branch().is_spanned && length > 0;
        [best - i64::from(less), length]
    }),
    (
        "one less where a length falls that is not spanned",
        |choices| {
            let [best, length] = choices.moved();
            let less = !choices.branch().is_spanned && length < 0;
            [best - i64::from(less), length]
        },
    ),
    (
        "the length's movement where one falls that is not spanned",
        |choices| {
            let [best, length] = choices.moved();
            let falls = !choices.branch().is_spanned && length < 0;
            [if falls { length } else { best }, length]
        },
    ),
    (
        "the length's movement where the set is the same",
        |choices| {
            let [old, new] = choices.marks();
            let [best, length] = choices.moved();
            [if old == new { length } else { best }, length]
        },
    ),
    ("the length's movement wherever it is spanned", |choices| {
        let [best, length] = choices.moved();
        let is_spanned = choices.branch().is_spanned;
        [if is_spanned { length } else { best }, length]
    }),
    ("no movement wherever a length is not spanned", |choices| {
        let [best, length] = choices.moved();
        let is_spanned = choices.branch().is_spanned;
        [if is_spanned { best } else { 0 }, length]
    }),
];

/// 16 where the record, by `number`, is not one of so many, or the length, by `length`, is more than 1,000,000.
fn revision(
    call: &ReviseCall,
    number: impl Fn(u32) -> u64,
    length: impl Fn(u32) -> u32,
) -> Option<Refusal> {
    let named = 1..=call.records() as u64;
    let bad = !named.contains(&number(call.record)) || length(call.length) > MOST_LENGTH;
    rules::without_place(16, bad)
}

/// 9 where fewer marks, curve numbers or work numbers than needed and so many more are there.
fn room(call: &ReviseCall, more: [usize; 3]) -> Option<Refusal> {
    let given = &call.given;
    let needed = needed(call.records(), given.count);
    let lengths = [given.marks, given.curve, given.work];
    let mut short = lengths.into_iter().zip(needed).zip(more);
    let short = short.any(|((length, needed), more)| length < needed + more);
    rules::without_place(9, short)
}

const NO_RECORD_JUDGED: Row = |call| revision(call, |_| 1, |length| length);
const NO_LENGTH_JUDGED: Row = |call| revision(call, u64::from, |_| 0);
const RECORD_0: Row = |call| revision(call, |record| record.max(1).into(), |length| length);
const ONE_RECORD_MORE: Row = |call| {
    let number = |record: u32| {
        u64::from(record)
            .saturating_sub(1)
            .max(u64::from(record > 0))
    };
    revision(call, number, |length| length)
};
const ONE_RECORD_LESS: Row = |call| {
    let number = |record: u32| {
        if record == 0 {
            0
        } else {
            u64::from(record) + 1
        }
    };
    revision(call, number, |length| length)
};
const RECORDS_FROM_0: Row = |call| revision(call, |record| u64::from(record) + 1, |length| length);
const UP_TO_127: Row = |call| {
    let number = |record| u64::from((1..=127).contains(&record));
    revision(call, number, |length| length)
};
const LAST_BYTE: Row = |call| revision(call, |record| u64::from(record as u8), |length| length);
const TWO_BYTES: Row = |call| revision(call, |record| u64::from(record as u16), |length| length);
const WRAPPED_PLACE: Row = |call| {
    let number = |record: u32| u64::from(record.wrapping_sub(1).wrapping_mul(16) / 16) + 1;
    revision(call, number, |length| length)
};
const WITH_A_SIGN: Row = |call| {
    let bad = call.record as i32 > call.records() as i32 || call.record == 0;
    rules::without_place(16, bad || call.length > MOST_LENGTH)
};
const LENGTH_BELOW_MOST: Row = |call| revision(call, u64::from, |length| length.saturating_add(1));
const LENGTH_ABOVE_MOST: Row = |call| revision(call, u64::from, |length| length.saturating_sub(1));
const LENGTH_WITH_A_SIGN: Row =
    |call| revision(call, u64::from, |length| (length as i32).max(0) as u32);
const LENGTH_BY_THREE_BYTES: Row = |call| revision(call, u64::from, |length| length & 0xff_ffff);
const LENGTH_ABOVE_0: Row = |call| revision(call, u64::from, |length| length.wrapping_sub(1));
const A_MARK_MORE: Row = |call| room(call, [1, 0, 0]);
const A_CURVE_NUMBER_MORE: Row = |call| room(call, [0, 1, 0]);
const A_WORK_NUMBER_MORE: Row = |call| room(call, [0, 0, 1]);
const COUNT_BELOW_4_096: Row = |call| rules::without_place(4, call.given.count >= 4_096);

const REVISION_AFTER_5: Row = |call| {
    let fields = CONTENT(call).filter(|refusal| refusal.number == 5);
    fields.or_else(|| REVISION(call))
};
const REVISION_AFTER_7: Row = |call| {
    let but_twins = CONTENT(call).filter(|refusal| refusal.number != 8);
    but_twins.or_else(|| REVISION(call))
};

/// Rows in the place of 16.
const REVISIONS: [Otherwise<Row>; 16] = [
    ("the record not judged", NO_RECORD_JUDGED),
    ("the length not judged", NO_LENGTH_JUDGED),
    ("record 0 accepted", RECORD_0),
    ("the record after the last accepted", ONE_RECORD_MORE),
    ("records up to 127 accepted", UP_TO_127),
    ("the last record refused", ONE_RECORD_LESS),
    ("records numbered from 0", RECORDS_FROM_0),
    ("the record's last byte judged", LAST_BYTE),
    ("the record's last two bytes judged", TWO_BYTES),
    (
        "the place of the record's bytes in 32 bits judged",
        WRAPPED_PLACE,
    ),
    ("the record judged with a sign", WITH_A_SIGN),
    ("1,000,000 refused", LENGTH_BELOW_MOST),
    ("1,000,001 accepted", LENGTH_ABOVE_MOST),
    ("the length judged with a sign", LENGTH_WITH_A_SIGN),
    (
        "the length's last three bytes judged",
        LENGTH_BY_THREE_BYTES,
    ),
    ("a length of 0 refused", LENGTH_ABOVE_0),
];

/// Rows in the place of 9.
const ROOMS: [Otherwise<Row>; 3] = [
    ("a mark more asked for", A_MARK_MORE),
    ("a curve number more asked for", A_CURVE_NUMBER_MORE),
    ("a work number more asked for", A_WORK_NUMBER_MORE),
];

const JUDGING: [Otherwise<[Row; 7]>; 16] = [
    (
        "16 before 1",
        [REVISION, WAY, SIZE, COUNT, CONTENT, ROOM, LOCKS],
    ),
    (
        "16 before 2",
        [WAY, REVISION, SIZE, COUNT, CONTENT, ROOM, LOCKS],
    ),
    (
        "16 before 4",
        [WAY, SIZE, REVISION, COUNT, CONTENT, ROOM, LOCKS],
    ),
    (
        "16 before 5",
        [WAY, SIZE, COUNT, REVISION, CONTENT, ROOM, LOCKS],
    ),
    (
        "16 before 6",
        [WAY, SIZE, COUNT, REVISION_AFTER_5, CONTENT, ROOM, LOCKS],
    ),
    (
        "16 before 8",
        [WAY, SIZE, COUNT, REVISION_AFTER_7, CONTENT, ROOM, LOCKS],
    ),
    (
        "16 after 9",
        [WAY, SIZE, COUNT, CONTENT, ROOM, REVISION, LOCKS],
    ),
    (
        "16 after 12",
        [WAY, SIZE, COUNT, CONTENT, ROOM, LOCKS, REVISION],
    ),
    (
        "12 before 16",
        [WAY, SIZE, COUNT, CONTENT, LOCKS, REVISION, ROOM],
    ),
    (
        "12 before 9",
        [WAY, SIZE, COUNT, CONTENT, REVISION, LOCKS, ROOM],
    ),
    (
        "9 before 5",
        [WAY, SIZE, COUNT, ROOM, CONTENT, REVISION, LOCKS],
    ),
    (
        "4 before 2",
        [WAY, COUNT, SIZE, CONTENT, REVISION, ROOM, LOCKS],
    ),
    (
        "4 after 8",
        [WAY, SIZE, CONTENT, COUNT, REVISION, ROOM, LOCKS],
    ),
    (
        "1 after 4",
        [SIZE, COUNT, WAY, CONTENT, REVISION, ROOM, LOCKS],
    ),
    (
        "1 after 8",
        [SIZE, COUNT, CONTENT, WAY, REVISION, ROOM, LOCKS],
    ),
    (
        "4,096 refused",
        [WAY, SIZE, COUNT_BELOW_4_096, CONTENT, REVISION, ROOM, LOCKS],
    ),
];

const WRITING: [Otherwise<Alter>; 47] = [
    ("the old choice left", |choices, observed| {
        if observed.chosen.returned == 0 {
            let old = &choices.old.after;
            observed.chosen.after.answer.write(old.answer.content());
            observed.chosen.after.marks.write(old.marks.content());
            observed.chosen.after.curve.write(old.curve.content());
        }
    }),
    ("the old marks left", |choices, observed| {
        if observed.chosen.returned == 0 {
            let old = choices.old.after.marks.content();
            observed.chosen.after.marks.write(old);
        }
    }),
    ("the old curve left", |choices, observed| {
        if observed.chosen.returned == 0 {
            let old = choices.old.after.curve.content();
            observed.chosen.after.curve.write(old);
        }
    }),
    (
        "the old curve left but for its last column",
        |choices, observed| {
            if observed.chosen.returned == 0 {
                let old = choices.old.after.curve.content();
                observed.chosen.after.curve.write(&old[..old.len() - 2]);
            }
        },
    ),
    ("the old answer given", |choices, observed| {
        if observed.chosen.returned == 0 {
            let old = choices.old.after.answer.content();
            observed.chosen.after.answer.write(old);
        }
    }),
    ("the old diversity given", |choices, observed| {
        give_old(2, choices, observed);
    }),
    ("the old cost given", |choices, observed| {
        give_old(3, choices, observed);
    }),
    ("the old number of taxa given", |choices, observed| {
        give_old(4, choices, observed);
    }),
    ("the old spare given", |choices, observed| {
        give_old(5, choices, observed);
    }),
    ("work left as it came", |_, observed| {
        observed.chosen.after.work = observed.chosen.before.work.clone();
    }),
    ("the last work number left", |choices, observed| {
        if observed.chosen.returned == 0 {
            let last = choices.old.after.work.len - 1;
            let (before, work) = (
                &observed.chosen.before.work,
                &mut observed.chosen.after.work,
            );
            work.cells[work.start + last] = before.content()[last];
        }
    }),
    ("all of work cleared", |_, observed| {
        if observed.chosen.returned == 0 {
            clear(&mut observed.chosen.after.work, 0);
        }
    }),
    ("the rest of the marks cleared", |choices, observed| {
        if observed.chosen.returned == 0 {
            clear(&mut observed.chosen.after.marks, choices.call.records());
        }
    }),
    ("the rest of the curve cleared", |choices, observed| {
        if observed.chosen.returned == 0 {
            let columns = choices.old.after.curve.len;
            clear(&mut observed.chosen.after.curve, columns);
        }
    }),
    ("one mark past the last written", |choices, observed| {
        if observed.chosen.returned == 0 {
            let marks = &mut observed.chosen.after.marks;
            marks.cells[marks.start + choices.call.records()] ^= 1;
        }
    }),
    ("marks cleared on a refusal by 16", |_, observed| {
        clear_on(16..=16, observed);
    }),
    ("marks cleared on a refusal by 9", |_, observed| {
        clear_on(9..=9, observed);
    }),
    ("marks cleared on a refusal by 12", |_, observed| {
        clear_on(12..=12, observed);
    }),
    ("marks cleared on another refusal", |_, observed| {
        clear_on(1..=8, observed);
    }),
    ("work cleared on a refusal", |_, observed| {
        if observed.chosen.returned != 0 {
            clear(&mut observed.chosen.after.work, 0);
        }
    }),
    ("the choice left on a refusal by 16", |choices, observed| {
        if observed.chosen.returned == 16 && choices.new.returned == 0 {
            observed.chosen.after.marks = choices.new.after.marks.clone();
            observed.chosen.after.work = choices.new.after.work.clone();
        }
    }),
    ("the movement left on a refusal", |_, observed| {
        if observed.chosen.returned != 0 {
            observed.moved_after = observed.moved_before.clone();
        }
    }),
    ("the movement left on a refusal by 12", |_, observed| {
        if observed.chosen.returned == 12 {
            observed.moved_after = observed.moved_before.clone();
        }
    }),
    (
        "the length's movement given on a refusal",
        |choices, observed| {
            if [16, 9, 12].contains(&observed.chosen.returned) {
                let [_, length] = choices.moved();
                observed.moved_after.write(&[0, length]);
            }
        },
    ),
    ("32 bits of each movement written", |_, observed| {
        let before = observed.moved_before.content();
        let moved = observed.moved();
        let low = |at: usize| before[at] >> 32 << 32 | moved[at] & 0xffff_ffff;
        observed.moved_after.write(&[low(0), low(1)]);
    }),
    ("the best's movement alone written", |_, observed| {
        let before = observed.moved_before.content()[1];
        let best = observed.moved()[0];
        observed.moved_after.write(&[best, before]);
    }),
    ("a third movement written", |_, observed| {
        let moved = &mut observed.moved_after;
        moved.cells[moved.start + 2] = 0;
    }),
    ("the answer left on a refusal", |_, observed| {
        if observed.chosen.returned != 0 {
            observed.chosen.after.answer = observed.chosen.before.answer.clone();
        }
    }),
    ("a refusal that is not returned", |_, observed| {
        observed.chosen.returned = 0;
    }),
    ("16 with the record as place", |choices, observed| {
        if observed.chosen.returned == 16 {
            give(1, choices.call.record, observed);
        }
    }),
    ("9 and 12 with a place", |_, observed| {
        if [9, 12].contains(&observed.chosen.returned) {
            give(1, 1, observed);
        }
    }),
    ("5, 6 and 8 without a place", |_, observed| {
        if (5..=8).contains(&observed.chosen.returned) {
            give(1, 0, observed);
        }
    }),
    ("a length that stays refused by 16", |choices, observed| {
        if observed.chosen.returned == 0 && choices.moved()[1] == 0 {
            refuse(16, observed);
        }
    }),
    ("a group refused by 16", |choices, observed| {
        let before = choices.call.record.wrapping_sub(1) as usize;
        let record = outline::records(&choices.call.given.outline)
            .get(before)
            .copied();
        if observed.chosen.returned == 0 && record.is_some_and(|record| !record.is_taxon()) {
            refuse(16, observed);
        }
    }),
    ("the given outline revised too", |choices, observed| {
        if observed.chosen.returned == 0 {
            let revised = choices.new.before.outline.content();
            observed.chosen.after.outline.write(revised);
        }
    }),
    (
        "the given outline revised on a refusal by 12",
        |choices, observed| {
            if observed.chosen.returned == 12 {
                let revised = choices.new.before.outline.content();
                observed.chosen.after.outline.write(revised);
            }
        },
    ),
    ("the given outline's last byte altered", |_, observed| {
        let outline = &mut observed.chosen.after.outline;
        if observed.chosen.returned == 0 {
            outline.cells[outline.start + outline.len - 1] ^= 128;
        }
    }),
    ("a tie broken otherwise", |choices, observed| {
        leave_other(choices, observed, |other, chosen| other == chosen);
    }),
    (
        "as much diversity for more quarters",
        |choices, observed| {
            leave_other(choices, observed, |other, chosen| {
                other[1] == chosen[1] && other[0] > chosen[0]
            });
        },
    ),
    (
        "the old set left wherever it spans the branch",
        |choices, observed| {
            leave_old_where(|branch| branch.is_spanned, choices, observed);
        },
    ),
    (
        "the old set left wherever it does not span the branch",
        |choices, observed| {
            leave_old_where(|branch| !branch.is_spanned, choices, observed);
        },
    ),
    (
        "the old set left where the length rises",
        |choices, observed| {
            leave_old_where(|branch| branch.difference > 0, choices, observed);
        },
    ),
    (
        "the old set left where the length falls",
        |choices, observed| {
            leave_old_where(|branch| branch.difference < 0, choices, observed);
        },
    ),
    (
        "the old set left where it is to stay by the rooted words",
        |choices, observed| leave_old_by(ROOTED, choices, observed),
    ),
    (
        "the old set left where it is to stay by the unrooted words",
        |choices, observed| leave_old_by(UNROOTED, choices, observed),
    ),
    ("the old best as the answer came", |_, observed| {
        if observed.chosen.returned == 0 {
            let [old, new] = [&observed.chosen.before, &observed.chosen.after]
                .map(|buffers| i64::from(buffers.answer.content()[2]));
            observed.moved_after.write(&[new - old]);
        }
    }),
    ("marks added to those that came", |choices, observed| {
        if observed.chosen.returned == 0 {
            let came = observed.chosen.before.marks.content().iter();
            let left = came.zip(choices.marks()[1]);
            let both: Vec<u8> = left.map(|(came, left)| came | left).collect();
            observed.chosen.after.marks.write(&both);
        }
    }),
];

/// These go wrong only in buffers that a choice has left.
const USED: [Otherwise<Alter>; 3] = [
    ("marks that came as a set left", |choices, observed| {
        let came = observed.chosen.before.marks.content();
        let is_set = |came: &[u8]| came.iter().all(|&mark| mark < 2);
        match came.get(..choices.call.records()) {
            Some(came) if observed.chosen.returned == 0 && is_set(came) => {
                observed.chosen.after.marks.write(came);
            }
            _ => {}
        }
    }),
    (
        "a curve left that came with the same last column",
        |choices, observed| {
            let columns = choices.old.after.curve.len;
            let came = observed.chosen.before.curve.content().get(..columns);
            let last = &observed.chosen.after.answer.content()[2..4];
            match came {
                Some(came) if observed.chosen.returned == 0 && came.ends_with(last) => {
                    observed.chosen.after.curve.write(came);
                }
                _ => {}
            }
        },
    ),
    (
        "no movement of the best where the marks that came are left",
        |_, observed| {
            let [came, left] = [&observed.chosen.before, &observed.chosen.after]
                .map(|buffers| buffers.marks.content());
            if observed.chosen.returned == 0 && came == left {
                observed.moved_after.write(&[0]);
            }
        },
    ),
];

/// Wrong programs that are right in fresh buffers.
pub fn in_used_buffers() -> Vec<Wrong> {
    let used = USED.map(|(name, alter)| (name, Program { alter, ..RIGHT }));
    used.into()
}

/// Every other wrong program.
pub fn all() -> Vec<Wrong> {
    let storing = STORING.map(|(name, store)| (name, Program { store, ..RIGHT }));
    let before = BEFORE.map(|(name, before)| (name, Program { before, ..RIGHT }));
    let after = AFTER.map(|(name, after)| (name, Program { after, ..RIGHT }));
    let moving = MOVING.map(|(name, movement)| (name, Program { movement, ..RIGHT }));
    let revisions = REVISIONS.map(|(name, row)| (name, RIGHT.with_row(4, row)));
    let rooms = ROOMS.map(|(name, row)| (name, RIGHT.with_row(5, row)));
    let judging = JUDGING.map(|(name, rows)| (name, Program { rows, ..RIGHT }));
    let writing = WRITING.map(|(name, alter)| (name, Program { alter, ..RIGHT }));
    let mut all: Vec<Wrong> = storing.into_iter().chain(before).chain(after).collect();
    all.extend(moving);
    all.extend(revisions);
    all.extend(rooms);
    all.extend(judging);
    all.extend(writing);
    all
}

/// Those of these names.
pub fn named(names: &[&str]) -> Vec<Wrong> {
    let mut named = all();
    named.retain(|(name, _)| names.contains(name));
    assert_eq!(named.len(), names.len());
    named
}

fn give(at: usize, number: u32, observed: &mut ReviseObserved) {
    let answer = &mut observed.chosen.after.answer;
    answer.cells[answer.start + at] = number;
}

/// A number of the answer before in the place of the one after.
fn give_old(at: usize, choices: &Choices, observed: &mut ReviseObserved) {
    if observed.chosen.returned == 0 {
        give(at, choices.old.after.answer.content()[at], observed);
    }
}

/// Leaves another set of few taxa that fits and has every lock, if it holds for its cost and diversity beside the chosen set's.
fn leave_other(
    choices: &Choices,
    observed: &mut ReviseObserved,
    holds: fn([u32; 2], [u32; 2]) -> bool,
) {
    let given = &choices.call.given;
    if observed.chosen.returned != 0 || !is_small(given) {
        return;
    }
    let records = outline::records(choices.new.before.outline.content());
    let measures = Measures::new(&records, given.way);
    let chosen = choices.marks()[1];
    let stands = sheet::sums(&records, given.way, chosen);
    let other = subsets(taxa(&records).len()).into_iter().find(|&set| {
        let of_set = measures.of(set);
        set & measures.locked() == measures.locked()
            && of_set[0] <= given.count
            && holds(of_set, stands)
            && measures.marks(set) != chosen
    });
    if let Some(set) = other {
        observed.chosen.after.marks.write(&measures.marks(set));
        give(3, measures.of(set)[0], observed);
        give(4, set.count_ones(), observed);
    }
}

/// Leaves the old set, moved as its own diversity does, if it holds for the branch.
fn leave_old_where(holds: fn(Branch) -> bool, choices: &Choices, observed: &mut ReviseObserved) {
    if observed.chosen.returned == 0 && holds(choices.branch()) {
        leave_old(choices.branch(), choices, observed);
    }
}

/// Leaves the old set where it is promised to stay, by the words of one way for both.
fn leave_old_by(way: u32, choices: &Choices, observed: &mut ReviseObserved) {
    if observed.chosen.returned == 0 && choices.branch_by(way).stays() {
        leave_old(choices.branch_by(way), choices, observed);
    }
}

fn leave_old(branch: Branch, choices: &Choices, observed: &mut ReviseObserved) {
    let mut answer = choices.old.after.answer.content().to_vec();
    answer[2] = (i64::from(answer[2]) + branch.own()) as u32;
    observed.chosen.after.answer.write(&answer);
    observed.chosen.after.marks.write(choices.marks()[0]);
    observed.moved_after.write(&[branch.own()]);
}

/// Clears the buffer from there to its end.
pub(crate) fn clear<T: Cell>(frame: &mut Frame<T>, from: usize) {
    let end = frame.start + frame.len;
    frame.cells[frame.start + from..end].fill(T::from_bits(0));
}

fn clear_on(numbers: RangeInclusive<u32>, observed: &mut ReviseObserved) {
    if numbers.contains(&observed.chosen.returned) {
        clear(&mut observed.chosen.after.marks, 0);
    }
}

/// Refuses what was revised.
fn refuse(number: u32, observed: &mut ReviseObserved) {
    let before = ReviseBuffers {
        choice: observed.chosen.before.clone(),
        moved: observed.moved_before.clone(),
    };
    *observed = refused(Refusal { number, place: 0 }, before);
}
