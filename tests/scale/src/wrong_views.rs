//! A right program that shows outlines, and what wrong ones do otherwise: the tests of the comparisons run them in the library's
//! place.

use std::ops::Range;

use crate::library::{ViewBuffers, ViewObserved};
use crate::outline::{self, bytes, Record, MOST_PLATE, RECORD_BYTES};
use crate::rules;
use crate::view::{self, Reader, ViewCall, ViewExpected};

/// What a right program does.
pub fn right(reader: Reader, before: ViewBuffers) -> ViewObserved {
    let expected = view::expected(&call_of(reader, &before));
    observed(&expected, before)
}

fn call_of(reader: Reader, before: &ViewBuffers) -> ViewCall {
    ViewCall {
        outline: before.outline.content().to_vec(),
        reader,
        view: before.view.len,
    }
}

/// A call that gives this and writes nothing else.
fn observed(expected: &ViewExpected, before: ViewBuffers) -> ViewObserved {
    let mut after = before.clone();
    after.answer.write(&expected.answer);
    after.view.write(&expected.view);
    ViewObserved {
        returned: expected.answer[0],
        before,
        after,
    }
}

/// Alters what a right program has done.
type Fault = fn(Reader, &mut ViewObserved);

/// A wrong program.
pub fn with(fault: Fault) -> impl Fn(Reader, ViewBuffers) -> ViewObserved {
    move |reader, before| {
        let mut observed = right(reader, before);
        fault(reader, &mut observed);
        observed
    }
}

const LENGTH: Range<usize> = 4..8;
const PRICE: Range<usize> = 8..12;
const LAST_OF_PLATE: Range<usize> = 15..16;

/// Faults by which a buyer's reader is told of a price or a lock.
pub const TELLING: [(&str, Fault); 10] = [
    ("every price kept", |_, observed| {
        keep(observed, PRICE, |_, _| true);
    }),
    ("a price kept at the last record", |_, observed| {
        keep(observed, PRICE, |records, at| at + 1 == records.len());
    }),
    ("a taxon's price kept", |_, observed| {
        keep(observed, PRICE, |records, at| records[at].is_taxon());
    }),
    ("a heading's price kept", |_, observed| {
        keep(observed, PRICE, |records, at| !records[at].is_taxon());
    }),
    ("the root's price kept", |_, observed| {
        keep(observed, PRICE, |_, at| at == 0);
    }),
    ("the second byte of a price kept", |_, observed| {
        keep(observed, 9..10, |_, _| true);
    }),
    ("the lock kept", |_, observed| {
        keep(observed, LAST_OF_PLATE, |_, _| true);
    }),
    ("a price told by the length", |reader, observed| {
        for (at, record) in shown(observed).iter().enumerate() {
            let told = reader == Reader::Buyer && record.price > 9;
            alter(observed, RECORD_BYTES * at + LENGTH.start, |byte| {
                byte ^ u8::from(told)
            });
        }
    }),
    ("a lock told by the place", |reader, observed| {
        if reader == Reader::Buyer && shown(observed).iter().any(Record::is_locked) {
            observed.after.answer.write(&[0, 1]);
        }
    }),
    ("the prices told past the records", |_, observed| {
        let records = shown(observed);
        let sum: u32 = records.iter().map(|record| record.price).sum();
        let past = RECORD_BYTES * records.len();
        if (1..observed.before.view.len).contains(&past) {
            alter(observed, past, |byte| byte ^ sum as u8);
        }
    }),
];

/// Other faults.
pub const OTHERS: [(&str, Fault); 18] = [
    ("one byte past the records", |_, observed| {
        let records = shown(observed).len();
        if records > 0 {
            alter(observed, RECORD_BYTES * records, |byte| !byte);
        }
    }),
    ("the rest of the view cleared", |_, observed| {
        let records = shown(observed).len();
        for at in RECORD_BYTES * records..observed.before.view.len {
            if records > 0 {
                alter(observed, at, |_| 0);
            }
        }
    }),
    ("a refusal by 9 that has written", |_, observed| {
        if observed.returned == 9 {
            write_what_fits(observed);
        }
    }),
    ("a refusal by the check that has written", |_, observed| {
        if (2..=8).contains(&observed.returned) {
            write_what_fits(observed);
        }
    }),
    ("9 before the check's refusals", |_, observed| {
        let before = &observed.before;
        if before.view.len < view::needed(before.outline.content()) {
            give(observed, [9, 0], &[]);
        }
    }),
    (
        "9 before the last of the check's refusals",
        |_, observed| {
            let before = &observed.before;
            let short = before.view.len < view::needed(before.outline.content());
            if observed.returned == 8 && short {
                give(observed, [9, 0], &[]);
            }
        },
    ),
    ("9 with just enough room", |_, observed| {
        let records = shown(observed).len();
        if records > 0 && observed.before.view.len == RECORD_BYTES * records {
            give(observed, [9, 0], &[]);
        }
    }),
    ("a byte too few is enough", |reader, observed| {
        let mut call = call_of(reader, &observed.before);
        call.view += 1;
        let expected = view::expected(&call);
        give(observed, expected.answer, &expected.view);
    }),
    ("9 with a place", |_, observed| {
        if observed.returned == 9 {
            observed.after.answer.write(&[9, 1]);
        }
    }),
    ("a buyer's price not judged", |reader, observed| {
        judge_otherwise(reader, observed, |record| record.price = 0);
    }),
    ("a buyer's lock not judged", |reader, observed| {
        judge_otherwise(reader, observed, |record| record.plate &= MOST_PLATE);
    }),
    ("the last of 127 records left out", |_, observed| {
        if shown(observed).len() == 127 {
            let before = observed.before.view.content()[126 * RECORD_BYTES..].to_vec();
            for (at, byte) in before.into_iter().enumerate().take(RECORD_BYTES) {
                alter(observed, 126 * RECORD_BYTES + at, |_| byte);
            }
        }
    }),
    ("no price for the house", |_, observed| {
        clear(observed, PRICE);
    }),
    ("no lock for the house", |_, observed| {
        for at in 0..shown(observed).len() {
            alter(observed, RECORD_BYTES * at + 15, |byte| byte & 127);
        }
    }),
    ("the length cleared", |_, observed| clear(observed, LENGTH)),
    ("the last byte of the plate cleared", |_, observed| {
        clear(observed, LAST_OF_PLATE);
    }),
    ("the outline itself cleared", |reader, observed| {
        for at in 0..shown(observed).len() {
            let outline = &mut observed.after.outline;
            if reader == Reader::Buyer {
                outline.cells[outline.start + RECORD_BYTES * at + 8] = 0;
            }
        }
    }),
    ("a sound outline refused", |_, observed| {
        if !shown(observed).is_empty() {
            give(observed, [6, 1], &[]);
        }
    }),
];

/// The outline's records where they were shown; none on a refusal.
fn shown(observed: &ViewObserved) -> Vec<Record> {
    if observed.returned == 0 {
        outline::records(observed.before.outline.content())
    } else {
        Vec::new()
    }
}

/// Alters one byte of the view, or of what stands behind it.
fn alter(observed: &mut ViewObserved, at: usize, byte: impl Fn(u8) -> u8) {
    let view = &mut observed.after.view;
    let cell = &mut view.cells[view.start + at];
    *cell = byte(*cell);
}

/// Leaves these bytes as they are in the outline at each record for which it holds.
fn keep(
    observed: &mut ViewObserved,
    bytes: Range<usize>,
    holds: impl Fn(&[Record], usize) -> bool,
) {
    let records = shown(observed);
    for at in (0..records.len()).filter(|&at| holds(&records, at)) {
        for byte in bytes.clone() {
            let byte = RECORD_BYTES * at + byte;
            let kept = observed.before.outline.content()[byte];
            alter(observed, byte, |_| kept);
        }
    }
}

/// Clears these bytes of each record that was shown.
fn clear(observed: &mut ViewObserved, bytes: Range<usize>) {
    for at in 0..shown(observed).len() {
        for byte in bytes.clone() {
            alter(observed, RECORD_BYTES * at + byte, |_| 0);
        }
    }
}

/// Gives this answer and leaves the view with this at its start.
fn give(observed: &mut ViewObserved, answer: [u32; 2], view: &[u8]) {
    observed.returned = answer[0];
    observed.after.answer.write(&answer);
    observed.after.view = observed.before.view.clone();
    observed.after.view.write(view);
}

/// Writes as much of the outline as there is room for.
fn write_what_fits(observed: &mut ViewObserved) {
    let outline = observed.before.outline.content();
    let room = outline.len().min(observed.before.view.len);
    observed.after.view.write(&outline[..room]);
}

/// Judges what a buyer's reader gets with each record altered first.
fn judge_otherwise(reader: Reader, observed: &mut ViewObserved, alter: fn(&mut Record)) {
    let mut call = call_of(reader, &observed.before);
    if reader == Reader::House || rules::partial_record(&call.outline).is_some() {
        return;
    }
    let mut records = outline::records(&call.outline);
    records.iter_mut().for_each(alter);
    call.outline = bytes(&records);
    let expected = view::expected(&call);
    give(observed, expected.answer, &expected.view);
}
