//! The runs that write outlines as text and read the texts back.

use crate::call::{extra, short};
use crate::compare;
use crate::damage;
use crate::library;
use crate::mangle;
use crate::outline::{self, bytes, is_preorder, taxa, Record, LOCK, MOST_PLATE, RECORD_BYTES};
use crate::random::Random;
use crate::reading::{self, ReadCall, ReadExpected};
use crate::report::{shell_line, Stop};
use crate::rules;
use crate::runs::{self, Runner};
use crate::text_runs::{on_small_stack, SMALL_STACK};
use crate::write_cases;
use crate::writing::{self, WriteCall, WriteExpected, CAUSES};

/// The refusals that writing can give.
const REFUSALS: [usize; 8] = [2, 3, 5, 6, 7, 8, 13, 9];

/// A writing call, what is expected of it, and the buffers' lengths that its text needs.
struct Writing {
    records: Vec<Record>,
    needed: [usize; 2],
    call: WriteCall,
    expected: WriteExpected,
}

impl Writing {
    fn random(rng: &mut Random) -> Self {
        let (call, needed) = some_call(rng);
        Writing {
            records: outline::records(&call.outline),
            needed,
            expected: writing::expected(&call),
            call,
        }
    }

    fn is(&self, number: u32) -> bool {
        self.expected.answer[0] == number
    }

    /// Whether it is refused by 13 and the record at the place has this cause.
    fn is_beyond_text_by(&self, cause: usize) -> bool {
        self.is(13) && CAUSES[cause].1(&self.records[self.expected.answer[1] as usize - 1])
    }

    fn are_short(&self, text: bool, pairs: bool) -> bool {
        let short = [
            self.call.text < self.needed[0],
            self.call.pairs < self.needed[1],
        ];
        self.is(9) && short == [text, pairs]
    }
}

type Kind = (&'static str, fn(&Writing) -> bool);

/// What the calls are to be now and then.
const KINDS: [Kind; 15] = [
    ("interleaved", |w| w.is(0) && !is_preorder(&w.records)),
    ("in text order", |w| w.is(0) && is_preorder(&w.records)),
    ("127 records", |w| w.is(0) && w.records.len() == 127),
    ("64 taxa", |w| w.is(0) && taxa(&w.records).len() == 64),
    ("the highest plate", |w| {
        w.is(0) && w.records.iter().any(|record| record.plate == 999_999_999)
    }),
    ("just enough room", |w| {
        w.is(0) && [w.call.text, w.call.pairs] == w.needed
    }),
    ("13 by a heading's price", |w| w.is_beyond_text_by(0)),
    ("13 by a lock", |w| w.is_beyond_text_by(1)),
    ("13 by a plate", |w| w.is_beyond_text_by(2)),
    ("13 by several causes", |w| {
        let occurs = |holds: &fn(&Record) -> bool| w.records.iter().any(holds);
        w.is(13) && CAUSES.iter().filter(|(_, holds)| occurs(holds)).count() > 1
    }),
    ("13 without room", |w| {
        w.is(13) && [w.call.text, w.call.pairs] == [0, 0]
    }),
    ("9 by the text alone", |w| w.are_short(true, false)),
    ("9 by the pairs alone", |w| w.are_short(false, true)),
    ("9 by both", |w| w.are_short(true, true)),
    ("9 by one byte or number", |w| {
        let [text, pairs] = w.needed;
        w.is(9) && (w.call.text + 1 == text || w.call.pairs + 1 == pairs)
    }),
];

impl Runner {
    /// What the library gave, of the buffers as much as it was to write.
    pub(crate) fn write(
        &mut self,
        call: &WriteCall,
        expected: &WriteExpected,
    ) -> Result<WriteExpected, Stop> {
        let observed = library::guarded_write(call, &mut self.rng);
        let comparison = compare::write(expected, &observed);
        self.report.add(&comparison, 0, || described(call))?;
        let after = &observed.after;
        let answer = after.answer.content();
        Ok(WriteExpected {
            answer: [answer[0], answer[1], answer[2], answer[3]],
            text: after.text.content()[..expected.text.len()].to_vec(),
            pairs: after.pairs.content()[..expected.pairs.len()].to_vec(),
        })
    }

    pub(crate) fn written_outlines(&mut self, outlines: u64) -> Result<(), Stop> {
        self.start('l');
        let mut numbers = [0; 14];
        let mut times = [0; KINDS.len()];
        for _ in 0..outlines {
            let writing = Writing::random(&mut self.rng);
            numbers[writing.expected.answer[0] as usize] += 1;
            for (count, (_, holds)) in times.iter_mut().zip(KINDS) {
                *count += u64::from(holds(&writing));
            }
            let given = self.write(&writing.call, &writing.expected)?;
            if writing.is(0) {
                self.read_and_write(&writing.call.outline, &given)?;
            }
        }
        self.report.line(&format!(
            "l. {outlines} outlines written, and those that are accepted read back and written again"
        ));
        self.report
            .refusals("an outline to write", &REFUSALS, &numbers, outlines / 200);
        self.report
            .require("an outline written", numbers[0], outlines / 4);
        let named: Vec<_> = KINDS.iter().map(|(name, _)| *name).zip(times).collect();
        self.report.met("with", &named, outlines / 1_000);
        Ok(())
    }

    /// Reads what was written from an outline and writes what was read. Where the records stand in text order, reading gives the
    /// same bytes, and the second writing equals the first.
    pub(crate) fn read_and_write(
        &mut self,
        outline: &[u8],
        written: &WriteExpected,
    ) -> Result<(), Stop> {
        let call = ReadCall {
            text: written.text.clone(),
            pairs: written.pairs.clone(),
            outline: outline.len() + extra(&mut self.rng),
        };
        let mut expected = reading::expected(&call);
        if is_preorder(&outline::records(outline)) {
            expected = ReadExpected {
                answer: [0, 0, (outline.len() / RECORD_BYTES) as u32],
                outline: outline.to_vec(),
            };
        }
        let observed = self.read(&call, &expected)?;
        let again = WriteCall {
            outline: observed.after.outline.content()[..outline.len()].to_vec(),
            text: written.text.len() + extra(&mut self.rng),
            pairs: written.pairs.len() + extra(&mut self.rng),
        };
        self.write(&again, written)?;
        Ok(())
    }

    pub(crate) fn rewritten_texts(&mut self, texts: u64) -> Result<(), Stop> {
        self.start('m');
        let (mut accepted, mut otherwise) = (0, 0);
        for _ in 0..texts {
            let call = mangle::sound_call(&mut self.rng);
            let expected = reading::expected(&call);
            let observed = self.read(&call, &expected)?;
            if expected.answer[0] != 0 {
                continue;
            }
            let outline = &observed.after.outline.content()[..expected.outline.len()];
            let given = self.write_exactly(outline)?;
            accepted += 1;
            otherwise += u64::from(given.text != call.text || given.pairs != call.pairs);
            self.read_and_write(outline, &given)?;
        }
        self.report.line(&format!(
            "m. {texts} texts ({accepted} accepted, {otherwise} of them spelled otherwise than they are written) read, written, \
             read again and written again"
        ));
        self.report
            .require("a text read and written", accepted, texts - texts / 100);
        self.report
            .require("a text spelled otherwise", otherwise, texts / 2);
        self.report.require(
            "a text spelled as written",
            accepted - otherwise,
            texts / 1_000,
        );
        Ok(())
    }

    /// Writes an outline that was read, with just enough room.
    fn write_exactly(&mut self, outline: &[u8]) -> Result<WriteExpected, Stop> {
        let call = exactly(outline);
        self.write(&call, &writing::expected(&call))
    }

    /// What is given is as stated, and little stack is there for it.
    pub(crate) fn stated_writings(&mut self) -> Result<(), Stop> {
        self.start('n');
        let cases = write_cases::all();
        for case in &cases {
            let observed = on_small_stack(|| library::guarded_write(&case.call, &mut self.rng));
            let comparison = compare::write(&case.expected, &observed);
            self.report.add(&comparison, 0, || described(&case.call))?;
        }
        self.report.line(&format!(
            "n. {} outlines whose text is written out by hand, on a stack of {SMALL_STACK} bytes",
            cases.len()
        ));
        Ok(())
    }
}

/// A call of any outline, and the buffers' lengths that its text needs.
pub fn some_call(rng: &mut Random) -> (WriteCall, [usize; 2]) {
    let outline = some_outline(rng);
    let needed = needed(&outline);
    let [text, pairs] = lent(needed, rng);
    let call = WriteCall {
        outline,
        text,
        pairs,
    };
    (call, needed)
}

/// Mostly what a text can say, and of any size; else with headings, locks and long plates, or damaged.
fn some_outline(rng: &mut Random) -> Vec<u8> {
    match rng.below(8) {
        0 | 1 => damage::damaged_outline(40, rng).0,
        2 => bytes(&runs::small_outline(rng).0),
        kind => {
            let mut records = damage::any_size(rng);
            mangle::fill_for_text(&mut records, rng);
            if kind == 3 {
                go_beyond_text(&mut records, rng);
            }
            bytes(&records)
        }
    }
}

/// A few records get what a text cannot say, or a plate that it can just say.
fn go_beyond_text(records: &mut [Record], rng: &mut Random) {
    for _ in 0..1 + rng.below(3) {
        let at = rng.index(records.len());
        let record = &mut records[at];
        if record.is_taxon() {
            let locked = record.plate | LOCK;
            record.plate = rng.pick(&[locked, locked, 999_999_999, 1_000_000_000, MOST_PLATE]);
        } else {
            record.price = rng.pick(&[1, 65_535]);
        }
    }
}

/// A call with just enough room for the text of an accepted outline.
pub(crate) fn exactly(outline: &[u8]) -> WriteCall {
    let [text, pairs] = needed(outline);
    WriteCall {
        outline: outline.to_vec(),
        text,
        pairs,
    }
}

/// The buffers' lengths that the text of an accepted outline needs; for another one anything.
fn needed(outline: &[u8]) -> [usize; 2] {
    if rules::check(outline).is_some() {
        return [100, 20];
    }
    let records = outline::records(outline);
    [
        writing::text(&records).len(),
        writing::pairs(&records).len(),
    ]
}

/// Enough or more, at times less or nothing.
fn lent(needed: [usize; 2], rng: &mut Random) -> [usize; 2] {
    if rng.one_in(25) {
        return [0, 0];
    }
    needed.map(|needed| {
        if rng.one_in(8) {
            short(needed, rng)
        } else {
            needed + extra(rng)
        }
    })
}

fn described(call: &WriteCall) -> String {
    format!(
        "write to {} bytes and {} numbers\n  {}",
        call.text,
        call.pairs,
        shell_line(0, 0, &call.outline)
    )
}
