//! A call that shows an outline to a reader, and what document 02, §7, says it gives.

use crate::outline::{self, bytes, Record, MOST_PLATE, RECORD_BYTES};
use crate::rules::{self, Refusal};

/// Who an outline is shown to.
#[derive(Clone, Copy, Debug, PartialEq, Eq)]
pub enum Reader {
    House,
    Buyer,
}

pub const READERS: [Reader; 2] = [Reader::House, Reader::Buyer];

/// The bytes of as many records as can be.
pub const MOST_BYTES: usize = 127 * RECORD_BYTES;

/// `view` is the buffer's length in bytes.
#[derive(Clone, Debug, PartialEq, Eq)]
pub struct ViewCall {
    pub outline: Vec<u8>,
    pub reader: Reader,
    pub view: usize,
}

/// The answer and what is written to the view; nothing on a refusal.
#[derive(Clone, Debug, PartialEq, Eq)]
pub struct ViewExpected {
    /// Number, place.
    pub answer: [u32; 2],
    pub view: Vec<u8>,
}

impl ViewExpected {
    pub fn shown(view: &[u8]) -> Self {
        ViewExpected {
            answer: [0, 0],
            view: view.to_vec(),
        }
    }

    pub fn refused(refusal: Refusal) -> Self {
        ViewExpected {
            answer: [refusal.number, refusal.place],
            view: Vec::new(),
        }
    }
}

pub fn expected(call: &ViewCall) -> ViewExpected {
    refusal(call).map_or_else(
        || ViewExpected::shown(&shown(call.reader, &call.outline)),
        ViewExpected::refused,
    )
}

/// The first of the check's refusals and 9 that holds, whoever the reader is.
fn refusal(call: &ViewCall) -> Option<Refusal> {
    rules::check(&call.outline)
        .or_else(|| rules::without_place(9, call.view < needed(&call.outline)))
}

/// The view's length that the whole records of these bytes need.
pub fn needed(outline: &[u8]) -> usize {
    RECORD_BYTES * outline::records(outline).len()
}

/// What a reader gets of an accepted outline.
fn shown(reader: Reader, outline: &[u8]) -> Vec<u8> {
    match reader {
        Reader::House => outline.to_vec(),
        Reader::Buyer => {
            let records = outline::records(outline);
            bytes(&records.iter().map(for_buyer).collect::<Vec<_>>())
        }
    }
}

fn for_buyer(record: &Record) -> Record {
    Record {
        next: record.next,
        first: record.first,
        length: record.length,
        price: 0,
        plate: record.plate & MOST_PLATE,
    }
}

#[cfg(test)]
mod tests {
    use super::*;
    use crate::outline::taxa;
    use crate::random::Random;
    use crate::runs::small_outline;
    use crate::view_cases;

    #[test]
    fn stated_views_are_given() {
        for case in view_cases::all() {
            assert_eq!(expected(&case.call), case.expected, "{}", case.name);
        }
    }

    /// The bits that a buyer's reader gets of each byte of a record.
    const TO_BUYER: [u8; RECORD_BYTES] = [
        255, 255, 255, 255, 255, 255, 255, 255, 0, 0, 0, 0, 255, 255, 255, 127,
    ];

    #[test]
    fn a_buyer_gets_the_bits_of_no_price_and_no_lock() {
        let rng = &mut Random::new(1);
        let mut hidden = 0;
        for _ in 0..2_000 {
            let outline = bytes(&small_outline(rng).0);
            let bits = outline.iter().zip(TO_BUYER.into_iter().cycle());
            let seen: Vec<u8> = bits.map(|(byte, bits)| byte & bits).collect();
            assert_eq!(shown(Reader::Buyer, &outline), seen);
            assert_eq!(shown(Reader::House, &outline), outline);
            hidden += u32::from(seen != outline);
        }
        assert!((1_000..2_000).contains(&hidden), "{hidden}");
    }

    #[test]
    fn what_a_buyer_gets_is_accepted_and_has_every_plate_where_it_was() {
        let rng = &mut Random::new(2);
        for _ in 0..500 {
            let records = small_outline(rng).0;
            let seen = shown(Reader::Buyer, &bytes(&records));
            assert_eq!(rules::check(&seen), None, "{records:?}");
            assert_eq!(shown(Reader::Buyer, &seen), seen);
            for position in taxa(&records) {
                let plate = records[position].plate_number();
                assert_eq!(rules::find(&seen, plate) as usize, position + 1);
            }
        }
    }
}
