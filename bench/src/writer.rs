//! A plain writer of trees as text: one walk down the links, which drafts the text and the pairs together. It does what
//! `plates_write` does, with the same refusals; the outline's check is the library's own.

use plates_scale::library;
use plates_scale::outline::{records, Record};
use plates_scale::writing::{MOST_BYTES, MOST_NUMBERS};

/// The greatest that a text has room for. The field of a locked taxon is greater, whatever its plate.
const MOST_PLATE: u32 = 999_999_999;
const MOST_DIGITS: usize = 9;

/// What is to be written. Whether it fits is known at the end only, and what does not fit is not begun.
struct Draft<'a> {
    records: &'a [Record],
    text: Vec<u8>,
    pairs: Vec<u32>,
}

impl Draft<'_> {
    fn number(&mut self, mut value: u32) {
        let mut digits = [0; MOST_DIGITS];
        let mut at = MOST_DIGITS;
        loop {
            at -= 1;
            digits[at] = b'0' + (value % 10) as u8;
            value /= 10;
            if value == 0 {
                break;
            }
        }
        self.text.extend_from_slice(&digits[at..]);
    }

    fn part(&mut self, record: &Record) {
        if record.is_taxon() {
            self.number(record.plate);
            self.pairs.extend([record.plate, record.price]);
        } else {
            self.list(record.first);
        }
        self.text.push(b':');
        self.number(record.length);
    }

    /// The members of the chain that a link begins.
    fn list(&mut self, mut link: u16) {
        let mut sign = b'(';
        while link != 0 {
            let member = &self.records[usize::from(link) - 1];
            self.text.push(sign);
            self.part(member);
            sign = b',';
            link = member.next;
        }
        self.text.push(b')');
    }
}

fn drafted(records: &[Record]) -> Draft<'_> {
    let mut draft = Draft {
        records,
        text: Vec::with_capacity(MOST_BYTES),
        pairs: Vec::with_capacity(MOST_NUMBERS),
    };
    draft.part(&records[0]);
    draft.text.push(b';');
    draft
}

fn is_unwritable(record: &Record) -> bool {
    if record.is_taxon() {
        record.plate > MOST_PLATE
    } else {
        record.price > 0
    }
}

/// Number, place, bytes, pairs.
pub fn write(outline: &[u8], text: &mut [u8], pairs: &mut [u32]) -> [u32; 4] {
    let [number, place] = library::check(outline);
    if number != 0 {
        return [number, place, 0, 0];
    }
    let records = records(outline);
    if let Some(position) = records.iter().position(is_unwritable) {
        return [13, position as u32 + 1, 0, 0];
    }
    let draft = drafted(&records);
    let text = text.get_mut(..draft.text.len());
    let pairs = pairs.get_mut(..draft.pairs.len());
    let (Some(text), Some(pairs)) = (text, pairs) else {
        return [9, 0, 0, 0];
    };
    text.copy_from_slice(&draft.text);
    pairs.copy_from_slice(&draft.pairs);
    [0, 0, text.len() as u32, pairs.len() as u32 / 2]
}

#[cfg(test)]
mod tests {
    use super::*;
    use plates_scale::write_cases;

    #[test]
    fn stated_writings_are_given() {
        for case in write_cases::all() {
            let (mut text, mut pairs) = (vec![9; case.call.text], vec![9; case.call.pairs]);
            let answer = write(&case.call.outline, &mut text, &mut pairs);
            assert_eq!(answer, case.expected.answer, "{}", case.name);
            let (written, rest) = text.split_at(case.expected.text.len());
            assert_eq!(written, case.expected.text, "{}", case.name);
            assert!(rest.iter().all(|&byte| byte == 9), "{}", case.name);
            let (written, rest) = pairs.split_at(case.expected.pairs.len());
            assert_eq!(written, case.expected.pairs, "{}", case.name);
            assert!(rest.iter().all(|&number| number == 9), "{}", case.name);
        }
    }
}
