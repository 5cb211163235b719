//! A call that reads a text, and what document 02, §1, says it gives.

use crate::newick;
use crate::outline::{self, bytes, Record, RECORD_BYTES};
use crate::rules::{self, Refusal};

/// `outline` is the buffer's length in bytes.
#[derive(Clone, Debug, PartialEq, Eq)]
pub struct ReadCall {
    pub text: Vec<u8>,
    pub pairs: Vec<u32>,
    pub outline: usize,
}

/// The answer and what is written to the buffer; nothing on a refusal.
#[derive(Clone, Debug, PartialEq, Eq)]
pub struct ReadExpected {
    /// Number, place, records.
    pub answer: [u32; 3],
    pub outline: Vec<u8>,
}

pub fn expected(call: &ReadCall) -> ReadExpected {
    match judged(call) {
        Ok(records) => ReadExpected {
            answer: [0, 0, records.len() as u32],
            outline: bytes(&records),
        },
        Err(refusal) => ReadExpected {
            answer: [refusal.number, refusal.place, 0],
            outline: Vec::new(),
        },
    }
}

/// The tree's records, or the first of refusals 10, 3, 11, 9 and 5 to 8 that holds.
fn judged(call: &ReadCall) -> Result<Vec<Record>, Refusal> {
    let without_place = |number| Refusal { number, place: 0 };
    let mut records = newick::records(&call.text).ok_or(without_place(10))?;
    rules::too_many_records(&records).map_or(Ok(()), Err)?;
    if bad_pairs(&records, &call.pairs) {
        return Err(without_place(11));
    }
    if call.outline < records.len() * RECORD_BYTES {
        return Err(without_place(9));
    }
    set_prices(&mut records, &call.pairs);
    rules::content(&records).map_or(Ok(records), Err)
}

fn bad_pairs(records: &[Record], numbers: &[u32]) -> bool {
    let plates: Vec<u32> = outline::taxa(records)
        .into_iter()
        .map(|position| records[position].plate)
        .collect();
    let paired: Vec<u32> = numbers.chunks(2).map(|pair| pair[0]).collect();
    let pairs_of = |plate: &u32| paired.iter().filter(|&other| other == plate).count();
    !numbers.len().is_multiple_of(2)
        || plates.iter().any(|plate| pairs_of(plate) != 1)
        || paired.iter().any(|plate| !plates.contains(plate))
}

fn set_prices(records: &mut [Record], numbers: &[u32]) {
    for record in records.iter_mut().filter(|record| record.is_taxon()) {
        let own = numbers.chunks(2).find(|pair| pair[0] == record.plate);
        record.price = own.map_or(0, |pair| pair[1]);
    }
}

#[cfg(test)]
mod tests {
    use super::*;
    use crate::cases::tree_a;
    use crate::text_cases;

    #[test]
    fn tree_a_gets_its_prices() {
        let call = ReadCall {
            text: b"((11:4,12:2):3,13:5);".to_vec(),
            pairs: vec![13, 2, 11, 3, 12, 1],
            outline: 80,
        };
        assert_eq!(judged(&call), Ok(tree_a()));
        assert_eq!(expected(&call).answer, [0, 0, 5]);
        assert_eq!(expected(&call).outline, bytes(&tree_a()));
    }

    #[test]
    fn stated_answers_are_given() {
        for case in text_cases::all() {
            let expected = expected(&case.call);
            assert_eq!(expected.answer, case.answer, "{}", case.name);
            let written = case.answer[2] as usize * RECORD_BYTES;
            assert_eq!(expected.outline.len(), written, "{}", case.name);
        }
    }
}
