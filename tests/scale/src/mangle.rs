//! Calls that read a text: sound ones, oddly spelled, and ones with faults in the text, the pairs or the buffer.

use crate::damage;
use crate::outline::{taxa, Record, LOCK, RECORD_BYTES};
use crate::random::Random;
use crate::reading::ReadCall;
use crate::shapes;
use crate::spell::{pairs, spelled, Style};

/// A fault that a call can be given. The first few are made in the tree, before it is spelled.
#[derive(Clone, Copy, Debug, PartialEq, Eq)]
pub enum Fault {
    LongBranch,
    HighPrice,
    PlateZero,
    Twins,
    ByteChanged,
    ByteDropped,
    ByteInserted,
    ByteDoubled,
    Cut,
    Padded,
    PairMissing,
    PairDoubled,
    PairUnmatched,
    OddCount,
    BufferShort,
}

impl Fault {
    pub const ALL: [Fault; 15] = [
        Fault::LongBranch,
        Fault::HighPrice,
        Fault::PlateZero,
        Fault::Twins,
        Fault::ByteChanged,
        Fault::ByteDropped,
        Fault::ByteInserted,
        Fault::ByteDoubled,
        Fault::Cut,
        Fault::Padded,
        Fault::PairMissing,
        Fault::PairDoubled,
        Fault::PairUnmatched,
        Fault::OddCount,
        Fault::BufferShort,
    ];
}

/// A call without a fault, of at most 64 taxa and 127 records.
pub fn sound_call(rng: &mut Random) -> ReadCall {
    call_for(&sound_tree(rng), rng)
}

/// A tree of at most 64 taxa and 127 records that a text can spell.
pub(crate) fn sound_tree(rng: &mut Random) -> Vec<Record> {
    let taxa = if rng.one_in(10) {
        1 + rng.index(64)
    } else {
        1 + rng.index(9)
    };
    let most = if rng.one_in(8) { 127 } else { 2 * taxa };
    let mut records = shapes::random_outline(taxa, most, rng);
    fill_for_text(&mut records, rng);
    records
}

/// A call with these faults and of any size, so at times with others too. A fault that there is no room for is left out.
pub fn faulty_call(faults: &[Fault], rng: &mut Random) -> ReadCall {
    let mut records = damage::any_size(rng);
    fill_for_text(&mut records, rng);
    for &fault in faults {
        damage_tree(fault, &mut records, rng);
    }
    let mut call = call_for(&records, rng);
    for &fault in faults {
        damage_call(fault, &mut call, rng);
    }
    call
}

/// Fills an outline with lengths, prices and plates of at most 9 digits. Plates that are drawn in a row stay different.
pub(crate) fn fill_for_text(records: &mut [Record], rng: &mut Random) {
    shapes::fill_randomly(records, 40, rng);
    for record in records {
        record.plate %= 1_000_000_000;
    }
}

fn call_for(records: &[Record], rng: &mut Random) -> ReadCall {
    let style = Style::any(rng);
    let extra = rng.pick(&[0, 0, 1, 15, 16, 500]);
    ReadCall {
        text: spelled(records, &style, rng),
        pairs: pairs(records, rng),
        outline: records.len() * RECORD_BYTES + extra,
    }
}

fn damage_tree(fault: Fault, records: &mut [Record], rng: &mut Random) {
    let any = rng.index(records.len());
    let taxa = taxa(records);
    let (taxon, other) = (rng.pick(&taxa), rng.pick(&taxa));
    match fault {
        Fault::LongBranch => records[any].length = rng.pick(&[1_000_001, 999_999_999]),
        Fault::HighPrice => records[taxon].price = rng.pick(&[65_536, u32::MAX]),
        Fault::PlateZero => records[taxon].plate = 0,
        Fault::Twins => records[taxon].plate = records[other].plate,
        _ => {}
    }
}

fn damage_call(fault: Fault, call: &mut ReadCall, rng: &mut Random) {
    match fault {
        Fault::PairMissing | Fault::PairDoubled | Fault::PairUnmatched | Fault::OddCount => {
            damage_pairs(fault, &mut call.pairs, rng);
        }
        Fault::BufferShort => {
            let most = call.outline.saturating_sub(1);
            let short = [0, most / 2, most, most.saturating_sub(15)];
            call.outline = rng.pick(&short);
        }
        _ => damage_text(fault, &mut call.text, rng),
    }
}

fn damage_text(fault: Fault, text: &mut Vec<u8>, rng: &mut Random) {
    if text.is_empty() {
        return;
    }
    let at = rng.index(text.len());
    match fault {
        Fault::ByteChanged => text[at] = some_byte(rng),
        Fault::ByteDropped => drop(text.remove(at)),
        Fault::ByteInserted => text.insert(rng.index(text.len() + 1), some_byte(rng)),
        Fault::ByteDoubled => text.insert(at, text[at]),
        Fault::Cut => text.truncate(at),
        Fault::Padded => {
            let len: usize = rng.pick(&[16_383, 16_384, 16_385, 16_400]);
            let front = rng.index(len.saturating_sub(text.len()) + 1);
            text.splice(..0, vec![b' '; front]);
            text.resize(len, b'\n');
        }
        _ => {}
    }
}

fn some_byte(rng: &mut Random) -> u8 {
    if rng.one_in(4) {
        rng.bits() as u8
    } else {
        rng.pick(b"(),:; \t\n\r0123456789")
    }
}

fn damage_pairs(fault: Fault, pairs: &mut Vec<u32>, rng: &mut Random) {
    if pairs.len() < 2 {
        return;
    }
    let at = 2 * rng.index(pairs.len() / 2);
    let pair = [pairs[at], pairs[at + 1]];
    match fault {
        Fault::PairMissing => drop(pairs.drain(at..at + 2)),
        Fault::PairDoubled => pairs.extend([pair[0], rng.pick(&[pair[1], 0])]),
        // Bit 31 locks a taxon in an outline, and is part of a pair's number.
        Fault::PairUnmatched if rng.one_in(4) => pairs[at] ^= LOCK,
        Fault::PairUnmatched => {
            let plate = rng.pick(&[0, 1, pair[0] ^ 1, 1_000_000_000, u32::MAX]);
            pairs.extend([plate, pair[1]]);
        }
        _ => match rng.below(3) {
            0 => pairs.push(pair[0]),
            1 => pairs.push(rng.bits() as u32),
            _ => drop(pairs.pop()),
        },
    }
}

#[cfg(test)]
mod tests {
    use super::*;
    use crate::reading::expected;

    #[test]
    fn an_unmatched_pair_is_refused_also_where_it_differs_in_bit_31_only() {
        let rng = &mut Random::new(1);
        let (mut added, mut altered) = (0, 0);
        for _ in 0..1_000 {
            let mut call = sound_call(rng);
            let before = call.pairs.clone();
            damage_pairs(Fault::PairUnmatched, &mut call.pairs, rng);
            let differing = before.iter().zip(&call.pairs).filter(|(a, b)| a != b);
            let flipped = differing.filter(|(a, b)| *a ^ *b == LOCK).count();
            added += usize::from(call.pairs.len() > before.len());
            altered += flipped;
            assert_eq!(expected(&call).answer[0], 11);
        }
        assert!(added > 600 && altered > 150, "{added}, {altered}");
        assert_eq!(added + altered, 1_000);
    }
}
