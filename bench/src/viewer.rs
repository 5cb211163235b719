//! A plain viewer of outlines: a copy of the bytes and, for a buyer's reader, one pass that clears prices and locks. It does what
//! `plates_view_house` and `plates_view_buyer` do, with the same refusals; the outline's check is the library's own.

use plates_scale::library;
use plates_scale::outline::RECORD_BYTES;

#[derive(Clone, Copy, PartialEq)]
pub enum Reader {
    House,
    Buyer,
}

pub const READERS: [Reader; 2] = [Reader::House, Reader::Buyer];

/// Clears a record's price, and bit 31 of its plate field.
fn hide(record: &mut [u8]) {
    record[8..12].fill(0);
    record[15] &= 0x7f;
}

/// Number and place.
pub fn view(reader: Reader, outline: &[u8], view: &mut [u8]) -> [u32; 2] {
    let [number, place] = library::check(outline);
    if number != 0 {
        return [number, place];
    }
    let Some(view) = view.get_mut(..outline.len()) else {
        return [9, 0];
    };
    view.copy_from_slice(outline);
    if reader == Reader::Buyer {
        view.chunks_exact_mut(RECORD_BYTES).for_each(hide);
    }
    [0, 0]
}

#[cfg(test)]
mod tests {
    use super::*;
    use plates_scale::cases::tree_a;
    use plates_scale::outline::{bytes, Record, LOCK};

    /// Tree A with a heading and a lock, and what a buyer's reader gets.
    fn outlines() -> [Vec<u8>; 2] {
        let mut records = tree_a();
        let hidden: Vec<Record> = records
            .iter()
            .map(|&record| Record { price: 0, ..record })
            .collect();
        records[1].price = 65_535;
        records[4].plate |= LOCK;
        [bytes(&records), bytes(&hidden)]
    }

    #[test]
    fn a_buyers_reader_gets_no_prices_and_no_locks() {
        let [outline, hidden] = outlines();
        for (reader, expected) in READERS.into_iter().zip([&outline, &hidden]) {
            let mut given = [9; 81];
            assert_eq!(view(reader, &outline, &mut given), [0, 0]);
            assert_eq!(given[..80], expected[..]);
            assert_eq!(given[80], 9);
        }
    }

    #[test]
    fn refusals_come_in_their_order() {
        let [mut outline, _] = outlines();
        let refused = |outline: &[u8]| {
            let mut short = [9; 79];
            let [house, buyer] = READERS.map(|reader| view(reader, outline, &mut short));
            assert_eq!((house, short), (buyer, [9; 79]));
            house
        };
        assert_eq!(refused(&outline), [9, 0]);
        assert_eq!(refused(&outline[1..]), [2, 0]);
        outline[64] = 1;
        assert_eq!(refused(&outline), [6, 5]);
    }
}
