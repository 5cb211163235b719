//! Document 01's table of refusals, judged row by row, and its finder. A group's price (§2), the 31 bits of a plate and refusal
//! 12 (§4) are document 02's.

use crate::call::{needed, Call};
use crate::outline::{self, Record, MOST_PLATE, RECORD_BYTES};

/// A refusal's number in the table, and its place: a record number, or 0.
#[derive(Clone, Copy, Debug, PartialEq, Eq)]
pub struct Refusal {
    pub number: u32,
    pub place: u32,
}

const NO_SET_FITS: Refusal = Refusal {
    number: 12,
    place: 0,
};

/// What `solve` finds, or the first of refusals 1 to 9 and 12 that holds. `solve` is given an accepted outline and finds nothing
/// where no set that holds every locked taxon fits the page count.
pub fn choose<T>(call: &Call, solve: impl FnOnce(&[Record]) -> Option<T>) -> Result<T, Refusal> {
    let records = outline::records(&call.outline);
    let refusal = unknown_way(call.way)
        .or_else(|| partial_record(&call.outline))
        .or_else(|| too_many_records(&records))
        .or_else(|| count_too_large(call.count))
        .or_else(|| content(&records))
        .or_else(|| buffer_too_short(call, records.len()));
    match refusal {
        Some(refusal) => Err(refusal),
        None => solve(&records).ok_or(NO_SET_FITS),
    }
}

/// The first of refusals 2, 3 and 5 to 8 that holds.
pub fn check(outline: &[u8]) -> Option<Refusal> {
    let records = outline::records(outline);
    partial_record(outline)
        .or_else(|| too_many_records(&records))
        .or_else(|| content(&records))
}

/// The number of the record of the taxon with this plate; 0 where the finder's part is empty.
pub fn find(outline: &[u8], plate: u32) -> u32 {
    if plate > MOST_PLATE || check(outline).is_some() {
        return 0;
    }
    let records = outline::records(outline);
    numbers(&records)
        .find(|&number| {
            let record = records[number - 1];
            record.is_taxon() && record.plate_number() == plate
        })
        .map_or(0, |number| number as u32)
}

pub(crate) fn content(records: &[Record]) -> Option<Refusal> {
    field_out_of_range(fields_fit, records)
        .or_else(|| bad_link(records))
        .or_else(|| too_many_taxa(records))
        .or_else(|| duplicate_plate(Record::plate_number, records))
}

pub(crate) fn numbers(records: &[Record]) -> std::ops::RangeInclusive<usize> {
    1..=records.len()
}

pub(crate) fn without_place(number: u32, holds: bool) -> Option<Refusal> {
    holds.then_some(Refusal { number, place: 0 })
}

/// The refusal at the lowest record for which `holds`.
pub(crate) fn at_lowest(
    number: u32,
    records: &[Record],
    holds: impl Fn(&[Record], usize) -> bool,
) -> Option<Refusal> {
    let place = numbers(records).find(|&record| holds(records, record))? as u32;
    Some(Refusal { number, place })
}

pub(crate) fn unknown_way(way: u32) -> Option<Refusal> {
    without_place(1, way != 0 && way != 1)
}

pub(crate) fn partial_record(outline: &[u8]) -> Option<Refusal> {
    without_place(
        2,
        outline.is_empty() || !outline.len().is_multiple_of(RECORD_BYTES),
    )
}

pub(crate) fn too_many_records(records: &[Record]) -> Option<Refusal> {
    without_place(3, records.len() > 127)
}

pub(crate) fn count_too_large(count: u32) -> Option<Refusal> {
    without_place(4, count > 4_096)
}

pub(crate) fn field_out_of_range(fit: fn(&Record) -> bool, records: &[Record]) -> Option<Refusal> {
    at_lowest(5, records, |records, number| !fit(&records[number - 1]))
}

fn fields_fit(record: &Record) -> bool {
    let plate_fits = if record.is_taxon() {
        record.plate_number() >= 1
    } else {
        record.plate == 0
    };
    record.length <= 1_000_000 && record.price <= 65_535 && plate_fits
}

pub(crate) fn bad_link(records: &[Record]) -> Option<Refusal> {
    at_lowest(6, records, |records, number| {
        let record = records[number - 1];
        let wrong = |link: u16| {
            let link = usize::from(link);
            link != 0 && !(link > number && link <= records.len())
        };
        wrong(record.next)
            || wrong(record.first)
            || number == 1 && record.next != 0
            || number >= 2 && times_named(records, number) != 1
    })
}

/// In how many link fields of the whole outline the number stands.
fn times_named(records: &[Record], number: usize) -> usize {
    records
        .iter()
        .flat_map(|record| [record.next, record.first])
        .filter(|&link| usize::from(link) == number)
        .count()
}

pub(crate) fn too_many_taxa(records: &[Record]) -> Option<Refusal> {
    without_place(7, outline::taxa(records).len() > 64)
}

pub(crate) fn duplicate_plate(plate: fn(&Record) -> u32, records: &[Record]) -> Option<Refusal> {
    at_lowest(8, records, |records, number| {
        let record = records[number - 1];
        record.is_taxon()
            && records[..number - 1]
                .iter()
                .any(|earlier| earlier.is_taxon() && plate(earlier) == plate(&record))
    })
}

pub(crate) fn buffer_too_short(call: &Call, records: usize) -> Option<Refusal> {
    let [marks, curve, work] = needed(records, call.count);
    without_place(
        9,
        call.marks < marks || call.curve < curve || call.work < work,
    )
}

#[cfg(test)]
mod tests {
    use super::*;
    use crate::cases::{limits, tree_a};
    use crate::heading_cases;
    use crate::lock_cases;
    use crate::outline::{bytes, LOCK};
    use crate::table;

    fn refusal(number: u32, place: u32) -> Option<Refusal> {
        Some(Refusal { number, place })
    }

    fn refused(call: &Call) -> Option<Refusal> {
        choose(call, |records| table::solve(records, call.way, call.count)).err()
    }

    /// Tree A, way 0, page count 5, buffers as long as needed.
    fn call() -> Call {
        Call {
            outline: bytes(&tree_a()),
            count: 5,
            way: 0,
            marks: 5,
            curve: 12,
            work: 168,
        }
    }

    fn checked(alter: impl Fn(&mut [Record])) -> Option<Refusal> {
        let mut records = tree_a();
        alter(&mut records);
        check(&bytes(&records))
    }

    #[test]
    fn gives_what_is_stated_at_the_limits() {
        let ours = heading_cases::limits()
            .into_iter()
            .chain(lock_cases::limits());
        for limit in limits().into_iter().chain(ours) {
            let [marks, curve, work] = needed(limit.outline.len() / RECORD_BYTES, limit.count);
            let call = Call {
                outline: limit.outline,
                count: limit.count,
                way: 0,
                marks,
                curve,
                work,
            };
            let stated = Refusal {
                number: limit.number,
                place: limit.place,
            };
            assert_eq!(refused(&call), (limit.number != 0).then_some(stated));
        }
    }

    #[test]
    fn the_first_row_that_holds_is_given() {
        let mut faulty = call();
        assert_eq!(refused(&faulty), None);
        for lock in [47, 63, 79] {
            faulty.outline[lock] |= 128;
        }
        assert_eq!(refused(&faulty), refusal(12, 0));
        faulty.work = 167;
        assert_eq!(refused(&faulty), refusal(9, 0));
        faulty.outline[44] = 12;
        assert_eq!(refused(&faulty), refusal(8, 4));
        faulty.outline[0] = 2;
        assert_eq!(refused(&faulty), refusal(6, 1));
        faulty.outline[26] = 1;
        assert_eq!(refused(&faulty), refusal(5, 2));
        faulty.count = 4_097;
        assert_eq!(refused(&faulty), refusal(4, 0));
        faulty.outline.resize(128 * RECORD_BYTES, 0);
        assert_eq!(refused(&faulty), refusal(3, 0));
        faulty.outline.push(0);
        assert_eq!(refused(&faulty), refusal(2, 0));
        faulty.way = 2;
        assert_eq!(refused(&faulty), refusal(1, 0));
    }

    #[test]
    fn each_short_buffer_is_refused() {
        for (marks, curve, work) in [(4, 12, 168), (5, 11, 168), (5, 12, 167), (0, 0, 0)] {
            let short = Call {
                marks,
                curve,
                work,
                ..call()
            };
            assert_eq!(refused(&short), refusal(9, 0));
        }
    }

    #[test]
    fn fields_outside_their_ranges_are_refused() {
        assert_eq!(checked(|r| r[2].price = 65_535), None);
        assert_eq!(checked(|r| r[2].price = 65_536), refusal(5, 3));
        assert_eq!(checked(|r| r[3].plate = 0), refusal(5, 4));
        assert_eq!(checked(|r| r[3].plate = u32::MAX), None);
        assert_eq!(checked(|r| r[3].plate = LOCK), refusal(5, 4));
        assert_eq!(checked(|r| r[3].plate = LOCK + 1), None);
        assert_eq!(checked(|r| r[1].plate = LOCK), refusal(5, 2));
        assert_eq!(checked(|r| r[1].price = 1), None);
        assert_eq!(checked(|r| r[1].price = 65_535), None);
        assert_eq!(checked(|r| r[1].price = 65_536), refusal(5, 2));
        assert_eq!(checked(|r| r[0].price = u32::MAX), refusal(5, 1));
        assert_eq!(checked(|r| r[0].plate = 1), refusal(5, 1));
        assert_eq!(checked(|r| r[0].length = 1_000_001), refusal(5, 1));
    }

    #[test]
    fn taxa_alike_in_the_lower_31_bits_are_twins() {
        for locks in 0..4 {
            let twins = |records: &mut [Record]| {
                records[2].plate = 11 | (locks & 1) << 31;
                records[4].plate = 11 | (locks >> 1) << 31;
            };
            assert_eq!(checked(twins), refusal(8, 5));
        }
        assert_eq!(checked(|r| r[4].plate = LOCK + 14), None);
    }

    #[test]
    fn links_are_refused_at_the_lowest_record_at_fault() {
        assert_eq!(checked(|r| r[4].next = 6), refusal(6, 5));
        assert_eq!(checked(|r| r[4].next = 5), refusal(6, 5));
        assert_eq!(checked(|r| r[3].next = 5), refusal(6, 5));
        assert_eq!(checked(|r| r[4].next = 3), refusal(6, 3));
        assert_eq!(checked(|r| r[4].next = 1), refusal(6, 5));
        assert_eq!(checked(|r| r[2].next = 0), refusal(6, 4));
        assert_eq!(checked(|r| r[1].first = 4), refusal(6, 3));
    }

    #[test]
    fn only_taxa_of_accepted_outlines_are_found() {
        let outline = bytes(&tree_a());
        let found = [11, 12, 13, 0, 14].map(|plate| find(&outline, plate));
        assert_eq!(found, [3, 4, 5, 0, 0]);
        assert_eq!(find(&outline[..79], 11), 0);
    }

    #[test]
    fn stated_finds_are_given() {
        for stated in lock_cases::finds() {
            let found = find(&stated.outline, stated.plate);
            assert_eq!(found, stated.record, "{}", stated.plate);
        }
    }
}
