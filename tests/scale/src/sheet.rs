//! A call that lists a marked set, and what document 02, §6, says it gives: a row is what the exhaustive search's measures of the
//! taxa so far grow by with one taxon more, and the sums are those of the whole set.

use crate::measures::Measures;
use crate::outline::{self, Record};
use crate::rules::{self, Refusal};

/// A row's numbers: plate, quarters, diversity.
pub const ROW: usize = 3;
/// The numbers of as many rows as can be.
pub const MOST_NUMBERS: usize = ROW * 64;

/// `sheet` is the buffer's length in numbers.
#[derive(Clone, Debug, PartialEq, Eq)]
pub struct SheetCall {
    pub outline: Vec<u8>,
    pub way: u32,
    pub marks: Vec<u8>,
    /// Where the marks are a part of the outline's own memory, the byte at which they begin.
    pub within: Option<usize>,
    pub sheet: usize,
}

/// The answer and what is written to the sheet; nothing on a refusal.
#[derive(Clone, Debug, PartialEq, Eq)]
pub struct SheetExpected {
    /// Number, place, rows, quarters, diversity.
    pub answer: [u32; 5],
    pub sheet: Vec<u32>,
}

impl SheetExpected {
    pub fn refused(refusal: Refusal) -> Self {
        SheetExpected {
            answer: [refusal.number, refusal.place, 0, 0, 0],
            sheet: Vec::new(),
        }
    }
}

pub fn expected(call: &SheetCall) -> SheetExpected {
    judged(call).map_or_else(SheetExpected::refused, |records| {
        let rows = rows(&records, call.way, &call.marks);
        let [quarters, diversity] = sums(&records, call.way, &call.marks);
        SheetExpected {
            answer: [0, 0, rows.len() as u32, quarters, diversity],
            sheet: rows.concat(),
        }
    })
}

/// The records, or the first of refusals 1, the check's, 14 and 9 that holds.
fn judged(call: &SheetCall) -> Result<Vec<Record>, Refusal> {
    let records = outline::records(&call.outline);
    let refusal = rules::unknown_way(call.way)
        .or_else(|| rules::check(&call.outline))
        .or_else(|| bad_marks(&records, &call.marks))
        .or_else(|| rules::without_place(9, call.sheet < needed(&records, &call.marks)));
    refusal.map_or(Ok(records), Err)
}

/// The sheet's length that these marks need.
pub fn needed(records: &[Record], marks: &[u8]) -> usize {
    ROW * chosen(records, marks).len()
}

/// What is wrong with a record's mark.
type Cause = (&'static str, fn(&Record, u8) -> bool);

pub const CAUSES: [Cause; 2] = [
    ("neither 0 nor 1", |_, mark| mark > 1),
    ("1 at a group", |record, mark| {
        mark == 1 && !record.is_taxon()
    }),
];

pub fn is_bad(record: &Record, mark: u8) -> bool {
    CAUSES.iter().any(|(_, holds)| holds(record, mark))
}

/// Too few marks have no place, whatever they are.
fn bad_marks(records: &[Record], marks: &[u8]) -> Option<Refusal> {
    rules::without_place(14, marks.len() < records.len()).or_else(|| {
        rules::at_lowest(14, records, |records, number| {
            is_bad(&records[number - 1], marks[number - 1])
        })
    })
}

/// Positions, from 0, of the records whose mark is 1. Marks beyond the records are not looked at.
pub fn chosen(records: &[Record], marks: &[u8]) -> Vec<usize> {
    let marked = records.iter().zip(marks).enumerate();
    marked
        .filter(|(_, (_, &mark))| mark == 1)
        .map(|(position, _)| position)
        .collect()
}

/// The rows of a marked set of an accepted outline.
pub fn rows(records: &[Record], way: u32, marks: &[u8]) -> Vec<[u32; ROW]> {
    let measures = Measures::new(records, way);
    let (mut set, mut before) = (0, [0, 0]);
    let mut row = |position: usize| {
        set |= measures.bit(position);
        let with = measures.of(set);
        let plate = records[position].plate_number();
        let row = [plate, with[0] - before[0], with[1] - before[1]];
        before = with;
        row
    };
    let chosen = chosen(records, marks);
    chosen.into_iter().map(&mut row).collect()
}

/// The marked set's cost and diversity.
pub fn sums(records: &[Record], way: u32, marks: &[u8]) -> [u32; 2] {
    let measures = Measures::new(records, way);
    let chosen = chosen(records, marks);
    let bits = chosen.into_iter().map(|position| measures.bit(position));
    measures.of(bits.fold(0, |set, bit| set | bit))
}

#[cfg(test)]
mod tests {
    use super::*;
    use crate::cases::tree_a;
    use crate::headings;
    use crate::outline::{is_preorder, ROOTED, UNROOTED};
    use crate::random::Random;
    use crate::shapes;
    use crate::sheet_cases;

    /// The records that a record is or is below, bit k for the one at position k.
    type Line = u128;

    /// The records' lines. Links go to later records, so a group's line is known before its members'.
    fn lines(records: &[Record]) -> Vec<Line> {
        let mut lines = vec![1; records.len()];
        for group in 0..records.len() {
            for member in outline::members(records, group) {
                lines[member] = lines[group] | 1 << member;
            }
        }
        lines
    }

    /// The row of the first chosen taxon that is the record or below it, and of the first elsewhere. `chosen` has the chosen taxa's
    /// lines.
    fn first_rows(chosen: &[Line], position: usize) -> [Option<usize>; 2] {
        [1, 0].map(|below| chosen.iter().position(|line| line >> position & 1 == below))
    }

    /// The row from which on a record's branch counts; unrooted this takes a chosen taxon on either side.
    fn counts_from(way: u32, [below, elsewhere]: [Option<usize>; 2]) -> Option<usize> {
        if way == ROOTED {
            return below;
        }
        Some(below?.max(elsewhere?))
    }

    /// The rows by another method: each record's price and length go to the row from which on they count.
    fn rows_by_lines(records: &[Record], way: u32, marks: &[u8]) -> Vec<[u32; ROW]> {
        let taxa = chosen(records, marks);
        let lines = lines(records);
        let chosen: Vec<Line> = taxa.iter().map(|&taxon| lines[taxon]).collect();
        let plates = taxa.iter().map(|&taxon| records[taxon].plate_number());
        let mut rows: Vec<_> = plates.map(|plate| [plate, 0, 0]).collect();
        for (position, record) in records.iter().enumerate() {
            let first_rows = first_rows(&chosen, position);
            if let [Some(row), _] = first_rows {
                rows[row][1] += record.price;
            }
            if let Some(row) = counts_from(way, first_rows) {
                rows[row][2] += record.length;
            }
        }
        rows
    }

    #[test]
    fn lines_go_up_to_the_root() {
        assert_eq!(lines(&tree_a()), [0b1, 0b11, 0b111, 0b1011, 0b10001]);
    }

    #[test]
    fn first_rows_are_told_by_lines() {
        let [both, left, right] = [0b1, 0b11, 0b101];
        assert_eq!(first_rows(&[], 0), [None, None]);
        assert_eq!(first_rows(&[left, right], 0), [Some(0), None]);
        assert_eq!(first_rows(&[left, right], 1), [Some(0), Some(1)]);
        assert_eq!(first_rows(&[left, both, right], 2), [Some(2), Some(0)]);
        assert_eq!(first_rows(&[left], 2), [None, Some(0)]);
    }

    #[test]
    fn unrooted_a_branch_counts_with_the_later_of_both_sides() {
        for (first_rows, rooted, unrooted) in [
            ([None, None], None, None),
            ([None, Some(0)], None, None),
            ([Some(0), None], Some(0), None),
            ([Some(0), Some(2)], Some(0), Some(2)),
            ([Some(3), Some(0)], Some(3), Some(3)),
        ] {
            assert_eq!(counts_from(ROOTED, first_rows), rooted);
            assert_eq!(counts_from(UNROOTED, first_rows), unrooted);
        }
    }

    #[test]
    fn stated_sheets_are_given() {
        for case in sheet_cases::all() {
            assert_eq!(expected(&case.call), case.expected, "{}", case.name);
        }
    }

    /// Any set of an outline with headings, by its marks.
    fn random_set(rng: &mut Random) -> (Vec<Record>, Vec<u8>) {
        let taxa = 1 + rng.index(20);
        let mut records = shapes::random_outline(taxa, 60, rng);
        shapes::fill_randomly(&mut records, 30, rng);
        headings::fill_at_times(&mut records, 30, rng);
        let mark = |record: &Record| u8::from(record.is_taxon() && rng.one_in(2));
        let marks = records.iter().map(mark).collect();
        (records, marks)
    }

    #[test]
    fn each_record_counts_from_one_row_on() {
        let rng = &mut Random::new(1);
        let (mut interleaved, mut later) = (0, 0);
        for _ in 0..2_000 {
            let (records, marks) = random_set(rng);
            interleaved += u32::from(!is_preorder(&records));
            for way in [ROOTED, UNROOTED] {
                let rows = rows(&records, way, &marks);
                assert_eq!(rows, rows_by_lines(&records, way, &marks), "{records:?}");
                let taxa = chosen(&records, &marks).into_iter().zip(&rows).skip(1);
                later += taxa
                    .filter(|(taxon, row)| row[1] > records[*taxon].price)
                    .count();
            }
        }
        assert!(interleaved > 500 && later > 500, "{interleaved}, {later}");
    }

    #[test]
    fn rows_add_up_to_the_sums() {
        let rng = &mut Random::new(2);
        for _ in 0..2_000 {
            let (records, marks) = random_set(rng);
            for way in [ROOTED, UNROOTED] {
                let rows = rows(&records, way, &marks);
                let sum = |column: usize| rows.iter().map(|row| row[column]).sum();
                assert_eq!(sums(&records, way, &marks), [sum(1), sum(2)]);
            }
        }
    }
}
