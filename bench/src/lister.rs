//! A plain lister of sheets: from each taxon of the set, in record order, one walk up to the first record that an earlier one has
//! opened, and unrooted one from where the earlier ones meet. It does what `plates_sheet` does, with the same refusals; the
//! outline's check is the library's own.

use plates_scale::library;
use plates_scale::outline::{records, Record, UNROOTED};

/// What the taxa so far have opened.
struct Opened<'a> {
    records: &'a [Record],
    /// The position of each record's group, from 0; the root's is its own.
    above: Vec<usize>,
    /// Whether one of the taxa is at or below the record.
    is_open: Vec<bool>,
    /// Unrooted, the deepest record that has all of them, once there is one.
    top: Option<usize>,
}

impl<'a> Opened<'a> {
    fn new(records: &'a [Record]) -> Self {
        let mut above = vec![0; records.len()];
        // Links go to later records, so a record's group is known before its own links are followed.
        for (position, record) in records.iter().enumerate() {
            if record.first != 0 {
                above[usize::from(record.first) - 1] = position;
            }
            if record.next != 0 {
                above[usize::from(record.next) - 1] = above[position];
            }
        }
        Opened {
            records,
            above,
            is_open: vec![false; records.len()],
            top: None,
        }
    }

    /// The quarters and the diversity that a taxon adds.
    fn add(&mut self, taxon: usize, way: u32) -> [u32; 2] {
        let [mut quarters, mut length] = [0, 0];
        let mut at = taxon;
        while !self.is_open[at] {
            self.is_open[at] = true;
            quarters += self.records[at].price;
            length += self.records[at].length;
            at = self.above[at];
        }
        if way == UNROOTED {
            length = self.joined(taxon, length, at);
        }
        [quarters, length]
    }

    /// The length of what joins a taxon to those before it: its own way up to where it meets them, and theirs.
    fn joined(&mut self, taxon: usize, mut length: u32, meeting: usize) -> u32 {
        let Some(mut top) = self.top else {
            self.top = Some(taxon);
            return 0;
        };
        // A group comes before its members: of the open records, those above the top have lower numbers, the others higher.
        while meeting < top {
            length += self.records[top].length;
            top = self.above[top];
        }
        self.top = Some(top);
        length
    }
}

/// Number, place, rows, quarters, diversity.
pub fn list(outline: &[u8], way: u32, marks: &[u8], sheet: &mut [u32]) -> [u32; 5] {
    let refused = |number, place| [number, place, 0, 0, 0];
    if way > UNROOTED {
        return refused(1, 0);
    }
    let [number, place] = library::check(outline);
    if number != 0 {
        return refused(number, place);
    }
    let records = records(outline);
    let Some(marks) = marks.get(..records.len()) else {
        return refused(14, 0);
    };
    let is_bad = |(record, &mark): (&Record, &u8)| mark > u8::from(record.is_taxon());
    if let Some(position) = records.iter().zip(marks).position(is_bad) {
        return refused(14, position as u32 + 1);
    }
    let taxa = (0..records.len()).filter(|&position| marks[position] == 1);
    let rows = taxa.clone().count();
    let Some(sheet) = sheet.get_mut(..3 * rows) else {
        return refused(9, 0);
    };
    let mut opened = Opened::new(&records);
    let mut sums = [0, 0];
    for (row, taxon) in sheet.chunks_exact_mut(3).zip(taxa) {
        let [quarters, diversity] = opened.add(taxon, way);
        row.copy_from_slice(&[records[taxon].plate_number(), quarters, diversity]);
        sums = [sums[0] + quarters, sums[1] + diversity];
    }
    [0, 0, rows as u32, sums[0], sums[1]]
}

#[cfg(test)]
mod tests {
    use super::*;
    use plates_scale::cases::tree_a;
    use plates_scale::outline::{bytes, LOCK, ROOTED};

    /// The rows that are written and the sums.
    fn listed(records: &[Record], way: u32, marks: &[u8]) -> (Vec<u32>, [u32; 2]) {
        let mut sheet = [9; 10];
        let [number, place, rows, sums @ ..] = list(&bytes(records), way, marks, &mut sheet);
        assert_eq!([number, place], [0, 0]);
        let (written, rest) = sheet.split_at(3 * rows as usize);
        assert!(rest.iter().all(|&number| number == 9));
        (written.to_vec(), sums)
    }

    #[test]
    fn tree_a_is_listed() {
        let marks = [0, 0, 1, 0, 1];
        let rooted = listed(&tree_a(), ROOTED, &marks);
        assert_eq!(rooted, (vec![11, 3, 7, 13, 2, 5], [5, 12]));
        let unrooted = listed(&tree_a(), UNROOTED, &marks);
        assert_eq!(unrooted, (vec![11, 3, 0, 13, 2, 12], [5, 12]));
        let all = listed(&tree_a(), UNROOTED, &[0, 0, 1, 1, 1]);
        assert_eq!(all, (vec![11, 3, 0, 12, 1, 6, 13, 2, 8], [6, 14]));
        let nothing = listed(&tree_a(), ROOTED, &[0; 5]);
        assert_eq!(nothing, (vec![], [0, 0]));
    }

    #[test]
    fn headings_are_charged_once_and_locks_left_out() {
        let mut records = tree_a();
        records[1].price = 2;
        records[2].plate |= LOCK;
        let headed = listed(&records, ROOTED, &[0, 0, 1, 1, 1]);
        assert_eq!(headed, (vec![11, 5, 7, 12, 1, 2, 13, 2, 5], [8, 14]));
    }

    #[test]
    fn refusals_come_in_their_order() {
        let outline = bytes(&tree_a());
        let refused = |outline: &[u8], way, marks: &[u8]| {
            let mut sheet = [9; 5];
            let [number, place, rest @ ..] = list(outline, way, marks, &mut sheet);
            assert_eq!((rest, sheet), ([0; 3], [9; 5]));
            [number, place]
        };
        assert_eq!(refused(&[], 2, &[]), [1, 0]);
        assert_eq!(refused(&outline[1..], ROOTED, &[]), [2, 0]);
        assert_eq!(refused(&outline, ROOTED, &[0, 1, 2, 0]), [14, 0]);
        assert_eq!(refused(&outline, ROOTED, &[0, 1, 2, 0, 0]), [14, 2]);
        assert_eq!(refused(&outline, ROOTED, &[0, 0, 1, 1, 2]), [14, 5]);
        assert_eq!(refused(&outline, ROOTED, &[0, 0, 1, 1, 0]), [9, 0]);
    }
}
