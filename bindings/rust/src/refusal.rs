//! Why an outline, a text or a call is refused.

use std::error::Error;
use std::fmt;

/// Why an outline, a text or a call is refused. Where several reasons hold, the first in this order
/// is given, but for four things: reading a text has an order of its own, which
/// [`Outline::from_newick`](crate::Outline::from_newick) says, numbers 13, 14 and 16 are judged
/// before 9, number 15 is judged after 4 and before 5, and number 17 is judged after 8, and 4 after
/// it.
///
/// The library's table of refusals grows: later versions add numbers from 18 on. So a `match` has
/// an arm for the rest, and a number that these bindings do not know is a refusal all the same, as
/// [`Other`](Refusal::Other).
///
/// Through the safe interface only some of them arise: the bytes of an [`Outline`](crate::Outline)
/// are refused with numbers 2, 3 and 5 to 8, a text with 3, 5, 7, 8, 10 and 11, choosing with
/// numbers 4 and 12, a quick choice with 4, 12 and 15, revising a length with 4, 12 and 16, choosing
/// for a range of prices with 4, 12 and 17, writing with 13, listing a sheet with 14.
/// Number 9 is for those who lend the memory of a view or of a house form, or call
/// [`sys`](crate::sys), and number 1 for the latter only.
///
/// ```
/// use plates::{Outline, Refusal};
///
/// let told = match Outline::from_bytes(&[0; 15]) {
///     Ok(_) => "sound".to_string(),
///     Err(Refusal::PartialRecord) => "cut off".to_string(),
///     Err(refusal) => refusal.to_string(),
/// };
/// assert_eq!(told, "cut off");
/// ```
#[derive(Clone, Copy, Debug, PartialEq, Eq, Hash)]
#[non_exhaustive]
pub enum Refusal {
    /// 1: the way is neither 0 nor 1.
    UnknownWay,
    /// 2: the outline is empty, or its length is no multiple of 16.
    PartialRecord,
    /// 3: the outline, or the tree of a text, has more than 127 records.
    TooManyRecords,
    /// 4: the page count is above 4,096.
    CountTooLarge,
    /// 5: a length, price or plate is outside its range: a length above 1,000,000, a price above
    /// 65,535, a taxon's plate that is 0, locked or not, or a group's plate field that is not 0,
    /// bit 31 included. In a [`Tree`](crate::Tree) also a plate above 2,147,483,647, for which a
    /// record has no room.
    FieldOutOfRange {
        /// The lowest such record, from 1.
        record: u32,
    },
    /// 6: one of a record's links leads to no later record; or it is the root and has a next; or it is
    /// another record, and no link or more than one names it.
    BadLink {
        /// The lowest such record, from 1.
        record: u32,
    },
    /// 7: the outline has more than 64 taxa.
    TooManyTaxa,
    /// 8: a plate that an earlier taxon has, whatever their locks.
    DuplicatePlate {
        /// The lowest such record, from 1: the later of the two.
        record: u32,
    },
    /// 9: marks, curve or work is too short, or the outline to read a text to, or the text or pairs
    /// to write to, or the sheet, or the view, or a house form.
    BufferTooShort,
    /// 10: the text is no tree in the form that
    /// [`Outline::from_newick`](crate::Outline::from_newick) reads, or has more than 16,384 bytes.
    BadText,
    /// 11: a taxon of the text has no price or more than one, or a price is for a plate that no
    /// taxon has; through [`sys`](crate::sys) also that the count of pair numbers is odd.
    BadPairs,
    /// 12: no set that has every locked taxon fits the page count: the locked taxa themselves, with
    /// the headings above them, cost more.
    LockedTooDear,
    /// 13: the outline has something that a text has no form for: a group whose price is above 0, a
    /// lock, or a plate of more than 9 digits.
    Unwritable {
        /// The lowest such record, from 1.
        record: u32,
    },
    /// 14: there are fewer marks than records; or a mark is neither 0 nor 1, or is 1 at a group.
    BadMarks {
        /// The lowest record with such a mark, from 1; `None` where there are fewer marks than
        /// records, whatever they are.
        record: Option<u32>,
    },
    /// 15: more than 64 picks are asked for.
    TooManyPicks,
    /// 16: the outline has no record of the number to revise, or its new length is above 1,000,000.
    BadRevision,
    /// 17: the outlines with low and high prices have different numbers of records; or a record
    /// differs in something else than its price, its lock included; or its low price is above its
    /// high one.
    BadRange {
        /// The lowest such record, from 1; `None` where the numbers of records differ.
        record: Option<u32>,
    },
    /// A number that these bindings do not know, from a later version of the library. A later
    /// version of the bindings may have a name for it.
    #[non_exhaustive]
    Other {
        /// The refusal's number: none of those above, and not 0.
        number: u32,
        /// The number of the record at fault, from 1, or 0 where no one record is.
        place: u32,
    },
}

impl Refusal {
    /// The refusal of a number and a place, as the C interface gives them. `None` for number 0,
    /// which is no refusal.
    ///
    /// ```
    /// use plates::Refusal;
    ///
    /// assert_eq!(Refusal::from_parts(6, 3), Some(Refusal::BadLink { record: 3 }));
    /// assert_eq!(Refusal::from_parts(0, 0), None);
    ///
    /// let later = Refusal::from_parts(4_000, 3).expect("every number but 0 is a refusal");
    /// assert!(matches!(later, Refusal::Other { number: 4_000, .. }));
    /// assert_eq!(later.place(), Some(3));
    /// ```
    #[must_use]
    pub fn from_parts(number: u32, place: u32) -> Option<Refusal> {
        Some(match number {
            0 => return None,
            1 => Refusal::UnknownWay,
            2 => Refusal::PartialRecord,
            3 => Refusal::TooManyRecords,
            4 => Refusal::CountTooLarge,
            5 => Refusal::FieldOutOfRange { record: place },
            6 => Refusal::BadLink { record: place },
            7 => Refusal::TooManyTaxa,
            8 => Refusal::DuplicatePlate { record: place },
            9 => Refusal::BufferTooShort,
            10 => Refusal::BadText,
            11 => Refusal::BadPairs,
            12 => Refusal::LockedTooDear,
            13 => Refusal::Unwritable { record: place },
            14 => Refusal::BadMarks {
                record: (place != 0).then_some(place),
            },
            15 => Refusal::TooManyPicks,
            16 => Refusal::BadRevision,
            17 => Refusal::BadRange {
                record: (place != 0).then_some(place),
            },
            _ => Refusal::Other { number, place },
        })
    }

    // What a call has answered, as a result.
    pub(crate) fn judge(number: u32, place: u32) -> Result<(), Refusal> {
        match Refusal::from_parts(number, place) {
            None => Ok(()),
            Some(refusal) => Err(refusal),
        }
    }

    /// The refusal's number, 1 or more.
    #[must_use]
    pub fn number(self) -> u32 {
        match self {
            Refusal::UnknownWay => 1,
            Refusal::PartialRecord => 2,
            Refusal::TooManyRecords => 3,
            Refusal::CountTooLarge => 4,
            Refusal::FieldOutOfRange { .. } => 5,
            Refusal::BadLink { .. } => 6,
            Refusal::TooManyTaxa => 7,
            Refusal::DuplicatePlate { .. } => 8,
            Refusal::BufferTooShort => 9,
            Refusal::BadText => 10,
            Refusal::BadPairs => 11,
            Refusal::LockedTooDear => 12,
            Refusal::Unwritable { .. } => 13,
            Refusal::BadMarks { .. } => 14,
            Refusal::TooManyPicks => 15,
            Refusal::BadRevision => 16,
            Refusal::BadRange { .. } => 17,
            Refusal::Other { number, .. } => number,
        }
    }

    /// The number of the record at fault, where one record is.
    #[must_use]
    pub fn place(self) -> Option<u32> {
        match self {
            Refusal::FieldOutOfRange { record }
            | Refusal::BadLink { record }
            | Refusal::DuplicatePlate { record }
            | Refusal::Unwritable { record } => Some(record),
            Refusal::BadMarks { record } | Refusal::BadRange { record } => record,
            Refusal::Other { place, .. } if place != 0 => Some(place),
            _ => None,
        }
    }
}

impl fmt::Display for Refusal {
    fn fmt(&self, f: &mut fmt::Formatter<'_>) -> fmt::Result {
        if let Some(record) = self.place() {
            write!(f, "record {record}: ")?;
        }
        let reason = match self {
            Refusal::UnknownWay => "the way is neither rooted (0) nor unrooted (1)",
            Refusal::PartialRecord => {
                "the outline is empty or not made of whole records of 16 bytes"
            }
            Refusal::TooManyRecords => "the outline has more than 127 records",
            Refusal::CountTooLarge => "the page count is above 4096 quarters",
            Refusal::FieldOutOfRange { .. } => "its length, price or plate is out of range",
            Refusal::BadLink { .. } => {
                "one of its links leads to no later record, or it is the root and has a next, \
                 or it is another record and no link or more than one names it"
            }
            Refusal::TooManyTaxa => "the outline has more than 64 taxa",
            Refusal::DuplicatePlate { .. } => "an earlier taxon has the same plate",
            Refusal::BufferTooShort => {
                "marks, curve, work, outline, text, pairs, sheet, view or house form is too short"
            }
            Refusal::BadText => "the text is no tree in Newick form, or has more than 16384 bytes",
            Refusal::BadPairs => {
                "a taxon has no price or more than one, or a price is for a plate that no taxon has"
            }
            Refusal::LockedTooDear => {
                "the locked taxa, with the headings above them, cost more than the page count"
            }
            Refusal::Unwritable { .. } => {
                "it has a heading's price, a lock or a plate of more than 9 digits, for which a \
                 text has no form"
            }
            Refusal::BadMarks { record: Some(_) } => {
                "its mark is neither 0 nor 1, or is 1 at a group"
            }
            Refusal::BadMarks { record: None } => "there are fewer marks than records",
            Refusal::TooManyPicks => "more than 64 picks are asked for",
            Refusal::BadRevision => {
                "there is no record of the number to revise, or its new length is above 1000000"
            }
            Refusal::BadRange { record: Some(_) } => {
                "it differs in something else than its price, or its low price is above its high one"
            }
            Refusal::BadRange { record: None } => {
                "the outlines with low and high prices have different numbers of records"
            }
            Refusal::Other { number, .. } => {
                return write!(f, "refusal {number}, which these bindings do not know");
            }
        };
        f.write_str(reason)
    }
}

impl Error for Refusal {}

#[cfg(test)]
mod tests {
    use super::Refusal;

    fn judged(number: u32, place: u32) -> Refusal {
        Refusal::judge(number, place).expect_err("every number but 0 is a refusal")
    }

    #[test]
    fn every_number_but_0_is_a_refusal() {
        assert_eq!(Refusal::judge(0, 0), Ok(()));
        for number in (1..=100).chain([u32::MAX]) {
            assert_eq!(judged(number, 3).number(), number);
        }
    }

    // The library gives none of these numbers, so only the conversion can be tried.
    #[test]
    fn numbers_without_a_name_are_kept() {
        for (number, place) in [(4_000, 0), (4_000, 3), (u32::MAX, u32::MAX)] {
            assert_eq!(judged(number, place), Refusal::Other { number, place });
        }
    }
}
