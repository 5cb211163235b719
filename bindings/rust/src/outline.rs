//! Outlines: checked trees in the library's layout, and their records.

use crate::refusal::Refusal;
use crate::sys;
use std::fmt;

/// How many bytes a record has.
pub const RECORD_BYTES: usize = 16;
/// How many records an outline has at most.
pub const MOST_RECORDS: usize = 127;
/// How many taxa an outline has at most.
pub const MOST_TAXA: usize = 64;
/// The largest plate. A plate field has room for no larger one beside the lock.
pub const MOST_PLATE: u32 = 2_147_483_647;

// Bit 31 of a taxon's plate field; the bits below it are the plate.
pub(crate) const LOCK: u32 = MOST_PLATE + 1;

/// A record of an outline: a taxon, or a group.
#[derive(Clone, Copy, Debug, PartialEq, Eq, Hash)]
pub struct Record {
    /// The record's own number, from 1.
    pub number: u32,
    /// The number of the next member under the same group; 0 for the last one.
    pub next: u32,
    /// The number of the first member; 0 for a taxon.
    pub first: u32,
    /// The length of the branch above.
    pub length: u32,
    /// The price in quarter pages: of a taxon's plate, or of a group's heading.
    pub price: u32,
    /// A taxon's plate, 1 to [`MOST_PLATE`], locked or not; 0 for a group.
    pub plate: u32,
    /// Whether it is a locked taxon, which every choice has.
    pub locked: bool,
}

impl Record {
    /// Whether the record is a taxon, and not a group.
    #[must_use]
    pub fn is_taxon(&self) -> bool {
        self.first == 0
    }

    fn from_bytes(number: u32, bytes: &[u8]) -> Record {
        let field = |from: usize, to: usize| {
            bytes[from..to]
                .iter()
                .rev()
                .fold(0, |value, byte| value << 8 | u32::from(*byte))
        };
        let plate_field = field(12, 16);
        Record {
            number,
            next: field(0, 2),
            first: field(2, 4),
            length: field(4, 8),
            price: field(8, 12),
            plate: plate_field & MOST_PLATE,
            locked: plate_field & LOCK != 0,
        }
    }
}

/// A tree in the library's layout, which the library has checked.
///
/// It is read from text, by [`from_newick`](Outline::from_newick), made by a
/// [`Tree`](crate::Tree), or made from the bytes of an outline. The layout, for those who have such
/// bytes: records of 16 bytes, numbered from 1, record 1 the root; each field is unsigned and has
/// its least significant byte first.
///
/// | bytes | field | |
/// |---|---|---|
/// | 0 to 1 | next | record of the next member under the same group, 0 for the last one |
/// | 2 to 3 | first | record of the group's first member; 0 makes the record a taxon |
/// | 4 to 7 | length | of the branch above, 0 to 1,000,000 |
/// | 8 to 11 | price | of a taxon's plate or of a group's heading, 0 to 65,535 |
/// | 12 to 15 | plate | a taxon 1 to 2,147,483,647, no two alike; bit 31 is its lock; a group 0 |
///
/// Bit 31 of a taxon's plate field is 1 if the taxon is locked, and the lower 31 bits are its
/// plate. Before there were locks, a field above 2,147,483,647 was a plate of that number.
///
/// There are 1 to 127 records and at most 64 taxa. A link (next or first) that isn't 0 names a
/// later record. The next of record 1 is 0, and each other record is named by exactly one link.
///
/// Outlines are equal if their bytes are, so if their records are the same as they are numbered.
/// [`is_same_tree`](Outline::is_same_tree) tells whether they are the same tree, in whatever order
/// members and records stand.
///
/// ```
/// use plates::{Outline, Refusal};
///
/// let taxon = [0, 0, 0, 0, 5, 0, 0, 0, 1, 0, 0, 0, 7, 0, 0, 0];
/// let outline = Outline::from_bytes(&taxon)?;
/// assert_eq!(outline.records().len(), 1);
/// assert_eq!(Outline::from_bytes(&taxon[..15]), Err(Refusal::PartialRecord));
/// # Ok::<(), Refusal>(())
/// ```
#[derive(Clone, PartialEq, Eq, Hash)]
pub struct Outline {
    bytes: Vec<u8>,
}

impl Outline {
    /// Checks the bytes of an outline, and takes a copy of them. [`TryFrom`] does the same.
    ///
    /// # Errors
    ///
    /// Refusals 2, 3 and 5 to 8.
    pub fn from_bytes(bytes: &[u8]) -> Result<Outline, Refusal> {
        let mut place = 0;
        // SAFETY: pointer and length are those of one slice, and place is a variable of its own.
        let number = unsafe { sys::plates_check(bytes.as_ptr(), bytes.len(), &mut place) };
        Refusal::judge(number, place)?;
        Ok(Outline::checked(bytes))
    }

    // The outline of bytes that the library has accepted.
    pub(crate) fn checked(bytes: &[u8]) -> Outline {
        Outline {
            bytes: bytes.to_vec(),
        }
    }

    /// The outline's bytes.
    #[must_use]
    pub fn as_bytes(&self) -> &[u8] {
        &self.bytes
    }

    /// The records in order, groups and taxa.
    #[must_use]
    pub fn records(&self) -> impl DoubleEndedIterator<Item = Record> + ExactSizeIterator + '_ {
        let parts = self.bytes.chunks_exact(RECORD_BYTES).enumerate();
        parts.map(|(index, bytes)| Record::from_bytes(index as u32 + 1, bytes))
    }

    /// The record of a number, from 1.
    #[must_use]
    pub fn record(&self, number: u32) -> Option<Record> {
        let index = usize::try_from(number).ok()?.checked_sub(1)?;
        self.records().nth(index)
    }

    /// The taxa in record order.
    pub fn taxa(&self) -> impl DoubleEndedIterator<Item = Record> + '_ {
        self.records().filter(Record::is_taxon)
    }

    // The taxa that the library has marked, in record order.
    pub(crate) fn marked(&self, marks: &[u8]) -> Vec<Record> {
        let marked = self.records().zip(marks).filter(|(_, mark)| **mark == 1);
        marked.map(|(record, _)| record).collect()
    }

    /// The outline with these plates locked beside those that are: for one that was read from text,
    /// which has no locks. `None` if no taxon has one of the plates.
    ///
    /// ```
    /// use plates::{Outline, Way};
    ///
    /// let prices = [(11, 3), (12, 1), (13, 2)];
    /// let outline = Outline::from_newick("((11:4,12:2):3,13:5);", prices)?;
    /// let cover = outline.with_locked([11]).expect("plate 11 is there");
    /// let choice = cover.choose(4, Way::Rooted)?;
    /// let plates: Vec<u32> = choice.taxa().iter().map(|taxon| taxon.plate).collect();
    /// assert_eq!(plates, [11, 12]);
    /// assert_eq!(outline.with_locked([11, 14]), None);
    /// # Ok::<(), plates::Refusal>(())
    /// ```
    #[must_use]
    pub fn with_locked(&self, plates: impl IntoIterator<Item = u32>) -> Option<Outline> {
        let mut locked = self.clone();
        for plate in plates {
            let number = self.find(plate)?.number as usize;
            // bit 31 of the field, in the record's last byte
            locked.bytes[RECORD_BYTES * number - 1] |= 0x80;
        }
        Some(locked)
    }

    /// The outline with another length of the branch above a record, which is given by its number,
    /// from 1: what [`revise`](Outline::revise) chooses on. All else is as it was.
    ///
    /// # Errors
    ///
    /// [`Refusal::BadRevision`] if the outline has no record of that number, or the length is above
    /// 1,000,000; nothing else.
    ///
    /// ```
    /// use plates::{Outline, Refusal};
    ///
    /// let prices = [(11, 3), (12, 1), (13, 2)];
    /// let outline = Outline::from_newick("((11:4,12:2):3,13:5);", prices)?;
    /// let revised = outline.with_length(2, 8)?;
    /// assert_eq!(revised.to_newick()?.text, "((11:4,12:2):8,13:5):0;");
    /// assert_eq!(outline.with_length(6, 8), Err(Refusal::BadRevision));
    /// # Ok::<(), Refusal>(())
    /// ```
    pub fn with_length(&self, record: u32, length: u32) -> Result<Outline, Refusal> {
        self.record(record).ok_or(Refusal::BadRevision)?;
        let mut bytes = self.bytes.clone();
        let at = RECORD_BYTES * (record as usize - 1);
        bytes[at + 4..at + 8].copy_from_slice(&length.to_le_bytes());
        // all else is sound, so it is the length that may be refused
        Outline::from_bytes(&bytes).map_err(|_| Refusal::BadRevision)
    }

    /// The taxon that has a plate, locked or not. `None` if no taxon has it, so for every number
    /// above [`MOST_PLATE`].
    ///
    /// ```
    /// use plates::Tree;
    ///
    /// let outline = Tree::group(0, [Tree::taxon(11, 4, 3), Tree::taxon(12, 2, 1)]).outline()?;
    /// assert_eq!(outline.find(12).map(|taxon| taxon.number), Some(3));
    /// assert_eq!(outline.find(13), None);
    /// # Ok::<(), plates::TreeError>(())
    /// ```
    #[must_use]
    pub fn find(&self, plate: u32) -> Option<Record> {
        // SAFETY: pointer and length are those of one slice.
        let number = unsafe { sys::plates_find(self.bytes.as_ptr(), self.bytes.len(), plate) };
        self.record(number)
    }
}

/// Shows the records, not the bytes.
impl fmt::Debug for Outline {
    fn fmt(&self, f: &mut fmt::Formatter<'_>) -> fmt::Result {
        f.debug_list().entries(self.records()).finish()
    }
}

/// Checks the bytes of an outline, as [`Outline::from_bytes`] does.
///
/// ```
/// use plates::{Outline, Refusal};
///
/// let taxon: &[u8] = &[0, 0, 0, 0, 5, 0, 0, 0, 1, 0, 0, 0, 7, 0, 0, 0];
/// let outline: Outline = taxon.try_into()?;
/// assert_eq!(outline.as_bytes(), taxon);
/// assert_eq!(Outline::try_from(&taxon[1..]), Err(Refusal::PartialRecord));
/// # Ok::<(), Refusal>(())
/// ```
impl TryFrom<&[u8]> for Outline {
    type Error = Refusal;

    fn try_from(bytes: &[u8]) -> Result<Outline, Refusal> {
        Outline::from_bytes(bytes)
    }
}

impl AsRef<[u8]> for Outline {
    fn as_ref(&self) -> &[u8] {
        self.as_bytes()
    }
}
