//! The records of an outline, their 16 bytes, and the tree their links spell.

/// Way 0: the root counts as reached by every nonempty set.
pub const ROOTED: u32 = 0;
/// Way 1: a branch counts only between chosen taxa.
pub const UNROOTED: u32 = 1;

pub const RECORD_BYTES: usize = 16;

/// Bit 31 of a taxon's plate field, which locks it (document 02, §4).
pub const LOCK: u32 = 1 << 31;
/// The lower 31 bits, and the greatest plate number.
pub const MOST_PLATE: u32 = 2_147_483_647;

#[derive(Clone, Copy, Debug, Default, PartialEq, Eq)]
pub struct Record {
    pub next: u16,
    pub first: u16,
    pub length: u32,
    pub price: u32,
    /// The whole field: a taxon's plate number and its lock.
    pub plate: u32,
}

impl Record {
    pub fn is_taxon(&self) -> bool {
        self.first == 0
    }

    pub fn is_locked(&self) -> bool {
        self.is_taxon() && self.plate & LOCK != 0
    }

    pub fn plate_number(&self) -> u32 {
        self.plate & MOST_PLATE
    }
}

/// The outline's bytes, low byte first in each field.
pub fn bytes(records: &[Record]) -> Vec<u8> {
    let mut bytes = Vec::with_capacity(records.len() * RECORD_BYTES);
    for record in records {
        bytes.extend(record.next.to_le_bytes());
        bytes.extend(record.first.to_le_bytes());
        bytes.extend(record.length.to_le_bytes());
        bytes.extend(record.price.to_le_bytes());
        bytes.extend(record.plate.to_le_bytes());
    }
    bytes
}

/// The whole records in these bytes; bytes after the last whole record are left out.
pub fn records(bytes: &[u8]) -> Vec<Record> {
    bytes.as_chunks().0.iter().map(record).collect()
}

fn record(bytes: &[u8; RECORD_BYTES]) -> Record {
    let narrow = |at: usize| u16::from_le_bytes([bytes[at], bytes[at + 1]]);
    let wide = |at: usize| u32::from(narrow(at)) | u32::from(narrow(at + 2)) << 16;
    Record {
        next: narrow(0),
        first: narrow(2),
        length: wide(4),
        price: wide(8),
        plate: wide(12),
    }
}

/// Positions, from 0, of the taxa in record order.
pub fn taxa(records: &[Record]) -> Vec<usize> {
    (0..records.len())
        .filter(|&position| records[position].is_taxon())
        .collect()
}

/// Positions, from 0, of the groups in record order.
pub fn groups(records: &[Record]) -> Vec<usize> {
    (0..records.len())
        .filter(|&position| !records[position].is_taxon())
        .collect()
}

/// Positions of the members of the record at `position`, in the order of their chain.
pub fn members(records: &[Record], position: usize) -> Vec<usize> {
    let mut members = Vec::new();
    let mut link = records[position].first;
    while link != 0 {
        let member = usize::from(link) - 1;
        members.push(member);
        link = records[member].next;
    }
    members
}

/// For each record the position of the group that it is a member of. The links are sound.
pub fn parents(records: &[Record]) -> Vec<Option<usize>> {
    let mut parents = vec![None; records.len()];
    for group in 0..records.len() {
        for member in members(records, group) {
            parents[member] = Some(group);
        }
    }
    parents
}

/// Whether each record is followed at once by everything below it.
pub fn is_preorder(records: &[Record]) -> bool {
    let mut waiting = vec![0];
    for position in 0..records.len() {
        if waiting.pop() != Some(position) {
            return false;
        }
        waiting.extend(members(records, position).into_iter().rev());
    }
    true
}

#[cfg(test)]
mod tests {
    use super::*;

    #[test]
    fn fields_stand_low_byte_first() {
        let record = Record {
            next: 0x0201,
            first: 0x0403,
            length: 0x0807_0605,
            price: 0x0c0b_0a09,
            plate: 0x100f_0e0d,
        };
        let expected: Vec<u8> = (1..=16).collect();
        assert_eq!(bytes(&[record]), expected);
        assert_eq!(records(&expected), [record]);
        assert_eq!(records(&expected[..15]), []);
    }

    #[test]
    fn bit_31_is_no_part_of_the_plate_number_and_locks_taxa_only() {
        let record = |first, plate| Record {
            first,
            plate,
            ..Record::default()
        };
        for (field, number, locked) in [
            (1, 1, false),
            (2_147_483_647, 2_147_483_647, false),
            (2_147_483_648, 0, true),
            (2_147_483_649, 1, true),
            (4_294_967_295, 2_147_483_647, true),
        ] {
            assert_eq!(record(0, field).plate_number(), number);
            assert_eq!(record(0, field).is_locked(), locked);
            assert!(!record(2, field).is_locked());
        }
    }

    #[test]
    fn preorder_is_told_from_interleaved() {
        let link = |next, first| Record {
            next,
            first,
            ..Record::default()
        };
        let preorder = [link(0, 2), link(4, 3), link(0, 0), link(0, 0)];
        let interleaved = [link(0, 2), link(3, 4), link(0, 0), link(0, 0)];
        assert!(is_preorder(&preorder));
        assert!(!is_preorder(&interleaved));
        assert_eq!(members(&interleaved, 0), [1, 2]);
        assert_eq!(members(&interleaved, 1), [3]);
        assert_eq!(groups(&interleaved), [0, 1]);
        assert_eq!(taxa(&interleaved), [2, 3]);
        assert_eq!(parents(&interleaved), [None, Some(0), Some(0), Some(1)]);
    }
}
