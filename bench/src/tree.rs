//! A tree read from an outline's records: the taxa below each record, and the diversity and cost of a set of taxa.

use plates_scale::headings;
use plates_scale::outline::{self, Record};

/// Taxa are numbered from 0 in the order of a depth-first walk, so that each clade is a run of neighbours.
/// A set of taxa has bit k for taxon k.
pub struct Tree {
    pub records: Vec<Record>,
    /// The position of each taxon's record, from 0.
    pub taxa: Vec<usize>,
    /// The taxa at or below each record.
    pub below: Vec<u64>,
}

impl Tree {
    pub fn new(records: &[Record]) -> Self {
        let mut tree = Tree {
            records: records.to_vec(),
            taxa: Vec::new(),
            below: vec![0; records.len()],
        };
        tree.walk(0);
        tree
    }

    fn walk(&mut self, position: usize) -> u64 {
        let mut below = 0;
        if self.records[position].is_taxon() {
            below = 1 << self.taxa.len();
            self.taxa.push(position);
        }
        for member in outline::members(&self.records, position) {
            below |= self.walk(member);
        }
        self.below[position] = below;
        below
    }

    /// Every taxon.
    pub fn all(&self) -> u64 {
        self.below[0]
    }

    pub fn price(&self, taxon: usize) -> u32 {
        self.records[self.taxa[taxon]].price
    }

    pub fn diversity(&self, set: u64, way: u32) -> u64 {
        let counts = |below: u64| below & set != 0 && (way == 0 || set & !below != 0);
        let branches = self.records.iter().zip(&self.below);
        let counted = branches.filter(|(_, &below)| counts(below));
        counted.map(|(record, _)| u64::from(record.length)).sum()
    }

    /// The prices of the chosen taxa and of the groups above them.
    pub fn cost(&self, set: u64) -> u64 {
        let records = self.records.iter().zip(&self.below);
        let paid = records.filter(|(_, &below)| below & set != 0);
        paid.map(|(record, _)| u64::from(record.price)).sum()
    }

    /// Whether a group has a price.
    pub fn has_headings(&self) -> bool {
        headings::has_any(&self.records)
    }

    /// The set of the taxa whose records are marked.
    pub fn marked(&self, marks: &[u8]) -> u64 {
        let taxa = self.taxa.iter().enumerate();
        let chosen = taxa.filter(|(_, &position)| marks[position] == 1);
        chosen.fold(0, |set, (taxon, _)| set | 1 << taxon)
    }

    /// The set that the plain table writes with bit 63 - k for the k-th taxon in record order.
    pub fn in_walk_order(&self, set: u64) -> u64 {
        let mut marks = vec![0; self.records.len()];
        for (k, position) in outline::taxa(&self.records).into_iter().enumerate() {
            marks[position] = (set >> (63 - k) & 1) as u8;
        }
        self.marked(&marks)
    }
}

/// The taxa of a set, in order.
pub fn members(set: u64) -> impl Iterator<Item = usize> {
    (0..64).filter(move |taxon| set >> taxon & 1 == 1)
}
