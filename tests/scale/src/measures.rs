//! What a set of an outline's taxa comes to: each set is measured from the start, as the exhaustive search does it.

use crate::exhaustive::{self, clades, diversity, headings_cost, taxa_cost};
use crate::outline::{self, Record};

/// Of an accepted outline. Bit k of a set is for the k-th taxon in record order.
pub(crate) struct Measures<'a> {
    records: &'a [Record],
    way: u32,
    taxa: Vec<usize>,
    clades: Vec<u64>,
}

impl<'a> Measures<'a> {
    pub fn new(records: &'a [Record], way: u32) -> Self {
        let taxa = outline::taxa(records);
        Measures {
            records,
            way,
            clades: clades(records, &taxa),
            taxa,
        }
    }

    /// The bit of the taxon at a position.
    pub fn bit(&self, position: usize) -> u64 {
        let k = self.taxa.iter().position(|&taxon| taxon == position);
        k.map_or(0, |k| 1 << k)
    }

    /// Cost and diversity.
    pub fn of(&self, set: u64) -> [u32; 2] {
        let prices = taxa_cost(self.records, &self.taxa, set);
        [
            prices + headings_cost(self.records, &self.clades, set),
            diversity(self.records, &self.clades, self.way, set),
        ]
    }

    /// The locked taxa.
    pub fn locked(&self) -> u64 {
        exhaustive::locked(self.records, &self.taxa)
    }

    /// The taxa that are not in a set, by their positions.
    pub fn outside(&self, set: u64) -> Vec<usize> {
        let mut taxa = self.taxa.clone();
        taxa.retain(|&taxon| set & self.bit(taxon) == 0);
        taxa
    }

    /// One byte per record, 1 at a taxon of the set.
    pub fn marks(&self, set: u64) -> Vec<u8> {
        exhaustive::marks(self.records, &self.taxa, set)
    }
}

#[cfg(test)]
mod tests {
    use super::*;
    use crate::heading_cases::tree_a_with;
    use crate::lock_cases::locking;
    use crate::outline::{ROOTED, UNROOTED};

    #[test]
    fn sets_of_tree_a_are_measured() {
        let records = locking(&[4], tree_a_with(1, 2));
        for (way, diversity) in [(ROOTED, 9), (UNROOTED, 6)] {
            let measures = Measures::new(&records, way);
            let both = measures.bit(2) | measures.bit(3);
            assert_eq!(measures.of(both), [7, diversity]);
            assert_eq!(measures.of(0), [0, 0]);
            assert_eq!(measures.locked(), measures.bit(3));
            assert_eq!(measures.outside(both), [4]);
            assert_eq!(measures.outside(0), [2, 3, 4]);
            assert_eq!(measures.marks(both), [0, 0, 1, 1, 0]);
        }
    }
}
