//! The quick choice: taxa for a page count that is still being turned.

use crate::outline::{Outline, Record, MOST_RECORDS};
use crate::refusal::Refusal;
use crate::sys;

/// How many picks a quick choice makes at most. No outline has more taxa, so these are always
/// enough.
pub const MOST_PICKS: u32 = 64;

/// A set of taxa that fits a page count, chosen quickly, with a ceiling for the best.
///
/// The diversity is rooted. The best one, that of [`Outline::choose`] for the same count by
/// [`Way::Rooted`](crate::Way::Rooted), is at least this set's [`diversity`](QuickChoice::diversity)
/// and at most its [`ceiling`](QuickChoice::ceiling).
#[derive(Clone, Debug, PartialEq, Eq, Hash)]
pub struct QuickChoice {
    diversity: u32,
    cost: u32,
    ceiling: u64,
    taxa: Vec<Record>,
    marks: Vec<u8>,
}

impl QuickChoice {
    /// The diversity of the set, rooted.
    #[must_use]
    pub fn diversity(&self) -> u32 {
        self.diversity
    }

    /// What the set costs, in quarter pages, headings included: at most the page count.
    #[must_use]
    pub fn cost(&self) -> u32 {
        self.cost
    }

    /// A number that the best diversity is never above: the diversity of the set, and on top of it,
    /// for each taxon that is not in the set and whose own price is at most the page count, what this
    /// taxon would add to the set by itself. Headings are not looked at here.
    #[must_use]
    pub fn ceiling(&self) -> u64 {
        self.ceiling
    }

    /// How much diversity the set can be short of the best at most: the ceiling less the diversity.
    /// Where it is 0, no set that fits shows more.
    #[must_use]
    pub fn short_by_at_most(&self) -> u64 {
        self.ceiling - u64::from(self.diversity)
    }

    /// The taxa of the set, in record order. The locked ones are among them.
    #[must_use]
    pub fn taxa(&self) -> &[Record] {
        &self.taxa
    }

    /// For each record, in order, 1 if it is a taxon of the set, else 0: as [`Outline::sheet`]
    /// takes them.
    #[must_use]
    pub fn marks(&self) -> &[u8] {
        &self.marks
    }
}

impl Outline {
    /// Makes a quick choice of taxa, rooted: for a page count that is still being turned. The records
    /// and the picks bound its time, whatever the count. The set need not be the best one; once the
    /// count rests, [`choose`](Outline::choose) gives that.
    ///
    /// The quick choice starts from the locked taxa and makes at most `picks` picks, 0 to
    /// [`MOST_PICKS`]. Each adds a taxon to the set. A taxon that is not in the set can be picked if
    /// it adds more than 0 to the diversity, and the set still fits the count with it and the
    /// headings that it opens. Of these taxa the pick takes the one that adds the most diversity; at
    /// equal diversity the one that adds the fewest quarters, those of the headings that it opens
    /// included; at equal quarters too, the one with the lowest record.
    ///
    /// More picks never lower the diversity. Beside the locked taxa the set has at most `picks` taxa,
    /// and fewer only where no taxon can be picked any more.
    ///
    /// # Errors
    ///
    /// The first of these that holds, and nothing else: [`Refusal::CountTooLarge`] if the count is
    /// above [`MOST_COUNT`](crate::MOST_COUNT); [`Refusal::TooManyPicks`] if `picks` is above
    /// [`MOST_PICKS`]; [`Refusal::LockedTooDear`] if the locked taxa, with the groups above them,
    /// cost more than the count.
    ///
    /// ```
    /// use plates::{Outline, Refusal, Way, MOST_PICKS};
    ///
    /// let prices = [(11, 3), (12, 1), (13, 2)];
    /// let outline = Outline::from_newick("((11:4,12:2):3,13:5);", prices)?;
    ///
    /// // plate 11 adds 7 and then plate 13 adds 5; plate 12, for 1 quarter more, would add 2
    /// let quick = outline.quick_choice(5, MOST_PICKS)?;
    /// let plates: Vec<u32> = quick.taxa().iter().map(|taxon| taxon.plate).collect();
    /// assert_eq!(plates, [11, 13]);
    /// assert_eq!((quick.diversity(), quick.cost(), quick.ceiling()), (12, 5, 14));
    ///
    /// // so the best is 12, 13 or 14
    /// assert_eq!(quick.short_by_at_most(), 2);
    /// assert_eq!(outline.choose(5, Way::Rooted)?.diversity(), 12);
    ///
    /// // at 3 quarters it is not the best: plates 12 and 13 show more than plate 11
    /// let quick = outline.quick_choice(3, MOST_PICKS)?;
    /// assert_eq!((quick.diversity(), quick.ceiling()), (7, 14));
    /// assert_eq!(outline.choose(3, Way::Rooted)?.diversity(), 10);
    ///
    /// assert_eq!(outline.quick_choice(3, 65), Err(Refusal::TooManyPicks));
    /// # Ok::<(), Refusal>(())
    /// ```
    pub fn quick_choice(&self, count: u32, picks: u32) -> Result<QuickChoice, Refusal> {
        let outline = self.as_bytes();
        let mut marks = [0; sys::marks_len(MOST_RECORDS)];
        let mut answer = [0; 5];
        let mut ceiling = 0;
        // SAFETY: each pointer and the length after it are those of one slice or array, answer has
        // five numbers, and marks, answer and ceiling are variables of their own.
        unsafe {
            sys::plates_quick(
                outline.as_ptr(),
                outline.len(),
                count,
                picks,
                marks.as_mut_ptr(),
                marks.len(),
                answer.as_mut_ptr(),
                &mut ceiling,
            )
        };
        let [number, place, diversity, cost, _] = answer;
        Refusal::judge(number, place)?;
        let marks = marks[..self.records().len()].to_vec();
        Ok(QuickChoice {
            diversity,
            cost,
            ceiling,
            taxa: self.marked(&marks),
            marks,
        })
    }
}
