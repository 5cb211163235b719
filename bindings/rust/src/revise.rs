//! Revising a length: what a choice becomes by it, and how far the best moves.

use crate::choice::{read, Choice, Way, Work};
use crate::outline::Outline;
use crate::refusal::Refusal;
use crate::sys;

/// The best set of taxa for a page count once one length is revised, and how far the best diversity
/// moves by that.
///
/// The best diversity moves by no more than the length, and never the other way:
/// [`best_moved`](Revision::best_moved) is never larger in size than
/// [`length_moved`](Revision::length_moved), and never of the other sign. It may be 0 though the
/// length is another.
///
/// What is chosen before tells more. A set spans a branch if its diversity counts the branch's
/// length: rooted if one of its taxa is at or below the record, unrooted if one is there and another
/// one is elsewhere. Where the set that [`Outline::choose`] gives of the outline as it is, for the
/// same count and way, spans the revised branch and the length rises, the best rises by exactly the
/// difference; where it does not and the length falls, the best stays. In both cases the set stays
/// chosen, with the same cost and spare. If the length stays as it is, all of this holds too. Where
/// the set spans the branch and the length falls, or does not and it rises, another set may take its
/// place.
///
/// ```
/// use plates::{Outline, Refusal, Way};
///
/// let prices = [(11, 3), (12, 1), (13, 2)];
/// let outline = Outline::from_newick("((11:4,12:2):3,13:5);", prices)?;
/// let chosen = outline.choose(5, Way::Rooted)?; // plates 11 and 13, at records 3 and 5
/// let revise = |record, length| outline.revise(record, length, 5, Way::Rooted);
///
/// // plate 11 is in the book and its branch grows; plate 12 is not and its branch shrinks
/// let (longer, shorter) = (revise(3, 9)?, revise(4, 0)?);
/// assert_eq!((longer.best_moved(), longer.length_moved()), (5, 5));
/// assert_eq!((shorter.best_moved(), shorter.length_moved()), (0, -2));
/// assert_eq!(longer.choice().marks(), chosen.marks());
/// assert_eq!(shorter.choice().marks(), chosen.marks());
///
/// // the other way round plate 12 takes the place of plate 11
/// let (shorter, longer) = (revise(3, 0)?, revise(4, 9)?);
/// assert_eq!((shorter.best_moved(), shorter.length_moved()), (-2, -4));
/// assert_eq!((longer.best_moved(), longer.length_moved()), (5, 7));
/// assert_eq!(shorter.choice().marks(), [0, 0, 0, 1, 1]);
/// assert_eq!(longer.choice().marks(), [0, 0, 0, 1, 1]);
/// # Ok::<(), Refusal>(())
/// ```
#[derive(Clone, Debug, PartialEq, Eq, Hash)]
pub struct Revision {
    choice: Choice,
    best_moved: i64,
    length_moved: i64,
}

impl Revision {
    /// The choice on the revised outline: as [`Outline::choose`] gives it for
    /// [`Outline::with_length`].
    #[must_use]
    pub fn choice(&self) -> &Choice {
        &self.choice
    }

    /// The best diversity of the revised outline less that of the outline as it is.
    #[must_use]
    pub fn best_moved(&self) -> i64 {
        self.best_moved
    }

    /// The new length less the old one.
    #[must_use]
    pub fn length_moved(&self) -> i64 {
        self.length_moved
    }
}

impl Outline {
    /// Chooses the best taxa for a page count as if the branch above a record had another length,
    /// and tells how far the best diversity moves by that. The record is given by its number, from
    /// 1, and may be a taxon, a group or the root. The outline stays as it is, so that each of
    /// several changes can be asked about by itself.
    ///
    /// # Errors
    ///
    /// The first of these that holds, and nothing else: [`Refusal::CountTooLarge`] if the count is
    /// above [`MOST_COUNT`](crate::MOST_COUNT); [`Refusal::BadRevision`] if the outline has no record
    /// of that number, or the length is above 1,000,000; [`Refusal::LockedTooDear`] if the locked
    /// taxa, with the groups above them, cost more than the count.
    ///
    /// ```
    /// use plates::{Outline, Refusal, Way};
    ///
    /// let prices = [(11, 3), (12, 1), (13, 2)];
    /// let outline = Outline::from_newick("((11:4,12:2):3,13:5);", prices)?;
    /// assert_eq!(outline.choose(5, Way::Rooted)?.diversity(), 12);
    ///
    /// // with length 1 in place of 4 at record 3, plates 11 and 13 have 9, and plates 12 and 13 10
    /// let revision = outline.revise(3, 1, 5, Way::Rooted)?;
    /// let choice = revision.choice();
    /// let plates: Vec<u32> = choice.taxa().iter().map(|taxon| taxon.plate).collect();
    /// assert_eq!((plates, choice.diversity()), (vec![12, 13], 10));
    /// assert_eq!((revision.best_moved(), revision.length_moved()), (-2, -3));
    ///
    /// assert_eq!(outline.revise(6, 1, 5, Way::Rooted), Err(Refusal::BadRevision));
    /// # Ok::<(), Refusal>(())
    /// ```
    pub fn revise(
        &self,
        record: u32,
        length: u32,
        count: u32,
        way: Way,
    ) -> Result<Revision, Refusal> {
        self.revise_in(record, length, count, way, &mut Work::new())
    }

    /// Does as [`revise`](Outline::revise), with memory that the caller keeps: for those who have
    /// many lengths to try.
    ///
    /// # Errors
    ///
    /// As [`revise`](Outline::revise).
    ///
    /// ```
    /// use plates::{Outline, Way, Work};
    ///
    /// let prices = [(11, 3), (12, 1), (13, 2)];
    /// let outline = Outline::from_newick("((11:4,12:2):3,13:5);", prices)?;
    /// let mut work = Work::new();
    /// let mut moved = vec![];
    /// for record in outline.records() {
    ///     let longer = record.length + 3;
    ///     let revision = outline.revise_in(record.number, longer, 5, Way::Rooted, &mut work)?;
    ///     moved.push(revision.best_moved());
    /// }
    /// assert_eq!(moved, [3, 3, 3, 1, 3]);
    /// # Ok::<(), plates::Refusal>(())
    /// ```
    pub fn revise_in(
        &self,
        record: u32,
        length: u32,
        count: u32,
        way: Way,
        work: &mut Work,
    ) -> Result<Revision, Refusal> {
        work.grow(self.records().len(), count);
        let (answer, [best_moved, length_moved]) = call(self, record, length, count, way, work);
        Refusal::judge(answer[0], answer[1])?;
        // a chosen taxon has its new length
        let revised = self.with_length(record, length);
        let revised = revised.expect("the library has accepted the revision");
        Ok(Revision {
            choice: read(&revised, count, work, answer),
            best_moved,
            length_moved,
        })
    }
}

// Calls the library: the answer's six numbers, and both that have moved.
fn call(
    outline: &Outline,
    record: u32,
    length: u32,
    count: u32,
    way: Way,
    work: &mut Work,
) -> ([u32; 6], [i64; 2]) {
    let bytes = outline.as_bytes();
    let (mut answer, mut moved) = ([0; 6], [0; 2]);
    // SAFETY: each pointer and the length after it are those of one slice or vector, answer has six
    // numbers and moved has two, and no two overlap: all but the outline are borrowed as mutable.
    unsafe {
        sys::plates_revise(
            bytes.as_ptr(),
            bytes.len(),
            record,
            length,
            count,
            way as u32,
            work.marks.as_mut_ptr(),
            work.marks.len(),
            work.curve.as_mut_ptr(),
            work.curve.len(),
            work.cells.as_mut_ptr(),
            work.cells.len(),
            answer.as_mut_ptr(),
            moved.as_mut_ptr(),
        )
    };
    (answer, moved)
}
