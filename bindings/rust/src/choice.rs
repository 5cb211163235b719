//! Choosing: the best set of taxa for a page count.

use crate::outline::{Outline, Record};
use crate::refusal::Refusal;
use crate::sys;
use std::fmt;

/// The largest page count, in quarter pages.
pub const MOST_COUNT: u32 = 4096;

// What the library's curve has for the cost of a count that no set fits.
const NO_SET: u32 = u32::MAX;

/// What the diversity of a set of taxa is. It is 0 for the empty set either way.
#[derive(Clone, Copy, Debug, PartialEq, Eq, Hash)]
pub enum Way {
    /// The sum of the lengths of all records that are, or have below them, a chosen taxon: the part
    /// of the tree that joins the chosen taxa and the root. The root's own length counts.
    Rooted = 0,
    /// The sum of the lengths of all records with a chosen taxon at or below them and a chosen
    /// taxon elsewhere: the part of the tree that joins the chosen taxa to each other. 0 for one
    /// taxon.
    Unrooted = 1,
}

/// The best set that fits one count.
#[derive(Clone, Copy, Debug, PartialEq, Eq, Hash)]
pub struct Column {
    /// The count, in quarter pages.
    pub count: u32,
    /// The most diversity that a set which fits the count has. Only sets with every locked taxon
    /// fit.
    pub diversity: u32,
    /// The least that a set of this diversity costs.
    pub cost: u32,
}

/// The best set of taxa for a page count, and the best diversity for every smaller one.
#[derive(Clone, Debug, PartialEq, Eq, Hash)]
pub struct Choice {
    diversity: u32,
    cost: u32,
    spare: u32,
    taxa: Vec<Record>,
    marks: Vec<u8>,
    curve: Vec<Option<Column>>,
}

impl Choice {
    /// The diversity of the chosen set.
    #[must_use]
    pub fn diversity(&self) -> u32 {
        self.diversity
    }

    /// What the chosen set costs, in quarter pages: the prices of the chosen taxa, and the price of
    /// each group that has one of them below it, once.
    #[must_use]
    pub fn cost(&self) -> u32 {
        self.cost
    }

    /// How many quarters the page count could be lower, with a set that fits, at the same
    /// diversity: the page count minus the cost.
    #[must_use]
    pub fn spare(&self) -> u32 {
        self.spare
    }

    /// The chosen taxa, in record order. The locked ones are among them.
    #[must_use]
    pub fn taxa(&self) -> &[Record] {
        &self.taxa
    }

    /// For each record, in order, 1 if it is a chosen taxon, else 0: as [`Outline::sheet`] takes
    /// them.
    #[must_use]
    pub fn marks(&self) -> &[u8] {
        &self.marks
    }

    /// The best for each count from 0 to the page count: that for count b stands at index b. It is
    /// `None` where no set fits the count, since the locked taxa cost more. For the page count
    /// itself a set always fits, and without locked taxa for every count.
    ///
    /// ```
    /// use plates::{Column, Tree, Way};
    ///
    /// let tree = Tree::group(0, [Tree::locked_taxon(11, 4, 2), Tree::taxon(12, 3, 1)]);
    /// let choice = tree.outline()?.choose(4, Way::Rooted)?;
    /// assert_eq!(choice.curve()[1], None);
    /// assert_eq!(choice.curve()[2], Some(Column { count: 2, diversity: 4, cost: 2 }));
    ///
    /// let columns = choice.curve().iter().flatten();
    /// let costs: Vec<u32> = columns.map(|column| column.cost).collect();
    /// assert_eq!(costs, [2, 3, 3]);
    /// # Ok::<(), Box<dyn std::error::Error>>(())
    /// ```
    #[must_use]
    pub fn curve(&self) -> &[Option<Column>] {
        &self.curve
    }
}

/// Memory for choosing, revising and choosing for a range of prices, to use again from call to call.
///
/// It grows as calls need it, to 17 MB for the largest outline and count, and doesn't shrink. It
/// holds nothing that a later choice depends on.
#[derive(Clone, Default)]
pub struct Work {
    pub(crate) marks: Vec<u8>,
    pub(crate) curve: Vec<u32>,
    pub(crate) cells: Vec<u64>,
}

impl Work {
    /// No memory yet.
    #[must_use]
    pub fn new() -> Work {
        Work::default()
    }

    pub(crate) fn grow(&mut self, records: usize, count: u32) {
        // A larger count is refused whatever the buffers are, so no memory is taken for it.
        if count <= MOST_COUNT {
            grow(&mut self.marks, sys::marks_len(records));
            grow(&mut self.curve, sys::curve_len(count));
            grow(&mut self.cells, sys::work_len(records, count));
        }
    }
}

// What stands in a buffer before a call makes no difference, so nothing is copied.
fn grow<T: Clone + Default>(buffer: &mut Vec<T>, len: usize) {
    if buffer.len() < len {
        *buffer = vec![T::default(); len];
    }
}

/// Shows no contents, which mean nothing between calls.
impl fmt::Debug for Work {
    fn fmt(&self, f: &mut fmt::Formatter<'_>) -> fmt::Result {
        f.debug_struct("Work").finish_non_exhaustive()
    }
}

impl Outline {
    /// Chooses the best taxa for a page count: [`choose`] as a method.
    ///
    /// # Errors
    ///
    /// As [`choose`].
    ///
    /// ```
    /// use plates::{Tree, Way};
    ///
    /// let outline = Tree::group(0, [Tree::taxon(11, 4, 3), Tree::taxon(12, 2, 1)]).outline()?;
    /// let choice = outline.choose(3, Way::Rooted)?;
    /// assert_eq!((choice.diversity(), choice.cost()), (4, 3));
    /// # Ok::<(), Box<dyn std::error::Error>>(())
    /// ```
    pub fn choose(&self, count: u32, way: Way) -> Result<Choice, Refusal> {
        choose(self, count, way)
    }
}

/// Chooses the best taxa of an outline for a page count.
///
/// A set of taxa costs the sum of the prices of all records that are, or have below them, a chosen
/// taxon: so each group with a chosen taxon below it is paid once, the root included, whatever the
/// way.
///
/// A set fits the count if it has every locked taxon and costs no more than the count. The best set
/// is the one with the most diversity among those that fit; at equal diversity the one that costs
/// less; at equal cost too, the one that has the lowest-numbered taxon on which they differ.
///
/// # Errors
///
/// [`Refusal::CountTooLarge`] if the count is above [`MOST_COUNT`]; [`Refusal::LockedTooDear`] if
/// the locked taxa, with the groups above them, cost more than the count; nothing else.
///
/// ```
/// use plates::{choose, Tree, Way};
///
/// let outline = Tree::group(0, [
///     Tree::group(3, [Tree::taxon(11, 4, 3), Tree::taxon(12, 2, 1)]),
///     Tree::taxon(13, 5, 2),
/// ])
/// .outline()?;
///
/// let choice = choose(&outline, 4, Way::Rooted)?;
/// let plates: Vec<u32> = choice.taxa().iter().map(|taxon| taxon.plate).collect();
/// assert_eq!(plates, [12, 13]);
/// assert_eq!((choice.diversity(), choice.cost(), choice.spare()), (10, 3, 1));
///
/// let columns = choice.curve().iter().flatten();
/// let diversities: Vec<u32> = columns.map(|column| column.diversity).collect();
/// assert_eq!(diversities, [0, 5, 5, 10, 10]);
/// # Ok::<(), Box<dyn std::error::Error>>(())
/// ```
pub fn choose(outline: &Outline, count: u32, way: Way) -> Result<Choice, Refusal> {
    choose_in(outline, count, way, &mut Work::new())
}

/// Chooses like [`choose`], with memory that the caller keeps: for those who choose often.
///
/// # Errors
///
/// As [`choose`].
///
/// ```
/// use plates::{choose_in, Tree, Way, Work};
///
/// let outline = Tree::taxon(7, 5, 1).outline()?;
/// let mut work = Work::new();
/// for count in 0..10 {
///     let choice = choose_in(&outline, count, Way::Rooted, &mut work)?;
///     assert_eq!(choice.taxa().len(), count.min(1) as usize);
/// }
/// # Ok::<(), Box<dyn std::error::Error>>(())
/// ```
pub fn choose_in(
    outline: &Outline,
    count: u32,
    way: Way,
    work: &mut Work,
) -> Result<Choice, Refusal> {
    work.grow(outline.records().len(), count);
    let answer = call(outline, count, way, work);
    Refusal::judge(answer[0], answer[1])?;
    Ok(read(outline, count, work, answer))
}

// Calls the library: the answer's six numbers.
fn call(outline: &Outline, count: u32, way: Way, work: &mut Work) -> [u32; 6] {
    let bytes = outline.as_bytes();
    let mut answer = [0; 6];
    // SAFETY: each pointer and the length after it are those of one slice or vector, answer has six
    // numbers, and no two overlap: all but the outline are borrowed as mutable.
    unsafe {
        sys::plates_choose(
            bytes.as_ptr(),
            bytes.len(),
            count,
            way as u32,
            work.marks.as_mut_ptr(),
            work.marks.len(),
            work.curve.as_mut_ptr(),
            work.curve.len(),
            work.cells.as_mut_ptr(),
            work.cells.len(),
            answer.as_mut_ptr(),
        )
    };
    answer
}

// What a call has written that has chosen on this outline. The buffers may be longer than it needs,
// from earlier ones.
pub(crate) fn read(outline: &Outline, count: u32, work: &Work, answer: [u32; 6]) -> Choice {
    let [_, _, diversity, cost, _, spare] = answer;
    let marks = work.marks[..outline.records().len()].to_vec();
    let columns = (0..=count).zip(work.curve.chunks_exact(2));
    let curve = columns.map(|(count, column)| {
        let (diversity, cost) = (column[0], column[1]);
        (cost != NO_SET).then_some(Column {
            count,
            diversity,
            cost,
        })
    });
    Choice {
        diversity,
        cost,
        spare,
        taxa: outline.marked(&marks),
        curve: curve.collect(),
        marks,
    }
}
