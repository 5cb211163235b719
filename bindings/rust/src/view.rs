//! What a reader gets of an outline: a house reader all of it, a buyer's reader no prices and no
//! locks.

use crate::outline::{Outline, MOST_RECORDS, RECORD_BYTES};
use crate::refusal::Refusal;
use crate::sys;

impl Outline {
    /// What a buyer's reader gets: the outline with every price 0, those of headings too, and
    /// without locks.
    ///
    /// Outlines that differ in prices and locks alone give the same, so that nothing of these can
    /// be told from it. It is an outline like any other: links, lengths and plates are kept, every
    /// taxon is chosen, at page count 0 too, and [`to_newick`](Outline::to_newick) writes it if no
    /// plate has more than 9 digits.
    ///
    /// ```
    /// use plates::Outline;
    ///
    /// let text = "((11:4,12:2):3,13:5);";
    /// let outline = Outline::from_newick(text, [(11, 3), (12, 1), (13, 2)])?;
    /// let cover = outline.with_locked([12]).expect("plate 12 is there");
    ///
    /// let view = cover.for_buyer();
    /// assert!(view.records().all(|record| record.price == 0 && !record.locked));
    /// assert_eq!(view.find(12).map(|taxon| taxon.length), Some(2));
    ///
    /// // other prices and other locks make no difference
    /// let other = Outline::from_newick(text, [(11, 9), (12, 0), (13, 7)])?;
    /// assert_eq!(other.for_buyer(), view);
    /// # Ok::<(), plates::Refusal>(())
    /// ```
    #[must_use]
    pub fn for_buyer(&self) -> Outline {
        let outline = self.as_bytes();
        let mut view = [0; RECORD_BYTES * MOST_RECORDS];
        view_buyer(outline, &mut view).expect("the outline is checked, and the view has room");
        // Where the library gives a buyer's reader an outline, its check accepts that too.
        Outline::checked(&view[..outline.len()])
    }
}

/// Gives a house reader an outline, from its bytes to memory that the caller lends: the records as
/// they are.
///
/// The first bytes of the view, as many as the outline has, become the outline's. The others stay
/// as they were, and on a refusal all of them do.
///
/// # Errors
///
/// The first that holds of those that [`Outline::from_bytes`] gives, and after them
/// [`Refusal::BufferTooShort`] if the view is shorter than the outline.
///
/// ```
/// use plates::{view_house, Refusal};
///
/// // one taxon: plate 7, locked, length 5, price 1
/// let outline = [0, 0, 0, 0, 5, 0, 0, 0, 1, 0, 0, 0, 7, 0, 0, 128];
/// let mut view = [9; 17];
/// view_house(&outline, &mut view)?;
/// assert_eq!(view[..16], outline);
/// assert_eq!(view[16], 9);
///
/// let mut short = [9; 15];
/// assert_eq!(view_house(&outline, &mut short), Err(Refusal::BufferTooShort));
/// assert_eq!(short, [9; 15]);
/// # Ok::<(), Refusal>(())
/// ```
pub fn view_house(outline: &[u8], view: &mut [u8]) -> Result<(), Refusal> {
    give(sys::plates_view_house, outline, view)
}

/// Gives a buyer's reader an outline, from its bytes to memory that the caller lends: the records
/// with every price 0, those of headings too, and without locks. [`Outline::for_buyer`] gives the
/// same as an outline.
///
/// The first bytes of the view, as many as the outline has, become these records; hand on no more
/// than these. The others stay as they were, and on a refusal all of them do. So if two sound
/// outlines differ in prices and locks alone, a buyer's reader gets the same bytes, and views that
/// were alike before are alike to the end.
///
/// # Errors
///
/// As [`view_house`]. A refusal may still depend on a price, and so may the record that it names: a
/// price above 65,535 is refused.
///
/// ```
/// use plates::{view_buyer, Refusal};
///
/// // one taxon: plate 7, locked, length 5, price 1
/// let mut outline = [0, 0, 0, 0, 5, 0, 0, 0, 1, 0, 0, 0, 7, 0, 0, 128];
/// let mut view = [9; 17];
/// view_buyer(&outline, &mut view)?;
/// assert_eq!(view, [0, 0, 0, 0, 5, 0, 0, 0, 0, 0, 0, 0, 7, 0, 0, 0, 9]);
///
/// // price 65,537
/// outline[10] = 1;
/// let refusal = Refusal::FieldOutOfRange { record: 1 };
/// assert_eq!(view_buyer(&outline, &mut view), Err(refusal));
/// # Ok::<(), Refusal>(())
/// ```
pub fn view_buyer(outline: &[u8], view: &mut [u8]) -> Result<(), Refusal> {
    give(sys::plates_view_buyer, outline, view)
}

// The library's function for a reader.
type View = unsafe extern "C" fn(*const u8, usize, *mut u8, usize, *mut u32) -> u32;

fn give(view_of: View, outline: &[u8], view: &mut [u8]) -> Result<(), Refusal> {
    let mut answer = [0; 2];
    // SAFETY: it is one of the two functions above, each pointer and the length after it are those
    // of one slice, answer has two numbers, and no two overlap: view is borrowed as mutable.
    unsafe {
        view_of(
            outline.as_ptr(),
            outline.len(),
            view.as_mut_ptr(),
            view.len(),
            answer.as_mut_ptr(),
        )
    };
    let [number, place] = answer;
    Refusal::judge(number, place)
}
