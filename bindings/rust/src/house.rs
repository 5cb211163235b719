//! The house form, one outline for one tree, and comparing trees by it.

use crate::outline::{Outline, MOST_RECORDS, RECORD_BYTES};
use crate::refusal::Refusal;
use crate::sys;
use std::cmp::Ordering;

// Room for the house form of any outline.
type Form = [u8; RECORD_BYTES * MOST_RECORDS];

impl Outline {
    /// The house form of the tree: the members of each group in the order of the smallest plate at
    /// or below them, the smallest first, and the records numbered as in a text, the root first,
    /// then its first member with all below it, and so on.
    ///
    /// Two outlines are the same tree if the records of the one can be numbered as those of the other
    /// such that each keeps its parent, length, price, plate and lock. They are so exactly if their
    /// house forms are equal. The house form is the same tree as the outline, and its own house
    /// form. A lock moves no member.
    ///
    /// Where [`to_newick`](Outline::to_newick) writes the house form,
    /// [`from_newick`](Outline::from_newick) reads that as the house form again. So there is one
    /// text for one tree.
    ///
    /// The records may have other numbers than here: the marks of a choice from the one outline do
    /// not fit the other, and of sets that are equal in diversity and cost another may be the best.
    ///
    /// ```
    /// use plates::Outline;
    ///
    /// let prices = [(11, 3), (12, 1), (13, 2)];
    /// let outline = Outline::from_newick("((11:4,12:2):3,13:5);", prices)?;
    /// let shuffled = Outline::from_newick("(13:5,(12:2,11:4):3);", prices)?;
    ///
    /// assert_ne!(shuffled, outline);
    /// assert_eq!(shuffled.house_form(), outline.house_form());
    /// assert_eq!(shuffled.house_form().to_newick()?.text, "((11:4,12:2):3,13:5):0;");
    ///
    /// // one length is another
    /// let revised = Outline::from_newick("((11:4,12:2):3,13:6);", prices)?;
    /// assert_ne!(revised.house_form(), outline.house_form());
    /// # Ok::<(), plates::Refusal>(())
    /// ```
    #[must_use]
    pub fn house_form(&self) -> Outline {
        let outline = self.as_bytes();
        let mut form: Form = [0; RECORD_BYTES * MOST_RECORDS];
        house_form(outline, &mut form).expect("the outline is checked, and the form has room");
        // Where the library gives a house form of an outline, its check accepts that too.
        Outline::checked(&form[..outline.len()])
    }

    /// Whether the other outline is the same tree: whether the records of this one can be numbered as
    /// those of the other such that each keeps its parent, length, price, plate and lock.
    ///
    /// It is no `==`, which tells whether the records are the same as they are numbered. Between two
    /// outlines of the same tree that makes a difference: marks of the one need not fit the other,
    /// and of sets that are equal in diversity and cost another may be the best.
    ///
    /// ```
    /// use plates::Outline;
    ///
    /// let prices = [(11, 3), (12, 1), (13, 2)];
    /// let outline = Outline::from_newick("((11:4,12:2):3,13:5);", prices)?;
    /// let shuffled = Outline::from_newick("(13:5,(12:2,11:4):3);", prices)?;
    /// assert!(outline.is_same_tree(&shuffled));
    /// assert_ne!(outline, shuffled);
    ///
    /// let locked = shuffled.with_locked([12]).expect("plate 12 is there");
    /// assert!(!outline.is_same_tree(&locked));
    /// # Ok::<(), plates::Refusal>(())
    /// ```
    #[must_use]
    pub fn is_same_tree(&self, other: &Outline) -> bool {
        self.cmp_tree(other).is_eq()
    }

    /// Which of two trees comes before the other, by the bytes of their house forms:
    /// [`Ordering::Equal`] exactly if they are the [same tree](Outline::is_same_tree).
    ///
    /// It is a total order of trees, so that a list of trees can be sorted and searched with it,
    /// however the members and the records of each stand. Beyond that it means nothing which of two
    /// trees comes before. It is no [`Ord`], which would have to agree with `==`.
    ///
    /// Each call makes both house forms. Where these are kept, their bytes have the same order, and
    /// `==` tells whether they are the same tree; a long list is sorted with each of them made once
    /// by `sort_by_cached_key(|tree| tree.house_form().as_bytes().to_vec())`.
    ///
    /// ```
    /// use plates::Outline;
    ///
    /// let prices = [(11, 3), (12, 1), (13, 2)];
    /// let read = |text| Outline::from_newick(text, prices);
    /// let mut trees = vec![
    ///     read("((11:4,12:2):3,13:5);")?,
    ///     read("((11:4,13:5):3,12:2);")?,
    ///     read("(13:5,(12:2,11:4):3);")?,
    /// ];
    ///
    /// // the first and the last are the same tree
    /// trees.sort_by(Outline::cmp_tree);
    /// trees.dedup_by(|one, two| one.is_same_tree(two));
    /// assert_eq!(trees.len(), 2);
    ///
    /// let sought = read("((12:2,11:4):3,13:5);")?;
    /// assert!(trees.binary_search_by(|tree| tree.cmp_tree(&sought)).is_ok());
    /// # Ok::<(), plates::Refusal>(())
    /// ```
    #[must_use]
    pub fn cmp_tree(&self, other: &Outline) -> Ordering {
        let mut form_a: Form = [0; RECORD_BYTES * MOST_RECORDS];
        let mut form_b: Form = [0; RECORD_BYTES * MOST_RECORDS];
        compare(self.as_bytes(), other.as_bytes(), &mut form_a, &mut form_b)
            .expect("both outlines are checked, and the forms have room")
    }
}

/// Writes the house form of an outline, from its bytes to memory that the caller lends.
/// [`Outline::house_form`] gives the same as an outline, and says what it is.
///
/// The first bytes of the form, as many as the outline has, become the house form. The others stay
/// as they were, and on a refusal all of them do.
///
/// # Errors
///
/// The first that holds of those that [`Outline::from_bytes`] gives, and after them
/// [`Refusal::BufferTooShort`] if the form is shorter than the outline.
///
/// ```
/// use plates::{house_form, Outline, Refusal};
///
/// let prices = [(11, 3), (12, 1), (13, 2)];
/// let shuffled = Outline::from_newick("(13:5,(12:2,11:4):3);", prices)?;
/// let mut form = [9; 81];
/// house_form(shuffled.as_bytes(), &mut form)?;
/// let outline = Outline::from_newick("((11:4,12:2):3,13:5);", prices)?;
/// assert_eq!(form[..80], *outline.as_bytes());
/// assert_eq!(form[80], 9);
///
/// let mut short = [9; 79];
/// let refused = house_form(shuffled.as_bytes(), &mut short);
/// assert_eq!(refused, Err(Refusal::BufferTooShort));
/// assert_eq!(short, [9; 79]);
/// # Ok::<(), Refusal>(())
/// ```
pub fn house_form(outline: &[u8], form: &mut [u8]) -> Result<(), Refusal> {
    let mut answer = [0; 2];
    // SAFETY: each pointer and the length after it are those of one slice, answer has two numbers,
    // and no two overlap: form is borrowed as mutable.
    unsafe {
        sys::plates_house_form(
            outline.as_ptr(),
            outline.len(),
            form.as_mut_ptr(),
            form.len(),
            answer.as_mut_ptr(),
        )
    };
    let [number, place] = answer;
    Refusal::judge(number, place)
}

/// Compares two trees, from the bytes of their outlines, by their house forms, which are written to
/// memory that the caller lends. [`Outline::cmp_tree`] gives the same order, and says what it is.
///
/// The first bytes of each form, as many as its outline has, become the house form. The others stay
/// as they were, and on a refusal all of both do. Both outlines may be the same memory.
///
/// # Errors
///
/// The first that [`Outline::from_bytes`] gives for `a`; if it gives none, the first for `b`; and
/// after both [`Refusal::BufferTooShort`] if a form is shorter than its outline. The record that is
/// named is one of the outline that is refused, which is `b` only where `a` is sound.
///
/// ```
/// use plates::{compare, Refusal};
/// use std::cmp::Ordering;
///
/// // one taxon: plate 7, length 5, price 1; and the same locked
/// let taxon = [0, 0, 0, 0, 5, 0, 0, 0, 1, 0, 0, 0, 7, 0, 0, 0];
/// let locked = [0, 0, 0, 0, 5, 0, 0, 0, 1, 0, 0, 0, 7, 0, 0, 128];
/// let (mut form_a, mut form_b) = ([9; 16], [9; 17]);
/// let order = compare(&taxon, &locked, &mut form_a, &mut form_b)?;
/// assert_eq!(order, Ordering::Less);
/// assert_eq!((form_a, form_b[16]), (taxon, 9));
///
/// let cut = compare(&taxon, &locked[1..], &mut form_a, &mut form_b);
/// assert_eq!(cut, Err(Refusal::PartialRecord));
/// let short = compare(&taxon, &locked, &mut form_a, &mut []);
/// assert_eq!(short, Err(Refusal::BufferTooShort));
/// # Ok::<(), Refusal>(())
/// ```
pub fn compare(
    a: &[u8],
    b: &[u8],
    form_a: &mut [u8],
    form_b: &mut [u8],
) -> Result<Ordering, Refusal> {
    let mut answer = [0; 2];
    let mut order = 0;
    // SAFETY: each pointer and the length after it are those of one slice, answer has two numbers
    // and order is one, and no two overlap but the outlines: the forms are borrowed as mutable.
    unsafe {
        sys::plates_compare(
            a.as_ptr(),
            a.len(),
            b.as_ptr(),
            b.len(),
            form_a.as_mut_ptr(),
            form_a.len(),
            form_b.as_mut_ptr(),
            form_b.len(),
            answer.as_mut_ptr(),
            &mut order,
        )
    };
    let [number, place] = answer;
    Refusal::judge(number, place)?;
    Ok(order.cmp(&0))
}
