//! Reading outlines from text, and writing them as text.

use crate::outline::{Outline, MOST_RECORDS, MOST_TAXA, RECORD_BYTES};
use crate::refusal::Refusal;
use crate::sys;
use std::fmt;

/// How many bytes a text has at most.
pub const MOST_TEXT_LEN: usize = 16_384;

// With more pairs than an outline has records, one is without a taxon or a taxon has two. So pairs
// after this many make no difference.
const MOST_PAIRS: usize = MOST_RECORDS + 1;

/// A tree in Newick form and its prices, as [`Outline::to_newick`] writes them. Displaying it gives
/// the text.
#[derive(Clone, Debug, PartialEq, Eq, Hash)]
pub struct Newick {
    /// The text, up to its semicolon.
    pub text: String,
    /// Plate and price of each taxon, in the order of the text.
    pub prices: Vec<(u32, u32)>,
}

impl fmt::Display for Newick {
    fn fmt(&self, f: &mut fmt::Formatter<'_>) -> fmt::Result {
        f.write_str(&self.text)
    }
}

impl Outline {
    /// Reads a tree in Newick form, with a price for each taxon beside it.
    ///
    /// A part of the text is a taxon, written as its plate, or a group, written as the list of its
    /// members in round brackets, one or more, with commas between. After a part a colon and the
    /// length of its branch may stand; without them the length is 0. A semicolon ends the tree.
    /// Numbers have 1 to 9 digits. Blanks, tabs and line ends may stand anywhere but inside a
    /// number. Nothing else is accepted: no names, no labels of groups, no comments, no decimal
    /// points. The text has at most [`MOST_TEXT_LEN`] bytes.
    ///
    /// Prices are pairs, plate and price in quarter pages, in any order: one for each taxon, and
    /// none for other plates. Headings have no prices here: the price of each group is 0. A tree
    /// whose headings take space is built with [`Tree::headed_group`](crate::Tree::headed_group).
    /// Nor is any taxon locked: [`with_locked`](Outline::with_locked) gives the outline with locks.
    ///
    /// The records of the outline are numbered as their parts begin in the text.
    ///
    /// # Errors
    ///
    /// The first of these that holds: [`Refusal::BadText`], [`Refusal::TooManyRecords`],
    /// [`Refusal::BadPairs`], [`Refusal::FieldOutOfRange`], [`Refusal::TooManyTaxa`],
    /// [`Refusal::DuplicatePlate`].
    ///
    /// ```
    /// use plates::{Outline, Refusal};
    ///
    /// let text = "((11:4, 12:2):3, 13:5);";
    /// let outline = Outline::from_newick(text, [(11, 3), (12, 1), (13, 2)])?;
    /// assert_eq!(outline.records().len(), 5);
    /// assert_eq!(outline.find(13).map(|taxon| taxon.price), Some(2));
    ///
    /// let unpriced = Outline::from_newick(text, [(11, 3), (12, 1)]);
    /// assert_eq!(unpriced, Err(Refusal::BadPairs));
    /// let unfinished = Outline::from_newick("((11:4, 12:2):3, 13:5)", []);
    /// assert_eq!(unfinished, Err(Refusal::BadText));
    /// # Ok::<(), Refusal>(())
    /// ```
    pub fn from_newick(
        text: impl AsRef<[u8]>,
        prices: impl IntoIterator<Item = (u32, u32)>,
    ) -> Result<Outline, Refusal> {
        let text = text.as_ref();
        let pairs = prices.into_iter().take(MOST_PAIRS);
        let pairs: Vec<u32> = pairs.flat_map(|(plate, price)| [plate, price]).collect();
        let mut outline = [0; RECORD_BYTES * MOST_RECORDS];
        let mut answer = [0; 3];
        // SAFETY: each pointer and the length after it are those of one slice, vector or array,
        // answer has three numbers, and outline and answer are variables of their own.
        unsafe {
            sys::plates_read(
                text.as_ptr(),
                text.len(),
                pairs.as_ptr(),
                pairs.len(),
                outline.as_mut_ptr(),
                outline.len(),
                answer.as_mut_ptr(),
            )
        };
        let [number, place, records] = answer;
        Refusal::judge(number, place)?;
        Ok(Outline::checked(
            &outline[..RECORD_BYTES * records as usize],
        ))
    }

    /// Writes the tree in Newick form, with the price of each taxon beside it.
    ///
    /// There is one spelling: no blanks, tabs or line ends, no leading zeros, and a colon and the
    /// length after every part, the root too. The members of a group stand in the order of their
    /// links.
    ///
    /// [`from_newick`](Outline::from_newick) accepts what is written. It gives back the same
    /// outline if the records are numbered as in the text, and so they are in every outline that was
    /// read from text or made from a [`Tree`](crate::Tree), and in every
    /// [house form](Outline::house_form). Otherwise it numbers them anew, and of sets that are equal
    /// in diversity and cost another may then be the best.
    ///
    /// # Errors
    ///
    /// [`Refusal::Unwritable`] if a heading has a price, a taxon is locked, or a plate has more than
    /// 9 digits, for which the text has no form; nothing else.
    ///
    /// ```
    /// use plates::{Outline, Refusal};
    ///
    /// let prices = [(11, 3), (12, 1), (13, 2)];
    /// let outline = Outline::from_newick("( (11:4, 12:02) :3, 13:5 );\n", prices)?;
    ///
    /// let newick = outline.to_newick()?;
    /// assert_eq!(newick.text, "((11:4,12:2):3,13:5):0;");
    /// assert_eq!(newick.prices, prices);
    /// assert_eq!(Outline::from_newick(newick.text, newick.prices)?, outline);
    ///
    /// let locked = outline.with_locked([12]).expect("plate 12 is there");
    /// assert_eq!(locked.to_newick(), Err(Refusal::Unwritable { record: 4 }));
    /// # Ok::<(), Refusal>(())
    /// ```
    pub fn to_newick(&self) -> Result<Newick, Refusal> {
        let outline = self.as_bytes();
        let mut text = [0; sys::written_len(MOST_RECORDS, MOST_TAXA)];
        let mut pairs = [0; 2 * MOST_TAXA];
        let mut answer = [0; 4];
        // SAFETY: each pointer and the length after it are those of one slice or array, answer has
        // four numbers, and text, pairs and answer are variables of their own.
        unsafe {
            sys::plates_write(
                outline.as_ptr(),
                outline.len(),
                text.as_mut_ptr(),
                text.len(),
                pairs.as_mut_ptr(),
                pairs.len(),
                answer.as_mut_ptr(),
            )
        };
        let [number, place, bytes, taxa] = answer;
        Refusal::judge(number, place)?;
        let pairs = pairs.chunks_exact(2).take(taxa as usize);
        Ok(Newick {
            text: text[..bytes as usize]
                .iter()
                .map(|byte| char::from(*byte))
                .collect(),
            prices: pairs.map(|pair| (pair[0], pair[1])).collect(),
        })
    }
}
