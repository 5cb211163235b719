//! Prices not yet agreed: what fits whatever is agreed, and between which numbers the best then is.

use crate::choice::{read, Choice, Way, Work};
use crate::outline::Outline;
use crate::refusal::Refusal;
use crate::sys;

/// A set of taxa that fits a page count for all prices between low and high, and two numbers that
/// the best diversity then lies between.
///
/// The set is the best one at high prices, the sure set. Its diversity is the floor, and the best
/// diversity at low prices is the roof. Once each price is agreed, at least its low one and at most
/// its high one, the sure set fits the count, with at least its [`spare`](Choice::spare) left over,
/// and the best diversity, that of [`Outline::choose`] for the same count and way, is at least
/// [`floor`](SureChoice::floor) and at most [`roof`](SureChoice::roof). Where these are equal, the
/// sure set has the best diversity whatever is agreed.
///
/// It is not promised that the sure set is then the best one: another set may be better, and need not
/// have its plates. Nor need a plate that is sure at one count be so at a larger one. The curve is
/// that of the choice at high prices. So it tells the floor of a smaller count, and neither its roof
/// nor its sure set.
///
/// ```
/// use plates::{Outline, Refusal, Way};
///
/// let priced = |price| {
///     Outline::from_newick("((11:4,12:2):3,13:5);", [(11, price), (12, 1), (13, 2)])
/// };
/// let sure = priced(3)?.range(&priced(7)?, 5, Way::Rooted)?;
/// assert_eq!((sure.floor(), sure.roof()), (10, 12));
/// assert_eq!(sure.choice().marks(), [0, 0, 0, 1, 1]);
///
/// for price in 3..=7 {
///     let agreed = priced(price)?;
///     let sheet = agreed.sheet(sure.choice().marks(), Way::Rooted)?;
///     assert!(sheet.quarters() <= 5);
///     let best = agreed.choose(5, Way::Rooted)?;
///     assert!(sure.floor() <= best.diversity() && best.diversity() <= sure.roof());
/// }
///
/// // at 3 quarters for plate 11 the best is without plate 12
/// assert_eq!(priced(3)?.choose(5, Way::Rooted)?.marks(), [0, 0, 1, 0, 1]);
/// # Ok::<(), Refusal>(())
/// ```
#[derive(Clone, Debug, PartialEq, Eq, Hash)]
pub struct SureChoice {
    choice: Choice,
    roof: u32,
}

impl SureChoice {
    /// The choice at high prices: as [`Outline::choose`] gives it for the outline with these. Its set
    /// is the sure one.
    #[must_use]
    pub fn choice(&self) -> &Choice {
        &self.choice
    }

    /// The diversity of the sure set. For all prices between, the best is not below it.
    #[must_use]
    pub fn floor(&self) -> u32 {
        self.choice.diversity()
    }

    /// The best diversity at low prices. For all prices between, the best is not above it.
    #[must_use]
    pub fn roof(&self) -> u32 {
        self.roof
    }
}

impl Outline {
    /// Chooses for prices that are not yet agreed. This outline has the low ones, the other one the
    /// high ones, and they may differ in prices only, those of taxa and of headings. A price that is
    /// agreed already is the same in both. Where members or records stand in another order, the
    /// [house forms](Outline::house_form) of both can be taken, whose order does not depend on prices.
    ///
    /// # Errors
    ///
    /// The first of these that holds, and nothing else: [`Refusal::BadRange`] if the outlines differ
    /// in anything but prices, locks included, or a low price is above its high one;
    /// [`Refusal::CountTooLarge`] if the count is above [`MOST_COUNT`](crate::MOST_COUNT);
    /// [`Refusal::LockedTooDear`] if the locked taxa, with the groups above them, cost more than the
    /// count at high prices.
    ///
    /// ```
    /// use plates::{Outline, Refusal, Way};
    ///
    /// let text = "((11:4,12:2):3,13:5);";
    /// let low = Outline::from_newick(text, [(11, 3), (12, 1), (13, 2)])?;
    /// let high = Outline::from_newick(text, [(11, 4), (12, 1), (13, 2)])?;
    ///
    /// // at high prices plates 11 and 13 cost 6
    /// let sure = low.range(&high, 5, Way::Rooted)?;
    /// let choice = sure.choice();
    /// let plates: Vec<u32> = choice.taxa().iter().map(|taxon| taxon.plate).collect();
    /// assert_eq!(plates, [12, 13]);
    /// assert_eq!((choice.cost(), choice.spare()), (3, 2));
    /// assert_eq!((sure.floor(), sure.roof()), (10, 12));
    ///
    /// // plate 11 has record 3
    /// let turned = high.range(&low, 5, Way::Rooted);
    /// assert_eq!(turned, Err(Refusal::BadRange { record: Some(3) }));
    /// # Ok::<(), Refusal>(())
    /// ```
    pub fn range(&self, high: &Outline, count: u32, way: Way) -> Result<SureChoice, Refusal> {
        self.range_in(high, count, way, &mut Work::new())
    }

    /// Does as [`range`](Outline::range), with memory that the caller keeps: for those who have many
    /// counts to try.
    ///
    /// # Errors
    ///
    /// As [`range`](Outline::range).
    ///
    /// ```
    /// use plates::{Outline, Way, Work};
    ///
    /// let text = "((11:4,12:2):3,13:5);";
    /// let low = Outline::from_newick(text, [(11, 3), (12, 1), (13, 2)])?;
    /// let high = Outline::from_newick(text, [(11, 4), (12, 1), (13, 2)])?;
    /// let mut work = Work::new();
    /// let mut between = vec![];
    /// for count in 3..=7 {
    ///     let sure = low.range_in(&high, count, Way::Rooted, &mut work)?;
    ///     between.push((sure.floor(), sure.roof()));
    /// }
    /// assert_eq!(between, [(10, 10), (10, 10), (10, 12), (12, 14), (14, 14)]);
    /// # Ok::<(), plates::Refusal>(())
    /// ```
    pub fn range_in(
        &self,
        high: &Outline,
        count: u32,
        way: Way,
        work: &mut Work,
    ) -> Result<SureChoice, Refusal> {
        work.grow(high.records().len(), count);
        let (answer, roof) = call(self, high, count, way, work);
        Refusal::judge(answer[0], answer[1])?;
        Ok(SureChoice {
            // a chosen taxon has its high price
            choice: read(high, count, work, answer),
            roof,
        })
    }
}

// Calls the library: the answer's six numbers, and the roof.
fn call(low: &Outline, high: &Outline, count: u32, way: Way, work: &mut Work) -> ([u32; 6], u32) {
    let (low, high) = (low.as_bytes(), high.as_bytes());
    let (mut answer, mut roof) = ([0; 6], 0);
    // SAFETY: each pointer and the length after it are those of one slice or vector, answer has six
    // numbers and roof is one, and no two overlap but the outlines: all others are borrowed as
    // mutable.
    unsafe {
        sys::plates_range(
            low.as_ptr(),
            low.len(),
            high.as_ptr(),
            high.len(),
            count,
            way as u32,
            work.marks.as_mut_ptr(),
            work.marks.len(),
            work.curve.as_mut_ptr(),
            work.curve.len(),
            work.cells.as_mut_ptr(),
            work.cells.len(),
            answer.as_mut_ptr(),
            &mut roof,
        )
    };
    (answer, roof)
}
