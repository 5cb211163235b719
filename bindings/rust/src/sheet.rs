//! The sheet: the taxa of a set, with what each adds.

use crate::choice::Way;
use crate::outline::{Outline, MOST_TAXA};
use crate::refusal::Refusal;
use crate::sys;
use std::fmt;

/// A taxon of a set, with what it adds to those before it.
#[derive(Clone, Copy, Debug, PartialEq, Eq, Hash)]
pub struct Row {
    /// The taxon's plate, locked or not.
    pub plate: u32,
    /// What it adds to the cost, in quarter pages: its price, and the price of each group above it
    /// that has no earlier taxon of the set below it.
    pub quarters: u32,
    /// What it adds to the diversity.
    pub diversity: u32,
}

/// The taxa of a set in record order, with what each adds to those before it, and the sums. These
/// are the set's cost and diversity.
///
/// Displaying it gives a line for each row, plate, quarters and diversity, and last `total` with
/// both sums.
#[derive(Clone, Debug, PartialEq, Eq, Hash)]
pub struct Sheet {
    rows: Vec<Row>,
    quarters: u32,
    diversity: u32,
}

impl Sheet {
    /// The rows, one for each taxon of the set, in record order.
    #[must_use]
    pub fn rows(&self) -> &[Row] {
        &self.rows
    }

    /// The sum of the rows' quarters: what the set costs.
    #[must_use]
    pub fn quarters(&self) -> u32 {
        self.quarters
    }

    /// The sum of the rows' diversities: that of the set.
    #[must_use]
    pub fn diversity(&self) -> u32 {
        self.diversity
    }
}

impl fmt::Display for Sheet {
    fn fmt(&self, f: &mut fmt::Formatter<'_>) -> fmt::Result {
        for row in &self.rows {
            writeln!(f, "{} {} {}", row.plate, row.quarters, row.diversity)?;
        }
        write!(f, "total {} {}", self.quarters, self.diversity)
    }
}

impl Outline {
    /// Lists the taxa of a set, with the quarters and the diversity that each adds to those before
    /// it.
    ///
    /// The set is given by a mark for each record, in order: 1 for a taxon of the set, 0 for every
    /// other record. Marks after these are not looked at. The [`marks`](crate::Choice::marks) of a
    /// choice are such, and by the same way the sums are then the choice's diversity and cost. The
    /// same holds of a [quick choice](crate::QuickChoice::marks) with the rooted way. Any other set
    /// may be marked too: it need not fit a page count, nor have the locked taxa.
    ///
    /// A heading is charged to the first taxon of the set that is below it. Unrooted, the first
    /// taxon adds no diversity.
    ///
    /// # Errors
    ///
    /// [`Refusal::BadMarks`] if there are fewer marks than records, or a mark is neither 0 nor 1,
    /// or is 1 at a group; nothing else.
    ///
    /// ```
    /// use plates::{Outline, Refusal, Row, Way};
    ///
    /// let prices = [(11, 3), (12, 1), (13, 2)];
    /// let outline = Outline::from_newick("((11:4,12:2):3,13:5);", prices)?;
    /// let choice = outline.choose(5, Way::Rooted)?;
    ///
    /// let sheet = outline.sheet(choice.marks(), Way::Rooted)?;
    /// assert_eq!(sheet.rows()[0], Row { plate: 11, quarters: 3, diversity: 7 });
    /// assert_eq!(sheet.rows()[1], Row { plate: 13, quarters: 2, diversity: 5 });
    /// assert_eq!((sheet.quarters(), sheet.diversity()), (choice.cost(), choice.diversity()));
    /// assert_eq!(sheet.to_string(), "11 3 7\n13 2 5\ntotal 5 12");
    ///
    /// // a set that is marked by hand
    /// let marks: Vec<u8> = outline
    ///     .records()
    ///     .map(|record| u8::from([11, 12].contains(&record.plate)))
    ///     .collect();
    /// let sheet = outline.sheet(&marks, Way::Unrooted)?;
    /// assert_eq!(sheet.to_string(), "11 3 0\n12 1 6\ntotal 4 6");
    ///
    /// let group = outline.sheet(&[0, 1, 0, 0, 0], Way::Rooted);
    /// assert_eq!(group, Err(Refusal::BadMarks { record: Some(2) }));
    /// # Ok::<(), Refusal>(())
    /// ```
    pub fn sheet(&self, marks: &[u8], way: Way) -> Result<Sheet, Refusal> {
        let outline = self.as_bytes();
        let mut sheet = [0; sys::sheet_len(MOST_TAXA)];
        let mut answer = [0; 5];
        // SAFETY: each pointer and the length after it are those of one slice or array, answer has
        // five numbers, and sheet and answer are variables of their own.
        unsafe {
            sys::plates_sheet(
                outline.as_ptr(),
                outline.len(),
                way as u32,
                marks.as_ptr(),
                marks.len(),
                sheet.as_mut_ptr(),
                sheet.len(),
                answer.as_mut_ptr(),
            )
        };
        let [number, place, rows, quarters, diversity] = answer;
        Refusal::judge(number, place)?;
        let rows = sheet.chunks_exact(3).take(rows as usize);
        Ok(Sheet {
            rows: rows
                .map(|row| Row {
                    plate: row[0],
                    quarters: row[1],
                    diversity: row[2],
                })
                .collect(),
            quarters,
            diversity,
        })
    }
}
