//! The C interface as it is, for callers who lend the buffers themselves, and how long these have
//! to be.
//!
//! What each function gives and writes is said in `plates.h`. In short: pointers are not null (also
//! where a length is 0), each points to as many elements as its length says and is aligned for
//! them, and what is written overlaps nothing else. Nothing else is asked of the caller, whatever
//! the outline, the text or the marks hold. A refusal leaves the lent buffers (`marks`, `curve` and
//! `work` of `plates_choose`, `plates_revise` and `plates_range`, the `marks` of `plates_quick`, the
//! `outline` of `plates_read`, the `text` and `pairs` of `plates_write`, the `sheet` of
//! `plates_sheet`, the `view` of `plates_view_house` and `plates_view_buyer`, the `form` of
//! `plates_house_form`, and both forms of `plates_compare`) as they were; `answer`, `place`,
//! `ceiling`, `moved`, `roof` and `order` carry the numbers given and are written in any case. Every
//! number but 0 is a refusal, and later versions add some.
//!
//! ```
//! use plates::sys;
//!
//! // One taxon: plate 7, length 5, price 1.
//! let outline = [0, 0, 0, 0, 5, 0, 0, 0, 1, 0, 0, 0, 7, 0, 0, 0];
//! let mut marks = [0; 1];
//! let mut curve = [0; sys::curve_len(1)];
//! let mut work = [0; sys::work_len(1, 1)];
//! let mut answer = [0; 6];
//! // SAFETY: each pointer is that of an array of the length beside it, and no two overlap.
//! let number = unsafe {
//!     sys::plates_choose(
//!         outline.as_ptr(),
//!         outline.len(),
//!         1,
//!         0,
//!         marks.as_mut_ptr(),
//!         marks.len(),
//!         curve.as_mut_ptr(),
//!         curve.len(),
//!         work.as_mut_ptr(),
//!         work.len(),
//!         answer.as_mut_ptr(),
//!     )
//! };
//! assert_eq!(number, 0);
//! assert_eq!(answer, [0, 0, 5, 1, 1, 0]);
//! assert_eq!(marks, [1]);
//! assert_eq!(curve, [0, 0, 5, 1]);
//! ```

extern "C" {
    /// Reads a tree from text with pairs of numbers, plate then price: gives 0 or the refusal's
    /// number, and in any case writes the three numbers of `answer` (number, place, records).
    /// Unless it refuses, it also writes the records' bytes to the beginning of `outline`.
    ///
    /// # Safety
    ///
    /// `text` can be read for `text_len` bytes and `pairs` for `pairs_len` numbers. `outline` and
    /// `answer` can be written for `outline_len` bytes and 3 numbers. None of the pointers is null,
    /// each is aligned for its elements, and neither `outline` nor `answer` overlaps the other or
    /// what is read.
    pub fn plates_read(
        text: *const u8,
        text_len: usize,
        pairs: *const u32,
        pairs_len: usize,
        outline: *mut u8,
        outline_len: usize,
        answer: *mut u32,
    ) -> u32;

    /// Writes an outline as text and pairs of numbers, plate then price: gives 0 or the refusal's
    /// number, and in any case writes the four numbers of `answer` (number, place, bytes, pairs).
    /// Unless it refuses, it also writes the tree to the beginning of `text`, with no byte 0 behind
    /// it, and the pairs to that of `pairs`, two numbers for each.
    ///
    /// # Safety
    ///
    /// `outline` can be read for `outline_len` bytes. `text`, `pairs` and `answer` can be written
    /// for `text_len` bytes, `pairs_len` numbers and 4 numbers. None of the pointers is null, each
    /// is aligned for its elements, and no two of the four overlap.
    pub fn plates_write(
        outline: *const u8,
        outline_len: usize,
        text: *mut u8,
        text_len: usize,
        pairs: *mut u32,
        pairs_len: usize,
        answer: *mut u32,
    ) -> u32;

    /// Gives 0 or the number of the refusal of an outline, and writes its place, 0 if it is sound.
    ///
    /// # Safety
    ///
    /// `outline` can be read for `outline_len` bytes and `place` can be written; neither is null,
    /// `place` is aligned, and they do not overlap.
    pub fn plates_check(outline: *const u8, outline_len: usize, place: *mut u32) -> u32;

    /// Gives the record number of the taxon that has a plate; 0 if none has, or the outline is
    /// refused. The lock is no part of the plate, so none has one above
    /// [`MOST_PLATE`](crate::MOST_PLATE).
    ///
    /// # Safety
    ///
    /// `outline` can be read for `outline_len` bytes and is not null.
    pub fn plates_find(outline: *const u8, outline_len: usize, plate: u32) -> u32;

    /// Chooses the best taxa for a page count: gives 0 or the refusal's number, and in any case
    /// writes the six numbers of `answer` (number, place, diversity, cost, taxa, spare). Unless it
    /// refuses, it also writes `marks` and `curve`, and leaves `work` cleared. In `curve` a count
    /// that no set fits, since the locked taxa cost more, has diversity 0 and cost [`u32::MAX`].
    ///
    /// # Safety
    ///
    /// `outline` can be read for `outline_len` bytes. `marks`, `curve`, `work` and `answer` can be
    /// written for `marks_len`, `curve_len`, `work_len` and 6 elements. None of the pointers is
    /// null, each is aligned for its elements, and no two of the five overlap.
    pub fn plates_choose(
        outline: *const u8,
        outline_len: usize,
        count: u32,
        way: u32,
        marks: *mut u8,
        marks_len: usize,
        curve: *mut u32,
        curve_len: usize,
        work: *mut u64,
        work_len: usize,
        answer: *mut u32,
    ) -> u32;

    /// Makes a quick choice for a page count, rooted, with at most so many picks: gives 0 or the
    /// refusal's number, and in any case writes the five numbers of `answer` (number, place,
    /// diversity, cost, taxa) and `ceiling`, which is 0 on a refusal and else a number that the best
    /// diversity is never above. Unless it refuses, it also writes `marks`.
    ///
    /// # Safety
    ///
    /// `outline` can be read for `outline_len` bytes. `marks`, `answer` and `ceiling` can be written
    /// for `marks_len` bytes, 5 numbers and one. None of the pointers is null, each is aligned for
    /// its elements, and no two of the four overlap.
    pub fn plates_quick(
        outline: *const u8,
        outline_len: usize,
        count: u32,
        picks: u32,
        marks: *mut u8,
        marks_len: usize,
        answer: *mut u32,
        ceiling: *mut u64,
    ) -> u32;

    /// Chooses the best taxa for a page count as if the length of a record (from 1) were `length`:
    /// gives 0 or the refusal's number, and in any case writes the six numbers of `answer`, as
    /// [`plates_choose`] does for the outline with that length, and both of `moved`, which are 0 on
    /// a refusal and else the best diversity less that of the outline as it is, and the new length
    /// less the old one. Unless it refuses, it also writes `marks` and `curve`, and leaves `work`
    /// cleared.
    ///
    /// # Safety
    ///
    /// `outline` can be read for `outline_len` bytes. `marks`, `curve`, `work`, `answer` and `moved`
    /// can be written for `marks_len`, `curve_len`, `work_len`, 6 and 2 elements. None of the
    /// pointers is null, each is aligned for its elements, and no two of the six overlap.
    pub fn plates_revise(
        outline: *const u8,
        outline_len: usize,
        record: u32,
        length: u32,
        count: u32,
        way: u32,
        marks: *mut u8,
        marks_len: usize,
        curve: *mut u32,
        curve_len: usize,
        work: *mut u64,
        work_len: usize,
        answer: *mut u32,
        moved: *mut i64,
    ) -> u32;

    /// Chooses for prices between those of two outlines, `low` and `high`: gives 0 or the refusal's
    /// number, and in any case writes the six numbers of `answer`, as [`plates_choose`] does for
    /// `high`, and `roof`, which is 0 on a refusal and else the best diversity of `low`. Unless it
    /// refuses, it also writes `marks` and `curve`, and leaves `work` cleared.
    ///
    /// # Safety
    ///
    /// `low` and `high` can be read for `low_len` and `high_len` bytes. `marks`, `curve`, `work`,
    /// `answer` and `roof` can be written for `marks_len`, `curve_len` and `work_len` elements, 6
    /// numbers and one. None of the pointers is null, each is aligned for its elements, and none of
    /// the last five overlaps another or what is read. `low` and `high` may overlap.
    pub fn plates_range(
        low: *const u8,
        low_len: usize,
        high: *const u8,
        high_len: usize,
        count: u32,
        way: u32,
        marks: *mut u8,
        marks_len: usize,
        curve: *mut u32,
        curve_len: usize,
        work: *mut u64,
        work_len: usize,
        answer: *mut u32,
        roof: *mut u32,
    ) -> u32;

    /// Lists the taxa of a marked set, with what each adds: gives 0 or the refusal's number, and in
    /// any case writes the five numbers of `answer` (number, place, rows, quarters, diversity).
    /// Unless it refuses, it also writes the rows to the beginning of `sheet`, three numbers for
    /// each (plate, quarters, diversity).
    ///
    /// # Safety
    ///
    /// `outline` and `marks` can be read for `outline_len` and `marks_len` bytes. `sheet` and
    /// `answer` can be written for `sheet_len` numbers and 5 numbers. None of the pointers is null,
    /// each is aligned for its elements, and neither `sheet` nor `answer` overlaps the other or what
    /// is read. `outline` and `marks` may overlap.
    pub fn plates_sheet(
        outline: *const u8,
        outline_len: usize,
        way: u32,
        marks: *const u8,
        marks_len: usize,
        sheet: *mut u32,
        sheet_len: usize,
        answer: *mut u32,
    ) -> u32;

    /// What a house reader gets: gives 0 or the refusal's number, and in any case writes both
    /// numbers of `answer` (number, place). Unless it refuses, it also writes the outline's bytes
    /// to the beginning of `view`, which needs as many.
    ///
    /// # Safety
    ///
    /// `outline` can be read for `outline_len` bytes. `view` and `answer` can be written for
    /// `view_len` bytes and 2 numbers. None of the pointers is null, `answer` is aligned, and no two
    /// of the three overlap.
    pub fn plates_view_house(
        outline: *const u8,
        outline_len: usize,
        view: *mut u8,
        view_len: usize,
        answer: *mut u32,
    ) -> u32;

    /// What a buyer's reader gets: as [`plates_view_house`], but every price that it writes is 0,
    /// and so is bit 31 of every plate field.
    ///
    /// # Safety
    ///
    /// As [`plates_view_house`].
    pub fn plates_view_buyer(
        outline: *const u8,
        outline_len: usize,
        view: *mut u8,
        view_len: usize,
        answer: *mut u32,
    ) -> u32;

    /// Writes the house form of an outline: gives 0 or the refusal's number, and in any case writes
    /// both numbers of `answer` (number, place). Unless it refuses, it also writes the house form to
    /// the beginning of `form`, which needs as many bytes as the outline has.
    ///
    /// # Safety
    ///
    /// `outline` can be read for `outline_len` bytes. `form` and `answer` can be written for
    /// `form_len` bytes and 2 numbers. None of the pointers is null, `answer` is aligned, and no two
    /// of the three overlap.
    pub fn plates_house_form(
        outline: *const u8,
        outline_len: usize,
        form: *mut u8,
        form_len: usize,
        answer: *mut u32,
    ) -> u32;

    /// Compares two trees by their house forms: gives 0 or the refusal's number, and in any case
    /// writes both numbers of `answer` (number, place) and `order`, which is 0 on a refusal and for
    /// the same tree, -1 if the first tree comes before the second, and 1 if it comes after. Unless
    /// it refuses, it also writes the house forms to the beginnings of `form_a` and `form_b`, which
    /// need as many bytes as `a` and `b` have.
    ///
    /// # Safety
    ///
    /// `a` and `b` can be read for `a_len` and `b_len` bytes. `form_a`, `form_b`, `answer` and
    /// `order` can be written for `form_a_len` bytes, `form_b_len` bytes, 2 numbers and one. None of
    /// the pointers is null, each is aligned for its elements, and none of the last four overlaps
    /// another or what is read. `a` and `b` may overlap.
    pub fn plates_compare(
        a: *const u8,
        a_len: usize,
        b: *const u8,
        b_len: usize,
        form_a: *mut u8,
        form_a_len: usize,
        form_b: *mut u8,
        form_b_len: usize,
        answer: *mut u32,
        order: *mut i32,
    ) -> u32;
}

/// How many bytes of text always suffice for writing. The pairs need two numbers for each taxon.
#[must_use]
pub const fn written_len(records: usize, taxa: usize) -> usize {
    10 * records + 8 * taxa
}

/// How many bytes of marks choosing, the quick choice, revising, choosing for a range of prices and
/// listing need.
#[must_use]
pub const fn marks_len(records: usize) -> usize {
    records
}

/// How many numbers of curve choosing, revising and choosing for a range of prices need, for a count
/// of at most [`MOST_COUNT`](crate::MOST_COUNT).
#[must_use]
pub const fn curve_len(count: u32) -> usize {
    2 * (count as usize + 1)
}

/// How many numbers of work choosing, revising and choosing for a range of prices need, for at most
/// [`MOST_RECORDS`](crate::MOST_RECORDS) records and a count of at most
/// [`MOST_COUNT`](crate::MOST_COUNT).
#[must_use]
pub const fn work_len(records: usize, count: u32) -> usize {
    4 * (records + 2) * (count as usize + 1)
}

/// How many numbers of sheet listing needs, for so many taxa in the set.
#[must_use]
pub const fn sheet_len(taxa: usize) -> usize {
    3 * taxa
}
