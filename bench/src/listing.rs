//! Marked sets whose sheets are listed by `plates_sheet` and by the plain lister.

use crate::instances::{fill_headings, filled, TAXA};
use crate::lister;
use crate::times::{timed, Times};
use plates_scale::outline::{bytes, records, Record, ROOTED, UNROOTED};
use plates_scale::random::Random;
use plates_scale::shapes;
use plates_scale::write_runs::some_call;
use std::hint::black_box;

/// Numbers for as many rows as can be.
const ROOM: usize = 3 * TAXA;

extern "C" {
    fn plates_sheet(
        outline: *const u8,
        outline_len: usize,
        way: u32,
        marks: *const u8,
        marks_len: usize,
        sheet: *mut u32,
        sheet_len: usize,
        answer: *mut u32,
    ) -> u32;
}

/// The five numbers of the answer: number, place, rows, quarters, diversity.
fn sheet(outline: &[u8], way: u32, marks: &[u8], sheet: &mut [u32]) -> [u32; 5] {
    let mut answer = [0; 5];
    // SAFETY: every pointer comes with the length of the slice it was taken from, and what is written overlaps nothing else.
    unsafe {
        plates_sheet(
            outline.as_ptr(),
            outline.len(),
            way,
            marks.as_ptr(),
            marks.len(),
            sheet.as_mut_ptr(),
            sheet.len(),
            answer.as_mut_ptr(),
        );
    }
    answer
}

/// `sheet` is the buffer's length in numbers.
struct Call {
    outline: Vec<u8>,
    way: u32,
    marks: Vec<u8>,
    sheet: usize,
}

pub struct Listing {
    pub name: &'static str,
    pub way: u32,
    pub records: usize,
    /// How many plates lists: none if it refuses.
    pub rows: u32,
    pub plates: Times,
    pub plain: Times,
    outline: Vec<u8>,
    marks: Vec<u8>,
    sheet: Vec<u32>,
}

impl Listing {
    fn new(name: &'static str, way: u32, tree: &[Record], marks: Vec<u8>) -> Self {
        let outline = bytes(tree);
        let mut room = vec![0; ROOM];
        let [_, _, rows, ..] = sheet(&outline, way, &marks, &mut room);
        Listing {
            name,
            way,
            records: tree.len(),
            rows,
            plates: Times::default(),
            plain: Times::default(),
            outline,
            marks,
            sheet: room,
        }
    }

    fn call(&self) -> Call {
        Call {
            outline: self.outline.clone(),
            way: self.way,
            marks: self.marks.clone(),
            sheet: ROOM,
        }
    }

    /// A call of each, in turn.
    pub fn measure(&mut self) {
        let (outline, marks) = (black_box(&self.outline[..]), black_box(&self.marks[..]));
        let (answer, seconds) = timed(|| sheet(outline, self.way, marks, &mut self.sheet));
        black_box(answer);
        self.plates.add(seconds);
        let (answer, seconds) = timed(|| lister::list(outline, self.way, marks, &mut self.sheet));
        black_box(answer);
        self.plain.add(seconds);
    }
}

/// Marks for the taxa whose number is a multiple of the step.
fn every(step: usize, tree: &[Record]) -> Vec<u8> {
    let mut taxa = 0;
    let mark = |record: &Record| {
        taxa += usize::from(record.is_taxon());
        u8::from(record.is_taxon() && taxa.is_multiple_of(step))
    };
    tree.iter().map(mark).collect()
}

/// The records with lengths, and prices of taxa and of headings.
fn priced(records: Vec<Record>, random: &mut Random) -> Vec<Record> {
    let mut records = filled(records, random);
    fill_headings(&mut records, random);
    records
}

pub fn all() -> Vec<Listing> {
    let random = &mut Random::new(1);
    let tree = priced(shapes::random_tree(TAXA, random), random);
    let star = priced(shapes::star(TAXA), random);
    let first = priced(shapes::caterpillar_taxon_first(TAXA), random);
    let last = priced(shapes::caterpillar_group_first(TAXA), random);
    let mut bad = every(1, &tree);
    bad[tree.len() - 1] = 2;
    let sets = [
        ("64 taxa", &tree, every(1, &tree)),
        ("64 taxa, every fourth", &tree, every(4, &tree)),
        ("64 taxa, none", &tree, vec![0; tree.len()]),
        ("star", &star, every(1, &star)),
        ("caterpillar, taxon first", &first, every(1, &first)),
        ("caterpillar, group first", &last, every(1, &last)),
        ("64 taxa, last mark 2", &tree, bad),
    ];
    let listings = sets.into_iter().flat_map(|(name, tree, marks)| {
        [ROOTED, UNROOTED].map(|way| Listing::new(name, way, tree, marks.clone()))
    });
    listings.collect()
}

/// How many answers of the plain lister were compared with those of plates, sheets included, and how many differ: the measured
/// sets, and marks of outlines, sound and faulty ones.
pub fn agreement(listings: &[Listing]) -> [usize; 2] {
    let random = &mut Random::new(2);
    let mut calls: Vec<Call> = listings.iter().map(Listing::call).collect();
    calls.extend((0..10_000).map(|_| some_listing(random)));
    let differing = calls.iter().filter(|call| differs(call)).count();
    [calls.len(), differing]
}

/// An outline that may be faulty, with a random set of its taxa. Now and then a mark is wrong or missing, there is one more, the
/// sheet is too short or too long, or the way is none.
fn some_listing(random: &mut Random) -> Call {
    let outline = some_call(random).0.outline;
    let step = 1 + random.below(4);
    let mark = |record: &Record| u8::from(record.is_taxon() && random.one_in(step));
    let mut marks: Vec<u8> = records(&outline).iter().map(mark).collect();
    let rows = marks.iter().filter(|&&mark| mark == 1).count();
    match random.below(12) {
        0 => drop(marks.pop()),
        1 => marks.push(2),
        2 | 3 if !marks.is_empty() => {
            let position = random.index(marks.len());
            marks[position] = random.pick(&[1, 2, 255]);
        }
        _ => {}
    }
    let sheet = match random.below(12) {
        0 => (3 * rows).saturating_sub(1 + random.index(3)),
        1 => 3 * rows + 1,
        _ => 3 * rows,
    };
    Call {
        outline,
        way: random.pick(&[0, 0, 0, 0, 1, 1, 1, 1, 2]),
        marks,
        sheet,
    }
}

fn differs(call: &Call) -> bool {
    let mut ours = vec![0xa5a5_a5a5; call.sheet];
    let mut theirs = ours.clone();
    let answer = sheet(&call.outline, call.way, &call.marks, &mut ours);
    answer != lister::list(&call.outline, call.way, &call.marks, &mut theirs) || ours != theirs
}

#[cfg(test)]
mod tests {
    use super::*;

    #[test]
    fn the_plain_lister_agrees_with_plates() {
        let [compared, differing] = agreement(&all());
        assert!(compared > 10_000, "{compared}");
        assert_eq!(differing, 0);
    }

    #[test]
    fn most_sets_are_listed_and_every_refusal_is_met() {
        let random = &mut Random::new(2);
        let mut numbers = [0; 15];
        for _ in 0..10_000 {
            let call = some_listing(random);
            let mut room = vec![0; call.sheet];
            let [number, ..] = sheet(&call.outline, call.way, &call.marks, &mut room);
            numbers[number as usize] += 1;
        }
        assert!(numbers[0] > 3_000, "{numbers:?}");
        for number in [1, 2, 3, 5, 6, 7, 8, 9, 14] {
            assert!(numbers[number] > 20, "{numbers:?}");
        }
    }

    #[test]
    fn the_measured_sets_have_their_rows() {
        let rows: Vec<u32> = all().iter().map(|listing| listing.rows).collect();
        let expected = [64, 64, 16, 16, 0, 0, 64, 64, 64, 64, 64, 64, 0, 0];
        assert_eq!(rows, expected);
    }
}
