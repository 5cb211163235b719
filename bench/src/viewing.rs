//! Outlines that readers get by `plates_view_house` and `plates_view_buyer`, and by the plain viewer.

use crate::instances::shapes_at_full_size;
use crate::times::{timed, Times};
use crate::viewer::{self, Reader, READERS};
use plates_scale::library;
use plates_scale::outline::bytes;
use plates_scale::random::Random;
use plates_scale::write_runs::some_call;
use std::hint::black_box;

extern "C" {
    fn plates_view_house(
        outline: *const u8,
        outline_len: usize,
        view: *mut u8,
        view_len: usize,
        answer: *mut u32,
    ) -> u32;
    fn plates_view_buyer(
        outline: *const u8,
        outline_len: usize,
        view: *mut u8,
        view_len: usize,
        answer: *mut u32,
    ) -> u32;
}

/// Number and place.
fn view(reader: Reader, outline: &[u8], view: &mut [u8]) -> [u32; 2] {
    let view_of = match reader {
        Reader::House => plates_view_house,
        Reader::Buyer => plates_view_buyer,
    };
    let mut answer = [0; 2];
    // SAFETY: every pointer comes with the length of the slice it was taken from, and what is written overlaps nothing else.
    unsafe {
        view_of(
            outline.as_ptr(),
            outline.len(),
            view.as_mut_ptr(),
            view.len(),
            answer.as_mut_ptr(),
        );
    }
    answer
}

/// `view` is the buffer's length in bytes.
struct Call {
    outline: Vec<u8>,
    view: usize,
}

pub struct Viewing {
    pub name: String,
    pub records: usize,
    /// For a house reader and for a buyer's, plates and the plain viewer.
    pub times: [[Times; 2]; 2],
    /// `plates_check` by itself.
    pub check: Times,
    outline: Vec<u8>,
    view: Vec<u8>,
}

impl Viewing {
    fn new(name: String, records: usize, outline: Vec<u8>, view: usize) -> Self {
        Viewing {
            name,
            records,
            times: Default::default(),
            check: Times::default(),
            outline,
            view: vec![0; view],
        }
    }

    fn call(&self) -> Call {
        Call {
            outline: self.outline.clone(),
            view: self.view.len(),
        }
    }

    /// A call of each, in turn.
    pub fn measure(&mut self) {
        let outline = black_box(&self.outline[..]);
        for (reader, [plates, plain]) in READERS.into_iter().zip(&mut self.times) {
            let (answer, seconds) = timed(|| view(reader, outline, &mut self.view));
            black_box(answer);
            plates.add(seconds);
            let (answer, seconds) = timed(|| viewer::view(reader, outline, &mut self.view));
            black_box(answer);
            plain.add(seconds);
        }
        let (answer, seconds) = timed(|| library::check(outline));
        black_box(answer);
        self.check.add(seconds);
    }
}

/// Every shape with just enough room, and the first once more with a byte too few.
pub fn all() -> Vec<Viewing> {
    let mut viewings = Vec::new();
    for instance in shapes_at_full_size() {
        let outline = bytes(&instance.records);
        let room = outline.len();
        let records = instance.records.len();
        viewings.push(Viewing::new(instance.name, records, outline, room));
    }
    let first = &viewings[0];
    let (outline, room) = (first.outline.clone(), first.view.len() - 1);
    let name = format!("{}, a byte short", first.name);
    viewings.push(Viewing::new(name, first.records, outline, room));
    viewings
}

/// How many answers of the plain viewer were compared with those of plates, views included, and how many differ: the measured
/// outlines, sound and faulty ones.
pub fn agreement(viewings: &[Viewing]) -> [usize; 2] {
    let random = &mut Random::new(2);
    let mut calls: Vec<Call> = viewings.iter().map(Viewing::call).collect();
    calls.extend((0..10_000).map(|_| some_viewing(random)));
    let differing = calls.iter().map(differing).sum();
    [READERS.len() * calls.len(), differing]
}

/// An outline that may be faulty, with headings and locks among its records. Now and then the view is too short or too long.
fn some_viewing(random: &mut Random) -> Call {
    let outline = some_call(random).0.outline;
    let needed = outline.len();
    let view = match random.below(8) {
        0 => needed.saturating_sub(1 + random.index(20)),
        1 => needed + 1 + random.index(20),
        _ => needed,
    };
    Call { outline, view }
}

/// For how many readers the views or the answers differ.
fn differing(call: &Call) -> usize {
    let differs = |reader: &Reader| {
        let mut ours = vec![0xa5; call.view];
        let mut theirs = ours.clone();
        let answer = view(*reader, &call.outline, &mut ours);
        answer != viewer::view(*reader, &call.outline, &mut theirs) || ours != theirs
    };
    READERS.iter().filter(|reader| differs(reader)).count()
}

#[cfg(test)]
mod tests {
    use super::*;

    #[test]
    fn the_plain_viewer_agrees_with_plates() {
        let [compared, differing] = agreement(&all());
        assert!(compared > 20_000, "{compared}");
        assert_eq!(differing, 0);
    }

    #[test]
    fn most_outlines_are_given_and_every_refusal_is_met() {
        let random = &mut Random::new(2);
        let mut numbers = [0; 10];
        for _ in 0..10_000 {
            let call = some_viewing(random);
            let mut room = vec![0; call.view];
            let [number, _] = view(Reader::Buyer, &call.outline, &mut room);
            numbers[number as usize] += 1;
        }
        assert!(numbers[0] > 5_000, "{numbers:?}");
        for number in [2, 3, 5, 6, 7, 8, 9] {
            assert!(numbers[number] > 20, "{numbers:?}");
        }
    }

    #[test]
    fn all_but_the_last_of_the_measured_outlines_are_given() {
        let mut viewings = all();
        let mut number = |reader: Reader| -> Vec<u32> {
            let given = viewings.iter_mut();
            given
                .map(|viewing| view(reader, &viewing.outline, &mut viewing.view)[0])
                .collect()
        };
        for reader in READERS {
            assert_eq!(number(reader), [0, 0, 0, 0, 0, 0, 0, 0, 0, 0, 9]);
        }
    }
}
