//! Outlines that are written by `plates_write` and by the plain writer.

use crate::instances::{filled, LEVELS, TAXA};
use crate::times::{timed, Times};
use crate::writer;
use plates_scale::outline::{bytes, Record, LOCK};
use plates_scale::random::Random;
use plates_scale::write_runs::some_call;
use plates_scale::writing::{WriteCall, MOST_BYTES, MOST_NUMBERS};
use plates_scale::{library, shapes, write_cases};
use std::hint::black_box;

pub struct Writing {
    pub name: &'static str,
    pub records: usize,
    /// How many plates writes: none if it refuses.
    pub bytes: u32,
    pub plates: Times,
    pub plain: Times,
    outline: Vec<u8>,
    text: Vec<u8>,
    pairs: Vec<u32>,
}

impl Writing {
    fn new(name: &'static str, records: &[Record]) -> Self {
        let outline = bytes(records);
        let (mut text, mut pairs) = (vec![0; MOST_BYTES], vec![0; MOST_NUMBERS]);
        let [_, _, bytes, _] = library::write(&outline, &mut text, &mut pairs);
        Writing {
            name,
            records: records.len(),
            bytes,
            plates: Times::default(),
            plain: Times::default(),
            outline,
            text,
            pairs,
        }
    }

    fn call(&self) -> WriteCall {
        WriteCall {
            outline: self.outline.clone(),
            text: MOST_BYTES,
            pairs: MOST_NUMBERS,
        }
    }

    /// A call of each, in turn.
    pub fn measure(&mut self) {
        let outline = black_box(&self.outline[..]);
        let (answer, seconds) = timed(|| library::write(outline, &mut self.text, &mut self.pairs));
        black_box(answer);
        self.plates.add(seconds);
        let (answer, seconds) = timed(|| writer::write(outline, &mut self.text, &mut self.pairs));
        black_box(answer);
        self.plain.add(seconds);
    }
}

pub fn all() -> Vec<Writing> {
    let random = &mut Random::new(1);
    let tree = filled(shapes::random_tree(TAXA, random), random);
    let mut locked = tree.clone();
    // No link goes to an earlier record, so the last one is a taxon.
    locked[tree.len() - 1].plate |= LOCK;
    let (longest, _) = write_cases::longest(shapes::balanced(LEVELS));
    let star = filled(shapes::star(TAXA), random);
    let caterpillar = filled(shapes::caterpillar_taxon_first(TAXA), random);
    vec![
        Writing::new("64 taxa", &tree),
        Writing::new("longest text", &longest),
        Writing::new("star", &star),
        Writing::new("caterpillar", &caterpillar),
        Writing::new("64 taxa, last locked", &locked),
    ]
}

/// How many answers of the plain writer were compared with those of plates, buffers included, and how many differ: the measured
/// outlines, those with stated texts, sound and faulty ones.
pub fn agreement(writings: &[Writing]) -> [usize; 2] {
    let random = &mut Random::new(2);
    let mut calls: Vec<WriteCall> = writings.iter().map(Writing::call).collect();
    calls.extend(write_cases::all().into_iter().map(|case| case.call));
    calls.extend((0..4_000).map(|_| some_call(random).0));
    let differing = calls.iter().filter(|call| differs(call)).count();
    [calls.len(), differing]
}

fn differs(call: &WriteCall) -> bool {
    let mut ours = (vec![0xa5; call.text], vec![0xa5a5_a5a5; call.pairs]);
    let mut theirs = ours.clone();
    let answer = library::write(&call.outline, &mut ours.0, &mut ours.1);
    answer != writer::write(&call.outline, &mut theirs.0, &mut theirs.1) || ours != theirs
}

#[cfg(test)]
mod tests {
    use super::*;

    #[test]
    fn the_plain_writer_agrees_with_plates() {
        let [compared, differing] = agreement(&all());
        assert!(compared > 4_000, "{compared}");
        assert_eq!(differing, 0);
    }

    #[test]
    fn the_longest_text_and_a_refusal_are_measured() {
        let mut writings = all();
        assert_eq!(writings[1].bytes as usize, MOST_BYTES);
        let last = &mut writings[4];
        let answer = library::write(&last.outline, &mut last.text, &mut last.pairs);
        assert_eq!(answer, [13, 127, 0, 0]);
    }
}
