//! Sets that are picked by `plates_quick` and by the plain picker, beside the best ones of `plates_choose`.

use crate::case::Buffers;
use crate::instances::{shapes_at_full_size, shapes_that_fit, Instance, COUNT};
use crate::picker::{self, Answer, MOST_PICKS};
use crate::times::{timed, Times};
use plates_scale::cases::tree_a;
use plates_scale::damage::damaged_call;
use plates_scale::outline::{bytes, ROOTED};
use plates_scale::random::Random;
use plates_scale::view_pairs::sound_outline;
use plates_scale::{library, locks};
use std::hint::black_box;

extern "C" {
    fn plates_quick(
        outline: *const u8,
        outline_len: usize,
        count: u32,
        picks: u32,
        marks: *mut u8,
        marks_len: usize,
        answer: *mut u32,
        ceiling: *mut u64,
    ) -> u32;
}

fn pick(outline: &[u8], count: u32, picks: u32, marks: &mut [u8]) -> Answer {
    let (mut answer, mut ceiling) = ([0; 5], 0);
    // SAFETY: every pointer comes with the length of the slice it was taken from, and what is written overlaps nothing else.
    unsafe {
        plates_quick(
            outline.as_ptr(),
            outline.len(),
            count,
            picks,
            marks.as_mut_ptr(),
            marks.len(),
            answer.as_mut_ptr(),
            &mut ceiling,
        );
    }
    (answer, ceiling)
}

/// `marks` is the buffer's length.
#[derive(Debug)]
struct Call {
    outline: Vec<u8>,
    count: u32,
    picks: u32,
    marks: usize,
}

impl Call {
    /// The answer, the ceiling and the marks.
    fn by(&self, pick: fn(&[u8], u32, u32, &mut [u8]) -> Answer) -> (Answer, Vec<u8>) {
        let mut marks = vec![0xa5; self.marks];
        let answer = pick(&self.outline, self.count, self.picks, &mut marks);
        (answer, marks)
    }
}

pub struct Picking {
    pub name: String,
    pub records: usize,
    pub count: u32,
    pub picks: u32,
    /// How many are picked.
    pub taxa: u32,
    pub plates: Times,
    pub plain: Times,
    /// `plates_choose`, rooted.
    pub choosing: Times,
    /// `plates_check` by itself.
    pub check: Times,
    outline: Vec<u8>,
    marks: Vec<u8>,
}

impl Picking {
    fn new(instance: Instance, picks: u32) -> Self {
        let outline = bytes(&instance.records);
        let mut marks = vec![0; instance.records.len()];
        let ([.., taxa], _) = pick(&outline, instance.count, picks, &mut marks);
        Picking {
            name: instance.name,
            records: instance.records.len(),
            count: instance.count,
            picks,
            taxa,
            plates: Times::default(),
            plain: Times::default(),
            choosing: Times::default(),
            check: Times::default(),
            outline,
            marks,
        }
    }

    fn call(&self) -> Call {
        Call {
            outline: self.outline.clone(),
            count: self.count,
            picks: self.picks,
            marks: self.marks.len(),
        }
    }

    /// A call of each but of `plates_choose`, in turn.
    pub fn measure(&mut self) {
        let outline = black_box(&self.outline[..]);
        let (count, picks, marks) = (self.count, self.picks, &mut self.marks);
        let (answer, seconds) = timed(|| pick(outline, count, picks, marks));
        black_box(answer);
        self.plates.add(seconds);
        let (answer, seconds) = timed(|| picker::pick(outline, count, picks, marks));
        black_box(answer);
        self.plain.add(seconds);
        let (answer, seconds) = timed(|| library::check(outline));
        black_box(answer);
        self.check.add(seconds);
    }

    /// By itself: it clears so much `work` that a call after it would find nothing in the caches.
    pub fn measure_choosing(&mut self, buffers: &mut Buffers) {
        let outline = black_box(&self.outline[..]);
        let (answer, seconds) = timed(|| buffers.choose(outline, self.count, ROOTED));
        black_box(answer);
        self.choosing.add(seconds);
    }
}

/// Every shape once where all taxa fit and once where they do not, one of them with fewer picks, and tree A.
pub fn all() -> Vec<Picking> {
    let most = |instance| Picking::new(instance, MOST_PICKS);
    let mut pickings: Vec<Picking> = shapes_that_fit().into_iter().map(most).collect();
    pickings.extend(shapes_at_full_size().into_iter().map(most));
    for picks in [8, 0] {
        pickings.push(Picking::new(shapes_that_fit().swap_remove(0), picks));
    }
    pickings.push(most(Instance {
        name: "tree A".to_string(),
        records: tree_a(),
        count: 5,
    }));
    pickings
}

/// What was compared.
#[derive(Default)]
pub struct Agreement {
    /// Answers of the plain picker with those of plates, ceilings and marks included.
    pub answers: usize,
    /// Best diversities with that of the picked set and with the ceiling.
    pub bests: usize,
}

/// Compares the measured calls, and calls of any outline, sound and faulty ones. The first difference ends it.
pub fn agreement(pickings: &[Picking], buffers: &mut Buffers) -> Result<Agreement, String> {
    let random = &mut Random::new(2);
    let mut calls: Vec<Call> = pickings.iter().map(Picking::call).collect();
    for _ in 0..15_000 {
        calls.push(sound_picking(random));
        calls.push(some_picking(random));
    }
    let mut agreement = Agreement::default();
    for call in &calls {
        let ours = call.by(pick);
        let theirs = call.by(picker::pick);
        if ours != theirs {
            return Err(format!(
                "plates_quick gives {ours:?}, the plain picker {theirs:?}: {call:?}"
            ));
        }
        agreement.answers += 1;
        let (([number, _, diversity, ..], ceiling), _) = ours;
        if number != 0 {
            continue;
        }
        let [number, _, best, ..] = buffers.choose(&call.outline, call.count, ROOTED);
        if number != 0 || best < diversity || u64::from(best) > ceiling {
            return Err(format!(
                "plates_choose gives {number} and {best}, plates_quick {ours:?}: {call:?}"
            ));
        }
        agreement.bests += 1;
    }
    Ok(agreement)
}

/// An outline without a fault, and a page count that the locked taxa fit if any does.
fn sound_picking(random: &mut Random) -> Call {
    let records = sound_outline(random);
    let most = random.pick(&[5, 70, 400, COUNT]);
    Call {
        outline: bytes(&records),
        count: (locks::cost(&records) + random.up_to(most)).min(COUNT),
        picks: some_picks(random),
        marks: records.len(),
    }
}

/// An outline that may be faulty. Now and then the page count is too large, and the marks are too few or more than needed.
fn some_picking(random: &mut Random) -> Call {
    let call = damaged_call(random);
    Call {
        outline: call.outline,
        count: call.count,
        picks: some_picks(random),
        marks: call.marks,
    }
}

/// Few, all that there can be, any number, and now and then too many.
fn some_picks(random: &mut Random) -> u32 {
    match random.below(12) {
        0 => random.pick(&[65, 66, 256, 65_536, u32::MAX]),
        1..4 => MOST_PICKS,
        4..8 => random.up_to(8),
        _ => random.up_to(MOST_PICKS),
    }
}

#[cfg(test)]
mod tests {
    use super::*;
    use crate::instances::TAXA;
    use crate::RECORDS;

    #[test]
    fn the_plain_picker_agrees_with_plates() {
        let agreement = agreement(&all(), &mut Buffers::new(RECORDS, COUNT));
        let agreement = agreement.unwrap();
        assert!(agreement.answers > 30_000, "{}", agreement.answers);
        assert!(agreement.bests > 15_000, "{}", agreement.bests);
    }

    #[test]
    fn sound_calls_are_answered_and_every_refusal_is_met() {
        let random = &mut Random::new(2);
        let mut numbers = [[0; 16]; 2];
        for _ in 0..10_000 {
            let calls = [sound_picking(random), some_picking(random)];
            for (numbers, call) in numbers.iter_mut().zip(calls) {
                let (([number, ..], _), _) = call.by(pick);
                numbers[number as usize] += 1;
            }
        }
        let [sound, any] = numbers;
        assert!(sound[0] > 8_000 && any[0] > 1_500, "{numbers:?}");
        for number in [2, 3, 4, 5, 6, 7, 8, 9, 12, 15] {
            assert!(any[number] > 20, "{numbers:?}");
        }
    }

    #[test]
    fn both_bounds_are_the_best_diversity_at_times_only() {
        let random = &mut Random::new(3);
        let buffers = &mut Buffers::new(RECORDS, COUNT);
        let (mut at_set, mut above_set, mut at_ceiling, mut below_ceiling) = (0, 0, 0, 0);
        for _ in 0..2_000 {
            let call = sound_picking(random);
            let (([number, _, diversity, ..], ceiling), _) = call.by(pick);
            if number == 0 {
                let [_, _, best, ..] = buffers.choose(&call.outline, call.count, ROOTED);
                at_set += u32::from(best == diversity);
                above_set += u32::from(best > diversity);
                at_ceiling += u32::from(u64::from(best) == ceiling);
                below_ceiling += u32::from(u64::from(best) < ceiling);
            }
        }
        let times = [at_set, above_set, at_ceiling, below_ceiling];
        assert!(times.iter().all(|&times| times > 200), "{times:?}");
    }

    #[test]
    fn the_measured_calls_make_their_picks() {
        let pickings = all();
        let taxa: Vec<usize> = pickings
            .iter()
            .map(|picking| picking.taxa as usize)
            .collect();
        let (all_fit, others) = taxa.split_at(10);
        assert_eq!(all_fit, [TAXA; 10]);
        assert_eq!(others, [60, 63, 63, 34, 46, 63, 63, 60, 56, 60, 8, 0, 2]);
    }
}
