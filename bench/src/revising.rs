//! Outlines of which one length is revised by `plates_revise` and by the plain reviser, beside one call of `plates_choose`.

use crate::case::Buffers;
use crate::instances::{shapes_at_full_size, Instance, COUNT};
use crate::one_choice::{for_each_case, Beside, Lent, Outcome};
use crate::reviser::{self, Revised, Revision};
use plates_scale::call::Call;
use plates_scale::damage::damaged_call;
use plates_scale::locks;
use plates_scale::outline::{bytes, groups, records, taxa, Record, ROOTED, UNROOTED};
use plates_scale::random::Random;
use plates_scale::view_pairs::sound_outline;
use std::hint::black_box;

extern "C" {
    fn plates_revise(
        outline: *const u8,
        outline_len: usize,
        record: u32,
        length: u32,
        count: u32,
        way: u32,
        marks: *mut u8,
        marks_len: usize,
        curve: *mut u32,
        curve_len: usize,
        work: *mut u64,
        work_len: usize,
        answer: *mut u32,
        moved: *mut i64,
    ) -> u32;
}

fn revise(
    outline: &[u8],
    revision: Revision,
    count: u32,
    way: u32,
    (marks, curve, work): Lent,
) -> Revised {
    let (mut answer, mut moved) = ([0; 6], [0; 2]);
    // SAFETY: every pointer comes with the length of the slice it was taken from, and what is written overlaps nothing else.
    unsafe {
        plates_revise(
            outline.as_ptr(),
            outline.len(),
            revision.record,
            revision.length,
            count,
            way,
            marks.as_mut_ptr(),
            marks.len(),
            curve.as_mut_ptr(),
            curve.len(),
            work.as_mut_ptr(),
            work.len(),
            answer.as_mut_ptr(),
            moved.as_mut_ptr(),
        );
    }
    (answer, moved)
}

type Revise = fn(&[u8], Revision, u32, u32, Lent) -> Revised;

fn renew(outcome: &mut Outcome<Revised>, call: &Call, revision: Revision, revise: Revise) {
    outcome.renew(call, |lent| {
        revise(&call.outline, revision, call.count, call.way, lent)
    });
}

pub struct Revising {
    /// One choice is that on the given outline.
    pub times: Beside,
    outline: Vec<u8>,
    /// Each call is for the next of these.
    revisions: Vec<Revision>,
}

impl Revising {
    fn new(instance: &Instance, way: u32, count: u32) -> Self {
        Revising {
            times: Beside::new(instance, way, count),
            outline: bytes(&instance.records),
            revisions: revisions(&instance.records)
                .map(|(_, revision)| revision)
                .to_vec(),
        }
    }

    fn call(&self) -> Call {
        self.times.call(&self.outline)
    }

    pub fn measure(&mut self, buffers: &mut Buffers) {
        let (outline, revisions) = (&self.outline[..], &self.revisions);
        let (count, way) = (self.times.count, self.times.way);
        let by = |revise: Revise| {
            move |turn: usize, lent: Lent| {
                let revision = revisions[turn % revisions.len()];
                revise(black_box(outline), revision, count, way, lent)
            }
        };
        self.times
            .measure(outline, buffers, by(revise), by(reviser::revise));
    }
}

/// A taxon, a group and the root, each with its branch about twice as long and half as long.
fn revisions(records: &[Record]) -> [(&'static str, Revision); 6] {
    let middle = |positions: Vec<usize>| positions[positions.len() / 2];
    let [taxon, group] = [taxa(records), groups(records)].map(middle);
    let longer = |at: usize| revision(at, 2 * records[at].length + 1);
    let shorter = |at: usize| revision(at, records[at].length / 2);
    [
        ("a taxon longer", longer(taxon)),
        ("a taxon shorter", shorter(taxon)),
        ("a group longer", longer(group)),
        ("a group shorter", shorter(group)),
        ("the root longer", longer(0)),
        ("the root shorter", shorter(0)),
    ]
}

fn revision(position: usize, length: u32) -> Revision {
    let record = position as u32 + 1;
    Revision { record, length }
}

/// The cases, and the first shape once more with each revision by itself.
pub fn all() -> Vec<Revising> {
    let mut revisings = Vec::new();
    for_each_case(|instance, way, count| revisings.push(Revising::new(instance, way, count)));
    revisings.extend(one_by_one(&shapes_at_full_size()[0]));
    revisings
}

fn one_by_one(instance: &Instance) -> impl Iterator<Item = Revising> + '_ {
    let ways = [ROOTED, UNROOTED].into_iter();
    ways.flat_map(|way| {
        revisions(&instance.records).map(|(which, revision)| {
            let mut revising = Revising::new(instance, way, 64);
            revising.times.name = format!("{}, {which}", instance.name);
            revising.revisions = vec![revision];
            revising
        })
    })
}

/// What was compared.
#[derive(Default)]
pub struct Agreement {
    /// Answers of the plain reviser with those of plates, movements, marks, curves and work included.
    pub answers: usize,
    /// How often the best diversity fell, stayed and rose.
    pub movements: [usize; 3],
}

/// Compares the measured calls, and calls of any outline, sound and faulty ones. The first difference ends it.
pub fn agreement(revisings: &[Revising]) -> Result<Agreement, String> {
    let mut agreement = Agreement::default();
    let outcomes = &mut [Outcome::default(), Outcome::default()];
    for revising in revisings {
        let call = revising.call();
        for &revision in &revising.revisions {
            agreement.add(&call, revision, outcomes)?;
        }
    }
    let random = &mut Random::new(2);
    for _ in 0..3_000 {
        for (call, revision) in [sound_revising(random), some_revising(random)] {
            agreement.add(&call, revision, outcomes)?;
        }
    }
    Ok(agreement)
}

impl Agreement {
    fn add(
        &mut self,
        call: &Call,
        revision: Revision,
        [ours, theirs]: &mut [Outcome<Revised>; 2],
    ) -> Result<(), String> {
        renew(ours, call, revision, revise);
        renew(theirs, call, revision, reviser::revise);
        if ours != theirs {
            return Err(format!(
                "plates_revise gives {:?}, the plain reviser {:?}, or the buffers differ: {revision:?}, {call:?}",
                ours.answer, theirs.answer
            ));
        }
        self.answers += 1;
        let ([number, ..], [of_best, _]) = ours.answer;
        if number == 0 {
            self.movements[(of_best.signum() + 1) as usize] += 1;
        }
        Ok(())
    }
}

/// An outline without a fault, and a page count that the locked taxa fit if any does.
fn sound_revising(random: &mut Random) -> (Call, Revision) {
    let records = sound_outline(random);
    let most = random.pick(&[5, 20, 70]);
    let count = (locks::cost(&records) + random.up_to(most)).min(COUNT);
    let revision = some_revision(&records, random);
    let way = random.pick(&[ROOTED, UNROOTED]);
    let call = Call::roomy(bytes(&records), count, way, random);
    (call, revision)
}

/// An outline that may be faulty.
fn some_revising(random: &mut Random) -> (Call, Revision) {
    let call = damaged_call(random);
    let revision = some_revision(&records(&call.outline), random);
    (call, revision)
}

/// Another length, mostly not far from that of the record. Now and then there is no such record, or the length is too great.
fn some_revision(records: &[Record], random: &mut Random) -> Revision {
    let position = random.index(records.len().max(1));
    let old = records.get(position).map_or(0, |record| record.length);
    let length = match random.below(6) {
        0 => random.up_to(1_000_000),
        1 => random.pick(&[0, 1, 999_999, 1_000_000]),
        2 | 3 => old.saturating_add(1 + random.up_to(20)).min(1_000_000),
        _ => old.saturating_sub(1 + random.up_to(20)),
    };
    let sound = revision(position, length);
    let after = records.len() as u32 + 1;
    match random.below(24) {
        0 => Revision {
            record: random.pick(&[0, after, 65_537, u32::MAX]),
            ..sound
        },
        1 => Revision {
            length: random.pick(&[1_000_001, 1 << 31, u32::MAX]),
            ..sound
        },
        _ => sound,
    }
}

#[cfg(test)]
mod tests {
    use super::*;
    use crate::instances::sizes;

    fn outcome(call: &Call, revision: Revision, revise: Revise) -> Outcome<Revised> {
        let mut outcome = Outcome::default();
        renew(&mut outcome, call, revision, revise);
        outcome
    }

    #[test]
    fn the_plain_reviser_agrees_with_plates() {
        let agreement = agreement(&all()).unwrap();
        assert!(agreement.answers > 6_000, "{}", agreement.answers);
        let movements = agreement.movements;
        assert!(movements.iter().all(|&times| times > 500), "{movements:?}");
    }

    #[test]
    fn a_difference_in_a_movement_is_noticed() {
        let call = Revising::new(&shapes_at_full_size()[0], ROOTED, 64).call();
        let revision = revision(126, 500);
        let right = outcome(&call, revision, revise);
        assert!(right == outcome(&call, revision, reviser::revise));
        let turned: Revise = |outline, revision, count, way, lent| {
            let (answer, [best, length]) = revise(outline, revision, count, way, lent);
            (answer, [best, -length])
        };
        assert!(right != outcome(&call, revision, turned));
    }

    #[test]
    fn sound_calls_are_answered_and_every_refusal_is_met() {
        let random = &mut Random::new(2);
        let mut numbers = [[0; 17]; 2];
        for _ in 0..3_000 {
            let calls = [sound_revising(random), some_revising(random)];
            for (numbers, (call, revision)) in numbers.iter_mut().zip(calls) {
                let ([number, ..], _) = outcome(&call, revision, revise).answer;
                numbers[number as usize] += 1;
            }
        }
        let [sound, any] = numbers;
        assert!(sound[0] > 2_000 && any[0] > 300, "{numbers:?}");
        for number in [1, 2, 3, 4, 5, 6, 7, 8, 9, 12, 16] {
            assert!(any[number] > 20, "{numbers:?}");
        }
    }

    #[test]
    fn the_measured_lengths_rise_and_fall_at_a_taxon_a_group_and_the_root() {
        for instance in shapes_at_full_size().into_iter().chain(sizes()) {
            let records = &instance.records;
            let revisions = revisions(records).map(|(_, revision)| revision);
            for (at, Revision { record, length }) in revisions.into_iter().enumerate() {
                let old = records[record as usize - 1];
                assert_eq!(length > old.length, at % 2 == 0, "{}", instance.name);
                assert_eq!(length < old.length, at % 2 == 1, "{}", instance.name);
                assert_eq!(old.is_taxon(), at < 2, "{}", instance.name);
                assert!(record == 1 || at < 4, "{}", instance.name);
            }
        }
    }
}
