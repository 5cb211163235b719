//! Outlines whose house forms are written and compared by `plates_house_form` and `plates_compare`, and by the plain sorter.

use crate::instances::{self, filled, shuffled, LEVELS, TAXA};
use crate::sorter::{self, Compared};
use crate::times::{timed, Times};
use plates_scale::outline::{bytes, taxa, Record, LOCK, RECORD_BYTES};
use plates_scale::random::Random;
use plates_scale::view_pairs::sound_outline;
use plates_scale::write_runs::some_call;
use plates_scale::{library, shapes};
use std::hint::black_box;

extern "C" {
    fn plates_house_form(
        outline: *const u8,
        outline_len: usize,
        form: *mut u8,
        form_len: usize,
        answer: *mut u32,
    ) -> u32;
    fn plates_compare(
        one: *const u8,
        one_len: usize,
        other: *const u8,
        other_len: usize,
        form_of_one: *mut u8,
        form_of_one_len: usize,
        form_of_other: *mut u8,
        form_of_other_len: usize,
        answer: *mut u32,
        order: *mut i32,
    ) -> u32;
}

/// Number and place.
fn house_form(outline: &[u8], form: &mut [u8]) -> [u32; 2] {
    let mut answer = [0; 2];
    // SAFETY: every pointer comes with the length of the slice it was taken from, and what is written overlaps nothing else.
    unsafe {
        plates_house_form(
            outline.as_ptr(),
            outline.len(),
            form.as_mut_ptr(),
            form.len(),
            answer.as_mut_ptr(),
        );
    }
    answer
}

/// Number and place, and the order.
fn compare([one, other]: [&[u8]; 2], [form_of_one, form_of_other]: [&mut [u8]; 2]) -> Compared {
    let (mut answer, mut order) = ([0; 2], 0);
    // SAFETY: every pointer comes with the length of the slice it was taken from, and what is written overlaps nothing else.
    unsafe {
        plates_compare(
            one.as_ptr(),
            one.len(),
            other.as_ptr(),
            other.len(),
            form_of_one.as_mut_ptr(),
            form_of_one.len(),
            form_of_other.as_mut_ptr(),
            form_of_other.len(),
            answer.as_mut_ptr(),
            &mut order,
        );
    }
    (answer, order)
}

type HouseForm = fn(&[u8], &mut [u8]) -> [u32; 2];
type Compare = fn([&[u8]; 2], [&mut [u8]; 2]) -> Compared;

/// Both calls of a program.
#[derive(Clone, Copy)]
struct Program {
    house_form: HouseForm,
    compare: Compare,
}

/// Plates and the plain sorter.
const PROGRAMS: [Program; 2] = [
    Program {
        house_form,
        compare,
    },
    Program {
        house_form: sorter::house_form,
        compare: sorter::compare,
    },
];

/// Two outlines; `forms` are the buffers' lengths.
#[derive(Debug)]
struct Call {
    outlines: [Vec<u8>; 2],
    forms: [usize; 2],
}

/// What a program makes of a call: its answers, and the buffers after each.
#[derive(Debug, PartialEq)]
struct Outcome {
    /// Each outline by itself.
    formed: [([u32; 2], Vec<u8>); 2],
    compared: (Compared, [Vec<u8>; 2]),
}

impl Call {
    fn by(&self, program: Program) -> Outcome {
        let [one, other] = &self.outlines;
        let mut forms = self.forms.map(|len| vec![0xa5; len]);
        let [form_of_one, form_of_other] = forms.clone();
        let formed = |outline: &[u8], mut form: Vec<u8>| {
            let answer = (program.house_form)(outline, &mut form);
            (answer, form)
        };
        let formed = [formed(one, form_of_one), formed(other, form_of_other)];
        let [form_of_one, form_of_other] = &mut forms;
        let compared = (program.compare)([one, other], [form_of_one, form_of_other]);
        Outcome {
            formed,
            compared: (compared, forms),
        }
    }
}

pub struct Sorting {
    pub name: &'static str,
    pub records: usize,
    /// For house forms and for comparing, plates and the plain sorter.
    pub times: [[Times; 2]; 2],
    /// `plates_check` by itself.
    pub check: Times,
    /// An outline, and another one of the same tree.
    outlines: [Vec<u8>; 2],
    forms: [Vec<u8>; 2],
}

impl Sorting {
    fn new(name: &'static str, outlines: [Vec<u8>; 2], room: usize) -> Self {
        Sorting {
            name,
            records: outlines[0].len() / RECORD_BYTES,
            times: Default::default(),
            check: Times::default(),
            outlines,
            forms: [vec![0; room], vec![0; room]],
        }
    }

    fn call(&self) -> Call {
        Call {
            outlines: self.outlines.clone(),
            forms: self.forms.each_ref().map(Vec::len),
        }
    }

    /// A call of each, in turn.
    pub fn measure(&mut self) {
        let outlines = self.outlines.each_ref();
        let outlines = outlines.map(|outline| black_box(&outline[..]));
        let [one, other] = &mut self.forms;
        let [forming, comparing] = &mut self.times;
        for (program, times) in PROGRAMS.iter().zip(forming) {
            let (answer, seconds) = timed(|| (program.house_form)(outlines[0], one));
            black_box(answer);
            times.add(seconds);
        }
        for (program, times) in PROGRAMS.iter().zip(comparing) {
            let (answer, seconds) = timed(|| (program.compare)(outlines, [one, other]));
            black_box(answer);
            times.add(seconds);
        }
        let (answer, seconds) = timed(|| library::check(outlines[0]));
        black_box(answer);
        self.check.add(seconds);
    }
}

/// The order in which plates go through the records.
#[derive(Clone, Copy)]
enum Plates {
    Random,
    Ascending,
    Descending,
}

impl Plates {
    fn give(self, records: &mut [Record], random: &mut Random) {
        let taxa = taxa(records);
        let mut plates: Vec<u32> = (1..).take(taxa.len()).collect();
        match self {
            Plates::Random => random.shuffle(&mut plates),
            Plates::Ascending => {}
            Plates::Descending => plates.reverse(),
        }
        for (taxon, plate) in taxa.into_iter().zip(plates) {
            records[taxon].plate = plate;
        }
    }
}

/// As many members under the root as there can be, and as many records: all but two of them are groups of one taxon.
fn star_of_groups() -> Vec<Record> {
    let link = |next, first| Record {
        next,
        first,
        ..Record::default()
    };
    let groups = (2..126).step_by(2);
    let mut records = vec![link(0, 2)];
    records.extend(groups.flat_map(|group| [link(group + 2, group + 1), link(0, 0)]));
    records.extend([link(127, 0), link(0, 0)]);
    records
}

fn trees() -> [(&'static str, Vec<Record>, Plates); 14] {
    use Plates::{Ascending, Descending, Random as Drawn};
    let random = |seed| instances::random(TAXA, seed);
    let balanced = || shapes::balanced(LEVELS);
    let star = || shapes::star(TAXA);
    let taxon_first = shapes::caterpillar_taxon_first(TAXA);
    let group_first = shapes::caterpillar_group_first(TAXA);
    [
        ("random 1", random(1), Drawn),
        ("random 2", random(2), Drawn),
        ("random 3", random(3), Drawn),
        ("balanced", balanced(), Drawn),
        ("balanced, ascending", balanced(), Ascending),
        ("balanced, descending", balanced(), Descending),
        ("caterpillar, taxon first", taxon_first, Drawn),
        ("caterpillar, group first", group_first, Drawn),
        ("star of groups", star_of_groups(), Drawn),
        ("star of groups, ascending", star_of_groups(), Ascending),
        ("star of groups, descending", star_of_groups(), Descending),
        ("star", star(), Drawn),
        ("star, ascending", star(), Ascending),
        ("star, descending", star(), Descending),
    ]
}

/// Every tree with just enough room, and the first once more with a byte too few.
pub fn all() -> Vec<Sorting> {
    let random = &mut Random::new(1);
    let mut sortings = Vec::new();
    for (name, records, plates) in trees() {
        let mut records = filled(records, random);
        plates.give(&mut records, random);
        let outlines = [bytes(&records), bytes(&shuffled(&records, random))];
        let room = outlines[0].len();
        sortings.push(Sorting::new(name, outlines, room));
    }
    let first = &sortings[0];
    let (outlines, room) = (first.outlines.clone(), first.forms[0].len() - 1);
    sortings.push(Sorting::new("random 1, a byte short", outlines, room));
    sortings
}

/// What was compared.
#[derive(Default)]
pub struct Agreement {
    /// Answers of the plain sorter with those of plates, house forms included.
    pub answers: usize,
    /// Trees with one another: how often the first came before the other, was the same and came after it.
    pub orders: [usize; 3],
}

/// Compares the measured calls, and calls of any outlines, sound and faulty ones. The first difference ends it.
pub fn agreement(sortings: &[Sorting]) -> Result<Agreement, String> {
    let random = &mut Random::new(2);
    let mut calls: Vec<Call> = sortings.iter().map(Sorting::call).collect();
    for _ in 0..10_000 {
        calls.push(sound_pair(random));
        calls.push(some_pair(random));
    }
    let mut agreement = Agreement::default();
    for call in &calls {
        let [ours, theirs] = PROGRAMS.map(|program| call.by(program));
        if ours != theirs {
            return Err(format!(
                "plates gives {ours:?}, the plain sorter {theirs:?}: {call:?}"
            ));
        }
        agreement.answers += 3;
        let (([number, _], order), _) = ours.compared;
        if number == 0 {
            agreement.orders[(order + 1) as usize] += 1;
        }
    }
    Ok(agreement)
}

/// Outlines without a fault: of one tree, of one tree and what a change makes of it, or of any two.
fn sound_pair(random: &mut Random) -> Call {
    let one = sound_outline(random);
    let other = match random.below(3) {
        0 => shuffled(&one, random),
        1 => changed(shuffled(&one, random), random),
        _ => sound_outline(random),
    };
    with_rooms([bytes(&one), bytes(&other)], random)
}

/// Outlines that may be faulty.
fn some_pair(random: &mut Random) -> Call {
    let outlines = [0; 2].map(|_| some_call(random).0.outline);
    with_rooms(outlines, random)
}

/// Now and then a form is too short or too long.
fn with_rooms(outlines: [Vec<u8>; 2], random: &mut Random) -> Call {
    let forms = outlines.each_ref().map(|outline| {
        let needed = outline.len();
        match random.below(12) {
            0 => needed.saturating_sub(1 + random.index(20)),
            1 => needed + 1 + random.index(20),
            _ => needed,
        }
    });
    Call { outlines, forms }
}

/// With another length or price at one record, with one lock more or fewer, or with the plates of two taxa exchanged.
fn changed(mut records: Vec<Record>, random: &mut Random) -> Vec<Record> {
    let at = random.index(records.len());
    let taxa = taxa(&records);
    let [taxon, other] = [0; 2].map(|_| random.pick(&taxa));
    match random.below(4) {
        0 => records[at].length = (records[at].length + 1 + random.up_to(999_999)) % 1_000_001,
        1 => records[at].price = (records[at].price + 1 + random.up_to(65_534)) % 65_536,
        2 => records[taxon].plate ^= LOCK,
        _ => {
            let plates = [records[taxon].plate, records[other].plate];
            [records[other].plate, records[taxon].plate] = plates;
        }
    }
    records
}

#[cfg(test)]
mod tests {
    use super::*;
    use crate::RECORDS;

    #[test]
    fn the_plain_sorter_agrees_with_plates() {
        let agreement = agreement(&all()).unwrap();
        assert!(agreement.answers > 60_000, "{}", agreement.answers);
        let orders = agreement.orders;
        assert!(orders.iter().all(|&times| times > 2_000), "{orders:?}");
    }

    #[test]
    fn every_refusal_is_met_by_both_calls_and_for_either_outline() {
        let random = &mut Random::new(2);
        let mut formed = [0; 10];
        let mut compared = [[0; 10]; 2];
        for _ in 0..10_000 {
            let Outcome {
                formed: [([number, _], _), _],
                compared: (([given, _], _), _),
            } = some_pair(random).by(PROGRAMS[0]);
            formed[number as usize] += 1;
            let is_first = (2..9).contains(&number);
            compared[usize::from(!is_first)][given as usize] += 1;
        }
        assert!(formed[0] > 5_000 && compared[1][0] > 3_000);
        for number in [2, 3, 5, 6, 7, 8] {
            let times = [formed[number], compared[0][number], compared[1][number]];
            assert!(times.iter().all(|&times| times > 20), "{number}: {times:?}");
        }
        assert!(formed[9] > 200 && compared[1][9] > 400);
    }

    #[test]
    fn the_measured_trees_are_the_same_and_the_last_call_is_refused() {
        let sortings = all();
        let (short, others) = sortings.split_last().unwrap();
        for sorting in others {
            let Outcome { formed, compared } = sorting.call().by(PROGRAMS[0]);
            let ([one, other], name) = (&sorting.outlines, sorting.name);
            assert_eq!(compared.0, ([0, 0], 0), "{name}");
            assert_ne!(one, other, "{name}");
            let [(_, form), _] = formed;
            assert_eq!(form == *one, name.ends_with(", ascending"), "{name}");
        }
        let records: Vec<usize> = sortings.iter().map(|sorting| sorting.records).collect();
        let (full, rest) = records.split_at(11);
        assert_eq!(full, [RECORDS; 11]);
        assert_eq!(rest, [TAXA + 1, TAXA + 1, TAXA + 1, RECORDS]);
        let Outcome { formed, compared } = short.call().by(PROGRAMS[0]);
        assert_eq!(formed.map(|(answer, _)| answer), [[9, 0]; 2]);
        assert_eq!(compared.0, ([9, 0], 0));
    }
}
