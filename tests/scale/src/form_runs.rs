//! The runs that write house forms.

use std::iter;

use crate::call::extra;
use crate::compare;
use crate::form::{self, ascends, gathered, least_plates, FormCall, FormExpected};
use crate::form_cases;
use crate::headings;
use crate::library;
use crate::locks;
use crate::mangle;
use crate::outline::{self, bytes, groups, is_preorder, members, taxa, Record, RECORD_BYTES};
use crate::random::Random;
use crate::report::{shell_line, Stop};
use crate::rules;
use crate::runs::Runner;
use crate::shapes::{self, every_order_of_plates};
use crate::sheet_runs::some_outline;
use crate::text_runs::{on_small_stack, SMALL_STACK};
use crate::trees::shuffled;
use crate::view::needed;
use crate::view_pairs::{sound_outline, Kind};
use crate::view_runs::{count, lent, named, with_faults};
use crate::write_runs::exactly;
use crate::writing::{self, WriteExpected, CAUSES};

/// The refusals that writing a house form can give, in their order.
const REFUSALS: [usize; 7] = [2, 3, 5, 6, 7, 8, 9];

/// Outlines of up to so many records are written in every shape, sound and faulty.
const SMALL: usize = 6;

/// A call for a house form and what is expected of it.
struct Forming {
    records: Vec<Record>,
    call: FormCall,
    expected: FormExpected,
    /// Each record's smallest plate, if the form is written.
    least: Vec<u32>,
}

impl Forming {
    fn of(call: FormCall) -> Self {
        let records = outline::records(&call.outline);
        let expected = form::expected(&call);
        let least = if expected.answer[0] == 0 {
            least_plates(&records)
        } else {
            Vec::new()
        };
        Forming {
            records,
            call,
            expected,
            least,
        }
    }

    fn is(&self, number: u32) -> bool {
        self.expected.answer[0] == number
    }

    /// Whether the form is written and it holds for a record.
    fn has(&self, holds: fn(&Record) -> bool) -> bool {
        self.is(0) && self.records.iter().any(holds)
    }

    /// Whether the form is written and it holds for the members of a group, in the order of their chain.
    fn has_group(&self, holds: impl Fn(&[usize]) -> bool) -> bool {
        let groups = if self.is(0) {
            groups(&self.records)
        } else {
            Vec::new()
        };
        let mut chains = groups.into_iter().map(|at| members(&self.records, at));
        chains.any(|members| holds(&members))
    }

    fn ascends(&self) -> bool {
        ascends(&self.records, &self.least)
    }

    /// Whether the members of a group would stand in another order by what is made of the taxa at or below each.
    fn goes_otherwise(&self, own: fn(&Record) -> u32, join: fn(u32, u32) -> u32) -> bool {
        let numbers = if self.is(0) {
            gathered(&self.records, own, join)
        } else {
            Vec::new()
        };
        self.has_group(|members| {
            let mut members = members.to_vec();
            members.sort_by_key(|&member| self.least[member]);
            let members = members.into_iter();
            !members.map(|member| numbers[member]).is_sorted()
        })
    }

    fn needed(&self) -> usize {
        RECORD_BYTES * self.records.len()
    }

    fn is_short(&self) -> bool {
        self.call.form < self.needed()
    }

    fn is_refused_by_check(&self) -> bool {
        (2..=8).contains(&self.expected.answer[0])
    }
}

/// What the calls are to be now and then.
const KINDS: [Kind<Forming>; 31] = [
    ("in house form", |f| {
        f.is(0) && f.call.outline == f.expected.form
    }),
    ("only numbered otherwise", |f| {
        f.is(0) && !is_preorder(&f.records) && f.ascends()
    }),
    ("only ordered otherwise", |f| {
        f.is(0) && is_preorder(&f.records) && !f.ascends()
    }),
    ("numbered and ordered otherwise", |f| {
        f.is(0) && !is_preorder(&f.records) && !f.ascends()
    }),
    ("one record", |f| f.is(0) && f.records.len() == 1),
    ("127 records", |f| f.is(0) && f.records.len() == 127),
    ("64 taxa", |f| f.is(0) && taxa(&f.records).len() == 64),
    ("a group of one", |f| {
        f.has_group(|members| members.len() == 1)
    }),
    ("a group of 20", |f| {
        f.has_group(|members| members.len() >= 20)
    }),
    ("a group whose last member comes first", |f| {
        f.has_group(|members| {
            let first = members.iter().min_by_key(|&&member| f.least[member]);
            members.len() > 1 && first == members.last()
        })
    }),
    ("a group that comes before a taxon", |f| {
        f.has_group(|members| {
            let (taxa, groups): (Vec<usize>, Vec<usize>) =
                members.iter().partition(|&&at| f.records[at].is_taxon());
            let least = |members: Vec<usize>| members.into_iter().map(|at| f.least[at]).min();
            let (taxon, group) = (least(taxa), least(groups));
            group.is_some() && taxon > group
        })
    }),
    ("another order by the whole field", |f| {
        f.goes_otherwise(|taxon| taxon.plate, u32::min)
    }),
    ("another order by the largest plate", |f| {
        f.goes_otherwise(Record::plate_number, u32::max)
    }),
    ("another order by the first plate in the text", |f| {
        f.goes_otherwise(Record::plate_number, |first, _| first)
    }),
    ("a lock", |f| f.has(Record::is_locked)),
    ("every taxon locked", |f| {
        f.is(0) && !f.has(|record| record.is_taxon() && !record.is_locked())
    }),
    ("no lock", |f| f.is(0) && !f.has(Record::is_locked)),
    ("a heading's price", |f| {
        f.has(|record| !record.is_taxon() && record.price > 0)
    }),
    ("a length of 0", |f| f.has(|record| record.length == 0)),
    ("a plate of 31 bits", |f| {
        f.has(|record| record.plate_number() >> 30 == 1)
    }),
    ("just enough room", |f| f.is(0) && f.call.form == f.needed()),
    ("a byte more", |f| f.is(0) && f.call.form == f.needed() + 1),
    ("room for a record more", |f| {
        f.is(0) && f.call.form >= f.needed() + RECORD_BYTES
    }),
    ("9 by one byte", |f| {
        f.is(9) && f.call.form + 1 == f.needed()
    }),
    ("9 with room for a record", |f| {
        f.is(9) && f.call.form >= RECORD_BYTES
    }),
    ("9 without room", |f| f.is(9) && f.call.form == 0),
    ("a faulty outline with room", |f| {
        f.is_refused_by_check() && !f.is_short()
    }),
    ("a faulty outline with a short form", |f| {
        f.is_refused_by_check() && f.is_short()
    }),
    ("8 with a short form", |f| f.is(8) && f.is_short()),
    ("no outline", |f| f.call.outline.is_empty()),
    ("3 with room", |f| f.is(3) && !f.is_short()),
];

/// What the calls came to.
struct Met {
    /// How often each refusal was given, and at 0 how often none.
    numbers: [u64; 10],
    kinds: [u64; KINDS.len()],
}

impl Met {
    fn add(&mut self, forming: &Forming) {
        self.numbers[forming.expected.answer[0] as usize] += 1;
        count(&mut self.kinds, &KINDS, forming);
    }
}

/// Two outlines of a tree, which is written as text by way of its house form.
struct Spelling {
    outlines: [Vec<Record>; 2],
    form: Vec<Record>,
    /// What is expected of writing the form as text.
    expected: WriteExpected,
}

impl Spelling {
    fn random(rng: &mut Random) -> Self {
        let records = some_tree(rng);
        let form = form::in_house_form(&records);
        Spelling {
            outlines: [shuffled(&records, rng), shuffled(&records, rng)],
            expected: writing::expected(&exactly(&bytes(&form))),
            form,
        }
    }

    fn is(&self, number: u32) -> bool {
        self.expected.answer[0] == number
    }

    /// Whether it is refused by 13 and the form's record at the place has this cause.
    fn is_beyond_text_by(&self, cause: usize) -> bool {
        let place = self.expected.answer[1] as usize;
        self.is(13) && CAUSES[cause].1(&self.form[place - 1])
    }

    /// Whether it is refused by 13, and an outline would be at another record than the form.
    fn is_refused_elsewhere(&self) -> bool {
        let outlines = self.outlines.iter().map(|records| bytes(records));
        let mut answers = outlines.map(|outline| writing::expected(&exactly(&outline)).answer);
        self.is(13) && answers.any(|answer| answer != self.expected.answer)
    }

    /// Whether the outlines themselves are written as two texts.
    fn has_two_texts(&self) -> bool {
        let texts = self.outlines.each_ref();
        let [one, other] = texts.map(|records| writing::text(records));
        self.is(0) && one != other
    }
}

/// What the trees are to come to now and then.
const SPELLING_KINDS: [Kind<Spelling>; 10] = [
    ("a text", |s| s.is(0)),
    ("a text of one taxon", |s| s.is(0) && s.form.len() == 1),
    ("a text of 127 records", |s| s.is(0) && s.form.len() == 127),
    ("two texts without the house form", Spelling::has_two_texts),
    ("one outline twice", |s| s.outlines[0] == s.outlines[1]),
    ("two outlines", |s| s.outlines[0] != s.outlines[1]),
    ("13 by a heading's price", |s| s.is_beyond_text_by(0)),
    ("13 by a lock", |s| s.is_beyond_text_by(1)),
    ("13 by a plate", |s| s.is_beyond_text_by(2)),
    (
        "13 at another record without the house form",
        Spelling::is_refused_elsewhere,
    ),
];

impl Runner {
    /// The form that the library gave, if one was to be given and it is that one. It is looked at by itself too.
    fn form(&mut self, call: &FormCall, expected: &FormExpected) -> Result<Option<Vec<u8>>, Stop> {
        let observed = library::guarded_form(call, &mut self.rng);
        let form = &observed.after.form.content()[..expected.form.len()];
        let mut comparison = compare::form(expected, &observed);
        let written = expected.answer[0] == 0;
        if written {
            let records = outline::records(&call.outline);
            let wrong = compare::in_house_form(&records, form);
            comparison.differences.extend(wrong);
        }
        self.report.add(&comparison, 0, || described(call))?;
        Ok((written && form == expected.form).then(|| form.to_vec()))
    }

    pub(crate) fn house_forms(&mut self, outlines: u64) -> Result<(), Stop> {
        self.start('y');
        let mut met = Met {
            numbers: [0; 10],
            kinds: [0; KINDS.len()],
        };
        for _ in 0..outlines {
            let outline = some_outline(&mut self.rng);
            let form = lent(needed(&outline), &mut self.rng);
            self.form_and_again(FormCall { outline, form }, &mut met)?;
        }
        let (ordered, faulty) = self.small_forms(&mut met)?;
        self.report.line(&format!(
            "y. {outlines} outlines, every shape of up to {SMALL} records in forms of every length, {ordered} such with their \
             plates in every order and {faulty} with a fault, written in house form, and each form checked and written again"
        ));
        self.report
            .refusals("a house form", &REFUSALS, &met.numbers, outlines / 200);
        self.report
            .require("a house form written", met.numbers[0], outlines / 2);
        self.report
            .met("with", &named(&KINDS, met.kinds), outlines / 500);
        Ok(())
    }

    /// A form that is written is accepted and is its own house form.
    fn form_and_again(&mut self, call: FormCall, met: &mut Met) -> Result<(), Stop> {
        let forming = Forming::of(call);
        met.add(&forming);
        let Some(form) = self.form(&forming.call, &forming.expected)? else {
            return Ok(());
        };
        self.stated_check(&form, None)?;
        let again = FormCall {
            form: form.len() + extra(&mut self.rng),
            outline: form,
        };
        self.form(&again, &FormExpected::written(&again.outline))?;
        Ok(())
    }

    /// Every small shape, with headings and locks, in forms of every length, with its plates in every order, and with each fault
    /// at each record. Gives the number of outlines with their plates in some order, and of those with a fault.
    fn small_forms(&mut self, met: &mut Met) -> Result<(u64, u64), Stop> {
        let (mut ordered, mut faulty) = (0, 0);
        for mut records in (1..=SMALL).flat_map(shapes::every_outline) {
            shapes::fill_randomly(&mut records, 40, &mut self.rng);
            headings::fill(&mut records, &mut self.rng, |rng| 1 + rng.up_to(65_534));
            locks::fill_randomly(&mut records, 40, 40, &mut self.rng);
            let orders = every_order_of_plates(&records);
            ordered += orders.len() as u64;
            for call in small_calls(&records, &orders) {
                faulty += u64::from(rules::check(&call.outline).is_some());
                self.form_and_again(call, met)?;
            }
        }
        Ok((ordered, faulty))
    }

    pub(crate) fn spelled_forms(&mut self, trees: u64) -> Result<(), Stop> {
        self.start('z');
        let mut kinds = [0; SPELLING_KINDS.len()];
        for _ in 0..trees {
            let spelling = Spelling::random(&mut self.rng);
            count(&mut kinds, &SPELLING_KINDS, &spelling);
            self.spell(&spelling)?;
        }
        self.report.line(&format!(
            "z. two outlines of each of {trees} trees written in house form, the forms as text, and the texts read back"
        ));
        self.report
            .met("that give", &named(&SPELLING_KINDS, kinds), trees / 200);
        Ok(())
    }

    /// Of both outlines the same text and pairs are given, or the same refusal. Read back, the text is the form again.
    fn spell(&mut self, spelling: &Spelling) -> Result<(), Stop> {
        let mut expected = spelling.expected.clone();
        for records in &spelling.outlines {
            let call = FormCall {
                outline: bytes(records),
                form: RECORD_BYTES * records.len() + extra(&mut self.rng),
            };
            let form = FormExpected::written(&bytes(&spelling.form));
            let Some(form) = self.form(&call, &form)? else {
                continue;
            };
            expected = self.write(&exactly(&form), &expected)?;
            if spelling.is(0) {
                self.read_and_write(&form, &expected)?;
            }
        }
        Ok(())
    }

    /// What is given is as stated, and little stack is there for it.
    pub(crate) fn stated_forms(&mut self) -> Result<(), Stop> {
        self.start('A');
        let cases = form_cases::all();
        for case in &cases {
            let observed = on_small_stack(|| library::guarded_form(&case.call, &mut self.rng));
            let comparison = compare::form(&case.expected, &observed);
            self.report.add(&comparison, 0, || described(&case.call))?;
        }
        self.report.line(&format!(
            "A. {} house forms worked by hand, on a stack of {SMALL_STACK} bytes",
            cases.len()
        ));
        Ok(())
    }
}

/// The outline in forms of every length, those with its plates in another order in just enough room, and those with a fault in
/// enough room and in a byte less.
fn small_calls(records: &[Record], orders: &[Vec<Record>]) -> Vec<FormCall> {
    let of = |outline: &[u8], form| FormCall {
        outline: outline.to_vec(),
        form,
    };
    let outline = bytes(records);
    let lengths = 0..=outline.len() + RECORD_BYTES;
    let mut calls: Vec<FormCall> = lengths.map(|form| of(&outline, form)).collect();
    let orders = orders
        .iter()
        .map(|records| of(&bytes(records), outline.len()));
    calls.extend(orders);
    let faulty = with_faults(records).into_iter();
    calls.extend(faulty.flat_map(|faulty| [0, 1].map(|less| of(&faulty, faulty.len() - less))));
    calls
}

/// Mostly a tree that a text can spell, at times of 127 records.
fn some_tree(rng: &mut Random) -> Vec<Record> {
    let kind = rng.below(16);
    let tree = || match kind {
        0..4 => sound_outline(rng),
        4 => {
            let taxa = 1 + rng.index(64);
            let mut records = shapes::random_outline_of(taxa, 127, rng);
            mangle::fill_for_text(&mut records, rng);
            records
        }
        _ => mangle::sound_tree(rng),
    };
    // Plates that are cut to 9 digits may be 0 or meet.
    iter::repeat_with(tree)
        .find(|records| rules::check(&bytes(records)).is_none())
        .expect("a tree that is accepted")
}

fn described(call: &FormCall) -> String {
    format!(
        "write in house form to {} bytes\n  {}",
        call.form,
        shell_line(0, 0, &call.outline)
    )
}

#[cfg(test)]
mod tests {
    use super::*;
    use crate::form_cases::FormCase;
    use crate::library::{FormBuffers, FormObserved, Former};
    use crate::wrong_forms::{self, RIGHT};

    #[test]
    fn every_kind_is_stated_and_is_not_every_call() {
        let stated: Vec<Forming> = form_cases::all()
            .into_iter()
            .map(|case| Forming::of(case.call))
            .collect();
        for (name, holds) in KINDS {
            let times = stated.iter().filter(|forming| holds(forming)).count();
            assert!((1..stated.len()).contains(&times), "{name}: {times}");
        }
    }

    #[test]
    fn trees_to_spell_are_of_every_kind() {
        let rng = &mut Random::new(1);
        let spellings: Vec<Spelling> = (0..2_000).map(|_| Spelling::random(rng)).collect();
        for (name, holds) in SPELLING_KINDS {
            let times = spellings.iter().filter(|spelling| holds(spelling)).count();
            assert!((20..1_990).contains(&times), "{name}: {times}");
        }
    }

    type Expectation = (FormCall, FormExpected);

    fn stated() -> Vec<Expectation> {
        let both = |case: FormCase| (case.call, case.expected);
        form_cases::all().into_iter().map(both).collect()
    }

    fn random(calls: usize) -> Vec<Expectation> {
        let rng = &mut Random::new(2);
        let some = |_| {
            let outline = some_outline(rng);
            let form = lent(needed(&outline), rng);
            let forming = Forming::of(FormCall { outline, form });
            (forming.call, forming.expected)
        };
        (0..calls).map(some).collect()
    }

    /// Whether a call shows that a program is wrong.
    fn is_noticed(
        former: Former,
        calls: &[Expectation],
        differs: fn(&Expectation, &FormObserved) -> bool,
    ) -> bool {
        let rng = &mut Random::new(3);
        calls.iter().any(|expectation| {
            let observed = former(FormBuffers::random(&expectation.0, rng));
            differs(expectation, &observed)
        })
    }

    #[test]
    fn wrong_programs_are_noticed_and_a_right_one_is_not() {
        let differs = |(_, expected): &Expectation, observed: &FormObserved| {
            !compare::form(expected, observed).differences.is_empty()
        };
        for calls in [stated(), random(1_500)] {
            assert!(!is_noticed(&RIGHT.run(), &calls, differs));
            for (name, program) in wrong_forms::all() {
                assert!(is_noticed(&program.run(), &calls, differs), "{name}");
            }
        }
    }

    /// Every form but the right one.
    #[test]
    fn another_form_is_noticed_without_what_is_expected() {
        let differs = |(call, expected): &Expectation, observed: &FormObserved| {
            let records = outline::records(&call.outline);
            let form = &observed.after.form.content()[..expected.form.len()];
            expected.answer[0] == 0 && !compare::in_house_form(&records, form).is_empty()
        };
        let calls = random(1_500);
        assert!(!is_noticed(&RIGHT.run(), &calls, differs));
        for (name, program) in wrong_forms::other_forms() {
            assert!(is_noticed(&program.run(), &calls, differs), "{name}");
        }
    }
}
