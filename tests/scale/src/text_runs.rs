//! The runs over texts.

use std::thread;

use crate::compare;
use crate::library::{self, ReadObserved};
use crate::mangle::{self, Fault};
use crate::newick;
use crate::outline::{members, Record};
use crate::random::Random;
use crate::reading::{self, ReadCall, ReadExpected};
use crate::report::Stop;
use crate::runs::Runner;
use crate::text_cases;

/// The stack that the deepest texts are read and written on, stated sheets listed, stated outlines shown, stated quick choices
/// made, stated house forms written and compared, stated lengths revised, with the choice before, and stated ranges chosen for.
pub(crate) const SMALL_STACK: usize = 256 * 1_024;

/// The refusals that reading can give.
const REFUSALS: [usize; 7] = [10, 3, 11, 9, 5, 7, 8];

type Oddity = (&'static str, fn(&ReadCall, &[Record]) -> bool);

/// What the sound texts are to have now and then.
const ODDITIES: [Oddity; 12] = [
    ("a blank", |call, _| call.text.contains(&b' ')),
    ("a tab", |call, _| call.text.contains(&b'\t')),
    ("a line feed", |call, _| call.text.contains(&b'\n')),
    ("a carriage return", |call, _| call.text.contains(&b'\r')),
    ("a leading zero", |call, _| has_leading_zero(&call.text)),
    ("nine digits", |call, _| has_nine_digits(&call.text)),
    ("a missing length", |call, records| {
        call.text.iter().filter(|&&byte| byte == b':').count() < records.len()
    }),
    ("a taxon alone", |_, records| records.len() == 1),
    ("a list of one", |_, records| widths(records).contains(&1)),
    ("a wide list", |_, records| {
        widths(records).iter().any(|&width| width > 20)
    }),
    ("deep lists", |_, records| depth(records, 0) > 20),
    ("pairs in another order", |call, records| {
        let plates = records.iter().filter(|record| record.is_taxon());
        !plates
            .map(|r| r.plate)
            .eq(call.pairs.iter().copied().step_by(2))
    }),
];

fn numbers(text: &[u8]) -> impl Iterator<Item = &[u8]> {
    text.split(|byte| !byte.is_ascii_digit())
}

fn has_leading_zero(text: &[u8]) -> bool {
    numbers(text).any(|digits| digits.len() > 1 && digits[0] == b'0')
}

fn has_nine_digits(text: &[u8]) -> bool {
    numbers(text).any(|digits| digits.len() == 9)
}

fn widths(records: &[Record]) -> Vec<usize> {
    (0..records.len())
        .map(|position| members(records, position).len())
        .collect()
}

fn depth(records: &[Record], position: usize) -> usize {
    let members = members(records, position).into_iter();
    members
        .map(|member| 1 + depth(records, member))
        .max()
        .unwrap_or(0)
}

impl Runner {
    pub(crate) fn read(
        &mut self,
        call: &ReadCall,
        expected: &ReadExpected,
    ) -> Result<ReadObserved, Stop> {
        let observed = library::guarded_read(call, &mut self.rng);
        let comparison = compare::read(expected, &observed);
        self.report.add(&comparison, 0, || described(call))?;
        Ok(observed)
    }

    pub(crate) fn sound_texts(&mut self, texts: u64) -> Result<(), Stop> {
        self.start('g');
        let mut times = [0; ODDITIES.len()];
        let mut accepted = 0;
        for _ in 0..texts {
            let call = mangle::sound_call(&mut self.rng);
            let expected = reading::expected(&call);
            accepted += u64::from(expected.answer[0] == 0);
            let records = newick::records(&call.text).unwrap_or_default();
            for (count, (_, holds)) in times.iter_mut().zip(ODDITIES) {
                *count += u64::from(!records.is_empty() && holds(&call, &records));
            }
            self.read(&call, &expected)?;
        }
        self.report
            .line(&format!("g. {texts} sound texts ({accepted} accepted)"));
        // Plates that are cut to 9 digits may be 0 or meet.
        self.report
            .require("an accepted text", accepted, texts - texts / 100);
        let named: Vec<_> = ODDITIES.iter().map(|(name, _)| *name).zip(times).collect();
        self.report.met("with", &named, texts / 200);
        Ok(())
    }

    pub(crate) fn faulty_texts(&mut self, texts: u64) -> Result<(), Stop> {
        self.start('h');
        let mut numbers = [0; 12];
        let mut times = [0; Fault::ALL.len()];
        for _ in 0..texts {
            let faults = some_faults(&mut self.rng);
            for &fault in &faults {
                times[fault as usize] += 1;
            }
            let call = mangle::faulty_call(&faults, &mut self.rng);
            let expected = reading::expected(&call);
            numbers[expected.answer[0] as usize] += 1;
            self.read(&call, &expected)?;
        }
        self.report.line(&format!("h. {texts} faulty texts"));
        self.report
            .refusals("a text", &REFUSALS, &numbers, texts / 200);
        let names = Fault::ALL.map(|fault| format!("{fault:?}"));
        let named: Vec<_> = names.iter().map(String::as_str).zip(times).collect();
        self.report.met("faults:", &named, texts / 200);
        Ok(())
    }

    /// The answers are those stated, and little stack is there for them.
    pub(crate) fn stated_texts(&mut self) -> Result<(), Stop> {
        self.start('i');
        let cases = text_cases::all();
        for case in &cases {
            let mut expected = reading::expected(&case.call);
            expected.answer = case.answer;
            let observed = on_small_stack(|| library::guarded_read(&case.call, &mut self.rng));
            let comparison = compare::read(&expected, &observed);
            self.report.add(&comparison, 0, || described(&case.call))?;
        }
        self.report.line(&format!(
            "i. {} stated texts, the deepest and longest among them, on a stack of {SMALL_STACK} bytes",
            cases.len()
        ));
        Ok(())
    }
}

pub(crate) fn on_small_stack<T: Send>(call: impl FnOnce() -> T + Send) -> T {
    thread::scope(|scope| {
        let small = thread::Builder::new().stack_size(SMALL_STACK);
        let thread = small.spawn_scoped(scope, call).expect("a thread");
        thread.join().expect("no panic")
    })
}

/// Mostly one fault, at times none or a few.
fn some_faults(rng: &mut Random) -> Vec<Fault> {
    let faults = rng.pick(&[0, 1, 1, 1, 1, 1, 2, 3]);
    (0..faults).map(|_| rng.pick(&Fault::ALL)).collect()
}

fn described(call: &ReadCall) -> String {
    format!(
        "read to {} bytes with pairs {:?}\n  printf '%b' '{}'",
        call.outline,
        call.pairs,
        octal(&call.text)
    )
}

/// The text as the shell's printf takes it.
fn octal(text: &[u8]) -> String {
    text.iter().map(|byte| format!("\\0{byte:03o}")).collect()
}

#[cfg(test)]
mod tests {
    use super::*;

    #[test]
    fn faults_are_numbered_as_they_are_listed() {
        for (index, fault) in Fault::ALL.into_iter().enumerate() {
            assert_eq!(fault as usize, index);
        }
    }
}
