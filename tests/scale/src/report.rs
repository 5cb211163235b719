//! The counts of everything compared, and the printing of what differed.

use crate::compare::Comparison;
use crate::tally::Tally;
use crate::{headings, locks};

/// The comparing stops after so many differing calls.
const MOST_DIFFERENCES: u64 = 10;

/// Says that the comparing has stopped early.
#[derive(Debug)]
pub struct Stop;

#[derive(Clone, Copy, Debug, Default, PartialEq, Eq)]
pub struct Counts {
    pub calls: u64,
    pub columns: u64,
    pub values: u64,
    /// Calls of which anything differed.
    pub differences: u64,
}

#[derive(Default)]
pub struct Report {
    pub total: Counts,
    at_last_line: Counts,
    shortfalls: u64,
}

impl Report {
    /// Counts a compared call; if anything differed, prints what, and the call.
    pub fn add(
        &mut self,
        comparison: &Comparison,
        columns: usize,
        call: impl FnOnce() -> String,
    ) -> Result<(), Stop> {
        self.total.calls += 1;
        self.total.columns += columns as u64;
        self.total.values += comparison.values as u64;
        if comparison.differences.is_empty() {
            return Ok(());
        }
        self.total.differences += 1;
        println!("difference {}: {}", self.total.differences, call());
        for text in &comparison.differences {
            println!("  {text}");
        }
        if self.total.differences < MOST_DIFFERENCES {
            Ok(())
        } else {
            Err(Stop)
        }
    }

    /// Prints a run's line with what was compared since the last one.
    pub fn line(&mut self, run: &str) {
        let (now, then) = (self.total, self.at_last_line);
        println!(
            "{run}: {} calls, {} columns, {} values, {} differences",
            now.calls - then.calls,
            now.columns - then.columns,
            now.values - then.values,
            now.differences - then.differences
        );
        self.at_last_line = now;
    }

    /// Fails the whole if something occurred too seldom for the comparison to mean much.
    pub fn require(&mut self, what: &str, times: u64, least: u64) {
        if times < least {
            println!("too few: {what} occurred {times} times, at least {least} wanted");
            self.shortfalls += 1;
        }
    }

    /// Prints how often each refusal was given; `times` has them by number, and at 0 how often there was none. Fails the whole if
    /// one was too seldom.
    pub fn refusals(&mut self, of: &str, refusals: &[usize], times: &[u64], least: u64) {
        let given: Vec<u64> = refusals.iter().map(|&number| times[number]).collect();
        println!("   accepted {}, refusals {refusals:?}: {given:?}", times[0]);
        for (number, times) in refusals.iter().zip(given) {
            self.require(&format!("refusal {number} of {of}"), times, least);
        }
    }

    /// Prints how often each was met, and fails the whole if one was too seldom.
    pub fn met(&mut self, before: &str, times: &[(&str, u64)], least: u64) {
        let counts = times.iter().map(|(name, times)| format!("{name} {times}"));
        println!("   {before} {}", counts.collect::<Vec<_>>().join(", "));
        for &(name, times) in times {
            self.require(name, times, least);
        }
    }

    /// Prints how many outlines have headings and locks and what the calls with them came to. Fails the whole if it is too few.
    pub fn tally(&mut self, run: &str, tally: &Tally) {
        self.headings(run, tally.headings);
        self.locks(run, tally.locks);
    }

    /// At least half are to have some, a quarter none, and some sets are to pay for one.
    fn headings(&mut self, run: &str, tally: headings::Tally) {
        let headings::Tally {
            with,
            without,
            paid,
        } = tally;
        println!(
            "   {run}: {with} with headings, {without} without; {paid} sets pay for a heading"
        );
        let outlines = with + without;
        let wanted = [
            ("an outline with headings", with, outlines.div_ceil(2)),
            ("an outline without", without, outlines.div_ceil(4)),
            ("a set that pays for a heading", paid, with / 20),
        ];
        self.require_all(run, &wanted);
    }

    /// At least half are to have some, a quarter none, and all that can come of them is to come now and then.
    fn locks(&mut self, run: &str, tally: locks::Tally) {
        let (with, without) = (tally.with, tally.without);
        let outlines = with + without;
        let wanted = [
            ("with locks", with, outlines.div_ceil(2)),
            ("without locks", without, outlines.div_ceil(4)),
            (
                "with neither locks nor headings",
                tally.neither,
                outlines / 20,
            ),
            ("all taxa locked", tally.all, with / 20),
            ("a call refused by 12", tally.refused, with / 20),
            ("a column that no set fits", tally.blank, with / 20),
            ("a set in the last column only", tally.tight, with / 100),
            ("locks and diversity 0", tally.no_diversity, with / 200),
            ("a lock below a paid heading", tally.headed, with / 50),
        ];
        let counts = wanted.map(|(what, times, _)| format!("{what} {times}"));
        println!("   {run}: {}", counts.join(", "));
        self.require_all(run, &wanted);
    }

    fn require_all(&mut self, run: &str, wanted: &[(&str, u64, u64)]) {
        for &(what, times, least) in wanted {
            self.require(&format!("{what}, {run}"), times, least);
        }
    }

    pub fn passed(&self) -> bool {
        self.total.differences == 0 && self.shortfalls == 0
    }

    pub fn summary(&self) -> String {
        let Counts {
            calls,
            columns,
            values,
            differences,
        } = self.total;
        format!("scale: {calls} calls compared, {columns} columns, {values} values, {differences} differences")
    }
}

/// The listing program judges so many bytes of an outline.
const LISTED_BYTES: usize = 2_048;

/// A shell line that feeds the call to the listing program, and what of the call that program cannot be given.
pub fn shell_line(count: u32, way: u32, outline: &[u8]) -> String {
    let short = |value: u32| u16::try_from(value).unwrap_or(u16::MAX);
    let head = [short(count).to_le_bytes(), short(way).to_le_bytes()].concat();
    let listed = &outline[..outline.len().min(LISTED_BYTES)];
    let octal: String = head
        .iter()
        .chain(listed)
        .map(|byte| format!("\\{byte:03o}"))
        .collect();
    let mut line = format!("printf '{octal}' | crates/listing/out/listing");
    for (name, value) in [("page count", count), ("way", way)] {
        if value > u32::from(u16::MAX) {
            line += &format!(" # {name} {value} does not fit 2 bytes, 65535 stands for it");
        }
    }
    if listed.len() < outline.len() {
        line += &format!(
            " # only the first {LISTED_BYTES} of {} bytes",
            outline.len()
        );
    }
    line
}

#[cfg(test)]
mod tests {
    use super::*;
    use std::process::Command;

    fn comparison(differences: &[&str]) -> Comparison {
        Comparison {
            differences: differences.iter().map(|text| text.to_string()).collect(),
            values: 7,
        }
    }

    /// The bytes that the shell's own printf makes of the line.
    fn decoded(line: &str) -> Vec<u8> {
        let (command, _) = line.split_once(" | ").expect("a pipe");
        let output = Command::new("sh").arg("-c").arg(command).output();
        output.expect("sh runs").stdout
    }

    #[test]
    fn shell_line_decodes_to_the_input() {
        let outline: Vec<u8> = (0..=255).chain(b"%d\\n'".iter().copied()).collect();
        let line = shell_line(0x0205, 1, &outline);
        assert!(line.starts_with("printf '\\005\\002\\001\\000\\000\\001"));
        assert!(line.ends_with("' | crates/listing/out/listing"));
        assert_eq!(decoded(&line), [&[5, 2, 1, 0], &outline[..]].concat());
    }

    #[test]
    fn shell_line_says_what_does_not_fit() {
        let line = shell_line(65_536, 70_000, &[1]);
        assert_eq!(decoded(&line), [255, 255, 255, 255, 1]);
        assert!(line.contains("page count 65536 does not fit"));
        assert!(line.contains("way 70000 does not fit"));
        assert!(!shell_line(65_535, 65_535, &[7; 2_048]).contains('#'));
        let long = shell_line(5, 1, &[7; 2_049]);
        assert_eq!(decoded(&long)[4..], [7; 2_048]);
        assert!(long.ends_with("# only the first 2048 of 2049 bytes"));
    }

    #[test]
    fn counts_and_stops_after_ten_differences() {
        let mut report = Report::default();
        assert!(report
            .add(&comparison(&[]), 6, || panic!("no difference"))
            .is_ok());
        assert!(report.passed());
        for _ in 1..10 {
            let added = report.add(&comparison(&["one", "two"]), 6, || "call".to_string());
            assert!(added.is_ok());
            assert!(!report.passed());
        }
        let added = report.add(&comparison(&["one"]), 6, || "call".to_string());
        assert!(added.is_err());
        assert_eq!(
            report.summary(),
            "scale: 11 calls compared, 66 columns, 77 values, 10 differences"
        );
    }

    #[test]
    fn a_shortfall_fails() {
        let mut report = Report::default();
        report.require("refusal 3", 100, 100);
        assert!(report.passed());
        report.require("refusal 3", 99, 100);
        assert!(!report.passed());
    }

    #[test]
    fn a_refusal_or_a_name_that_is_met_too_seldom_fails() {
        for (times, passes) in [([0, 5, 5], true), ([9, 4, 5], false), ([9, 5, 4], false)] {
            let mut report = Report::default();
            report.refusals("a run", &[1, 2], &times, 5);
            assert_eq!(report.passed(), passes, "{times:?}");
            let mut report = Report::default();
            report.met("with", &[("one", times[1]), ("two", times[2])], 5);
            assert_eq!(report.passed(), passes, "{times:?}");
        }
    }

    #[test]
    fn too_few_headings_fail() {
        for (with, without, paid, enough) in [
            (50, 50, 2, true),
            (75, 25, 3, true),
            (49, 51, 50, false),
            (76, 24, 50, false),
            (50, 50, 1, false),
            (0, 100, 0, false),
        ] {
            let mut report = Report::default();
            report.headings(
                "a run",
                headings::Tally {
                    with,
                    without,
                    paid,
                },
            );
            assert_eq!(report.passed(), enough, "{with}, {without}, {paid}");
        }
    }

    #[test]
    fn too_few_locks_fail() {
        let enough = locks::Tally {
            with: 200,
            without: 200,
            neither: 20,
            all: 10,
            refused: 10,
            blank: 10,
            tight: 2,
            no_diversity: 1,
            headed: 4,
        };
        let passed = |alter: fn(&mut locks::Tally)| {
            let mut tally = enough;
            alter(&mut tally);
            let mut report = Report::default();
            report.locks("a run", tally);
            report.passed()
        };
        assert!(passed(|_| {}));
        let too_few: [fn(&mut locks::Tally); 9] = [
            |tally| tally.with -= 1,
            |tally| tally.without = 66,
            |tally| tally.neither -= 1,
            |tally| tally.all -= 1,
            |tally| tally.refused -= 1,
            |tally| tally.blank -= 1,
            |tally| tally.tight -= 1,
            |tally| tally.no_diversity -= 1,
            |tally| tally.headed -= 1,
        ];
        for (at, alter) in too_few.into_iter().enumerate() {
            assert!(!passed(alter), "{at}");
        }
    }

    #[test]
    fn both_parts_of_a_tally_can_fail() {
        let some_headings = headings::Tally {
            with: 1,
            without: 1,
            paid: 1,
        };
        let some_locks = locks::Tally {
            with: 1,
            without: 1,
            ..locks::Tally::default()
        };
        for (headings, locks, passes) in [
            (some_headings, some_locks, true),
            (
                headings::Tally {
                    with: 0,
                    ..some_headings
                },
                some_locks,
                false,
            ),
            (
                some_headings,
                locks::Tally {
                    with: 0,
                    ..some_locks
                },
                false,
            ),
        ] {
            let mut report = Report::default();
            report.tally("a run", &Tally { headings, locks });
            assert_eq!(report.passed(), passes);
        }
    }
}
