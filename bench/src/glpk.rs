//! GLPK's integer program on one budget: a variable x per taxon, chosen or not, a variable y per branch, counted or not, and
//! where groups have prices a variable h per group, paid or not.

use crate::times::timed;
use crate::tree::{members, Tree};
use plates_scale::outline;
use std::fmt::Write;
use std::fs;
use std::path::Path;
use std::process::Command;

pub const PROGRAM: &str = "glpsol";
/// Seconds after which a run is given up.
pub const LIMIT: u32 = 60;

const MODEL: &str = "model.lp";
const SOLUTION: &str = "solution";

pub struct Run {
    /// Wall time of the whole process.
    pub process: f64,
    /// None if the time limit came first.
    pub optimum: Option<u64>,
}

/// The wall time of a program with nothing to decide, the shortest of a few.
pub fn empty(folder: &Path) -> Result<f64, String> {
    let model = "Maximize\n obj: x0\nSubject To\n cost: x0 <= 1\nBinary\n x0\nEnd\n";
    fs::write(folder.join(MODEL), model).map_err(|error| error.to_string())?;
    let mut shortest = f64::INFINITY;
    for _ in 0..5 {
        shortest = shortest.min(run(folder)?.process);
    }
    Ok(shortest)
}

pub fn write(folder: &Path, tree: &Tree, count: u32, way: u32) -> Result<(), String> {
    fs::write(folder.join(MODEL), model(tree, count, way)).map_err(|error| error.to_string())
}

/// Runs the program once on the model in the folder.
pub fn run(folder: &Path) -> Result<Run, String> {
    let mut command = Command::new(PROGRAM);
    command.current_dir(folder);
    command.args(["--lp", MODEL, "--tmlim", &LIMIT.to_string()]);
    command.args(["-w", SOLUTION]);
    let (output, process) = timed(|| command.output());
    let output = output.map_err(|error| error.to_string())?;
    let solution = folder.join(SOLUTION);
    let text = fs::read_to_string(&solution).map_err(|error| error.to_string())?;
    // A later run must not be judged by this run's result.
    fs::remove_file(&solution).map_err(|error| error.to_string())?;
    let printed = || String::from_utf8_lossy(&output.stdout).into_owned();
    let optimum = optimum(&text).ok_or_else(printed)?;
    Ok(Run { process, optimum })
}

/// A branch is counted only over a chosen taxon below it and, unrooted, one elsewhere; a group is paid if one of its members is
/// chosen or paid. No length or price is negative, so y and h need not be declared whole: where all x are, the best y and the
/// least h are.
fn model(tree: &Tree, count: u32, way: u32) -> String {
    let groups = groups(tree);
    let mut text = String::from("Maximize\n obj:\n");
    for (number, record) in tree.records.iter().enumerate() {
        writeln!(text, " + {} y{number}", record.length).unwrap();
    }
    text += "Subject To\n";
    count_branches(&mut text, tree, way);
    pay_groups(&mut text, tree, &groups);
    text += " cost:\n";
    for &number in tree.taxa.iter().chain(&groups) {
        let price = tree.records[number].price;
        writeln!(text, " + {price} {}", paid(tree, number)).unwrap();
    }
    writeln!(text, " <= {count}").unwrap();
    declare(&mut text, tree, &groups);
    text + "End\n"
}

/// The groups that have a variable: all, or none where all are free.
fn groups(tree: &Tree) -> Vec<usize> {
    let numbers = 0..tree.records.len();
    numbers
        .filter(|&number| tree.has_headings() && !tree.records[number].is_taxon())
        .collect()
}

/// The variable that says whether a record is paid.
fn paid(tree: &Tree, number: usize) -> String {
    if tree.records[number].is_taxon() {
        format!("x{}", tree.below[number].trailing_zeros())
    } else {
        format!("h{number}")
    }
}

fn count_branches(text: &mut String, tree: &Tree, way: u32) {
    for (number, &below) in tree.below.iter().enumerate() {
        limit(text, number, below);
        if way == 1 {
            limit(text, number, tree.all() & !below);
        }
    }
}

/// y is at most the number of chosen taxa in the set.
fn limit(text: &mut String, number: usize, set: u64) {
    write!(text, " y{number}").unwrap();
    for taxon in members(set) {
        write!(text, " - x{taxon}").unwrap();
    }
    text.push_str(" <= 0\n");
}

/// h is at least what says that a member is paid.
fn pay_groups(text: &mut String, tree: &Tree, groups: &[usize]) {
    for &group in groups {
        for member in outline::members(&tree.records, group) {
            writeln!(text, " {} - h{group} <= 0", paid(tree, member)).unwrap();
        }
    }
}

fn declare(text: &mut String, tree: &Tree, groups: &[usize]) {
    *text += "Bounds\n";
    for number in 0..tree.records.len() {
        writeln!(text, " 0 <= y{number} <= 1").unwrap();
    }
    for group in groups {
        writeln!(text, " 0 <= h{group} <= 1").unwrap();
    }
    *text += "Binary\n";
    for taxon in 0..tree.taxa.len() {
        writeln!(text, " x{taxon}").unwrap();
    }
}

/// From the solution's line `s mip ROWS COLUMNS STATUS OPTIMUM`, where status o means proved to be the best.
fn optimum(text: &str) -> Option<Option<u64>> {
    let line = text.lines().find_map(|line| line.strip_prefix("s mip "))?;
    let words: Vec<&str> = line.split(' ').collect();
    let [_, _, status, value] = words[..] else {
        return None;
    };
    let value: f64 = value.parse().ok()?;
    Some((status == "o").then_some(value.round() as u64))
}

#[cfg(test)]
mod tests {
    use super::*;
    use plates_scale::cases::tree_a;

    fn lines(text: &str) -> Vec<&str> {
        text.lines().map(str::trim).collect()
    }

    #[test]
    fn model_of_tree_a_with_headings() {
        let mut records = tree_a();
        (records[0].price, records[1].price) = (1, 2);
        let text = model(&Tree::new(&records), 6, 1);
        let expected = "Maximize
            obj:
            + 0 y0
            + 3 y1
            + 4 y2
            + 2 y3
            + 5 y4
            Subject To
            y0 - x0 - x1 - x2 <= 0
            y0 <= 0
            y1 - x0 - x1 <= 0
            y1 - x2 <= 0
            y2 - x0 <= 0
            y2 - x1 - x2 <= 0
            y3 - x1 <= 0
            y3 - x0 - x2 <= 0
            y4 - x2 <= 0
            y4 - x0 - x1 <= 0
            h1 - h0 <= 0
            x2 - h0 <= 0
            x0 - h1 <= 0
            x1 - h1 <= 0
            cost:
            + 3 x0
            + 1 x1
            + 2 x2
            + 1 h0
            + 2 h1
            <= 6
            Bounds
            0 <= y0 <= 1
            0 <= y1 <= 1
            0 <= y2 <= 1
            0 <= y3 <= 1
            0 <= y4 <= 1
            0 <= h0 <= 1
            0 <= h1 <= 1
            Binary
            x0
            x1
            x2
            End";
        assert_eq!(lines(&text), lines(expected));
    }

    #[test]
    fn without_headings_no_group_has_a_variable() {
        assert!(!model(&Tree::new(&tree_a()), 6, 0).contains('h'));
    }
}
