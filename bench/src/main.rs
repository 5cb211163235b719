//! Measures `plates_choose` beside clearing `work`, IQ-TREE 2, GLPK and two tables in Rust, `plates_read`, `plates_write`,
//! `plates_sheet` and both views beside a plain reader, writer, lister and viewer in Rust, `plates_quick` beside a plain picker and
//! `plates_choose`, `plates_house_form` and `plates_compare` beside a plain sorter, and `plates_revise` and `plates_range` beside a
//! plain reviser, a plain ranger and `plates_choose`, and prints the times in Markdown. With `--picks` it measures only the quick
//! choices, with `--houses` only the house forms, with `--revisions` only the revised lengths, with `--ranges` only the choices for
//! prices not yet agreed, and with `--beside` `plates_choose` beside another build's instead, to see what a change costs.

mod beside;
mod case;
mod glpk;
mod instances;
mod iqtree;
mod lister;
mod listing;
mod machine;
mod one_choice;
mod picker;
mod picking;
mod plain;
mod ranger;
mod ranging;
mod reader;
mod reading;
mod report;
mod reviser;
mod revising;
mod scratch;
mod sorter;
mod sorting;
mod times;
mod tree;
mod viewer;
mod viewing;
mod writer;
mod writing;

use beside::Build;
use case::{Buffers, Case};
use instances::COUNT;
use listing::Listing;
use picking::Picking;
use ranging::Ranging;
use reading::Reading;
use report::Missing;
use revising::Revising;
use scratch::Scratch;
use sorting::Sorting;
use std::path::Path;
use std::process::ExitCode;
use viewing::Viewing;
use writing::Writing;

const USAGE: &str = "\
bench [--quick | --picks | --houses | --revisions | --ranges | --beside OTHER THIS]
  --quick              fewer runs, without GLPK and the tables
  --picks              only plates_quick beside a plain picker and plates_choose
  --houses             only plates_house_form and plates_compare beside a plain sorter
  --revisions          only plates_revise beside a plain reviser and plates_choose
  --ranges             only plates_range beside a plain ranger and plates_choose
  --beside OTHER THIS  only plates_choose of two builds, OTHER and THIS being shared objects;
                       `make bench-beside BESIDE=libplates.a` makes them of static libraries and runs this";
const RECORDS: usize = 127;
const COUNTS: [u32; 3] = [64, 256, 1_024];

/// How often each case is run. One round takes every case in turn, so that a busy spell of the machine meets all alike.
struct Plan {
    rounds: usize,
    /// Calls of plates in a round, for each run of IQ-TREE.
    calls: usize,
    quick: bool,
}

impl Plan {
    fn new(quick: bool) -> Plan {
        Plan {
            rounds: if quick { 3 } else { 25 },
            calls: 10,
            quick,
        }
    }

    /// Fewer rounds for the revisings and the rangings, since a call of each takes as long as five choices. They see to their calls by
    /// themselves.
    fn beside_one_choice(&self) -> Plan {
        Plan {
            rounds: (self.rounds / 4).max(1),
            calls: 1,
            ..*self
        }
    }
}

fn main() -> ExitCode {
    let arguments: Vec<String> = std::env::args().skip(1).collect();
    let done = match arguments.iter().map(String::as_str).collect::<Vec<_>>()[..] {
        [] => run(&Plan::new(false)),
        ["--quick"] => run(&Plan::new(true)),
        ["--picks"] => run_picks(&Plan::new(false)),
        ["--houses"] => run_houses(&Plan::new(false)),
        ["--revisions"] => run_revisions(&Plan::new(false)),
        ["--ranges"] => run_ranges(&Plan::new(false)),
        ["--beside", other, this] => run_beside(Path::new(other), Path::new(this)),
        _ => {
            eprintln!("{USAGE}");
            return ExitCode::from(2);
        }
    };
    match done {
        Ok(()) => ExitCode::SUCCESS,
        Err(message) => {
            eprintln!("{message}");
            ExitCode::FAILURE
        }
    }
}

fn run(plan: &Plan) -> Result<(), String> {
    println!("Machine: {}", machine::description());
    println!("IQ-TREE: {}", machine::version(iqtree::PROGRAM, "-V"));
    println!("GLPK: {}\n", machine::version(glpk::PROGRAM, "--version"));
    let scratch = Scratch::new().map_err(|error| error.to_string())?;
    let mut buffers = Buffers::new(RECORDS, COUNT);
    // First, since a difference in these ends the benchmark.
    let (pickings, picked) = pickings(plan, &mut buffers)?;
    let (sortings, sorted) = sortings(plan)?;
    let (revisings, revised) = revisings(plan, &mut buffers)?;
    let (rangings, ranged) = rangings(plan, &mut buffers)?;
    let mut groups = groups();
    let mut sizes = size_cases();
    let all = groups.iter_mut().flatten().chain(&mut sizes);
    all.for_each(|case| case.first_call(&mut buffers));
    measure(plan, &mut groups, &mut sizes, &mut buffers, scratch.path())?;
    if !plan.quick {
        run_slow_peers(&mut groups, &mut buffers, scratch.path())?;
    }
    let readings = measured(plan, reading::all(), Reading::measure);
    let writings = measured(plan, writing::all(), Writing::measure);
    let listings = measured(plan, listing::all(), Listing::measure);
    let viewings = viewing::all();
    let agreement = viewing::agreement(&viewings);
    let viewings = measured(plan, viewings, Viewing::measure);
    print(plan, &groups, &sizes);
    report::readings(&readings);
    report::writings(&writings);
    report::listings(&listings);
    report::viewings(&viewings, agreement);
    report::pickings(&pickings, &picked);
    report::sortings(&sortings, &sorted);
    report::revisings(&revisings, &revised);
    report::rangings(&rangings, &ranged);
    Ok(())
}

fn run_picks(plan: &Plan) -> Result<(), String> {
    println!("Machine: {}\n", machine::description());
    let (pickings, picked) = pickings(plan, &mut Buffers::new(RECORDS, COUNT))?;
    report::pickings(&pickings, &picked);
    Ok(())
}

fn run_houses(plan: &Plan) -> Result<(), String> {
    println!("Machine: {}\n", machine::description());
    let (sortings, sorted) = sortings(plan)?;
    report::sortings(&sortings, &sorted);
    Ok(())
}

fn run_revisions(plan: &Plan) -> Result<(), String> {
    println!("Machine: {}\n", machine::description());
    let (revisings, revised) = revisings(plan, &mut Buffers::new(RECORDS, COUNT))?;
    report::revisings(&revisings, &revised);
    Ok(())
}

fn run_ranges(plan: &Plan) -> Result<(), String> {
    println!("Machine: {}\n", machine::description());
    let (rangings, ranged) = rangings(plan, &mut Buffers::new(RECORDS, COUNT))?;
    report::rangings(&rangings, &ranged);
    Ok(())
}

fn run_beside(other: &Path, this: &Path) -> Result<(), String> {
    let (other, this) = (Build::load(other)?, Build::load(this)?);
    println!("Machine: {}\n", machine::description());
    report::builds(&beside::pairs(&other, &this));
    Ok(())
}

/// The cases of each outline and way, by growing count.
fn groups() -> Vec<Vec<Case>> {
    let mut groups = Vec::new();
    for instance in instances::shapes_at_full_size() {
        for way in 0..2 {
            let counts = COUNTS.into_iter().chain([instance.count]);
            groups.push(
                counts
                    .map(|count| Case::new(&instance, way, count))
                    .collect(),
            );
        }
    }
    groups
}

/// The cases of each shape and way, by growing size.
fn size_cases() -> Vec<Case> {
    let mut cases = Vec::new();
    for instance in instances::sizes() {
        cases.extend((0..2).map(|way| Case::new(&instance, way, COUNT)));
    }
    cases.sort_by_key(|case| (case.name.clone(), case.way));
    cases
}

fn measure(
    plan: &Plan,
    groups: &mut [Vec<Case>],
    sizes: &mut [Case],
    buffers: &mut Buffers,
    scratch: &Path,
) -> Result<(), String> {
    let iqtree = machine::on_path(iqtree::PROGRAM);
    for round in 1..=plan.rounds {
        eprintln!("round {round} of {}", plan.rounds);
        for case in groups.iter_mut().flatten() {
            (0..plan.calls).for_each(|_| case.measure(buffers));
            if iqtree && !case.tree.has_headings() {
                case.run_iqtree(scratch)?;
            }
        }
        for case in sizes.iter_mut() {
            (0..plan.calls).for_each(|_| case.measure(buffers));
        }
    }
    Ok(())
}

/// The pickings with their times, and what was compared before.
fn pickings(
    plan: &Plan,
    buffers: &mut Buffers,
) -> Result<(Vec<Picking>, picking::Agreement), String> {
    let all = picking::all();
    let agreement = picking::agreement(&all, buffers)?;
    let all = measured(plan, all, Picking::measure);
    let all = measured(plan, all, |picking| picking.measure_choosing(buffers));
    Ok((all, agreement))
}

/// The sortings with their times, and what was compared before.
fn sortings(plan: &Plan) -> Result<(Vec<Sorting>, sorting::Agreement), String> {
    let all = sorting::all();
    let agreement = sorting::agreement(&all)?;
    Ok((measured(plan, all, Sorting::measure), agreement))
}

/// The revisings with their times, and what was compared before.
fn revisings(
    plan: &Plan,
    buffers: &mut Buffers,
) -> Result<(Vec<Revising>, revising::Agreement), String> {
    let all = revising::all();
    let agreement = revising::agreement(&all)?;
    let all = measured(&plan.beside_one_choice(), all, |revising| {
        revising.measure(buffers)
    });
    Ok((all, agreement))
}

/// The rangings with their times, and what was compared before.
fn rangings(
    plan: &Plan,
    buffers: &mut Buffers,
) -> Result<(Vec<Ranging>, ranging::Agreement), String> {
    let all = ranging::all();
    let agreement = ranging::agreement(&all)?;
    let all = measured(&plan.beside_one_choice(), all, |ranging| {
        ranging.measure(buffers)
    });
    Ok((all, agreement))
}

/// The readings, the writings, the listings, the viewings, the pickings, the sortings, the revisings or the rangings, with their
/// times.
fn measured<T>(plan: &Plan, mut all: Vec<T>, mut measure: impl FnMut(&mut T)) -> Vec<T> {
    for _ in 0..plan.rounds {
        for one in &mut all {
            (0..plan.calls).for_each(|_| measure(one));
        }
    }
    all
}

/// The peers that may be slow, after the rounds and only on the largest count of each outline and way.
fn run_slow_peers(
    groups: &mut [Vec<Case>],
    buffers: &mut Buffers,
    scratch: &Path,
) -> Result<(), String> {
    let glpk = machine::on_path(glpk::PROGRAM);
    let empty = if glpk { glpk::empty(scratch)? } else { 0.0 };
    for case in groups.iter_mut().filter_map(|group| group.last_mut()) {
        eprintln!("GLPK and the tables: {}, way {}", case.name, case.way);
        if glpk {
            case.run_glpk(scratch, empty)?;
        }
        case.run_tables(buffers);
    }
    Ok(())
}

fn print(plan: &Plan, groups: &[Vec<Case>], sizes: &[Case]) {
    let missing = Missing {
        iqtree: "not installed",
        glpk: if machine::on_path(glpk::PROGRAM) {
            "not run"
        } else {
            "not installed"
        },
        table: "not run",
    };
    let largest: Vec<&Case> = groups.iter().filter_map(|group| group.last()).collect();
    println!(
        "Rounds: {}, each with {} calls of plates and one run of IQ-TREE per case.\n",
        plan.rounds, plan.calls
    );
    report::side_by_side(&largest, &missing);
    report::growth_with_count(groups);
    report::growth_with_records(sizes);
    report::agreement(groups.iter().flatten().chain(sizes));
    report::worst(&largest);
}
