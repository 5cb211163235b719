//! IQ-TREE 2's diversity part on one budget: the tree as a circular split network, the prices as a cost file.

use crate::times::timed;
use crate::tree::{members, Tree};
use std::collections::BTreeMap;
use std::fmt::Write;
use std::path::Path;
use std::process::Command;
use std::{fs, io};

pub const PROGRAM: &str = "iqtree2-omp";

const NETWORK: &str = "network.nex";
const COSTS: &str = "costs";
const RESULT: &str = "network.nex.pda";
/// The taxon of price 0 that stands above the root in the rooted way.
const ROOT: &str = "root";

pub struct Run {
    /// The program's own figure: user time of the search alone.
    pub search: f64,
    /// Wall time of the whole process.
    pub process: f64,
    pub score: f64,
    pub set: u64,
}

/// Writes the two files into the folder and runs the program once.
pub fn run(folder: &Path, tree: &Tree, count: u32, way: u32) -> Result<Run, String> {
    write(folder, tree, count, way).map_err(|error| error.to_string())?;
    let mut command = Command::new(PROGRAM);
    command.current_dir(folder);
    command.args([NETWORK, "-u", COSTS, "-k", "2"]);
    if way == 0 {
        command.args(["-o", ROOT]);
    }
    let (output, process) = timed(|| command.output());
    let output = output.map_err(|error| error.to_string())?;
    let result = folder.join(RESULT);
    let text = fs::read_to_string(&result).map_err(|error| error.to_string())?;
    // A later run must not be judged by this run's result.
    fs::remove_file(&result).map_err(|error| error.to_string())?;
    let printed = || String::from_utf8_lossy(&output.stdout).into_owned();
    read(&text, process).ok_or_else(printed)
}

fn write(folder: &Path, tree: &Tree, count: u32, way: u32) -> io::Result<()> {
    fs::write(folder.join(NETWORK), network(tree, way))?;
    fs::write(folder.join(COSTS), costs(tree, count, way))
}

fn name(taxon: usize) -> String {
    format!("t{taxon}")
}

/// The names in circular order. The root's taxon comes first, so that no clade is torn apart.
fn names(tree: &Tree, way: u32) -> Vec<String> {
    let root = (way == 0).then(|| ROOT.to_string());
    let taxa = (0..tree.taxa.len()).map(name);
    root.into_iter().chain(taxa).collect()
}

fn network(tree: &Tree, way: u32) -> String {
    let names = names(tree, way);
    let splits = splits(tree, way);
    let taxa = names.len();
    let cycle: Vec<String> = (1..=taxa).map(|place| place.to_string()).collect();
    let mut text = format!(
        "#NEXUS\nBEGIN TAXA;\nDIMENSIONS NTAX={taxa};\nTAXLABELS {};\nEND;\n\
         BEGIN SPLITS;\nDIMENSIONS NTAX={taxa} NSPLITS={};\n\
         FORMAT LABELS=NO WEIGHTS=YES;\nCYCLE {};\nMATRIX\n",
        names.join(" "),
        splits.len(),
        cycle.join(" ")
    );
    let shift = if way == 0 { 2 } else { 1 };
    for (side, length) in splits {
        let places: Vec<String> = members(side)
            .map(|taxon| (taxon + shift).to_string())
            .collect();
        writeln!(text, "{length} {},", places.join(" ")).unwrap();
    }
    text + ";\nEND;\n"
}

/// One side of each split and its length; records that part the taxa alike are one split.
/// Unrooted, a clade and all other taxa are the same split, and the root parts nothing.
fn splits(tree: &Tree, way: u32) -> BTreeMap<u64, u64> {
    let mut splits = BTreeMap::new();
    for (record, &below) in tree.records.iter().zip(&tree.below) {
        let other = tree.all() & !below;
        if way == 1 && other == 0 {
            continue;
        }
        let side = if way == 1 { below.min(other) } else { below };
        *splits.entry(side).or_insert(0) += u64::from(record.length);
    }
    splits
}

/// The budget, then a line per taxon.
fn costs(tree: &Tree, count: u32, way: u32) -> String {
    let mut text = format!("{count}\n");
    if way == 0 {
        writeln!(text, "{ROOT} 0").unwrap();
    }
    for taxon in 0..tree.taxa.len() {
        writeln!(text, "{} {}", name(taxon), tree.price(taxon)).unwrap();
    }
    text
}

fn read(text: &str, process: f64) -> Option<Run> {
    let mut lines = text.lines();
    let headline = lines.find(|line| line.starts_with("For budget = "))?;
    let score = headline.split(' ').next_back()?.parse().ok()?;
    let mut set = 0;
    for line in lines.by_ref().take_while(|line| !line.starts_with("===")) {
        let taxon = line.split_whitespace().next().unwrap_or_default();
        if let Some(number) = taxon.strip_prefix('t') {
            set |= 1u64 << number.parse::<u32>().ok()?;
        }
    }
    let time = lines.find_map(|line| line.strip_prefix("Time used: "))?;
    let search = time.split(' ').next()?.parse().ok()?;
    Some(Run {
        search,
        process,
        score,
        set,
    })
}
