//! One measured call: an outline, a way and a count, with the times of plates and its peers and where they differ.

use crate::instances::Instance;
use crate::times::{timed, Times};
use crate::tree::Tree;
use crate::{glpk, iqtree, plain};
use plates_scale::call::needed;
use plates_scale::table::{self, Best};
use plates_scale::{library, outline};
use std::fmt::Debug;
use std::fs;
use std::hint::black_box;
use std::path::{Path, PathBuf};

/// What a call is given to write into, large enough for every case.
pub struct Buffers {
    marks: Vec<u8>,
    curve: Vec<u32>,
    work: Vec<u64>,
}

impl Buffers {
    pub fn new(records: usize, count: u32) -> Self {
        let [marks, curve, work] = needed(records, count);
        Buffers {
            marks: vec![0; marks],
            curve: vec![0; curve],
            work: vec![0; work],
        }
    }

    /// As much of each as a call needs.
    pub fn needed(&mut self, records: usize, count: u32) -> (&mut [u8], &mut [u32], &mut [u64]) {
        let [marks, curve, work] = needed(records, count);
        (
            &mut self.marks[..marks],
            &mut self.curve[..curve],
            &mut self.work[..work],
        )
    }

    /// `plates_choose` with the whole of each.
    pub fn choose(&mut self, outline: &[u8], count: u32, way: u32) -> [u32; 6] {
        let Buffers { marks, curve, work } = self;
        library::choose(outline, count, way, marks, curve, work)
    }
}

/// `plates_choose` of a build: outline, count, way, marks, curve and work are handed over, and the answer is given.
pub type Choose<'a> = &'a dyn Fn(&[u8], u32, u32, &mut [u8], &mut [u32], &mut [u64]) -> [u32; 6];

/// What a call gave: its answer, the marks, and the curve by columns.
pub struct Outcome {
    pub answer: [u32; 6],
    pub marks: Vec<u8>,
    pub columns: Vec<[u32; 2]>,
}

/// Whether a peer that may be slow is to run once more: five times in all, or once if that takes more than a second.
fn few(times: &Times) -> bool {
    times.len() < 5 && times.shortest().is_none_or(|seconds| seconds < 1.0)
}

/// IQ-TREE's times.
#[derive(Default)]
pub struct Iqtree {
    /// Its own figure for the search.
    pub search: Times,
    /// From the start of the process to its end.
    pub process: Times,
    /// The same with budget 0, where there is nothing to search.
    pub empty: Times,
}

impl Iqtree {
    /// The process less one that searches nothing.
    pub fn beyond_empty(&self) -> Option<f64> {
        Some(self.process.shortest()? - self.empty.shortest()?)
    }
}

pub struct Case {
    pub name: String,
    pub way: u32,
    pub count: u32,
    pub tree: Tree,
    pub plates: Times,
    pub clearing: Times,
    pub iqtree: Iqtree,
    pub glpk: Times,
    /// GLPK did not come to an end.
    pub glpk_gave_up: bool,
    /// The plain table, and the one that goes over the costs that occur.
    pub plain: Times,
    pub table: Times,
    /// How many answers were compared with that of plates, and those that differ.
    pub compared: usize,
    pub differences: Vec<String>,
    outline: Vec<u8>,
    diversity: u64,
}

impl Case {
    pub fn new(instance: &Instance, way: u32, count: u32) -> Self {
        Case {
            name: instance.name.clone(),
            way,
            count,
            tree: Tree::new(&instance.records),
            plates: Times::default(),
            clearing: Times::default(),
            iqtree: Iqtree::default(),
            glpk: Times::default(),
            glpk_gave_up: false,
            plain: Times::default(),
            table: Times::default(),
            compared: 0,
            differences: Vec::new(),
            outline: outline::bytes(&instance.records),
            diversity: 0,
        }
    }

    /// The needed lengths of marks, curve and work.
    fn needed(&self) -> [usize; 3] {
        needed(self.tree.records.len(), self.count)
    }

    fn choose(&self, buffers: &mut Buffers) -> [u32; 6] {
        self.choose_by(&library::choose, buffers)
    }

    fn choose_by(&self, choose: Choose, buffers: &mut Buffers) -> [u32; 6] {
        let (marks, curve, work) = buffers.needed(self.tree.records.len(), self.count);
        choose(&self.outline, self.count, self.way, marks, curve, work)
    }

    /// The wall time of a call.
    pub fn time_by(&self, choose: Choose, buffers: &mut Buffers) -> f64 {
        let (answer, seconds) = timed(|| self.choose_by(choose, buffers));
        black_box(answer);
        seconds
    }

    pub fn outcome_by(&self, choose: Choose, buffers: &mut Buffers) -> Outcome {
        let [marks, curve, _] = self.needed();
        let answer = self.choose_by(choose, buffers);
        let columns = buffers.curve[..curve].chunks(2);
        Outcome {
            answer,
            marks: buffers.marks[..marks].to_vec(),
            columns: columns.map(|column| [column[0], column[1]]).collect(),
        }
    }

    pub fn compare<T: PartialEq + Debug>(&mut self, whose: &str, theirs: T, ours: T) {
        self.compared += 1;
        if theirs != ours {
            let case = format!("{}, way {}, count {}", self.name, self.way, self.count);
            let difference = format!("{case}: {whose} {theirs:?}, plates {ours:?}");
            self.differences.push(difference);
        }
    }

    /// The first call, not timed: its answer is what the peers' answers are compared with.
    pub fn first_call(&mut self, buffers: &mut Buffers) {
        let [number, _, diversity, cost, ..] = self.choose(buffers);
        self.compare("number", 0, number);
        self.diversity = u64::from(diversity);
        let set = self.tree.marked(&buffers.marks);
        let theirs = (self.tree.diversity(set, self.way), self.tree.cost(set));
        let ours = (self.diversity, u64::from(cost));
        self.compare("the marked set's diversity and cost", theirs, ours);
    }

    /// A call, and then the clearing of as much of `work` as the call uses.
    pub fn measure(&mut self, buffers: &mut Buffers) {
        self.plates.add(self.time_by(&library::choose, buffers));
        let [_, _, work] = self.needed();
        let work = black_box(&mut buffers.work[..work]);
        let ((), seconds) = timed(|| work.fill(0));
        black_box(work);
        self.clearing.add(seconds);
    }

    fn folder(&self, scratch: &Path) -> Result<PathBuf, String> {
        let name = format!("{}-{}-{}", self.name, self.way, self.count);
        let folder = scratch.join(name.replace([' ', ','], "-"));
        fs::create_dir_all(&folder).map_err(|error| error.to_string())?;
        Ok(folder)
    }

    pub fn run_iqtree(&mut self, scratch: &Path) -> Result<(), String> {
        let folder = self.folder(scratch)?;
        let empty = iqtree::run(&folder, &self.tree, 0, self.way)?;
        self.iqtree.empty.add(empty.process);
        let run = iqtree::run(&folder, &self.tree, self.count, self.way)?;
        self.iqtree.search.add(run.search);
        self.iqtree.process.add(run.process);
        let fits = self.tree.cost(run.set) <= u64::from(self.count);
        let of_set = self.tree.diversity(run.set, self.way);
        self.compare("IQ-TREE's score", run.score, self.diversity as f64);
        self.compare("IQ-TREE's set", (fits, of_set), (true, self.diversity));
        Ok(())
    }

    /// `empty` is the time of a program with nothing to decide.
    pub fn run_glpk(&mut self, scratch: &Path, empty: f64) -> Result<(), String> {
        let folder = self.folder(scratch)?;
        glpk::write(&folder, &self.tree, self.count, self.way)?;
        while !self.glpk_gave_up && few(&self.glpk) {
            let run = glpk::run(&folder)?;
            match run.optimum {
                Some(optimum) => {
                    self.compare("GLPK's optimum", optimum, self.diversity);
                    self.glpk.add(run.process - empty);
                }
                None => self.glpk_gave_up = true,
            }
        }
        Ok(())
    }

    /// Both tables: every column and the last column's set are compared.
    pub fn run_tables(&mut self, buffers: &mut Buffers) {
        self.choose(buffers);
        let (records, way, count) = (self.tree.records.clone(), self.way, self.count as usize);
        while few(&self.plain) {
            let (best, seconds) = timed(|| plain::optima(&records, way, count));
            self.plain.add(seconds);
            self.compare_columns("the plain table", &best, buffers);
        }
        while few(&self.table) {
            let (best, seconds) = timed(|| table::optima(&records, way, count));
            self.table.add(seconds);
            self.compare_columns("the table of costs", &best, buffers);
        }
    }

    fn compare_columns(&mut self, whose: &str, best: &[Best], buffers: &Buffers) {
        let ours = self.tree.marked(&buffers.marks);
        let theirs = self.tree.in_walk_order(best[best.len() - 1].set);
        self.compare(&format!("{whose}'s set"), theirs, ours);
        for (column, ours) in buffers.curve[..2 * best.len()].chunks(2).enumerate() {
            let theirs = [best[column].diversity, best[column].cost];
            self.compare(&format!("{whose}'s column {column}"), &theirs[..], ours);
        }
    }
}
