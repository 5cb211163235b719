//! Two builds of the library, both loaded from shared objects, and the times of one beside those of the other.

use crate::case::{Buffers, Case, Choose, Outcome};
use crate::times::Times;
use crate::{instances, RECORDS};
use std::ffi::{c_char, c_int, c_void, CStr, CString};
use std::fs;
use std::mem::transmute;
use std::os::unix::ffi::OsStrExt;
use std::path::Path;

/// One round takes every case in turn, so that a busy spell of the machine meets all alike.
const ROUNDS: usize = 50;
/// Calls of each build in a round.
const CALLS: usize = 20;
const SMALL_COUNT: u32 = 64;
/// The refusal of an outline with headings by a build from before they were allowed.
const FIELD_OUT_OF_RANGE: u32 = 5;

type PlatesChoose = unsafe extern "C" fn(
    *const u8,
    usize,
    u32,
    u32,
    *mut u8,
    usize,
    *mut u32,
    usize,
    *mut u64,
    usize,
    *mut u32,
) -> u32;

extern "C" {
    fn dlopen(file: *const c_char, flags: c_int) -> *mut c_void;
    fn dlsym(object: *mut c_void, name: *const c_char) -> *mut c_void;
    fn dlerror() -> *const c_char;
}

/// All symbols are to be found at once, so that no call has to look for one.
const RTLD_NOW: c_int = 2;

/// A build that stays loaded until the process ends.
pub struct Build(PlatesChoose);

impl Build {
    pub fn load(file: &Path) -> Result<Build, String> {
        // By a whole path no other place is searched.
        let path =
            fs::canonicalize(file).map_err(|error| format!("{}: {error}", file.display()))?;
        let path = CString::new(path.as_os_str().as_bytes()).expect("no path has a zero byte");
        // SAFETY: both names end in a zero byte. The symbol is the function that plates.h declares.
        unsafe {
            let object = dlopen(path.as_ptr(), RTLD_NOW);
            if object.is_null() {
                return Err(latest_error());
            }
            let choose = dlsym(object, c"plates_choose".as_ptr());
            if choose.is_null() {
                return Err(latest_error());
            }
            Ok(Build(transmute::<*mut c_void, PlatesChoose>(choose)))
        }
    }

    fn choose(
        &self,
        outline: &[u8],
        count: u32,
        way: u32,
        marks: &mut [u8],
        curve: &mut [u32],
        work: &mut [u64],
    ) -> [u32; 6] {
        let mut answer = [0; 6];
        // SAFETY: every pointer comes with the length of the slice it was taken from, and no two slices overlap.
        unsafe {
            self.0(
                outline.as_ptr(),
                outline.len(),
                count,
                way,
                marks.as_mut_ptr(),
                marks.len(),
                curve.as_mut_ptr(),
                curve.len(),
                work.as_mut_ptr(),
                work.len(),
                answer.as_mut_ptr(),
            );
        }
        answer
    }
}

fn latest_error() -> String {
    // SAFETY: called after a failure, so that there is a message, which ends in a zero byte.
    let message = unsafe { CStr::from_ptr(dlerror()) };
    message.to_string_lossy().into_owned()
}

/// A case with the times of both builds.
pub struct Pair {
    pub case: Case,
    pub other: Times,
    pub this: Times,
    /// The other build takes no headings.
    pub refused: bool,
}

impl Pair {
    fn new(case: Case) -> Pair {
        Pair {
            case,
            other: Times::default(),
            this: Times::default(),
            refused: false,
        }
    }

    /// The first calls, not timed: answers, marks and curves are compared.
    fn first_calls(&mut self, other: Choose, this: Choose, buffers: &mut Buffers) {
        let theirs = self.case.outcome_by(other, buffers);
        let ours = self.case.outcome_by(this, buffers);
        self.refused = self.case.tree.has_headings() && theirs.answer[0] == FIELD_OUT_OF_RANGE;
        if !self.refused {
            self.compare(theirs, ours);
        }
    }

    fn compare(&mut self, theirs: Outcome, ours: Outcome) {
        let whose = "the other build's";
        let case = &mut self.case;
        case.compare(&format!("{whose} answer"), theirs.answer, ours.answer);
        case.compare(&format!("{whose} marks"), theirs.marks, ours.marks);
        let columns = theirs.columns.into_iter().zip(ours.columns);
        for (number, (theirs, ours)) in columns.enumerate() {
            case.compare(&format!("{whose} column {number}"), theirs, ours);
        }
    }

    /// A call of each, in turn.
    fn measure(&mut self, other: Choose, this: Choose, buffers: &mut Buffers) {
        self.other.add(self.case.time_by(other, buffers));
        self.this.add(self.case.time_by(this, buffers));
    }
}

/// Every shape, both ways, at a small count and the largest.
pub fn pairs(other: &Build, this: &Build) -> Vec<Pair> {
    let other: Choose = &|outline, count, way, marks, curve, work| {
        other.choose(outline, count, way, marks, curve, work)
    };
    let this: Choose = &|outline, count, way, marks, curve, work| {
        this.choose(outline, count, way, marks, curve, work)
    };
    let mut buffers = Buffers::new(RECORDS, instances::COUNT);
    let mut pairs = cases();
    for pair in &mut pairs {
        pair.first_calls(other, this, &mut buffers);
    }
    for round in 1..=ROUNDS {
        eprintln!("round {round} of {ROUNDS}");
        for pair in pairs.iter_mut().filter(|pair| !pair.refused) {
            (0..CALLS).for_each(|_| pair.measure(other, this, &mut buffers));
        }
    }
    pairs
}

fn cases() -> Vec<Pair> {
    let mut pairs = Vec::new();
    for instance in instances::shapes_at_full_size() {
        for (way, count) in [
            (0, SMALL_COUNT),
            (0, instance.count),
            (1, SMALL_COUNT),
            (1, instance.count),
        ] {
            pairs.push(Pair::new(Case::new(&instance, way, count)));
        }
    }
    pairs
}
