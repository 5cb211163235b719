//! Document 01's proofing cases, with what it states about each.

use crate::outline::{bytes, Record, ROOTED, UNROOTED};
use crate::random::Random;
use crate::shapes;

/// A call and the selection stated for it.
pub struct Case {
    pub name: &'static str,
    pub records: Vec<Record>,
    pub count: u32,
    pub way: u32,
    pub diversity: u32,
    pub cost: u32,
    pub spare: u32,
    /// Record numbers of the chosen taxa.
    pub chosen: Vec<usize>,
}

impl Case {
    pub fn marks(&self) -> Vec<u8> {
        let mut marks = vec![0; self.records.len()];
        for &number in &self.chosen {
            marks[number - 1] = 1;
        }
        marks
    }
}

pub(crate) fn group(next: u16, first: u16, length: u32) -> Record {
    Record {
        next,
        first,
        length,
        ..Record::default()
    }
}

pub(crate) fn taxon(next: u16, length: u32, price: u32, plate: u32) -> Record {
    Record {
        next,
        first: 0,
        length,
        price,
        plate,
    }
}

pub fn tree_a() -> Vec<Record> {
    vec![
        group(0, 2, 0),
        group(5, 3, 3),
        taxon(4, 4, 3, 11),
        taxon(0, 2, 1, 12),
        taxon(0, 5, 2, 13),
    ]
}

pub(crate) fn tree_b() -> Vec<Record> {
    vec![group(0, 2, 0), group(0, 3, 7), taxon(0, 0, 2, 1)]
}

pub(crate) fn tree_c(length: u32, price: u32) -> Vec<Record> {
    vec![
        group(0, 2, 0),
        taxon(3, length, price, 1),
        taxon(0, length, price, 2),
    ]
}

pub(crate) fn tree_d() -> Vec<Record> {
    vec![
        group(0, 2, 0),
        taxon(3, 6, 3, 1),
        taxon(4, 5, 2, 2),
        taxon(0, 5, 2, 3),
    ]
}

pub(crate) fn case(
    name: &'static str,
    (records, count, way): (Vec<Record>, u32, u32),
    [diversity, cost, spare]: [u32; 3],
    chosen: &[usize],
) -> Case {
    Case {
        name,
        records,
        count,
        way,
        diversity,
        cost,
        spare,
        chosen: chosen.to_vec(),
    }
}

/// The cases that document 01 stars.
pub fn starred() -> Vec<Case> {
    let one = || vec![taxon(0, 5, 1, 1)];
    vec![
        case("A1", (tree_a(), 2, ROOTED), [5, 1, 1], &[4]),
        case("A2", (tree_a(), 2, UNROOTED), [0, 0, 2], &[]),
        case("A3", (tree_a(), 3, UNROOTED), [10, 3, 0], &[4, 5]),
        case("A4", (tree_a(), 6, ROOTED), [14, 6, 0], &[3, 4, 5]),
        case("A4", (tree_a(), 6, UNROOTED), [14, 6, 0], &[3, 4, 5]),
        case("B1", (tree_b(), 2, ROOTED), [7, 2, 0], &[3]),
        case("B2", (tree_b(), 1, ROOTED), [0, 0, 1], &[]),
        case("C1", (tree_c(4, 1), 1, ROOTED), [4, 1, 0], &[2]),
        case("C2", (tree_c(0, 0), 0, ROOTED), [0, 0, 0], &[2, 3]),
        case("D", (tree_d(), 4, ROOTED), [10, 4, 0], &[3, 4]),
        case("E", (one(), 1, ROOTED), [5, 1, 0], &[1]),
        case("E", (one(), 1, UNROOTED), [0, 0, 1], &[]),
    ]
}

const LEVELS_OF_G: u32 = 6;
const PRICE_OF_G: u32 = 64;

pub fn case_g(way: u32) -> Case {
    let mut records = shapes::balanced(LEVELS_OF_G);
    shapes::fill(&mut records, &mut Random::new(0), |_| 1, |_| PRICE_OF_G);
    let chosen: Vec<usize> = (1..records.len())
        .filter(|&number| records[number - 1].is_taxon())
        .collect();
    let diversity = if way == ROOTED { 126 } else { 125 };
    let call = (records, 4_095, way);
    case("G", call, [diversity, 4_032, 63], &chosen)
}

/// Case G's curve in closed form: so many taxa, spread as wide as can be, reach that many branches on each level.
pub fn curve_of_g(way: u32) -> Vec<[u32; 2]> {
    let (top, fewest) = if way == ROOTED { (0, 1) } else { (1, 2) };
    (0..=4_095)
        .map(|count| {
            let taxa = count / PRICE_OF_G;
            if taxa < fewest {
                return [0, 0];
            }
            let reached = (top..=LEVELS_OF_G).map(|level| taxa.min(1 << level));
            [reached.sum(), taxa * PRICE_OF_G]
        })
        .collect()
}

/// A call at a limit and the refusal stated for it, number 0 where it passes.
pub struct Limit {
    pub outline: Vec<u8>,
    pub count: u32,
    pub number: u32,
    pub place: u32,
}

/// Case F.
pub fn limits() -> Vec<Limit> {
    let limit = |(outline, count, number, place)| Limit {
        outline,
        count,
        number,
        place,
    };
    [
        (long_branch(1_000_000), 5, 0, 0),
        (long_branch(1_000_001), 5, 5, 3),
        (bytes(&tree_a()), 4_096, 0, 0),
        (bytes(&tree_a()), 4_097, 4, 0),
        (of_records(127), 5, 0, 0),
        (of_records(128), 5, 3, 0),
        (bytes(&shapes::star(64)), 5, 0, 0),
        (bytes(&shapes::star(65)), 5, 7, 0),
        (of_bytes(16), 5, 0, 0),
        (of_bytes(15), 5, 2, 0),
        (of_bytes(17), 5, 2, 0),
    ]
    .map(limit)
    .into()
}

/// Tree A with this length at record 3.
fn long_branch(length: u32) -> Vec<u8> {
    let mut records = tree_a();
    records[2].length = length;
    bytes(&records)
}

fn of_records(records: usize) -> Vec<u8> {
    bytes(&shapes::random_outline_of(3, records, &mut Random::new(0)))
}

/// The record of a single taxon, cut or lengthened.
fn of_bytes(size: usize) -> Vec<u8> {
    let mut outline = bytes(&[taxon(0, 5, 1, 1)]);
    outline.resize(size, 0);
    outline
}
