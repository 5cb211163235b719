//! Cases with locks, worked by hand. They are ours: document 02, §4, states the rule and no case.

use crate::cases::{case, case_g, curve_of_g, taxon, tree_a, tree_c, Case, Limit};
use crate::exhaustive::NOTHING;
use crate::heading_cases::{beside, lone, tree_a_with, tree_of_125_headings, two_groups};
use crate::outline::{bytes, Record, LOCK, MOST_PLATE, ROOTED, UNROOTED};

/// A case and its curve.
pub struct CurveCase {
    pub case: Case,
    pub columns: Vec<[u32; 2]>,
}

/// From this column on, diversity and cost.
type Step = (u32, [u32; 2]);

/// An outline, a way and the steps of its curve, of which each page count shows a part.
struct Curve<'a> {
    name: &'static str,
    records: Vec<Record>,
    way: u32,
    steps: &'a [Step],
}

impl Curve<'_> {
    /// Diversity, cost and spare at this page count, and the records chosen.
    fn at(&self, count: u32, numbers: [u32; 3], chosen: &[usize]) -> CurveCase {
        let call = (self.records.clone(), count, self.way);
        let column = |b| {
            let mut steps = self.steps.iter().rev();
            let (_, column) = steps.find(|(from, _)| *from <= b).expect("a step");
            *column
        };
        CurveCase {
            case: case(self.name, call, numbers, chosen),
            columns: (0..=count).map(column).collect(),
        }
    }
}

/// The records with these numbers get bit 31.
pub(crate) fn locking(numbers: &[usize], mut records: Vec<Record>) -> Vec<Record> {
    for &number in numbers {
        records[number - 1].plate |= LOCK;
    }
    records
}

pub fn all() -> Vec<CurveCase> {
    let mut all = none();
    all.extend(one());
    all.extend(another());
    all.extend(two());
    all.extend(every());
    all.extend(below_a_dear_heading());
    all.extend(beside_a_dear_heading());
    all.extend(of_no_diversity());
    all.extend(free());
    all.extend(opening_a_heading());
    all.extend(ties());
    all.extend(in_two_groups());
    all.extend(deep());
    all.extend(full());
    all
}

/// Tree A as it is: {4} is 5 for 1, {5} 5 for 2, {4, 5} 10 for 3, {3} 7 for 3, {3, 4} 9 for 4, {3, 5} 12 for 5, all 14 for 6.
/// Unrooted a lone taxon is 0, {3, 4} 6, and the others are the same.
fn none() -> Vec<CurveCase> {
    let curve = |way, steps| Curve {
        name: "tree A, no lock",
        records: tree_a(),
        way,
        steps,
    };
    let rooted = curve(
        ROOTED,
        &[(0, [0, 0]), (1, [5, 1]), (3, [10, 3]), (5, [12, 5])],
    );
    let unrooted = curve(UNROOTED, &[(0, [0, 0]), (3, [10, 3]), (5, [12, 5])]);
    vec![
        rooted.at(2, [5, 1, 1], &[4]),
        rooted.at(5, [12, 5, 0], &[3, 5]),
        unrooted.at(2, [0, 0, 2], &[]),
        unrooted.at(5, [12, 5, 0], &[3, 5]),
    ]
}

/// Tree A with 11 locked, which is record 3.
fn one() -> Vec<CurveCase> {
    let curve = |way, steps| Curve {
        name: "tree A, 11 locked",
        records: locking(&[3], tree_a()),
        way,
        steps,
    };
    let (five, six) = ((5, [12, 5]), (6, [14, 6]));
    let steps = [(0, NOTHING), (3, [7, 3]), (4, [9, 4]), five, six];
    let rooted = curve(ROOTED, &steps[..]);
    let steps = [(0, NOTHING), (3, [0, 3]), (4, [6, 4]), five, six];
    let unrooted = curve(UNROOTED, &steps);
    vec![
        rooted.at(3, [7, 3, 0], &[3]),
        rooted.at(4, [9, 4, 0], &[3, 4]),
        rooted.at(5, [12, 5, 0], &[3, 5]),
        rooted.at(8, [14, 6, 2], &[3, 4, 5]),
        unrooted.at(3, [0, 3, 0], &[3]),
        unrooted.at(4, [6, 4, 0], &[3, 4]),
        unrooted.at(6, [14, 6, 0], &[3, 4, 5]),
    ]
}

/// Tree A with 13 locked, which is record 5: at 2 it is chosen for 2 quarters, unrooted though it shows nothing.
fn another() -> Vec<CurveCase> {
    let curve = |way, steps| Curve {
        name: "tree A, 13 locked",
        records: locking(&[5], tree_a()),
        way,
        steps,
    };
    let rooted = curve(
        ROOTED,
        &[(0, NOTHING), (2, [5, 2]), (3, [10, 3]), (5, [12, 5])],
    );
    let unrooted = curve(
        UNROOTED,
        &[(0, NOTHING), (2, [0, 2]), (3, [10, 3]), (5, [12, 5])],
    );
    vec![
        rooted.at(2, [5, 2, 0], &[5]),
        rooted.at(4, [10, 3, 1], &[4, 5]),
        unrooted.at(2, [0, 2, 0], &[5]),
        unrooted.at(3, [10, 3, 0], &[4, 5]),
        unrooted.at(5, [12, 5, 0], &[3, 5]),
    ]
}

/// Tree A with 11 and 12 locked, records 3 and 4: the 12 that {3, 5} would show at 5 is out of reach.
fn two() -> Vec<CurveCase> {
    let curve = |way, steps| Curve {
        name: "tree A, 11 and 12 locked",
        records: locking(&[3, 4], tree_a()),
        way,
        steps,
    };
    let rooted = curve(ROOTED, &[(0, NOTHING), (4, [9, 4]), (6, [14, 6])]);
    let unrooted = curve(UNROOTED, &[(0, NOTHING), (4, [6, 4]), (6, [14, 6])]);
    vec![
        rooted.at(4, [9, 4, 0], &[3, 4]),
        rooted.at(5, [9, 4, 1], &[3, 4]),
        rooted.at(6, [14, 6, 0], &[3, 4, 5]),
        unrooted.at(4, [6, 4, 0], &[3, 4]),
        unrooted.at(5, [6, 4, 1], &[3, 4]),
        unrooted.at(7, [14, 6, 1], &[3, 4, 5]),
    ]
}

/// Tree A with all locked: one set is left.
fn every() -> Vec<CurveCase> {
    let curve = |way| Curve {
        name: "tree A, all locked",
        records: locking(&[3, 4, 5], tree_a()),
        way,
        steps: &[(0, NOTHING), (6, [14, 6])],
    };
    vec![
        curve(ROOTED).at(6, [14, 6, 0], &[3, 4, 5]),
        curve(ROOTED).at(9, [14, 6, 3], &[3, 4, 5]),
        curve(UNROOTED).at(6, [14, 6, 0], &[3, 4, 5]),
        curve(UNROOTED).at(9, [14, 6, 3], &[3, 4, 5]),
    ]
}

/// Tree A with a heading of 7 above records 3 and 4, the latter locked: {4} is 5 for 8, {4, 5} 10 for 10, {3, 4} 9 for 11, all
/// 14 for 13. Unrooted {4} is 0.
fn below_a_dear_heading() -> Vec<CurveCase> {
    let curve = |way, steps| Curve {
        name: "a lock below a dear heading",
        records: locking(&[4], tree_a_with(0, 7)),
        way,
        steps,
    };
    let rooted = curve(
        ROOTED,
        &[(0, NOTHING), (8, [5, 8]), (10, [10, 10]), (13, [14, 13])],
    );
    let unrooted = curve(
        UNROOTED,
        &[(0, NOTHING), (8, [0, 8]), (10, [10, 10]), (13, [14, 13])],
    );
    vec![
        rooted.at(8, [5, 8, 0], &[4]),
        rooted.at(9, [5, 8, 1], &[4]),
        rooted.at(12, [10, 10, 2], &[4, 5]),
        rooted.at(13, [14, 13, 0], &[3, 4, 5]),
        unrooted.at(8, [0, 8, 0], &[4]),
        unrooted.at(9, [0, 8, 1], &[4]),
        unrooted.at(10, [10, 10, 0], &[4, 5]),
    ]
}

/// The same tree with record 5 locked: {5} is 5 for 2, or 0 unrooted, {4, 5} 10 for 10, {3, 5} 12 for 12. Up to 9 reading for the
/// spare ends at column 2, whatever the diversity.
fn beside_a_dear_heading() -> Vec<CurveCase> {
    let curve = |way, steps| Curve {
        name: "a lock beside a dear heading",
        records: locking(&[5], tree_a_with(0, 7)),
        way,
        steps,
    };
    let rooted = curve(
        ROOTED,
        &[(0, NOTHING), (2, [5, 2]), (10, [10, 10]), (12, [12, 12])],
    );
    let unrooted = curve(
        UNROOTED,
        &[(0, NOTHING), (2, [0, 2]), (10, [10, 10]), (12, [12, 12])],
    );
    vec![
        rooted.at(9, [5, 2, 7], &[5]),
        rooted.at(11, [10, 10, 1], &[4, 5]),
        unrooted.at(9, [0, 2, 7], &[5]),
        unrooted.at(12, [12, 12, 0], &[3, 5]),
    ]
}

/// Two taxa of length 0 and price 2, the second locked: the first would add quarters only. A column that no set fits shows
/// diversity 0 as well, and ends the reading for the spare all the same.
fn of_no_diversity() -> Vec<CurveCase> {
    let curve = |way| Curve {
        name: "a lock of length 0",
        records: locking(&[3], tree_c(0, 2)),
        way,
        steps: &[(0, NOTHING), (2, [0, 2])],
    };
    vec![
        curve(ROOTED).at(2, [0, 2, 0], &[3]),
        curve(ROOTED).at(3, [0, 2, 1], &[3]),
        curve(ROOTED).at(5, [0, 2, 3], &[3]),
        curve(UNROOTED).at(2, [0, 2, 0], &[3]),
        curve(UNROOTED).at(5, [0, 2, 3], &[3]),
    ]
}

/// A free taxon of length 5 is locked: alone it fits every column, and below a heading of 1 each from 1 on.
fn free() -> Vec<CurveCase> {
    let curve = |heading, way, steps| Curve {
        name: "a free lock",
        records: locking(&[2], lone(heading, 5)),
        way,
        steps,
    };
    vec![
        curve(0, ROOTED, &[(0, [5, 0])]).at(0, [5, 0, 0], &[2]),
        curve(0, UNROOTED, &[(0, [0, 0])]).at(3, [0, 0, 3], &[2]),
        curve(1, ROOTED, &[(0, NOTHING), (1, [5, 1])]).at(3, [5, 1, 2], &[2]),
        curve(1, UNROOTED, &[(0, NOTHING), (1, [0, 1])]).at(1, [0, 1, 0], &[2]),
        curve(1, UNROOTED, &[(0, NOTHING), (1, [0, 1])]).at(3, [0, 1, 2], &[2]),
    ]
}

/// A taxon of length 4 and price 1 and a free one of length 0, below a heading of 2. If the free one is locked, it alone costs 2;
/// if the other is, the free one comes with it.
fn opening_a_heading() -> Vec<CurveCase> {
    let curve = |locked, way, steps| Curve {
        name: "a lock opens a heading",
        records: locking(&[locked], beside()),
        way,
        steps,
    };
    let free: [Step; 3] = [(0, NOTHING), (2, [0, 2]), (3, [4, 3])];
    let other: [Step; 2] = [(0, NOTHING), (3, [4, 3])];
    vec![
        curve(3, ROOTED, &free[..]).at(2, [0, 2, 0], &[3]),
        curve(3, ROOTED, &free).at(3, [4, 3, 0], &[2, 3]),
        curve(3, UNROOTED, &free).at(2, [0, 2, 0], &[3]),
        curve(3, UNROOTED, &free).at(4, [4, 3, 1], &[2, 3]),
        curve(2, ROOTED, &other).at(3, [4, 3, 0], &[2, 3]),
        curve(2, UNROOTED, &other).at(3, [4, 3, 0], &[2, 3]),
    ]
}

/// Taxa of length 4 and price 1 with the last one locked: it comes before the lower record, and of the others the lowest is next.
fn ties() -> Vec<CurveCase> {
    let mut three = tree_c(4, 1);
    three[2].next = 4;
    three.push(taxon(0, 4, 1, 3));
    let curve = |records, locked, way, steps| Curve {
        name: "a lock among equals",
        records: locking(&[locked], records),
        way,
        steps,
    };
    let rooted: [Step; 4] = [(0, NOTHING), (1, [4, 1]), (2, [8, 2]), (3, [12, 3])];
    let unrooted: [Step; 4] = [(0, NOTHING), (1, [0, 1]), (2, [8, 2]), (3, [12, 3])];
    vec![
        curve(tree_c(4, 1), 3, ROOTED, &rooted[..]).at(1, [4, 1, 0], &[3]),
        curve(tree_c(4, 1), 3, UNROOTED, &unrooted).at(1, [0, 1, 0], &[3]),
        curve(three.clone(), 4, ROOTED, &rooted).at(2, [8, 2, 0], &[2, 4]),
        curve(three, 4, UNROOTED, &unrooted).at(2, [8, 2, 0], &[2, 4]),
    ]
}

/// Two groups with headings of 3: {4} is 4 for 4, {3, 4} 8 for 5, {4, 6} 11 for 8, {3, 6} 12 for 8, all 15 for 9. Unrooted {4} is
/// 0, {3, 4} 7, and the others are the same. With record 4 locked, {3, 6} is no choice.
fn in_two_groups() -> Vec<CurveCase> {
    let curve = |locked: &[usize], way, steps| Curve {
        name: "locks in two groups",
        records: locking(locked, two_groups(3)),
        way,
        steps,
    };
    let both: [Step; 3] = [(0, NOTHING), (8, [11, 8]), (9, [15, 9])];
    let rooted: [Step; 4] = [(0, NOTHING), (4, [4, 4]), (5, [8, 5]), (8, [11, 8])];
    let unrooted: [Step; 4] = [(0, NOTHING), (4, [0, 4]), (5, [7, 5]), (8, [11, 8])];
    vec![
        curve(&[4, 6], ROOTED, &both[..]).at(8, [11, 8, 0], &[4, 6]),
        curve(&[4, 6], UNROOTED, &both).at(8, [11, 8, 0], &[4, 6]),
        curve(&[4, 6], UNROOTED, &both).at(9, [15, 9, 0], &[3, 4, 6]),
        curve(&[4], ROOTED, &rooted).at(4, [4, 4, 0], &[4]),
        curve(&[4], ROOTED, &rooted).at(7, [8, 5, 2], &[3, 4]),
        curve(&[4], UNROOTED, &unrooted).at(4, [0, 4, 0], &[4]),
        curve(&[4], UNROOTED, &unrooted).at(7, [7, 5, 2], &[3, 4]),
        curve(&[4], UNROOTED, &unrooted).at(8, [11, 8, 0], &[4, 6]),
    ]
}

/// The tree of 125 headings with its last taxon locked: alone it is 126 for 4,048, both are 127 for 4,096; unrooted 0 and 2.
fn deep() -> Vec<CurveCase> {
    let curve = |way, steps| Curve {
        name: "a lock below 125 headings",
        records: locking(&[127], tree_of_125_headings()),
        way,
        steps,
    };
    let rooted = curve(
        ROOTED,
        &[(0, NOTHING), (4_048, [126, 4_048]), (4_096, [127, 4_096])],
    );
    let unrooted = curve(
        UNROOTED,
        &[(0, NOTHING), (4_048, [0, 4_048]), (4_096, [2, 4_096])],
    );
    vec![
        rooted.at(4_048, [126, 4_048, 0], &[127]),
        rooted.at(4_095, [126, 4_048, 47], &[127]),
        rooted.at(4_096, [127, 4_096, 0], &[126, 127]),
        unrooted.at(4_048, [0, 4_048, 0], &[127]),
        unrooted.at(4_095, [0, 4_048, 47], &[127]),
        unrooted.at(4_096, [2, 4_096, 0], &[126, 127]),
    ]
}

/// All taxa of case G: those that it chooses, and the last one.
fn taxa_of_g() -> Vec<usize> {
    let mut taxa = case_g(ROOTED).chosen;
    taxa.push(127);
    taxa
}

/// Case G's tree with all taxa locked, and with the last one: then the one before it is left out instead.
fn full() -> Vec<CurveCase> {
    let mut full = Vec::new();
    for (way, diversity) in [(ROOTED, 127), (UNROOTED, 126)] {
        let all = Curve {
            name: "case G, all locked",
            records: locking(&taxa_of_g(), case_g(way).records),
            way,
            steps: &[(0, NOTHING), (4_096, [diversity, 4_096])],
        };
        full.push(all.at(4_096, [diversity, 4_096, 0], &taxa_of_g()));
        let mut case = case_g(way);
        case.records = locking(&[127], case.records);
        case.chosen = taxa_of_g();
        case.chosen.retain(|&number| number != 126);
        let columns = curve_of_g_with_a_lock(way);
        full.push(CurveCase { case, columns });
    }
    full
}

/// So many taxa spread as wide if one of them is given. Unrooted one alone is a choice now, though it shows nothing.
fn curve_of_g_with_a_lock(way: u32) -> Vec<[u32; 2]> {
    let mut columns = curve_of_g(way);
    columns[..64].fill(NOTHING);
    if way == UNROOTED {
        columns[64..128].fill([0, 64]);
    }
    columns
}

/// Refusals, number 0 where the call passes.
pub fn limits() -> Vec<Limit> {
    let mut limits = costs();
    limits.extend(fields());
    limits.extend(twins());
    limits
}

fn limit(records: Vec<Record>, count: u32, number: u32, place: u32) -> Limit {
    Limit {
        outline: bytes(&records),
        count,
        number,
        place,
    }
}

/// One quarter below the cost of the locked taxa gives 12, and their cost passes.
fn costs() -> Vec<Limit> {
    let tree_a = |numbers: &[usize]| locking(numbers, tree_a());
    let headed = |root, second| locking(&[4], tree_a_with(root, second));
    let alone = |price| vec![taxon(0, 4, price, LOCK + 1)];
    let deep = |numbers: &[usize]| locking(numbers, tree_of_125_headings());
    let full = || locking(&taxa_of_g(), case_g(ROOTED).records);
    vec![
        limit(tree_a(&[3]), 0, 12, 0),
        limit(tree_a(&[3]), 2, 12, 0),
        limit(tree_a(&[3]), 3, 0, 0),
        limit(tree_a(&[3, 4, 5]), 5, 12, 0),
        limit(tree_a(&[3, 4, 5]), 6, 0, 0),
        limit(headed(0, 7), 7, 12, 0),
        limit(headed(0, 7), 8, 0, 0),
        limit(headed(7, 0), 7, 12, 0),
        limit(headed(7, 0), 8, 0, 0),
        limit(headed(0, 65_535), 4_096, 12, 0),
        limit(alone(0), 0, 0, 0),
        limit(alone(1), 0, 12, 0),
        limit(alone(4_096), 4_096, 0, 0),
        limit(alone(4_097), 4_096, 12, 0),
        limit(alone(4_097), 4_097, 4, 0),
        limit(alone(65_535), 4_096, 12, 0),
        limit(locking(&[2], lone(1, 5)), 0, 12, 0),
        limit(deep(&[127]), 4_047, 12, 0),
        limit(deep(&[126, 127]), 4_095, 12, 0),
        limit(deep(&[126, 127]), 4_096, 0, 0),
        limit(full(), 4_095, 12, 0),
        limit(full(), 4_096, 0, 0),
    ]
}

/// Tree A with this plate field at a record.
pub(crate) fn with_field(number: usize, field: u32) -> Vec<Record> {
    let mut records = tree_a();
    records[number - 1].plate = field;
    records
}

/// A group's whole field is 0, and a taxon's lower 31 bits are not. 5 comes before 12.
fn fields() -> Vec<Limit> {
    vec![
        limit(with_field(1, LOCK), 5, 5, 1),
        limit(with_field(2, LOCK), 5, 5, 2),
        limit(with_field(2, u32::MAX), 5, 5, 2),
        limit(with_field(3, LOCK), 5, 5, 3),
        limit(with_field(3, LOCK), 0, 5, 3),
        limit(with_field(3, LOCK + 1), 5, 0, 0),
        limit(with_field(3, MOST_PLATE), 5, 0, 0),
        limit(with_field(3, u32::MAX), 5, 0, 0),
        limit(with_field(3, u32::MAX), 2, 12, 0),
    ]
}

/// Records 3 and 4 of tree A are alike in the lower 31 bits, whatever their locks. 8 comes before 12.
fn twins() -> Vec<Limit> {
    let twins = |numbers: &[usize]| locking(numbers, with_field(4, 11));
    vec![
        limit(twins(&[]), 5, 8, 4),
        limit(twins(&[3]), 5, 8, 4),
        limit(twins(&[4]), 5, 8, 4),
        limit(twins(&[3, 4]), 5, 8, 4),
        limit(twins(&[3, 4]), 0, 8, 4),
        limit(locking(&[5], with_field(5, 11)), 5, 8, 5),
    ]
}

/// A plate and the record that the finder gives for it, 0 where there is none.
pub struct Find {
    pub outline: Vec<u8>,
    pub plate: u32,
    pub record: u32,
}

/// Tree A with 12 locked and the highest field at record 5, and the same with twins, where nothing is found.
pub fn finds() -> Vec<Find> {
    let sound = locking(&[4], with_field(5, u32::MAX));
    let mut twins = sound.clone();
    twins[2].plate = 12;
    let find = |records: &[Record], plate, record| Find {
        outline: bytes(records),
        plate,
        record,
    };
    vec![
        find(&sound, 11, 3),
        find(&sound, LOCK + 11, 0),
        find(&sound, 12, 4),
        find(&sound, LOCK + 12, 0),
        find(&sound, MOST_PLATE, 5),
        find(&sound, u32::MAX, 0),
        find(&sound, 13, 0),
        find(&sound, 0, 0),
        find(&sound, LOCK, 0),
        find(&twins, 12, 0),
        find(&twins, LOCK + 12, 0),
        find(&twins, MOST_PLATE, 0),
    ]
}

#[cfg(test)]
mod tests {
    use super::*;
    use crate::exhaustive::spare;

    #[test]
    fn curves_end_with_the_numbers_stated_for_them() {
        for CurveCase { case, columns } in all() {
            let last = [case.diversity, case.cost];
            assert_eq!(columns.len(), case.count as usize + 1, "{}", case.name);
            assert_eq!(columns[case.count as usize], last, "{}", case.name);
            assert_eq!(spare(&columns), case.spare, "{}", case.name);
        }
    }

    /// How many taxa are locked, how many there are, and the case.
    type Kind = (&'static str, fn(usize, usize, &CurveCase) -> bool);

    const KINDS: [Kind; 6] = [
        ("no lock", |locked, _, _| locked == 0),
        ("some locked", |locked, taxa, _| (1..taxa).contains(&locked)),
        ("all locked", |locked, taxa, _| locked == taxa),
        ("columns without a set and with one", |_, _, given| {
            let blank = given.columns.iter().filter(|&&column| column == NOTHING);
            (1..given.columns.len() - 1).contains(&blank.count())
        }),
        ("a set in the last column only", |_, _, given| {
            let [before @ .., _] = &given.columns[..] else {
                return false;
            };
            !before.is_empty() && before.iter().all(|&column| column == NOTHING)
        }),
        ("locks and diversity 0", |locked, _, given| {
            locked > 0 && given.case.diversity == 0
        }),
    ];

    #[test]
    fn cases_are_of_every_kind_in_either_way() {
        let all = all();
        for way in [ROOTED, UNROOTED] {
            for (name, is) in KINDS {
                let of_kind = all.iter().filter(|given| {
                    let records = given.case.records.iter();
                    let locked = records.clone().filter(|record| record.is_locked()).count();
                    let taxa = records.filter(|record| record.is_taxon()).count();
                    given.case.way == way && is(locked, taxa, given)
                });
                assert!(of_kind.count() > 1, "{name}, way {way}");
            }
        }
    }
}
