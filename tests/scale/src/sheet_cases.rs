//! Sheets worked by hand. Tree A at 5, way 0, is document 02's (§6); the others are ours.

use crate::cases::{group, taxon, tree_a, tree_b};
use crate::heading_cases::{headed, tree_a_with, tree_of_125_headings, two_groups};
use crate::lock_cases::{locking, with_field};
use crate::outline::{bytes, taxa, Record, LOCK, MOST_PLATE, ROOTED, UNROOTED};
use crate::rules::Refusal;
use crate::runs::WAYS;
use crate::shapes;
use crate::sheet::{SheetCall, SheetExpected, MOST_NUMBERS, ROW};
use crate::write_cases::{faulty_outlines, longest, seven_records};

/// A call and what is stated for it.
pub struct SheetCase {
    pub name: &'static str,
    pub call: SheetCall,
    pub expected: SheetExpected,
}

impl SheetCase {
    /// The same set with a sheet that is too short.
    fn short(mut self, sheet: usize) -> Self {
        self.call.sheet = sheet;
        self.expected = SheetExpected::refused(Refusal {
            number: 9,
            place: 0,
        });
        self
    }

    /// The same set with a sheet that is longer than needed.
    fn roomy(mut self, sheet: usize) -> Self {
        self.call.sheet = sheet;
        self
    }

    /// The same set with bytes behind its marks.
    fn followed_by(mut self, bytes: &[u8]) -> Self {
        self.call.marks.extend(bytes);
        self
    }
}

type Row = [u32; ROW];

/// An outline and a way, of which sets are listed.
struct Sheets {
    name: &'static str,
    records: Vec<Record>,
    way: u32,
}

impl Sheets {
    /// The rows and both sums of a set by its record numbers. There are as many marks as records, and just enough room.
    fn of(&self, chosen: &[usize], rows: &[Row], sums: [u32; 2]) -> SheetCase {
        let mut marks = vec![0; self.records.len()];
        for &number in chosen {
            marks[number - 1] = 1;
        }
        SheetCase {
            name: self.name,
            call: SheetCall {
                outline: bytes(&self.records),
                way: self.way,
                marks,
                within: None,
                sheet: 3 * chosen.len(),
            },
            expected: SheetExpected {
                answer: [0, 0, chosen.len() as u32, sums[0], sums[1]],
                sheet: rows.concat(),
            },
        }
    }
}

/// A refusal that does not depend on the sheet's length, with room for any set and with none.
fn refused(
    name: &'static str,
    (outline, way, marks): (&[u8], u32, &[u8]),
    number: u32,
    place: u32,
) -> [SheetCase; 2] {
    [MOST_NUMBERS, 0].map(|sheet| SheetCase {
        name,
        call: SheetCall {
            outline: outline.to_vec(),
            way,
            marks: marks.to_vec(),
            within: None,
            sheet,
        },
        expected: SheetExpected::refused(Refusal { number, place }),
    })
}

pub fn all() -> Vec<SheetCase> {
    let mut all = rooted();
    all.extend(unrooted());
    all.extend(nothing());
    all.extend(single());
    all.extend(with_headings());
    all.extend(in_two_groups());
    all.extend(above_the_parting());
    all.extend(deep());
    all.extend(with_locks());
    all.extend(interleaved());
    all.extend(interleaved_headings());
    all.extend(largest());
    all.extend(room());
    all.extend(more_marks());
    all.extend(too_few_marks());
    all.extend(bad_marks());
    all.extend(lowest());
    all.extend(order());
    all.extend(own_memory());
    all
}

/// Records 3, 4 and 5 are 11, 12 and 13. The branch of 3 above records 3 and 4 is the first one's.
fn rooted() -> Vec<SheetCase> {
    let tree = Sheets {
        name: "tree A, rooted",
        records: tree_a(),
        way: ROOTED,
    };
    vec![
        tree.of(&[3, 5], &[[11, 3, 7], [13, 2, 5]], [5, 12]),
        tree.of(&[3], &[[11, 3, 7]], [3, 7]),
        tree.of(&[4], &[[12, 1, 5]], [1, 5]),
        tree.of(&[5], &[[13, 2, 5]], [2, 5]),
        tree.of(&[3, 4], &[[11, 3, 7], [12, 1, 2]], [4, 9]),
        tree.of(&[4, 5], &[[12, 1, 5], [13, 2, 5]], [3, 10]),
        tree.of(&[3, 4, 5], &[[11, 3, 7], [12, 1, 2], [13, 2, 5]], [6, 14]),
    ]
}

/// The first adds 0 and the second both their branches. The branch of 3 counts from 13 on, with 11 or 12 or both.
fn unrooted() -> Vec<SheetCase> {
    let tree = Sheets {
        name: "tree A, unrooted",
        records: tree_a(),
        way: UNROOTED,
    };
    vec![
        tree.of(&[3, 5], &[[11, 3, 0], [13, 2, 12]], [5, 12]),
        tree.of(&[3], &[[11, 3, 0]], [3, 0]),
        tree.of(&[4], &[[12, 1, 0]], [1, 0]),
        tree.of(&[5], &[[13, 2, 0]], [2, 0]),
        tree.of(&[3, 4], &[[11, 3, 0], [12, 1, 6]], [4, 6]),
        tree.of(&[4, 5], &[[12, 1, 0], [13, 2, 10]], [3, 10]),
        tree.of(&[3, 4, 5], &[[11, 3, 0], [12, 1, 6], [13, 2, 8]], [6, 14]),
    ]
}

/// No heading is opened where nothing is marked, and the sheet needs no room.
fn nothing() -> Vec<SheetCase> {
    let outlines = [
        tree_a(),
        tree_a_with(1, 2),
        locking(&[3, 4, 5], tree_a()),
        vec![taxon(0, 5, 1, 1)],
        shapes::star(64),
    ];
    let empty = |way| {
        outlines.clone().map(|records| {
            let sheets = Sheets {
                name: "nothing marked",
                records,
                way,
            };
            [
                sheets.of(&[], &[], [0, 0]),
                sheets.of(&[], &[], [0, 0]).roomy(7),
            ]
        })
    };
    WAYS.into_iter().flat_map(empty).flatten().collect()
}

/// Outlines of one taxon: alone, and below two groups of lengths 0 and 7. Unrooted it adds 0.
fn single() -> Vec<SheetCase> {
    let of = |records, way| Sheets {
        name: "a single taxon",
        records,
        way,
    };
    let alone = || vec![taxon(0, 5, 1, 1)];
    let free = || vec![taxon(0, 0, 0, 70)];
    let dear = || vec![taxon(0, 1_000_000, 65_535, MOST_PLATE)];
    let sums = [65_535, 1_000_000];
    vec![
        of(alone(), ROOTED).of(&[1], &[[1, 1, 5]], [1, 5]),
        of(alone(), UNROOTED).of(&[1], &[[1, 1, 0]], [1, 0]),
        of(free(), ROOTED).of(&[1], &[[70, 0, 0]], [0, 0]),
        of(dear(), ROOTED).of(&[1], &[[MOST_PLATE, sums[0], sums[1]]], sums),
        of(tree_b(), ROOTED).of(&[3], &[[1, 2, 7]], [2, 7]),
        of(tree_b(), UNROOTED).of(&[3], &[[1, 2, 0]], [2, 0]),
    ]
}

/// Tree A with headings of 1 at the root and 2 at record 2. The first of all pays the root's, the first of 11 and 12 the other.
fn with_headings() -> Vec<SheetCase> {
    let rooted = Sheets {
        name: "tree A with headings, rooted",
        records: tree_a_with(1, 2),
        way: ROOTED,
    };
    let unrooted = Sheets {
        name: "tree A with headings, unrooted",
        records: tree_a_with(1, 2),
        way: UNROOTED,
    };
    let all = [3, 4, 5];
    vec![
        rooted.of(&[3], &[[11, 6, 7]], [6, 7]),
        rooted.of(&[4], &[[12, 4, 5]], [4, 5]),
        rooted.of(&[5], &[[13, 3, 5]], [3, 5]),
        rooted.of(&[3, 4], &[[11, 6, 7], [12, 1, 2]], [7, 9]),
        rooted.of(&[3, 5], &[[11, 6, 7], [13, 2, 5]], [8, 12]),
        rooted.of(&[4, 5], &[[12, 4, 5], [13, 2, 5]], [6, 10]),
        rooted.of(&all, &[[11, 6, 7], [12, 1, 2], [13, 2, 5]], [9, 14]),
        unrooted.of(&[3], &[[11, 6, 0]], [6, 0]),
        unrooted.of(&[5], &[[13, 3, 0]], [3, 0]),
        unrooted.of(&[3, 4], &[[11, 6, 0], [12, 1, 6]], [7, 6]),
        unrooted.of(&[4, 5], &[[12, 4, 0], [13, 2, 10]], [6, 10]),
        unrooted.of(&all, &[[11, 6, 0], [12, 1, 6], [13, 2, 8]], [9, 14]),
    ]
}

/// Headings of 3 above records 3 and 4, which are plates 1 and 2, and above record 6, which is plate 3 and opens its own.
fn in_two_groups() -> Vec<SheetCase> {
    let of = |way| Sheets {
        name: "two groups",
        records: two_groups(3),
        way,
    };
    let (rooted, unrooted) = (of(ROOTED), of(UNROOTED));
    let all = [3, 4, 6];
    vec![
        rooted.of(&all, &[[1, 4, 5], [2, 1, 3], [3, 4, 7]], [9, 15]),
        rooted.of(&[4, 6], &[[2, 4, 4], [3, 4, 7]], [8, 11]),
        rooted.of(&[6], &[[3, 4, 7]], [4, 7]),
        unrooted.of(&all, &[[1, 4, 0], [2, 1, 7], [3, 4, 8]], [9, 15]),
        unrooted.of(&[4, 6], &[[2, 4, 0], [3, 4, 11]], [8, 11]),
        unrooted.of(&[6], &[[3, 4, 0]], [4, 0]),
    ]
}

/// A root of length 8 and price 2, below it alone a group of length 9 and price 3, below that taxa of lengths 4 and 5 and price
/// 1. Unrooted the upper branches never count, but their headings are paid.
fn above_the_parting() -> Vec<SheetCase> {
    let of = |way| Sheets {
        name: "headings above the parting",
        records: vec![
            headed(2, group(0, 2, 8)),
            headed(3, group(0, 3, 9)),
            taxon(4, 4, 1, 1),
            taxon(0, 5, 1, 2),
        ],
        way,
    };
    vec![
        of(ROOTED).of(&[3, 4], &[[1, 6, 21], [2, 1, 5]], [7, 26]),
        of(ROOTED).of(&[4], &[[2, 6, 22]], [6, 22]),
        of(UNROOTED).of(&[3, 4], &[[1, 6, 0], [2, 1, 9]], [7, 9]),
        of(UNROOTED).of(&[4], &[[2, 6, 0]], [6, 0]),
    ]
}

/// 125 headings of 32, which the first taxon opens.
fn deep() -> Vec<SheetCase> {
    let of = |way| Sheets {
        name: "125 headings",
        records: tree_of_125_headings(),
        way,
    };
    let both = [126, 127];
    vec![
        of(ROOTED).of(&both, &[[1, 4_048, 126], [2, 48, 1]], [4_096, 127]),
        of(ROOTED).of(&[127], &[[2, 4_048, 126]], [4_048, 126]),
        of(UNROOTED).of(&both, &[[1, 4_048, 0], [2, 48, 2]], [4_096, 2]),
        of(UNROOTED).of(&[127], &[[2, 4_048, 0]], [4_048, 0]),
    ]
}

/// A plate is listed without its lock, and a set need not hold what is locked.
fn with_locks() -> Vec<SheetCase> {
    let of = |records, way| Sheets {
        name: "locks",
        records,
        way,
    };
    let eleven = |way| of(locking(&[3], tree_a()), way);
    let every = |way| of(locking(&[3, 4, 5], tree_a_with(1, 2)), way);
    let highest = of(with_field(5, LOCK + MOST_PLATE), ROOTED);
    let lowest = of(vec![taxon(0, 5, 1, LOCK + 1)], ROOTED);
    let all = [3, 4, 5];
    vec![
        eleven(ROOTED).of(&[3, 5], &[[11, 3, 7], [13, 2, 5]], [5, 12]),
        eleven(ROOTED).of(&[4, 5], &[[12, 1, 5], [13, 2, 5]], [3, 10]),
        eleven(UNROOTED).of(&[3], &[[11, 3, 0]], [3, 0]),
        eleven(UNROOTED).of(&[4], &[[12, 1, 0]], [1, 0]),
        every(ROOTED).of(&all, &[[11, 6, 7], [12, 1, 2], [13, 2, 5]], [9, 14]),
        every(UNROOTED).of(&all, &[[11, 6, 0], [12, 1, 6], [13, 2, 8]], [9, 14]),
        every(ROOTED).of(&[5], &[[13, 3, 5]], [3, 5]),
        highest.of(&[5], &[[2_147_483_647, 2, 5]], [2, 5]),
        lowest.of(&[1], &[[1, 1, 5]], [1, 5]),
    ]
}

/// Record order is not text order: record 4 is the root's last member, records 5 and 7 are below record 2, and record 6 is below
/// record 3.
fn interleaved() -> Vec<SheetCase> {
    let of = |way| Sheets {
        name: "seven records",
        records: seven_records().into(),
        way,
    };
    let (rooted, unrooted) = (of(ROOTED), of(UNROOTED));
    let last = |first, second, third| [first, [105, 50, second], [103, 60, third], [101, 70, 7]];
    let all = [4, 5, 6, 7];
    vec![
        rooted.of(&all, &last([104, 40, 5], 25, 306), [220, 343]),
        rooted.of(&[6, 7], &[[103, 60, 307], [101, 70, 27]], [130, 334]),
        rooted.of(&[5, 7], &[[105, 50, 26], [101, 70, 7]], [120, 33]),
        unrooted.of(&all, &last([104, 40, 0], 29, 306), [220, 342]),
        unrooted.of(
            &[5, 6, 7],
            &[[105, 50, 0], [103, 60, 331], [101, 70, 7]],
            [180, 338],
        ),
        unrooted.of(&[6, 7], &[[103, 60, 0], [101, 70, 333]], [130, 333]),
        unrooted.of(&[5, 7], &[[105, 50, 0], [101, 70, 12]], [120, 12]),
    ]
}

/// The same with headings of 1, 2 and 3 at records 1, 2 and 3, which later taxa open.
fn interleaved_headings() -> Vec<SheetCase> {
    let of = |way| {
        let mut records = seven_records();
        (records[0].price, records[1].price, records[2].price) = (1, 2, 3);
        Sheets {
            name: "seven records with headings",
            records: records.into(),
            way,
        }
    };
    let all = [4, 5, 6, 7];
    let rooted = [[104, 41, 5], [105, 52, 25], [103, 63, 306], [101, 70, 7]];
    let unrooted = [[104, 41, 0], [105, 52, 29], [103, 63, 306], [101, 70, 7]];
    vec![
        of(ROOTED).of(&all, &rooted, [226, 343]),
        of(ROOTED).of(&[6, 7], &[[103, 64, 307], [101, 72, 27]], [136, 334]),
        of(ROOTED).of(&[5, 7], &[[105, 53, 26], [101, 70, 7]], [123, 33]),
        of(UNROOTED).of(&all, &unrooted, [226, 342]),
        of(UNROOTED).of(&[6, 7], &[[103, 64, 0], [101, 72, 333]], [136, 333]),
    ]
}

/// How many records a row opens and how many branches count from it on, unrooted, by its number from 1.
type Counts = fn(u32) -> [u32; 2];

/// Taxon k + 1 opens a group for each time that 2 divides k. Unrooted, where k is a power of 2, the branch above the first k taxa
/// counts from it on.
fn in_pairs_of_pairs(row: u32) -> [u32; 2] {
    let before = row - 1;
    if before == 0 {
        return [7, 0];
    }
    let opened = 1 + before.trailing_zeros();
    [opened, opened + u32::from(before.is_power_of_two())]
}

/// Each taxon but the last opens its group. Unrooted the second completes the first's branch.
fn in_groups_taxon_first(row: u32) -> [u32; 2] {
    match row {
        1 => [2, 0],
        2 => [2, 3],
        64 => [1, 1],
        _ => [2, 2],
    }
}

/// The first taxon opens all groups. Unrooted each other one completes the branch above all before it.
fn in_groups_group_first(row: u32) -> [u32; 2] {
    if row == 1 {
        [64, 0]
    } else {
        [1, 2]
    }
}

fn in_one_group(row: u32) -> [u32; 2] {
    match row {
        1 => [2, 0],
        2 => [1, 2],
        _ => [1, 1],
    }
}

/// All of 64 taxa, where every number is as great as can be.
fn largest() -> Vec<SheetCase> {
    let shapes: [(_, _, Counts, _); 4] = [
        (
            "pairs of pairs",
            shapes::balanced(6),
            in_pairs_of_pairs,
            127,
        ),
        (
            "63 groups, each last",
            shapes::caterpillar_taxon_first(64),
            in_groups_taxon_first,
            127,
        ),
        (
            "63 groups, each first",
            shapes::caterpillar_group_first(64),
            in_groups_group_first,
            127,
        ),
        ("64 members", shapes::star(64), in_one_group, 65),
    ];
    let cases = shapes.into_iter().flat_map(|(name, records, counts, all)| {
        WAYS.map(|way| largest_of(name, records.clone(), way, counts, all))
    });
    cases.flatten().collect()
}

/// The case, of so many records, and one number less for it.
fn largest_of(
    name: &'static str,
    records: Vec<Record>,
    way: u32,
    counts: Counts,
    all: u32,
) -> [SheetCase; 2] {
    let (mut records, _) = longest(records);
    records.iter_mut().for_each(|record| record.price = 65_535);
    let row = |row| {
        let [opened, unrooted] = counts(row);
        let branches = if way == ROOTED { opened } else { unrooted };
        [999_999_935 + row, 65_535 * opened, 1_000_000 * branches]
    };
    let rows: Vec<Row> = (1..=64).map(row).collect();
    let numbers: Vec<usize> = taxa(&records).iter().map(|taxon| taxon + 1).collect();
    // Unrooted the root's branch does not count.
    let sums = [65_535 * all, 1_000_000 * (all - u32::from(way == UNROOTED))];
    let sheets = Sheets { name, records, way };
    let case = || sheets.of(&numbers, &rows, sums);
    [case(), case().short(MOST_NUMBERS - 1)]
}

fn of_tree_a() -> SheetCase {
    let tree = Sheets {
        name: "room",
        records: tree_a(),
        way: ROOTED,
    };
    tree.of(&[3, 5], &[[11, 3, 7], [13, 2, 5]], [5, 12])
}

/// The sheet is counted in numbers, so 2 are too few for 2 rows.
fn room() -> Vec<SheetCase> {
    let short = [5, 4, 3, 2, 1, 0].map(|sheet| of_tree_a().short(sheet));
    let roomy = [6, 7, 8, 9, MOST_NUMBERS, 1_000].map(|sheet| of_tree_a().roomy(sheet));
    short.into_iter().chain(roomy).collect()
}

/// What stands behind the marks of the records is no mark.
fn more_marks() -> Vec<SheetCase> {
    let more: [&[u8]; 6] = [&[0], &[1], &[2], &[255], &[1, 1, 1, 1], &[7; 200]];
    let cases = more.map(|bytes| {
        let exact = of_tree_a().followed_by(bytes);
        let short = of_tree_a().short(5).followed_by(bytes);
        [exact, short]
    });
    cases.into_iter().flatten().collect()
}

/// Tree A, rooted, with marks that are refused.
fn refused_marks(name: &'static str, marks: &[u8], place: u32) -> [SheetCase; 2] {
    refused(name, (&bytes(&tree_a()), ROOTED, marks), 14, place)
}

/// There is no place, also where a mark among the few is bad.
fn too_few_marks() -> Vec<SheetCase> {
    let few: [&[u8]; 8] = [
        &[],
        &[0],
        &[0, 0, 1],
        &[0, 0, 1, 0],
        &[0, 0, 0, 0],
        &[0, 2, 1, 0],
        &[1, 0, 1, 0],
        &[255],
    ];
    let alone = bytes(&[taxon(0, 5, 1, 1)]);
    let of_alone = WAYS.map(|way| refused("no mark", (&alone, way, &[]), 14, 0));
    let of_tree_a = few.map(|marks| refused_marks("too few marks", marks, 0));
    of_tree_a.into_iter().chain(of_alone).flatten().collect()
}

/// Each bad mark alone: neither 0 nor 1 anywhere, and 1 at the groups, which are records 1 and 2.
fn bad_marks() -> Vec<SheetCase> {
    let with = |number: usize, mark| {
        let mut marks = of_tree_a().call.marks;
        marks[number - 1] = mark;
        refused_marks("a bad mark", &marks, number as u32)
    };
    let others = [2, 3, 4, 16, 127, 128, 129, 254, 255];
    let anywhere = (1..=5).flat_map(|number| others.map(|mark| with(number, mark)));
    let at_groups = [1, 2].map(|number| with(number, 1));
    anywhere.chain(at_groups).flatten().collect()
}

/// The lowest record is the place, whichever cause it has and wherever it stands in the text.
fn lowest() -> Vec<SheetCase> {
    let of_tree_a: [([u8; 5], u32); 8] = [
        ([1, 1, 1, 1, 1], 1),
        ([2, 2, 2, 2, 2], 1),
        ([0, 1, 2, 0, 0], 2),
        ([0, 2, 1, 1, 255], 2),
        ([1, 2, 0, 0, 0], 1),
        ([0, 0, 3, 2, 0], 3),
        ([0, 0, 1, 255, 2], 4),
        ([0, 0, 1, 1, 2], 5),
    ];
    // In the text record 4 is the last, and record 5 comes before records 3 and 6.
    let interleaved: [([u8; 7], u32); 3] = [
        ([0, 0, 1, 0, 2, 0, 0], 3),
        ([0, 0, 0, 2, 2, 1, 1], 4),
        ([0, 0, 0, 1, 1, 2, 2], 6),
    ];
    let name = "the lowest bad mark";
    let seven = bytes(&seven_records());
    let of_seven = interleaved.map(|(marks, place)| {
        let call = (&seven[..], UNROOTED, &marks[..]);
        refused(name, call, 14, place)
    });
    let of_tree_a = of_tree_a.map(|(marks, place)| refused_marks(name, &marks, place));
    of_tree_a.into_iter().chain(of_seven).flatten().collect()
}

/// Each row of the table with faults of those after it: 1, 2, 3, 5, 6, 7, 8, 14. All of them come before 9.
fn order() -> Vec<SheetCase> {
    let marked = [&of_tree_a().call.marks[..], &[0; 200]].concat();
    let [none, bad, good]: [&[u8]; 3] = [&[], &[255; 200], &marked];
    let mut cases = Vec::new();
    for (name, outline, number, place) in faulty_outlines() {
        for marks in [none, bad, good] {
            cases.extend(WAYS.map(|way| refused(name, (&outline, way, marks), number, place)));
            cases.push(refused("1", (&outline, 2, marks), 1, 0));
        }
    }
    let outline = bytes(&tree_a());
    for way in [2, 3, 256, 65_536, LOCK, u32::MAX] {
        let calls = [none, bad, good].map(|marks| (&outline[..], way, marks));
        cases.extend(calls.map(|call| refused("1", call, 1, 0)));
    }
    cases.extend([none, bad].map(|marks| {
        let place = u32::from(!marks.is_empty());
        refused("14", (&outline, UNROOTED, marks), 14, place)
    }));
    cases.into_iter().flatten().collect()
}

/// Marks in the outline's own memory. Record 3 of tree A has a length and a price whose bytes are 0, 0, 1, 0 and 1, 0, 0, 0.
fn own_memory() -> Vec<SheetCase> {
    let mut records = tree_a();
    (records[2].length, records[2].price) = (65_536, 1);
    let within = |mut case: SheetCase, at: usize, marks: usize| {
        case.call.within = Some(at);
        case.call.marks = case.call.outline[at..][..marks].to_vec();
        case
    };
    let whole = bytes(&records);
    let sheets = |records, way| Sheets {
        name: "marks in the outline",
        records,
        way,
    };
    let [rooted, unrooted] = WAYS.map(|way| sheets(records.clone(), way));
    let of_two = || rooted.of(&[3, 5], &[[11, 1, 65_539], [13, 2, 5]], [3, 65_544]);
    let alone = sheets(vec![taxon(0, 1, 6, 9)], ROOTED);
    let mut cases = vec![
        within(of_two(), 36, 5),
        within(of_two(), 36, 44),
        within(of_two().short(5), 36, 5),
        within(
            unrooted.of(&[3, 5], &[[11, 1, 0], [13, 2, 65_544]], [3, 65_544]),
            36,
            5,
        ),
        within(alone.of(&[1], &[[9, 6, 1]], [6, 1]), 4, 1),
        within(alone.of(&[], &[], [0, 0]), 0, 16),
    ];
    let refusals = refused("the outline for marks", (&whole, ROOTED, &[]), 14, 3);
    cases.extend(refusals.map(|case| within(case, 0, 80)));
    cases
}

#[cfg(test)]
mod tests {
    use super::*;

    #[test]
    fn every_answer_is_stated() {
        for number in [0, 1, 2, 3, 5, 6, 7, 8, 14, 9] {
            let stated = all()
                .into_iter()
                .filter(|case| case.expected.answer[0] == number);
            assert!(stated.count() > 1, "{number}");
        }
    }

    #[test]
    fn stated_rows_add_up_to_their_sums() {
        for SheetCase { name, expected, .. } in all() {
            let [_, _, rows, quarters, diversity] = expected.answer;
            let sum = |column| -> u32 { expected.sheet.iter().skip(column).step_by(ROW).sum() };
            assert_eq!(expected.sheet.len(), ROW * rows as usize, "{name}");
            assert_eq!([sum(1), sum(2)], [quarters, diversity], "{name}");
        }
    }

    #[test]
    fn the_longest_sheet_and_the_greatest_sums_are_stated() {
        let most = |at: usize| all().into_iter().map(|case| case.expected.answer[at]).max();
        assert_eq!(most(2), Some(64));
        assert_eq!(most(3), Some(127 * 65_535));
        assert_eq!(most(4), Some(127 * 1_000_000));
    }
}
