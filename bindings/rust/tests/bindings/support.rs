//! Trees, bytes and numbers that several tests use.

use plates::{sys, Choice, Outline, Record, Refusal, Tree, Way, MOST_RECORDS};
use std::iter::successors;

pub const WAYS: [Way; 2] = [Way::Rooted, Way::Unrooted];

/// The fields of a record: next, first, length, price, plate.
pub type Fields = [u32; 5];

/// Bit 31 of a plate field.
pub const LOCK: u32 = 1 << 31;

pub const TREE_A: [Fields; 5] = [
    [0, 2, 0, 0, 0],
    [5, 3, 3, 0, 0],
    [4, 0, 4, 3, 11],
    [0, 0, 2, 1, 12],
    [0, 0, 5, 2, 13],
];

/// Groups 2 and 3 with two taxa each, numbered in turn.
pub const INTERLEAVED: [Fields; 7] = [
    [0, 2, 10, 0, 0],
    [3, 4, 20, 0, 0],
    [0, 5, 30, 0, 0],
    [6, 0, 40, 1, 104],
    [7, 0, 50, 2, 105],
    [0, 0, 60, 3, 106],
    [0, 0, 70, 4, 107],
];

/// Plate and price of tree A's taxa.
pub const PRICES_A: [(u32, u32); 3] = [(11, 3), (12, 1), (13, 2)];

/// Tree A with one field changed.
pub fn changed(record: usize, field: usize, value: u32) -> Vec<Fields> {
    let mut records = TREE_A.to_vec();
    records[record - 1][field] = value;
    records
}

/// A root with taxa, and plates from 1.
pub fn star_records(taxa: u32) -> Vec<Fields> {
    let last = taxa + 1;
    let taxon = |number| {
        [
            if number < last { number + 1 } else { 0 },
            0,
            1,
            1,
            number - 1,
        ]
    };
    let root = [0, 2, 0, 0, 0];
    std::iter::once(root).chain((2..=last).map(taxon)).collect()
}

/// The bytes of records, sound or not. Links keep their two low bytes.
pub fn bytes(records: &[Fields]) -> Vec<u8> {
    let mut bytes = Vec::new();
    for [next, first, length, price, plate] in records {
        bytes.extend(&next.to_le_bytes()[..2]);
        bytes.extend(&first.to_le_bytes()[..2]);
        for field in [length, price, plate] {
            bytes.extend(field.to_le_bytes());
        }
    }
    bytes
}

pub fn outline(records: &[Fields]) -> Outline {
    Outline::from_bytes(&bytes(records)).expect("the outline is sound")
}

/// A record's fields, with other links.
pub fn with_links(record: Record, next: u32, first: u32) -> Fields {
    let plate_field = if record.locked { LOCK } else { 0 } | record.plate;
    [next, first, record.length, record.price, plate_field]
}

pub fn fields_of(tree: &Outline) -> Vec<Fields> {
    let fields = |record: Record| with_links(record, record.next, record.first);
    tree.records().map(fields).collect()
}

pub fn tree_a() -> Outline {
    outline(&TREE_A)
}

/// Taxa under a root of length 0, with lengths and prices as given, and plates from 1.
pub fn star(taxa: &[(u32, u32)]) -> Tree {
    let numbered = (1..).zip(taxa);
    let members = numbered.map(|(plate, (length, price))| Tree::taxon(plate, *length, *price));
    Tree::group(0, members)
}

/// Levels of pairs, every length 1, every price the same, plates from `plate` on.
pub fn pairs(levels: u32, price: u32, plate: u32) -> Tree {
    if levels == 0 {
        return Tree::taxon(plate, 1, price);
    }
    let half = 1 << (levels - 1);
    let members = [plate, plate + half].map(|plate| pairs(levels - 1, price, plate));
    Tree::group(1, members)
}

/// One taxon below a chain of groups: as deep as a tree of so many records can be.
pub fn chain(records: usize) -> Tree {
    (1..records).fold(Tree::taxon(1, 1, 1), |below, _| Tree::group(1, [below]))
}

/// Tree A with prices of the root's heading and of its group's.
pub fn headed_a(root: u32, group: u32) -> Tree {
    locked_a(root, group, &[])
}

/// The same with these plates locked.
pub fn locked_a(root: u32, group: u32, locked: &[u32]) -> Tree {
    let taxon = |plate, length, price| {
        if locked.contains(&plate) {
            Tree::locked_taxon(plate, length, price)
        } else {
            Tree::taxon(plate, length, price)
        }
    };
    let inner = [taxon(11, 4, 3), taxon(12, 2, 1)];
    let members = [Tree::headed_group(3, group, inner), taxon(13, 5, 2)];
    Tree::headed_group(0, root, members)
}

pub fn sound(tree: Tree) -> Outline {
    tree.outline().expect("the tree is sound")
}

/// Outlines of different sizes, larger and smaller in turn, with headings and locks and without.
pub fn outlines() -> [Outline; 9] {
    let uneven = Tree::group(
        2,
        [
            Tree::taxon(5, 3, 4),
            Tree::group(1, [star(&[(2, 1), (9, 6)]), Tree::taxon(6, 4, 0)]),
            Tree::taxon(7, 8, 5),
        ],
    );
    [
        tree_a(),
        sound(pairs(6, 3, 1)),
        sound(Tree::taxon(1, 1, 1)),
        sound(uneven),
        sound(star(&[(4, 1); 64])),
        sound(headed_a(1, 2)),
        sound(locked_a(0, 0, &[13])),
        sound(locked_a(1, 2, &[11, 13])),
        outline(&INTERLEAVED),
    ]
}

/// Outlines that are refused, each for one reason.
pub fn faulty() -> [(Vec<u8>, Refusal); 12] {
    let field = |record| Refusal::FieldOutOfRange { record };
    [
        (bytes(&[]), Refusal::PartialRecord),
        (bytes(&TREE_A)[1..].to_vec(), Refusal::PartialRecord),
        (bytes(&[[0; 5]; MOST_RECORDS + 1]), Refusal::TooManyRecords),
        (bytes(&changed(4, 2, 1_000_001)), field(4)),
        (bytes(&changed(2, 3, 65_536)), field(2)),
        (bytes(&changed(2, 4, LOCK)), field(2)),
        (bytes(&changed(5, 4, LOCK)), field(5)),
        (bytes(&changed(3, 0, 6)), Refusal::BadLink { record: 3 }),
        (bytes(&changed(4, 0, 5)), Refusal::BadLink { record: 5 }),
        (bytes(&star_records(65)), Refusal::TooManyTaxa),
        (
            bytes(&changed(5, 4, 11)),
            Refusal::DuplicatePlate { record: 5 },
        ),
        (
            bytes(&changed(4, 4, LOCK | 11)),
            Refusal::DuplicatePlate { record: 4 },
        ),
    ]
}

/// Numbers that look random, the same in every run.
pub struct Draw(pub u64);

impl Draw {
    pub fn below(&mut self, limit: u32) -> u32 {
        self.0 = self
            .0
            .wrapping_mul(6_364_136_223_846_793_005)
            .wrapping_add(1_442_695_040_888_963_407);
        (self.0 >> 33) as u32 % limit
    }

    /// A tree of so many taxa, with plates from `plate` on: with headings and locks, and with
    /// lengths and prices of 0 among them.
    fn tree(&mut self, taxa: u32, plate: u32) -> Tree {
        let (length, price) = (self.below(6), self.below(4));
        if taxa == 1 {
            return match self.below(6) {
                0 => Tree::locked_taxon(plate, length, price),
                _ => Tree::taxon(plate, length, price),
            };
        }
        let left = 1 + self.below(taxa);
        let mut members = vec![self.tree(left, plate)];
        if left < taxa {
            members.push(self.tree(taxa - left, plate + left));
        }
        Tree::headed_group(length, price, members)
    }

    pub fn outline(&mut self, most_taxa: u32) -> Outline {
        let taxa = 1 + self.below(most_taxa);
        sound(self.tree(taxa, 1))
    }
}

/// Taxa under one root that are much alike, so that another may well take the place of one.
fn alike(draw: &mut Draw) -> Outline {
    let taxa = [0; 6].map(|_| (4 + draw.below(4), 1 + draw.below(2)));
    sound(star(&taxa))
}

/// The outlines that several tests use, and drawn ones, with headings and locks among them.
pub fn samples(draw: &mut Draw) -> Vec<Outline> {
    let drawn = (0..40).flat_map(|_| [draw.outline(8), alike(draw)]);
    outlines().into_iter().chain(drawn).collect()
}

/// How many of the taxa a record is, or has below it.
pub fn held(outline: &Outline, taxa: &[Record], record: Record) -> usize {
    let members = successors(outline.record(record.first), |m| outline.record(m.next));
    let below: usize = members.map(|member| held(outline, taxa, member)).sum();
    below + usize::from(taxa.contains(&record))
}

/// What a set of taxa costs: the prices of the records that are, or have below them, one of these.
pub fn cost(outline: &Outline, taxa: &[Record]) -> u32 {
    let paid = outline.records().filter(|r| held(outline, taxa, *r) > 0);
    paid.map(|record| record.price).sum()
}

/// The lengths of the records that are, or have below them, one of the taxa; unrooted, of those
/// that do not have them all.
pub fn diversity(outline: &Outline, taxa: &[Record], way: Way) -> u32 {
    let counts = |record: &Record| match held(outline, taxa, *record) {
        0 => false,
        held => way == Way::Rooted || held < taxa.len(),
    };
    let counted = outline.records().filter(counts);
    counted.map(|record| record.length).sum()
}

pub fn plates_of(taxa: &[Record]) -> Vec<u32> {
    taxa.iter().map(|taxon| taxon.plate).collect()
}

pub fn plates(choice: &Choice) -> Vec<u32> {
    plates_of(choice.taxa())
}

/// Plates, diversity, cost, spare.
pub fn told(choice: &Choice) -> (Vec<u32>, u32, u32, u32) {
    let plates = plates(choice);
    (plates, choice.diversity(), choice.cost(), choice.spare())
}

/// The buffers that a choice is written to, each full of a value that no call writes.
#[derive(Clone, Debug, PartialEq)]
pub struct Buffers {
    pub marks: Vec<u8>,
    pub curve: Vec<u32>,
    pub work: Vec<u64>,
}

impl Buffers {
    pub fn new(marks: usize, curve: usize, work: usize) -> Buffers {
        Buffers {
            marks: vec![0xa5; marks],
            curve: vec![0xa5a5_a5a5; curve],
            work: vec![0xa5a5_a5a5_a5a5_a5a5; work],
        }
    }

    pub fn choose(&mut self, outline: &[u8], count: u32, way: u32) -> [u32; 6] {
        let mut answer = [0xa5a5_a5a5; 6];
        // SAFETY: each pointer and the length after it are those of one slice or vector, answer has
        // six numbers, and no two overlap.
        let number = unsafe {
            sys::plates_choose(
                outline.as_ptr(),
                outline.len(),
                count,
                way,
                self.marks.as_mut_ptr(),
                self.marks.len(),
                self.curve.as_mut_ptr(),
                self.curve.len(),
                self.work.as_mut_ptr(),
                self.work.len(),
                answer.as_mut_ptr(),
            )
        };
        assert_eq!(number, answer[0]);
        answer
    }

    pub fn is_untouched(&self) -> bool {
        *self == Buffers::new(self.marks.len(), self.curve.len(), self.work.len())
    }
}

/// Buffers for so many records and a count, each longer by so many elements.
pub fn room(records: usize, count: u32, more: usize) -> Buffers {
    let curve = sys::curve_len(count) + more;
    let work = sys::work_len(records, count) + more;
    Buffers::new(sys::marks_len(records) + more, curve, work)
}
