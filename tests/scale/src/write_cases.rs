//! Outlines whose text is written out by hand. They are ours: document 02, §5, states the rule and no case.

use crate::cases::{group, taxon, tree_a, tree_b, tree_c};
use crate::heading_cases::{tree_a_with, tree_of_125_headings, two_groups};
use crate::lock_cases::{locking, with_field};
use crate::outline::{bytes, Record, LOCK, MOST_PLATE, RECORD_BYTES};
use crate::random::Random;
use crate::rules::Refusal;
use crate::writing::{WriteCall, WriteExpected, MOST_BYTES, MOST_NUMBERS};
use crate::{headings, shapes};

/// A call and what is stated for it.
pub struct WriteCase {
    pub name: &'static str,
    pub call: WriteCall,
    pub expected: WriteExpected,
}

impl WriteCase {
    /// The same outline with buffers that are too short.
    fn short(mut self, text: usize, pairs: usize) -> Self {
        (self.call.text, self.call.pairs) = (text, pairs);
        self.expected = WriteExpected::refused(Refusal {
            number: 9,
            place: 0,
        });
        self
    }

    /// The same outline with buffers that are longer than needed.
    fn roomy(mut self, text: usize, pairs: usize) -> Self {
        (self.call.text, self.call.pairs) = (text, pairs);
        self
    }
}

/// The counts of bytes and pairs, the text and the pairs. The buffers are just long enough.
fn written(
    name: &'static str,
    records: &[Record],
    counts: [u32; 2],
    text: &str,
    pairs: &[u32],
) -> WriteCase {
    WriteCase {
        name,
        call: WriteCall {
            outline: bytes(records),
            text: counts[0] as usize,
            pairs: 2 * counts[1] as usize,
        },
        expected: WriteExpected {
            answer: [0, 0, counts[0], counts[1]],
            text: text.into(),
            pairs: pairs.to_vec(),
        },
    }
}

/// A refusal that does not depend on the buffers, with room for any text and with none.
fn refused(name: &'static str, outline: &[u8], number: u32, place: u32) -> [WriteCase; 2] {
    [(MOST_BYTES, MOST_NUMBERS), (0, 0)].map(|(text, pairs)| WriteCase {
        name,
        call: WriteCall {
            outline: outline.to_vec(),
            text,
            pairs,
        },
        expected: WriteExpected::refused(Refusal { number, place }),
    })
}

pub fn all() -> Vec<WriteCase> {
    let mut all = small();
    all.extend(groups_of_one());
    all.extend(interleaved());
    all.extend(buffers());
    all.extend(beyond_text());
    all.extend(lowest());
    all.extend(order());
    all.extend(largest());
    all.extend(deepest());
    all
}

fn of_tree_a() -> WriteCase {
    let pairs = [11, 3, 12, 1, 13, 2];
    let text = "((11:4,12:2):3,13:5):0;";
    written("tree A", &tree_a(), [23, 3], text, &pairs)
}

fn small() -> Vec<WriteCase> {
    let one = |length, price, plate| [taxon(0, length, price, plate)];
    vec![
        of_tree_a(),
        written("one taxon", &one(5, 1, 1), [4, 1], "1:5;", &[1, 1]),
        written("a free taxon", &one(0, 0, 70), [5, 1], "70:0;", &[70, 0]),
        written(
            "the highest numbers",
            &one(1_000_000, 65_535, 999_999_999),
            [18, 1],
            "999999999:1000000;",
            &[999_999_999, 65_535],
        ),
        written(
            "lengths of 0",
            &tree_c(0, 0),
            [12, 2],
            "(1:0,2:0):0;",
            &[1, 0, 2, 0],
        ),
    ]
}

fn groups_of_one() -> Vec<WriteCase> {
    let nested = [
        group(0, 2, 10),
        group(0, 3, 0),
        group(0, 4, 300),
        taxon(0, 7, 0, 5),
    ];
    let beside = [
        group(0, 2, 1),
        group(4, 3, 2),
        taxon(0, 3, 30, 9),
        group(0, 5, 4),
        taxon(0, 5, 50, 8),
    ];
    vec![
        written("tree B", &tree_b(), [12, 1], "((1:0):7):0;", &[1, 2]),
        written(
            "groups of one",
            &nested,
            [19, 1],
            "(((5:7):300):0):10;",
            &[5, 0],
        ),
        written(
            "groups of one side by side",
            &beside,
            [20, 2],
            "((9:3):2,(8:5):4):1;",
            &[9, 30, 8, 50],
        ),
    ]
}

/// Records 5 and 7 are below record 2, record 6 below record 3, and record 4 is the root's last member.
pub(crate) fn seven_records() -> [Record; 7] {
    [
        group(0, 2, 1),
        group(3, 5, 20),
        group(4, 6, 300),
        taxon(0, 4, 40, 104),
        taxon(7, 5, 50, 105),
        taxon(0, 6, 60, 103),
        taxon(0, 7, 70, 101),
    ]
}

/// Links and not record numbers make the order of the text and of the pairs.
fn interleaved() -> Vec<WriteCase> {
    let of_four =
        |next, first, third, fourth| [group(0, 2, 0), group(next, first, 1), third, fourth];
    let (eight, nine) = (taxon(0, 2, 5, 8), taxon(0, 3, 6, 9));
    let four = |name, records: [Record; 4]| {
        written(name, &records, [16, 2], "((9:3):1,8:2):0;", &[9, 6, 8, 5])
    };
    vec![
        written(
            "seven records",
            &seven_records(),
            [39, 4],
            "((105:5,101:7):20,(103:6):300,104:4):1;",
            &[105, 50, 101, 70, 103, 60, 104, 40],
        ),
        four("four records", of_four(3, 4, eight, nine)),
        four("four records in text order", of_four(4, 3, nine, eight)),
    ]
}

/// The buffer for pairs is counted in numbers, so 3 are too few for 3 pairs.
fn buffers() -> Vec<WriteCase> {
    let short = [
        (22, 6),
        (23, 5),
        (22, 5),
        (0, 6),
        (23, 0),
        (0, 0),
        (23, 3),
        (MOST_BYTES, 4),
    ];
    let roomy = [(24, 6), (23, 7), (24, 7), (23, 8), (16_384, 1_000)];
    let short = short.map(|(text, pairs)| of_tree_a().short(text, pairs));
    let roomy = roomy.map(|(text, pairs)| of_tree_a().roomy(text, pairs));
    short.into_iter().chain(roomy).collect()
}

/// Each of the three causes of 13 alone, at its limit and far from it.
fn beyond_text() -> Vec<WriteCase> {
    let refused = |records: &[Record], place| refused("13", &bytes(records), 13, place);
    let passes = with_field(4, 999_999_999);
    let text = "((11:4,999999999:2):3,13:5):0;";
    let pairs = [11, 3, 999_999_999, 1, 13, 2];
    let mut cases = vec![written("9 digits", &passes, [30, 3], text, &pairs)];
    cases.extend(
        [
            refused(&tree_a_with(1, 0), 1),
            refused(&tree_a_with(0, 1), 2),
            refused(&tree_a_with(0, 65_535), 2),
            refused(&tree_of_125_headings(), 1),
            refused(&locking(&[3], tree_a()), 3),
            refused(&locking(&[5], tree_a()), 5),
            refused(&[taxon(0, 5, 1, LOCK + 1)], 1),
            refused(&with_field(4, 1_000_000_000), 4),
            refused(&with_field(5, MOST_PLATE), 5),
            refused(&[taxon(0, 5, 1, 1_000_000_000)], 1),
        ]
        .into_iter()
        .flatten(),
    );
    cases
}

#[derive(Clone, Copy)]
enum Cause {
    Heading,
    Lock,
    Plate,
}

/// The records with these numbers get what a text cannot say.
fn causing(causes: &[(usize, Cause)], mut records: Vec<Record>) -> Vec<Record> {
    for &(number, cause) in causes {
        let record = &mut records[number - 1];
        match cause {
            Cause::Heading => record.price = 1,
            Cause::Lock => record.plate |= LOCK,
            Cause::Plate => record.plate += 1_000_000_000,
        }
    }
    records
}

/// The lowest record is the place, whichever cause it has and wherever it stands in the text.
fn lowest() -> Vec<WriteCase> {
    use Cause::{Heading, Lock, Plate};
    // Groups are records 1, 2 and 5, taxa 3, 4 and 6.
    let two_groups: [(&[_], _); 13] = [
        (&[(5, Heading)], 5),
        (&[(3, Lock), (5, Heading)], 3),
        (&[(4, Plate), (5, Heading)], 4),
        (&[(5, Heading), (6, Lock)], 5),
        (&[(5, Heading), (6, Plate)], 5),
        (&[(3, Lock), (4, Plate)], 3),
        (&[(3, Plate), (4, Lock)], 3),
        (&[(4, Plate), (4, Lock)], 4),
        (&[(2, Heading), (5, Heading)], 2),
        (&[(4, Lock), (5, Heading), (6, Plate)], 4),
        (&[(3, Plate), (5, Heading), (6, Lock)], 3),
        (&[(2, Heading), (3, Plate), (6, Lock)], 2),
        (&[(1, Heading), (3, Lock), (4, Plate)], 1),
    ];
    // In the text record 4 is the last, and record 5 comes before records 3 and 6.
    let interleaved: [(&[_], _); 4] = [
        (&[(4, Lock), (5, Lock)], 4),
        (&[(4, Plate), (7, Lock)], 4),
        (&[(3, Heading), (5, Plate)], 3),
        (&[(2, Heading), (4, Lock), (5, Plate)], 2),
    ];
    let of = |records: Vec<Record>| {
        move |(causes, place): (&[_], _)| {
            let outline = bytes(&causing(causes, records.clone()));
            refused("13 at the lowest record", &outline, 13, place)
        }
    };
    let in_groups = two_groups.into_iter().flat_map(of(self::two_groups(0)));
    let others = interleaved.into_iter().flat_map(of(seven_records().into()));
    in_groups.chain(others).collect()
}

/// Outlines, and the number and place of the check's refusal. Each has the faults of those after it: 2, 3, 5, 6, 7, 8.
pub(crate) fn faulty_outlines() -> [(&'static str, Vec<u8>, u32, u32); 9] {
    let twins = locking(&[3], with_field(5, 11));
    let mut many = locking(&[2], shapes::star(65));
    many[65].plate = 1;
    let mut linked = many.clone();
    linked[0].next = 2;
    let mut long = linked.clone();
    long[65].length = 1_000_001;
    let mut thick = bytes(&long);
    thick.resize(128 * RECORD_BYTES, 0);
    let ragged = [&thick[..], &[0]].concat();
    let alone = bytes(&[taxon(0, 5, 1, LOCK + 1)]);
    [
        ("2", ragged, 2, 0),
        ("2, no record", Vec::new(), 2, 0),
        ("2, 15 bytes", alone[..15].to_vec(), 2, 0),
        ("2, 17 bytes", [&alone[..], &[0]].concat(), 2, 0),
        ("3", thick, 3, 0),
        ("5", bytes(&long), 5, 66),
        ("6", bytes(&linked), 6, 1),
        ("7", bytes(&many), 7, 0),
        ("8", bytes(&twins), 8, 5),
    ]
}

/// Each outline has the faults of those after it: 2, 3, 5, 6, 7, 8, 13. All of them come before 9.
fn order() -> Vec<WriteCase> {
    let locked = bytes(&locking(&[3], tree_a()));
    faulty_outlines()
        .into_iter()
        .chain([("13", locked, 13, 3)])
        .flat_map(|(name, outline, number, place)| refused(name, &outline, number, place))
        .collect()
}

/// The outline with every number as long as can be, and its pairs.
pub fn longest(mut records: Vec<Record>) -> (Vec<Record>, Vec<u32>) {
    let rng = &mut Random::new(0);
    shapes::fill(&mut records, rng, |_| 1_000_000, |_| 65_535);
    for taxon in records.iter_mut().filter(|record| record.is_taxon()) {
        taxon.plate += 999_999_935;
    }
    let plates = records.iter().filter(|record| record.is_taxon());
    let pairs = plates.flat_map(|taxon| [taxon.plate, 65_535]).collect();
    (records, pairs)
}

fn list(members: &[String]) -> String {
    format!("({}):1000000", members.join(","))
}

/// The text of pairs of pairs.
fn pairs_of_pairs(mut parts: Vec<String>) -> Option<String> {
    while parts.len() > 1 {
        parts = parts.chunks(2).map(list).collect();
    }
    parts.pop()
}

/// 64 taxa with every number as long as can be.
fn largest() -> Vec<WriteCase> {
    let taxa = || (999_999_936..=999_999_999).map(|plate| format!("{plate}:1000000"));
    let outward = taxa().reduce(|rest, taxon| list(&[rest, taxon]));
    let inward = taxa().rev().reduce(|rest, taxon| list(&[taxon, rest]));
    let star = list(&taxa().collect::<Vec<_>>());
    [
        (
            "pairs of pairs",
            shapes::balanced(6),
            pairs_of_pairs(taxa().collect()),
            1_782,
        ),
        (
            "63 groups, each last",
            shapes::caterpillar_taxon_first(64),
            inward,
            1_782,
        ),
        (
            "63 groups, each first",
            shapes::caterpillar_group_first(64),
            outward,
            1_782,
        ),
        ("64 members", shapes::star(64), Some(star), 1_162),
    ]
    .into_iter()
    .flat_map(|(name, records, part, bytes)| {
        let (records, pairs) = longest(records);
        let text = part.expect("a part") + ";";
        enough_and_short(|| written(name, &records, [bytes, 64], &text, &pairs))
    })
    .collect()
}

/// The case, and both ways to lend it one byte or number less.
fn enough_and_short(written: impl Fn() -> WriteCase) -> [WriteCase; 3] {
    let WriteCall { text, pairs, .. } = written().call;
    [
        written(),
        written().short(text - 1, pairs),
        written().short(text, pairs - 1),
    ]
}

/// As many groups one below the other as can be, with one taxon and with two.
fn deepest() -> Vec<WriteCase> {
    let nested = |groups, taxa, close: &str| {
        format!("{}{taxa}{};", "(".repeat(groups), close.repeat(groups))
    };
    let mut alone: Vec<Record> = (2..=127).map(|first| group(0, first, 1)).collect();
    alone.push(taxon(0, 1, 48, 1));
    let mut two = tree_of_125_headings();
    headings::fill(&mut two, &mut Random::new(0), |_| 0);
    let text = nested(126, "1:1", "):1");
    let of_two = nested(125, "1:1,2:1", "):1");
    let (long, pairs) = longest(alone.clone());
    let of_long = nested(126, "999999936:1000000", "):1000000");
    vec![
        written("126 groups", &alone, [508, 1], &text, &[1, 48]),
        written("125 groups", &two, [508, 2], &of_two, &[1, 48, 2, 48]),
        written("126 long groups", &long, [1_278, 1], &of_long, &pairs),
    ]
}

#[cfg(test)]
mod tests {
    use super::*;

    #[test]
    fn the_longest_text_is_stated() {
        let lengths = || all().into_iter().map(|case| case.expected.text.len());
        assert_eq!(lengths().max(), Some(MOST_BYTES));
    }

    #[test]
    fn every_answer_is_stated() {
        for number in [0, 2, 3, 5, 6, 7, 8, 9, 13] {
            let stated = all()
                .into_iter()
                .filter(|case| case.expected.answer[0] == number);
            assert!(stated.count() > 1, "{number}");
        }
    }
}
