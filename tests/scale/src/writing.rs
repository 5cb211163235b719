//! A call that writes an outline as text, and what document 02, §5, says it gives. Each record gets its path from the root, and
//! sorting by these paths puts the pieces of the text in order.

use crate::outline::{self, taxa, Record};
use crate::rules::{self, Refusal};

/// The bytes of the longest text: 127 records with 64 taxa. Each branch of length 1,000,000 takes 8 bytes, each plate 9, each
/// pair of brackets 2; the commas and the semicolon are together as many as the taxa.
pub const MOST_BYTES: usize = 10 * 127 + 8 * 64;
/// The numbers of as many pairs as can be.
pub const MOST_NUMBERS: usize = 2 * 64;

/// `text` and `pairs` are the buffers' lengths, in bytes and in numbers.
#[derive(Clone, Debug, PartialEq, Eq)]
pub struct WriteCall {
    pub outline: Vec<u8>,
    pub text: usize,
    pub pairs: usize,
}

/// The answer and what is written to the buffers; nothing on a refusal.
#[derive(Clone, Debug, PartialEq, Eq)]
pub struct WriteExpected {
    /// Number, place, bytes, pairs.
    pub answer: [u32; 4],
    pub text: Vec<u8>,
    pub pairs: Vec<u32>,
}

impl WriteExpected {
    pub fn refused(refusal: Refusal) -> Self {
        WriteExpected {
            answer: [refusal.number, refusal.place, 0, 0],
            text: Vec::new(),
            pairs: Vec::new(),
        }
    }
}

pub fn expected(call: &WriteCall) -> WriteExpected {
    judged(call).map_or_else(WriteExpected::refused, |(text, pairs)| WriteExpected {
        answer: [0, 0, text.len() as u32, pairs.len() as u32 / 2],
        text,
        pairs,
    })
}

/// The text and the pairs, or the first of the check's refusals, 13 and 9 that holds.
fn judged(call: &WriteCall) -> Result<(Vec<u8>, Vec<u32>), Refusal> {
    let records = outline::records(&call.outline);
    let refusal = rules::check(&call.outline).or_else(|| unwritable(&records));
    refusal.map_or(Ok(()), Err)?;
    let (text, pairs) = (text(&records), pairs(&records));
    let short = call.text < text.len() || call.pairs < pairs.len();
    rules::without_place(9, short).map_or(Ok((text, pairs)), Err)
}

/// What a text cannot say of a record.
type Cause = (&'static str, fn(&Record) -> bool);

pub const CAUSES: [Cause; 3] = [
    ("a heading's price", |record| {
        !record.is_taxon() && record.price > 0
    }),
    ("a lock", Record::is_locked),
    ("a plate of 10 digits", |record| {
        record.plate_number().to_string().len() > 9
    }),
];

fn unwritable(records: &[Record]) -> Option<Refusal> {
    rules::at_lowest(13, records, |records, number| {
        CAUSES.iter().any(|(_, holds)| holds(&records[number - 1]))
    })
}

/// How many members stand before the record in its chain, and before that how many before each heading above it.
type Path = Vec<u16>;

/// Behind every member of a chain.
const END: u16 = u16::MAX;

/// The records' paths. Links go to later records, so a path is known before the record's own links are followed.
fn paths(records: &[Record]) -> Vec<Path> {
    let mut paths = vec![vec![0]; records.len()];
    for (position, record) in records.iter().enumerate() {
        let path = paths[position].clone();
        if record.first != 0 {
            paths[usize::from(record.first) - 1] = [&path[..], &[0]].concat();
        }
        if let (true, [above @ .., before]) = (record.next != 0, &path[..]) {
            paths[usize::from(record.next) - 1] = [above, &[before + 1]].concat();
        }
    }
    paths
}

/// The text of an accepted outline.
pub fn text(records: &[Record]) -> Vec<u8> {
    let mut pieces: Vec<(Path, String)> = Vec::new();
    for (record, path) in records.iter().zip(paths(records)) {
        let comma = if path.ends_with(&[0]) { "" } else { "," };
        let length = record.length;
        if record.is_taxon() {
            let plate = record.plate_number();
            pieces.push((path, format!("{comma}{plate}:{length}")));
        } else {
            pieces.push(([&path[..], &[END]].concat(), format!("):{length}")));
            pieces.push((path, format!("{comma}(")));
        }
    }
    pieces.sort();
    let text: String = pieces.into_iter().map(|(_, piece)| piece).collect();
    (text + ";").into_bytes()
}

/// The pairs of an accepted outline, in the order of its text.
pub fn pairs(records: &[Record]) -> Vec<u32> {
    let paths = paths(records);
    let mut taxa = taxa(records);
    taxa.sort_by_key(|&position| &paths[position]);
    let taxa = taxa.into_iter().map(|position| records[position]);
    taxa.flat_map(|taxon| [taxon.plate_number(), taxon.price])
        .collect()
}

#[cfg(test)]
mod tests {
    use super::*;
    use crate::cases::tree_a;
    use crate::newick;
    use crate::outline::is_preorder;
    use crate::random::Random;
    use crate::shapes;
    use crate::spell::{spelled, Style};
    use crate::write_cases;

    #[test]
    fn paths_go_down_from_the_root() {
        let expected: [&[u16]; 5] = [&[0], &[0, 0], &[0, 0, 0], &[0, 0, 1], &[0, 1]];
        assert_eq!(paths(&tree_a()), expected);
    }

    #[test]
    fn stated_writings_are_given() {
        for case in write_cases::all() {
            assert_eq!(expected(&case.call), case.expected, "{}", case.name);
        }
    }

    #[test]
    fn a_text_is_the_plain_spelling_of_its_outline() {
        let rng = &mut Random::new(1);
        for _ in 0..500 {
            let taxa = 1 + rng.index(64);
            let mut records = shapes::random_outline(taxa, 127, rng);
            shapes::fill(&mut records, rng, |rng| rng.up_to(1_000_000), |_| 0);
            assert_eq!(text(&records), spelled(&records, &Style::plain(), rng));
            let read = newick::records(&text(&records));
            assert_eq!(read == Some(records.clone()), is_preorder(&records));
        }
    }

    #[test]
    fn no_text_is_longer_than_the_longest() {
        let rng = &mut Random::new(2);
        for taxa in 1..=64 {
            let mut records = shapes::random_outline(taxa, 127, rng);
            shapes::fill(&mut records, rng, |_| 1_000_000, |_| 65_535);
            for record in records.iter_mut().filter(|record| record.is_taxon()) {
                record.plate += 999_999_935;
            }
            assert_eq!(text(&records).len(), 10 * records.len() + 8 * taxa);
            assert_eq!(pairs(&records).len(), 2 * taxa);
        }
    }
}
