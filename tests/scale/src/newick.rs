//! Trees as text, from document 02, §1: a text is split into words, and a list of parts at its commas.

use crate::outline::Record;

const MOST_BYTES: usize = 16_384;
const MOST_DIGITS: usize = 9;

#[derive(Clone, Copy, Debug, PartialEq, Eq)]
enum Word {
    Open,
    Close,
    Comma,
    Colon,
    Semicolon,
    Number(u32),
}

/// The words of a text without the blanks; none if a byte belongs to no word.
fn words(text: &[u8]) -> Option<Vec<Word>> {
    let mut words = Vec::new();
    let mut rest = text;
    while let Some(&byte) = rest.first() {
        let digits = rest.iter().take_while(|byte| byte.is_ascii_digit()).count();
        let (word, after) = rest.split_at(digits.max(1));
        rest = after;
        words.push(match byte {
            b'(' => Word::Open,
            b')' => Word::Close,
            b',' => Word::Comma,
            b':' => Word::Colon,
            b';' => Word::Semicolon,
            b' ' | 9 | 10 | 13 => continue,
            _ => number(&word[..digits])?,
        });
    }
    Some(words)
}

fn number(digits: &[u8]) -> Option<Word> {
    if digits.is_empty() || digits.len() > MOST_DIGITS {
        return None;
    }
    let value = |sum: u32, digit: &u8| 10 * sum + u32::from(digit - b'0');
    Some(Word::Number(digits.iter().fold(0, value)))
}

/// Where the bracket stands that closes each opening one; none if they do not pair up.
fn partners(words: &[Word]) -> Option<Vec<usize>> {
    let mut partners = vec![0; words.len()];
    let mut open = Vec::new();
    for (at, word) in words.iter().enumerate() {
        match word {
            Word::Open => open.push(at),
            Word::Close => partners[open.pop()?] = at,
            _ => {}
        }
    }
    open.is_empty().then_some(partners)
}

/// Words `from` to `to`, which are to be a part, and the position of its group's record.
#[derive(Clone, Copy)]
struct Piece {
    from: usize,
    to: usize,
    group: Option<usize>,
}

struct Reader<'a> {
    words: &'a [Word],
    partners: Vec<usize>,
    records: Vec<Record>,
    /// For each record the position of its member that was met last.
    latest: Vec<Option<usize>>,
}

impl Reader<'_> {
    /// Adds the part's record and gives the pieces that are to be its members.
    fn part(&mut self, piece: Piece) -> Option<Vec<Piece>> {
        let words = &self.words[piece.from..piece.to];
        let (plate, end) = match words.first()? {
            Word::Number(plate) => (*plate, piece.from + 1),
            Word::Open => (0, self.partners[piece.from] + 1),
            _ => return None,
        };
        let length = match self.words[end..piece.to] {
            [] => 0,
            [Word::Colon, Word::Number(length)] => length,
            _ => return None,
        };
        let position = self.records.len();
        self.add(piece.group, length, plate);
        if words[0] != Word::Open {
            return Some(Vec::new());
        }
        Some(self.split(piece.from + 1, end - 1, position))
    }

    fn add(&mut self, group: Option<usize>, length: u32, plate: u32) {
        let position = self.records.len();
        let number = position as u16 + 1;
        self.records.push(Record {
            length,
            plate,
            ..Record::default()
        });
        self.latest.push(None);
        let Some(group) = group else { return };
        match self.latest[group].replace(position) {
            None => self.records[group].first = number,
            Some(before) => self.records[before].next = number,
        }
    }

    /// The words between two brackets, at the commas that stand in no brackets of their own.
    fn split(&self, from: usize, to: usize, group: usize) -> Vec<Piece> {
        let group = Some(group);
        let mut pieces = Vec::new();
        let (mut start, mut at) = (from, from);
        while at < to {
            match self.words[at] {
                Word::Open => at = self.partners[at],
                Word::Comma => {
                    let (from, to) = (start, at);
                    pieces.push(Piece { from, to, group });
                    start = at + 1;
                }
                _ => {}
            }
            at += 1;
        }
        let from = start;
        pieces.push(Piece { from, to, group });
        pieces
    }
}

/// The records of the tree that a text spells, all prices 0, numbered as their parts begin; none if it spells no tree.
pub fn records(text: &[u8]) -> Option<Vec<Record>> {
    if text.len() > MOST_BYTES {
        return None;
    }
    let all = words(text)?;
    let (Word::Semicolon, words) = all.split_last()? else {
        return None;
    };
    let mut reader = Reader {
        words,
        partners: partners(words)?,
        records: Vec::new(),
        latest: Vec::new(),
    };
    let (from, to, group) = (0, words.len(), None);
    let mut waiting = vec![Piece { from, to, group }];
    while let Some(piece) = waiting.pop() {
        waiting.extend(reader.part(piece)?.into_iter().rev());
    }
    Some(reader.records)
}

#[cfg(test)]
mod tests {
    use super::*;
    use crate::cases::tree_a;
    use crate::random::Random;
    use crate::shapes;
    use crate::spell::{spelled, Style};

    fn unpriced(mut records: Vec<Record>) -> Vec<Record> {
        records.iter_mut().for_each(|record| record.price = 0);
        records
    }

    #[test]
    fn tree_a_is_read() {
        let expected = Some(unpriced(tree_a()));
        assert_eq!(records(b"((11:4,12:2):3,13:5);"), expected);
        let odd = b"\t( (011 :\r\n4,12\n:000000002) : 3 ,13:5 );\r \n";
        assert_eq!(records(odd), expected);
    }

    #[test]
    fn what_is_spelled_is_read_back() {
        let rng = &mut Random::new(1);
        for levels in 0..=6 {
            for mut tree in [
                shapes::balanced(levels),
                shapes::star(1 << levels),
                shapes::caterpillar_taxon_first(1 << levels),
                shapes::caterpillar_group_first(1 << levels),
            ] {
                let length = |rng: &mut Random| rng.up_to(1_000_000);
                shapes::fill(&mut tree, rng, length, |_| 0);
                let text = spelled(&tree, &Style::faithful(rng), rng);
                assert_eq!(records(&text), Some(tree));
            }
        }
    }

    #[test]
    fn words_are_numbers_and_signs() {
        let expected = [Word::Number(12), Word::Number(3), Word::Colon];
        assert_eq!(words(b" 12 3:").as_deref(), Some(&expected[..]));
        let nine = [Word::Number(999_999_999)];
        assert_eq!(words(b"999999999").as_deref(), Some(&nine[..]));
        for text in [&b"0123456789"[..], b"1.5", b"x", b"\x0b", b"\0", b"["] {
            assert_eq!(words(text), None, "{}", text.escape_ascii());
        }
    }
}
