//! A plain reader of trees as text: one pass over the bytes with a stack of the lists that are open. It does what `plates_read`
//! does, with the same refusals; the outline's check is the library's own.

use plates_scale::library;
use plates_scale::outline::{bytes, Record};

const MOST_BYTES: usize = 16_384;
const MOST_DIGITS: usize = 9;
const MOST_RECORDS: usize = 127;

/// The first records of a tree, and how many there are.
struct Draft {
    records: Vec<Record>,
    count: usize,
}

impl Draft {
    /// Counts a record and links it to the list that it stands in.
    fn begin(&mut self, list: Option<&mut List>, plate: u32) -> usize {
        let position = self.count;
        self.count += 1;
        if position >= MOST_RECORDS {
            return position;
        }
        let number = position as u16 + 1;
        let record = Record {
            plate,
            ..Record::default()
        };
        self.records.push(record);
        if let Some(list) = list {
            match list.latest.replace(position) {
                None => self.records[list.group].first = number,
                Some(before) => self.records[before].next = number,
            }
        }
        position
    }

    fn set_length(&mut self, position: usize, length: u32) {
        if let Some(record) = self.records.get_mut(position) {
            record.length = length;
        }
    }
}

/// A list that is open: the positions of its group and of its latest member.
struct List {
    group: usize,
    latest: Option<usize>,
}

struct Text<'a> {
    bytes: &'a [u8],
    at: usize,
}

impl Text<'_> {
    /// The next byte that is no blank.
    fn peek(&mut self) -> Option<u8> {
        loop {
            match *self.bytes.get(self.at)? {
                b' ' | b'\t' | b'\n' | b'\r' => self.at += 1,
                byte => return Some(byte),
            }
        }
    }

    fn number(&mut self) -> Option<u32> {
        self.peek()?;
        let (start, mut value) = (self.at, 0);
        while let Some(byte @ b'0'..=b'9') = self.bytes.get(self.at) {
            if self.at - start == MOST_DIGITS {
                return None;
            }
            value = 10 * value + u32::from(byte - b'0');
            self.at += 1;
        }
        (self.at > start).then_some(value)
    }

    fn length(&mut self) -> Option<u32> {
        if self.peek() != Some(b':') {
            return Some(0);
        }
        self.at += 1;
        self.number()
    }
}

fn parse(bytes: &[u8]) -> Option<Draft> {
    let mut text = Text { bytes, at: 0 };
    let mut draft = Draft {
        records: Vec::with_capacity(MOST_RECORDS),
        count: 0,
    };
    let mut open: Vec<List> = Vec::new();
    loop {
        if text.peek()? == b'(' {
            text.at += 1;
            let (group, latest) = (draft.begin(open.last_mut(), 0), None);
            open.push(List { group, latest });
            continue;
        }
        let plate = text.number()?;
        let taxon = draft.begin(open.last_mut(), plate);
        draft.set_length(taxon, text.length()?);
        if !follow(&mut text, &mut draft, &mut open)? {
            return Some(draft);
        }
    }
}

/// Goes past what follows a part: whether another part does, or the tree has ended.
fn follow(text: &mut Text, draft: &mut Draft, open: &mut Vec<List>) -> Option<bool> {
    loop {
        let sign = text.peek()?;
        text.at += 1;
        match sign {
            b')' => {
                let list = open.pop()?;
                draft.set_length(list.group, text.length()?);
            }
            b',' if !open.is_empty() => return Some(true),
            b';' if open.is_empty() => return text.peek().is_none().then_some(false),
            _ => return None,
        }
    }
}

/// Sets the prices; false if the pairs are not those of the taxa.
fn set_prices(records: &mut [Record], numbers: &[u32]) -> bool {
    let pairs = || numbers.chunks_exact(2);
    let taxa = || records.iter().filter(|record| record.is_taxon());
    let homeless = |pair: &[u32]| taxa().all(|taxon| taxon.plate != pair[0]);
    if !numbers.len().is_multiple_of(2) || pairs().any(homeless) {
        return false;
    }
    for taxon in records.iter_mut().filter(|record| record.is_taxon()) {
        let mut own = pairs().filter(|pair| pair[0] == taxon.plate);
        let (Some(pair), None) = (own.next(), own.next()) else {
            return false;
        };
        taxon.price = pair[1];
    }
    true
}

/// Number, place, records.
pub fn read(text: &[u8], pairs: &[u32], outline: &mut [u8]) -> [u32; 3] {
    let draft = if text.len() > MOST_BYTES {
        None
    } else {
        parse(text)
    };
    let Some(mut draft) = draft else {
        return [10, 0, 0];
    };
    if draft.count > MOST_RECORDS {
        return [3, 0, 0];
    }
    if !set_prices(&mut draft.records, pairs) {
        return [11, 0, 0];
    }
    let bytes = bytes(&draft.records);
    let Some(room) = outline.get_mut(..bytes.len()) else {
        return [9, 0, 0];
    };
    let [number, place] = library::check(&bytes);
    if number != 0 {
        return [number, place, 0];
    }
    room.copy_from_slice(&bytes);
    [0, 0, draft.count as u32]
}
