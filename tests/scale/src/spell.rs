//! Writing outlines as text, in any of the ways that document 02, §1, leaves free, with pairs for their taxa.

use std::collections::BTreeMap;

use crate::outline::{members, taxa, Record};
use crate::random::Random;

/// How often, one time in so many, each freedom is used.
pub struct Style {
    /// Blanks before a word or behind the last one.
    blanks: u64,
    /// Zeros before a number.
    zeros: u64,
    /// No length where it is 0.
    short: u64,
    /// No length where it is not 0, which makes it 0.
    cut: u64,
}

const NEVER: u64 = u64::MAX;

impl Style {
    /// Every length, no blanks, no leading zeros.
    pub fn plain() -> Self {
        Style {
            blanks: NEVER,
            zeros: NEVER,
            short: NEVER,
            cut: NEVER,
        }
    }

    /// Every length as it is.
    pub fn faithful(rng: &mut Random) -> Self {
        Style {
            blanks: rng.pick(&[NEVER, 20, 3, 1]),
            zeros: rng.pick(&[NEVER, 10, 2]),
            short: rng.pick(&[NEVER, 2, 1]),
            cut: NEVER,
        }
    }

    pub fn any(rng: &mut Random) -> Self {
        Style {
            cut: rng.pick(&[NEVER, NEVER, 6, 1]),
            ..Style::faithful(rng)
        }
    }
}

/// A text that spells the tree of an outline whose links are sound.
pub fn spelled(records: &[Record], style: &Style, rng: &mut Random) -> Vec<u8> {
    let mut writer = Writer {
        text: Vec::new(),
        style,
        rng,
    };
    writer.part(records, 0);
    writer.sign(b';');
    writer.blanks();
    writer.text
}

struct Writer<'a> {
    text: Vec<u8>,
    style: &'a Style,
    rng: &'a mut Random,
}

impl Writer<'_> {
    fn blanks(&mut self) {
        while self.rng.one_in(self.style.blanks.saturating_add(1)) {
            self.text.push(self.rng.pick(b" \t\n\r"));
        }
    }

    fn sign(&mut self, sign: u8) {
        self.blanks();
        self.text.push(sign);
    }

    fn number(&mut self, value: u32) {
        self.blanks();
        let digits = value.to_string();
        let room = 9_usize.saturating_sub(digits.len());
        if self.rng.one_in(self.style.zeros) {
            let zeros = self.rng.index(room + 1);
            self.text.extend(vec![b'0'; zeros]);
        }
        self.text.extend(digits.bytes());
    }

    fn part(&mut self, records: &[Record], position: usize) {
        let record = &records[position];
        if record.is_taxon() {
            self.number(record.plate);
        } else {
            self.list(records, position);
        }
        let left_out = if record.length == 0 {
            self.style.short
        } else {
            self.style.cut
        };
        if !self.rng.one_in(left_out) {
            self.sign(b':');
            self.number(record.length);
        }
    }

    fn list(&mut self, records: &[Record], position: usize) {
        let mut sign = b'(';
        for member in members(records, position) {
            self.sign(sign);
            self.part(records, member);
            sign = b',';
        }
        self.sign(b')');
    }
}

/// A pair for each plate, in any order.
pub fn pairs(records: &[Record], rng: &mut Random) -> Vec<u32> {
    let taxa = taxa(records).into_iter().map(|position| records[position]);
    let prices: BTreeMap<u32, u32> = taxa.map(|taxon| (taxon.plate, taxon.price)).collect();
    let mut pairs: Vec<[u32; 2]> = prices.into_iter().map(|(k, v)| [k, v]).collect();
    rng.shuffle(&mut pairs);
    pairs.concat()
}
