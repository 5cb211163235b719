//! Texts that are read by `plates_read` and by the plain reader.

use crate::instances::{filled, TAXA};
use crate::reader;
use crate::times::{timed, Times};
use plates_scale::mangle::{faulty_call, sound_call, Fault};
use plates_scale::random::Random;
use plates_scale::reading::ReadCall;
use plates_scale::spell::{pairs, spelled, Style};
use plates_scale::{library, shapes, text_cases};
use std::hint::black_box;

const MOST_BYTES: usize = 16_384;
/// Bytes for 127 records.
const ROOM: usize = 2_032;

pub struct Reading {
    pub name: &'static str,
    pub text: Vec<u8>,
    pub records: usize,
    /// What plates gives: 0 or a refusal's number.
    pub number: u32,
    pub plates: Times,
    pub plain: Times,
    pairs: Vec<u32>,
    outline: Vec<u8>,
}

impl Reading {
    fn new(name: &'static str, text: Vec<u8>, pairs: Vec<u32>, records: usize) -> Self {
        let mut outline = vec![0; ROOM];
        let answer = library::read(&text, &pairs, &mut outline);
        Reading {
            name,
            text,
            records,
            number: answer[0],
            plates: Times::default(),
            plain: Times::default(),
            pairs,
            outline,
        }
    }

    fn call(&self) -> ReadCall {
        ReadCall {
            text: self.text.clone(),
            pairs: self.pairs.clone(),
            outline: ROOM,
        }
    }

    /// A call of each, in turn.
    pub fn measure(&mut self) {
        let (text, pairs) = (black_box(&self.text[..]), black_box(&self.pairs[..]));
        let (answer, seconds) = timed(|| library::read(text, pairs, &mut self.outline));
        black_box(answer);
        self.plates.add(seconds);
        let (answer, seconds) = timed(|| reader::read(text, pairs, &mut self.outline));
        black_box(answer);
        self.plain.add(seconds);
    }
}

pub fn all() -> Vec<Reading> {
    let random = &mut Random::new(1);
    let tree = filled(shapes::random_tree(TAXA, random), random);
    let text = spelled(&tree, &Style::plain(), random);
    let prices = pairs(&tree, random);
    let blanks = padded(&text);
    let lists = MOST_BYTES / 2 - 1;
    let nested = format!("{}7{};", "(".repeat(lists), ")".repeat(lists));
    let mut readings = vec![
        Reading::new("64 taxa", text, prices.clone(), tree.len()),
        Reading::new("64 taxa, blanks", blanks, prices, tree.len()),
        Reading::new("nested lists", nested.into(), vec![7, 1], lists + 1),
    ];
    readings.extend([8, 4, 2, 1].map(|part| one_list(MOST_BYTES / part)));
    readings
}

/// One list of taxa, a text of so many bytes: its time shows how that grows with the text.
fn one_list(bytes: usize) -> Reading {
    let taxa = bytes / 2 - 1;
    let text = format!("({});", vec!["7"; taxa].join(","));
    Reading::new("one list", text.into(), vec![7, 1], taxa + 1)
}

/// How many answers of the plain reader were compared with those of plates, buffers included, and how many differ: the measured
/// texts, those with stated answers, sound and faulty ones.
pub fn agreement(readings: &[Reading]) -> [usize; 2] {
    let random = &mut Random::new(2);
    let mut calls: Vec<ReadCall> = readings.iter().map(Reading::call).collect();
    calls.extend(text_cases::all().into_iter().map(|case| case.call));
    for _ in 0..2_000 {
        calls.push(sound_call(random));
        let faults = [random.pick(&Fault::ALL), random.pick(&Fault::ALL)];
        calls.push(faulty_call(&faults, random));
    }
    let differing = calls.iter().filter(|call| differs(call)).count();
    [calls.len(), differing]
}

fn differs(call: &ReadCall) -> bool {
    let mut ours = vec![0xa5; call.outline];
    let mut theirs = ours.clone();
    let answer = library::read(&call.text, &call.pairs, &mut ours);
    answer != reader::read(&call.text, &call.pairs, &mut theirs) || ours != theirs
}

/// The text with blanks behind its signs, as many as a text has room for.
fn padded(text: &[u8]) -> Vec<u8> {
    let signs = text.iter().filter(|byte| !byte.is_ascii_digit()).count();
    let blanks = (MOST_BYTES - text.len()) / signs;
    let mut padded = Vec::with_capacity(MOST_BYTES);
    for &byte in text {
        padded.push(byte);
        if !byte.is_ascii_digit() {
            padded.extend(vec![b' '; blanks]);
        }
    }
    padded.resize(MOST_BYTES, b' ');
    padded
}
