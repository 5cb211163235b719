//! Buffers that stand inside a larger one, so that a write outside them shows.

use std::fmt::Display;

use crate::random::Random;

/// An element type of the library's buffers.
pub trait Cell: Copy + PartialEq + Display {
    fn from_bits(bits: u64) -> Self;
}

impl Cell for u8 {
    fn from_bits(bits: u64) -> Self {
        bits as u8
    }
}

impl Cell for u32 {
    fn from_bits(bits: u64) -> Self {
        bits as u32
    }
}

impl Cell for u64 {
    fn from_bits(bits: u64) -> Self {
        bits
    }
}

impl Cell for i32 {
    fn from_bits(bits: u64) -> Self {
        bits as i32
    }
}

impl Cell for i64 {
    fn from_bits(bits: u64) -> Self {
        bits as i64
    }
}

/// The buffer is `cells[start..start + len]`; the cells around it are its guard.
#[derive(Clone, Debug, PartialEq, Eq)]
pub struct Frame<T> {
    pub cells: Vec<T>,
    pub start: usize,
    pub len: usize,
}

impl<T: Cell> Frame<T> {
    /// A buffer of `len` random elements between random guards; the random start varies the alignment.
    pub fn random(len: usize, rng: &mut Random) -> Self {
        let start = 1 + rng.index(40);
        let after = 8 + rng.index(40);
        let cells = (0..start + len + after)
            .map(|_| T::from_bits(rng.bits()))
            .collect();
        Frame { cells, start, len }
    }

    /// A buffer that holds these values.
    pub fn holding(values: &[T], rng: &mut Random) -> Self {
        let mut frame = Frame::random(values.len(), rng);
        frame.write(values);
        frame
    }

    /// Overwrites the buffer from its start.
    pub fn write(&mut self, values: &[T]) {
        self.cells[self.start..][..values.len()].copy_from_slice(values);
    }

    pub fn content(&self) -> &[T] {
        &self.cells[self.start..][..self.len]
    }

    pub fn pointer(&mut self) -> *mut T {
        self.cells[self.start..].as_mut_ptr()
    }
}

/// What differs, if anything, from `before` with `written` written at the buffer's start.
pub fn difference<T: Cell>(
    name: &str,
    before: &Frame<T>,
    after: &Frame<T>,
    written: &[T],
) -> Option<String> {
    let end = before.start + written.len();
    let same = after.cells[..before.start] == before.cells[..before.start]
        && after.cells[before.start..end] == *written
        && after.cells[end..] == before.cells[end..];
    if same {
        return None;
    }
    let mut expected = before.clone();
    expected.write(written);
    let pairs = expected.cells.iter().zip(&after.cells);
    let (at, (expected, got)) = pairs
        .enumerate()
        .find(|(_, (expected, got))| expected != got)?;
    let place = at as i64 - before.start as i64;
    let len = before.len;
    Some(format!(
        "{name}[{place}] (length {len}): expected {expected}, got {got}"
    ))
}

#[cfg(test)]
mod tests {
    use super::*;

    #[test]
    fn every_single_change_is_found() {
        let rng = &mut Random::new(1);
        let before = Frame::<u32>::random(6, rng);
        let mut after = before.clone();
        after.write(&[7, 8]);
        assert_eq!(difference("curve", &before, &after, &[7, 8]), None);
        for at in 0..after.cells.len() {
            let mut changed = after.clone();
            changed.cells[at] ^= 1;
            let text = difference("curve", &before, &changed, &[7, 8]).expect("a difference");
            let place = at as i64 - before.start as i64;
            assert!(text.starts_with(&format!("curve[{place}] ")), "{text}");
        }
    }

    #[test]
    fn starts_take_every_alignment() {
        let rng = &mut Random::new(2);
        let mut starts: Vec<usize> = (0..200)
            .map(|_| Frame::<u8>::random(3, rng).pointer() as usize % 8)
            .collect();
        starts.sort_unstable();
        starts.dedup();
        assert_eq!(starts, [0, 1, 2, 3, 4, 5, 6, 7]);
    }
}
