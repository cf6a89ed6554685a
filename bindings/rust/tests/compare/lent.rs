//! Memory that is lent to a call, inside a larger piece whose other values have
//! to stay.

use std::fmt::Debug;

/// How many values stand before and after what is lent, at least.
const MARGIN: usize = 8;

/// A lent slice between two margins.
pub struct Lent<T> {
    room: Vec<T>,
    margin: T,
    start: usize,
    length: usize,
}

impl<T: Copy + PartialEq + Debug> Lent<T> {
    /// Lends a copy of the content. `shift` moves its start, so that bytes are
    /// met at every alignment.
    pub fn new(content: &[T], margin: T, shift: usize) -> Lent<T> {
        let start = MARGIN + shift % MARGIN;
        let mut room = vec![margin; start + content.len() + MARGIN];
        room[start..start + content.len()].copy_from_slice(content);
        Lent {
            room,
            margin,
            start,
            length: content.len(),
        }
    }

    /// The slice to read. An empty one points nowhere, as Rust has it.
    pub fn read(&self) -> &[T] {
        match self.length {
            0 => &[],
            length => &self.room[self.start..self.start + length],
        }
    }

    /// The slice to write. An empty one points nowhere, as Rust has it.
    pub fn write(&mut self) -> &mut [T] {
        match self.length {
            0 => &mut [],
            length => &mut self.room[self.start..self.start + length],
        }
    }

    /// What is wrong with the last state, where this content is expected.
    pub fn fault(&self, expected: &[T]) -> Option<String> {
        let end = self.start + self.length;
        let margins = self.room[..self.start].iter().chain(&self.room[end..]);
        if margins.into_iter().any(|value| *value != self.margin) {
            return Some(String::from("memory beside the lent slice is written"));
        }
        let index = (0..self.length).find(|i| self.read()[*i] != expected[*i])?;
        Some(format!(
            "index {} of the lent slice holds {:?}, expected {:?}",
            index,
            self.read()[index],
            expected[index]
        ))
    }
}
