//! The stack of an F code.
//!
//! The entries lie end to end in lent room, the top one last. So joining the
//! top two moves no byte at all, and exchanging them turns one stretch around.

use super::{ENTRY_LENGTH, STACK_DEPTH};

/// How much room a stack needs.
pub const STACK_ROOM: usize = STACK_DEPTH * ENTRY_LENGTH;

/// The stack. The checked grammar sees to it that no entry is asked for that is
/// not there.
pub struct Stack<'a> {
    room: &'a mut [u8],
    /// Entry i is `room[starts[i]..starts[i + 1]]`.
    starts: [usize; STACK_DEPTH + 1],
    depth: usize,
}

impl<'a> Stack<'a> {
    /// An empty stack in `room`, which has [`STACK_ROOM`] bytes.
    pub fn new(room: &'a mut [u8]) -> Self {
        Stack {
            room,
            starts: [0; STACK_DEPTH + 1],
            depth: 0,
        }
    }

    /// Takes away all entries.
    pub fn clear(&mut self) {
        self.depth = 0;
    }

    /// An entry, counted down from the top, which is 1.
    pub fn entry(&self, from_top: usize) -> &[u8] {
        let place = self.depth - from_top;
        &self.room[self.starts[place]..self.starts[place + 1]]
    }

    /// How many bytes the top `count` entries have in all.
    pub fn top_length(&self, count: usize) -> usize {
        self.starts[self.depth] - self.starts[self.depth - count]
    }

    /// Pushes a copy of `bytes`, at most 1,024.
    pub fn push(&mut self, bytes: &[u8]) {
        let start = self.starts[self.depth];
        self.room[start..start + bytes.len()].copy_from_slice(bytes);
        self.depth += 1;
        self.starts[self.depth] = start + bytes.len();
    }

    /// Puts a new entry in the place of the top `count`. `write` gets the room
    /// from the start of the lowest of them on, in which they still stand, at
    /// least 1,024 bytes, and gives the length of what it wrote to the front.
    pub fn replace<E>(
        &mut self,
        count: usize,
        write: impl FnOnce(&mut [u8]) -> Result<usize, E>,
    ) -> Result<usize, E> {
        let start = self.starts[self.depth - count];
        let length = write(&mut self.room[start..])?;
        self.depth = self.depth - count + 1;
        self.starts[self.depth] = start + length;
        Ok(length)
    }

    /// Makes one entry of the top two, the second in front.
    pub fn join(&mut self) {
        self.starts[self.depth - 1] = self.starts[self.depth];
        self.depth -= 1;
    }

    /// Exchanges the top two.
    pub fn exchange(&mut self) {
        let start = self.starts[self.depth - 2];
        let end = self.starts[self.depth];
        let top_length = self.top_length(1);
        self.room[start..end].rotate_right(top_length);
        self.starts[self.depth - 1] = start + top_length;
    }

    /// Pushes a copy of the top entry.
    pub fn duplicate(&mut self) {
        let top = self.starts[self.depth - 1]..self.starts[self.depth];
        let (start, length) = (top.end, top.len());
        self.room.copy_within(top, start);
        self.depth += 1;
        self.starts[self.depth] = start + length;
    }
}
