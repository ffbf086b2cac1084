//! A pen that writes bytes one after the other into lent room.

/// Writes from the front of the room on.
pub struct Pen<'a> {
    room: &'a mut [u8],
    length: usize,
}

impl<'a> Pen<'a> {
    /// A pen at the front of `room`.
    pub fn new(room: &'a mut [u8]) -> Self {
        Pen { room, length: 0 }
    }

    /// How many bytes were written.
    pub fn length(&self) -> usize {
        self.length
    }

    /// Writes one byte.
    pub fn put(&mut self, byte: u8) {
        self.room[self.length] = byte;
        self.length += 1;
    }

    /// Writes some bytes.
    pub fn put_all(&mut self, bytes: &[u8]) {
        let end = self.length + bytes.len();
        self.room[self.length..end].copy_from_slice(bytes);
        self.length = end;
    }

    /// Writes the last `count` digits of `value`, zeros in front.
    pub fn put_digits(&mut self, mut value: u64, count: usize) {
        let end = self.length + count;
        for digit in self.room[self.length..end].iter_mut().rev() {
            *digit = b'0' + (value % 10) as u8;
            value /= 10;
        }
        self.length = end;
    }
}
