//! Dirty buffers to lend to a call, with guards around them.

/// Guard bytes on either side of what is lent.
const GUARD: usize = 32;
/// How long the stretch of noise is that dirty buffers are filled from.
const NOISE: usize = 1 << 16;

/// An output and a scratch.
pub struct Buffers {
    pub output: Buffer,
    pub scratch: Buffer,
}

impl Default for Buffers {
    /// They have no turn in common, so each place of one meets each of the other.
    fn default() -> Self {
        Buffers {
            output: Buffer::new(32),
            scratch: Buffer::new(31),
        }
    }
}

/// A buffer that is full of noise, without a single zero, whenever it is lent,
/// and each time begins at the next byte of the memory, so that it stands at
/// every alignment.
pub struct Buffer {
    bytes: Vec<u8>,
    start: usize,
    length: usize,
    lent: usize,
    /// After so many times it begins again where it began first.
    turn: usize,
    noise: Vec<u8>,
}

/// Bytes from 1 to 255 without an evident order.
fn noise_byte(place: usize) -> u8 {
    let mixed = (place as u64 + 1).wrapping_mul(0x9e37_79b9_7f4a_7c15) >> 32;
    (mixed % 255) as u8 + 1
}

impl Buffer {
    fn new(turn: usize) -> Self {
        Buffer {
            bytes: Vec::new(),
            start: 0,
            length: 0,
            lent: 0,
            turn,
            noise: (0..NOISE).map(noise_byte).collect(),
        }
    }

    /// Lends `length` dirty bytes, other ones each time.
    pub fn lend(&mut self, length: usize) -> &mut [u8] {
        self.lent += 1;
        self.start = GUARD + self.lent % self.turn;
        self.length = length;
        let whole = self.start + length + GUARD;
        if self.bytes.len() < whole {
            self.bytes.resize(whole, 0);
        }
        let shift = self.lent % 251;
        for chunk in self.bytes[..whole].chunks_mut(NOISE - 251) {
            chunk.copy_from_slice(&self.noise[shift..shift + chunk.len()]);
        }
        &mut self.bytes[self.start..self.start + length]
    }

    /// What the lent bytes hold after the call. The bytes around them must be as
    /// they were.
    pub fn after(&self) -> &[u8] {
        assert!(self.guards_hold(), "the call wrote beside its buffer");
        &self.bytes[self.start..self.start + self.length]
    }

    fn guards_hold(&self) -> bool {
        let shift = self.lent % 251;
        let (start, end) = (self.start, self.start + self.length);
        let noise_at = |place: usize| self.noise[shift + place % (NOISE - 251)];
        (start - GUARD..start)
            .chain(end..end + GUARD)
            .all(|place| self.bytes[place] == noise_at(place))
    }
}

/// Whether all bytes are zero.
pub fn all_zero(bytes: &[u8]) -> bool {
    const ZEROS: [u8; 4_096] = [0; 4_096];
    bytes
        .chunks(ZEROS.len())
        .all(|chunk| *chunk == ZEROS[..chunk.len()])
}
