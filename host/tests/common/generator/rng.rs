//! A small generator of numbers, the same everywhere for the same seed.

/// SplitMix64.
#[derive(Clone, Debug)]
pub struct Rng {
    state: u64,
}

impl Rng {
    /// The generator of one case: nothing in it hangs on other cases.
    pub fn of_case(seed: u64, call: u64, case: u64) -> Self {
        let mut rng = Rng { state: seed };
        rng.state = rng.next() ^ call.wrapping_mul(0xd1b5_4a32_d192_ed03);
        rng.state = rng.next() ^ case;
        rng.next();
        rng
    }

    /// Any number.
    pub fn next(&mut self) -> u64 {
        self.state = self.state.wrapping_add(0x9e37_79b9_7f4a_7c15);
        let mut mixed = self.state;
        mixed = (mixed ^ (mixed >> 30)).wrapping_mul(0xbf58_476d_1ce4_e5b9);
        mixed = (mixed ^ (mixed >> 27)).wrapping_mul(0x94d0_49bb_1331_11eb);
        mixed ^ (mixed >> 31)
    }

    /// A number from 0 to one below `end`.
    pub fn below(&mut self, end: u64) -> u64 {
        ((u128::from(self.next()) * u128::from(end)) >> 64) as u64
    }

    /// A number from `first` to `last`.
    pub fn between(&mut self, first: u64, last: u64) -> u64 {
        first + self.below(last - first + 1)
    }

    /// A small number: mostly well under `end`, always under it.
    pub fn small(&mut self, end: u64) -> u64 {
        let end = self.below(end) + 1;
        self.below(end)
    }

    /// True once in so many times.
    pub fn one_in(&mut self, times: u64) -> bool {
        self.below(times) == 0
    }

    /// One of these.
    pub fn pick<'a, T>(&mut self, choices: &'a [T]) -> &'a T {
        &choices[self.below(choices.len() as u64) as usize]
    }

    /// A place in a list of this length, its end included.
    pub fn place(&mut self, length: usize) -> usize {
        self.below(length as u64 + 1) as usize
    }

    /// Inserts a byte somewhere.
    pub fn insert(&mut self, bytes: &mut Vec<u8>, byte: u8) {
        let place = self.place(bytes.len());
        bytes.insert(place, byte);
    }

    /// Changes a few bytes: one replaced, put in, taken out or doubled, or the
    /// end cut off. `byte` makes new bytes.
    pub fn damage(&mut self, bytes: &mut Vec<u8>, byte: impl Fn(&mut Rng) -> u8) {
        for _ in 0..=self.small(3) {
            if bytes.is_empty() {
                bytes.push(byte(self));
                continue;
            }
            let place = self.below(bytes.len() as u64) as usize;
            match self.below(5) {
                0 => bytes[place] = byte(self),
                1 => bytes.insert(place, byte(self)),
                2 => drop(bytes.remove(place)),
                3 => bytes.insert(place, bytes[place]),
                _ => {
                    if self.one_in(3) {
                        bytes.truncate(place);
                    } else {
                        let other = self.below(bytes.len() as u64) as usize;
                        bytes.swap(place, other);
                    }
                }
            }
        }
    }
}
