//! A small generator of its own (splitmix64), so that a seed repeats a run on any machine.

#[derive(Clone)]
pub struct Random(u64);

impl Random {
    pub fn new(seed: u64) -> Self {
        Self(seed)
    }

    /// The generator of one part of a run: the parts of one seed have nothing in common.
    pub fn part(seed: u64, part: u64) -> Self {
        let mut random = Self(seed);
        let start = random.draw();
        Self(start ^ part.wrapping_mul(0xD1B5_4A32_D192_ED03))
    }

    pub fn draw(&mut self) -> u64 {
        self.0 = self.0.wrapping_add(0x9E37_79B9_7F4A_7C15);
        let mut z = self.0;
        z = (z ^ (z >> 30)).wrapping_mul(0xBF58_476D_1CE4_E5B9);
        z = (z ^ (z >> 27)).wrapping_mul(0x94D0_49BB_1331_11EB);
        z ^ (z >> 31)
    }

    pub fn byte(&mut self) -> u8 {
        self.draw() as u8
    }

    /// A number under `n`, which is not 0.
    pub fn below(&mut self, n: usize) -> usize {
        (self.draw() % n as u64) as usize
    }

    pub fn between(&mut self, low: usize, high: usize) -> usize {
        low + self.below(high - low + 1)
    }

    /// True once in `n` times.
    pub fn one_in(&mut self, n: usize) -> bool {
        self.below(n) == 0
    }

    pub fn coin(&mut self) -> bool {
        self.one_in(2)
    }

    pub fn pick<T: Copy>(&mut self, from: &[T]) -> T {
        from[self.below(from.len())]
    }

    /// A value, each as often as its weight says.
    pub fn weighted<T: Copy>(&mut self, from: &[(usize, T)]) -> T {
        let total = from.iter().map(|(weight, _)| weight).sum();
        let mut at = self.below(total);
        for (weight, value) in from {
            if at < *weight {
                return *value;
            }
            at -= weight;
        }
        from[0].1
    }

    /// The number itself, or the one below or above it.
    pub fn near(&mut self, n: usize) -> usize {
        (n + self.below(3)).saturating_sub(1)
    }

    pub fn fill(&mut self, bytes: &mut [u8]) {
        for chunk in bytes.chunks_mut(8) {
            chunk.copy_from_slice(&self.draw().to_le_bytes()[..chunk.len()]);
        }
    }

    pub fn bytes(&mut self, n: usize) -> Vec<u8> {
        let mut bytes = vec![0; n];
        self.fill(&mut bytes);
        bytes
    }

    /// Bytes as they might stand in a record: often of few letters, so that a string occurs in
    /// many records, at many places and almost.
    pub fn text(&mut self, n: usize) -> Vec<u8> {
        match self.below(6) {
            0 => vec![b'a'; n],
            1 => self.letters(b"ab", n),
            2 => self.letters(b"abc", n),
            3 => {
                let mut text = vec![b'a'; n];
                if let Some(last) = text.last_mut() {
                    *last = b'b';
                }
                text
            }
            _ => self.bytes(n),
        }
    }

    fn letters(&mut self, from: &[u8], n: usize) -> Vec<u8> {
        (0..n).map(|_| self.pick(from)).collect()
    }

    /// Changes, drops, adds or cuts bytes, one to three times.
    pub fn spoil(&mut self, bytes: &mut Vec<u8>) {
        for _ in 0..self.between(1, 3) {
            let at = self.below(bytes.len() + 1);
            let random = self.byte();
            let byte = self.pick(&[0, 1, 0x7F, 0x80, 0x81, 0x82, 0xFF, random]);
            match self.below(6) {
                0 if at < bytes.len() => drop(bytes.remove(at)),
                1 => bytes.insert(at, byte),
                2 if self.one_in(3) => bytes.truncate(at),
                3 if at < bytes.len() => bytes[at] ^= 1 << self.below(8),
                _ if at < bytes.len() => bytes[at] = byte,
                _ => bytes.push(byte),
            }
        }
    }
}
