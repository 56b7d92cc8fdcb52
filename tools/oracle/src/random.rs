//! A generator that gives the same numbers on every machine (xorshift64*).

pub struct Random(u64);

impl Random {
    pub fn new(seed: u64) -> Random {
        Random(seed)
    }

    /// A number below `end`.
    pub fn below(&mut self, end: usize) -> usize {
        self.0 ^= self.0 >> 12;
        self.0 ^= self.0 << 25;
        self.0 ^= self.0 >> 27;
        (self.0.wrapping_mul(0x2545_F491_4F6C_DD1D) >> 33) as usize % end
    }

    /// True once in `of` times.
    pub fn once_in(&mut self, of: usize) -> bool {
        self.below(of) == 0
    }

    pub fn pick<'a, T: ?Sized>(&mut self, from: &[&'a T]) -> &'a T {
        from[self.below(from.len())]
    }

    pub fn one_of(&mut self, from: &[usize]) -> usize {
        from[self.below(from.len())]
    }

    pub fn byte(&mut self) -> u8 {
        self.below(256) as u8
    }

    /// A byte that is not zero.
    pub fn non_zero(&mut self) -> u8 {
        1 + self.below(255) as u8
    }

    /// A message in which about one byte in `of` is a zero; none where `of` is 0.
    pub fn message(&mut self, len: usize, of: usize) -> Vec<u8> {
        (0..len).map(|_| if of > 0 && self.below(of) == 0 { 0 } else { self.non_zero() }).collect()
    }
}
