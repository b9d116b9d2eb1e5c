//! A small generator of pseudo-random numbers (splitmix64): the same seed gives
//! the same cases on every machine.

/// The state of a generator.
#[derive(Clone, Debug)]
pub struct Rng(u64);

impl Rng {
    pub fn new(seed: u64) -> Rng {
        Rng(seed)
    }

    /// A generator of its own for one round of a seed.
    pub fn of_round(seed: u64, round: u64) -> Rng {
        let mut outer = Rng::new(seed);
        let base = outer.draw();
        let mut inner = Rng::new(base ^ round.wrapping_mul(0xD6E8_FEB8_6659_FD93));
        Rng::new(inner.draw())
    }

    pub fn draw(&mut self) -> u64 {
        self.0 = self.0.wrapping_add(0x9E37_79B9_7F4A_7C15);
        let mut z = self.0;
        z = (z ^ (z >> 30)).wrapping_mul(0xBF58_476D_1CE4_E5B9);
        z = (z ^ (z >> 27)).wrapping_mul(0x94D0_49BB_1331_11EB);
        z ^ (z >> 31)
    }

    /// Any word at all.
    pub fn any(&mut self) -> i64 {
        self.draw() as i64
    }

    /// A number below `count`, which is not 0.
    pub fn below(&mut self, count: usize) -> usize {
        ((u128::from(self.draw()) * count as u128) >> 64) as usize
    }

    /// True once in `count` times.
    pub fn one_in(&mut self, count: usize) -> bool {
        self.below(count) == 0
    }

    pub fn coin(&mut self) -> bool {
        self.draw() & 1 == 1
    }

    /// A number from `low` to `high`, both included.
    pub fn between(&mut self, low: i64, high: i64) -> i64 {
        assert!(low <= high, "an empty range {low}..{high}");
        let span = (i128::from(high) - i128::from(low)) as u128 + 1;
        let offset = (u128::from(self.draw()) * span) >> 64;
        (i128::from(low) + offset as i128) as i64
    }

    pub fn pick<T: Copy>(&mut self, of: &[T]) -> T {
        of[self.below(of.len())]
    }
}
