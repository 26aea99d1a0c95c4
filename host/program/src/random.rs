//! The generator behind everything that is made from a seed: splitmix64.
//!
//! Values are made by whole numbers, sums, products, quotients and square roots alone, so that a seed gives the same
//! bits on every machine.

pub struct Random(u64);

/// What a generator is for: each has a sequence of its own under the same seed.
#[derive(Clone, Copy)]
pub enum Purpose {
    Rotation = 1,
    Samples = 2,
    Start = 3,
    Restarts = 4,
    Demo = 5,
}

impl Random {
    pub fn new(seed: u64, purpose: Purpose) -> Random {
        Random(Random(seed).bits() ^ purpose as u64)
    }

    pub fn bits(&mut self) -> u64 {
        self.0 = self.0.wrapping_add(0x9e37_79b9_7f4a_7c15);
        let mut z = self.0;
        z = (z ^ (z >> 30)).wrapping_mul(0xbf58_476d_1ce4_e5b9);
        z = (z ^ (z >> 27)).wrapping_mul(0x94d0_49bb_1331_11eb);
        z ^ (z >> 31)
    }

    /// A number below `bound`: the top half of the product with it.
    pub fn below(&mut self, bound: u64) -> u64 {
        ((u128::from(self.bits()) * u128::from(bound)) >> 64) as u64
    }

    /// From 0, below 1: 53 bits.
    pub fn unit(&mut self) -> f64 {
        (self.bits() >> 11) as f64 / (1u64 << 53) as f64
    }

    /// Nearly normal, with mean 0 and variance 1: twelve values from 0 to 1, added, less 6.
    pub fn normal(&mut self) -> f64 {
        (0..12).map(|_| self.unit()).sum::<f64>() - 6.0
    }

    /// A direction in the plane: a point of the unit disc, not too near its middle, made as long as 1.
    pub fn direction(&mut self) -> (f64, f64) {
        loop {
            let (x, y) = (2.0 * self.unit() - 1.0, 2.0 * self.unit() - 1.0);
            let square = x * x + y * y;
            if (0.01..=1.0).contains(&square) {
                let length = square.sqrt();
                return (x / length, y / length);
            }
        }
    }
}

/// Picks `wanted` of `all` things in one pass over them, each choice equally likely.
pub struct Draw {
    wanted: u64,
    left: u64,
    random: Random,
}

impl Draw {
    pub fn new(wanted: u64, all: u64, random: Random) -> Draw {
        Draw { wanted, left: all, random }
    }

    /// Whether the next thing is picked. Asked `all` times.
    pub fn next(&mut self) -> bool {
        let picked = self.random.below(self.left.max(1)) < self.wanted;
        self.left = self.left.saturating_sub(1);
        if picked {
            self.wanted -= 1;
        }
        picked
    }
}

#[cfg(test)]
mod tests {
    use super::*;

    #[test]
    fn a_draw_picks_as_many_as_wanted() {
        for (wanted, all) in [(0, 5), (5, 5), (3, 1000), (999, 1000)] {
            let mut draw = Draw::new(wanted, all, Random::new(7, Purpose::Samples));
            assert_eq!((0..all).filter(|_| draw.next()).count() as u64, wanted);
        }
    }
}
