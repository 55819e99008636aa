//! Numbers that look random and follow from a seed.

/// A generator (splitmix64): the same seed gives the same numbers everywhere.
#[derive(Clone, Debug)]
pub struct Random(u64);

impl Random {
    /// The generator of case `index` under `seed`. Each case has its own, so that a case can be made again alone.
    pub fn of_case(seed: u64, index: u64) -> Random {
        let mut random = Random(seed);
        let mixed = random.next();
        Random(mixed ^ index.wrapping_mul(0xD1B5_4A32_D192_ED03))
    }

    /// The next number.
    #[expect(clippy::should_implement_trait, reason = "an endless stream of numbers needs no Option")]
    pub fn next(&mut self) -> u64 {
        self.0 = self.0.wrapping_add(0x9E37_79B9_7F4A_7C15);
        let mut mixed = self.0;
        mixed = (mixed ^ (mixed >> 30)).wrapping_mul(0xBF58_476D_1CE4_E5B9);
        mixed = (mixed ^ (mixed >> 27)).wrapping_mul(0x94D0_49BB_1331_11EB);
        mixed ^ (mixed >> 31)
    }

    /// A number below `bound`; 0 where the bound is 0.
    pub fn below(&mut self, bound: usize) -> usize {
        let number = self.next();
        if bound == 0 { 0 } else { (number % bound as u64) as usize }
    }

    /// A number from `least` to `most`, both included.
    pub fn between(&mut self, least: u64, most: u64) -> u64 {
        least + self.next() % (most - least + 1)
    }

    /// Whether a thing of so many in a hundred happens.
    pub fn percent(&mut self, chance: usize) -> bool {
        self.below(100) < chance
    }

    /// A byte.
    pub fn byte(&mut self) -> u8 {
        self.next() as u8
    }

    /// One of these; the list is never empty.
    pub fn pick<'l, T>(&mut self, list: &'l [T]) -> &'l T {
        &list[self.below(list.len())]
    }

    /// One of these, to be changed.
    pub fn pick_mut<'l, T>(&mut self, list: &'l mut [T]) -> &'l mut T {
        let place = self.below(list.len());
        &mut list[place]
    }

    /// The place of one of the weights, the heavier the more often.
    pub fn weighted(&mut self, weights: &[usize]) -> usize {
        let mut left = self.below(weights.iter().sum());
        for (place, &weight) in weights.iter().enumerate() {
            if left < weight {
                return place;
            }
            left -= weight;
        }
        unreachable!("a number below the sum of the weights lies in one of them")
    }
}
