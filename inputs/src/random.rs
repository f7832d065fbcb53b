//! Random numbers that are the same for the same seed (xorshift64*).

pub struct Random(u64);

impl Random {
    pub fn from_seed(seed: u64) -> Random {
        Random(seed.wrapping_mul(0x9E37_79B9_7F4A_7C15) | 1)
    }

    /// The numbers for one input: its seed is a hash (FNV-1a) of the run's seed, the family's name and the input's index within it.
    pub fn of(seed: u64, family: &str, index: u64) -> Random {
        let bytes = seed.to_le_bytes().into_iter().chain(family.bytes()).chain(index.to_le_bytes());
        let mixed = |hash: u64, byte: u8| (hash ^ u64::from(byte)).wrapping_mul(0x0100_0000_01B3);
        Random::from_seed(bytes.fold(0xCBF2_9CE4_8422_2325, mixed))
    }

    fn next(&mut self) -> u64 {
        self.0 ^= self.0 << 13;
        self.0 ^= self.0 >> 7;
        self.0 ^= self.0 << 17;
        self.0.wrapping_mul(0x2545_F491_4F6C_DD1D)
    }

    /// A number below the bound, which is not 0 and has at most 31 bits.
    pub fn below(&mut self, bound: usize) -> usize {
        ((self.next() >> 33) % bound as u64) as usize
    }

    /// A number from the first to the last, both included.
    pub fn between(&mut self, first: i32, last: i32) -> i32 {
        first + self.below((last - first + 1) as usize) as i32
    }

    /// True so many times out of a hundred.
    pub fn percent(&mut self, times: usize) -> bool {
        self.below(100) < times
    }

    pub fn pick<'a, T>(&mut self, list: &'a [T]) -> &'a T {
        &list[self.below(list.len())]
    }

    /// The number or its negative.
    pub fn signed(&mut self, number: i32) -> i32 {
        if self.below(2) == 0 {
            number
        } else {
            -number
        }
    }

    pub fn shuffle<T>(&mut self, list: &mut [T]) {
        for last in (1..list.len()).rev() {
            list.swap(last, self.below(last + 1));
        }
    }

    /// So many different numbers from 1 to the largest, or all of them where there are fewer.
    pub fn different(&mut self, count: usize, largest: i32) -> Vec<i32> {
        let mut chosen = Vec::new();
        while chosen.len() < count.min(largest as usize) {
            let number = self.between(1, largest);
            if !chosen.contains(&number) {
                chosen.push(number);
            }
        }
        chosen
    }

    /// The same, each number with its sign or the other.
    pub fn literals(&mut self, count: usize, largest: i32) -> Vec<i32> {
        let chosen = self.different(count, largest);
        chosen.into_iter().map(|number| self.signed(number)).collect()
    }
}

#[cfg(test)]
mod tests {
    use super::*;

    fn first_numbers(mut random: Random) -> [usize; 4] {
        [(); 4].map(|()| random.below(1_000))
    }

    // As they were when this was written: other numbers would change every input.
    #[test]
    fn same_seed_same_numbers() {
        assert_eq!(first_numbers(Random::from_seed(7)), [561, 261, 257, 215]);
        assert_eq!(first_numbers(Random::of(7, "noise", 3)), [705, 678, 593, 157]);
    }

    #[test]
    fn other_inputs_other_numbers() {
        let numbers = first_numbers(Random::of(7, "noise", 3));
        for (seed, family, index) in [(8, "noise", 3), (7, "noisy", 3), (7, "noise", 4), (7, "noise", 3 << 32)] {
            assert_ne!(first_numbers(Random::of(seed, family, index)), numbers);
        }
    }

    #[test]
    fn within_bounds() {
        let mut random = Random::from_seed(1);
        let mut seen = [0; 5];
        for _ in 0..1_000 {
            seen[(random.between(-2, 2) + 2) as usize] += 1;
        }
        assert!(seen.iter().all(|times| (140..260).contains(times)), "{seen:?}");
        let mut chosen = random.different(9, 6);
        chosen.sort_unstable();
        assert_eq!(chosen, [1, 2, 3, 4, 5, 6]);
        let signs: Vec<bool> = random.literals(100, 1_000).into_iter().map(|literal| literal > 0).collect();
        assert!(signs.contains(&true) && signs.contains(&false));
    }
}
