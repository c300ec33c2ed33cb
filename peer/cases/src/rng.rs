//! A small seeded generator of random numbers (xoshiro256++, seeded by splitmix64).

#[derive(Clone, Debug)]
pub struct Rng([u64; 4]);

impl Rng {
    /// The generator of case `index` under `seed`: every case can be made again by itself.
    pub fn of_case(seed: u64, index: u64) -> Rng {
        let mut mix = seed ^ index.wrapping_mul(0xd134_2543_de82_ef95);
        Rng(std::array::from_fn(|_| {
            mix = mix.wrapping_add(0x9e37_79b9_7f4a_7c15);
            let mut word = mix;
            word = (word ^ word >> 30).wrapping_mul(0xbf58_476d_1ce4_e5b9);
            word = (word ^ word >> 27).wrapping_mul(0x94d0_49bb_1331_11eb);
            word ^ word >> 31
        }))
    }

    pub fn word(&mut self) -> u64 {
        let [a, b, c, d] = &mut self.0;
        let word = a.wrapping_add(*d).rotate_left(23).wrapping_add(*a);
        let t = *b << 17;
        *c ^= *a;
        *d ^= *b;
        *b ^= *c;
        *a ^= *d;
        *c ^= t;
        *d = d.rotate_left(45);
        word
    }

    /// A number below `bound`, which is not 0.
    pub fn below(&mut self, bound: usize) -> usize {
        ((u128::from(self.word()) * bound as u128) >> 64) as usize
    }

    /// A number from `least` to `most`, both included.
    pub fn within(&mut self, least: u32, most: u32) -> u32 {
        least + self.below((most - least) as usize + 1) as u32
    }

    /// True once in `times`.
    pub fn once_in(&mut self, times: usize) -> bool {
        self.below(times) == 0
    }

    pub fn pick<T: Copy>(&mut self, from: &[T]) -> T {
        from[self.below(from.len())]
    }

    /// A number from `least` to `most` with the ends, their neighbours and every order of magnitude made likely.
    pub fn edge(&mut self, least: u32, most: u32) -> u32 {
        let span = most - least;
        match self.below(8) {
            0 => least,
            1 => most,
            2 => least + span.min(1),
            3 => most - span.min(1),
            4 => least + (self.word() as u32 >> self.below(32)).min(span),
            5 => most - (self.word() as u32 >> self.below(32)).min(span),
            _ => self.within(least, most),
        }
    }

    /// A double from 0 to 1, the 1 not included.
    pub fn unit(&mut self) -> f64 {
        (self.word() >> 11) as f64 / (1u64 << 53) as f64
    }
}
