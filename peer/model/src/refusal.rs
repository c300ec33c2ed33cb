use std::fmt;

/// A refusal: its number, 1 to 12 or 14, and the place it names.
#[derive(Clone, Copy, Debug, PartialEq, Eq, Hash)]
pub struct Refusal {
    pub number: u32,
    pub place: u32,
}

/// What a public function answers: accepted, or a refusal.
pub type Answer<T = ()> = Result<T, Refusal>;

impl Refusal {
    pub(crate) fn new(number: u32, place: usize) -> Self {
        Refusal { number, place: u32::try_from(place).unwrap_or(u32::MAX) }
    }

    /// Number 1, which has no place.
    pub(crate) const SHAPE: Refusal = Refusal { number: 1, place: 0 };

    /// The number times 2^32 plus the place.
    pub fn to_word(self) -> u64 {
        u64::from(self.number) << 32 | u64::from(self.place)
    }

    /// One word for an answer without a count: 0 when accepted, else the refusal's.
    pub fn word<T>(answer: &Answer<T>) -> u64 {
        match answer {
            Ok(_) => 0,
            Err(refusal) => refusal.to_word(),
        }
    }

    /// The answer that a word stands for, whatever its count.
    pub fn from_word(word: u64) -> Answer {
        match (word >> 32) as u32 % 256 {
            0 => Ok(()),
            number => Err(Refusal { number, place: word as u32 }),
        }
    }
}

impl fmt::Display for Refusal {
    fn fmt(&self, out: &mut fmt::Formatter<'_>) -> fmt::Result {
        write!(out, "refused {} at {}", self.number, self.place)
    }
}
