//! What a call gives back, in one shape for all functions.

use std::fmt;

/// A refusal number of document 01 (0 where nothing is refused) and up to two words. A word that
/// the function doesn't use is 0, and a whole number stands as its two's complement.
#[derive(Clone, Copy, Debug, PartialEq, Eq)]
pub struct Answer {
    pub refusal: u64,
    pub words: [u64; 2],
}

impl Answer {
    /// One word, nothing refused.
    pub const fn word(word: u64) -> Answer {
        Answer::refused(0, word)
    }

    /// One whole number, nothing refused.
    pub const fn whole(value: i64) -> Answer {
        Answer::word(value as u64)
    }

    /// Two words, nothing refused.
    pub const fn pair(first: u64, second: u64) -> Answer {
        Answer {
            refusal: 0,
            words: [first, second],
        }
    }

    /// A refusal, and the word that document 01 returns with it.
    pub const fn refused(refusal: u64, word: u64) -> Answer {
        Answer {
            refusal,
            words: [word, 0],
        }
    }
}

impl fmt::Display for Answer {
    fn fmt(&self, f: &mut fmt::Formatter) -> fmt::Result {
        let [first, second] = self.words;
        write!(f, "{:02x} {first:016x} {second:016x}", self.refusal)
    }
}
