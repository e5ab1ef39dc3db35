//! The first and the last line of a part, which a run with `--shard` writes about its answers. By them `join` knows that parts are of one run, that
//! none is missing or cut off, and in which order they go, whatever the order in which they are named.

use crate::shard::{Shard, BLOCK};
use crate::tally::Tally;

/// What both lines begin with. No answer has it in it.
pub const MARK: u8 = b'#';

/// Bytes of the longest such line: the last one, where every number is among the refusals.
pub const LONGEST: usize = 8 << 10;

/// The first line.
#[derive(Clone, Debug, PartialEq, Eq)]
pub struct Heading {
    pub shard: Shard,
    /// What all parts of a run say alike: the size of blocks, the form of answers, and a number that few other recipes have.
    pub run: String,
}

impl Heading {
    pub fn new(shard: Shard, recipe: &[u8], decimal: bool) -> Heading {
        let form = if decimal { "decimal" } else { "hexadecimal" };
        let run = format!("blocks of {BLOCK}, {form}, recipe {:016x}", digest(recipe));
        Heading { shard, run }
    }

    /// `# part 3/8, blocks of 4096, hexadecimal, recipe 0123456789abcdef`
    pub fn line(&self) -> String {
        format!("# part {}, {}\n", self.shard, self.run)
    }

    pub fn read(line: &str) -> Option<Heading> {
        let (shard, run) = line.strip_prefix("# part ")?.split_once(", ")?;
        Some(Heading {
            shard: Shard::parse(shard)?,
            run: run.to_owned(),
        })
    }
}

/// The last line.
#[derive(Clone, Debug, PartialEq, Eq)]
pub struct Ending {
    pub shard: Shard,
    /// The frames of the whole run, those of other shards too.
    pub frames: u64,
    /// The shard's own.
    pub tally: Tally,
}

impl Ending {
    /// `# end of 3/8, frames 100000, answered 12271, refused 20:3 32:14`
    pub fn line(&self) -> String {
        let refused = self.tally.refused();
        let refused: String = refused
            .map(|(number, count)| format!(" {number}:{count}"))
            .collect();
        let (shard, frames, answered) = (self.shard, self.frames, self.tally.answered);
        format!("# end of {shard}, frames {frames}, answered {answered}, refused{refused}\n")
    }

    pub fn read(line: &str) -> Option<Ending> {
        let fields: Vec<&str> = line.split(", ").collect();
        let [shard, frames, answered, refused] = fields[..] else {
            return None;
        };
        let mut tally = Tally::new();
        tally.answered = answered.strip_prefix("answered ")?.parse().ok()?;
        for pair in refused.strip_prefix("refused")?.split_whitespace() {
            let (number, count) = pair.split_once(':')?;
            tally.refuse(number.parse().ok()?, count.parse().ok()?)?;
        }
        tally.frames = tally.answers();
        Some(Ending {
            shard: Shard::parse(shard.strip_prefix("# end of ")?)?,
            frames: frames.strip_prefix("frames ")?.parse().ok()?,
            tally,
        })
    }
}

/// FNV-1a of 64 bits: enough to tell recipes apart that nobody made alike on purpose.
fn digest(bytes: &[u8]) -> u64 {
    let step = |hash: u64, &byte: &u8| (hash ^ u64::from(byte)).wrapping_mul(0x0000_0100_0000_01b3);
    bytes.iter().fold(0xcbf2_9ce4_8422_2325, step)
}

#[cfg(test)]
mod tests {
    use super::*;

    const SHARD: Shard = Shard { index: 3, count: 8 };

    #[test]
    fn headings() {
        let heading = Heading::new(SHARD, b"a", false);
        let line = heading.line();
        // The digest is the published one of this text.
        assert_eq!(
            line,
            "# part 3/8, blocks of 4096, hexadecimal, recipe af63dc4c8601ec8c\n"
        );
        assert_eq!(Heading::read(line.trim_end()), Some(heading.clone()));
        assert_ne!(heading.run, Heading::new(SHARD, b"b", false).run);
        assert_ne!(heading.run, Heading::new(SHARD, b"a", true).run);
        for line in [
            "",
            "# part",
            "# part 3/8",
            "# part 9/8, x",
            "02ffffffffffffffff",
            "# end of 3/8, x",
        ] {
            assert_eq!(Heading::read(line), None, "{line}");
        }
    }

    #[test]
    fn endings() {
        let mut tally = Tally::new();
        tally.count(b"013ff0000000000000\nff2000\nff1402\nff2001\n");
        tally.frames = 4;
        let ending = Ending {
            shard: SHARD,
            frames: 100,
            tally,
        };
        let line = ending.line();
        assert_eq!(
            line,
            "# end of 3/8, frames 100, answered 1, refused 20:1 32:2\n"
        );
        assert_eq!(Ending::read(line.trim_end()), Some(ending));
        let none = Ending {
            shard: SHARD,
            frames: 0,
            tally: Tally::new(),
        };
        assert_eq!(none.line(), "# end of 3/8, frames 0, answered 0, refused\n");
        assert_eq!(Ending::read(none.line().trim_end()), Some(none));
        for line in [
            "",
            "# end of 3/8, frames 100, answered 1",
            "# end of 3/8, frames x, answered 1, refused",
            "# end of 3/8, frames 1, answered 1, refused 20",
            "# end of 3/8, frames 1, answered 1, refused 256:1",
            "# end of 3/8, frames 1, answered 1, refused 20:18446744073709551615 21:1",
            "# end of 3/8, frames 1, answered 1, refuse",
        ] {
            assert_eq!(Ending::read(line), None, "{line}");
        }
    }

    #[test]
    fn the_longest_ending() {
        let mut tally = Tally::new();
        for number in 0..256 {
            tally.refuse(number, u64::MAX / 300).unwrap();
        }
        let shard = Shard {
            index: u64::MAX,
            count: u64::MAX,
        };
        let line = Ending {
            shard,
            frames: u64::MAX,
            tally,
        }
        .line();
        assert!(line.len() <= LONGEST, "{}", line.len());
    }
}
