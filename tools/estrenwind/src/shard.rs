//! A run in shards: frames are cut into blocks, which the shards take by turns.

use crate::frames::{count_lines, length_of_lines};
use std::fmt;

/// Lines of a block. `join` puts answers together by the same number, so answers of versions that differ in it do not go together.
pub const BLOCK: u64 = 4_096;

/// One of several runs that share the frames. Both numbers count from 1, and index is at most count.
#[derive(Clone, Copy, Debug, PartialEq, Eq)]
pub struct Shard {
    pub index: u64,
    pub count: u64,
}

impl Shard {
    /// Reads `2/8`.
    pub fn parse(text: &str) -> Option<Shard> {
        let (index, count) = text.split_once('/')?;
        let number = |digits: &str| match digits.bytes().all(|byte| byte.is_ascii_digit()) {
            true => digits.parse().ok(),
            false => None,
        };
        let shard = Shard {
            index: number(index)?,
            count: number(count)?,
        };
        (1 <= shard.index && shard.index <= shard.count).then_some(shard)
    }

    /// Whether it answers the block of this number, from 0.
    fn has(self, block: u64) -> bool {
        block % self.count == self.index - 1
    }
}

impl fmt::Display for Shard {
    fn fmt(&self, f: &mut fmt::Formatter) -> fmt::Result {
        write!(f, "{}/{}", self.index, self.count)
    }
}

/// Tells the frames of a shard from the others, as they come.
pub struct Blocks {
    shard: Option<Shard>,
    /// Lines so far.
    lines: u64,
}

impl Blocks {
    /// All frames are its own where there is no shard.
    pub fn new(shard: Option<Shard>) -> Blocks {
        Blocks { shard, lines: 0 }
    }

    /// How many lines there were, those of other shards too; of a run without shards it does not count them.
    pub fn lines(&self) -> u64 {
        self.lines
    }

    /// Takes lines off the front, as many as lie in one block; those of the shard's own, and none of another's.
    pub fn take<'a>(&mut self, lines: &mut &'a [u8]) -> &'a [u8] {
        let Some(shard) = self.shard else {
            return std::mem::take(lines);
        };
        let (part, rest) = lines.split_at(length_of_lines(lines, BLOCK - self.lines % BLOCK));
        *lines = rest;
        let own = shard.has(self.lines / BLOCK);
        self.lines += count_lines(part);
        if own {
            part
        } else {
            &[]
        }
    }
}

#[cfg(test)]
mod tests {
    use super::*;

    #[test]
    fn texts() {
        assert_eq!(Shard::parse("2/8"), Some(Shard { index: 2, count: 8 }));
        assert_eq!(Shard::parse("1/1"), Some(Shard { index: 1, count: 1 }));
        assert_eq!(Shard::parse("08/8"), Some(Shard { index: 8, count: 8 }));
        for text in [
            "",
            "/",
            "1",
            "1/",
            "/1",
            "0/1",
            "2/1",
            "-1/2",
            "+1/2",
            "1/2/3",
            "1 /2",
            "a/b",
            "1/99999999999999999999",
        ] {
            assert_eq!(Shard::parse(text), None, "{text}");
        }
    }

    /// Each line is one shard's, however the lines are cut into pieces.
    #[test]
    fn shards_share_the_lines() {
        let lines: Vec<u8> = (0..30_000)
            .flat_map(|n| format!("{n}\n").into_bytes())
            .collect();
        for count in 1..9 {
            for piece in [1_000, 4_096, 30_000] {
                let mut found = vec![0; 30_000];
                for index in 1..=count {
                    let mut blocks = Blocks::new(Some(Shard { index, count }));
                    let mut rest = &lines[..];
                    while !rest.is_empty() {
                        let (mut front, after) = rest.split_at(length_of_lines(rest, piece));
                        rest = after;
                        while !front.is_empty() {
                            for line in String::from_utf8_lossy(blocks.take(&mut front)).lines() {
                                let number: usize = line.parse().unwrap();
                                assert_eq!(number as u64 / 4_096 % count, index - 1);
                                found[number] += 1;
                            }
                        }
                    }
                }
                assert!(found.iter().all(|&times| times == 1));
            }
        }
    }

    #[test]
    fn no_shard_has_all() {
        let mut lines = &b"a\nb\n"[..];
        assert_eq!(Blocks::new(None).take(&mut lines), b"a\nb\n");
        assert!(lines.is_empty());
    }
}
