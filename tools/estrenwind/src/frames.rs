//! Frame lines, in pieces of whole lines, in memory that does not grow with the input or with a line.

use crate::source::Source;
use std::io;
use std::path::Path;

/// Bytes that are read at once, at most. With the front of a line before them they are less than 64 KiB.
const PIECE: usize = 48 << 10;

/// Reads lines. One that is too long to be a frame is cut, so that it is still too long.
pub struct Frames {
    source: Source,
    /// Bytes that a line may have, its line feed not counted.
    longest: usize,
    /// Room for the front of a line, a piece, and a line feed that the input lacks.
    buffer: Vec<u8>,
    /// The buffer's bytes in use: lines that were given to the caller, then the front of the next one.
    given: usize,
    filled: usize,
    ended: bool,
}

impl Frames {
    /// Lines of at most `longest` bytes are given as they are. Of others some bytes are left out, and more than `longest` stay.
    pub fn open(path: Option<&Path>, longest: usize) -> Result<Frames, crate::failure::Failure> {
        Ok(Frames::of(Source::open(path)?, longest))
    }

    fn of(source: Source, longest: usize) -> Frames {
        let buffer = vec![0; longest + 1 + PIECE + 1];
        Frames {
            source,
            longest,
            buffer,
            given: 0,
            filled: 0,
            ended: false,
        }
    }

    pub fn source(&self) -> &Source {
        &self.source
    }

    /// The next lines, each with its line feed, at least one; none at the end of the input. A last line that lacks its line feed gets one.
    /// What was read before an error has been given, but for a line that the error cut off.
    pub fn next_lines(&mut self) -> io::Result<Option<&[u8]>> {
        self.forget_given();
        while !self.ended {
            let start = self.filled;
            let count = self.source.read(&mut self.buffer[start..start + PIECE])?;
            self.filled += count;
            self.ended = count == 0;
            if self.ended && self.filled > 0 {
                self.buffer[self.filled] = b'\n';
                self.filled += 1;
            }
            if let Some(last) = self.buffer[start..self.filled]
                .iter()
                .rposition(|&byte| byte == b'\n')
            {
                self.given = start + last + 1;
            }
            self.cut();
            if self.given > 0 {
                return Ok(Some(&self.buffer[..self.given]));
            }
        }
        Ok(None)
    }

    /// Moves the front of the next line to the front of the buffer.
    fn forget_given(&mut self) {
        self.buffer.copy_within(self.given..self.filled, 0);
        self.filled -= self.given;
        self.given = 0;
    }

    /// Cuts the line at the end of the buffer, where it is too long already. What follows of it may make it longer again.
    fn cut(&mut self) {
        self.filled = self.filled.min(self.given + self.longest + 1);
    }
}

/// How many line feeds there are.
pub fn count_lines(bytes: &[u8]) -> u64 {
    // Up to 255 of them are counted in a byte, 16 bytes at once; in a wider number the processor would count fewer at once.
    let feeds = |chunk: &[u8]| {
        chunk
            .iter()
            .map(|&byte| u8::from(byte == b'\n'))
            .sum::<u8>()
    };
    bytes.chunks(255).map(|chunk| u64::from(feeds(chunk))).sum()
}

/// The length of the first `most` lines, or of all where there are fewer.
pub fn length_of_lines(bytes: &[u8], most: u64) -> usize {
    let mut left = most;
    let mut length = 0;
    for chunk in bytes.chunks(255) {
        let lines = count_lines(chunk);
        if lines >= left {
            let feeds = (1..)
                .zip(chunk)
                .filter(|&(_, &byte)| byte == b'\n')
                .map(|(end, _)| end);
            return length + feeds.take(left as usize).last().unwrap_or(0);
        }
        left -= lines;
        length += chunk.len();
    }
    length
}

#[cfg(test)]
mod tests {
    use super::*;
    use std::fs;
    use std::sync::atomic::{AtomicU32, Ordering};

    /// All lines of an input, put one after the other.
    fn lines_of(input: &[u8], longest: usize) -> Vec<u8> {
        static COUNT: AtomicU32 = AtomicU32::new(0);
        let name = format!(
            "estrenwind-frames-{}-{}",
            std::process::id(),
            COUNT.fetch_add(1, Ordering::Relaxed)
        );
        let path = std::env::temp_dir().join(name);
        fs::write(&path, input).unwrap();
        let mut frames =
            Frames::open(Some(&path), longest).unwrap_or_else(|failure| panic!("{failure:?}"));
        fs::remove_file(&path).unwrap();
        let mut all = Vec::new();
        while let Some(lines) = frames.next_lines().unwrap() {
            assert!(lines.ends_with(b"\n"));
            all.extend_from_slice(lines);
        }
        assert_eq!(frames.source().read, input.len() as u64);
        all
    }

    #[test]
    fn the_last_line() {
        assert_eq!(lines_of(b"", 4), b"");
        assert_eq!(lines_of(b"a", 4), b"a\n");
        assert_eq!(lines_of(b"a\n", 4), b"a\n");
        assert_eq!(lines_of(b"\n", 4), b"\n");
        assert_eq!(lines_of(b"a\n\nb", 4), b"a\n\nb\n");
    }

    /// Lines of all lengths around the longest and around pieces: those that are too long stay so, and do not grow; the others are whole.
    #[test]
    fn long_lines() {
        let longest = 4;
        for length in (0..12)
            .chain(PIECE - 8..PIECE + 8)
            .chain(3 * PIECE - 3..3 * PIECE + 3)
        {
            for (before, after) in [
                ("", ""),
                ("y\n", "z\nz"),
                ("y\n\ny\n", "\n"),
                ("\n", "zzzz\n"),
            ] {
                let given = lines_of(
                    format!("{before}{}\n{after}", "x".repeat(length)).as_bytes(),
                    longest,
                );
                let given = String::from_utf8(given).unwrap();
                let rest = given.strip_prefix(before).unwrap();
                let (line, rest) = rest.split_once('\n').unwrap();
                assert!(line.bytes().all(|byte| byte == b'x'));
                match length <= longest {
                    true => assert_eq!(line.len(), length),
                    false => assert!(
                        (longest + 1..=longest + 1 + PIECE).contains(&line.len()),
                        "{length}: {}",
                        line.len()
                    ),
                }
                let feed = if after.is_empty() || after.ends_with('\n') {
                    ""
                } else {
                    "\n"
                };
                assert_eq!(rest, format!("{after}{feed}"), "{length}");
            }
            let last = lines_of("x".repeat(length).as_bytes(), longest);
            assert_eq!(last.len() > longest + 1, length > longest, "{length}");
        }
    }

    #[test]
    fn many_lines() {
        let lines: String = (0..50_000)
            .map(|n| format!("{}\n", "0".repeat(n % 7)))
            .collect();
        assert_eq!(lines_of(lines.as_bytes(), 256), lines.as_bytes());
    }

    #[test]
    fn lines_are_counted() {
        let text: Vec<u8> = (0..5_000u32)
            .map(|n| if n * n % 11 == 3 { b'\n' } else { b'x' })
            .collect();
        let feeds: Vec<usize> = (0..text.len()).filter(|&at| text[at] == b'\n').collect();
        assert_eq!(count_lines(&text), feeds.len() as u64);
        assert_eq!(count_lines(&[b'\n'; 1_000]), 1_000);
        assert_eq!(length_of_lines(&text, 0), 0);
        for (count, at) in (1..).zip(&feeds) {
            assert_eq!(length_of_lines(&text, count), at + 1);
        }
        assert_eq!(length_of_lines(&text, feeds.len() as u64 + 1), text.len());
        assert_eq!(length_of_lines(b"", 3), 0);
    }
}
