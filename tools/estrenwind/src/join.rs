//! `estrenwind join`: the parts that the shards of a run wrote become the output of the one run, with its counts and its status.

use crate::failure::{Failure, Status};
use crate::frames::{count_lines, length_of_lines};
use crate::number::grouped;
use crate::output::Output;
use crate::part::{self, Ending, Heading, MARK};
use crate::progress::say;
use crate::run::INCOMPLETE;
use crate::shard::BLOCK;
use crate::source::Source;
use crate::tally::Tally;
use std::path::{Path, PathBuf};

/// Bytes that are read of a part at once. Each part has as many, whatever its length.
const PIECE: usize = 16 << 10;

/// Puts blocks of the parts together by turns, in the order of their shards.
///
/// Refuses parts that are not those of one run, each of them once and whole.
pub fn join(paths: &[PathBuf], output: Option<&Path>) -> Result<Status, Failure> {
    let parts = paths.iter().map(|path| Part::open(path));
    let mut parts = parts.collect::<Result<Vec<Part>, Failure>>()?;
    put_in_order(&mut parts).map_err(Failure::Files)?;
    let mut output = Output::open_for(INCOMPLETE, output)?;
    let mut next = 0;
    // Only the last block of all is short: where one is, every part must be at its end.
    while parts[next].copy_block(&mut output)? == BLOCK {
        next = (next + 1) % parts.len();
    }
    // The part with the short block is looked at first: if one was cut off, it is that one.
    parts.rotate_left(next);
    let tally = end(&mut parts).map_err(|why| output.failure(why))?;
    output.finish()?;
    say(&tally.line());
    Ok(tally.status())
}

/// Sorts parts by their shards. They must be all parts of one run; else this says what is wrong.
fn put_in_order(parts: &mut [Part]) -> Result<(), String> {
    parts.sort_by_key(|part| part.heading.shard.index);
    let first = parts.first().ok_or("there is no part to join")?;
    let count = first.heading.shard.count;
    for part in parts.iter() {
        if part.heading.run != first.heading.run || part.heading.shard.count != count {
            let (one, other) = (first.name(), part.name());
            return Err(format!(
                "{one} and {other} are of two runs: their first lines differ"
            ));
        }
    }
    for pair in parts.windows(2) {
        if pair[0].heading.shard == pair[1].heading.shard {
            let (one, other) = (pair[0].name(), pair[1].name());
            return Err(format!(
                "{one} and {other} are both part {}",
                pair[0].heading.shard
            ));
        }
    }
    // In order and each once: the first that is not where it belongs tells of one before it.
    for index in 1..=count {
        let part = parts.get(index as usize - 1);
        if part.is_none_or(|part| part.heading.shard.index != index) {
            return Err(format!("part {index}/{count} is missing"));
        }
    }
    Ok(())
}

/// The counts of all parts, each of which must be at its end and say so; else what is wrong.
fn end(parts: &mut [Part]) -> Result<Tally, String> {
    let mut all = Tally::new();
    let mut frames = None;
    for part in parts.iter_mut() {
        let ending = part.ending()?;
        let first = *frames.get_or_insert(ending.frames);
        if first != ending.frames {
            let (this, first) = (grouped(ending.frames), grouped(first));
            return Err(format!(
                "{} is of a run of {this} frames, and another part of one of {first}",
                part.name()
            ));
        }
        all.add(&ending.tally)
            .ok_or("more answers than can be counted")?;
    }
    let frames = frames.unwrap_or(0);
    if all.frames != frames {
        return Err(format!(
            "{} answers to {} frames",
            grouped(all.frames),
            grouped(frames)
        ));
    }
    Ok(all)
}

/// A part, and how many of its answers were copied.
struct Part {
    lines: Lines,
    heading: Heading,
    copied: u64,
}

impl Part {
    fn open(path: &Path) -> Result<Part, Failure> {
        let mut lines = Lines::open(path)?;
        let line = lines.marked().map_err(Failure::Files)?;
        match line.as_deref().and_then(Heading::read) {
            Some(heading) => Ok(Part {
                lines,
                heading,
                copied: 0,
            }),
            None => Err(Failure::Files(format!(
                "{} is no part of a run: estrenwind run --shard writes these",
                lines.source.name
            ))),
        }
    }

    fn name(&self) -> &str {
        &self.lines.source.name
    }

    /// Copies a block, or what there is of it before the last line, and gives its lines.
    fn copy_block(&mut self, output: &mut Output) -> Result<u64, Failure> {
        let mut copied = 0;
        let mut last = b'\n';
        while copied < BLOCK && self.lines.has_more().map_err(|why| output.failure(why))? {
            let rest = self.lines.rest();
            let answers = rest
                .iter()
                .position(|&byte| byte == MARK)
                .unwrap_or(rest.len());
            let piece = &rest[..length_of_lines(&rest[..answers], BLOCK - copied)];
            let Some(&end) = piece.last() else { break };
            output.write(piece)?;
            copied += count_lines(piece);
            last = end;
            self.lines.start += piece.len();
        }
        self.copied += copied;
        match last {
            b'\n' => Ok(copied),
            _ => Err(output.failure(format!(
                "{} ends within a line: was it cut off?",
                self.name()
            ))),
        }
    }

    /// What its last line says, after which nothing follows.
    fn ending(&mut self) -> Result<Ending, String> {
        let line = self.lines.marked()?;
        let (name, copied) = (self.name(), grouped(self.copied));
        let Some(line) = line else {
            return Err(match self.lines.rest().first() {
                None => format!("{name} has no last line after {copied} answers: was it cut off?"),
                Some(&MARK) => format!("{name} ends within a line: was it cut off?"),
                Some(_) => format!("{name} has more than the {copied} answers that are due to it"),
            });
        };
        let ending = Ending::read(&line).filter(|ending| ending.shard == self.heading.shard);
        let Some(ending) = ending else {
            return Err(format!("{name} has a last line that is not its own"));
        };
        if ending.tally.frames != self.copied {
            let due = grouped(ending.tally.frames);
            return Err(format!("{name} has {copied} answers where {due} are due"));
        }
        match self.lines.has_more()? {
            true => Err(format!("{} goes on after its last line", self.name())),
            false => Ok(ending),
        }
    }
}

/// What a part holds, a piece at a time.
struct Lines {
    source: Source,
    buffer: Vec<u8>,
    /// What of the buffer was read and not yet taken.
    start: usize,
    end: usize,
}

impl Lines {
    fn open(path: &Path) -> Result<Lines, Failure> {
        let source = Source::open(Some(path))?;
        let buffer = vec![0; PIECE];
        Ok(Lines {
            source,
            buffer,
            start: 0,
            end: 0,
        })
    }

    /// What is in the buffer.
    fn rest(&self) -> &[u8] {
        &self.buffer[self.start..self.end]
    }

    /// Whether something is left, which is then in the buffer.
    fn has_more(&mut self) -> Result<bool, String> {
        if self.start == self.end {
            (self.start, self.end) = (0, 0);
            self.read()?;
        }
        Ok(self.start < self.end)
    }

    /// Reads more behind what is in the buffer; 0 at the end.
    fn read(&mut self) -> Result<usize, String> {
        let count = self.source.read(&mut self.buffer[self.end..]);
        let count = count.map_err(|error| self.source.cannot_read(error))?;
        self.end += count;
        Ok(count)
    }

    /// The line that stands next, without its line feed, where it begins with the mark and is whole.
    fn marked(&mut self) -> Result<Option<String>, String> {
        if !self.has_more()? || self.rest()[0] != MARK {
            return Ok(None);
        }
        // It may begin near the end of what was read.
        self.buffer.copy_within(self.start..self.end, 0);
        (self.start, self.end) = (0, self.end - self.start);
        loop {
            if let Some(end) = self.rest().iter().position(|&byte| byte == b'\n') {
                let line = String::from_utf8_lossy(&self.buffer[..end]).into_owned();
                self.start = end + 1;
                return Ok(Some(line));
            }
            if self.end > part::LONGEST || self.read()? == 0 {
                return Ok(None);
            }
        }
    }
}
