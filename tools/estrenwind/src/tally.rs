//! How many frames were read and how many answers written, counted apart.

use crate::failure::Status;
use crate::number::grouped;
use crate::progress::frames;
use estrenwind::{read_answer, ANSWER_LINE, REFUSAL_LINE, REFUSAL_MARK};

/// Counts of a run.
#[derive(Clone, Debug, PartialEq, Eq)]
pub struct Tally {
    /// Frames that were to be answered.
    pub frames: u64,
    pub answered: u64,
    /// By the refusal's number.
    refused: [u64; 256],
}

impl Tally {
    pub fn new() -> Tally {
        Tally {
            frames: 0,
            answered: 0,
            refused: [0; 256],
        }
    }

    /// Counts lines of answers as the library writes them. What is neither an answer nor a refusal is not counted, so that the two counts differ at
    /// the end.
    pub fn count(&mut self, answers: &[u8]) {
        let mut rest = answers;
        while !rest.is_empty() {
            let is_refusal = rest.starts_with(REFUSAL_MARK);
            let length = if is_refusal {
                REFUSAL_LINE
            } else {
                ANSWER_LINE
            };
            let (line, after) = rest.split_at(length.min(rest.len()));
            rest = after;
            let Some(line) = line.strip_suffix(b"\n") else {
                continue;
            };
            if !is_refusal {
                self.answered += 1;
            } else if let Some(Err(refused)) = read_answer(line) {
                self.refused[refused.fault.number() as usize % 256] += 1;
            }
        }
    }

    /// Counts refusals of a number; none where there is no such number, or there would be more than can be counted.
    pub fn refuse(&mut self, number: usize, count: u64) -> Option<()> {
        self.answers().checked_add(count)?;
        *self.refused.get_mut(number)? += count;
        Some(())
    }

    /// The numbers of refusals that came up, and how often, in order.
    pub fn refused(&self) -> impl Iterator<Item = (usize, u64)> + '_ {
        self.refused
            .iter()
            .copied()
            .enumerate()
            .filter(|&(_, count)| count > 0)
    }

    /// Adds the counts of a part; none where there would be more than can be counted.
    pub fn add(&mut self, other: &Tally) -> Option<()> {
        self.frames = self.frames.checked_add(other.frames)?;
        self.answers().checked_add(other.answers())?;
        self.answered += other.answered;
        other
            .refused()
            .try_for_each(|(number, count)| self.refuse(number, count))
    }

    fn refusals(&self) -> u64 {
        self.refused.iter().sum()
    }

    pub fn answers(&self) -> u64 {
        self.answered + self.refusals()
    }

    pub fn status(&self) -> Status {
        match self.refusals() {
            0 => Status::Well,
            _ => Status::FrameRefused,
        }
    }

    /// What is wrong where a frame has no answer, or an answer no frame.
    pub fn difference(&self) -> Option<String> {
        let (read, answers) = (self.frames, self.answers());
        (read != answers).then(|| format!("{}, {} answers", frames(read), grouped(answers)))
    }

    /// `estrenwind: 1,000,000 frames, 999,990 answered, 10 refused (20: 3, 32: 7)`
    pub fn line(&self) -> String {
        let refused: Vec<String> = self
            .refused()
            .map(|(number, count)| format!("{number}: {}", grouped(count)))
            .collect();
        let list = match refused.is_empty() {
            true => String::new(),
            false => format!(" ({})", refused.join(", ")),
        };
        let (answered, refusals) = (grouped(self.answered), grouped(self.refusals()));
        format!(
            "estrenwind: {}, {answered} answered, {refusals} refused{list}",
            frames(self.frames)
        )
    }
}

#[cfg(test)]
mod tests {
    use super::*;

    fn counted(frames: u64, answers: &[u8]) -> Tally {
        let mut tally = Tally::new();
        tally.frames = frames;
        tally.count(answers);
        tally
    }

    #[test]
    fn answers_and_refusals() {
        let tally = counted(4, b"02ffffffffffffffff\nff2000\nff1402\nff207f\n");
        assert_eq!(
            tally.line(),
            "estrenwind: 4 frames, 1 answered, 3 refused (20: 1, 32: 2)"
        );
        assert_eq!(
            (tally.difference(), tally.status()),
            (None, Status::FrameRefused)
        );
        let tally = counted(1, b"013ff0000000000000\n");
        assert_eq!(tally.line(), "estrenwind: 1 frame, 1 answered, 0 refused");
        assert_eq!((tally.difference(), tally.status()), (None, Status::Well));
        assert_eq!(
            counted(0, b"").line(),
            "estrenwind: 0 frames, 0 answered, 0 refused"
        );
    }

    #[test]
    fn a_difference_is_seen() {
        assert_eq!(
            counted(2, b"ff2000\n").difference().unwrap(),
            "2 frames, 1 answers"
        );
        assert_eq!(
            counted(0, b"ff2000\n").difference().unwrap(),
            "0 frames, 1 answers"
        );
        assert_eq!(
            counted(1, b"02fffff").difference().unwrap(),
            "1 frame, 0 answers"
        );
        assert_eq!(
            counted(1, b"ff20").difference().unwrap(),
            "1 frame, 0 answers"
        );
    }

    #[test]
    fn parts_are_added() {
        let mut all = counted(1, b"ff2000\n");
        all.add(&counted(3, b"ff2000\nff1402\n013ff0000000000000\n"))
            .unwrap();
        assert_eq!(
            all.line(),
            "estrenwind: 4 frames, 1 answered, 3 refused (20: 1, 32: 2)"
        );
        let mut most = Tally::new();
        most.answered = u64::MAX;
        assert_eq!(most.clone().add(&all), None);
        assert_eq!(most.refuse(32, 1), None);
        assert_eq!(Tally::new().refuse(256, 1), None);
    }

    #[test]
    fn every_number() {
        for number in 0..=255 {
            let tally = counted(1, format!("ff{number:02x}00\n").as_bytes());
            assert!(
                tally.line().ends_with(&format!("1 refused ({number}: 1)")),
                "{}",
                tally.line()
            );
        }
    }
}
