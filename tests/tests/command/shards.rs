//! A run in shards, and what `estrenwind join` makes of its parts.

use crate::child::{Child, Ending};
use crate::folder::Folder;
use crate::{assert_same, command, counted, counted_answers, run_file, IDENTITY};
use std::fs::{self, File};
use std::path::PathBuf;

/// The parts of a run in shards, in a folder, and how the one run ends.
struct Parts {
    folder: Folder,
    paths: Vec<PathBuf>,
    one: Ending,
}

/// What a part holds between its first and its last line.
fn answers_of(part: &[u8]) -> String {
    let text = String::from_utf8(part.to_vec()).unwrap();
    let lines: Vec<&str> = text.split_inclusive('\n').collect();
    let [first, answers @ .., last] = &lines[..] else {
        panic!("a part has two lines at least: {text}");
    };
    assert!(first.starts_with("# part ") && last.starts_with("# end of "));
    assert!(answers.iter().all(|answer| !answer.contains('#')));
    answers.concat()
}

/// Runs each shard of a run on so many frames.
#[track_caller]
fn parts(frames: u64, count: usize, options: &[&str]) -> Parts {
    let folder = Folder::new();
    let recipe = folder.with("recipe", IDENTITY);
    let lines = match options.contains(&"--decimal") {
        true => (0..frames).map(|n| format!("{n}\n")).collect(),
        false => counted(frames),
    };
    let frames = folder.with("frames", lines);
    let one = run_file(&recipe, &frames, options);
    let mut paths = Vec::new();
    for index in 1..=count {
        let path = folder.file(&format!("part{index}"));
        let shard = format!("{index}/{count}");
        let mut words = vec!["--shard", &shard, "-o", path.to_str().unwrap()];
        words.extend(options);
        let ending = run_file(&recipe, &frames, &words);
        assert!(
            matches!(ending.status.code(), Some(0 | 1)),
            "{}",
            ending.errors
        );
        // The last line counts the shard's own frames.
        let lines = answers_of(&fs::read(&path).unwrap()).lines().count();
        let line = format!("estrenwind: {} frame", crate::counts::grouped(lines));
        assert!(ending.errors.starts_with(&line), "{}", ending.errors);
        paths.push(path);
    }
    Parts { folder, paths, one }
}

fn join(parts: &[&PathBuf], options: &[&str]) -> Ending {
    let mut command = command(["join"]);
    command.args(options).args(parts);
    Child::start_on(&mut command, File::open("/dev/null").unwrap()).ending()
}

impl Parts {
    /// They fit together, in whatever order they are named, and give this; the last line and the status are those of the one run.
    #[track_caller]
    fn give(&self, case: &str, expected: &str) {
        let mut paths: Vec<&PathBuf> = self.paths.iter().collect();
        assert_same(case, &self.one.output, expected.as_bytes());
        let ends = (self.one.errors.as_str(), self.one.status.code());
        let all = self.folder.file("all");
        let ending = join(&paths, &["-o", all.to_str().unwrap()]);
        assert_eq!(
            (ending.errors.as_str(), ending.status.code()),
            ends,
            "{case}"
        );
        assert_same(case, &self.folder.read("all"), expected.as_bytes());
        fs::remove_file(all).unwrap();
        paths.reverse();
        let ending = join(&paths, &[]);
        assert_eq!(
            (ending.errors.as_str(), ending.status.code()),
            ends,
            "{case}"
        );
        assert_same(case, &ending.output, expected.as_bytes());
    }

    /// They are refused; the line has these words, and there is no file of them all.
    #[track_caller]
    fn are_refused(&self, words: &str) {
        let before = self.folder.names();
        let paths: Vec<&PathBuf> = self.paths.iter().collect();
        let all = self.folder.file("all");
        let ending = join(&paths, &["-o", all.to_str().unwrap()]);
        let errors = &ending.errors;
        assert_eq!(ending.status.code(), Some(74), "{errors}");
        assert_eq!(errors.lines().count(), 1, "{errors}");
        assert!(errors.contains(words), "{words} is not in {errors}");
        assert_eq!(self.folder.names(), before);
        let ending = join(&paths, &[]);
        assert_eq!(ending.status.code(), Some(74));
        assert!(ending.errors.contains(words), "{}", ending.errors);
    }

    /// Changes the bytes of a part.
    fn change(&self, part: usize, change: impl FnOnce(&mut Vec<u8>)) {
        let path = &self.paths[part - 1];
        let mut bytes = fs::read(path).unwrap();
        change(&mut bytes);
        fs::write(path, bytes).unwrap();
    }

    /// Cuts a part after so many lines.
    fn cut(&self, part: usize, lines: usize) {
        self.change(part, |bytes| {
            let feeds = (0..bytes.len()).filter(|&at| bytes[at] == b'\n');
            let end = feeds.take(lines).last().map_or(0, |at| at + 1);
            bytes.truncate(end);
        });
    }
}

#[test]
fn joined_parts_are_the_one_run() {
    for frames in [0, 1, 4_095, 4_096, 4_097, 8_192, 20_000] {
        let expected = counted_answers(frames);
        for count in [1, 2, 3, 7] {
            parts(frames, count, &[]).give(&format!("{frames} frames, {count} shards"), &expected);
        }
    }
}

/// A block is 4,096 lines, in every version: else parts of different ones would not go together.
#[test]
fn blocks_of_4096_lines() {
    let parts = parts(10_000, 2, &[]);
    let text = counted_answers(10_000);
    let lines: Vec<&str> = text.split_inclusive('\n').collect();
    let expected = [&lines[..4_096], &lines[8_192..]].concat().concat();
    let answers = |part: &str| answers_of(&parts.folder.read(part)).into_bytes();
    assert_same("part 1", &answers("part1"), expected.as_bytes());
    let expected = lines[4_096..8_192].concat();
    assert_same("part 2", &answers("part2"), expected.as_bytes());
}

/// Answers in decimal have lines of any length.
#[test]
fn parts_in_decimal() {
    let expected: String = (0..20_000).map(|n| format!("{n}\n")).collect();
    parts(20_000, 3, &["--decimal"]).give("decimal", &expected);
}

/// More shards than blocks: the others have nothing, and are joined all the same.
#[test]
fn empty_parts() {
    let parts = parts(5_000, 4, &[]);
    assert_eq!(answers_of(&parts.folder.read("part3")), "");
    parts.give("four parts", &counted_answers(5_000));
}

/// What a part says of itself, so that it can be read without the command.
#[test]
fn first_and_last_lines() {
    let parts = parts(20_000, 3, &[]);
    let text = String::from_utf8(parts.folder.read("part2")).unwrap();
    let (first, last) = (text.lines().next().unwrap(), text.lines().last().unwrap());
    let start = "# part 2/3, blocks of 4096, hexadecimal, recipe ";
    assert!(
        first.starts_with(start) && first.len() == start.len() + 16,
        "{first}"
    );
    let refused = answers_of(text.as_bytes()).matches("ff1e00\n").count();
    let answered = 7_712 - refused;
    assert_eq!(
        last,
        format!("# end of 2/3, frames 20000, answered {answered}, refused 30:{refused}")
    );
}

#[test]
fn missing_parts() {
    let parts = parts(20_000, 3, &[]);
    let refused = |order: &[usize], words: &str| {
        let paths: Vec<&PathBuf> = order.iter().map(|&part| &parts.paths[part - 1]).collect();
        let ending = join(&paths, &[]);
        assert_eq!(ending.status.code(), Some(74));
        assert_eq!(ending.output, b"");
        assert!(ending.errors.contains(words), "{}", ending.errors);
    };
    refused(&[1, 2], "part 3/3 is missing");
    refused(&[1, 3], "part 2/3 is missing");
    refused(&[2, 3], "part 1/3 is missing");
    refused(&[3], "part 1/3 is missing");
    refused(&[1, 2, 2], "part2 are both part 2/3");
    refused(&[3, 1, 2, 1], "part1 are both part 1/3");
    fs::remove_file(&parts.paths[2]).unwrap();
    refused(&[1, 2, 3], "part3: No such file or directory");
}

/// Parts that are each whole, and of different runs.
#[test]
fn parts_of_two_runs() {
    let [one, other] = [20_000, 20_001].map(|frames| parts(frames, 2, &[]));
    let decimal = parts(20_000, 2, &["--decimal"]);
    let three = parts(20_000, 3, &[]);
    let refused = |second: &PathBuf, words: &str| {
        let ending = join(
            &[&one.paths[0], second],
            &["-o", one.folder.file("all").to_str().unwrap()],
        );
        assert_eq!(ending.status.code(), Some(74));
        assert!(ending.errors.contains(words), "{}", ending.errors);
        assert!(!one.folder.names().contains(&"all".to_owned()));
    };
    refused(&decimal.paths[1], "are of two runs");
    refused(&three.paths[1], "are of two runs");
    refused(&other.paths[1], "frames, and another part of one of 20,00");
    // Another recipe.
    let path = one.folder.file("another");
    let recipe = one
        .folder
        .with("constant", "040000000000000000002a0000000000000000\n");
    let frames = one.folder.file("frames");
    run_file(
        &recipe,
        &frames,
        &["--shard", "2/2", "-o", path.to_str().unwrap()],
    );
    refused(&path, "are of two runs");
    // No part at all, and a file that is none.
    refused(&frames, "frames is no part of a run");
    refused(&PathBuf::from("/dev/null"), "is no part of a run");
}

#[test]
fn cut_parts() {
    for (part, lines, words) in [
        (2, 13, "part2 has no last line after 12 answers"),
        (1, 4_096, "part1 has no last line after 4,095 answers"),
        (3, 1, "part3 has no last line after 0 answers"),
        (1, 4_097, "part1 has no last line after 4,096 answers"),
        (1, 8_193, "part1 has no last line after 8,192 answers"),
        (2, 7_713, "part2 has no last line after 7,712 answers"),
        (2, 0, "part2 is no part of a run"),
    ] {
        let parts = parts(20_000, 3, &[]);
        parts.cut(part, lines);
        parts.are_refused(words);
    }
}

#[test]
fn a_line_that_is_cut_off() {
    for part in 1..=3 {
        let parts = parts(20_000, 3, &[]);
        parts.change(part, |bytes| {
            bytes.pop();
        });
        parts.are_refused(&format!("part{part} ends within a line"));
    }
    let one = parts(3, 1, &[]);
    let first = one
        .folder
        .read("part1")
        .iter()
        .position(|&byte| byte == b'\n')
        .unwrap();
    one.change(1, |bytes| bytes.truncate(first + 25));
    one.are_refused("part1 ends within a line");
    one.change(1, |bytes| bytes.truncate(first));
    one.are_refused("part1 is no part of a run");
}

/// Answers that were put in, taken out or moved to another part.
#[test]
fn changed_parts() {
    let long = parts(20_000, 3, &[]);
    long.change(3, |bytes| bytes.extend(b"ff1e00\n"));
    long.are_refused("part3 goes on after its last line");
    for part in [1, 2, 3] {
        let parts = parts(20_000, 3, &[]);
        parts.change(part, |bytes| {
            let first = bytes.iter().position(|&byte| byte == b'\n').unwrap();
            bytes.splice(first + 1..first + 1, *b"ff1e00\n");
        });
        // The blocks after it are moved, and which part is told depends on where they end.
        parts.are_refused("answers");
    }
    let one = parts(3, 1, &[]);
    one.change(1, |bytes| {
        let text = String::from_utf8(bytes.clone()).unwrap();
        *bytes = text.replace("# end of 1/1", "# end of 1/2").into_bytes();
    });
    one.are_refused("part1 has a last line that is not its own");
    // A whole part that says of the run what the parts together do not come to.
    let one = parts(3, 1, &[]);
    one.change(1, |bytes| {
        let text = String::from_utf8(bytes.clone()).unwrap();
        *bytes = text.replace("frames 3,", "frames 4,").into_bytes();
    });
    one.are_refused("3 answers to 4 frames");
}

/// A file that is to be written may be one of the parts.
#[test]
fn a_part_is_replaced() {
    let parts = parts(5_000, 2, &[]);
    let paths: Vec<&PathBuf> = parts.paths.iter().collect();
    let ending = join(&paths, &["-o", paths[0].to_str().unwrap()]);
    assert_eq!(ending.status.code(), Some(1), "{}", ending.errors);
    assert_same(
        "part1",
        &parts.folder.read("part1"),
        counted_answers(5_000).as_bytes(),
    );
}
