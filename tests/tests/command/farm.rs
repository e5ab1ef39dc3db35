//! examples/farm: a run in shards by GNU parallel is the one run, and a shard that fails stops it.

use crate::child::{Child, Ending};
use crate::folder::Folder;
use crate::{assert_same, counted, counted_answers, estrenwind, left_out, IDENTITY};
use std::fs::{self, File};
use std::path::{Path, PathBuf};
use std::process::Command;

fn script(name: &str) -> PathBuf {
    let folder = Path::new(env!("CARGO_MANIFEST_DIR")).join("../examples/farm");
    folder.join(name).canonicalize().unwrap()
}

fn has_parallel() -> bool {
    let output = Command::new("parallel").arg("--version").output();
    let is_there =
        output.is_ok_and(|output| String::from_utf8_lossy(&output.stdout).contains("GNU parallel"));
    if !is_there {
        left_out("GNU parallel is missing: examples/farm is left out");
    }
    is_there
}

/// A script of the example, with these words, in a folder.
fn ended(folder: &Folder, name: &str, words: &[&str]) -> Ending {
    let mut command = Command::new("sh");
    command
        .arg(script(name))
        .args(words)
        .env("ESTRENWIND", estrenwind())
        .current_dir(folder.path());
    Child::start_on(&mut command, File::open("/dev/null").unwrap()).ending()
}

#[test]
fn shards_and_join() {
    if !has_parallel() {
        return;
    }
    let folder = Folder::new();
    folder.with("the recipe", IDENTITY);
    for (frames, status) in [(0, 0), (5, 0), (7, 1), (20_000, 1)] {
        folder.with("the frames", counted(frames));
        for count in ["1", "3", "8"] {
            let words = [count, "the recipe", "the frames", "all answers"];
            let ending = ended(&folder, "shards.sh", &words);
            assert_eq!(
                ending.status.code(),
                Some(status),
                "{frames}: {}",
                ending.errors
            );
            let case = format!("{frames} frames, {count} shards");
            assert_same(
                &case,
                &folder.read("all answers"),
                counted_answers(frames).as_bytes(),
            );
        }
    }
    assert_eq!(folder.names(), ["all answers", "the frames", "the recipe"]);
}

/// A status of 74 is passed on, and an old output is as it was.
#[test]
fn a_shard_that_fails() {
    if !has_parallel() {
        return;
    }
    let folder = Folder::new();
    folder.with("recipe", IDENTITY);
    folder.with("all", "old\n");
    let ending = ended(&folder, "shards.sh", &["3", "recipe", "missing", "all"]);
    assert_eq!(ending.status.code(), Some(74), "{}", ending.errors);
    assert!(
        ending.errors.contains("cannot read missing"),
        "{}",
        ending.errors
    );
    folder.with("frames", "0\n");
    folder.with("no recipe", "0\n");
    let ending = ended(&folder, "shards.sh", &["3", "no recipe", "frames", "all"]);
    assert_eq!(ending.status.code(), Some(3), "{}", ending.errors);
    assert_eq!(folder.names(), ["all", "frames", "no recipe", "recipe"]);
    assert_eq!(folder.read("all"), b"old\n");
}

/// As a farm does it: each shard by itself, one of them again, and the join when all are there.
#[test]
fn shards_by_themselves() {
    let folder = Folder::new();
    folder.with("recipe", IDENTITY);
    folder.with("frames", counted(9_000));
    fs::create_dir(folder.file("parts")).unwrap();
    let shard = |index| {
        ended(
            &folder,
            "shard.sh",
            &[index, "2", "recipe", "frames", "parts"],
        )
    };
    let join = || {
        let mut command = Command::new("sh");
        command
            .args(["-c", "\"$0\" join -o all parts/*"])
            .arg(estrenwind())
            .current_dir(folder.path());
        Child::start_on(&mut command, File::open("/dev/null").unwrap()).ending()
    };
    assert_eq!(shard("2").status.code(), Some(0));
    assert_eq!(join().status.code(), Some(74));
    assert_eq!(folder.names(), ["frames", "parts", "recipe"]);
    for _ in 0..2 {
        assert_eq!(shard("1").status.code(), Some(0));
        assert_eq!(join().status.code(), Some(1));
        assert_same(
            "all",
            &folder.read("all"),
            counted_answers(9_000).as_bytes(),
        );
    }
    // No frame is refused now.
    folder.with("frames", counted(6));
    for index in ["1", "2"] {
        assert_eq!(shard(index).status.code(), Some(0));
    }
    assert_eq!(join().status.code(), Some(0));
    assert_same("all", &folder.read("all"), counted_answers(6).as_bytes());
}
