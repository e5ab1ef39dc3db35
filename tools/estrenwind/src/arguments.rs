//! The command line.

use crate::diagnostic::alike;
use crate::failure::Failure;
use crate::help;
use crate::run::RunOptions;
use crate::shard::Shard;
use crate::sheet::Form;
use std::ffi::OsString;
use std::path::PathBuf;

/// What is to be done.
pub enum Command {
    Check(Vec<PathBuf>),
    Sheet(PathBuf, Form),
    Explain(PathBuf),
    Run(PathBuf, RunOptions),
    Join(Vec<PathBuf>, Option<PathBuf>),
    Assemble(PathBuf, Option<PathBuf>),
    Disassemble(PathBuf, Option<PathBuf>),
    Help(&'static str),
    Version,
}

/// A command's name, its help, and its options: those alone and those with a value.
struct Verb {
    name: &'static str,
    help: &'static str,
    flags: &'static [&'static str],
    valued: &'static [&'static str],
}

const VERBS: [Verb; 7] = [
    verb("check", help::CHECK, &[], &[]),
    verb("sheet", help::SHEET, &["--hex", "--json"], &[]),
    verb("explain", help::EXPLAIN, &[], &[]),
    verb(
        "run",
        help::RUN,
        &["--decimal", "--quiet"],
        &["-o", "--trace", "--shard"],
    ),
    verb("join", help::JOIN, &[], &["-o"]),
    verb("asm", help::ASM, &[], &["-o"]),
    verb("dis", help::DIS, &[], &["-o"]),
];

const fn verb(
    name: &'static str,
    help: &'static str,
    flags: &'static [&'static str],
    valued: &'static [&'static str],
) -> Verb {
    Verb {
        name,
        help,
        flags,
        valued,
    }
}

/// What was given after a command's name.
struct Given {
    verb: &'static Verb,
    flags: Vec<&'static str>,
    values: Vec<(&'static str, OsString)>,
    files: Vec<PathBuf>,
    wants_help: bool,
}

fn usage(text: impl Into<String>) -> Failure {
    Failure::Usage(text.into())
}

/// Reads the command line, without the command's own name.
pub fn read(arguments: impl Iterator<Item = OsString>) -> Result<Command, Failure> {
    let mut arguments = arguments.peekable();
    let Some(first) = arguments.next() else {
        return Err(usage("no command is named"));
    };
    let first = first.to_string_lossy().into_owned();
    match first.as_str() {
        "--help" | "-h" | "help" => {
            let Some(topic) = arguments.next() else {
                return Ok(Command::Help(help::GENERAL));
            };
            Ok(Command::Help(verb_named(&topic.to_string_lossy())?.help))
        }
        "--version" | "-V" => Ok(Command::Version),
        name => command(Given::read(verb_named(name)?, arguments)?),
    }
}

fn verb_named(name: &str) -> Result<&'static Verb, Failure> {
    if let Some(verb) = VERBS.iter().find(|verb| verb.name == name) {
        return Ok(verb);
    }
    let like = alike(name, VERBS.iter().map(|verb| verb.name));
    let hint = like.map_or(String::new(), |like| format!(": did you mean {like}?"));
    Err(usage(format!("there is no command {name}{hint}")))
}

impl Given {
    fn read(
        verb: &'static Verb,
        mut arguments: impl Iterator<Item = OsString>,
    ) -> Result<Given, Failure> {
        let mut given = Given {
            verb,
            flags: Vec::new(),
            values: Vec::new(),
            files: Vec::new(),
            wants_help: false,
        };
        while let Some(argument) = arguments.next() {
            let text = argument.to_string_lossy().into_owned();
            if text == "--" {
                given.files.extend(arguments.by_ref().map(PathBuf::from));
            } else if text == "-" || !text.starts_with('-') {
                given.files.push(argument.into());
            } else if text == "--help" || text == "-h" {
                given.wants_help = true;
            } else {
                given.take_option(&text, &mut arguments)?;
            }
        }
        Ok(given)
    }

    fn take_option(
        &mut self,
        text: &str,
        arguments: &mut impl Iterator<Item = OsString>,
    ) -> Result<(), Failure> {
        let name = self.verb.name;
        if let Some(flag) = self.verb.flags.iter().find(|&&flag| flag == text) {
            self.flags.push(flag);
            return Ok(());
        }
        for &option in self.verb.valued {
            let value = if text == option {
                match arguments.next() {
                    Some(value) => value,
                    None => return Err(usage(format!("{option} of {name} needs a value"))),
                }
            } else if let Some(value) = text.strip_prefix(option) {
                // --trace=7 and -oOUT
                match (option.starts_with("--"), value.strip_prefix('=')) {
                    (true, Some(value)) => value.into(),
                    (true, None) => continue,
                    (false, _) => value.into(),
                }
            } else {
                continue;
            };
            if self.values.iter().any(|(other, _)| *other == option) {
                return Err(usage(format!("{option} is given twice")));
            }
            self.values.push((option, value));
            return Ok(());
        }
        let all = self.verb.flags.iter().chain(self.verb.valued).copied();
        let hint = alike(text, all).map_or(String::new(), |like| format!(": did you mean {like}?"));
        Err(usage(format!("{name} has no option {text}{hint}")))
    }

    fn has(&self, flag: &str) -> bool {
        self.flags.contains(&flag)
    }

    fn value(&self, option: &str) -> Option<&OsString> {
        self.values
            .iter()
            .find(|(name, _)| *name == option)
            .map(|(_, value)| value)
    }

    fn output(&self) -> Option<PathBuf> {
        self.value("-o").map(PathBuf::from)
    }

    fn one_file(&mut self) -> Result<PathBuf, Failure> {
        match self.files.len() {
            1 => Ok(self.files.remove(0)),
            0 => Err(usage(format!("{} needs a file", self.verb.name))),
            _ => Err(usage(format!("{} takes one file", self.verb.name))),
        }
    }
}

fn command(mut given: Given) -> Result<Command, Failure> {
    if given.wants_help {
        return Ok(Command::Help(given.verb.help));
    }
    if given.files.is_empty() {
        return Err(usage(format!("{} needs a file", given.verb.name)));
    }
    let output = given.output();
    Ok(match given.verb.name {
        "check" => Command::Check(given.files),
        "sheet" => {
            let form = match (given.has("--hex"), given.has("--json")) {
                (false, false) => Form::Table,
                (true, false) => Form::Hexadecimal,
                (false, true) => Form::Json,
                (true, true) => return Err(usage("--hex and --json are two forms: choose one")),
            };
            Command::Sheet(given.one_file()?, form)
        }
        "explain" => Command::Explain(given.one_file()?),
        "join" => Command::Join(given.files, output),
        "asm" => Command::Assemble(given.one_file()?, output),
        "dis" => Command::Disassemble(given.one_file()?, output),
        _ => run_command(given)?,
    })
}

fn run_command(mut given: Given) -> Result<Command, Failure> {
    if given.files.len() > 2 {
        return Err(usage("run takes a recipe and one file of frames"));
    }
    let recipe = given.files.remove(0);
    let frames = given.files.pop();
    let is_input = |path: &PathBuf| path.as_os_str() == "-";
    if is_input(&recipe) && frames.as_ref().is_none_or(is_input) {
        return Err(usage(
            "recipe and frames cannot both come from standard input",
        ));
    }
    let trace = match given.value("--trace") {
        None => None,
        Some(text) => match text.to_str().and_then(|text| text.parse().ok()) {
            Some(frame) if frame > 0 => Some(frame),
            _ => return Err(usage("--trace needs the number of a frame, from 1")),
        },
    };
    let shard = match given.value("--shard") {
        None => None,
        Some(text) => match text.to_str().and_then(Shard::parse) {
            None => {
                return Err(usage(
                    "--shard needs I/N, from 1/N to N/N, as in --shard 2/8",
                ))
            }
            shard => shard,
        },
    };
    if trace.is_some() && (shard.is_some() || given.output().is_some()) {
        return Err(usage(
            "--trace shows one frame: it goes with neither --shard nor -o",
        ));
    }
    let options = RunOptions {
        frames,
        decimal: given.has("--decimal"),
        trace,
        shard,
        output: given.output(),
        quiet: given.has("--quiet"),
    };
    Ok(Command::Run(recipe, options))
}

#[cfg(test)]
mod tests {
    use super::*;

    fn parsed(line: &str) -> Result<Command, Failure> {
        read(line.split_whitespace().map(OsString::from))
    }

    #[test]
    fn command_lines() {
        assert!(matches!(parsed("check a b"), Ok(Command::Check(files)) if files.len() == 2));
        assert!(matches!(
            parsed("sheet --json a"),
            Ok(Command::Sheet(_, Form::Json))
        ));
        assert!(matches!(
            parsed("sheet a --hex"),
            Ok(Command::Sheet(_, Form::Hexadecimal))
        ));
        assert!(
            matches!(parsed("asm a -o b"), Ok(Command::Assemble(_, Some(out))) if out.as_os_str() == "b")
        );
        assert!(
            matches!(parsed("asm -ob a"), Ok(Command::Assemble(_, Some(out))) if out.as_os_str() == "b")
        );
        assert!(
            matches!(parsed("dis -- -o"), Ok(Command::Disassemble(file, None)) if file.as_os_str() == "-o")
        );
        assert!(matches!(
            parsed("run a --trace=7"),
            Ok(Command::Run(
                _,
                RunOptions {
                    trace: Some(7),
                    frames: None,
                    ..
                }
            ))
        ));
        assert!(matches!(
            parsed("run --shard 2/8 a b"),
            Ok(Command::Run(
                _,
                RunOptions {
                    shard: Some(Shard { index: 2, count: 8 }),
                    ..
                }
            ))
        ));
        assert!(matches!(parsed("run a --help"), Ok(Command::Help(text)) if text == help::RUN));
        assert!(matches!(parsed("help run"), Ok(Command::Help(text)) if text == help::RUN));
        assert!(matches!(parsed("--version"), Ok(Command::Version)));
    }

    #[test]
    fn what_makes_no_sense_is_told() {
        let cases = [
            ("", "no command"),
            ("shet a", "did you mean sheet?"),
            ("frobnicate", "there is no command frobnicate"),
            ("sheet", "sheet needs a file"),
            ("sheet a b", "sheet takes one file"),
            ("sheet --hex --json a", "choose one"),
            ("sheet --jsn a", "did you mean --json?"),
            ("run a b c", "one file of frames"),
            ("run -", "both come from standard input"),
            ("run - -", "both come from standard input"),
            ("run a --trace", "needs a value"),
            ("run a --trace 0", "from 1"),
            ("run a --trace x", "from 1"),
            ("run a --shard 0/4", "--shard needs I/N"),
            ("run a --shard 5/4", "--shard needs I/N"),
            ("run a --trace 1 -o b", "neither"),
            ("run a -o b -o c", "given twice"),
            ("run a --decimals", "did you mean --decimal?"),
            ("help nothing", "there is no command nothing"),
        ];
        for (line, told) in cases {
            match parsed(line) {
                Err(Failure::Usage(text)) => assert!(text.contains(told), "{line}: {text}"),
                _ => panic!("{line} is taken"),
            }
        }
    }
}
