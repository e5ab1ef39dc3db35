//! The text form of recipes, and how it becomes lines that the library reads.
//!
//!     u = input 0 .. 1          # a double; whole numbers: n = input whole -3 .. 12
//!     half = constant 0.5       # or constant whole 3
//!     scaled = ldexp u 8        # a number where an operand may stand is a constant step before this one
//!     index = lround scaled

use crate::diagnostic::{alike, Diagnostic};
use crate::number;
use crate::recipe::{constant, text_of, Recipe};
use estrenwind::{Fault, Kind, Operation, Step, MOST_INPUTS, MOST_STEPS};
use std::collections::HashMap;

/// Characters of the longest name, so that every step of a table fits a line of 80.
pub const LONGEST_NAME: usize = 30;

/// The most slips that are told at once.
const TOLD: usize = 10;

/// A word of a line, with its column from 1.
#[derive(Clone, Copy, Debug)]
struct Word<'a> {
    text: &'a str,
    column: usize,
}

impl Word<'_> {
    fn slip(&self, line: usize, message: impl Into<String>, help: impl Into<String>) -> Diagnostic {
        Diagnostic {
            line,
            column: self.column,
            length: self.text.chars().count(),
            message: message.into(),
            help: help.into(),
        }
    }
}

/// The words of a line before its comment. `=` and `..` are words of their own, with or without spaces about them.
fn words(line: &str) -> Vec<Word<'_>> {
    let line = line.split('#').next().unwrap_or_default();
    let mut words = Vec::new();
    let mut column = 1;
    let mut rest = line;
    while let Some(first) = rest.chars().next() {
        let blank = |c: char| c.is_whitespace() || c == '\u{feff}';
        let length = if blank(first) {
            rest.find(|c| !blank(c)).unwrap_or(rest.len())
        } else if rest.starts_with("..") {
            2
        } else if first == '=' {
            1
        } else {
            let end = rest.find(|c| blank(c) || c == '=').unwrap_or(rest.len());
            rest.find("..").map_or(end, |dots| dots.min(end))
        };
        let (text, after) = rest.split_at(length);
        if !blank(first) {
            words.push(Word { text, column });
        }
        column += text.chars().count();
        rest = after;
    }
    words
}

/// A step that was named: its number, its kind, and the line that names it. A line with a slip names a step too, so that it is told once.
struct Named {
    step: Option<(usize, Kind)>,
    line: usize,
}

/// Where a step comes from: its line, and the word that a refusal of it is shown at.
#[derive(Clone)]
struct Origin {
    line: usize,
    column: usize,
    length: usize,
}

#[derive(Default)]
struct Assembler<'a> {
    steps: Vec<Step>,
    names: Vec<String>,
    origins: Vec<Origin>,
    named: HashMap<&'a str, Named>,
    /// The line that first names each name, wherever it stands.
    lines: HashMap<&'a str, usize>,
    slips: Vec<Diagnostic>,
}

/// The recipe of a text, or what is wrong with it: all that can be told at once.
pub fn assemble(file: &str, text: &str) -> Result<Recipe, Vec<Diagnostic>> {
    let mut assembler = Assembler::default();
    let lines: Vec<Vec<Word>> = text.split('\n').map(words).collect();
    for (index, line) in lines.iter().enumerate() {
        if let [name, equals, ..] = line[..] {
            if equals.text == "=" {
                assembler.lines.entry(name.text).or_insert(index + 1);
            }
        }
    }
    for (index, line) in lines.iter().enumerate() {
        if !line.is_empty() {
            assembler.take_line(index + 1, line);
        }
    }
    assembler.finish(file)
}

impl<'a> Assembler<'a> {
    fn take_line(&mut self, line: usize, words: &[Word<'a>]) {
        let name = words[0];
        match self.read_step(line, words) {
            Ok((step, at)) => {
                let kind = step.operation.gives();
                self.push(step, name.text.to_owned(), line, at);
                let step = Some((self.steps.len() - 1, kind));
                self.named.insert(name.text, Named { step, line });
            }
            Err(slip) => {
                self.slips.push(*slip);
                self.named
                    .entry(name.text)
                    .or_insert(Named { step: None, line });
            }
        }
    }

    fn push(&mut self, step: Step, name: String, line: usize, at: Word) {
        self.steps.push(step);
        self.names.push(name);
        self.origins.push(Origin {
            line,
            column: at.column,
            length: at.text.chars().count(),
        });
    }

    /// The step of a line, and the word that a refusal of it is shown at.
    fn read_step(
        &mut self,
        line: usize,
        words: &[Word<'a>],
    ) -> Result<(Step, Word<'a>), Box<Diagnostic>> {
        let name = words[0];
        check_name(line, name)?;
        match words.get(1) {
            Some(equals) if equals.text == "=" => {}
            other => {
                let at = other.unwrap_or(&name);
                return Err(at
                    .slip(
                        line,
                        format!("no = after {}", name.text),
                        "write a step as: name = operation operands",
                    )
                    .into());
            }
        }
        if let Some(before) = self.named.get(name.text) {
            return Err(name
                .slip(
                    line,
                    format!("{} is defined in line {} already", name.text, before.line),
                    "choose another name for one of the two",
                )
                .into());
        }
        let Some(&verb) = words.get(2) else {
            return Err(words[1]
                .slip(
                    line,
                    format!("{} has no operation", name.text),
                    format!(
                        "write what it is after the =, as in: {} = floor u",
                        name.text
                    ),
                )
                .into());
        };
        let rest = &words[3..];
        match verb.text {
            "input" => {
                let (kind, numbers) = declared_kind(rest);
                read_input(line, verb, kind, numbers)
            }
            "constant" => {
                let (kind, numbers) = declared_kind(rest);
                let word = one_number(line, verb, kind, numbers)?;
                Ok((constant(kind, word), numbers[0]))
            }
            _ => self.read_operation(line, name, verb, rest),
        }
    }

    fn read_operation(
        &mut self,
        line: usize,
        name: Word<'a>,
        verb: Word<'a>,
        operands: &[Word<'a>],
    ) -> Result<(Step, Word<'a>), Box<Diagnostic>> {
        let Some(operation) = operation_named(verb.text) else {
            let slip = self.between(line, name, verb, operands);
            return Err(slip
                .unwrap_or_else(|| no_operation(line, name, verb))
                .into());
        };
        let kinds = operation.operands();
        if operands.len() != kinds.len() {
            let at = operands.get(kinds.len()).unwrap_or(&verb);
            return Err(at
                .slip(
                    line,
                    count_words(operation, operands.len()),
                    usage(operation),
                )
                .into());
        }
        let instead = self.of_the_other_kind(operation, operands);
        // Literals are pushed only when all operands are known to be right, so that a line with a slip leaves no step behind.
        let read: Vec<Operand> = operands
            .iter()
            .zip(kinds)
            .map(|(&operand, &kind)| {
                self.read_operand(line, name, (operation, instead), operand, kind)
            })
            .collect::<Result<_, _>>()?;
        let mut places = [0; 2];
        for ((place, operand), word) in places.iter_mut().zip(read).zip(operands) {
            *place = match operand {
                Operand::Step(k) => k,
                Operand::Literal(step) => {
                    self.push(step, word.text.to_owned(), line, *word);
                    self.steps.len() - 1
                }
            };
        }
        let [a, b] = places;
        Ok((
            Step {
                operation,
                a,
                b,
                p: 0,
                q: 0,
            },
            verb,
        ))
    }

    /// The kind of a step that was named, and of which no slip was told.
    fn kind_of(&self, text: &str) -> Option<Kind> {
        Some(self.named.get(text)?.step?.1)
    }

    /// The operation that does the same to the other kind, where all operands are of that one: add for sum, and so on.
    fn of_the_other_kind(&self, operation: Operation, operands: &[Word]) -> Option<Operation> {
        let other = match operation {
            Operation::Sum => Operation::Add,
            Operation::Difference => Operation::Subtract,
            Operation::Add => Operation::Sum,
            Operation::Subtract => Operation::Difference,
            _ => return None,
        };
        let fits = |(operand, &kind): (&Word, &Kind)| match is_number(operand.text) {
            true => number::read(operand.text, kind).is_ok(),
            false => self.kind_of(operand.text) == Some(kind),
        };
        operands
            .iter()
            .zip(other.operands())
            .all(fits)
            .then_some(other)
    }

    /// The slip of a line whose operation stands between its operands: `u * 3000`, or `u*3000`.
    fn between(
        &self,
        line: usize,
        name: Word,
        verb: Word,
        operands: &[Word],
    ) -> Option<Diagnostic> {
        let is_operand = |text: &str| match is_number(text) {
            true => number::read(text, Kind::Double).is_ok(),
            false => is_name(text),
        };
        let text = verb.text;
        let parts: Vec<(&str, &str, &str)> = match operands {
            // + and - come last, since a number may have them too.
            [] => SIGNS
                .iter()
                .flat_map(|&sign| text.match_indices(sign))
                .map(|(place, sign)| (&text[..place], sign, &text[place + 1..]))
                .collect(),
            [sign, b] if SIGNS.contains(&sign.text) => vec![(text, sign.text, b.text)],
            _ => vec![],
        };
        let (a, sign, b) = parts
            .into_iter()
            .find(|(a, _, b)| is_operand(a) && is_operand(b))?;
        let kinds = [a, b].map(|text| self.kind_of(text));
        let operation = match (sign, kinds.contains(&Some(Kind::Whole))) {
            ("*", _) => Operation::Multiply,
            ("%", _) => Operation::Fmod,
            ("+", false) => Operation::Add,
            ("+", true) => Operation::Sum,
            (_, false) => Operation::Subtract,
            (_, true) => Operation::Difference,
        };
        Some(verb.slip(
            line,
            "an operation stands before its operands",
            format!("write {} = {} {a} {b}", name.text, operation.name()),
        ))
    }

    fn read_operand(
        &self,
        line: usize,
        name: Word,
        (operation, instead): (Operation, Option<Operation>),
        operand: Word,
        kind: Kind,
    ) -> Result<Operand, Box<Diagnostic>> {
        let text = operand.text;
        if is_number(text) {
            let word =
                number::read(text, kind).map_err(|slip| number_slip(line, operand, kind, slip))?;
            return Ok(Operand::Literal(constant(kind, word)));
        }
        let Some(named) = self.named.get(text) else {
            return Err(self.unknown(line, name, operand).into());
        };
        match named.step {
            // Its own line was told to be wrong.
            None => Ok(Operand::Step(0)),
            Some((k, is)) if is == kind => Ok(Operand::Step(k)),
            Some((_, is)) => Err(operand
                .slip(
                    line,
                    format!(
                        "{text} is {}, and {} needs {} there",
                        kind_words(is),
                        operation.name(),
                        kind_words(kind)
                    ),
                    {
                        let or = instead.map_or(String::new(), |other| {
                            format!("of {}s it is {}; or ", bare_kind(is), other.name())
                        });
                        let between = match is {
                            Kind::Whole => "to_double",
                            _ => "lround",
                        };
                        format!("{or}put a step before it: x = {between} {text}, and use x")
                    },
                )
                .into()),
        }
    }

    fn unknown(&self, line: usize, name: Word, operand: Word) -> Diagnostic {
        let text = operand.text;
        if text == name.text {
            let help = "a step works on steps before it: name another one";
            return operand.slip(line, format!("{text} is what this line defines"), help);
        }
        if let Some(later) = self.lines.get(text) {
            return operand.slip(
                line,
                format!("{text} is defined later, in line {later}"),
                format!("move line {later} up, before this one"),
            );
        }
        if let Some(inner) = text.find(['(', ')', ',']) {
            return Diagnostic {
                column: operand.column + text[..inner].chars().count(),
                length: 1,
                ..operand.slip(
                    line,
                    "operands stand without brackets and commas",
                    "write them after the operation, with spaces between: fmax w 1",
                )
            };
        }
        let help = match alike(text, self.named.keys().copied()) {
            Some(like) => {
                format!("did you mean {like}? Else define {text} in a line before this one")
            }
            None => format!("define {text} in a line before this one"),
        };
        operand.slip(line, format!("nothing is named {text}"), help)
    }

    /// The recipe, once the library has read it.
    fn finish(mut self, file: &str) -> Result<Recipe, Vec<Diagnostic>> {
        if self.steps.is_empty() && self.slips.is_empty() {
            self.slips.push(Diagnostic {
                line: 1,
                column: 1,
                length: 1,
                message: "there is no step in this file".into(),
                help: "write at least one, as in: u = input 0 .. 1".into(),
            });
        }
        if !self.slips.is_empty() {
            let more = self.slips.len().saturating_sub(TOLD);
            self.slips.truncate(TOLD);
            if more > 0 {
                let last = &mut self.slips[TOLD - 1];
                last.help = format!("{} ({more} more slips after this one)", last.help);
            }
            return Err(self.slips);
        }
        let text = text_of(&self.steps);
        match estrenwind::explain(&text) {
            Ok(_) => Ok(Recipe {
                file: file.to_owned(),
                text,
                steps: self.steps,
                names: self.names,
            }),
            Err(refused) => Err(vec![self.refusal(refused)]),
        }
    }

    /// The library's refusal, at the line of its step.
    fn refusal(&self, refused: estrenwind::TurnedDown) -> Diagnostic {
        let number = refused.fault.number();
        let (place, message, help) = match refused.fault {
            Fault::Length => (
                MOST_STEPS.min(self.steps.len() - 1),
                format!("{} steps, and a recipe has {MOST_STEPS} at most", self.steps.len()),
                "split the recipe. A number among operands is a step too: name one that is used often, and use the name".to_owned(),
            ),
            Fault::Inputs => (
                refused.place,
                format!("a recipe has {MOST_INPUTS} inputs at most, and this is one more"),
                "make inputs that never change constants, or split the recipe".to_owned(),
            ),
            Fault::Declared => (
                refused.place,
                "the low end is above the high end".to_owned(),
                "write the lesser number first".to_owned(),
            ),
            fault => (refused.place, fault.to_string(), "see the table of steps in the manual".to_owned()),
        };
        let origin = self.origins[place.min(self.origins.len() - 1)].clone();
        Diagnostic {
            line: origin.line,
            column: origin.column,
            length: origin.length,
            message: format!("refused {number}: {message}"),
            help,
        }
    }
}

enum Operand {
    Step(usize),
    Literal(Step),
}

fn is_number(text: &str) -> bool {
    let text = text.strip_prefix(['-', '+']).unwrap_or(text);
    let lower = text.to_ascii_lowercase();
    text.starts_with(|c: char| c.is_ascii_digit() || c == '.')
        || ["inf", "infinity", "nan"].contains(&lower.as_str())
}

fn is_name(text: &str) -> bool {
    text.starts_with(|c: char| c.is_ascii_alphabetic() || c == '_')
        && text.chars().all(|c| c.is_ascii_alphanumeric() || c == '_')
}

fn check_name(line: usize, name: Word) -> Result<(), Box<Diagnostic>> {
    let text = name.text;
    let help = "a name is letters, digits and _, and does not start with a digit";
    if text == "=" {
        return Err(name.slip(line, "no name before the =", help).into());
    }
    if !is_name(text) {
        return Err(name.slip(line, format!("{text} is no name"), help).into());
    }
    if is_number(text) {
        return Err(name
            .slip(
                line,
                format!("{text} is a number, and no name"),
                "choose another name",
            )
            .into());
    }
    if text.len() > LONGEST_NAME {
        let message = format!("a name of {} characters", text.len());
        return Err(name
            .slip(
                line,
                message,
                format!("{LONGEST_NAME} are the most: shorten it"),
            )
            .into());
    }
    Ok(())
}

/// The kind that an input or a constant declares, and the words after it.
fn declared_kind<'a, 'b>(words: &'b [Word<'a>]) -> (Kind, &'b [Word<'a>]) {
    match words {
        [whole, rest @ ..] if whole.text == "whole" => (Kind::Whole, rest),
        _ => (Kind::Double, words),
    }
}

fn read_input<'a>(
    line: usize,
    verb: Word<'a>,
    kind: Kind,
    words: &[Word<'a>],
) -> Result<(Step, Word<'a>), Box<Diagnostic>> {
    let help = match kind {
        Kind::Whole => "write its lowest and highest value: input whole -3 .. 12",
        _ => "write its lowest and highest value: input 0 .. 1",
    };
    let [low, dots, high] = words else {
        let at = words.get(3).or(words.last()).unwrap_or(&verb);
        return Err(at
            .slip(line, "an input has a range, low .. high", help)
            .into());
    };
    if dots.text != ".." {
        return Err(dots
            .slip(line, "an input has a range, low .. high", help)
            .into());
    }
    let number =
        |at: &Word| number::read(at.text, kind).map_err(|slip| number_slip(line, *at, kind, slip));
    let operation = match kind {
        Kind::Whole => Operation::WholeInput,
        _ => Operation::Input,
    };
    let step = Step {
        operation,
        a: 0,
        b: 0,
        p: number(low)?,
        q: number(high)?,
    };
    Ok((step, *low))
}

fn one_number(line: usize, verb: Word, kind: Kind, words: &[Word]) -> Result<u64, Box<Diagnostic>> {
    match words {
        [only] => {
            Ok(number::read(only.text, kind)
                .map_err(|slip| number_slip(line, *only, kind, slip))?)
        }
        [] => Err(verb
            .slip(
                line,
                "a constant is a number",
                "write it: constant 0.5, or constant whole 3",
            )
            .into()),
        [_, second, ..] => Err(second
            .slip(line, "a constant is one number", "leave this out")
            .into()),
    }
}

fn number_slip(line: usize, at: Word, kind: Kind, slip: number::Slip) -> Box<Diagnostic> {
    let (message, help) = slip.words(kind);
    at.slip(line, format!("{} is {message}", at.text), help)
        .into()
}

/// The operation of a name that stands alone: all but inputs and constants.
fn operation_named(name: &str) -> Option<Operation> {
    Operation::all().find(|operation| !operation.operands().is_empty() && operation.name() == name)
}

/// What stands between operands elsewhere.
const SIGNS: [&str; 4] = ["*", "%", "+", "-"];

/// Of doubles and of whole numbers there are two operations.
const ADD: &str = "add, or sum of whole numbers";
const SUBTRACT: &str = "subtract, or difference of whole numbers";

/// What people write for an operation that has another name here.
const OTHER_NAMES: [(&str, &str); 30] = [
    ("+", ADD),
    ("plus", ADD),
    ("-", SUBTRACT),
    ("minus", SUBTRACT),
    ("sub", SUBTRACT),
    ("fsub", "subtract"),
    ("*", "multiply"),
    ("mul", "multiply"),
    ("mult", "multiply"),
    ("fmul", "multiply"),
    ("times", "multiply"),
    ("product", "multiply"),
    ("min", "fmin"),
    ("max", "fmax"),
    ("%", "fmod"),
    ("mod", "fmod"),
    ("drem", "remainder"),
    ("remquo", "remainder"),
    ("IEEEremainder", "remainder"),
    ("abs", "fabs"),
    ("neg", "negate"),
    ("frac", "fraction"),
    ("modf", "fraction"),
    ("rint", "nearbyint"),
    ("roundeven", "nearbyint"),
    ("lrint", "lround"),
    ("llround", "lround"),
    ("double", "to_double"),
    ("scalbn", "ldexp"),
    ("const", "constant"),
];

fn no_operation(line: usize, name: Word, verb: Word) -> Diagnostic {
    let text = verb.text;
    if is_number(text) {
        let whole = number::read(text, Kind::Whole).is_ok();
        let or_whole = if whole {
            format!(", or {} = constant whole {text}", name.text)
        } else {
            String::new()
        };
        return verb.slip(
            line,
            format!("{text} is a number, and no operation"),
            format!("write {} = constant {text}{or_whole}", name.text),
        );
    }
    if let Some(bracket) = text.find('(') {
        return Diagnostic {
            column: verb.column + text[..bracket].chars().count(),
            length: 1,
            ..verb.slip(
                line,
                "operands stand without brackets and commas",
                "write them after the operation, with spaces between: fmax w 1",
            )
        };
    }
    let names = || {
        Operation::all()
            .filter(|operation| !operation.operands().is_empty())
            .map(Operation::name)
    };
    let other = OTHER_NAMES
        .iter()
        .find(|(other, _)| *other == text)
        .map(|(_, name)| *name);
    let help = match other.or_else(|| alike(text, names().chain(["input", "constant"]))) {
        Some(like) => format!("did you mean {like}?"),
        None => format!(
            "there are input, constant, {}",
            names().collect::<Vec<_>>().join(", ")
        ),
    };
    verb.slip(line, format!("there is no operation {text}"), help)
}

fn count_words(operation: Operation, given: usize) -> String {
    let needed = operation.operands().len();
    let plural = if needed == 1 { "operand" } else { "operands" };
    let given = if given == 0 {
        "none".to_owned()
    } else {
        given.to_string()
    };
    format!(
        "{} has {needed} {plural}, and {given} stand here",
        operation.name()
    )
}

/// How an operation is written: `ldexp A B, where A is a double and B a whole number`.
fn usage(operation: Operation) -> String {
    match operation.operands() {
        [a] => format!(
            "write {} A, where A is {}",
            operation.name(),
            kind_words(*a)
        ),
        [a, b] if a == b => format!(
            "write {} A B, where A and B are {}s",
            operation.name(),
            bare_kind(*a)
        ),
        [a, b] => format!(
            "write {} A B, where A is {} and B is {}",
            operation.name(),
            kind_words(*a),
            kind_words(*b)
        ),
        _ => String::new(),
    }
}

fn bare_kind(kind: Kind) -> &'static str {
    match kind {
        Kind::Whole => "whole number",
        _ => "double",
    }
}

/// `a double`
fn kind_words(kind: Kind) -> String {
    format!("a {}", bare_kind(kind))
}

#[cfg(test)]
mod tests {
    use super::*;
    use crate::colour::Colour;

    fn lines(text: &str) -> String {
        String::from_utf8(assemble("t.ew", text).unwrap().text).unwrap()
    }

    /// The first slip: line, column, message, help.
    fn slip(text: &str) -> (usize, usize, String, String) {
        let first = assemble("t.ew", text).unwrap_err().remove(0);
        (first.line, first.column, first.message, first.help)
    }

    #[test]
    fn steps_become_lines() {
        assert_eq!(
            lines(
                "# a comment\n\nu = input -2.5 .. 7.25  # another\r\n  f=floor u\nn\t=\tlround f"
            ),
            "010000c004000000000000401d000000000000\n\
             10000000000000000000000000000000000000\n\
             18010000000000000000000000000000000000\n"
        );
    }

    #[test]
    fn numbers_among_operands_are_steps_before() {
        assert_eq!(
            lines("n = input whole -3..12\nx = ldexp 1.5 n\ny = fmax x 0x1p-3\nz = fmin 1 inf\nm = sum n 1"),
            "020000fffffffffffffffd000000000000000c\n\
             0300003ff80000000000000000000000000000\n\
             23010000000000000000000000000000000000\n\
             0300003fc00000000000000000000000000000\n\
             21020300000000000000000000000000000000\n\
             0300003ff00000000000000000000000000000\n\
             0300007ff00000000000000000000000000000\n\
             20050600000000000000000000000000000000\n\
             04000000000000000000010000000000000000\n\
             30000800000000000000000000000000000000\n"
        );
        assert_eq!(
            lines("u = input 0 .. 1\nx = multiply u 3000\ny = subtract x 0.5\nz = add y x"),
            "01000000000000000000003ff0000000000000\n\
             03000040a77000000000000000000000000000\n\
             42000100000000000000000000000000000000\n\
             0300003fe00000000000000000000000000000\n\
             41020300000000000000000000000000000000\n\
             40040200000000000000000000000000000000\n"
        );
        assert_eq!(
            lines("u = input 0 .. 1\nx = remainder u 360"),
            "01000000000000000000003ff0000000000000\n\
             03000040768000000000000000000000000000\n\
             24000100000000000000000000000000000000\n"
        );
    }

    #[test]
    fn names_may_be_those_of_operations() {
        assert!(assemble("t.ew", "input = input 0 .. 1\nfraction = fraction input\nwhole = lround fraction\nsum = sum whole whole").is_ok());
    }

    #[test]
    fn slips_are_told_at_their_place() {
        let cases: [(&str, usize, usize, &str, &str); 58] = [
            (
                "u = input 0 .. 1\nf = floor w",
                2,
                11,
                "nothing is named w",
                "define w in a line before",
            ),
            (
                "width = input 0 .. 1\nf = floor widht",
                2,
                11,
                "nothing is named widht",
                "did you mean width?",
            ),
            (
                "f = floor u\nu = input 0 .. 1",
                1,
                11,
                "u is defined later, in line 2",
                "move line 2 up",
            ),
            (
                "f = floor f",
                1,
                11,
                "f is what this line defines",
                "name another",
            ),
            (
                "u = input 0 .. 1\nu = floor u",
                2,
                1,
                "u is defined in line 1 already",
                "another name",
            ),
            (
                "u = input 0 .. 1\nf = flor u",
                2,
                5,
                "there is no operation flor",
                "did you mean floor?",
            ),
            (
                "u = input 0 .. 1\nf = sqrt u",
                2,
                5,
                "there is no operation sqrt",
                "there are input, constant, floor",
            ),
            (
                "u = input 0 .. 1\nf = max u 1",
                2,
                5,
                "there is no operation max",
                "did you mean fmax?",
            ),
            (
                "u = input 0 .. 1\nf = remaindre u 1",
                2,
                5,
                "there is no operation remaindre",
                "did you mean remainder?",
            ),
            (
                "u = input 0 .. 1\nf = drem u 1",
                2,
                5,
                "there is no operation drem",
                "did you mean remainder?",
            ),
            // rem is fmod in some languages and remainder in others, so that neither is guessed.
            (
                "u = input 0 .. 1\nf = rem u 1",
                2,
                5,
                "there is no operation rem",
                "fmod, ldexp, remainder, sum",
            ),
            (
                "u = input 0 .. 1\nf = mul u 3000",
                2,
                5,
                "there is no operation mul",
                "did you mean multiply?",
            ),
            (
                "u = input 0 .. 1\nf = multipli u 3000",
                2,
                5,
                "there is no operation multipli",
                "did you mean multiply?",
            ),
            (
                "u = input 0 .. 1\nf = sub u 0.5",
                2,
                5,
                "there is no operation sub",
                "did you mean subtract, or difference of whole numbers?",
            ),
            (
                "u = input 0 .. 1\nf = substract u 0.5",
                2,
                5,
                "there is no operation substract",
                "did you mean subtract?",
            ),
            (
                "u = input 0 .. 1\nf = plus u 0.5",
                2,
                5,
                "there is no operation plus",
                "did you mean add, or sum of whole numbers?",
            ),
            (
                "u = input 0 .. 1\nf = addd u 0.5",
                2,
                5,
                "there is no operation addd",
                "did you mean add?",
            ),
            (
                "u = input 0 .. 1\nf = add u",
                2,
                5,
                "add has 2 operands, and 1 stand here",
                "write add A B, where A and B are doubles",
            ),
            (
                "n = input whole 0 .. 1\nf = multiply 1 n",
                2,
                16,
                "n is a whole number, and multiply needs a double there",
                "put a step before it: x = to_double n",
            ),
            // Where all operands are of the other kind, the operation of that kind is named.
            (
                "n = input whole 0 .. 1\nf = add n 1",
                2,
                9,
                "n is a whole number, and add needs a double there",
                "of whole numbers it is sum; or put a step before it: x = to_double n",
            ),
            (
                "u = input 0 .. 1\nf = difference u 0.5",
                2,
                16,
                "u is a double, and difference needs a whole number there",
                "of doubles it is subtract; or put a step before it: x = lround u",
            ),
            (
                "n = input whole 0 .. 1\nu = input 0 .. 1\nf = add n u",
                3,
                9,
                "n is a whole number, and add needs a double there",
                "put a step before it: x = to_double n, and use x",
            ),
            // Signs between operands.
            (
                "u = input 0 .. 1\nf = u * 3000",
                2,
                5,
                "an operation stands before its operands",
                "write f = multiply u 3000",
            ),
            (
                "u = input 0 .. 1\nf = 1e-3*u",
                2,
                5,
                "an operation stands before its operands",
                "write f = multiply 1e-3 u",
            ),
            (
                "u = input 0 .. 1\nf = u - 0.5",
                2,
                5,
                "an operation stands before its operands",
                "write f = subtract u 0.5",
            ),
            (
                "u = input 0 .. 1\nf = u-1e-3",
                2,
                5,
                "an operation stands before its operands",
                "write f = subtract u 1e-3",
            ),
            (
                "n = input whole 0 .. 1\nf = n + 1",
                2,
                5,
                "an operation stands before its operands",
                "write f = sum n 1",
            ),
            (
                "n = input whole 0 .. 1\nf = 1 - n",
                2,
                5,
                "an operation stands before its operands",
                "write f = difference 1 n",
            ),
            (
                "u = input 0 .. 1\nf = u % 0.25",
                2,
                5,
                "an operation stands before its operands",
                "write f = fmod u 0.25",
            ),
            // A slip of another sort, with a sign in it.
            (
                "u = input 0 .. 1\nf = flor -1",
                2,
                5,
                "there is no operation flor",
                "did you mean floor?",
            ),
            (
                "f = 1e-3",
                1,
                5,
                "1e-3 is a number, and no operation",
                "write f = constant 1e-3",
            ),
            (
                "u = input 0 .. 1\nf = remainder u",
                2,
                5,
                "remainder has 2 operands, and 1 stand here",
                "write remainder A B, where A and B are doubles",
            ),
            (
                "n = input whole 0 .. 1\nf = remainder 1 n",
                2,
                17,
                "n is a whole number, and remainder needs a double there",
                "to_double n",
            ),
            (
                "u = input 0 .. 1\nf = floor(u)",
                2,
                10,
                "without brackets",
                "fmax w 1",
            ),
            (
                "u = input 0 .. 1\nf = fmax u, 1",
                2,
                11,
                "without brackets and commas",
                "fmax w 1",
            ),
            (
                "u = input 0 .. 1\nf = fmax u",
                2,
                5,
                "fmax has 2 operands, and 1 stand here",
                "write fmax A B, where A and B are doubles",
            ),
            (
                "u = input 0 .. 1\nf = floor u 1",
                2,
                13,
                "floor has 1 operand, and 2 stand",
                "write floor A",
            ),
            (
                "u = input 0 .. 1\nf = floor",
                2,
                5,
                "and none stand here",
                "A is a double",
            ),
            (
                "u = input 0 .. 1\nf = ldexp u 1.5",
                2,
                13,
                "1.5 is not a whole number",
                "without a fraction",
            ),
            (
                "u = input 0 .. 1\nf = ldexp u u",
                2,
                13,
                "u is a double, and ldexp needs a whole number there",
                "lround u",
            ),
            (
                "n = input whole 0 .. 1\nf = floor n",
                2,
                11,
                "n is a whole number, and floor needs a double there",
                "to_double n",
            ),
            (
                "half = 0.5",
                1,
                8,
                "0.5 is a number, and no operation",
                "write half = constant 0.5",
            ),
            (
                "k = 3",
                1,
                5,
                "3 is a number, and no operation",
                "or k = constant whole 3",
            ),
            ("k =", 1, 3, "k has no operation", "after the ="),
            ("k", 1, 1, "no = after k", "name = operation operands"),
            (
                "k floor u",
                1,
                3,
                "no = after k",
                "name = operation operands",
            ),
            ("= floor u", 1, 1, "no name before the =", "letters"),
            (
                "1u = input 0 .. 1",
                1,
                1,
                "1u is no name",
                "does not start with a digit",
            ),
            (
                "inf = input 0 .. 1",
                1,
                1,
                "inf is a number",
                "another name",
            ),
            (
                "a234567890123456789012345678901 = input 0 .. 1",
                1,
                1,
                "a name of 31 characters",
                "30 are the most",
            ),
            ("u = input", 1, 5, "an input has a range", "input 0 .. 1"),
            (
                "u = input whole 0",
                1,
                17,
                "an input has a range",
                "input whole -3 .. 12",
            ),
            (
                "u = input 0 .. 1 2",
                1,
                18,
                "an input has a range",
                "input 0 .. 1",
            ),
            (
                "u = input 0 .. 1e999",
                1,
                16,
                "1e999 is too large for a double",
                "or write inf",
            ),
            (
                "u = input nan .. 1",
                1,
                11,
                "nan is a NaN",
                "write a number",
            ),
            (
                "u = input 2 .. 1",
                1,
                11,
                "refused 16: the low end is above the high end",
                "lesser number first",
            ),
            (
                "c = constant",
                1,
                5,
                "a constant is a number",
                "constant 0.5",
            ),
            (
                "c = constant 1 2",
                1,
                16,
                "a constant is one number",
                "leave this out",
            ),
        ];
        for (text, line, column, message, help) in cases {
            let told = slip(text);
            assert_eq!((told.0, told.1), (line, column), "{text}: {told:?}");
            assert!(
                told.2.contains(message) && told.3.contains(help),
                "{text}: {told:?}"
            );
        }
        assert_eq!(slip("# nothing\n").2, "there is no step in this file");
    }

    #[test]
    fn limits_are_the_librarys() {
        let inputs = |count: usize| {
            (0..count)
                .map(|k| format!("u{k} = input 0 .. 1\n"))
                .collect::<String>()
        };
        assert!(assemble("t.ew", &inputs(MOST_INPUTS)).is_ok());
        let told = slip(&inputs(MOST_INPUTS + 1));
        assert_eq!((told.0, told.1), (MOST_INPUTS + 1, 13));
        assert!(told.2.starts_with("refused 17: "), "{told:?}");
        let constants = |count: usize| {
            (0..count)
                .map(|k| format!("c{k} = constant 1\n"))
                .collect::<String>()
        };
        assert!(assemble("t.ew", &constants(MOST_STEPS)).is_ok());
        let told = slip(&constants(MOST_STEPS + 1));
        assert_eq!(told.0, MOST_STEPS + 1);
        assert!(told.2.starts_with("refused 10: 129 steps"), "{told:?}");
    }

    #[test]
    fn every_slip_is_told_once_and_ten_at_most() {
        let slips = assemble("t.ew", "u = inputt 0 .. 1\nf = floor u\ng = ceil w").unwrap_err();
        assert_eq!(
            slips.iter().map(|slip| slip.line).collect::<Vec<_>>(),
            [1, 3]
        );
        let many = "x = floor y\n".repeat(30);
        let slips = assemble("t.ew", &many).unwrap_err();
        assert_eq!(slips.len(), TOLD);
        assert!(slips[TOLD - 1]
            .help
            .ends_with("(20 more slips after this one)"));
    }

    /// Whatever the text, it is a recipe that the library reads, or slips with a place in it.
    #[test]
    fn damaged_texts_are_told_about() {
        let text = "u = input -1.5 .. inf # é\nn = input whole -3 .. 12\nx = ldexp u n\ny = fmax x 0x1.8p3\nk = lround y\nm = sum k 7\n";
        let whole: Vec<char> = text.chars().collect();
        let other: Vec<char> = " \t\n=#.-+0x9einpfé(,\u{0}\u{feff}".chars().collect();
        let mut word = 3u64;
        let mut random = |below: usize| {
            word = word
                .wrapping_mul(6364136223846793005)
                .wrapping_add(1442695040888963407);
            (word >> 33) as usize % below
        };
        let mut read = 0;
        for _ in 0..20_000 {
            let mut damaged = whole.clone();
            for _ in 0..1 + random(4) {
                let place = random(damaged.len());
                match random(3) {
                    0 => damaged[place] = other[random(other.len())],
                    1 => damaged.insert(place, other[random(other.len())]),
                    _ => drop(damaged.remove(place)),
                }
            }
            let text: String = damaged.into_iter().collect();
            match assemble("t.ew", &text) {
                Ok(recipe) => {
                    assert!(estrenwind::explain(&recipe.text).is_ok());
                    read += 1;
                }
                Err(slips) => {
                    for slip in &slips {
                        assert!(slip.line <= text.split('\n').count() && slip.column > 0);
                        assert!(!slip.show("t.ew", text.as_bytes(), Colour::Off).is_empty());
                    }
                }
            }
        }
        assert!(read > 500 && read < 10_000, "{read}");
    }
}
