//! What `explain` says would mend a recipe does: each change that it names is made to the text by hand, and the step is taken then.

use crate::{built, estrenwind, output_of, run_program};
use estrenwind_tests::patterns::Random;
use estrenwind_tests::recipes::reasons::{FACTS, PLACES};
use std::collections::BTreeMap;

const FMOD: u8 = 0x22;
const REMAINDER: u8 = 0x24;
const SUMS_AND_PRODUCTS: [u8; 3] = [0x40, 0x41, 0x42];

/// A recipe with every step on a line of its own, so that the place of a line is the number of its step.
fn plain_lines(recipe: &str) -> Vec<String> {
    let mut lines = Vec::new();
    for line in output_of(&["dis", "-"], recipe).lines() {
        // Numbers among operands become steps again: asm and dis of the lines up to here would fold them, so they are named here.
        let (name, rest) = line.split_once(" = ").unwrap();
        let mut words: Vec<String> = rest.split(' ').map(str::to_owned).collect();
        if words[0] != "input" && words[0] != "constant" {
            for place in 1..words.len() {
                if words[place].starts_with(|c: char| c.is_ascii_digit() || c == '-' || c == 'i') {
                    let whole = matches!(
                        (words[0].as_str(), place),
                        ("ldexp", 2) | ("sum", _) | ("difference", _) | ("to_double", _)
                    );
                    let kind = if whole { "whole " } else { "" };
                    let constant = format!("s{} = constant {kind}{}", lines.len(), words[place]);
                    words[place] = format!("s{}", lines.len());
                    lines.push(constant);
                }
            }
        }
        lines.push(format!("{} = {}", name.trim(), words.join(" ")));
    }
    lines
}

/// The words of a line after its `=`.
fn words(line: &str) -> Vec<String> {
    line.split(' ').skip(2).map(str::to_owned).collect()
}

/// Exchanges one end of an input's range.
fn declare(lines: &mut [String], name: &str, low: Option<&str>, high: Option<&str>) {
    let line = lines
        .iter_mut()
        .find(|line| line.starts_with(&format!("{name} = input")))
        .expect("it is an input");
    let mut parts = words(line);
    let last = parts.len() - 1;
    if let Some(low) = low {
        parts[last - 2] = low.to_owned();
    }
    if let Some(high) = high {
        parts[last] = high.to_owned();
    }
    *line = format!("{name} = {}", parts.join(" "));
}

/// Puts lines before a step and lets the last of them be the operand that has this name; both, where the change says so, and then both have it.
fn put_before(lines: &mut Vec<String>, step: &str, operand: &str, is_both: bool, put: &[String]) {
    let place = lines
        .iter()
        .position(|line| line.starts_with(&format!("{step} = ")))
        .expect("it is a step");
    let mut parts = words(&lines[place]);
    let named = parts[1..].iter_mut().filter(|part| *part == operand);
    let fields: Vec<&mut String> = named.collect();
    assert_eq!(fields.len(), if is_both { 2 } else { 1 }, "{operand}");
    for field in fields {
        *field = format!("put{}", put.len() - 1);
    }
    lines[place] = format!("{step} = {}", parts.join(" "));
    for (k, text) in put.iter().enumerate() {
        lines.insert(place + k, format!("put{k} = {text}"));
    }
}

/// Makes one change, told in words, to the lines of a recipe whose step was refused.
fn mended(lines: &[String], step: &str, change: &str) -> Vec<String> {
    let mut lines = lines.to_vec();
    let (change, is_both) = match change.strip_suffix(", for A and B") {
        Some(change) => (change, true),
        None => (change, false),
    };
    let parts: Vec<&str> = change
        .split(' ')
        .map(|word| word.trim_end_matches(','))
        .collect();
    let target = |it: &str| {
        if it == "it" {
            step.to_owned()
        } else {
            it.to_owned()
        }
    };
    match parts[..] {
        ["declare", ref inputs @ ..] => {
            for input in inputs.split(|word| *word == "and") {
                match *input {
                    [name, "from", low] => declare(&mut lines, name, Some(low), None),
                    [name, "up", "to", high] => declare(&mut lines, name, None, Some(high)),
                    [name, "from", low, "to", high] => {
                        declare(&mut lines, name, Some(low), Some(high))
                    }
                    _ => panic!("no such declaration is known: {change}"),
                }
            }
        }
        ["put", function, name, limit, "before", it] => {
            put_before(
                &mut lines,
                &target(it),
                name,
                is_both,
                &[format!("{function} {name} {limit}")],
            );
        }
        ["put", "fmax", name, low, "and", "fmin", "of", "that", "with", high, "before", it] => {
            let put = [format!("fmax {name} {low}"), format!("fmin put0 {high}")];
            put_before(&mut lines, &target(it), name, is_both, &put);
        }
        ["take", number, "in", "the", "place", "of", "the", "constant", name] => {
            let line = lines
                .iter_mut()
                .find(|line| line.starts_with(&format!("{name} = constant")))
                .unwrap();
            let mut parts = words(line);
            *parts.last_mut().unwrap() = number.to_owned();
            *line = format!("{name} = {}", parts.join(" "));
        }
        _ => panic!("no such change is known: {change}"),
    }
    lines
}

/// The step, the operand and the refusal's number are those that the programs `explain` and `sheet` write.
fn is_the_program_s(recipe: &str, shown: &str, k: usize) {
    let explanation = run_program(&built("explain"), &[], recipe.as_bytes()).output;
    let refusal = run_program(&built("sheet"), &[], recipe.as_bytes()).output;
    let field =
        |text: &str, place: usize| u64::from_str_radix(&text[place..place + 2], 16).unwrap();
    assert_eq!(field(&explanation, 0), k as u64);
    assert_eq!(field(&refusal, 4), k as u64);
    let heading = format!("refused {} at step {k}, s{k}\n", field(&refusal, 2));
    assert!(shown.contains(&heading), "{heading} is not in {shown}");
    let sentence = shown.split("\n\n").last().unwrap();
    let operand = format!("s{}", field(&explanation, 2));
    let named = sentence.split([' ', ',', '\n']).any(|word| word == operand);
    assert!(named, "{operand} is not in {sentence}");
}

/// How many mends are told: what is declared or taken otherwise, and what is put before a step.
#[derive(Clone, Copy, Debug, Default, PartialEq, Eq)]
struct Told {
    otherwise: usize,
    put: usize,
}

impl std::ops::AddAssign for Told {
    fn add_assign(&mut self, more: Told) {
        self.otherwise += more.otherwise;
        self.put += more.put;
    }
}

/// Makes each mend that is told of a recipe whose step k is refused; and says how many there were.
fn mends_that_help(recipe: &str, k: usize) -> Told {
    let ran = estrenwind(&["explain", "-"], recipe);
    assert_eq!(ran.status, 3);
    is_the_program_s(recipe, &ran.output, k);
    let sentence = ran.output.split("\n\n").last().unwrap().replace('\n', " ");
    let (_, changes) = sentence.trim().rsplit_once(": ").unwrap();
    let changes: Vec<&str> = changes.split(", or ").collect();
    if !["declare ", "put ", "take "]
        .iter()
        .any(|verb| changes[0].starts_with(verb))
        || changes[0].starts_with("declare the")
    {
        return Told::default();
    }
    let lines = plain_lines(recipe);
    assert_eq!(lines.len(), recipe.lines().count());
    for change in &changes {
        let mended = mended(&lines, &format!("s{k}"), change);
        // Up to the step alone: what follows may be refused for reasons of its own, and may not fit the most steps any more.
        let end = mended
            .iter()
            .position(|line| line.starts_with(&format!("s{k} = ")))
            .unwrap();
        let front = mended[..=end].join("\n") + "\n";
        let ran = estrenwind(&["check", "-"], &front);
        assert_eq!(ran.status, 0, "{change}\n{}{}", ran.output, ran.errors);
    }
    let put = changes
        .iter()
        .filter(|change| change.starts_with("put "))
        .count();
    let otherwise = changes.len() - put;
    Told { otherwise, put }
}

#[test]
fn every_mend_helps() {
    let mut random = Random::new(74);
    // By opcode and code.
    let mut told: BTreeMap<(u8, u8), Told> = BTreeMap::new();
    for _ in 0..4 {
        for facts in &FACTS {
            for place in PLACES {
                let (draft, k) = random.turned_down(facts, place, false);
                let recipe = String::from_utf8(draft.explain_call().text).unwrap();
                let code = facts.codes[0];
                *told.entry((facts.opcode, code)).or_default() += mends_that_help(&recipe, k);
                if facts.opcode == FMOD {
                    // The nearest remainder of the same operands is refused for the same reason.
                    let mut recipe = recipe;
                    recipe.replace_range(39 * k..39 * k + 2, &format!("{REMAINDER:02x}"));
                    *told.entry((REMAINDER, code)).or_default() += mends_that_help(&recipe, k);
                }
            }
        }
    }
    let count = |is_counted: &dyn Fn(u8, u8) -> bool| -> usize {
        let counted = told
            .iter()
            .filter(|(&(opcode, code), _)| is_counted(opcode, code));
        counted.map(|(_, told)| told.otherwise + told.put).sum()
    };
    for code in 1..=0x13 {
        let count = count(&|_, of| of == code);
        assert!(
            count >= 4,
            "reason {code} had a mend {count} times: {told:?}"
        );
    }
    let shared = [FMOD, REMAINDER].map(|opcode| (opcode, 1..=3));
    let own = SUMS_AND_PRODUCTS.map(|opcode| (opcode, 0x0e..=0x13));
    for (opcode, codes) in shared.into_iter().chain(own) {
        for code in codes {
            let count = count(&|by, of| (by, of) == (opcode, code));
            assert!(
                count >= 4,
                "reason {code} of {opcode:02x} had a mend {count} times: {told:?}"
            );
            // Of a sum or a product both sorts can be told for each reason.
            let told = told[&(opcode, code)];
            assert!(
                code < 0x0e || (told.otherwise >= 2 && told.put >= 2),
                "reason {code:02x} of {opcode:02x}: {told:?}"
            );
        }
    }
}

/// Where A and B of a sum or a product are one step, where both have an infinite end, and where they are constants.
#[test]
fn mends_of_both_operands_help() {
    for opcode in SUMS_AND_PRODUCTS {
        let name = match opcode {
            0x40 => "add",
            0x41 => "subtract",
            _ => "multiply",
        };
        for (operands, k, [otherwise, put]) in [
            ("u = input -inf .. inf\nx = NAME u u\n", 1, [1, 1]),
            ("u = input 0 .. inf\nv = negate u\nx = NAME v v\n", 2, [0, 1]),
            (
                "u = input 0 .. inf\nv = input -inf .. 0\nx = NAME u v\n",
                2,
                [1, 0],
            ),
            (
                "u = input -inf .. inf\nv = input 1 .. inf\nx = NAME u v\n",
                2,
                [1, 0],
            ),
            ("x = NAME -inf 2\n", 2, [1, 0]),
            (
                "u = input -1.7976931348623157e308 .. 1.7976931348623157e308\nv = negate u\nx = NAME v u\n",
                2,
                [1, 1],
            ),
        ] {
            let form = operands.replace("NAME", name);
            let recipe = output_of(&["asm", "-"], &form);
            let told = mends_that_help(&recipe, k);
            assert_eq!(told, Told { otherwise, put }, "{form}");
        }
    }
}
