//! What is wrong in a file, shown at its place: file, line and column, the line itself, a caret under it, and what to do.

use crate::colour::Colour;
use crate::table::indented;

/// A slip in a line of a file. Lines and columns count from 1, columns in characters.
#[derive(Clone, Debug, PartialEq, Eq)]
pub struct Diagnostic {
    pub line: usize,
    pub column: usize,
    /// Characters that the carets go under.
    pub length: usize,
    pub message: String,
    /// What to do about it.
    pub help: String,
}

/// The most characters of a line that are shown: those about the place, where it is longer.
const SHOWN: usize = 72;

impl Diagnostic {
    /// The whole of it, for the text of the file.
    pub fn show(&self, file: &str, text: &[u8], colour: Colour) -> String {
        let line = text.split(|&byte| byte == b'\n').nth(self.line - 1);
        let line = printable(line.unwrap_or_default());
        let start = (self.column - 1).min(line.len());
        let cut = (start + self.length).saturating_sub(SHOWN).min(start);
        let shown: String = line[cut..].iter().take(SHOWN).collect();
        let carets = self.length.clamp(1, SHOWN - (start - cut).min(SHOWN - 1));
        let number = self.line.to_string();
        let gutter = " ".repeat(number.len());
        let heading = format!("{file}:{}:{}: {}", self.line, self.column, self.message);
        let heading = indented(&heading.chars().map(shown_character).collect::<String>(), 4);
        let help = indented(&format!(" help: {}", self.help), 7);
        format!(
            "{}\n {number} | {shown}\n {gutter} | {}{}\n{}\n",
            colour.bold(heading.trim_end()),
            " ".repeat(start - cut),
            colour.red(&"^".repeat(carets)),
            colour.green(help.trim_end()),
        )
    }
}

/// The characters of a line as a terminal can show them, one for each: a tab is a space, what cannot be shown a question mark.
fn printable(line: &[u8]) -> Vec<char> {
    let line = line.strip_suffix(b"\r").unwrap_or(line);
    String::from_utf8_lossy(line)
        .chars()
        .map(shown_character)
        .collect()
}

fn shown_character(c: char) -> char {
    match c {
        '\t' => ' ',
        c if c.is_control() || c == char::REPLACEMENT_CHARACTER => '?',
        c => c,
    }
}

/// The name most like a text, if one is much like it.
pub fn alike<'a>(text: &str, names: impl Iterator<Item = &'a str>) -> Option<&'a str> {
    let most = if text.chars().count() < 4 { 1 } else { 2 };
    names
        .map(|name| (distance(text, name), name))
        .filter(|&(distance, _)| distance <= most)
        .min()
        .map(|(_, name)| name)
}

/// How many characters must be put in, left out, or exchanged to make one text of the other.
fn distance(x: &str, y: &str) -> usize {
    let y: Vec<char> = y.chars().collect();
    let mut row: Vec<usize> = (0..=y.len()).collect();
    for (i, a) in x.chars().enumerate() {
        let mut corner = row[0];
        row[0] = i + 1;
        for (j, b) in y.iter().enumerate() {
            let here = (corner + usize::from(a != *b))
                .min(row[j] + 1)
                .min(row[j + 1] + 1);
            corner = row[j + 1];
            row[j + 1] = here;
        }
    }
    row[y.len()]
}

#[cfg(test)]
mod tests {
    use super::*;

    fn slip(line: usize, column: usize, length: usize) -> Diagnostic {
        Diagnostic {
            line,
            column,
            length,
            message: "nothing is named w".into(),
            help: "define w".into(),
        }
    }

    #[test]
    fn the_caret_stands_under_the_place() {
        let text = "u = input 0 .. 1\n\tv = floor w # é\n";
        assert_eq!(
            slip(2, 12, 1).show("a.ew", text.as_bytes(), Colour::Off),
            "a.ew:2:12: nothing is named w\n 2 |  v = floor w # é\n   |            ^\n help: define w\n"
        );
    }

    #[test]
    fn a_long_line_is_cut_about_the_place() {
        let text = format!("{}w", " x".repeat(500));
        let shown = slip(1, 1001, 1).show("a.ew", text.as_bytes(), Colour::Off);
        let lines: Vec<&str> = shown.lines().collect();
        assert!(
            lines.iter().all(|line| line.chars().count() <= 80),
            "{shown}"
        );
        assert_eq!(lines[1].chars().last(), Some('w'));
        assert_eq!(lines[1].chars().count(), lines[2].chars().count());
    }

    #[test]
    fn names_alike() {
        let names = ["floor", "fmod", "fmin"];
        assert_eq!(alike("flor", names.into_iter()), Some("floor"));
        assert_eq!(alike("fmodd", names.into_iter()), Some("fmod"));
        assert_eq!(alike("sqrt", names.into_iter()), None);
    }
}
