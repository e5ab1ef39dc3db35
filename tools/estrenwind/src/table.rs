//! Steps, their ranges and their marks as a table that fits a line of 80.

use crate::number;
use crate::recipe::Recipe;
use estrenwind::Range;

/// Columns of a terminal that nothing goes beyond.
pub const WIDTH: usize = 80;

/// A row: a step, and its range and mark where they are known.
#[derive(Clone, Debug, Default)]
pub struct Row {
    pub step: String,
    pub name: String,
    pub operation: String,
    pub low: String,
    /// Empty where the range is one number.
    pub high: String,
    /// Yes where the sheet marks the step, empty where it does not.
    pub whole: String,
}

impl Row {
    /// The row of a step without its range.
    pub fn of_step(recipe: &Recipe, k: usize) -> Row {
        let operation = recipe.steps[k].operation;
        Row {
            step: k.to_string(),
            name: recipe.names[k].clone(),
            // The range says the rest of inputs and constants.
            operation: if operation.operands().is_empty() {
                operation.name().to_owned()
            } else {
                recipe.operation_text(k)
            },
            ..Row::default()
        }
    }

    pub fn of_range(recipe: &Recipe, range: &Range) -> Row {
        let mut row = Row::of_step(recipe, range.step);
        row.low = number::word_text(range.kind, range.low);
        if range.low != range.high {
            row.high = number::word_text(range.kind, range.high);
        }
        if range.whole {
            row.whole = "yes".into();
        }
        row
    }

    /// The range with its mark, where there are no columns for them: `0 .. 255, whole`
    fn range(&self) -> String {
        let mut text = self.low.clone();
        if !self.high.is_empty() {
            text += &format!(" .. {}", self.high);
        }
        if !self.whole.is_empty() {
            text += ", whole";
        }
        text
    }
}

/// The table, with a heading.
pub fn table(rows: &[Row]) -> String {
    let heading = Row {
        step: "step".into(),
        name: "name".into(),
        operation: "operation".into(),
        low: "lowest".into(),
        high: "highest".into(),
        whole: "whole".into(),
    };
    let all: Vec<&Row> = [&heading].into_iter().chain(rows).collect();
    let widest =
        |text: fn(&Row) -> &String| all.iter().map(|row| text(row).len()).max().unwrap_or(0);
    let columns = Columns {
        name: widest(|row| &row.name),
        operation: widest(|row| &row.operation),
        low: widest(|row| &row.low),
        high: widest(|row| &row.high),
        whole: widest(|row| &row.whole),
    };
    all.iter().map(|row| columns.line(row)).collect()
}

/// The width of each column.
struct Columns {
    name: usize,
    operation: usize,
    low: usize,
    high: usize,
    whole: usize,
}

impl Columns {
    /// What stands before the operation.
    fn front(&self) -> usize {
        4 + 2 + self.name + 2
    }

    fn line(&self, row: &Row) -> String {
        let Columns {
            name,
            operation,
            low,
            high,
            whole,
        } = *self;
        if self.front() + operation + 2 + low + 4 + high + 2 + whole > WIDTH {
            return self.broken_line(row);
        }
        let dots = if row.high.is_empty() { "" } else { " .. " };
        let line = format!(
            "{:>4}  {:name$}  {:operation$}  {:>low$}{dots:4}{:high$}  {}",
            row.step, row.name, row.operation, row.low, row.high, row.whole
        );
        format!("{}\n", line.trim_end())
    }

    /// A row of a table that is too wide: what does not fit goes to a line of its own.
    fn broken_line(&self, row: &Row) -> String {
        let range = row.range();
        let name = self.name;
        let mut line = format!("{:>4}  {:name$}", row.step, row.name);
        let mut text = String::new();
        let mut put = |line: &mut String, part: &str, pad: usize, indent: usize| {
            if line.len() + 2 + part.len() <= WIDTH {
                line.push_str(&format!("  {part:pad$}"));
            } else {
                text.push_str(line.trim_end());
                text.push('\n');
                *line = format!("{:indent$}{part}", "");
            }
        };
        let pad = self.operation.min(24);
        put(&mut line, &row.operation, pad, 8);
        put(
            &mut line,
            &range,
            0,
            self.front().min(WIDTH.saturating_sub(range.len())),
        );
        text.push_str(line.trim_end());
        text.push('\n');
        text
    }
}

/// A text broken at spaces into lines of at most 80.
pub fn wrapped(text: &str) -> String {
    indented(text, 0)
}

/// The same, with so many spaces before every line but the first.
pub fn indented(text: &str, indent: usize) -> String {
    let mut lines = String::new();
    let (first, rest) = text.split_at(text.len() - text.trim_start().len());
    let mut line = first.to_owned();
    for (k, word) in rest.split(' ').enumerate() {
        if k > 0 && line.chars().count() + 1 + word.chars().count() > WIDTH {
            lines.push_str(line.trim_end());
            lines.push('\n');
            line = " ".repeat(indent);
        } else if k > 0 {
            line.push(' ');
        }
        line.push_str(word);
    }
    lines.push_str(line.trim_end());
    lines.push('\n');
    lines
}

#[cfg(test)]
mod tests {
    use super::*;
    use crate::assemble::{assemble, LONGEST_NAME};
    use crate::sheet::ranges;

    fn shown(text: &str) -> String {
        let recipe = assemble("t.ew", text).unwrap();
        let rows: Vec<Row> = ranges(&recipe.text)
            .unwrap()
            .iter()
            .map(|range| Row::of_range(&recipe, range))
            .collect();
        table(&rows)
    }

    #[test]
    fn columns_are_as_wide_as_they_need() {
        assert_eq!(
            shown("u = input -0.5 .. 254.5\nup = round u\nn = lround up\nm = difference n 7\n"),
            concat!(
                "step  name  operation       lowest .. highest  whole\n",
                "   0  u     input             -0.5 .. 254.5\n",
                "   1  up    round u             -1 .. 255      yes\n",
                "   2  n     lround up           -1 .. 255      yes\n",
                "   3  7     constant whole       7             yes\n",
                "   4  m     difference n 7      -8 .. 248      yes\n",
            )
        );
    }

    /// Each row says what the sheet's line does, in columns and where there is no room for them.
    #[test]
    fn marks_are_shown() {
        let marks = "u = input -inf .. inf\nk = input 0 .. -0\na = floor u\nb = fmax u 0\nc = fmin b 2.5\nd = trunc c\ne = ldexp d 1\n";
        assert_eq!(
            shown(marks),
            concat!(
                "step  name  operation       lowest .. highest  whole\n",
                "   0  u     input             -inf .. inf\n",
                "   1  k     input                0 .. -0       yes\n",
                "   2  a     floor u           -inf .. inf\n",
                "   3  0     constant             0             yes\n",
                "   4  b     fmax u 0             0 .. inf\n",
                "   5  2.5   constant           2.5\n",
                "   6  c     fmin b 2.5           0 .. 2.5\n",
                "   7  d     trunc c              0 .. 2        yes\n",
                "   8  1     constant whole       1             yes\n",
                "   9  e     ldexp d 1            0 .. 4\n",
            )
        );
        let name = "n".repeat(LONGEST_NAME);
        assert_eq!(
            shown(&format!("{name} = input 0.5 .. 1e300\nx = ceil {name}\n")),
            format!(
                concat!(
                    "step  name                            operation\n",
                    "                                      lowest .. highest, whole\n",
                    "   0  {0}  input                     0.5 .. 1e300\n",
                    "   1  x                               ceil {0}\n",
                    "                                      1 .. 1e300, whole\n",
                ),
                name
            )
        );
    }

    #[test]
    fn nothing_goes_beyond_80_columns() {
        let long = "n".repeat(LONGEST_NAME - 1);
        let text = format!(
            "{long}1 = input -2.2250738585072014e-308 .. 1.7976931348623157e308\n\
             {long}2 = input whole -4611686018427387904 .. 4611686018427387903\n\
             {long}3 = fmax {long}1 -1.2345678901234567e-300\n\
             {long}4 = difference {long}2 {long}2\n\
             a = fmin {long}1 {long}3\nb = ceil a\n"
        );
        let table = shown(&text);
        for line in table.lines() {
            assert!(line.chars().count() <= WIDTH, "{line}");
        }
        for part in [
            "fmax",
            "-2.2250738585072014e-308 .. 1.7976931348623157e308",
            "-9223372036854775807 .. 9223372036854775807",
        ] {
            assert!(table.contains(part), "{part} is not in\n{table}");
        }
    }

    #[test]
    fn sentences_are_broken_at_spaces() {
        let text = "word ".repeat(40);
        assert!(wrapped(text.trim_end())
            .lines()
            .all(|line| line.len() <= WIDTH));
        assert_eq!(wrapped("one two"), "one two\n");
        assert_eq!(wrapped("  one"), "  one\n");
        let broken = indented(text.trim_end(), 4);
        assert!(broken.lines().all(|line| line.len() <= WIDTH));
        assert!(broken
            .lines()
            .skip(1)
            .all(|line| line.starts_with("    word")));
    }
}
