//! `estrenwind sheet`: the range of every step, and whether its value is whole.

use crate::explain;
use crate::failure::Status;
use crate::json;
use crate::number;
use crate::recipe::Recipe;
use crate::table::{table, wrapped, Row};
use estrenwind::{refusal_line, Range, TurnedDown, MOST_SHEET, SHEET_LINE};

/// How a sheet is written.
#[derive(Clone, Copy, Debug, PartialEq, Eq)]
pub enum Form {
    Table,
    Hexadecimal,
    Json,
}

/// What goes to standard output, what to standard error, and the status.
pub struct Shown {
    pub output: String,
    pub message: String,
    pub status: Status,
}

/// The library's lines of a recipe.
fn lines(recipe: &[u8]) -> Result<Vec<u8>, TurnedDown> {
    let mut lines = vec![0; MOST_SHEET];
    let steps = estrenwind::sheet(recipe, &mut lines)?;
    lines.truncate(SHEET_LINE * steps);
    Ok(lines)
}

/// The same as values.
pub fn ranges(recipe: &[u8]) -> Result<Vec<Range>, TurnedDown> {
    let read = |line: &[u8]| line.strip_suffix(b"\n").and_then(Range::read);
    let ranges = lines(recipe)?
        .chunks(SHEET_LINE)
        .map(read)
        .collect::<Option<_>>();
    Ok(ranges.expect("the library writes the lines that its crate reads"))
}

pub fn sheet(recipe: &Recipe, form: Form) -> Shown {
    match ranges(&recipe.text) {
        Ok(ranges) => Shown {
            output: match form {
                Form::Table => as_table(recipe, &ranges),
                Form::Hexadecimal => {
                    String::from_utf8_lossy(&lines(&recipe.text).unwrap_or_default()).into_owned()
                }
                Form::Json => as_json(recipe, &ranges),
            },
            message: String::new(),
            status: Status::Well,
        },
        Err(refused) => Shown {
            output: match form {
                Form::Table => String::new(),
                Form::Hexadecimal => format!("{}\n", refusal_line(refused)),
                Form::Json => refusal_json(recipe, refused),
            },
            message: explain::explain(recipe).output,
            status: Status::RecipeRefused,
        },
    }
}

fn as_table(recipe: &Recipe, ranges: &[Range]) -> String {
    let rows: Vec<Row> = ranges
        .iter()
        .map(|range| Row::of_range(recipe, range))
        .collect();
    let promise = "Every frame whose inputs lie in their ranges is answered, and each step's value lies in the range shown. \
                   A value marked whole is finite and has no fraction.";
    format!("{}\n{}", table(&rows), wrapped(promise))
}

fn as_json(recipe: &Recipe, ranges: &[Range]) -> String {
    let steps: Vec<String> = ranges
        .iter()
        .map(|range| {
            let step = &recipe.steps[range.step];
            let operands: Vec<String> = step
                .operands()
                .map(|k| json::text(&recipe.names[k]))
                .collect();
            let kind = if range.kind == estrenwind::Kind::Whole {
                "whole"
            } else {
                "double"
            };
            json::object(&[
                ("step", range.step.to_string()),
                ("name", json::text(&recipe.names[range.step])),
                ("operation", json::text(step.operation.name())),
                ("operands", json::array(&operands)),
                ("kind", json::text(kind)),
                ("whole", range.whole.to_string()),
                ("low", json::text(&number::word_text(range.kind, range.low))),
                (
                    "high",
                    json::text(&number::word_text(range.kind, range.high)),
                ),
                ("low_bits", json::text(&format!("{:016x}", range.low))),
                ("high_bits", json::text(&format!("{:016x}", range.high))),
            ])
        })
        .collect();
    format!(
        "{{\"file\": {}, \"passed\": true, \"steps\": [\n  {}\n]}}\n",
        json::text(&recipe.file),
        steps.join(",\n  ")
    )
}

fn refusal_json(recipe: &Recipe, refused: TurnedDown) -> String {
    let refusal = json::object(&[
        ("number", refused.fault.number().to_string()),
        ("step", refused.place.to_string()),
        (
            "name",
            json::text(recipe.names.get(refused.place).map_or("", |name| name)),
        ),
        ("words", json::text(&explain::sentence(recipe))),
        (
            "mend",
            json::array(
                &explain::mends(recipe)
                    .iter()
                    .map(|mend| json::text(mend))
                    .collect::<Vec<_>>(),
            ),
        ),
    ]);
    format!(
        "{{\"file\": {}, \"passed\": false, \"refusal\": {refusal}}}\n",
        json::text(&recipe.file)
    )
}
