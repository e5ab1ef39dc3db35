//! `estrenwind check`: whether a recipe is read, and whether it has a sheet.

use crate::explain;
use crate::failure::Status;
use crate::recipe::Recipe;
use crate::sheet::Shown;
use crate::table::wrapped;

/// `1 step`, `2 steps`
fn counted(count: usize, what: &str) -> String {
    format!("{count} {what}{}", if count == 1 { "" } else { "s" })
}

/// A recipe that was read: what there is of it, and whether its sheet passes.
pub fn check(recipe: &Recipe) -> Shown {
    let file = &recipe.file;
    let read = format!(
        "{}, {}",
        counted(recipe.steps.len(), "step"),
        counted(recipe.inputs().len(), "input")
    );
    match explain::Reason::of(recipe) {
        None => Shown {
            output: format!("{file}: {read}; the sheet passes\n"),
            message: String::new(),
            status: Status::Well,
        },
        Some(reason) => Shown {
            output: String::new(),
            message: wrapped(&format!(
                "{file}: {read}, and it can be run; but it has no sheet: step {}, {}: {} (estrenwind explain says what would mend it)",
                reason.step,
                recipe.names[reason.step],
                reason.sentence()
            )),
            status: Status::RecipeRefused,
        },
    }
}
