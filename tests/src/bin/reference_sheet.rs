//! The sheet program over the reference: a recipe from standard input, its sheet or one refusal
//! line to standard output.

use estrenwind_tests::programs::{answer_recipe, sheet_output};

fn main() {
    answer_recipe(sheet_output);
}
