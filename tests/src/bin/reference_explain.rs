//! The explain program over the reference: a recipe from standard input, one line to standard
//! output that says why it is turned down.

use estrenwind_tests::programs::{answer_recipe, explain_output};

fn main() {
    answer_recipe(explain_output);
}
