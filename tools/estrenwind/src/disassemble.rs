//! A recipe in its text form. What `assemble` makes of it is the same recipe, to the byte.

use crate::number;
use crate::recipe::Recipe;
use estrenwind::Step;

/// Which constants stand as numbers where their one user names them: those that the assembler would put in the same place.
fn folded(steps: &[Step]) -> Vec<bool> {
    let mut uses = vec![0; steps.len()];
    for operand in steps.iter().flat_map(Step::operands) {
        uses[operand] += 1;
    }
    let mut folded = vec![false; steps.len()];
    for (k, step) in steps.iter().enumerate() {
        // From the last operand back: each stands right before what follows it.
        let mut next = k;
        for operand in step.operands().collect::<Vec<_>>().into_iter().rev() {
            let is_literal = steps[operand].operation.is_constant() && uses[operand] == 1;
            if is_literal && operand + 1 == next {
                folded[operand] = true;
                next = operand;
            }
        }
    }
    folded
}

/// The text form.
pub fn disassemble(recipe: &Recipe) -> String {
    let folded = folded(&recipe.steps);
    let mut named = recipe.clone();
    for (k, step) in recipe.steps.iter().enumerate() {
        if folded[k] {
            named.names[k] = number::word_text(step.operation.gives(), step.p);
        }
    }
    let lines = (0..recipe.steps.len()).filter(|&k| !folded[k]);
    let width = lines
        .clone()
        .map(|k| named.names[k].len())
        .max()
        .unwrap_or(0);
    lines
        .map(|k| format!("{:width$} = {}\n", named.names[k], named.operation_text(k)))
        .collect()
}

#[cfg(test)]
mod tests {
    use super::*;
    use crate::assemble::assemble;
    use crate::recipe::plain_name;

    fn again(text: &str) -> String {
        let mut recipe = assemble("t.ew", text).unwrap();
        recipe.names = (0..recipe.steps.len()).map(plain_name).collect();
        let shown = disassemble(&recipe);
        assert_eq!(
            assemble("t.ew", &shown).unwrap().text,
            recipe.text,
            "{shown}"
        );
        shown
    }

    #[test]
    fn numbers_stand_where_they_are_used() {
        assert_eq!(
            again("u = input 0 .. 1\nx = fmax u 0.5\ny = fmin 1 2\nz = fmod x 0x1p-1\nw = remainder x 0x1p-2"),
            "s0 = input 0 .. 1\ns2 = fmax s0 0.5\ns5 = fmin 1 2\ns7 = fmod s2 0.5\ns9 = remainder s2 0.25\n"
        );
        assert_eq!(
            again("u = input 0 .. 1\nx = multiply u 3000\ny = subtract 0.5 x\nz = add y y"),
            "s0 = input 0 .. 1\ns2 = multiply s0 3000\ns4 = subtract 0.5 s2\ns5 = add s4 s4\n"
        );
    }

    #[test]
    fn other_constants_keep_their_steps() {
        let cases = [
            // used twice
            ("c = constant 1\nx = fmin c 2\ny = fmin c 3\n", 1),
            // by one step twice
            ("c = constant 1\nx = fmin c c\n", 1),
            // not right before its user; and used by nothing
            ("c = constant 1\nd = constant 2\nx = floor c\n", 2),
            // in the other order: only the nearer one can stand in the line
            ("d = constant 2\nc = constant 1\nx = fmin c d\n", 1),
            ("u = input 0 .. 1\nk = constant whole -3\n", 1),
            (
                "c = constant -0\nd = constant -inf\nx = fmin c d\ny = fmin x c\n",
                1,
            ),
        ];
        for (text, kept) in cases {
            assert_eq!(again(text).matches("constant").count(), kept, "{text}");
        }
    }
}
