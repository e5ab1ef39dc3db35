//! However an input is cut into pieces, the answers are the same. Each piece is taken by the program
//! before the next one is written.

use crate::child::Child;
use crate::literal::{longest, EXAMPLE, FRAME, TURNED_DOWN};
use crate::{assert_same, Program, OF_RECIPES, RUN};
use estrenwind_tests::patterns::Random;
use estrenwind_tests::reference::recipe::Way;

/// An input in pieces of these sizes, over and over.
fn check(program: &Program, input: &[u8], sizes: &[usize]) {
    let expected = (program.output)(Way::Short, input);
    for path in program.paths() {
        let mut child = Child::start(&path);
        let (mut rest, mut sizes) = (input, sizes.iter().cycle());
        while !rest.is_empty() {
            let size = sizes.next().expect("there is no end to them");
            let (piece, later) = rest.split_at(rest.len().min(*size));
            if !child.offer(piece) {
                break;
            }
            child.wait_until_taken();
            rest = later;
        }
        assert_same(&path, input, &child.end(), &expected);
    }
}

/// Frames that are answered, refused, empty, too long, and without a line feed at the end.
fn frames() -> String {
    format!(
        "{FRAME}\n401e000000000000\n\n{}\n{FRAME}\n{}\n{FRAME}\nbfe0\n{FRAME}",
        "0".repeat(256),
        "0".repeat(1_000)
    )
}

#[test]
fn a_byte_at_a_time() {
    for program in OF_RECIPES {
        for input in [EXAMPLE, &format!("{EXAMPLE}\n"), TURNED_DOWN, &longest()] {
            check(&program, input.as_bytes(), &[1]);
        }
    }
    check(&RUN, format!("{EXAMPLE}\n{}", frames()).as_bytes(), &[1]);
    check(&RUN, format!("{EXAMPLE}\n{}\n", frames()).as_bytes(), &[1]);
    check(
        &RUN,
        format!("{}\n{}", longest(), frames()).as_bytes(),
        &[1],
    );
}

#[test]
fn odd_sizes() {
    let input = format!("{}\n{}", longest(), frames().repeat(20));
    for sizes in [
        &[2][..],
        &[3, 1],
        &[7],
        &[16, 1],
        &[17],
        &[38, 1],
        &[255, 257],
        &[256],
        &[4_095, 2],
        &[4_992, 1],
        &[4_993],
    ] {
        check(&RUN, input.as_bytes(), sizes);
        for program in OF_RECIPES {
            check(&program, longest().as_bytes(), sizes);
            check(&program, input.as_bytes(), sizes);
        }
    }
}

/// Every place at which an input of a recipe and two frames can be cut in two.
#[test]
fn every_cut() {
    let input = format!("{EXAMPLE}\n{FRAME}\n\n{FRAME}");
    for cut in 1..input.len() {
        check(&RUN, input.as_bytes(), &[cut, input.len()]);
    }
    for program in OF_RECIPES {
        for recipe in [EXAMPLE, TURNED_DOWN] {
            for cut in 1..recipe.len() {
                check(&program, recipe.as_bytes(), &[cut, recipe.len()]);
            }
        }
    }
}

#[test]
fn sizes_at_random() {
    let mut random = Random::new(71);
    for _ in 0..40 {
        let most = [5, 40, 300, 5_000, 70_000][random.below(5) as usize];
        let sizes: Vec<usize> = (0..97).map(|_| 1 + random.below(most) as usize).collect();
        let input = format!(
            "{EXAMPLE}\n{}",
            frames().repeat(1 + random.below(10) as usize)
        );
        check(&RUN, input.as_bytes(), &sizes);
        for program in OF_RECIPES {
            check(&program, longest().as_bytes(), &sizes);
        }
    }
}
