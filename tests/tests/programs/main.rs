//! The built programs `sheet`, `run` and `explain` against the reference, byte for byte. The
//! reference's own programs go through the same tests.

mod child;
mod chunks;
mod endless;
mod faults;
mod files;
mod generated;
mod literal;
mod outputs;
mod stack;

use child::Child;
use estrenwind_tests::programs::{explain_output, run_output, sheet_output};
use estrenwind_tests::reference::recipe::Way;
use std::path::{Path, PathBuf};

/// One of the programs, and what document 01 or request W-205 says of it.
struct Program {
    name: &'static str,
    reference: &'static str,
    output: fn(Way, &[u8]) -> Vec<u8>,
    /// What it says of its output where a read failed, and where a write did.
    unread: &'static str,
    unwritten: &'static str,
    /// How its line about an argument begins.
    usage: &'static str,
}

const SHEET: Program = Program {
    name: "sheet",
    reference: env!("CARGO_BIN_EXE_reference_sheet"),
    output: sheet_output,
    unread: "no sheet is written",
    unwritten: "the sheet is incomplete",
    usage: "usage: sheet <recipe >sheet",
};

const RUN: Program = Program {
    name: "run",
    reference: env!("CARGO_BIN_EXE_reference_run"),
    output: run_output,
    unread: "answers are incomplete",
    unwritten: "answers are incomplete",
    usage: "usage: run <input >answers",
};

const EXPLAIN: Program = Program {
    name: "explain",
    reference: env!("CARGO_BIN_EXE_reference_explain"),
    output: explain_output,
    unread: "no explanation is written",
    unwritten: "the explanation is incomplete",
    usage: "usage: explain <recipe >explanation",
};

const PROGRAMS: [Program; 3] = [RUN, SHEET, EXPLAIN];

/// Those whose whole input is a recipe.
const OF_RECIPES: [Program; 2] = [SHEET, EXPLAIN];

impl Program {
    /// The reference's program, and the one in the folder that ESTRENWIND_LIB_DIR names.
    fn paths(&self) -> [PathBuf; 2] {
        let folder =
            std::env::var_os("ESTRENWIND_LIB_DIR").map_or("../build".into(), PathBuf::from);
        let built = folder.join(self.name);
        let built = built.canonicalize().unwrap_or_else(|error| {
            panic!(
                "{}: {error}. Build the programs first, or name their folder in ESTRENWIND_LIB_DIR.",
                built.display()
            )
        });
        [self.reference.into(), built]
    }

    fn built(&self) -> PathBuf {
        let [_, built] = self.paths();
        built
    }

    /// Every program of this name writes for this input what the papers say.
    #[track_caller]
    fn check(&self, way: Way, input: &[u8]) -> Vec<u8> {
        let expected = (self.output)(way, input);
        for path in self.paths() {
            let output = Child::start(&path).write(input).end();
            assert_same(&path, input, &output, &expected);
        }
        expected
    }

    /// The same, with the output written out.
    #[track_caller]
    fn prints(&self, input: impl AsRef<[u8]>, expected: &str) {
        let output = self.check(Way::Exact, input.as_ref());
        assert_eq!(
            output.escape_ascii().to_string(),
            expected.as_bytes().escape_ascii().to_string()
        );
    }
}

#[track_caller]
fn assert_same(path: &Path, input: &[u8], output: &[u8], expected: &[u8]) {
    if output == expected {
        return;
    }
    let same = output
        .iter()
        .zip(expected)
        .take_while(|(x, y)| x == y)
        .count();
    let rest = |bytes: &[u8]| {
        bytes[same..bytes.len().min(same + 60)]
            .escape_ascii()
            .to_string()
    };
    panic!(
        "{} differs from byte {same} on, line {}: {}\nexpected: {}\ninput:\n{}",
        path.display(),
        expected[..same]
            .iter()
            .filter(|&&byte| byte == b'\n')
            .count(),
        rest(output),
        rest(expected),
        input.escape_ascii().to_string().replace("\\n", "\n")
    );
}
