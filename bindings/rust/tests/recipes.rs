//! Sheets, explanations and runs through the crate: the examples of the repository, and the lent memory.

use estrenwind::{
    explain, read_answer, remainder, run, run_lines, sheet, steps, Cause, Explanation, Fault, Kind,
    Lines, Operation, Range, Reason, Step, TurnedDown, Value, ANSWER_LINE, FRAME_INPUT, MOST_FRAME,
    MOST_INPUTS, MOST_SHEET, MOST_STEPS, RECIPE_LINE, SHEET_LINE,
};
use std::fs;
use std::path::Path;

const RECIPE: &[u8] = b"010000c004000000000000401d000000000000\n\
                        10000000000000000000000000000000000000\n\
                        18010000000000000000000000000000000000\n";

fn turned_down(fault: Fault, place: usize) -> TurnedDown {
    TurnedDown { fault, place }
}

fn refusal_line(refused: TurnedDown) -> String {
    format!("ff{:02x}{:02x}", refused.fault.number(), refused.place)
}

fn read(example: &Path, name: &str) -> String {
    fs::read_to_string(example.join(name)).unwrap()
}

/// Two files of an example hold a recipe's sheet, and its answers to the example's frames.
fn shown_and_answered(example: &Path, [recipe, sheet_file, answers]: [&str; 3]) {
    let recipe = read(example, recipe);
    let mut lines = [0; MOST_SHEET];
    let shown = match sheet(recipe.as_bytes(), &mut lines) {
        Ok(steps) => String::from_utf8(lines[..SHEET_LINE * steps].to_vec()).unwrap(),
        Err(refused) => format!("{}\n", refusal_line(refused)),
    };
    assert_eq!(shown, read(example, sheet_file));
    let frames = read(example, "frames");
    for (frame, expected) in frames.lines().zip(read(example, answers).lines()) {
        let answer = match run(recipe.as_bytes(), frame.as_bytes(), &mut [0; MOST_STEPS]) {
            Ok(Value::Double(x)) => format!("01{:016x}", x.to_bits()),
            Ok(Value::Whole(n)) => format!("02{n:016x}"),
            Ok(other) => panic!("{other:?}"),
            Err(refused) => refusal_line(refused),
        };
        assert_eq!(answer, expected);
    }
}

#[test]
fn the_examples() {
    let folder = Path::new(env!("CARGO_MANIFEST_DIR")).join("../../examples");
    let (mut found, mut others) = (0, 0);
    for entry in fs::read_dir(folder).unwrap() {
        let example = entry.unwrap().path();
        if !example.join("recipe").exists() {
            continue;
        }
        found += 1;
        shown_and_answered(&example, ["recipe", "sheet", "answers"]);
        for other in [
            ["mended", "mended_sheet", "mended_answers"],
            ["nearest", "nearest_sheet", "nearest_answers"],
        ] {
            if example.join(other[0]).exists() {
                shown_and_answered(&example, other);
                others += 1;
            }
        }
        let recipe = read(&example, "recipe");
        let why = match explain(recipe.as_bytes()) {
            Ok(Explanation::Refused {
                cause,
                step,
                operand,
            }) => format!("{step:02x}{operand:02x}{:02x}\n", cause.code()),
            other => {
                assert_eq!(other, Ok(Explanation::Passes));
                "00\n".to_owned()
            }
        };
        assert_eq!(why, read(&example, "explanation"));
    }
    assert_eq!((found, others), (12, 6));
}

/// A double, a whole number, and a step of this opcode on the two in these places.
fn with_step(opcode: u8, a: usize, b: usize, p: u64, q: u64) -> Result<Explanation, TurnedDown> {
    let text = format!(
        "010000{:016x}{:016x}\n020000{:016x}{:016x}\n{opcode:02x}{a:02x}{b:02x}{p:016x}{q:016x}\n",
        1f64.to_bits(),
        2f64.to_bits(),
        1,
        2
    );
    explain(text.as_bytes())
}

/// The step of that kind in such a recipe.
fn place_of(kind: Kind) -> usize {
    match kind {
        Kind::Whole => 1,
        _ => 0,
    }
}

/// Every row of the table of operations is as the library has it, and no other opcode is one: the library itself is asked.
#[test]
fn operations_are_the_library_s() {
    for opcode in 0..=255 {
        let Some(operation) = Operation::from_opcode(opcode) else {
            assert_eq!(
                with_step(opcode, 0, 0, 0, 0),
                Err(turned_down(Fault::Opcode, 2))
            );
            continue;
        };
        let kinds = operation.operands();
        let right: Vec<usize> = kinds.iter().map(|&kind| place_of(kind)).collect();
        let at = |i: usize| right.get(i).copied().unwrap_or(0);
        assert_eq!(
            with_step(opcode, at(0), at(1), 0, 0),
            Ok(Explanation::Passes),
            "{operation:?}"
        );
        // An operand of the other kind is refused, and so is one where the operation has none.
        for i in 0..2 {
            let mut other = [at(0), at(1)];
            other[i] = 1 - other[i];
            let fault = if i < kinds.len() {
                Fault::Kind
            } else {
                Fault::Unused
            };
            assert_eq!(
                with_step(opcode, other[0], other[1], 0, 0),
                Err(turned_down(fault, 2)),
                "{operation:?}"
            );
        }
        // P and Q are used by inputs, P by constants, neither by others; a low end above the high one is refused of inputs alone.
        let [_, _, _, p_used, q_used] = operation.uses();
        let used = [p_used, q_used];
        let one = 1f64.to_bits();
        for (p, q, used) in [(one, one, used[0] && used[1]), (one, 0, used[0])] {
            let answer = with_step(opcode, at(0), at(1), p, q);
            match used {
                false => assert_eq!(answer, Err(turned_down(Fault::Unused, 2)), "{operation:?}"),
                true if operation.is_input() && p > q => {
                    assert_eq!(answer, Err(turned_down(Fault::Declared, 2)));
                }
                true => assert_eq!(answer, Ok(Explanation::Passes), "{operation:?}"),
            }
        }
        // The kind of its value is what the sheet says, and the sheet's lines are what the crate reads. On one double, 1, and on doubles
        // from 1 to 2: those operations are marked that give whole numbers of it.
        for (high, expected) in [(1f64, on_one(operation)), (2f64, on_some(operation))] {
            let text = [
                declared(Operation::Input, 1.0, high),
                Step {
                    operation: Operation::WholeInput,
                    a: 0,
                    b: 0,
                    p: 1,
                    q: 1,
                },
                Step {
                    operation,
                    a: at(0),
                    b: at(1),
                    p: 0,
                    q: 0,
                },
            ]
            .map(|step| step.line())
            .concat();
            let read = steps(text.as_bytes()).unwrap();
            assert_eq!(read[2].operation, operation);
            let ranges = ranges(text.as_bytes());
            let range = ranges[2];
            assert_eq!((range.step, range.kind), (2, operation.gives()));
            assert_eq!(range.whole, expected, "{operation:?} up to {high}");
            assert_eq!((ranges[0].whole, ranges[1].whole), (high == 1.0, true));
        }
    }
}

/// Whether an operation is marked on 1, which is marked: all are but these two.
fn on_one(operation: Operation) -> bool {
    !matches!(operation, Operation::Fraction | Operation::Ldexp)
}

/// Whether it is on doubles from 1 to 2, which are not marked: those that hand such a double on, or part of it, are not.
fn on_some(operation: Operation) -> bool {
    on_one(operation)
        && !matches!(
            operation,
            Operation::Fabs
                | Operation::Negate
                | Operation::Fmin
                | Operation::Fmax
                | Operation::Fmod
                | Operation::Remainder
                | Operation::Add
                | Operation::Subtract
                | Operation::Multiply
        )
}

/// An input or a constant from P to Q, as doubles.
fn declared(operation: Operation, p: f64, q: f64) -> Step {
    Step {
        operation,
        a: 0,
        b: 0,
        p: p.to_bits(),
        q: q.to_bits(),
    }
}

/// The lines of two inputs, each from a low to a high end, and an operation on the two.
fn step_on(operation: Operation, ends: [[f64; 2]; 2]) -> String {
    let inputs = ends.map(|[low, high]| declared(Operation::Input, low, high).line());
    let step = Step {
        operation,
        a: 0,
        b: 1,
        p: 0,
        q: 0,
    };
    inputs.concat() + &step.line()
}

fn remainder_of(ends: [[f64; 2]; 2]) -> String {
    step_on(Operation::Remainder, ends)
}

/// Step 24: from -m to m, m being the lesser of the greatest magnitudes of a and of b, and marked where both are.
#[test]
fn ranges_of_the_nearest_remainder() {
    for (a, b, m, whole) in [
        ([-3.0, 5.0], [2.0, 7.0], 5.0, false),
        ([-6.0, 5.0], [2.0, 7.0], 6.0, false),
        ([-6.0, 5.0], [-4.5, -2.0], 4.5, false),
        ([-6.0, 5.0], [0.5, f64::INFINITY], 6.0, false),
        ([7.0, 7.0], [4.0, 4.0], 4.0, true),
        ([7.0, 7.0], [4.5, 4.5], 4.5, false),
        ([-0.0, 0.0], [4.0, 4.0], 0.0, true),
        ([-0.0, -0.0], [4.0, 4.0], 0.0, true),
    ] {
        let range = ranges(remainder_of([a, b]).as_bytes())[2];
        let expected = Range {
            step: 2,
            kind: Kind::Double,
            whole,
            low: f64::to_bits(-m),
            high: m.to_bits(),
        };
        assert_eq!(range, expected, "{a:?} {b:?}");
    }
}

/// Step 24 refuses where fmod does, for the same reasons, and its value is the function's.
#[test]
fn refusals_of_the_nearest_remainder() {
    const INFINITY: f64 = f64::INFINITY;
    for (a, b, cause, operand) in [
        ([-1.0, 1.0], [0.0, 1.0], Cause::DivisorHoldsZero, 1),
        ([-INFINITY, 1.0], [-1.0, -0.0], Cause::DivisorHoldsZero, 1),
        (
            [-INFINITY, INFINITY],
            [1.0, 2.0],
            Cause::DividendLowInfinite,
            0,
        ),
        ([1.0, INFINITY], [1.0, 2.0], Cause::DividendHighInfinite, 0),
    ] {
        let recipe = remainder_of([a, b]);
        let refused = sheet(recipe.as_bytes(), &mut [0; MOST_SHEET]).unwrap_err();
        assert_eq!(refused, turned_down(Fault::Remainder, 2));
        let explanation = Explanation::Refused {
            cause,
            step: 2,
            operand,
        };
        assert_eq!(explain(recipe.as_bytes()), Ok(explanation));
    }
    let recipe = remainder_of([[-INFINITY, INFINITY]; 2]);
    for (x, y) in [
        (350.0, 360.0),
        (-540.0, 360.0),
        (-4.0, 2.0),
        (5.0, INFINITY),
        (5.0, -0.0),
        (-INFINITY, 2.0),
        (INFINITY, INFINITY),
    ] {
        let frame = format!("{:016x}{:016x}", x.to_bits(), y.to_bits());
        let answer = run(recipe.as_bytes(), frame.as_bytes(), &mut [0; MOST_STEPS]);
        let expected = match remainder(x, y) {
            Ok(value) => Ok(value.to_bits()),
            Err(_) => Err(turned_down(Fault::Remainder, 2)),
        };
        let word = |value: Value| match value {
            Value::Double(x) => x.to_bits(),
            other => panic!("{other:?}"),
        };
        assert_eq!(answer.map(word), expected, "{x} {y}");
    }
    assert_eq!(
        Fault::Remainder.to_string(),
        "an infinite operand, or a remainder by zero"
    );
}

/// Steps 40 to 42: ranges and marks, read off W-208 by hand. Zeros count with their signs.
#[test]
fn ranges_of_sums_and_products() {
    use Operation::{Add, Multiply, Subtract};
    for (operation, a, b, [low, high], whole) in [
        (Add, [-3.0, 5.0], [2.0, 7.5], [-1.0, 12.5], false),
        (Add, [7.0, 7.0], [4.0, 4.0], [11.0, 11.0], true),
        (Add, [7.0, 7.0], [4.5, 4.5], [11.5, 11.5], false),
        // 2^53 + 1 is halfway between two doubles: the even one.
        (
            Add,
            [9007199254740992.0; 2],
            [1.0; 2],
            [9007199254740992.0; 2],
            true,
        ),
        (Add, [-0.0, 0.0], [-0.0, -0.0], [-0.0, 0.0], true),
        (
            Add,
            [f64::MIN, f64::MAX],
            [0.0, 1.0],
            [f64::MIN, f64::MAX],
            false,
        ),
        (Subtract, [-3.0, 5.0], [2.0, 7.5], [-10.5, 3.0], false),
        (Subtract, [7.0, 7.0], [7.0, 7.0], [0.0, 0.0], true),
        (Subtract, [-0.0, -0.0], [0.0, 0.0], [-0.0, -0.0], true),
        (Multiply, [-3.0, 5.0], [2.0, 7.5], [-22.5, 37.5], false),
        (Multiply, [-3.0, 5.0], [-4.0, 2.0], [-20.0, 12.0], false),
        (Multiply, [-3.0, -2.0], [-4.0, 2.0], [-6.0, 12.0], false),
        (Multiply, [7.0, 7.0], [-4.0, -4.0], [-28.0, -28.0], true),
        // The products of the ends are zeros of both signs.
        (Multiply, [0.0, 0.0], [-1.0, 1.0], [-0.0, 0.0], false),
        (Multiply, [5e-324, 1.0], [0.5, 0.5], [0.0, 0.5], false),
    ] {
        let range = ranges(step_on(operation, [a, b]).as_bytes())[2];
        let expected = Range {
            step: 2,
            kind: Kind::Double,
            whole,
            low: f64::to_bits(low),
            high: f64::to_bits(high),
        };
        assert_eq!(range, expected, "{operation:?} {a:?} {b:?}");
    }
}

/// Their refusals on a sheet, the first reason of those that are true.
#[test]
fn refusals_of_sums_and_products() {
    use Operation::{Add, Multiply, Subtract};
    const INFINITY: f64 = f64::INFINITY;
    const MAX: f64 = f64::MAX;
    for operation in [Add, Subtract, Multiply] {
        for (a, b, cause, operand) in [
            ([-INFINITY, 1.0], [0.0, 1.0], Cause::ALowInfinite, 0),
            ([0.0, INFINITY], [0.0, 1.0], Cause::AHighInfinite, 0),
            ([0.0, 1.0], [-INFINITY, 1.0], Cause::BLowInfinite, 1),
            ([0.0, 1.0], [0.0, INFINITY], Cause::BHighInfinite, 1),
            (
                [-INFINITY, INFINITY],
                [-INFINITY, INFINITY],
                Cause::ALowInfinite,
                0,
            ),
            ([-MAX, INFINITY], [-MAX, MAX], Cause::AHighInfinite, 0),
            ([-MAX, MAX], [-MAX, INFINITY], Cause::BHighInfinite, 1),
        ] {
            let recipe = step_on(operation, [a, b]);
            let refused = sheet(recipe.as_bytes(), &mut [0; MOST_SHEET]).unwrap_err();
            assert_eq!(refused, turned_down(Fault::Remainder, 2), "{operation:?}");
            let step = 2;
            let why = Explanation::Refused {
                cause,
                step,
                operand,
            };
            assert_eq!(explain(recipe.as_bytes()), Ok(why), "{operation:?}");
        }
    }
    for (operation, a, b, cause) in [
        (Add, [-MAX, 0.0], [-MAX, 0.0], Cause::AnswerLowOverflows),
        (Add, [0.0, MAX], [0.0, MAX], Cause::AnswerHighOverflows),
        (Add, [-MAX, MAX], [-MAX, MAX], Cause::AnswerLowOverflows),
        (Subtract, [-MAX, 0.0], [0.0, MAX], Cause::AnswerLowOverflows),
        (
            Subtract,
            [0.0, MAX],
            [-MAX, 0.0],
            Cause::AnswerHighOverflows,
        ),
        (Multiply, [-2.0, 0.0], [0.0, MAX], Cause::AnswerLowOverflows),
        (
            Multiply,
            [-2.0, 0.0],
            [-MAX, 0.0],
            Cause::AnswerHighOverflows,
        ),
        (
            Multiply,
            [-2.0, 1.0],
            [-MAX, 1.0],
            Cause::AnswerHighOverflows,
        ),
        (
            Multiply,
            [-2.0, 2.0],
            [-1.0, MAX],
            Cause::AnswerLowOverflows,
        ),
    ] {
        let recipe = step_on(operation, [a, b]);
        let refused = sheet(recipe.as_bytes(), &mut [0; MOST_SHEET]).unwrap_err();
        assert_eq!(refused, turned_down(Fault::Overflow, 2), "{operation:?}");
        let why = Explanation::Refused {
            cause,
            step: 2,
            operand: 0,
        };
        assert_eq!(
            explain(recipe.as_bytes()),
            Ok(why),
            "{operation:?} {a:?} {b:?}"
        );
    }
}

/// Their values are the language's own, refused 20 for an infinite operand and then 21 for an infinite result.
#[test]
fn values_of_sums_and_products() {
    type Own = fn(f64, f64) -> f64;
    let operations: [(Operation, Own); 3] = [
        (Operation::Add, |x, y| x + y),
        (Operation::Subtract, |x, y| x - y),
        (Operation::Multiply, |x, y| x * y),
    ];
    let numbers = [
        0.0,
        5e-324,
        f64::MIN_POSITIVE,
        0.1,
        0.5,
        1.0 + f64::EPSILON,
        3000.0,
        9007199254740993.0,
        9007199254740994.0,
        1e200,
        f64::MAX,
        f64::INFINITY,
    ];
    let numbers: Vec<f64> = numbers.into_iter().flat_map(|x| [x, -x]).collect();
    let any = [-f64::INFINITY, f64::INFINITY];
    for (operation, own) in operations {
        let recipe = step_on(operation, [any, any]);
        let (mut answered, mut infinite, mut overflowed) = (0, 0, 0);
        for (x, y) in numbers
            .iter()
            .flat_map(|&x| numbers.iter().map(move |&y| (x, y)))
        {
            let frame = format!("{:016x}{:016x}", x.to_bits(), y.to_bits());
            let answer = run(recipe.as_bytes(), frame.as_bytes(), &mut [0; MOST_STEPS]);
            let answer = answer.map(|value| match value {
                Value::Double(x) => x.to_bits(),
                other => panic!("{other:?}"),
            });
            let expected = if x.is_infinite() || y.is_infinite() {
                infinite += 1;
                Err(turned_down(Fault::Remainder, 2))
            } else if own(x, y).is_infinite() {
                overflowed += 1;
                Err(turned_down(Fault::Overflow, 2))
            } else {
                answered += 1;
                Ok(own(x, y).to_bits())
            };
            assert_eq!(answer, expected, "{operation:?} {x:?} {y:?}");
        }
        assert_eq!(infinite, 4 * 24 - 4);
        assert!(answered > 400 && overflowed >= 2, "{answered} {overflowed}");
    }
}

/// The lines of a sheet that passes, as values.
fn ranges(recipe: &[u8]) -> Vec<Range> {
    let mut lines = [0; MOST_SHEET];
    let steps = sheet(recipe, &mut lines).unwrap();
    lines[..SHEET_LINE * steps]
        .chunks(SHEET_LINE)
        .map(|line| Range::read(line.strip_suffix(b"\n").unwrap()).unwrap())
        .collect()
}

/// What a recipe's last step is marked, for inputs and constants: one number, finite and without a fraction.
#[test]
fn marks_of_inputs_and_constants() {
    let input = |low: f64, high: f64| (Operation::Input, low, high);
    let constant = |x: f64| (Operation::Constant, x, 0.0);
    for ((operation, p, q), whole) in [
        (input(3.0, 3.0), true),
        (input(3.0, 4.0), false),
        (input(3.5, 3.5), false),
        (input(0.0, -0.0), true),
        (input(-0.0, 0.0), true),
        (input(0.0, 5e-324), false),
        (input(f64::INFINITY, f64::INFINITY), false),
        (constant(-0.0), true),
        (constant(f64::MAX), true),
        (constant(4503599627370495.5), false),
        (constant(5e-324), false),
        (constant(f64::NEG_INFINITY), false),
    ] {
        let range = ranges(declared(operation, p, q).line().as_bytes())[0];
        assert_eq!(range.whole, whole, "{operation:?} {p:?} {q:?}");
    }
}

/// The most inputs and the size of their fields, asked of the library.
#[test]
fn sizes_are_the_library_s() {
    let input = declared(Operation::Input, 0.0, 0.0).line();
    assert_eq!(input.len(), RECIPE_LINE);
    let most = input.repeat(MOST_INPUTS);
    let frame = "0".repeat(MOST_FRAME);
    assert_eq!(MOST_FRAME, MOST_INPUTS * FRAME_INPUT);
    let mut words = [0; MOST_STEPS];
    assert_eq!(
        run(most.as_bytes(), frame.as_bytes(), &mut words),
        Ok(Value::Double(0.0))
    );
    let more = input.repeat(MOST_INPUTS + 1);
    assert_eq!(
        explain(more.as_bytes()),
        Err(turned_down(Fault::Inputs, MOST_INPUTS))
    );
    let lines = frame + "\n";
    for room in [ANSWER_LINE - 1, ANSWER_LINE] {
        let mut answers = vec![7; room];
        let answer = run_lines(most.as_bytes(), lines.as_bytes(), &mut answers);
        if room < ANSWER_LINE {
            assert_eq!(answer, Err(turned_down(Fault::Room, 0)));
            assert_eq!(answers, [7; ANSWER_LINE - 1]);
        } else {
            assert_eq!(
                answer,
                Ok(Lines {
                    read: MOST_FRAME + 1,
                    written: ANSWER_LINE
                })
            );
            assert_eq!(
                read_answer(&answers[..ANSWER_LINE - 1]),
                Some(Ok(Value::Double(0.0)))
            );
        }
    }
}

#[test]
fn lent_memory() {
    let mut words = [7; 5];
    assert_eq!(
        run(RECIPE, b"bfe0000000000000", &mut words),
        Ok(Value::Whole(-1))
    );
    assert_eq!(
        words,
        [0xbfe0000000000000, 0xbff0000000000000, u64::MAX, 7, 7]
    );
    let mut words = [7; 2];
    assert_eq!(
        run(RECIPE, b"bfe0000000000000", &mut words),
        Err(turned_down(Fault::Room, 0))
    );
    assert_eq!(words, [7; 2]);
    const ROOM: usize = 3 * SHEET_LINE;
    let mut lines = [7; ROOM + 1];
    assert_eq!(sheet(RECIPE, &mut lines), Ok(3));
    assert_eq!((lines[ROOM - 1], lines[ROOM]), (b'\n', 7));
    // One byte short, and what was enough for lines without a mark.
    for room in [ROOM - 1, 3 * 37] {
        let mut lines = vec![7; room];
        assert_eq!(sheet(RECIPE, &mut lines), Err(turned_down(Fault::Room, 0)));
        assert_eq!(lines, vec![7; room]);
    }
    assert_eq!((SHEET_LINE, MOST_SHEET), (39, 4992));
}

#[test]
fn refusals() {
    let mut words = [0; MOST_STEPS];
    for (frame, refused, words_for_it) in [
        (
            &b""[..],
            turned_down(Fault::Frame, 0),
            "the frame does not have 16 digits for each input",
        ),
        (
            b"BFE0000000000000",
            turned_down(Fault::FrameDigit, 0),
            "not a lower-case hexadecimal digit in the frame",
        ),
        (
            b"401e000000000000",
            turned_down(Fault::Input, 0),
            "step 0: the input is a NaN or outside its range",
        ),
    ] {
        assert_eq!(run(RECIPE, frame, &mut words), Err(refused));
        assert_eq!(refused.to_string(), words_for_it);
    }
    assert_eq!(
        run(b"", b"", &mut words),
        Err(turned_down(Fault::Length, 0))
    );
    assert_eq!(
        sheet(&RECIPE[39..], &mut [0; MOST_SHEET]),
        Err(turned_down(Fault::Ahead, 0))
    );
}

/// Every number is kept, and every refusal of the header has a name.
#[test]
fn faults_and_reasons_are_the_header_s() {
    let header = Path::new(env!("CARGO_MANIFEST_DIR")).join("../../include/estrenwind.h");
    let header = fs::read_to_string(header).unwrap();
    let named: Vec<u64> = header
        .lines()
        .filter_map(|line| line.trim().strip_prefix("EW_REFUSED_")?.split_once(" = "))
        .map(|(_, rest)| {
            let digits = rest.split(|c: char| !c.is_ascii_digit()).next();
            digits.unwrap().parse().unwrap()
        })
        .collect();
    assert_eq!(named.len(), 18);
    for number in (0..1000).chain([u64::MAX]) {
        let (fault, reason) = (Fault::from(number), Reason::from(number));
        assert_eq!((fault.number(), reason.number()), (number, number));
        let has_name = !matches!(fault, Fault::Other(_)) || !matches!(reason, Reason::Other(_));
        assert_eq!(has_name, named.contains(&number), "{number}");
    }
}

#[test]
fn a_fault_without_a_name() {
    let refused = turned_down(Fault::from(99), 7);
    assert_eq!(refused.fault, Fault::Other(99));
    assert_eq!(refused.to_string(), "place 7: refusal 99");
    assert_eq!(refusal_line(refused), "ff6307");
}

/// A `match` on an enum of another crate has to leave room for cases of a later version.
#[test]
fn every_public_enum_may_grow() {
    let folder = Path::new(env!("CARGO_MANIFEST_DIR")).join("src");
    let mut found = 0;
    for entry in fs::read_dir(folder).unwrap() {
        let source = fs::read_to_string(entry.unwrap().path()).unwrap();
        let lines: Vec<&str> = source.lines().collect();
        for pair in lines.windows(2) {
            if pair[1].starts_with("pub enum ") {
                assert_eq!(pair[0], "#[non_exhaustive]", "{}", pair[1]);
                found += 1;
            }
        }
    }
    assert_eq!(found, 8);
}
