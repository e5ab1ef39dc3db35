//! One call by both rules: where a zero's sign differs and why, or what is wrong about it.

use crate::recipes::{Call, ExplainCall, RunCall, SheetCall};
use crate::reference::recipe::{text, Kind, Operation, Refusal, Step, Way};
use crate::reference::BINARY64;

/// Document 01's rule, and W-202's.
const RULES: [Way; 2] = [Way::FirstOfEqual, Way::Short];

/// The steps that have an end from another end of an operand.
const NEGATE: u8 = 0x17;
const SUBTRACT: u8 = 0x41;
const MULTIPLY: u8 = 0x42;

/// What of a step is held together: its word in a run, or an end of its range on the sheet.
#[derive(Clone, Copy, Debug, PartialEq, Eq, PartialOrd, Ord)]
pub enum Part {
    Word,
    Low,
    High,
}

/// What becomes of a zero's sign at a step.
#[derive(Clone, Copy, Debug, PartialEq, Eq, PartialOrd, Ord)]
pub enum Fate {
    /// The operands are the same by both rules, and the step differs.
    ChosenHere,
    /// An operand differs, and so does the step.
    HandedOn,
    /// An operand differs, and the step doesn't.
    Ended,
}

/// A word or an end by both rules.
#[derive(Clone, Copy, Debug, PartialEq, Eq, PartialOrd, Ord)]
pub struct Shown {
    pub step: usize,
    pub opcode: u8,
    pub part: Part,
    /// By document 01's rule, and by W-202's.
    pub words: [u64; 2],
    /// None where neither the step nor its operands differ.
    pub fate: Option<Fate>,
}

/// What both rules give: a refusal, or every step.
#[derive(Debug, PartialEq)]
pub enum Both {
    Refused(Refusal),
    Worked(Vec<Shown>),
}

/// The run by both rules, or what is wrong.
pub fn of_run(call: &RunCall) -> Result<Both, String> {
    both(call, |steps, [before, now]| {
        let kinds = [&before, &now].map(|run| run.iter().map(|value| value.kind).collect());
        expect_kinds(steps, kinds)?;
        let words: Vec<[u64; 2]> = (before.iter().zip(&now))
            .map(|(before, now)| [before.word, now.word])
            .collect();
        column(steps, Part::Word, &words, &words)
    })
}

/// The sheet by both rules, or what is wrong.
pub fn of_sheet(call: &SheetCall) -> Result<Both, String> {
    both(call, |steps, [before, now]| {
        let kinds = [&before, &now].map(|sheet| sheet.iter().map(|shown| shown.kind).collect());
        expect_kinds(steps, kinds)?;
        let marks = [&before, &now].map(|sheet| sheet.iter().map(|shown| shown.mark).collect());
        expect_same_marks(marks)?;
        let (lows, highs): (Vec<[u64; 2]>, Vec<[u64; 2]>) = (before.iter().zip(&now))
            .map(|(before, now)| {
                let (before, now) = (before.range, now.range);
                ([before.low, now.low], [before.high, now.high])
            })
            .unzip();
        let mut shown = column(steps, Part::Low, &lows, &highs)?;
        shown.extend(column(steps, Part::High, &highs, &lows)?);
        Ok(shown)
    })
}

/// The explanation is the same by both rules, or this is wrong.
pub fn of_explanation(call: &ExplainCall) -> Result<(), String> {
    let [before, now] = RULES.map(|way| call.reference(way));
    match before == now {
        true => Ok(()),
        false => Err(format!("{before:?}, by W-202 {now:?}\n{call}")),
    }
}

/// What a call comes to by both rules: the same refusal, or what `shown` makes of the two.
fn both<C: Call>(
    call: &C,
    shown: impl FnOnce(&[Step], [C::Worked; 2]) -> Result<Vec<Shown>, String>,
) -> Result<Both, String> {
    let given = match alike(RULES.map(|way| call.reference(way))) {
        Err(wrong) => Err(wrong),
        Ok(Err(refusal)) => Ok(Both::Refused(refusal)),
        Ok(Ok(worked)) => {
            let steps = text::steps(Way::Short, call.text()).expect("it was worked");
            shown(&steps, worked).map(Both::Worked)
        }
    };
    given.map_err(|wrong| format!("{wrong}\n{call}"))
}

/// Both refused alike, or neither refused; else what is wrong.
fn alike<W>(given: [Result<W, Refusal>; 2]) -> Result<Result<[W; 2], Refusal>, String> {
    match given {
        [Ok(before), Ok(now)] => Ok(Ok([before, now])),
        [Err(before), Err(now)] if before == now => Ok(Err(now)),
        given => {
            let [before, now] = given.map(|given| given.err());
            Err(format!("refusal {before:?}, by W-202 {now:?}"))
        }
    }
}

/// By both rules there are as many steps as lines, of the kinds that their opcodes say.
fn expect_kinds(steps: &[Step], kinds: [Vec<Kind>; 2]) -> Result<(), String> {
    let expected: Vec<Kind> = steps.iter().map(|step| step.operation.kind).collect();
    match kinds.iter().all(|kinds| *kinds == expected) {
        true => Ok(()),
        false => Err(format!("kinds {kinds:?}, expected {expected:?}")),
    }
}

/// The marks of W-203 are the same by both rules: no mark depends on a zero's sign.
fn expect_same_marks([before, now]: [Vec<bool>; 2]) -> Result<(), String> {
    match before == now {
        true => Ok(()),
        false => Err(format!("marks {before:?}, by W-202 {now:?}")),
    }
}

/// One part of every step by both rules. A step has it from the same part of its operands; negate from
/// theirs in `others`, since a low end is a high one negated, subtract from A's and from B's in
/// `others`, multiply from all.
fn column(
    steps: &[Step],
    part: Part,
    words: &[[u64; 2]],
    others: &[[u64; 2]],
) -> Result<Vec<Shown>, String> {
    let of_step = |(step, line): (usize, &Step)| {
        let opcode = line.operation.opcode;
        let both = [words, others];
        let (same, other) = both.split_at(1);
        let [from_a, from_b] = match opcode {
            NEGATE => [other; 2],
            SUBTRACT => [same, other],
            MULTIPLY => [&both[..]; 2],
            _ => [same; 2],
        };
        let differs = |used: bool, from: &[&[[u64; 2]]], place: usize| {
            used && from.iter().any(|from| from[place][0] != from[place][1])
        };
        let operand_differs = differs(line.operation.uses_a(), from_a, line.a)
            || differs(line.operation.uses_b(), from_b, line.b);
        let words = words[step];
        let fate = fate(line.operation, part, words, operand_differs)
            .map_err(|wrong| format!("step {step}, {part:?}, {words:016x?}: {wrong}"))?;
        Ok(Shown {
            step,
            opcode,
            part,
            words,
            fate,
        })
    };
    steps.iter().enumerate().map(of_step).collect()
}

/// What becomes of a zero's sign at a step with this outcome by both rules, or what is wrong.
fn fate(
    operation: &Operation,
    part: Part,
    words: [u64; 2],
    operand_differs: bool,
) -> Result<Option<Fate>, &'static str> {
    let [before, now] = words;
    if before == now {
        return Ok(operand_differs.then_some(Fate::Ended));
    }
    let are_zeros = words.map(|word| BINARY64.fabs(word)) == [0, 0];
    if operation.kind != Kind::Double || !are_zeros {
        return Err("more than a zero's sign differs");
    }
    match operation.opcode {
        _ if operand_differs => Ok(Some(Fate::HandedOn)),
        0x20 | 0x21 => Ok(Some(Fate::ChosenHere)),
        // Its range is "the fmin and the fmax of the four end products".
        MULTIPLY if part != Part::Word => Ok(Some(Fate::ChosenHere)),
        _ => Err("the sign doesn't come from fmin or fmax"),
    }
}

#[cfg(test)]
mod tests {
    use super::*;

    const MINUS: u64 = 1 << 63;

    fn fate_in(
        part: Part,
        opcode: u8,
        words: [u64; 2],
        operand_differs: bool,
    ) -> Result<Option<Fate>, ()> {
        let operation = Operation::of_opcode(opcode).unwrap();
        fate(operation, part, words, operand_differs).map_err(|_| ())
    }

    fn fate_of(opcode: u8, words: [u64; 2], operand_differs: bool) -> Result<Option<Fate>, ()> {
        fate_in(Part::Word, opcode, words, operand_differs)
    }

    /// A check that found nothing wrong would let every rule pass.
    #[test]
    fn only_a_zero_s_sign_from_fmin_or_fmax_may_differ() {
        for opcode in [0x20, 0x21] {
            let chosen = Ok(Some(Fate::ChosenHere));
            assert_eq!(fate_of(opcode, [0, MINUS], false), chosen);
            assert_eq!(fate_of(opcode, [MINUS, 0], false), chosen);
            assert_eq!(fate_of(opcode, [MINUS, 0], true), Ok(Some(Fate::HandedOn)));
        }
        for opcode in [
            0x01, 0x03, 0x10, 0x17, 0x22, 0x23, 0x24, 0x32, 0x40, 0x41, 0x42,
        ] {
            assert_eq!(fate_of(opcode, [0, MINUS], false), Err(()));
            assert_eq!(fate_of(opcode, [0, MINUS], true), Ok(Some(Fate::HandedOn)));
        }
        for opcode in [0x10, 0x18, 0x20, 0x30] {
            assert_eq!(fate_of(opcode, [MINUS; 2], false), Ok(None));
            assert_eq!(fate_of(opcode, [7, 7], true), Ok(Some(Fate::Ended)));
        }
        // A product's ends are chosen, but not its word; a sum's ends are not.
        for part in [Part::Low, Part::High] {
            let chosen = Ok(Some(Fate::ChosenHere));
            assert_eq!(fate_in(part, MULTIPLY, [0, MINUS], false), chosen);
            assert_eq!(fate_in(part, MULTIPLY, [0, 1], false), Err(()));
            assert_eq!(fate_in(part, 0x40, [0, MINUS], false), Err(()));
            assert_eq!(fate_in(part, SUBTRACT, [0, MINUS], false), Err(()));
        }
        // Another number, the same number negated, a whole number.
        for words in [[0, 1], [MINUS | 1, MINUS], [1, MINUS | 1]] {
            for opcode in [0x10, 0x20] {
                assert_eq!(fate_of(opcode, words, true), Err(()));
                assert_eq!(fate_of(opcode, words, false), Err(()));
            }
        }
        for opcode in [0x02, 0x04, 0x18, 0x30, 0x31] {
            assert_eq!(fate_of(opcode, [0, MINUS], true), Err(()));
        }
    }

    fn steps(lines: &[&str]) -> Vec<Step> {
        let text: String = lines.iter().map(|line| format!("{line:0<38}\n")).collect();
        text::steps(Way::Short, text.as_bytes()).unwrap()
    }

    /// An end comes from the same end of its operands, negate's from the other.
    #[test]
    fn the_operand_s_own_part_tells_where_a_sign_comes_from() {
        // Two zeros, fmin, negate, floor of step 3.
        let steps = steps(&["03", "0300008", "200001", "1702", "1003"]);
        let same = |word: u64| [word; 2];
        let lows = [same(0), same(MINUS), [0, MINUS], same(0), same(0)];
        let highs = [same(0), same(MINUS), same(0), [MINUS, 0], [MINUS, 0]];
        let fates = |words: &[[u64; 2]], negated: &[[u64; 2]]| {
            let shown = column(&steps, Part::Low, words, negated)?;
            Ok::<_, String>(shown.iter().map(|shown| shown.fate).collect::<Vec<_>>())
        };
        let (chosen, handed_on) = (Some(Fate::ChosenHere), Some(Fate::HandedOn));
        let expected = vec![None, None, chosen, None, None];
        assert_eq!(fates(&lows, &highs), Ok(expected));
        let expected = vec![None, None, None, handed_on, handed_on];
        assert_eq!(fates(&highs, &lows), Ok(expected));
        // From the same end there is nothing that the negated one could come from.
        assert!(fates(&highs, &highs).is_err());
    }

    /// Subtract's low end comes from B's high one; a product's from all.
    #[test]
    fn a_difference_and_a_product_have_their_ends_from_others() {
        // Two zeros, fmin, then a step on it.
        let same = |word: u64| [word; 2];
        let lows = |last| [same(0), same(MINUS), [0, MINUS], last];
        let highs = |last| [same(0), same(MINUS), same(0), last];
        for (line, from_low, from_high) in [
            ("400002", true, false),
            ("400200", true, false),
            ("410200", true, false),
            ("410002", false, true),
            ("420002", true, true),
        ] {
            let steps = steps(&["03", "0300008", "200001", line]);
            for (part, words, others, expected) in [
                (Part::Low, lows([0, MINUS]), highs(same(0)), from_low),
                (Part::High, highs([0, MINUS]), lows(same(0)), from_high),
            ] {
                let shown = column(&steps, part, &words, &others);
                let fate = shown.map(|shown| shown[3].fate);
                let handed_on = Ok(Some(Fate::HandedOn));
                assert_eq!(fate == handed_on, expected, "{line} {part:?}: {fate:?}");
            }
        }
    }

    #[test]
    fn marks_are_the_same() {
        let marks = vec![true, false];
        assert!(expect_same_marks([marks.clone(), marks.clone()]).is_ok());
        assert!(expect_same_marks([marks, vec![true, true]]).is_err());
    }

    #[test]
    fn refusals_are_the_same() {
        let refused = |number, step| Err::<u8, _>(Refusal::at(number, step));
        assert_eq!(alike([Ok(1), Ok(2)]), Ok(Ok([1, 2])));
        assert_eq!(
            alike([refused(20, 3), refused(20, 3)]),
            Ok(Err(Refusal::at(20, 3)))
        );
        for other in [Ok(0), refused(20, 4), refused(21, 3)] {
            assert!(alike([refused(20, 3), other]).is_err());
            assert!(alike([other, refused(20, 3)]).is_err());
        }
    }

    #[test]
    fn kinds_and_numbers_of_steps_are_the_same() {
        let steps = steps(&["03", "04"]);
        let kinds = vec![Kind::Double, Kind::Whole];
        assert!(expect_kinds(&steps, [kinds.clone(), kinds.clone()]).is_ok());
        for wrong in [vec![Kind::Double; 2], kinds[..1].to_vec(), vec![]] {
            assert!(expect_kinds(&steps, [kinds.clone(), wrong.clone()]).is_err());
            assert!(expect_kinds(&steps, [wrong, kinds.clone()]).is_err());
        }
    }
}
