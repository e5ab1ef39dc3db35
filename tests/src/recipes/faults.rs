//! Damaged calls of runs, frame lines, sheets and explanations: each refusal at the first, some or
//! the last place, alone or beside another.
//!
//! A fault is known by the number of the refusal that it is there for.

use super::growing::Grow;
use super::{Call, Draft};
use crate::patterns::Random;
use crate::reference::recipe::text::{LINE, MOST_INPUTS, MOST_STEPS};
use crate::reference::recipe::{Kind, Operation, Refusal, Source, Way, OPERATIONS};
use std::cmp::Ordering;

/// Every refusal of a run.
pub const REFUSALS: [u64; 15] = [10, 11, 12, 13, 14, 15, 16, 17, 40, 30, 31, 32, 20, 21, 22];

/// Every refusal of a run of frame lines. Those of a frame are answers.
pub const LINES_REFUSALS: [u64; 9] = [10, 11, 12, 13, 14, 15, 16, 17, 40];

/// Every refusal of a sheet.
pub const SHEET_REFUSALS: [u64; 12] = [10, 11, 12, 13, 14, 15, 16, 17, 40, 20, 21, 22];

/// Every refusal that is given or explained where no memory is lent: those of a sheet with room.
pub const EXPLAIN_REFUSALS: [u64; 11] = [10, 11, 12, 13, 14, 15, 16, 17, 20, 21, 22];

/// A call with these faults, and the refusals that each alone would be given: fewer where one
/// didn't fit. Without faults, a call that is answered.
pub fn damaged<C: Call>(random: &mut Random, faults: &[u64]) -> (C, Vec<Refusal>) {
    let (draft, mut refusals) = damaged_draft(random, faults, C::GROW);
    let mut call = C::of(&draft);
    let needed = call.lent();
    for &fault in faults {
        let beside = last_place(&refusals);
        let place = match (fault, call.frame_mut()) {
            (11, _) => wrong_byte(random, call.text_mut(), beside),
            (40, _) => {
                call.lend(random.less_than(needed));
                Some(0)
            }
            (30, Some(frame)) => wrong_frame_length(random, frame),
            (31, Some(frame)) => wrong_frame_byte(random, frame),
            _ => None,
        };
        refusals.extend(place.map(|place| Refusal::at(fault, place)));
    }
    if faults.contains(&10) {
        wrong_length(random, call.text_mut());
        refusals.push(Refusal::whole_call(10));
    }
    if !faults.contains(&40) && random.below(2) == 0 {
        call.lend(needed + 1 + random.below(C::MOST_SPARE) as usize);
    }
    (call, refusals)
}

/// A recipe with those of the faults that are its lines' or its words'.
fn damaged_draft(random: &mut Random, faults: &[u64], grow: Grow) -> (Draft, Vec<Refusal>) {
    let steps: Vec<u64> = faults
        .iter()
        .copied()
        .filter(|&f| (20..=22).contains(&f))
        .collect();
    let plan = if faults.contains(&17) {
        random.plan_with_too_many_inputs()
    } else {
        random.plan()
    };
    let plan = random.with_refusing(plan, &steps);
    let (mut draft, refusing) = grow(random, &plan);
    let mut refusals: Vec<Refusal> = refusing
        .iter()
        .map(|&(place, number)| Refusal::at(number, place))
        .collect();
    let seventeenth = draft.inputs().get(MOST_INPUTS).copied();
    refusals.extend(seventeenth.map(|place| Refusal::at(17, place)));
    for &fault in faults {
        let beside = last_place(&refusals);
        let place = match fault {
            12 => wrong_opcode(random, &mut draft, beside),
            13 => unused_field(random, &mut draft, beside),
            14 => operand_not_below(random, &mut draft, beside),
            15 => operand_of_wrong_kind(random, &mut draft, beside),
            16 => wrong_range(random, &mut draft, beside),
            32 => input_outside(random, &mut draft),
            _ => None,
        };
        refusals.extend(place.map(|place| Refusal::at(fault, place)));
    }
    (draft, refusals)
}

/// The place that another fault may stand beside.
fn last_place(refusals: &[Refusal]) -> Option<usize> {
    refusals.last().map(|refusal| refusal.place as usize)
}

/// Of these places the first, some, or the last; the one beside another fault in half of the cases.
fn chosen(random: &mut Random, places: &[usize], beside: Option<usize>) -> Option<usize> {
    let (&first, &last) = (places.first()?, places.last()?);
    if let Some(place) = beside.filter(|place| places.contains(place)) {
        if random.below(2) == 0 {
            return Some(place);
        }
    }
    Some(match random.below(3) {
        0 => first,
        1 => last,
        _ => places[random.below(places.len() as u64) as usize],
    })
}

/// The places of lines with a known opcode for which this holds.
fn lines_where(draft: &Draft, fits: impl Fn(usize, &'static Operation) -> bool) -> Vec<usize> {
    let fits = |&place: &usize| {
        let operation = draft.lines[place].operation();
        operation.is_some_and(|operation| fits(place, operation))
    };
    (0..draft.lines.len()).filter(fits).collect()
}

fn wrong_length(random: &mut Random, text: &mut Vec<u8>) {
    match random.below(6) {
        0 => text.clear(),
        1 => {
            let rest = random.below(text.len() as u64) as usize;
            text.truncate(rest / LINE * LINE + 1 + rest % (LINE - 1));
        }
        2 => text.push(b'\n'),
        3 => {
            let more = 1 + random.below(LINE as u64 - 1) as usize;
            text.extend_from_within(..more);
        }
        4 => drop(text.pop()),
        _ => {
            // A line too many, or up to as many again.
            let line = text[text.len() - LINE..].to_vec();
            let more = [1, 1 + random.below(MOST_STEPS as u64) as usize];
            let lines = MOST_STEPS + more[random.below(2) as usize];
            while text.len() < lines * LINE {
                text.extend_from_slice(&line);
            }
        }
    }
}

/// Any byte but a lower-case digit: those around the digits in half of the cases.
fn no_digit(random: &mut Random) -> u8 {
    const NEAR: [u8; 12] = *b"/:`gAFG@ \n\0\xff";
    loop {
        let byte = match random.below(2) {
            0 => NEAR[random.below(12) as usize],
            _ => random.word() as u8,
        };
        if !matches!(byte, b'0'..=b'9' | b'a'..=b'f') {
            return byte;
        }
    }
}

fn wrong_byte(random: &mut Random, text: &mut [u8], beside: Option<usize>) -> Option<usize> {
    let places: Vec<usize> = (0..text.len() / LINE).collect();
    let place = chosen(random, &places, beside)?;
    let column = match random.below(4) {
        0 => LINE - 1,
        _ => random.below(LINE as u64) as usize,
    };
    let byte = if column == LINE - 1 {
        let ends = [b'\r', b' ', b'0', 0, b'\n' + 1, 0x8a];
        ends[random.below(ends.len() as u64) as usize]
    } else {
        no_digit(random)
    };
    text[place * LINE + column] = byte;
    Some(place)
}

fn wrong_opcode(random: &mut Random, draft: &mut Draft, beside: Option<usize>) -> Option<usize> {
    const NEAR: [u8; 13] = [
        0x00, 0x05, 0x0f, 0x19, 0x1f, 0x25, 0x2f, 0x33, 0x3f, 0x43, 0x81, 0x90, 0xff,
    ];
    let places = lines_where(draft, |_, _| true);
    let place = chosen(random, &places, beside)?;
    draft.lines[place].opcode = loop {
        let opcode = match random.below(2) {
            0 => random.one_of(&NEAR),
            _ => random.word() as u8,
        };
        if Operation::of_opcode(opcode).is_none() {
            break opcode;
        }
    };
    Some(place)
}

fn unused_field(random: &mut Random, draft: &mut Draft, beside: Option<usize>) -> Option<usize> {
    let places = lines_where(draft, |_, _| true);
    let place = chosen(random, &places, beside)?;
    let operation = draft.lines[place].operation()?;
    let line = &mut draft.lines[place];
    let (byte, word) = (1 << random.below(8), 1 << random.below(64));
    // Every step leaves at least one of the four unused.
    loop {
        match random.below(4) {
            0 if !operation.uses_a() => line.a |= byte,
            1 if !operation.uses_b() => line.b |= byte,
            2 if !operation.uses_p() => line.p |= word,
            3 if !operation.uses_q() => line.q |= word,
            _ => continue,
        }
        return Some(place);
    }
}

fn operand_not_below(
    random: &mut Random,
    draft: &mut Draft,
    beside: Option<usize>,
) -> Option<usize> {
    let places = lines_where(draft, |_, operation| operation.uses_a());
    let place = chosen(random, &places, beside)?;
    let last = draft.lines.len() as u64 - 1;
    let above = match random.below(4) {
        0 | 1 => place as u64,
        2 => last.max(place as u64),
        _ => place as u64 + random.below(256 - place as u64),
    };
    let line = &mut draft.lines[place];
    if line.operation()?.uses_b() && random.below(2) == 0 {
        line.b = above as u8;
    } else {
        line.a = above as u8;
    }
    Some(place)
}

/// An operand of the other kind; where there is none, another step in the line's place.
fn operand_of_wrong_kind(
    random: &mut Random,
    draft: &mut Draft,
    beside: Option<usize>,
) -> Option<usize> {
    let places = lines_where(draft, |_, operation| operation.uses_a());
    let place = chosen(random, &places, beside)?;
    let kinds = draft.lines[place].operation()?.source.operands();
    let operands = [draft.lines[place].a, draft.lines[place].b];
    // An operand that is not below the step is left so.
    let below: Vec<usize> = (0..kinds.len())
        .filter(|&i| (operands[i] as usize) < place)
        .collect();
    let i = *below.get(random.below(below.len().max(1) as u64) as usize)?;
    let others: Vec<usize> = (0..place)
        .filter(|&earlier| {
            draft.lines[earlier]
                .kind()
                .is_some_and(|kind| kind != kinds[i])
        })
        .collect();
    let line = &mut draft.lines[place];
    if others.is_empty() || random.below(4) == 0 {
        let wrong: Vec<u8> = OPERATIONS
            .iter()
            .filter(|other| {
                let others = other.source.operands();
                others.len() == kinds.len() && others[i] != kinds[i]
            })
            .map(|other| other.opcode)
            .collect();
        line.opcode = *wrong.get(random.below(wrong.len().max(1) as u64) as usize)?;
    } else {
        let other = others[random.below(others.len() as u64) as usize] as u8;
        *[&mut line.a, &mut line.b][i] = other;
    }
    Some(place)
}

/// A NaN, or ends the wrong way about.
fn wrong_range(random: &mut Random, draft: &mut Draft, beside: Option<usize>) -> Option<usize> {
    let places = lines_where(draft, |_, operation| {
        let constant = matches!(operation.source, Source::Constant);
        operation.is_input() || constant && operation.kind == Kind::Double
    });
    let place = chosen(random, &places, beside)?;
    let line = &mut draft.lines[place];
    let (kind, input) = (line.kind()?, line.is_input());
    match random.below(3) {
        0 if kind == Kind::Double => line.p = random.nan(),
        1 if kind == Kind::Double && input => line.q = random.nan(),
        _ if !input => line.p = random.nan(),
        _ => {
            // Two numbers the wrong way about, neighbours or far apart.
            [line.q, line.p] = loop {
                let range = random.range(kind);
                if kind.compare(Way::Short, range[0], range[1]) == Ordering::Less {
                    break range;
                }
            };
        }
    }
    Some(place)
}

impl Random {
    /// Less memory than is needed: none, too little by one, or any.
    fn less_than(&mut self, needed: usize) -> usize {
        match self.below(3) {
            0 => 0,
            1 => needed - 1,
            _ => self.below(needed as u64) as usize,
        }
    }
}

fn wrong_frame_length(random: &mut Random, frame: &mut Vec<u8>) -> Option<usize> {
    let digits = frame.len();
    let length = match random.below(6) {
        0 => digits + 1,
        1 => digits + 16,
        2 => digits.checked_sub(1)?,
        3 => digits.checked_sub(16)?,
        4 => random.below(digits as u64) as usize,
        _ => digits + 1 + random.below(300) as usize,
    };
    frame.resize(length, b'0');
    (length != digits).then_some(0)
}

fn wrong_frame_byte(random: &mut Random, frame: &mut [u8]) -> Option<usize> {
    let places: Vec<usize> = (0..frame.len()).collect();
    let place = chosen(random, &places, None)?;
    frame[place] = no_digit(random);
    Some(0)
}

fn input_outside(random: &mut Random, draft: &mut Draft) -> Option<usize> {
    let inputs = draft.inputs();
    let place = chosen(random, &inputs, None)?;
    let line = draft.lines[place];
    let input = inputs.iter().position(|&other| other == place)?;
    draft.words[input] = random.outside(line.kind()?, [line.p, line.q])?;
    Some(place)
}

#[cfg(test)]
mod tests {
    use super::*;
    use crate::recipes::comparison::Outcome;
    use crate::recipes::{ExplainCall, LinesCall, RunCall, SheetCall};
    use std::collections::BTreeMap;

    /// "Order: 10; then line by line 11 to 17; then 40; for a run 30, 31, then 32 by input; then
    /// steps in order, 20 to 22."
    fn turn(refusal: &Refusal) -> (u64, u64, u64) {
        match refusal.number {
            10 => (0, 0, 0),
            number @ 11..=17 => (1, refusal.place, number),
            40 => (2, 0, 0),
            30 => (3, 0, 0),
            31 => (4, 0, 0),
            32 => (5, refusal.place, 0),
            number => (6, refusal.place, number),
        }
    }

    /// Checks what is given for a call with these faults, and tells what each would be.
    type Check = fn(&mut Random, &[u64]) -> Vec<Refusal>;

    fn check<C: Call>(random: &mut Random, faults: &[u64]) -> Vec<Refusal> {
        let (call, refusals) = damaged::<C>(random, faults);
        let answer = Outcome::expected(Way::Short, &call).answer;
        let given = Some(C::refusal(answer)).filter(|refusal| refusal.number != 0);
        let expected = refusals.iter().min_by_key(|refusal| turn(refusal));
        assert_eq!(given.as_ref(), expected, "{faults:?} {refusals:?}\n{call}");
        refusals
    }

    const CALLS: [(Check, &[u64]); 4] = [
        (check::<RunCall>, &REFUSALS),
        (check::<LinesCall>, &LINES_REFUSALS),
        (check::<SheetCall>, &SHEET_REFUSALS),
        (check::<ExplainCall>, &EXPLAIN_REFUSALS),
    ];

    #[test]
    fn without_a_fault_nothing_is_refused() {
        let mut random = Random::new(15);
        for (check, _) in CALLS {
            for _ in 0..2_000 {
                assert!(check(&mut random, &[]).is_empty());
            }
        }
    }

    #[test]
    fn one_fault_is_the_refusal_that_it_is_there_for() {
        let mut random = Random::new(16);
        for (check, refusals) in CALLS {
            for &fault in refusals {
                let made = (0..2_000).filter(|_| !check(&mut random, &[fault]).is_empty());
                assert!(made.count() > 500, "{fault}");
            }
        }
    }

    /// Both orders of two faults, in one line where they fit one.
    #[test]
    fn of_two_faults_the_first_in_order_is_given() {
        for (check, refusals) in CALLS {
            of_two_faults(check, refusals);
        }
    }

    fn of_two_faults(check: Check, refusals: &[u64]) {
        let mut random = Random::new(17);
        let mut in_one_line: BTreeMap<[u64; 2], u64> = BTreeMap::new();
        for &first in refusals {
            for &second in refusals.iter().filter(|&&second| second != first) {
                let mut both = 0;
                for _ in 0..400 {
                    let refusals = check(&mut random, &[first, second]);
                    if let [x, y] = refusals[..] {
                        both += 1;
                        let mut pair = [x.number, y.number];
                        pair.sort();
                        *in_one_line.entry(pair).or_default() += (x.place == y.place) as u64;
                    }
                }
                assert!(both > 20, "{first} {second}: {both}");
            }
        }
        for pair in [
            [11, 12],
            [11, 13],
            [11, 14],
            [11, 15],
            [11, 16],
            [11, 17],
            [12, 13],
            [12, 14],
            [12, 15],
            [12, 16],
            [12, 17],
            [13, 14],
            [13, 15],
            [13, 16],
            [13, 17],
            [14, 15],
            [16, 17],
        ] {
            let count = in_one_line[&pair];
            assert!(count > 20, "{pair:?} in one line: {count}");
        }
    }
}
