//! Valid recipes, grown step by step: one is chosen when what comes before it is known, so that long
//! recipes come to their end, or are refused at the step where they should be. What is known is a
//! step's value over a frame, for runs, or its range, for sheets.

use super::values::ordinary_range;
use super::{Draft, Line};
use crate::patterns::Random;
use crate::reference::recipe::operations::Function;
use crate::reference::recipe::text::{MOST_INPUTS, MOST_STEPS};
use crate::reference::recipe::{Kind, Operation, Range, Source, Way, OPERATIONS};

/// What a recipe is to be like.
#[derive(Clone, Debug)]
pub struct Plan {
    pub steps: usize,
    /// The steps that are inputs.
    pub inputs: Vec<usize>,
    /// Whether each step works on the one before it.
    pub chain: bool,
    /// Whether constants and inputs are numbers as hosts have them, or edges and any others.
    pub ordinary: bool,
    /// Steps that are to refuse, with the number.
    pub refusing: Vec<(usize, u64)>,
}

impl Random {
    /// So many of the steps, in order: the first ones, or any, or any and the last one.
    fn places(&mut self, count: usize, steps: usize) -> Vec<usize> {
        if self.below(3) == 0 {
            return (0..count).collect();
        }
        let mut places: Vec<usize> = (0..steps).collect();
        if self.below(3) == 0 {
            places.swap(0, steps - 1);
        } else {
            let first = self.below(steps as u64) as usize;
            places.swap(0, first);
        }
        for i in 1..count {
            let other = i + self.below((steps - i) as u64) as usize;
            places.swap(i, other);
        }
        places.truncate(count);
        places.sort_unstable();
        places
    }

    /// A plan for a valid recipe of 1 to 128 steps with up to 16 inputs. Short ones are likelier.
    pub fn plan(&mut self) -> Plan {
        let steps = match self.below(16) {
            0 => MOST_STEPS,
            1 => 1 + self.below(MOST_STEPS as u64) as usize,
            2..=7 => 1 + self.below(8) as usize,
            _ => 1 + self.below(40) as usize,
        };
        let most = steps.min(MOST_INPUTS) as u64;
        let inputs = match self.below(8) {
            0 => 0,
            1 => most,
            _ => self.below(most.min(5) + 1),
        };
        Plan {
            steps,
            inputs: self.places(inputs as usize, steps),
            chain: self.below(3) == 0,
            ordinary: false,
            refusing: Vec::new(),
        }
    }

    /// A plan with more inputs than a recipe may have. The seventeenth is the seventeenth step, or
    /// some step, or the last.
    pub fn plan_with_too_many_inputs(&mut self) -> Plan {
        let least = MOST_INPUTS + 1;
        let steps = match self.below(4) {
            0 => MOST_STEPS,
            _ => least + self.below((MOST_STEPS - MOST_INPUTS) as u64) as usize,
        };
        let inputs = match self.below(2) {
            0 => least,
            _ => least + self.below((steps - MOST_INPUTS).min(6) as u64) as usize,
        };
        Plan {
            steps,
            inputs: self.places(inputs, steps),
            chain: false,
            ordinary: false,
            refusing: Vec::new(),
        }
    }

    /// The plan with steps that refuse with these numbers, at different places: the first that
    /// there can be, some, or the last. Inputs give way to them.
    pub fn with_refusing(&mut self, mut plan: Plan, numbers: &[u64]) -> Plan {
        if !numbers.is_empty() {
            plan.steps = plan.steps.max(4 + 4 * numbers.len());
        }
        for &number in numbers {
            let place = match self.below(3) {
                0 => 1,
                1 => plan.steps - 1,
                _ => 1 + self.below(plan.steps as u64 - 1) as usize,
            };
            // A refusing step needs two places before it for constants, or is itself the second.
            let near = |&(other, _): &(usize, u64)| place.abs_diff(other) < 3;
            if !plan.refusing.iter().any(near) {
                plan.refusing.push((place, number));
                plan.inputs
                    .retain(|&input| input > place || input + 2 < place);
            }
        }
        plan
    }
}

/// What is known of a step.
trait Known: Copy {
    /// Of a step that has only this value.
    fn of_word(word: u64) -> Self;
    /// Of an input that is declared with this range and has this value in the frame.
    fn of_input(range: [u64; 2], word: u64) -> Self;
    /// Of a step on two others, or the number of its refusal.
    fn of_step(function: &Function, a: Self, b: Self) -> Result<Self, u64>;
    /// A value for a constant.
    fn constant(random: &mut Random, kind: Kind) -> u64 {
        random.value(kind)
    }
    /// A range for an input to declare.
    fn range(random: &mut Random, kind: Kind) -> [u64; 2];
    /// Whether it is a range of a single number. What stands on such ranges is one too, so few of
    /// them are wanted.
    fn is_narrow(&self, kind: Kind) -> bool;
}

/// The value over the frame.
#[derive(Clone, Copy)]
struct Value(u64);

impl Known for Value {
    fn of_word(word: u64) -> Value {
        Value(word)
    }

    fn of_input(_: [u64; 2], word: u64) -> Value {
        Value(word)
    }

    fn of_step(function: &Function, a: Value, b: Value) -> Result<Value, u64> {
        function.value(Way::Short, a.0, b.0).map(Value)
    }

    fn range(random: &mut Random, kind: Kind) -> [u64; 2] {
        random.range(kind)
    }

    fn is_narrow(&self, _: Kind) -> bool {
        false
    }
}

impl Known for Range {
    fn of_word(word: u64) -> Range {
        Range::of(word)
    }

    fn of_input([low, high]: [u64; 2], _: u64) -> Range {
        Range { low, high }
    }

    fn of_step(function: &Function, a: Range, b: Range) -> Result<Range, u64> {
        function.range(Way::Short, a, b)
    }

    fn range(random: &mut Random, kind: Kind) -> [u64; 2] {
        random.declared_range(kind)
    }

    fn is_narrow(&self, kind: Kind) -> bool {
        self.is_one_number(Way::Short, kind)
    }
}

/// The range, in recipes whose sheets have many marks: what is declared is often an integer, and
/// often infinite, which is where a rounding lacks the mark.
#[derive(Clone, Copy)]
struct OfIntegers(Range);

impl Known for OfIntegers {
    fn of_word(word: u64) -> OfIntegers {
        OfIntegers(Range::of_word(word))
    }

    fn of_input(range: [u64; 2], word: u64) -> OfIntegers {
        OfIntegers(Range::of_input(range, word))
    }

    fn of_step(function: &Function, a: OfIntegers, b: OfIntegers) -> Result<OfIntegers, u64> {
        Range::of_step(function, a.0, b.0).map(OfIntegers)
    }

    fn constant(random: &mut Random, kind: Kind) -> u64 {
        match kind {
            Kind::Double if random.below(4) != 0 => random.integral(),
            _ => random.value(kind),
        }
    }

    fn range(random: &mut Random, kind: Kind) -> [u64; 2] {
        match (kind, random.below(8)) {
            (Kind::Double, 0..=2) => random.one_number(),
            (Kind::Double, 3 | 4) => random.range_to_infinity(),
            _ => random.declared_range(kind),
        }
    }

    fn is_narrow(&self, kind: Kind) -> bool {
        self.0.is_narrow(kind)
    }
}

/// A recipe under way, and what is known of its steps.
struct Growing<'a, K> {
    random: &'a mut Random,
    ordinary: bool,
    draft: Draft,
    known: Vec<(Kind, K)>,
}

/// A recipe with a frame, from a plan, and those of the planned refusals that came to be.
pub type Grow = fn(&mut Random, &Plan) -> (Draft, Vec<(usize, u64)>);

/// The recipe and frame of a plan, and those of its steps that refuse the run. After one of them
/// values are made up.
pub fn grow(random: &mut Random, plan: &Plan) -> (Draft, Vec<(usize, u64)>) {
    grow_along::<Value>(random, plan, &[])
}

/// The recipe of a plan with a frame in its ranges, and those of its steps that refuse the sheet.
/// After one of them ranges are made up.
pub fn grow_sheet(random: &mut Random, plan: &Plan) -> (Draft, Vec<(usize, u64)>) {
    grow_along::<Range>(random, plan, &[])
}

/// The same with many marks on the sheet: over many recipes, at least a third of the doubles.
pub fn grow_marked(random: &mut Random, plan: &Plan) -> (Draft, Vec<(usize, u64)>) {
    grow_along::<OfIntegers>(random, plan, &[])
}

/// `grow_sheet` around these lines, which come first at their places. What a line gives that is
/// refused is made up.
pub fn grow_sheet_around(random: &mut Random, plan: &Plan, lines: &[(usize, Line)]) -> Draft {
    grow_along::<Range>(random, plan, lines).0
}

fn grow_along<K: Known>(
    random: &mut Random,
    plan: &Plan,
    lines: &[(usize, Line)],
) -> (Draft, Vec<(usize, u64)>) {
    let mut growing = Growing::<K> {
        random,
        ordinary: plan.ordinary,
        draft: Draft::default(),
        known: Vec::new(),
    };
    let mut refusing = Vec::new();
    for place in 0..plan.steps {
        let planned = |places: std::ops::RangeInclusive<usize>| {
            let planned = |&&(at, _): &&(usize, u64)| places.contains(&at);
            plan.refusing
                .iter()
                .find(planned)
                .map(|&(_, number)| number)
        };
        let given = lines.iter().find(|&&(at, _)| at == place);
        if let Some(&(_, line)) = given {
            growing.add_line(line);
        } else if plan.inputs.contains(&place) {
            growing.add_input();
        } else if let Some(number) = planned(place..=place) {
            if growing.add_refusing(number) {
                refusing.push((place, number));
            }
        } else if let Some(number) = planned(place + 1..=place + 2) {
            let (kind, word) = growing.random.troublesome(number);
            growing.add_constant(kind, word);
        } else if place == 0 || growing.random.below(8) == 0 || !growing.add_step(plan.chain) {
            let kind = growing.any_kind();
            let word = growing.any_word(kind);
            growing.add_constant(kind, word);
        }
    }
    (growing.draft, refusing)
}

impl<K: Known> Growing<'_, K> {
    fn any_kind(&mut self) -> Kind {
        match self.random.below(2) {
            0 => Kind::Double,
            _ => Kind::Whole,
        }
    }

    fn any_word(&mut self, kind: Kind) -> u64 {
        if self.ordinary {
            self.random.ordinary(kind)
        } else {
            K::constant(self.random, kind)
        }
    }

    fn add(&mut self, line: Line, kind: Kind, known: K) {
        self.draft.lines.push(line);
        self.known.push((kind, known));
    }

    fn add_constant(&mut self, kind: Kind, word: u64) {
        self.add(Line::constant(kind, word), kind, K::of_word(word));
    }

    fn add_input(&mut self) {
        let kind = self.any_kind();
        let (range, word) = if self.ordinary {
            (ordinary_range(kind), self.random.ordinary(kind))
        } else {
            let range = K::range(self.random, kind);
            (range, self.random.inside(kind, range))
        };
        self.draft.words.push(word);
        self.add(Line::input(kind, range), kind, K::of_input(range, word));
    }

    /// A line as it is.
    fn add_line(&mut self, line: Line) {
        let operation = line.operation().expect("an opcode");
        let (kind, range) = (operation.kind, [line.p, line.q]);
        let known = match operation.source {
            Source::Input => {
                let word = self.random.inside(kind, range);
                self.draft.words.push(word);
                K::of_input(range, word)
            }
            Source::Constant => K::of_word(line.p),
            Source::One { .. } | Source::Two { .. } => self
                .outcome(operation, line.a.into(), line.b.into())
                .unwrap_or_else(|_| K::of_word(self.random.value(kind))),
        };
        self.add(line, kind, known);
    }

    /// What is known of a step on these two, of which it may use one.
    fn outcome(&self, operation: &Operation, a: usize, b: usize) -> Result<K, u64> {
        let at = |place: usize| self.known[place].1;
        let function = operation.function().expect("it works on other steps");
        let b = if operation.uses_b() {
            at(b)
        } else {
            K::of_word(0)
        };
        K::of_step(function, at(a), b)
    }

    /// An earlier step of this kind, one of the last few in half of the cases.
    fn operand(&mut self, kind: Kind) -> Option<usize> {
        let recent = self.known.len().saturating_sub(4);
        let from = if self.random.below(2) == 0 { recent } else { 0 };
        let mut fit: Vec<usize> = (from..self.known.len())
            .filter(|&place| self.known[place].0 == kind)
            .collect();
        let wide: Vec<usize> = (fit.iter().copied())
            .filter(|&place| !self.known[place].1.is_narrow(kind))
            .collect();
        if !wide.is_empty() && wide.len() < fit.len() && self.random.below(4) != 0 {
            fit = wide;
        }
        match fit.len() {
            0 => (0..from).rev().find(|&place| self.known[place].0 == kind),
            count => Some(fit[self.random.below(count as u64) as usize]),
        }
    }

    /// Some step on earlier ones, on the last one if `chain`, and what is known of it.
    fn any_step(&mut self, chain: bool) -> Option<(Line, Kind, Result<K, u64>)> {
        let operation = &OPERATIONS[self.random.below(OPERATIONS.len() as u64) as usize];
        let kinds = operation.source.operands();
        let mut places = [0; 2];
        for (place, &kind) in places.iter_mut().zip(&kinds) {
            *place = self.operand(kind)?;
        }
        if chain {
            let last = self.known.len() - 1;
            let fits: Vec<usize> = (0..kinds.len())
                .filter(|&i| kinds[i] == self.known[last].0)
                .collect();
            let choice = self.random.below(fits.len().max(1) as u64) as usize;
            places[*fits.get(choice)?] = last;
        }
        operation.function()?;
        let [a, b] = places;
        let outcome = self.outcome(operation, a, b);
        let b = if operation.uses_b() { b } else { 0 };
        Some((Line::step(operation.opcode, a, b), operation.kind, outcome))
    }

    /// A step that doesn't refuse; false where none was found.
    fn add_step(&mut self, chain: bool) -> bool {
        for _ in 0..64 {
            if let Some((line, kind, Ok(known))) = self.any_step(chain) {
                if known.is_narrow(kind) && self.random.below(8) != 0 {
                    continue;
                }
                self.add(line, kind, known);
                return true;
            }
        }
        false
    }

    /// A step that refuses with this number, or another step; false where none was found.
    fn add_refusing(&mut self, number: u64) -> bool {
        for attempt in 0..1000 {
            if let Some((line, kind, outcome)) = self.any_step(attempt % 2 == 0) {
                if outcome.is_err_and(|refusal| refusal == number) {
                    let word = self.random.value(kind);
                    self.add(line, kind, K::of_word(word));
                    return true;
                }
            }
        }
        self.add_constant(Kind::Double, 0);
        false
    }
}

#[cfg(test)]
mod tests {
    use super::*;
    use crate::reference::recipe::{run as run_of, sheet, Refusal};
    use std::collections::{BTreeMap, BTreeSet};

    #[test]
    fn grown_recipes_run_to_their_end() {
        let mut random = Random::new(12);
        let (mut opcodes, mut lengths) = (BTreeSet::new(), BTreeSet::new());
        let (mut inputs, mut input_places) = (BTreeSet::new(), BTreeSet::new());
        for _ in 0..5_000 {
            let plan = random.plan();
            let (draft, _) = grow(&mut random, &plan);
            let call = draft.run_call();
            let answer = run_of(Way::Short, &call.text, &call.frame, call.lent);
            assert_eq!(answer.map(|values| values.len()), Ok(plan.steps), "{call}");
            assert_eq!(draft.inputs(), plan.inputs);
            opcodes.extend(draft.lines.iter().map(|line| line.opcode));
            lengths.insert(plan.steps);
            inputs.insert(plan.inputs.len());
            input_places.extend(plan.inputs);
        }
        assert_eq!(opcodes.len(), OPERATIONS.len());
        assert_eq!((lengths.first(), lengths.last()), (Some(&1), Some(&128)));
        assert!(lengths.len() > 100, "{lengths:?}");
        assert_eq!(inputs.len(), 17);
        assert_eq!(input_places.len(), 128);
    }

    /// How many steps stand one on another under each step, of those that are counted.
    fn depths(draft: &Draft, counted: impl Fn(usize) -> bool) -> Vec<usize> {
        let mut depths: Vec<usize> = Vec::new();
        for (step, line) in draft.lines.iter().enumerate() {
            let operation = line.operation().unwrap();
            let below = |used: bool, place: u8| if used { depths[place as usize] + 1 } else { 0 };
            let depth = below(operation.uses_a(), line.a).max(below(operation.uses_b(), line.b));
            depths.push(if counted(step) { depth } else { 0 });
        }
        depths
    }

    const CHAIN: Plan = Plan {
        steps: 128,
        inputs: vec![],
        chain: true,
        ordinary: false,
        refusing: vec![],
    };

    #[test]
    fn chains_are_deep() {
        let mut random = Random::new(13);
        let plan = Plan {
            inputs: vec![0],
            ..CHAIN
        };
        let mut deepest = 0;
        for _ in 0..200 {
            let (draft, _) = grow(&mut random, &plan);
            let depths = depths(&draft, |_| true);
            deepest = deepest.max(*depths.iter().max().unwrap());
        }
        assert!(deepest > 60, "{deepest}");
    }

    /// Recipes whose sheets pass, most ranges of more than one number, and long chains of such.
    #[test]
    fn grown_sheets_pass_and_stay_wide() {
        let mut random = Random::new(18);
        let (mut opcodes, mut wide_opcodes) = (BTreeMap::new(), BTreeMap::new());
        let mut deepest = 0;
        for round in 0..3_000 {
            let plan = match round % 10 {
                0 => Plan {
                    inputs: vec![0, 1, 2],
                    ..CHAIN
                },
                _ => random.plan(),
            };
            let (draft, _) = grow_sheet(&mut random, &plan);
            let call = draft.sheet_call();
            let ranges = sheet(Way::Short, &call.text, call.lent);
            let ranges = ranges.unwrap_or_else(|refusal| panic!("{refusal:?}\n{call}"));
            assert_eq!(ranges.len(), plan.steps);
            assert_eq!(draft.inputs(), plan.inputs);
            let run = draft.run_call();
            assert!(run_of(Way::Short, &run.text, &run.frame, run.lent).is_ok());
            let is_wide = |step: usize| !ranges[step].range.is_narrow(ranges[step].kind);
            for (step, line) in draft.lines.iter().enumerate() {
                *opcodes.entry(line.opcode).or_insert(0u64) += 1;
                *wide_opcodes.entry(line.opcode).or_insert(0u64) += is_wide(step) as u64;
            }
            deepest = deepest.max(*depths(&draft, is_wide).iter().max().unwrap());
        }
        assert!(deepest > 40, "{deepest}");
        assert_eq!(opcodes.len(), OPERATIONS.len());
        for (opcode, count) in opcodes {
            let wide = wide_opcodes[&opcode];
            let is_constant = opcode == 0x03 || opcode == 0x04;
            assert!(count > 1_000, "{opcode:x}: {count}");
            assert_eq!(
                wide * 2 > count,
                !is_constant,
                "{opcode:x}: {wide} of {count}"
            );
        }
    }

    /// Of every opcode that may or may not have the mark there are steps with it and without.
    #[test]
    fn a_third_of_the_doubles_of_marked_recipes_are_marked() {
        let mut random = Random::new(21);
        let mut met: BTreeMap<(u8, bool), u64> = BTreeMap::new();
        let (mut marked, mut doubles) = (0, 0);
        for _ in 0..3_000 {
            let plan = random.plan();
            let (draft, _) = grow_marked(&mut random, &plan);
            let call = draft.sheet_call();
            let shown = sheet(Way::Short, &call.text, call.lent);
            let shown = shown.unwrap_or_else(|refusal| panic!("{refusal:?}\n{call}"));
            for (line, shown) in draft.lines.iter().zip(&shown) {
                *met.entry((line.opcode, shown.mark)).or_default() += 1;
                doubles += (shown.kind == Kind::Double) as u64;
                marked += (shown.kind == Kind::Double && shown.mark) as u64;
            }
            let run = draft.run_call();
            assert!(run_of(Way::Short, &run.text, &run.frame, run.lent).is_ok());
        }
        println!("{marked} of {doubles}: {met:?}");
        assert!(3 * marked >= doubles, "{marked} of {doubles}");
        for operation in &OPERATIONS {
            for mark in [false, true] {
                let count = met.get(&(operation.opcode, mark)).copied().unwrap_or(0);
                let can_be = match operation.opcode {
                    0x02 | 0x04 | 0x18 | 0x30 | 0x31 | 0x32 => mark,
                    0x15 | 0x23 => !mark,
                    _ => true,
                };
                let enough = if can_be { count >= 200 } else { count == 0 };
                assert!(enough, "{:02x}, {mark}: {count}", operation.opcode);
            }
        }
    }

    #[test]
    fn planned_refusals_come_to_be() {
        let mut random = Random::new(14);
        for number in [20, 21, 22] {
            let mut places = [BTreeSet::new(), BTreeSet::new()];
            for _ in 0..2_000 {
                let plan = random.plan();
                let plan = random.with_refusing(plan, &[number]);
                let (draft, refusing) = grow(&mut random, &plan);
                if let [(place, number)] = refusing[..] {
                    let call = draft.run_call();
                    let answer = run_of(Way::Short, &call.text, &call.frame, call.lent);
                    assert_eq!(answer, Err(Refusal::at(number, place)), "{call}");
                    places[0].insert(place);
                }
                let (draft, refusing) = grow_sheet(&mut random, &plan);
                if let [(place, number)] = refusing[..] {
                    let call = draft.sheet_call();
                    let answer = sheet(Way::Short, &call.text, call.lent);
                    assert_eq!(answer, Err(Refusal::at(number, place)), "{call}");
                    places[1].insert(place);
                }
            }
            for places in places {
                assert!(places.len() > 40, "{number}: {places:?}");
                assert_eq!((places.first(), places.last()), (Some(&1), Some(&127)));
            }
        }
    }
}
