//! Times the library's run and sheet beside a plain interpreter's, on recipes of mixed steps that
//! complete or pass.
//!
//! 64 recipes each of 16, 32, 64 and 128 steps, over numbers as a host has them and over those of
//! the tests, which are harder: subnormal, huge, with exponents far apart. The two take turns, and
//! so do the lengths; each number is a median of its turns, so that what else the machine does
//! falls on all. `--profile speed` leaves out the overflow checks that the tests have. Then
//! explanations beside sheets, on the same recipes, and on ones that are turned down at their last
//! step; and runs of sums and products beside runs of fmin on the same operands. Fails where a sheet, an
//! explanation or such a run misses a target. `recipe_speed sums` times these runs alone.

use estrenwind_tests::patterns::Random;
use estrenwind_tests::recipes::growing::{grow, grow_sheet, Plan};
use estrenwind_tests::recipes::reasons::{Place, FACTS};
use estrenwind_tests::recipes::values::ordinary_range;
use estrenwind_tests::recipes::{Draft, Line, RunCall, SheetCall};
use estrenwind_tests::reference::recipe::{sheet, text, Kind};
use estrenwind_tests::{interpreter, library};
use std::array;
use std::env;
use std::hint::black_box;
use std::process::ExitCode;
use std::time::Instant;

const RECIPES: usize = 64;
const TURNS: usize = 401;
const STEPS: [usize; 4] = [16, 32, 64, 128];

/// Bytes of the sheet of 128 steps.
const LONGEST_SHEET: usize = sheet::LINE * text::MOST_STEPS;

/// A sheet of 128 steps may take so many times the plain one's time, and a step of it so many times
/// a step of a sheet of 16: what it takes grows with the steps and not faster.
const MOST_TIMES: f64 = 2.0;
const MOST_GROWTH: f64 = 1.25;

/// An explanation may take so many times the time of the sheet of the same recipe.
const MOST_OF_A_SHEET: f64 = 1.2;

/// A run of 20 sums, differences and products may take so many times the time of one of 20 fmin.
const MOST_OF_FMIN: f64 = 1.4;

/// Recipes of so many steps, one in eight an input.
fn plan(steps: usize, ordinary: bool) -> Plan {
    Plan {
        steps,
        inputs: (0..steps).step_by(8).take(16).collect(),
        chain: false,
        ordinary,
        refusing: vec![],
    }
}

/// Nanoseconds a call, over all of the calls.
fn time<C>(answer: &mut impl FnMut(&C), calls: &[C]) -> f64 {
    let start = Instant::now();
    for call in calls {
        answer(call);
    }
    start.elapsed().as_nanos() as f64 / calls.len() as f64
}

fn median(mut times: Vec<f64>) -> f64 {
    times.sort_by(f64::total_cmp);
    times[times.len() / 2]
}

/// Nanoseconds a call of the library's and of the interpreter's.
struct Times {
    steps: usize,
    library: f64,
    plain: f64,
}

impl Times {
    fn of_a_step(&self) -> f64 {
        self.library / self.steps as f64
    }

    fn ratio(&self) -> f64 {
        self.library / self.plain
    }
}

/// The times on calls of each length.
fn race<C, const N: usize>(
    steps: [usize; N],
    calls: &[Vec<C>; N],
    mut library: impl FnMut(&C),
    mut plain: impl FnMut(&C),
) -> [Times; N] {
    let mut ours = [const { Vec::new() }; N];
    let mut theirs = [const { Vec::new() }; N];
    for turn in 0..TURNS {
        for (length, calls) in calls.iter().enumerate() {
            // Whoever goes second finds the texts in the cache.
            if turn % 2 == 0 {
                ours[length].push(time(&mut library, calls));
                theirs[length].push(time(&mut plain, calls));
            } else {
                theirs[length].push(time(&mut plain, calls));
                ours[length].push(time(&mut library, calls));
            }
        }
    }
    let [ours, theirs] = [ours, theirs].map(|times| times.map(median));
    array::from_fn(|length| Times {
        steps: steps[length],
        library: ours[length],
        plain: theirs[length],
    })
}

fn race_runs(ordinary: bool) -> [Times; 4] {
    let mut random = Random::new(41);
    let calls: [Vec<RunCall>; 4] = STEPS.map(|steps| {
        let plan = plan(steps, ordinary);
        let mut call = || grow(&mut random, &plan).0.run_call();
        (0..RECIPES).map(|_| call()).collect()
    });
    let [mut ours, mut theirs] = [[0; 128]; 2];
    for call in calls.iter().flatten() {
        let answer = library::run(&call.text, &call.frame, &mut ours);
        let expected = interpreter::run(&call.text, &call.frame, &mut theirs);
        assert_eq!((answer, ours), (expected, theirs), "{call}");
        assert_eq!(answer.refusal, 0, "{call}");
    }
    race(
        STEPS,
        &calls,
        |call| {
            let (text, frame) = (black_box(&call.text), black_box(&call.frame));
            black_box(library::run(text, frame, &mut ours));
        },
        |call| {
            let (text, frame) = (black_box(&call.text), black_box(&call.frame));
            black_box(interpreter::run(text, frame, &mut theirs));
        },
    )
}

fn sheet_calls(ordinary: bool) -> [Vec<SheetCall>; 4] {
    let mut random = Random::new(42);
    STEPS.map(|steps| {
        let plan = plan(steps, ordinary);
        let mut call = || grow_sheet(&mut random, &plan).0.sheet_call();
        (0..RECIPES).map(|_| call()).collect()
    })
}

/// Recipes that are turned down at their last step, for every reason: of three steps at most, and
/// of 128.
fn turned_down_calls() -> [Vec<SheetCall>; 2] {
    let mut random = Random::new(43);
    [Place::First, Place::Last].map(|place| {
        let facts = FACTS.iter();
        let mut call = |facts| {
            let (mut draft, step) = random.turned_down(facts, place, false);
            draft.lines.truncate(step + 1);
            draft.sheet_call()
        };
        facts.map(|facts| call(facts)).collect()
    })
}

/// The library's explanations beside its own sheets.
fn race_explanations<const N: usize>(steps: [usize; N], calls: &[Vec<SheetCall>; N]) -> [Times; N] {
    let mut sheet = [0; LONGEST_SHEET];
    race(
        steps,
        calls,
        |call| {
            black_box(library::explain(black_box(&call.text)));
        },
        |call| {
            black_box(library::sheet(black_box(&call.text), &mut sheet));
        },
    )
}

fn race_sheets(ordinary: bool) -> [Times; 4] {
    let calls = sheet_calls(ordinary);
    let [mut ours, mut theirs] = [[0; LONGEST_SHEET]; 2];
    for call in calls.iter().flatten() {
        let answer = library::sheet(&call.text, &mut ours);
        let expected = interpreter::sheet(&call.text, &mut theirs);
        assert_eq!((answer, ours), (expected, theirs), "{call}");
        assert_eq!(answer.refusal, 0, "{call}");
    }
    race(
        STEPS,
        &calls,
        |call| {
            black_box(library::sheet(black_box(&call.text), &mut ours));
        },
        |call| {
            black_box(interpreter::sheet(black_box(&call.text), &mut theirs));
        },
    )
}

/// Inputs, and steps of two doubles on them.
const INPUTS: usize = 4;
const SUMS: usize = 20;

/// The run of 20 sums, differences and products on numbers as a host has them, and the same with fmin in
/// place of each: A is any earlier step, B an input, so that nothing overflows.
struct SumsAndFmins {
    sums: RunCall,
    fmins: RunCall,
}

impl SumsAndFmins {
    fn new(random: &mut Random) -> SumsAndFmins {
        let input = Line::input(Kind::Double, ordinary_range(Kind::Double));
        let mut sums = vec![input; INPUTS];
        for step in INPUTS..INPUTS + SUMS {
            // Half of them on the step before, which they have to wait for.
            let a = match random.below(2) {
                0 => step - 1,
                _ => random.below(step as u64) as usize,
            };
            let b = random.below(INPUTS as u64) as usize;
            sums.push(Line::step(0x40 + (step % 3) as u8, a, b));
        }
        let fmin = |line: &Line| match line.opcode {
            0x40..=0x42 => Line {
                opcode: 0x20,
                ..*line
            },
            _ => *line,
        };
        let fmins = sums.iter().map(fmin).collect();
        let words: Vec<u64> = (0..INPUTS).map(|_| random.ordinary(Kind::Double)).collect();
        let [sums, fmins] = [sums, fmins].map(|lines| {
            let words = words.clone();
            Draft { lines, words }.run_call()
        });
        SumsAndFmins { sums, fmins }
    }
}

/// Runs of sums and products beside runs of fmin, both the library's.
fn race_sums() -> Times {
    let mut random = Random::new(44);
    let calls: Vec<_> = (0..RECIPES)
        .map(|_| SumsAndFmins::new(&mut random))
        .collect();
    let mut words = [0; INPUTS + SUMS];
    for call in calls.iter().flat_map(|pair| [&pair.sums, &pair.fmins]) {
        let answer = library::run(&call.text, &call.frame, &mut words);
        let expected = interpreter::run(&call.text, &call.frame, &mut words.clone());
        assert_eq!(answer, expected, "{call}");
        assert_eq!(answer.refusal, 0, "{call}");
    }
    let mut others = words;
    let [times] = race(
        [INPUTS + SUMS],
        &[calls],
        |pair| {
            let (text, frame) = (black_box(&pair.sums.text), black_box(&pair.sums.frame));
            black_box(library::run(text, frame, &mut words));
        },
        |pair| {
            let (text, frame) = (black_box(&pair.fmins.text), black_box(&pair.fmins.frame));
            black_box(library::run(text, frame, &mut others));
        },
    );
    times
}

/// Whether sums and products take no longer than they may, beside fmin.
fn are_summed_in_time() -> bool {
    let times = race_sums();
    println!(
        "a run of {SUMS} sums, differences and products takes {:.2} times one of {SUMS} fmin, {:.0} ns and {:.0} (at most {MOST_OF_FMIN})",
        times.ratio(),
        times.library,
        times.plain,
    );
    times.ratio() <= MOST_OF_FMIN
}

fn print(title: &str, times: &[Times; 4]) {
    println!("{title}");
    println!("           library                        plain interpreter              library /");
    println!("steps   ns a call   a step   a byte    ns a call   a step   a byte   interpreter");
    for times in times {
        let (a_step, a_byte) = (times.steps as f64, (text::LINE * times.steps) as f64);
        println!(
            "{:5} {:11.0} {:8.1} {:8.2} {:12.0} {:8.1} {:8.2} {:13.2}",
            times.steps,
            times.library,
            times.library / a_step,
            times.library / a_byte,
            times.plain,
            times.plain / a_step,
            times.plain / a_byte,
            times.ratio(),
        );
    }
}

/// Whether an explanation takes no longer than it may, beside the sheet.
fn is_explained_in_time(what: &str, times: &Times) -> bool {
    println!(
        "{what} of {} steps takes {:.2} times its sheet's time, {:.0} ns and {:.0} (at most {MOST_OF_A_SHEET})",
        times.steps,
        times.ratio(),
        times.library,
        times.plain,
    );
    times.ratio() <= MOST_OF_A_SHEET
}

fn main() -> ExitCode {
    if env::args().nth(1).as_deref() == Some("sums") {
        return told(!are_summed_in_time());
    }
    let mut missed = false;
    for (numbers, ordinary) in [
        ("numbers as a host has them", true),
        ("numbers of the tests", false),
    ] {
        print(&format!("runs, {numbers}"), &race_runs(ordinary));
        let sheets = race_sheets(ordinary);
        print(&format!("sheets, {numbers}"), &sheets);
        let [shortest, .., longest] = &sheets;
        let (ratio, growth) = (longest.ratio(), longest.of_a_step() / shortest.of_a_step());
        println!("128 steps take {ratio:.2} times the plain sheet's time (at most {MOST_TIMES})");
        println!("a step of 128 takes {growth:.2} times one of 16 (at most {MOST_GROWTH})");
        missed |= ratio > MOST_TIMES || growth > MOST_GROWTH;
        for times in race_explanations(STEPS, &sheet_calls(ordinary)) {
            missed |= !is_explained_in_time("an explanation", &times);
        }
    }
    let calls = turned_down_calls();
    for call in calls.iter().flatten() {
        let refusal = library::sheet(&call.text, &mut [0; LONGEST_SHEET]).refusal;
        assert!((20..=22).contains(&refusal), "{call}");
    }
    for times in race_explanations([3, 128], &calls) {
        missed |= !is_explained_in_time("turned down at the last, an explanation", &times);
    }
    missed |= !are_summed_in_time();
    told(missed)
}

fn told(missed: bool) -> ExitCode {
    if missed {
        println!("a target is missed");
        return ExitCode::FAILURE;
    }
    ExitCode::SUCCESS
}
