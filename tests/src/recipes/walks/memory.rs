//! The lent memory.

use crate::patterns::Random;
use crate::recipes::comparison::check;
use crate::recipes::{Call, Draft};
use crate::reference::recipe::Way;

/// A recipe that is answered over memory of these lengths, if it has what it needs: the rest keeps
/// what it had.
pub fn of_lengths<C: Call>(draft: &Draft, needed: usize, lengths: impl Iterator<Item = usize>) {
    let mut call = C::of(draft);
    for lent in lengths {
        call.lend(lent);
        let outcome = check(Way::Short, &call);
        let refusal = if lent < needed { 40 } else { 0 };
        assert_eq!(outcome.refusal(), refusal, "{lent} of {needed}");
        let written = if refusal == 0 { needed } else { 0 };
        let (before, rest) = (C::BEFORE, C::BEFORE + written);
        let filled = call.filled();
        assert_eq!(outcome.memory[..before], filled[..before]);
        assert_eq!(outcome.memory[rest..], filled[rest..]);
    }
}

/// What was written before the refusal would show in the memory of each of these.
pub fn a_step_refused_last_of_all_leaves_nothing<C: Call>(seed: u64) {
    let mut random = Random::new(seed);
    for number in [20, 21, 22] {
        let mut met = 0;
        for _ in 0..2_000 {
            let plan = random.plan();
            let plan = random.with_refusing(plan, &[number]);
            let (draft, refusing) = (C::GROW)(&mut random, &plan);
            if refusing == [(plan.steps - 1, number)] {
                let call = C::of(&draft);
                let outcome = check(Way::Short, &call);
                assert_eq!(outcome.refusal(), number);
                assert_eq!(outcome.memory, call.filled());
                met += 1;
            }
        }
        assert!(met > 100, "{number}: {met}");
    }
}

/// A call reads what it is given and keeps nothing: another in between changes no answer.
pub fn nothing_is_kept_from_the_call_before<C: Call>(seed: u64) {
    let mut random = Random::new(seed);
    let calls: Vec<C> = (0..300)
        .map(|_| {
            let plan = random.plan();
            C::of(&(C::GROW)(&mut random, &plan).0)
        })
        .collect();
    let first: Vec<_> = calls.iter().map(|call| check(Way::Short, call)).collect();
    let second: Vec<_> = calls
        .iter()
        .rev()
        .map(|call| check(Way::Short, call))
        .collect();
    assert!(first.iter().eq(second.iter().rev()));
}
