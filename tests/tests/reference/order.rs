//! fmin, fmax and nextafter.

use crate::counting::{Counted, PAIRED};
use estrenwind_tests::answer::Answer;
use estrenwind_tests::reference::{order, short, Class, Format};
use std::cmp::Ordering;

/// The numbers with the infinities at the ends.
fn value(counted: &Counted, x: u64) -> i128 {
    match (
        counted.index(x) == counted.infinity(),
        counted.is_negative(x),
    ) {
        (true, false) => i128::MAX,
        (true, true) => i128::MIN,
        (false, _) => counted.value(x),
    }
}

#[test]
fn the_order_is_numeric() {
    for format in PAIRED {
        let counted = Counted::new(&format);
        let numbers = || counted.patterns().filter(|&x| counted.is_number(x));
        for x in numbers() {
            for y in numbers() {
                let expected = value(&counted, x).cmp(&value(&counted, y));
                let order = order::compare(&format, x, y);
                assert_eq!(order, expected, "{format:?} {x:x} {y:x}");
            }
        }
    }
}

/// Every number's pattern from -Inf to +Inf, with -0 right before +0 (W-202): those with a sign, by
/// falling magnitude, and then those without one, by rising magnitude.
fn row(counted: &Counted) -> Vec<u64> {
    let magnitudes = 0..=counted.infinity();
    let negative = magnitudes.clone().rev();
    let negative = negative.map(|index| counted.signed(index, true));
    let positive = magnitudes.map(|index| counted.signed(index, false));
    negative.chain(positive).collect()
}

#[test]
fn the_order_of_fmin_and_fmax_has_minus_zero_before_plus_zero() {
    for format in PAIRED {
        let counted = Counted::new(&format);
        let row = row(&counted);
        for (i, &x) in row.iter().enumerate() {
            for (j, &y) in row.iter().enumerate() {
                let order = order::compare_zeros_apart(&format, x, y);
                assert_eq!(order, i.cmp(&j), "{format:?} {x:x} {y:x}");
            }
        }
    }
}

type Choice = fn(&Format, u64, u64) -> u64;

/// Holds fmin and fmax to what is expected of each pair of numbers, and to document 01's NaNs.
fn choose_one_of_two(
    [fmin, fmax]: [Choice; 2],
    of_numbers: impl Fn(&Counted, u64, u64) -> [u64; 2],
) {
    for format in PAIRED {
        let counted = Counted::new(&format);
        for x in counted.patterns() {
            for y in counted.patterns() {
                let [least, greatest] = match (counted.is_number(x), counted.is_number(y)) {
                    (false, false) => [format.quieted(x); 2],
                    (false, true) => [y; 2],
                    (true, false) => [x; 2],
                    (true, true) => of_numbers(&counted, x, y),
                };
                let case = || format!("{format:?} {x:x} {y:x}");
                assert_eq!(fmin(&format, x, y), least, "fmin {}", case());
                assert_eq!(fmax(&format, x, y), greatest, "fmax {}", case());
            }
        }
    }
}

/// W-202: "fmin takes -0 as below +0, and fmax likewise, in whichever order they come".
#[test]
fn fmin_and_fmax_choose_one_of_two() {
    choose_one_of_two([order::fmin, order::fmax], |counted, x, y| {
        let (a, b) = (value(counted, x), value(counted, y));
        match (a.cmp(&b), counted.is_negative(x)) {
            (Ordering::Less, _) => [x, y],
            (Ordering::Greater, _) => [y, x],
            // The same pattern twice, or two zeros: x is the lower one where it has the sign.
            (Ordering::Equal, true) => [x, y],
            (Ordering::Equal, false) => [y, x],
        }
    });
}

/// Document 01 without W-202: "Equal operands give the first."
#[test]
fn the_rule_before_gave_the_first_of_equal_operands() {
    use short::first_of_equal::{fmax, fmin};
    choose_one_of_two([fmin, fmax], |counted, x, y| {
        match value(counted, x).cmp(&value(counted, y)) {
            Ordering::Less => [x, y],
            Ordering::Equal => [x, x],
            Ordering::Greater => [y, x],
        }
    });
}

/// On numbers: of more than two, the answer is the same in whichever order and grouping they come.
#[test]
fn fmin_and_fmax_are_associative_and_commute() {
    for format in &PAIRED[..2] {
        let row = row(&Counted::new(format));
        for choice in [order::fmin, order::fmax] {
            let choice = |x, y| choice(format, x, y);
            for &x in &row {
                for &y in &row {
                    let both = choice(x, y);
                    assert_eq!(both, choice(y, x), "{format:?} {x:x} {y:x}");
                    for &z in &row {
                        let grouped = [choice(both, z), choice(x, choice(y, z))];
                        assert_eq!(grouped[0], grouped[1], "{format:?} {x:x} {y:x} {z:x}");
                    }
                }
            }
        }
    }
}

/// The neighbour is found in the row of all numbers: the least above x, or the greatest below.
#[test]
fn nextafter_gives_the_next_in_the_row_of_all_numbers() {
    for format in PAIRED {
        let counted = Counted::new(&format);
        let numbers = counted.patterns().filter(|&x| counted.is_number(x));
        let mut row: Vec<i128> = numbers.map(|x| value(&counted, x)).collect();
        row.sort();
        row.dedup();
        for x in counted.patterns() {
            for y in counted.patterns() {
                let case = || format!("{format:?} {x:x} {y:x}");
                let answer = order::nextafter(&format, x, y);
                if !counted.is_number(x) || !counted.is_number(y) {
                    let first = if counted.is_number(x) { y } else { x };
                    assert_eq!(answer, Answer::word(format.quieted(first)), "{}", case());
                    continue;
                }
                let (a, b) = (value(&counted, x), value(&counted, y));
                let place = row.binary_search(&a).unwrap();
                let next = match a.cmp(&b) {
                    Ordering::Equal => {
                        assert_eq!(answer, Answer::word(y), "{}", case());
                        continue;
                    }
                    Ordering::Less => row[place + 1],
                    Ordering::Greater => row[place - 1],
                };
                let finite = format.classify(x) != Class::Infinite;
                let infinite = next == i128::MAX || next == i128::MIN;
                let word = if infinite {
                    counted.signed(counted.infinity(), next < 0)
                } else {
                    counted.pattern(next, counted.is_negative(x))
                };
                let refusal = if finite && infinite { 3 } else { 0 };
                assert_eq!(answer, Answer::refused(refusal, word), "{}", case());
            }
        }
    }
}
