//! Recipes: the table of steps against document 01's, and the two ways of working values.

use estrenwind_tests::patterns::Random;
use estrenwind_tests::recipes::faults::damaged;
use estrenwind_tests::recipes::growing::grow_marked;
use estrenwind_tests::recipes::{Call, RunCall};
use estrenwind_tests::reference::natural::Natural;
use estrenwind_tests::reference::recipe::Kind::{self, Double, Whole};
use estrenwind_tests::reference::recipe::{Operation, Way, OPERATIONS};
use estrenwind_tests::reference::{short, whole, BINARY64};

/// "10 to 18 and 20 to 22 take doubles, 23 a double A and a whole B, 30 to 32 wholes. 10 to 18 and
/// 32 use A; 20 to 23, 30 and 31 use A and B; inputs use P and Q, constants P." W-204: "Recipe step 24
/// takes two doubles." W-208: "steps 40 add, 41 subtract, 42 multiply on doubles".
#[test]
fn steps_use_the_fields_that_document_01_says() {
    for operation in &OPERATIONS {
        let (kinds, fields): (&[Kind], [bool; 4]) = match operation.opcode {
            0x01 | 0x02 => (&[], [false, false, true, true]),
            0x03 | 0x04 => (&[], [false, false, true, false]),
            0x10..=0x18 => (&[Double], [true, false, false, false]),
            0x20..=0x22 | 0x24 | 0x40..=0x42 => (&[Double, Double], [true, true, false, false]),
            0x23 => (&[Double, Whole], [true, true, false, false]),
            0x30 | 0x31 => (&[Whole, Whole], [true, true, false, false]),
            0x32 => (&[Whole], [true, false, false, false]),
            opcode => panic!("{opcode:x} is no opcode"),
        };
        let used = [
            operation.uses_a(),
            operation.uses_b(),
            operation.uses_p(),
            operation.uses_q(),
        ];
        assert_eq!(operation.source.operands(), kinds, "{:x}", operation.opcode);
        assert_eq!(used, fields, "{:x}", operation.opcode);
    }
}

/// "Opcodes 02, 04, 18, 30 and 31 give whole numbers, every other one doubles."
#[test]
fn steps_give_the_kinds_that_document_01_says() {
    let rows = [
        0x01..=0x04,
        0x10..=0x18,
        0x20..=0x24,
        0x30..=0x32,
        0x40..=0x42,
    ];
    let opcodes: Vec<u8> = rows.into_iter().flatten().collect();
    for opcode in 0..=255 {
        let kind = Operation::of_opcode(opcode).map(|operation| operation.kind);
        let whole = [0x02, 0x04, 0x18, 0x30, 0x31].contains(&opcode);
        let expected = opcodes
            .contains(&opcode)
            .then_some(if whole { Whole } else { Double });
        assert_eq!(kind, expected, "{opcode:x}");
    }
}

/// Every whole number up to 2^53 is a double, and is the one that stands for it.
#[test]
fn whole_numbers_are_the_doubles_that_stand_for_them() {
    let mut random = Random::new(0x500);
    let mut wholes: Vec<i64> = (0..63)
        .flat_map(|n| [1i64 << n, (1 << n) - 1, -(1 << n)])
        .collect();
    wholes.extend((1i64 << 53) - 3..(1 << 53) + 4);
    wholes.extend(-(1i64 << 53) - 3..-(1 << 53) + 4);
    wholes.extend([0, i64::MAX, i64::MIN, i64::MIN + 1]);
    wholes.extend((0..100_000).map(|_| random.word() as i64 >> random.below(64)));
    for n in wholes {
        let answer = whole::to_double(&BINARY64, n);
        assert_eq!(short::whole::to_double(&BINARY64, n), answer, "{n}");
        assert_eq!(answer.refusal != 0, n.unsigned_abs() > 1 << 53, "{n}");
        if answer.refusal == 0 {
            let units = &Natural::from(n.unsigned_abs()) << BINARY64.one_log2();
            assert_eq!(BINARY64.magnitude(answer.words[0]), units, "{n}");
            assert_eq!(BINARY64.is_negative(answer.words[0]), n < 0, "{n}");
        }
    }
}

/// Of calls with every fault, with every pair of faults, and without one; of recipes in which zeros of
/// both signs meet, and of ones with many marks.
pub fn both_ways_give_the_same<C: Call>(seed: u64) {
    let check = |call: &C| {
        let [exact, short] = [Way::Exact, Way::Short].map(|way| call.reference(way));
        assert_eq!(exact, short, "{call}");
    };
    let mut random = Random::new(seed);
    for &first in C::REFUSALS {
        for &second in C::REFUSALS {
            for faults in [&[][..], &[first], &[first, second]] {
                for _ in 0..8 {
                    check(&damaged(&mut random, faults).0);
                }
            }
        }
    }
    for _ in 0..2_000 {
        check(&C::of(&random.meeting()));
        let plan = random.plan();
        check(&C::of(&grow_marked(&mut random, &plan).0));
    }
}

#[test]
fn both_ways_give_the_same_run() {
    both_ways_give_the_same::<RunCall>(0x501);
}
