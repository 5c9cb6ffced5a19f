//! The residue calls: each on all pairs of corner values and on random inputs,
//! and the power of two on exponents of its own.

use digests::{Digest, Digests};

use crate::inputs;
use crate::outcome::{agreed, Report};

/// What both sides answer to one input. A call of one argument passes over the
/// second number.
struct Answers {
    library: i64,
    apart: i64,
}

pub struct Call {
    name: &'static str,
    answers: fn(u32, u32) -> Answers,
}

/// A call of the same name on both sides, its arguments made from x and y.
macro_rules! call {
    ($name:ident, |$x:ident, $y:ident| $($argument:expr),+) => {
        Call {
            name: stringify!($name),
            answers: |$x, $y| Answers {
                library: i64::from(dikdumar::residue::$name($($argument),+)),
                apart: i64::from(apart::$name($($argument),+)),
            },
        }
    };
}

pub const CALLS: [Call; 7] = [
    call!(reduce, |x, _y| x),
    call!(add, |x, y| x, y),
    call!(subtract, |x, y| x, y),
    call!(multiply, |x, y| x, y),
    call!(from_signed, |x, _y| x as i32),
    call!(to_signed, |x, _y| x),
    POWER_OF_TWO,
];

const POWER_OF_TWO: Call = call!(power_of_two, |x, _y| x);

pub const RANDOM: usize = 1_000_000;

/// A call, and what it is compared on.
pub struct Family {
    pub name: &'static str,
    pub call: &'static Call,
    pub inputs: Box<dyn Iterator<Item = (u32, u32)>>,
}

pub fn all() -> Vec<Family> {
    let every_call = (1..).zip(&CALLS).map(|(seed, call)| Family {
        name: call.name,
        call,
        inputs: Box::new(inputs::pairs().chain(inputs::random(seed, RANDOM))),
    });
    let exponents = Family {
        name: "exponents",
        call: &POWER_OF_TWO,
        inputs: Box::new(inputs::exponents().map(|k| (k, 0))),
    };
    every_call.chain([exponents]).collect()
}

/// What the comparison of a family found.
pub struct Outcome {
    pub compared: u64,
    /// The first input at which the sides differ, and what they say there.
    differs: Option<(u32, u32, Answers)>,
    /// Of all numbers that the library gave.
    digest: Digest,
}

pub fn compare(call: &Call, inputs: impl Iterator<Item = (u32, u32)>) -> Outcome {
    let mut outcome = Outcome {
        compared: 0,
        differs: None,
        digest: Digest::default(),
    };
    for (x, y) in inputs {
        let answers = (call.answers)(x, y);
        outcome.compared += 1;
        outcome.digest.update(&answers.library.to_le_bytes());
        if answers.library != answers.apart && outcome.differs.is_none() {
            outcome.differs = Some((x, y, answers));
        }
    }
    outcome
}

impl Outcome {
    pub fn report(&self, name: &str, digests: &mut Digests) -> Report {
        let (compared, digest) = (self.compared, self.digest);
        let on_file = digests.take(name, compared, digest);
        match self.differs {
            None => agreed(format!("{name}: {compared} inputs, no difference"), digest, on_file),
            Some((x, y, Answers { library, apart })) => Err(format!(
                "{name}: at {x}, {y} the library says {library}, the implementation written apart {apart}"
            )),
        }
    }
}

#[cfg(test)]
mod tests {
    use super::*;

    /// A comparison that could not fail would be no test.
    #[test]
    fn a_wrong_answer_is_noticed() {
        let one_off = Call {
            name: "add",
            answers: |x, y| Answers {
                library: i64::from(x) + i64::from(y),
                apart: i64::from(apart::add(x, y)),
            },
        };
        let outcome = compare(&one_off, [(1, 2), (u32::MAX, 0), (3, 4)].into_iter());
        assert_eq!(outcome.compared, 3);
        let differs = outcome.differs.expect("2^32 - 1 is not reduced");
        assert_eq!((differs.0, differs.1), (u32::MAX, 0));
    }

    #[test]
    fn the_digest_is_of_the_answers_of_the_library() {
        let negated = Call {
            name: "negated",
            answers: |x, _y| Answers {
                library: -i64::from(x),
                apart: 0,
            },
        };
        let digest = |inputs: &[u32]| compare(&negated, inputs.iter().map(|&x| (x, 0))).digest;
        let mut numbers = Digest::default();
        numbers.update(&[0xFF, 0xFF, 0xFF, 0xFF, 0xFF, 0xFF, 0xFF, 0xFF]);
        numbers.update(&[0x00, 0xFF, 0xFF, 0xFF, 0xFF, 0xFF, 0xFF, 0xFF]);
        assert_eq!(digest(&[1, 256]), numbers);
        for other in [[1, 257], [2, 256], [256, 1]] {
            assert_ne!(digest(&other), numbers);
        }
    }

    #[test]
    fn other_answers_than_on_file_fail() {
        let [call, ..] = &CALLS;
        let outcome = compare(call, [(1, 0), (2, 0)].into_iter());
        let line = format!("{}: 2 {}\n", call.name, outcome.digest);
        let changed = line.replace(": 2 ", ": 3 ");
        for (text, right) in [(line.as_str(), true), (&changed, false), ("", false)] {
            let mut digests = Digests::new("digests.txt", text, &[]).expect("no argument");
            assert_eq!(outcome.report(call.name, &mut digests).is_ok(), right);
        }
    }

    /// A power that is right up to 2^16 and takes another exponent for one above.
    #[test]
    fn an_exponent_taken_for_another_is_noticed() {
        let noticed = |taken: &dyn Fn(u32) -> u32| {
            let wrong = |k| apart::power_of_two(taken(k)) != apart::power_of_two(k);
            inputs::exponents().any(|k| k > 1 << 16 && wrong(k))
        };
        assert!(!noticed(&|k| k));
        for bits in 16..32 {
            assert!(noticed(&|k| k % (1 << bits)), "the low {bits} bits");
        }
        assert!(noticed(&|k| k.wrapping_add(1)), "one more");
        assert!(noticed(&|k| (k as i32).unsigned_abs()), "the absolute value");
    }

    #[test]
    fn every_call_is_compared_on_a_million_inputs() {
        assert!(inputs::random(1, RANDOM).count() >= 1_000_000);
    }
}
