//! What the comparison of runs notices.

mod mistakes;

use std::collections::BTreeSet;

use digests::Digests;

use super::sides::{apart, Side};
use super::*;
use crate::cases::Reply;

const APART: Sides = Sides {
    library: (apart, cases::apart),
    apart: (apart, cases::apart),
};

fn family(cases: Cases) -> Family {
    Family {
        name: "a family of runs",
        cases,
    }
}

/// The last row of case c, by a step.
fn one() -> Family {
    family(|visit| {
        let mut index = 0;
        let mut take = |case: &Case| {
            if index == 2 {
                visit.case(case.what, case.call, case.stated, true);
            }
            index += 1;
        };
        examples::examples(&mut Visitor(&mut take));
    })
}

/// One more in one of the numbers, and another mark where the index is 0; then the four of
/// the answer, and those of the state.
fn changed(call: &Call, index: usize) -> RunAnswer {
    let mut told = apart(call);
    match index.checked_sub(1) {
        None => told.mark = Mark::UnderWay,
        Some(index) => *word(&mut told, index) += 1,
    }
    told
}

fn word(told: &mut RunAnswer, index: usize) -> &mut u32 {
    let (run, answer) = (&mut told.run, &mut told.answer);
    let setting = &mut run.setting;
    let first = [
        &mut answer.number,
        &mut answer.place,
        &mut answer.row,
        &mut answer.products,
        &mut setting.rows,
        &mut setting.inner,
        &mut setting.columns,
        &mut setting.vectors,
        &mut setting.scale,
        &mut setting.bound,
        &mut setting.width,
        &mut setting.rounding,
    ];
    let places = [&mut run.list_length, &mut run.vector, &mut run.row];
    let mut words = first
        .into_iter()
        .chain(&mut run.list)
        .chain(places)
        .chain(&mut run.u)
        .chain([&mut run.caught]);
    words.nth(index).expect("there are so many")
}

/// The mark, four numbers and 332 of the state.
const WORDS: usize = 1 + 4 + 332;

/// What the library gives where it is wrong in each of them.
const CHANGED: [Side; 8] = [
    |call| changed(call, 0),
    |call| changed(call, 4),
    |call| changed(call, 5),
    |call| changed(call, 5 + 8 + 255),
    |call| changed(call, 5 + 8 + 256),
    |call| changed(call, 5 + 8 + 256 + 2),
    |call| changed(call, 5 + 8 + 256 + 3 + 63),
    |call| changed(call, WORDS - 1),
];

fn with_library(library: Side) -> Sides {
    Sides {
        library: (library, cases::apart),
        ..APART
    }
}

fn line_of(outcome: &Outcome) -> String {
    format!("a family of runs: {} {}\n", outcome.compared, outcome.digest)
}

fn report_on_file(outcome: &Outcome, text: &str) -> Result<String, String> {
    let mut digests = Digests::new("digests.txt", text, &[]).expect("no argument");
    outcome.report("a family of runs", "calls", &mut digests)
}

#[test]
fn the_right_answer_passes() {
    let outcome = compare(&one(), &APART);
    assert_eq!((outcome.compared, outcome.differing), (1, 0));
    for kind in Kind::ALL {
        assert_eq!(outcome.numbers.of(kind, 0), u64::from(kind == Kind::RunStep));
        let complete = outcome.numbers.of_mark(kind, Mark::Complete);
        assert_eq!(complete, u64::from(kind == Kind::RunStep));
    }
    let line = report_on_file(&outcome, &line_of(&outcome)).expect("no difference");
    assert!(
        line.starts_with("a family of runs: 1 calls, no difference, digest "),
        "{line}"
    );
}

/// A comparison that could not fail would be no test.
#[test]
fn a_wrong_answer_is_noticed() {
    let lines = [
        "under way, 0 0 0 12",
        "complete, 0 0 0 13",
        "complete, 0 0 0 12, number 0 of the setting is 3 and not 2",
        "complete, 0 0 0 12, list[255] is 1 and not 0",
        "complete, 0 0 0 12, list_length is 3 and not 2",
        "complete, 0 0 0 12, row is 1 and not 0",
        "complete, 0 0 0 12, u[63] is 1 and not 0",
        "complete, 0 0 0 12, caught is 1 and not 0",
    ];
    for (library, shown) in CHANGED.into_iter().zip(lines) {
        let outcome = compare(&one(), &with_library(library));
        let report = report_on_file(&outcome, &line_of(&outcome)).expect_err("the answers differ");
        let begin = "a family of runs: 1 calls, 1 with a wrong reply, the first is
  case 0, run step: case c, row 1
  setting: rows 2, inner 2, columns 2, vectors 1, scale 10, bound 8, width 5, rounding 0
  list: 2 numbers [1, 2]
  vector 0, row 1, caught 0, u [11, 2147483638]
  ticket: 128 bytes
";
        assert!(report.starts_with(begin), "{report}");
        let end = format!(
            "
  stated:  complete, 0 0 0 12
  library: {shown}
  apart:   complete, 0 0 0 12"
        );
        assert!(report.contains(&end), "{report}");
    }
}

#[test]
fn the_same_wrong_answer_on_both_sides_is_noticed() {
    for side in CHANGED {
        let both = (side, cases::apart as cases::Side);
        let outcome = compare(
            &one(),
            &Sides {
                library: both,
                apart: both,
            },
        );
        assert_eq!((outcome.compared, outcome.differing), (1, 1));
    }
}

/// Every number of the answer and of the state counts.
#[test]
fn a_changed_answer_changes_the_digest() {
    let digest = |told: &RunAnswer| {
        let mut digest = Digest::default();
        digest_answer(&mut digest, told);
        digest.to_string()
    };
    let mut digests = BTreeSet::new();
    let mut visit = |case: &Case| {
        digests.insert(digest(&apart(&case.call)));
        digests.extend((0..WORDS).map(|index| digest(&changed(&case.call, index))));
    };
    (one().cases)(&mut Visitor(&mut visit));
    assert_eq!(digests.len(), 1 + WORDS);
}

#[test]
fn the_digest_is_of_the_mark_the_numbers_and_the_state() {
    let mut right = Digest::default();
    let mut numbers = vec![2, 0, 0, 0, 12, 2, 2, 2, 1, 10, 8, 5, 0];
    numbers.extend([1, 2].into_iter().chain([0; 254]));
    numbers.extend([2, 1, 0]);
    numbers.extend([11, 2_147_483_638].into_iter().chain([0; 62]));
    numbers.push(0);
    assert_eq!(numbers.len(), WORDS);
    for number in numbers {
        right.update(&u32::to_le_bytes(number));
    }
    assert_eq!(compare(&one(), &APART).digest, right);
}

#[test]
fn other_answers_than_on_file_fail() {
    let outcome = compare(&one(), &APART);
    let line = line_of(&outcome);
    let other = compare(&one(), &with_library(CHANGED[7]));
    for text in [String::new(), line.replace(": 1 ", ": 2 "), line_of(&other)] {
        let report = report_on_file(&outcome, &text).expect_err("not on file");
        let begin = "a family of runs: 1 calls, no difference, but FAILED: expected ";
        assert!(report.starts_with(begin), "{report}");
    }
}

#[test]
fn a_family_without_a_call_fails() {
    let outcome = compare(&family(|_| ()), &APART);
    assert!(report_on_file(&outcome, &line_of(&outcome)).is_err());
}

/// On both sides, and only where a run ends.
#[test]
fn a_challenge_check_with_another_answer_is_noticed() {
    let one_product_more: cases::Side = |case| {
        let mut reply = cases::apart(case);
        reply.answer.products += 1;
        Reply::from(reply.answer)
    };
    let of_library = Sides {
        library: (apart, one_product_more),
        ..APART
    };
    let of_apart = Sides {
        apart: (apart, one_product_more),
        ..APART
    };
    for sides in [of_library, of_apart] {
        let outcome = compare(&one(), &sides);
        assert_eq!((outcome.compared, outcome.differing), (1, 1));
        let first = outcome.first.expect("it differs");
        let end = "\n  the run ends with 0 0 0 12, and the challenge check says 0 0 0 13";
        assert!(first.ends_with(end), "{first}");
        let other = compare(&family(examples::examples), &sides);
        assert_eq!(other.differing, 0, "{:?}", other.first);
    }
}

#[test]
fn every_family_has_a_name_of_its_own_that_says_run() {
    let all = all();
    let names: BTreeSet<&str> = all.iter().map(|family| family.name).collect();
    assert_eq!(names.len(), all.len());
    assert!(names.iter().all(|name| name.contains("run")));
}
