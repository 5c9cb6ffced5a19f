//! What the comparison of quotes notices.

use std::collections::BTreeSet;

use digests::{Digest, Digests};

use super::*;
use crate::cases::{Call, Reply};
use crate::families::craft::k;

const APART: Sides = Sides {
    library: apart,
    apart,
    calls: cases::apart,
};

fn family(form: Form, cases: Cases) -> Family {
    Family {
        name: "a family".to_owned(),
        form,
        cases,
    }
}

/// The quote under K.
fn one(form: Form) -> Family {
    family(form, |visit, form| visit.quote("K", k(form)))
}

/// Some layers.
fn some_layers(form: Form) -> Family {
    family(form, layers::few)
}

/// One more in one of the five numbers.
fn changed(setting: &Setting, index: usize) -> Quote {
    let mut numbers = apart(setting).numbers();
    numbers[index] += 1;
    Quote::from(numbers)
}

fn one_product_more(setting: &Setting) -> Quote {
    changed(setting, 4)
}

fn report_on_file(outcome: &Outcome, text: &str) -> Result<String, String> {
    let mut digests = Digests::new("digests.txt", text, &[]).expect("no argument");
    outcome.report("a family", "quotes", &mut digests)
}

/// The line of a file that has the outcome.
fn line_of(outcome: &Outcome) -> String {
    format!("a family: {} {}\n", outcome.compared, outcome.digest)
}

#[test]
fn the_right_quote_passes() {
    for form in [Form::Plain, Form::Bias] {
        let outcome = compare(&one(form), &APART);
        assert_eq!((outcome.compared, outcome.differing), (1, 0));
        for each in Kind::ALL {
            assert_eq!(outcome.numbers.of(each, 0), u64::from(each == kind(form)));
        }
        let line = report_on_file(&outcome, &line_of(&outcome)).expect("no difference");
        assert!(line.starts_with("a family: 1 quotes, no difference, digest "), "{line}");
    }
}

#[test]
fn other_quotes_than_on_file_fail() {
    let outcome = compare(&one(Form::Plain), &APART);
    let line = line_of(&outcome);
    for other in [
        String::new(),
        line.replace(": 1 ", ": 2 "),
        line.replace(&outcome.digest.to_string(), "0"),
    ] {
        let report = report_on_file(&outcome, &other).expect_err("not on file");
        let begin = "a family: 1 quotes, no difference, but FAILED: expected ";
        assert!(report.starts_with(begin), "{report}");
    }
}

/// A comparison that could not fail would be no test.
#[test]
fn a_wrong_quote_is_noticed() {
    let wrong = Sides {
        library: one_product_more,
        ..APART
    };
    for (form, shown) in [
        (
            Form::Plain,
            "a family: 1 quotes, 1 with a wrong reply, the first is
  case 0, quote: K
  setting: rows 2, inner 2, columns 2, vectors 1, scale 10, bound 8, width 5, rounding 0
  stated:  0 5 128 8 12
  library: 0 5 128 8 13
  apart:   0 5 128 8 12",
        ),
        (
            Form::Bias,
            "a family: 1 quotes, 1 with a wrong reply, the first is
  case 0, bias quote: K
  setting: rows 2, inner 2, columns 2, vectors 1, scale 10, bound 8, width 5, rounding 0, bias bound 23
  stated:  0 5 160 8 16
  library: 0 5 160 8 17
  apart:   0 5 160 8 16",
        ),
    ] {
        let outcome = compare(&one(form), &wrong);
        let report = report_on_file(&outcome, &line_of(&outcome));
        assert_eq!(report.expect_err("the quotes differ"), shown);
    }
}

#[test]
fn the_same_wrong_quote_on_both_sides_is_noticed() {
    let wrong = Sides {
        library: one_product_more,
        apart: one_product_more,
        ..APART
    };
    for form in [Form::Plain, Form::Bias] {
        let outcome = compare(&one(form), &wrong);
        assert_eq!((outcome.compared, outcome.differing), (1, 1));
    }
}

#[test]
fn the_digest_is_of_the_five_numbers_of_the_library() {
    let wrong = Sides {
        library: one_product_more,
        ..APART
    };
    let mut right = Digest::default();
    right.update(&[0, 0, 0, 0, 5, 0, 0, 0, 128, 0, 0, 0, 8, 0, 0, 0, 13, 0, 0, 0]);
    assert_eq!(compare(&one(Form::Plain), &wrong).digest, right);
}

#[test]
fn a_changed_quote_changes_the_digest() {
    let sides: [Side; 6] = [
        apart,
        |setting| changed(setting, 0),
        |setting| changed(setting, 1),
        |setting| changed(setting, 2),
        |setting| changed(setting, 3),
        |setting| changed(setting, 4),
    ];
    let digests: BTreeSet<String> = sides
        .iter()
        .map(|&library| {
            compare(&one(Form::Plain), &Sides { library, ..APART })
                .digest
                .to_string()
        })
        .collect();
    assert_eq!(digests.len(), sides.len());
}

#[test]
fn a_family_without_a_quote_fails() {
    let outcome = compare(&family(Form::Plain, |_, _| ()), &APART);
    assert!(report_on_file(&outcome, &line_of(&outcome)).is_err());
}

#[test]
fn layers_that_keep_their_quotes_pass() {
    for form in [Form::Plain, Form::Bias] {
        let outcome = compare(&some_layers(form), &APART);
        assert_eq!(outcome.differing, 0, "{:?}", outcome.first);
        assert!(outcome.compared > 10);
    }
}

/// One product more of the calls that `is_wrong` is true of.
fn wrong_answer(case: &cases::Case, is_wrong: fn(&Call) -> bool) -> Reply {
    let mut reply = cases::apart(case);
    if is_wrong(&case.call) && reply.answer.number == 0 {
        reply.answer.products += 1;
    }
    reply
}

/// A writer that takes every width from 1 on.
fn any_width(case: &cases::Case) -> Reply {
    let mut reply = cases::apart(case);
    if reply.answer.number == 3 {
        reply.answer.number = 0;
    }
    reply
}

#[test]
fn an_answer_other_than_quoted_is_noticed() {
    let wrong: [(cases::Side, &str, &str); 4] = [
        (
            |case| wrong_answer(case, |call| matches!(call, Call::Writer { .. })),
            "\n  writer with width ",
            ", and by the quote 0 ",
        ),
        (
            |case| wrong_answer(case, |call| matches!(call, Call::Full { .. })),
            "\n  full check with width ",
            ", and by the quote 0 0 0 ",
        ),
        (
            |case| wrong_answer(case, |call| matches!(call, Call::Challenge { .. })),
            "\n  challenge check with width ",
            ", and by the quote 0 0 0 ",
        ),
        (
            any_width,
            "\n  writer with width ",
            ": 0 0 0 0, and by the quote 3 0 0 0",
        ),
    ];
    for (calls, begin, end) in wrong {
        for form in [Form::Plain, Form::Bias] {
            let outcome = compare(&some_layers(form), &Sides { calls, ..APART });
            assert!(outcome.differing > 0);
            let first = outcome.first.expect("the first of them");
            assert!(first.contains(begin) && first.contains(end), "{first}");
        }
    }
}

/// A wrong quote is noticed by what is built for it alone.
#[test]
fn a_quote_other_than_answered_is_noticed() {
    let one_width_less = |setting: &Setting| {
        let quote = apart(setting);
        Quote {
            width: quote.width - 1,
            ..quote
        }
    };
    let sides: [Side; 5] = [
        one_width_less,
        |setting| changed(setting, 1),
        |setting| changed(setting, 2),
        |setting| changed(setting, 3),
        |setting| changed(setting, 4),
    ];
    for side in sides {
        for form in [Form::Plain, Form::Bias] {
            let mut cases = 0;
            let mut broken = 0;
            let mut visit = |case: &Case| {
                let quote = side(&case.setting);
                let layer = case.layer.expect("every case has one");
                cases += 1;
                broken += u32::from(layer.first_broken(&case.setting, &quote, cases::apart).is_some());
            };
            layers::few(&mut Visitor(&mut visit), form);
            assert!(cases > 10 && broken == cases, "{broken} of {cases}");
        }
    }
}

#[test]
fn every_family_has_a_name_of_its_own() {
    let all = all();
    let names: BTreeSet<&str> = all.iter().map(|family| family.name.as_str()).collect();
    assert_eq!(names.len(), all.len());
}
