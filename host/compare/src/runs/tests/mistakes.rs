//! Mistakes that both sides might make alike, each held to the answers that families state.

mod additions;
mod steps;

use apart::{run_step, Answer};

use super::*;
use crate::families::craft::sizes;
use additions::{ADDED, UNTESTED, VECTORS};
use steps::{ENDED, LISTS, PRODUCTS, ROWS, U};

/// The answer to a begin, changed.
fn of_begin(call: &Call, change: impl Fn(&Setting, &[u8], &[u32], &mut RunAnswer)) -> RunAnswer {
    let mut answer = apart(call);
    if let Call::Begin { setting, ticket, list } = call {
        change(setting, ticket, list, &mut answer);
    }
    answer
}

/// A vector that passes its tests, where n is within its limits.
fn right_vector(run: &Run) -> Vec<u32> {
    vec![1; run.setting.columns.min(32) as usize]
}

fn sizes_of(run: &Run) -> [usize; 4] {
    sizes(&Setting::plain(run.setting))
}

type Mistake = (&'static str, Side);

const BEGIN: [Mistake; 4] = [
    ("a row is made", |call| {
        of_begin(call, |_, ticket, _, answer| {
            if answer.mark == Mark::UnderWay {
                *answer = run_step(&answer.run, ticket);
            }
        })
    }),
    ("a refusal hands back the setting", |call| {
        of_begin(call, |setting, _, _, answer| {
            if answer.mark == Mark::Refused {
                answer.run.setting = setting.numbers().into();
            }
        })
    }),
    ("ones past the list", |call| {
        of_begin(call, |_, _, list, answer| {
            if answer.mark == Mark::UnderWay {
                answer.run.list[list.len()..].fill(1);
            }
        })
    }),
    ("zeros are taken", |call| {
        of_begin(call, |_, _, _, answer| {
            if answer.answer.number == 21 {
                answer.mark = Mark::UnderWay;
                answer.answer = Answer::from([0; 4]);
            }
        })
    }),
];

/// The families, each with the mistakes that it is made for.
fn held() -> Vec<(Cases, Vec<Mistake>)> {
    let of = |groups: &[&[Mistake]]| groups.concat();
    vec![
        (
            examples::examples,
            of(&[
                &BEGIN[1..],
                &ENDED,
                &U[..4],
                &ROWS[..4],
                &PRODUCTS,
                &LISTS[2..],
                &additions::ENDED,
                &ADDED,
                &VECTORS,
                &UNTESTED[1..],
            ]),
        ),
        (
            whole::small_sizes,
            of(&[&BEGIN[..1], &U[..1], &ROWS, &PRODUCTS, &ADDED[..2]]),
        ),
        (
            whole::caught_everywhere,
            of(&[&ROWS[..3], &ROWS[4..], &PRODUCTS, &ADDED[3..]]),
        ),
        (whole::hidden, of(&[&ROWS[..4], &ROWS[5..], &ADDED[..2]])),
        (begin::refusals, of(&[&BEGIN])),
        (begin::states, of(&[&BEGIN[..1], &BEGIN[2..]])),
        (states::places, of(&[&ENDED, &additions::ENDED, &PRODUCTS, &ADDED])),
        (states::list_lengths, of(&[&LISTS, &UNTESTED[1..]])),
        (states::list_numbers, of(&[&LISTS[..1], &ADDED[..3], &UNTESTED[1..]])),
        (states::products, of(&[&U])),
        (extremes::numbers, of(&[&U[..4]])),
        (lent::tickets, of(&[&ENDED[..1], &LISTS[3..]])),
        (lent::sequences, of(&[&U[..2], &ROWS[..1]])),
        (lent::vectors, of(&[&additions::ENDED, &VECTORS])),
        (refusals::limits, of(&[&UNTESTED[..1], &LISTS[3..]])),
        (refusals::pairs_of_limits, of(&[&UNTESTED[..1]])),
        (
            sets::several,
            of(&[&ENDED[..1], &LISTS[1..], &additions::ENDED[2..], &VECTORS, &UNTESTED]),
        ),
        (refusals::handed_back, of(&[&LISTS[3..], &VECTORS[3..], &UNTESTED])),
    ]
}

/// Answers are stated where both sides might err alike.
#[test]
fn the_same_mistake_on_both_sides_is_noticed() {
    let mut left = Vec::new();
    for (index, (cases, mut mistakes)) in held().into_iter().enumerate() {
        let mut visit = |case: &Case| {
            if let Some(stated) = &case.stated {
                mistakes.retain(|(_, side)| side(&case.call) == *stated);
            }
        };
        cases(&mut Visitor(&mut visit));
        left.extend(mistakes.into_iter().map(|(name, _)| (index, name)));
    }
    assert!(
        left.is_empty(),
        "families, and the mistakes that they do not notice: {left:?}"
    );
}
