//! Whole runs: "If the same ticket is lent throughout and each state handed in as
//! the run last handed it back, the answer that ends the run is that of an
//! ordinary check whose list is the final one, with s its count."

use super::tests::{answers_to, refusal, P32};
use super::*;
use crate::challenge_check;
use crate::examples::{with_claims, K, TICKET};
use crate::make::{true_ticket, Parts};

/// A ticket, the vectors that may be added to its runs, and up to how many
/// vectors.
struct Runs<'a> {
    ticket: &'a [u8],
    vectors: &'a [&'a [u32]],
    most: u32,
}

impl Runs<'_> {
    /// Follows every run from here on, with each vector or none added before each
    /// step, and compares each end. `products` are those of the rows made so far,
    /// counted row by row. Gives how many runs there are, and how many are caught.
    fn follow(&self, last: &RunAnswer, products: u32) -> [u32; 2] {
        let RunAnswer { run, mark, answer } = last;
        let Setting {
            inner,
            columns,
            vectors,
            ..
        } = run.setting;
        assert_eq!(run.list_length, vectors * columns);
        if *mark != Mark::UnderWay {
            let list = &run.list[..run.list_length as usize];
            assert_eq!(*answer, challenge_check(&run.setting, self.ticket, list));
            assert_eq!(answer.products, products);
            assert_eq!(*mark == Mark::Caught, answer.number == 12);
            assert_eq!(*mark == Mark::Complete, answer.number == 0);
            assert_eq!(run_step(run, self.ticket), *last);
            assert_eq!(run_add(run, self.vectors[0]), refusal(*run, 22, 0));
            return [1, run.caught];
        }
        assert_eq!(*answer, Answer::from([0, run.vector, run.row, products]));
        let of_row = columns + inner + if run.row == 0 { inner * columns } else { 0 };
        let mut count = self.follow(&run_step(run, self.ticket), products + of_row);
        if vectors < self.most {
            for vector in self.vectors {
                let longer = run_add(run, vector);
                let end = run.list_length as usize;
                assert_eq!(longer.run.setting.vectors, vectors + 1);
                assert_eq!(longer.run.list[..end], run.list[..end]);
                assert_eq!(longer.run.list[end..end + columns as usize], **vector);
                let [runs, caught] = self.follow(&longer, products);
                count = [count[0] + runs, count[1] + caught];
            }
        }
        count
    }

    fn follow_all(&self, setting: &Setting, list: &[u32]) -> [u32; 2] {
        let begun = run_begin(setting, self.ticket, list);
        assert_eq!(begun.mark, Mark::UnderWay);
        self.follow(&begun, 0)
    }
}

#[test]
fn every_run_of_a_true_ticket_is_complete() {
    let vectors: [&[u32]; 3] = [&[1, 2], &[0, 5], &[P32 - 1, P32 - 1]];
    let runs = Runs {
        ticket: &TICKET,
        vectors: &vectors,
        most: 4,
    };
    // Addition j comes after at most 2j - 1 steps, and none before the one before
    // it: 1, 2, 7 and 30 ways for 0 to 3 additions, each of one of 3 vectors.
    for first in vectors {
        assert_eq!(runs.follow_all(&K, first), [1 + 2 * 3 + 7 * 9 + 30 * 27, 0]);
    }
}

#[test]
fn every_run_of_a_false_ticket() {
    let vectors: [&[u32]; 3] = [&[0, 5], &[5, 0], &[1, P32 - 1]];
    // False in row 0, in row 1, in the first or in the last column, and in both
    // columns of one row with 1 more each.
    for quotients in [
        [-1, 3, 2, -1],
        [-2, 4, 2, -1],
        [-2, 3, 3, -1],
        [-2, 3, 2, 0],
        [-1, 4, 2, -1],
        [-2, 3, 3, 0],
    ] {
        let ticket = with_claims(quotients, [3, 4, 3, 8]);
        let runs = Runs {
            ticket: &ticket,
            vectors: &vectors,
            most: 4,
        };
        let counts = vectors.map(|first| runs.follow_all(&K, first));
        // Some are caught and some are not.
        assert!(counts.iter().any(|[count, caught]| caught < count));
        assert!(counts.iter().any(|[_, caught]| *caught > 0));
    }
}

#[test]
fn every_run_up_to_eight_vectors() {
    // ℓ = 1, m = 1, n = 2 and S = (4, -6): one row to a vector.
    let setting = Setting { rows: 1, inner: 1, ..K };
    let parts = Parts::true_ones(&setting, &[2], &[2, -3]);
    let mut false_parts = parts.clone();
    false_parts.remainders[1] += 1;
    let count_with = |parts: &Parts, vector: &[u32]| {
        let runs = Runs {
            ticket: &parts.ticket(&setting),
            vectors: &[vector],
            most: 8,
        };
        runs.follow_all(&setting, &[7, 0])
    };
    // Addition j comes after at most j - 1 steps: the numbers of Catalan.
    let count = 1 + 1 + 2 + 5 + 14 + 42 + 132 + 429;
    assert_eq!(count_with(&parts, &[7, 0]), [count, 0]);
    assert_eq!(count_with(&parts, &[7, 1]), [count, 0]);
    // The false column is not asked for.
    assert_eq!(count_with(&false_parts, &[7, 0]), [count, 0]);
    // It is, once there is an addition.
    let [count, caught] = count_with(&false_parts, &[7, 1]);
    assert_eq!(count - caught, 1);
}

#[test]
fn every_run_of_other_shapes() {
    for [l, m, n] in [[3, 1, 1], [1, 3, 2], [2, 1, 3], [3, 2, 1]] {
        let setting = Setting::from([l, m, n, 2, 10, 6, 5]);
        let a: Vec<i64> = (0..i64::from(l * m)).map(|k| 5 - 2 * k).collect();
        let b: Vec<i64> = (0..i64::from(m * n)).map(|k| k - 3).collect();
        let parts = Parts::true_ones(&setting, &a, &b);
        let first: Vec<u32> = (0..2 * n).map(|k| k + 1).collect();
        let ones = vec![1; n as usize];
        let mut lone = vec![0; n as usize];
        lone[0] = P32 - 1;
        for changed in 0..=parts.quotients.len() {
            let mut parts = parts.clone();
            if let Some(quotient) = parts.quotients.get_mut(changed) {
                *quotient += 1;
            }
            let ticket = parts.ticket(&setting);
            let runs = Runs {
                ticket: &ticket,
                vectors: &[&ones, &lone],
                most: 4,
            };
            let [count, caught] = runs.follow_all(&setting, &first);
            // Each number of the first vectors is above 0, so they catch every
            // untrue claim.
            let expected = if changed == parts.quotients.len() { 0 } else { count };
            assert_eq!(caught, expected);
        }
    }
}

#[test]
fn the_largest_run() {
    // S = 64 everywhere; 64 + 9 is below 160.
    let setting = Setting::from([32, 64, 32, 8, 10, 1, 5]);
    let ticket = true_ticket(&setting, &[1; 2048], &[1; 2048]);
    let list: Vec<u32> = (0..256).map(|k| P32 - 1 - k).collect();
    let answers = answers_to(&setting, &ticket, &list);
    assert_eq!(answers.len(), 257);
    // mn + ℓn + ℓm = 5120, mn = 2048 and n + m = 96.
    for (done, given) in answers.iter().enumerate().take(256) {
        let [t, row] = [done as u32 / 32, done as u32 % 32];
        let of_vector = if row == 0 { 0 } else { 2048 + 96 * row };
        assert_eq!(given.answer, Answer::from([0, t, row, 5120 * t + of_vector]));
    }
    assert_eq!(answers[256].mark, Mark::Complete);
    assert_eq!(answers[256].answer, Answer::from([0, 0, 0, 40_960]));

    // False in the last place, which the last vector alone asks for.
    let mut parts = Parts::true_ones(&setting, &[1; 2048], &[1; 2048]);
    parts.quotients[1023] -= 1;
    let ticket = parts.ticket(&setting);
    let list: Vec<u32> = (0..256).map(|k| if k % 32 == 31 && k < 255 { 0 } else { 1 }).collect();
    let answers = answers_to(&setting, &ticket, &list);
    assert_eq!(answers.len(), 257);
    assert_eq!(answers[256].mark, Mark::Caught);
    assert_eq!(answers[256].answer, Answer::from([12, 7, 31, 40_960]));
    assert_eq!(answers[256].answer, challenge_check(&setting, &ticket, &list));
}
