//! Entries, claims, list numbers and numbers of u at the ends of their ranges.

use apart::Run;

use super::craft::{state, Lent};
use super::Visitor;
use crate::families::craft::{counts, LARGEST, P};
use crate::families::extremes::settings;
use crate::generator::Generator;
use crate::parts::Parts;
use crate::setting::{Form, Setting};

/// Signs of the entries, which make the sums the largest and the smallest and change
/// between.
const SIGNS: [fn(usize) -> i64; 3] = [|_| 1, |_| -1, |index| if index % 2 == 0 { 1 } else { -1 }];

/// Every entry at T or -T, every list number at one end or in the middle, with true claims
/// and with claims at their ends, and every number of u right or at an end.
pub fn numbers(visit: &mut Visitor) {
    let mut generator = Generator::new(1371);
    let wide = Setting {
        rows: 2,
        vectors: 1,
        ..LARGEST
    };
    let widest = Setting {
        scale: 7,
        bound: 3_547,
        width: 28,
        ..wide
    };
    for setting in settings(Form::Plain).chain([wide, widest]) {
        let [of_a, of_b, ..] = counts(&setting);
        let entries = |count, sign: fn(usize) -> i64| -> Vec<i64> {
            let bound = i64::from(setting.bound);
            (0..count).map(|index| bound * sign(index)).collect()
        };
        for in_a in SIGNS {
            for in_b in SIGNS {
                let parts = Parts::true_ones(&setting, &entries(of_a, in_a), &entries(of_b, in_b), &[]);
                for parts in with_extreme_claims(&setting, parts) {
                    visit_numbers(visit, &mut generator, &setting, &parts);
                }
            }
        }
    }
}

/// The numbers with their own claims, and with all claims at each end of their ranges.
fn with_extreme_claims(setting: &Setting, parts: Parts) -> Vec<Parts> {
    let half = 1 << (setting.width - 1);
    let mut made = vec![parts];
    for quotient in [-half, half - 1] {
        for remainder in [0, i64::from(setting.scale) - 1] {
            let mut parts = made[0].clone();
            parts.quotients.fill(quotient);
            parts.remainders.fill(remainder);
            made.push(parts);
        }
    }
    made
}

fn visit_numbers(visit: &mut Visitor, generator: &mut Generator, setting: &Setting, parts: &Parts) {
    let ticket = Lent::of(setting, parts);
    let count = setting.vectors * setting.columns;
    for number in [1, P / 2, P / 2 + 1, P - 1] {
        let list = vec![number; count as usize];
        for row in [0, setting.rows - 1] {
            let run = state(generator, setting, parts, &list, [0, row]);
            visit.step("B times the vector", &run, &ticket);
            let beyond = run.u.map(|number| number.checked_add(P).unwrap_or(number));
            visit.step("p more", &Run { u: beyond, ..run }, &ticket);
            for number in [0, P - 1, P, u32::MAX] {
                let u = [number; 64];
                visit.step("one number over and over", &Run { u, ..run }, &ticket);
            }
        }
    }
}
