//! Entries, quotients and remainders at the ends of their ranges and just
//! outside.

use apart::make::residue;

use super::craft::{
    by_sums, claims_case, counts, full_by_sums, in_form, list_without_zero, set_value, shapes, true_parts,
    visit_claims, LARGEST, P,
};
use crate::cases::{refused, TicketCase, Visitor};
use crate::generator::Generator;
use crate::parts::Parts;
use crate::setting::{Form, Setting};

/// Settings at the ends of what fits, and the small shapes.
pub fn settings(form: Form) -> impl Iterator<Item = Setting> {
    let of_two = |scale, bound, width| in_form(Setting::from([2, 1, 2, 2, scale, bound, width]), form);
    let narrow_and_wide = [
        // v = 1: the quotients are -1 and 0.
        of_two(2, 1, 1),
        of_two(65_536, 1, 1),
        of_two(65_536, 1, 14),
        of_two(2, 23_170, 29),
        of_two(3, 28_377, 29),
        of_two(65_535, 32_766, 15),
    ];
    // With a bias, the largest W that fits at all.
    let widest_bias = (form == Form::Bias).then(|| of_two(32_767, 1, 16));
    shapes(form).into_iter().chain(narrow_and_wide).chain(widest_bias)
}

pub fn entries(visit: &mut Visitor, form: Form) {
    let mut generator = Generator::new(601);
    let widest = Setting {
        scale: 7,
        bound: 3_547,
        width: 28,
        ..LARGEST
    };
    let large = [LARGEST, widest].map(|setting| in_form(setting, form));
    for setting in settings(form).chain(large) {
        visit_entries(visit, &mut generator, &setting);
    }
}

/// Every entry of A and B at T or -T, and of the bias at W or -W, in patterns that
/// make the sums the largest and the smallest and change between.
pub fn visit_entries(visit: &mut Visitor, generator: &mut Generator, setting: &Setting) {
    let [of_a, of_b, of_bias, _] = counts(setting);
    let [bound, bias_bound] = [setting.bound, setting.greatest_bias()].map(i64::from);
    let patterns: [fn(usize) -> i64; 4] = [
        |_| 1,
        |_| -1,
        |index| if index % 2 == 0 { 1 } else { -1 },
        |index| if index % 3 == 0 { -1 } else { 1 },
    ];
    for in_a in patterns {
        for in_b in patterns {
            let a: Vec<i64> = (0..of_a).map(|index| bound * in_a(index)).collect();
            let b: Vec<i64> = (0..of_b).map(|index| bound * in_b(index)).collect();
            let bias: Vec<i64> = (0..of_bias)
                .map(|index| bias_bound * in_a(index) * in_b(index))
                .collect();
            let parts = Parts::true_ones(setting, &a, &b, &bias);
            let list = list_without_zero(generator, setting);
            visit_claims(visit, "entries T and -T", setting, &parts, &list);
            visit.challenge(&claims_case(
                "entries T and -T, list of p - 1",
                setting,
                &parts,
                &vec![P - 1; list.len()],
            ));
            visit_extreme_claims(visit, setting, &parts, &list);
        }
    }
}

/// Every claim at an end of its range: quotients -2^(v-1) and 2^(v-1) - 1,
/// remainders 0 and α - 1.
fn visit_extreme_claims(visit: &mut Visitor, setting: &Setting, parts: &Parts, list: &[u32]) {
    let half = 1 << (setting.width - 1);
    for quotient in [-half, half - 1] {
        for remainder in [0, i64::from(setting.scale) - 1] {
            let mut parts = parts.clone();
            parts.quotients.fill(quotient);
            parts.remainders.fill(remainder);
            visit_claims(visit, "claims at their ends", setting, &parts, list);
        }
    }
}

pub fn values(visit: &mut Visitor, form: Form) {
    let mut generator = Generator::new(602);
    for setting in settings(form) {
        visit_values(visit, &mut generator, &setting);
    }
}

/// In every record each value at an end of a range, and next to it.
pub fn visit_values(visit: &mut Visitor, generator: &mut Generator, setting: &Setting) {
    let right = true_parts(generator, setting);
    let list = list_without_zero(generator, setting);
    let mut case = TicketCase {
        what: "an extreme value",
        setting: *setting,
        ticket: right.ticket(setting),
        list,
        expected: None,
    };
    let [a, b, bias, claims] = counts(setting);
    let [bound, bias_bound] = [setting.bound, setting.greatest_bias()].map(i64::from);
    let alpha = i64::from(setting.scale);
    let half = 1 << (setting.width - 1);
    let mut ends = vec![0, bound, -bound, half, -half, 2 * half, -2 * half, alpha, -alpha];
    if setting.form() == Form::Bias {
        ends.extend([bias_bound, -bias_bound]);
    }
    let near = ends.iter().flat_map(|&end| end - 2..=end + 2);
    let middle = i64::from(P / 2);
    let entries: Vec<i64> = near.chain(-middle..=-middle + 1).chain(middle - 1..=middle).collect();
    for record in 0..case.ticket.len() / 8 {
        let former = case.ticket.clone();
        for &entry in &entries {
            // The same record in the parts, and whether it is in range.
            let mut parts = right.clone();
            let (place, in_range, number) = if record < a {
                (&mut parts.a[record], entry.abs() <= bound, 7)
            } else if record < a + b {
                (&mut parts.b[record - a], entry.abs() <= bound, 7)
            } else if record < a + b + bias {
                (&mut parts.bias[record - a - b], entry.abs() <= bias_bound, 18)
            } else if record < a + b + bias + claims {
                let place = &mut parts.quotients[record - a - b - bias];
                (place, (-half..half).contains(&entry), 8)
            } else {
                let place = &mut parts.remainders[record - a - b - bias - claims];
                (place, (0..alpha).contains(&entry), 9)
            };
            *place = entry;
            set_value(&mut case.ticket, record, residue(entry));
            let (by_list, in_full) = if in_range {
                (by_sums(setting, &parts, &case.list), full_by_sums(setting, &parts))
            } else {
                (refused(number, record), refused(number, record))
            };
            case.expected = Some(by_list);
            visit.challenge(&case);
            visit.full(case.what, setting, &case.ticket, Some(in_full));
        }
        for value in [P, P + 1, 1 << 31, 2 * (P - 1), 2 * P, u32::MAX] {
            set_value(&mut case.ticket, record, value);
            case.expected = Some(refused(6, record));
            visit.checks(&case);
        }
        case.ticket = former;
    }
}
