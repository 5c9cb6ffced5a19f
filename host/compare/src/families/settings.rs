//! Settings within, at and beyond their limits, and at the edge of fitting.

use apart::Answer;

use super::craft::{fields, fits, k, shapes_and_largest, slack, zeros, Field, P};
use super::writer::writer_case;
use crate::cases::{accepted, accepted_in_full, refused, TicketCase, Visitor, WriterCase, Writing};
use crate::parts::{ticket_length, Parts};
use crate::setting::{Form, Setting};

/// The values to try in a number of the setting.
pub fn values(field: &Field) -> Vec<u32> {
    let mut values = vec![
        0,
        1,
        field.least.wrapping_sub(1),
        field.least,
        field.least + 1,
        field.greatest - 1,
        field.greatest,
        field.greatest + 1,
        // Where a byte, 16 bits, a signed number or p ends.
        255,
        256,
        257,
        65_535,
        65_536,
        65_537,
        1 << 30,
        P - 1,
        P,
        1 << 31,
        (1 << 31) + 1,
        u32::MAX - 1,
        u32::MAX,
    ];
    // What would be within the limits if the upper bits were dropped.
    values.extend([8, 16, 24, 31].map(|bits| field.least + (1 << bits)));
    values.sort_unstable();
    values.dedup();
    values
}

/// The refusal of a setting, by the limits and then by fitting.
pub fn refusal(setting: &Setting) -> Option<Answer> {
    match refusal_by_limits(setting) {
        Some(number) => Some(refused(number, 0)),
        None if !fits(setting) => Some(refused(3, 0)),
        None => None,
    }
}

/// The refusal of a setting by the limits, of which the lowest number decides, and
/// then by o, which is to be below α.
pub fn refusal_by_limits(setting: &Setting) -> Option<u32> {
    let outside = fields(setting.form())
        .iter()
        .filter(|field| {
            let number = *(field.of)(&mut setting.clone());
            number < field.least || field.greatest < number
        })
        .map(|field| field.refusal)
        .min();
    match outside {
        None if setting.rounding >= setting.scale => Some(19),
        outside => outside,
    }
}

/// A setting with nothing beside it and with a ticket, a list and operands that
/// match it, where they are not above this length. The ticket is the true one of
/// zeros.
pub fn visit_setting(visit: &mut Visitor, setting: Setting, longest: u128) {
    let refusal = refusal(&setting);
    visit.checks(&TicketCase {
        what: "no byte",
        setting,
        ticket: Vec::new(),
        list: Vec::new(),
        // A ticket without a record matches when two of the sizes are 0, and
        // such a setting is refused.
        expected: Some(refusal.unwrap_or(refused(4, 0))),
    });
    visit.write(&WriterCase {
        what: "no operand",
        setting,
        a: Vec::new(),
        b: Vec::new(),
        bias: Vec::new(),
        output: Vec::new(),
        expected: Some(Writing::Refusal(refusal.unwrap_or(refused(13, 0)))),
    });
    let numbers = u128::from(setting.vectors) * u128::from(setting.columns);
    if ticket_length(&setting) <= longest && numbers <= longest {
        let parts = zeros(&setting);
        let length = ticket_length(&setting) as usize;
        let what = "operands of zeros and an output that match";
        let mut written = writer_case(what, &setting, &parts, vec![0xC3; length]);
        if let Some(refusal) = refusal {
            written.expected = Some(Writing::Refusal(refusal));
        }
        visit.write(&written);
        let case = TicketCase {
            what: "a ticket of zeros and a list that match",
            setting,
            ticket: parts.ticket(&setting),
            list: vec![1; numbers as usize],
            expected: Some(refusal.unwrap_or_else(|| accepted(&setting))),
        };
        visit.challenge(&case);
        let in_full = refusal.unwrap_or_else(|| accepted_in_full(&setting));
        visit.full(case.what, &setting, &case.ticket, Some(in_full));
    }
}

/// Each number of the setting alone at every value.
pub fn limits(visit: &mut Visitor, form: Form) {
    for base in shapes_and_largest(form) {
        for field in fields(form) {
            for value in values(field) {
                let mut setting = base;
                *(field.of)(&mut setting) = value;
                visit_setting(visit, setting, 200_000);
            }
        }
    }
}

/// Two numbers of the setting at every pair of values, and then all of them at
/// once.
pub fn pairs_of_limits(visit: &mut Visitor, form: Form) {
    let fields = fields(form);
    for (index, first) in fields.iter().enumerate() {
        for second in &fields[index + 1..] {
            for one in values(first) {
                for two in values(second) {
                    let mut setting = k(form);
                    *(first.of)(&mut setting) = one;
                    *(second.of)(&mut setting) = two;
                    visit_setting(visit, setting, 2_000);
                }
            }
        }
    }
    for value in fields.iter().flat_map(values) {
        let mut setting = k(form);
        for field in fields {
            *(field.of)(&mut setting) = value;
        }
        visit_setting(visit, setting, 2_000);
    }
}

/// Scales on both sides of each condition of fitting. The tickets are true and
/// have the greatest sums that there are, so that the quotients reach the end of
/// their range where the first condition holds by nothing.
pub fn edge_of_fitting(visit: &mut Visitor, form: Form) {
    let mut bias_bounds = bias_bounds(form).iter().copied().cycle();
    for inner in [1, 2, 3, 31, 32, 63, 64] {
        for bound in [
            1, 2, 3, 8, 9, 181, 182, 255, 256, 1023, 1024, 4095, 4096, 32_766, 32_767,
        ] {
            for width in 1..=30 {
                let setting = Setting {
                    bias_bound: bias_bounds.next().expect("there is always a next one"),
                    ..Setting::from([1, inner, 1, 1, 2, bound, width])
                };
                for scale in scales_at_the_edge(&setting) {
                    visit_greatest_sums(visit, Setting { scale, ..setting });
                }
            }
        }
    }
}

/// Bounds of the bias that take turns with the settings, within the limits. The
/// last that fits at all is 1073676289, with α = 32767, v = 16 and m = T = 1.
pub fn bias_bounds(form: Form) -> &'static [Option<u32>] {
    match form {
        Form::Plain => &[None],
        Form::Bias => &[
            Some(0),
            Some(1),
            Some(1 << 24),
            Some(1000),
            Some(1 << 29),
            Some(65_535),
            Some(3 << 28),
            Some(2),
            Some(1_073_676_289),
            Some(1_234_567),
            Some(1_073_676_290),
            Some((1 << 30) - 1),
            Some(1 << 30),
        ],
    }
}

/// Within the limits: the scales around where m·T² + W + o + α - 1 ≤ 2^(v-1)·α
/// begins to hold, those around where 2^v·α < p ends, and the limits themselves.
fn scales_at_the_edge(setting: &Setting) -> Vec<u32> {
    let [m, t, p] = [setting.inner, setting.bound, P].map(i64::from);
    let [w, o] = [setting.greatest_bias(), setting.rounding].map(i64::from);
    let width = setting.width;
    // The first condition is m·T² + W + o - 1 ≤ (2^(v-1) - 1)·α; for v = 1 it does
    // not depend on α.
    let factor = (1 << (width - 1)) - 1;
    let first = if factor == 0 {
        2
    } else {
        (m * t * t + w + o - 1) / factor
    };
    let second = (p - 1) >> width;
    let mut scales: Vec<i64> = [first, second]
        .into_iter()
        .flat_map(|edge| edge - 2..=edge + 2)
        .chain([2, 3, 65_535, 65_536])
        .filter(|scale| (2..=65_536).contains(scale))
        .collect();
    scales.sort_unstable();
    scales.dedup();
    scales.into_iter().map(|scale| scale as u32).collect()
}

/// The three calls with the greatest sums under a setting of one row and one
/// column.
pub fn visit_greatest_sums(visit: &mut Visitor, setting: Setting) {
    let what = match slack(&setting) {
        0 => "the first condition holds by nothing",
        -1 => "the first condition fails by one",
        1 => "the first condition holds by one",
        _ => "near an edge of fitting",
    };
    let [bound, bias_bound] = [setting.bound, setting.greatest_bias()].map(i64::from);
    let refusal = refusal(&setting);
    for sign in [-1, 1] {
        let a = vec![bound; setting.inner as usize];
        let b = vec![sign * bound; setting.inner as usize];
        let parts = Parts::true_ones(&setting, &a, &b, &[sign * bias_bound]);
        let case = TicketCase {
            what,
            setting,
            ticket: parts.ticket(&setting),
            list: vec![P - 1],
            expected: Some(refusal.unwrap_or_else(|| accepted(&setting))),
        };
        visit.challenge(&case);
        let in_full = refusal.unwrap_or_else(|| accepted_in_full(&setting));
        visit.full(what, &setting, &case.ticket, Some(in_full));
        let mut written = writer_case(what, &setting, &parts, vec![0xC3; case.ticket.len()]);
        if let Some(refusal) = refusal {
            written.expected = Some(Writing::Refusal(refusal));
        }
        visit.write(&written);
    }
}

#[cfg(test)]
mod tests {
    use super::*;
    use crate::cases::Case;

    /// The family would be of no use without the cases that it is made for.
    #[test]
    fn the_edge_is_met_from_both_sides() {
        for form in [Form::Plain, Form::Bias] {
            let mut slacks = [0; 3];
            let mut by_second = [0; 2];
            let mut visit = |case: &Case| {
                let slack = slack(&case.setting);
                if (-1..=1).contains(&slack) {
                    slacks[(slack + 1) as usize] += 1;
                }
                if slack >= 0 {
                    by_second[usize::from(fits(&case.setting))] += 1;
                }
            };
            edge_of_fitting(&mut Visitor(&mut visit), form);
            assert!(slacks.iter().all(|&count| count > 20), "{slacks:?}");
            assert!(by_second.iter().all(|&count| count > 100), "{by_second:?}");
        }
    }
}
