//! Examples under K with a rounding number, worked out by hand.

use apart::examples::{A, B, ROUNDED_BIAS, ROUNDED_BIAS_TICKET, ROUNDED_TICKET};
use apart::Answer;

use crate::cases::{refused, TicketCase, Visitor, WriterCase, Writing};
use crate::families::craft::{K, P};
use crate::parts::Parts;
use crate::setting::{Form, Setting};

/// An o, and the quotients and remainders with it.
type Claims = (u32, [i64; 4], [i64; 4]);

/// The sums of A times B are -17, 34, 23 and -2.
const CLAIMS: [Claims; 5] = [
    (0, [-2, 3, 2, -1], [3, 4, 3, 8]),
    (1, [-2, 3, 2, -1], [4, 5, 4, 9]),
    (2, [-2, 3, 2, 0], [5, 6, 5, 0]),
    (5, [-2, 3, 2, 0], [8, 9, 8, 3]),
    (9, [-1, 4, 3, 0], [2, 3, 2, 7]),
];

/// With the bias (-4, 18), (-18, 5) they are -21, 52, 5 and 3.
const CLAIMS_WITH_BIAS: [Claims; 4] = [
    (0, [-3, 5, 0, 0], [9, 2, 5, 3]),
    (1, [-2, 5, 0, 0], [0, 3, 6, 4]),
    (4, [-2, 5, 0, 0], [3, 6, 9, 7]),
    (5, [-2, 5, 1, 0], [4, 7, 0, 8]),
];

/// K with an o, for bias tickets with W = 18, the largest that fits with o = 5.
fn k_with(form: Form, rounding: u32) -> Setting {
    let bias_bound = match form {
        Form::Plain => None,
        Form::Bias => Some(18),
    };
    Setting {
        rounding,
        bias_bound,
        ..K
    }
}

fn bias(form: Form) -> Vec<i64> {
    match form {
        Form::Plain => Vec::new(),
        Form::Bias => ROUNDED_BIAS.to_vec(),
    }
}

fn ticket(form: Form, quotients: [i64; 4], remainders: [i64; 4]) -> Vec<u8> {
    let parts = Parts {
        a: A.to_vec(),
        b: B.to_vec(),
        bias: bias(form),
        quotients: quotients.to_vec(),
        remainders: remainders.to_vec(),
    };
    parts.ticket(&k_with(form, 0))
}

/// The operands under a setting, with an output of the ticket's length.
fn written(what: &'static str, setting: Setting, expected: Writing) -> WriterCase {
    let operand = |entries: &[i64]| entries.iter().map(|&entry| entry as i32).collect();
    let form = setting.form();
    WriterCase {
        what,
        setting,
        a: operand(&A),
        b: operand(&B),
        bias: operand(&bias(form)),
        output: vec![0xA5; whole(form).len()],
        expected: Some(expected),
    }
}

/// The ticket with o = 5, byte for byte.
fn whole(form: Form) -> &'static [u8] {
    match form {
        Form::Plain => &ROUNDED_TICKET,
        Form::Bias => &ROUNDED_BIAS_TICKET,
    }
}

pub fn examples(visit: &mut Visitor, form: Form) {
    let nearest = k_with(form, 5);
    visit.write(&written("o = 5", nearest, Writing::Ticket(whole(form).to_vec())));
    let claims: &[Claims] = match form {
        Form::Plain => &CLAIMS,
        Form::Bias => &CLAIMS_WITH_BIAS,
    };
    for &(of_ticket, quotients, remainders) in claims {
        let ticket = ticket(form, quotients, remainders);
        let right = k_with(form, of_ticket);
        visit.write(&written("the o of the ticket", right, Writing::Ticket(ticket.clone())));
        for &(of_setting, ..) in claims {
            visit_under(visit, &k_with(form, of_setting), &ticket, of_setting == of_ticket);
        }
    }
    refusals(visit, form);
}

/// The ticket of an o under the setting of that o or of another. There every claim is
/// off by as much, which (1, p - 1) cancels, and (0, 5) does not. (0, 0) is refused
/// under both.
fn visit_under(visit: &mut Visitor, setting: &Setting, ticket: &[u8], is_right: bool) {
    let (accepted, caught) = match setting.form() {
        Form::Plain => ([0, 0, 0, 12], [12, 0, 0, 8]),
        Form::Bias => ([0, 0, 0, 16], [12, 0, 0, 10]),
    };
    let off = if is_right { accepted } else { caught };
    for (list, expected) in [
        ([1, 2], off),
        ([1, P - 1], accepted),
        ([0, 5], off),
        ([0, 0], [21, 0, 0, 0]),
    ] {
        visit.challenge(&TicketCase {
            what: "the ticket of an o",
            setting: *setting,
            ticket: ticket.to_vec(),
            list: list.to_vec(),
            expected: Some(Answer::from(expected)),
        });
    }
    let in_full = if is_right { [0, 0, 0, 8] } else { [16, 0, 0, 2] };
    visit.full("the ticket of an o", setting, ticket, Some(Answer::from(in_full)));
}

/// The refusals by 19, those that stand before it and those after it, by all three
/// calls.
fn refusals(visit: &mut Visitor, form: Form) {
    let k = k_with(form, 10);
    let of_20 = Setting {
        scale: 20,
        width: 4,
        bias_bound: k.bias_bound.map(|_| 0),
        ..k
    };
    let mut refusals = vec![
        ("o = 10", k, 19),
        ("o = 11", k_with(form, 11), 19),
        ("o = 256 + 5", k_with(form, 261), 19),
        ("o = 2^16 + 5", k_with(form, 65_541), 19),
        ("o = p", k_with(form, P), 19),
        ("o = 2^31", k_with(form, 1 << 31), 19),
        ("o = 2^32 - 1", k_with(form, u32::MAX), 19),
        ("o = 10, n = 33", Setting { columns: 33, ..k }, 1),
        ("o = 10, s = 0", Setting { vectors: 0, ..k }, 1),
        ("o = 10, α = 1", Setting { scale: 1, ..k }, 2),
        ("o = 10, v = 31", Setting { width: 31, ..k }, 2),
        ("o = 10, T = 9, which does not fit", Setting { bound: 9, ..k }, 19),
        ("o = 10, v = 4, which does not fit", Setting { width: 4, ..k }, 19),
        (
            "o = 5, v = 4",
            Setting {
                width: 4,
                ..k_with(form, 5)
            },
            3,
        ),
        // 2·64 + o + 19 is at most 160 up to o = 13.
        ("α = 20, v = 4, o = 14", Setting { rounding: 14, ..of_20 }, 3),
        ("α = 20, v = 4, o = 20", Setting { rounding: 20, ..of_20 }, 19),
    ];
    if form == Form::Bias {
        let beyond = (1 << 30) + 1;
        let with_bound = |setting, bias_bound| Setting {
            bias_bound: Some(bias_bound),
            ..setting
        };
        refusals.extend([
            ("o = 10, W = 2^30 + 1", with_bound(k, beyond), 17),
            (
                "o = 2^32 - 1, W = 2^30 + 1",
                with_bound(k_with(form, u32::MAX), beyond),
                17,
            ),
            ("o = 10, W = 2^30, which does not fit", with_bound(k, beyond - 1), 19),
            ("o = 5, W = 19", with_bound(k_with(form, 5), 19), 3),
            ("o = 6, W = 18", k_with(form, 6), 3),
            ("o = 9, W = 15", with_bound(k_with(form, 9), 15), 3),
        ]);
    }
    for (what, setting, number) in refusals {
        let refusal = refused(number, 0);
        visit.checks(&TicketCase {
            what,
            setting,
            ticket: whole(form).to_vec(),
            list: vec![1, 2],
            expected: Some(refusal),
        });
        visit.write(&written(what, setting, Writing::Refusal(refusal)));
    }
    let fits = Setting { rounding: 13, ..of_20 };
    visit.checks(&TicketCase {
        what: "α = 20, v = 4, o = 13, and no byte",
        setting: fits,
        ticket: Vec::new(),
        list: vec![1, 2],
        expected: Some(refused(4, 0)),
    });
}

#[cfg(test)]
mod tests {
    use super::*;

    /// The bytes of the program written apart are those of the claims here.
    #[test]
    fn the_whole_tickets_are_those_of_o_5() {
        for (form, claims) in [(Form::Plain, &CLAIMS[3]), (Form::Bias, &CLAIMS_WITH_BIAS[3])] {
            let &(rounding, quotients, remainders) = claims;
            assert_eq!(
                (rounding, ticket(form, quotients, remainders)),
                (5, whole(form).to_vec())
            );
        }
    }

    #[test]
    fn the_claims_are_those_of_the_sums() {
        for (form, claims) in [(Form::Plain, &CLAIMS[..]), (Form::Bias, &CLAIMS_WITH_BIAS)] {
            for &(rounding, quotients, remainders) in claims {
                let parts = Parts::true_ones(&k_with(form, rounding), &A, &B, &bias(form));
                assert_eq!(
                    (parts.quotients, parts.remainders),
                    (quotients.to_vec(), remainders.to_vec())
                );
            }
        }
    }
}
