//! The examples of the scope paper, with the answers that it states.

use apart::examples::{self, with_claims, B, TICKET};
use apart::make::residue;
use apart::Answer;

use super::craft::{self, set_value, K, P};
use super::writer;
use crate::cases::{refused, TicketCase, Visitor, WriterCase, Writing};
use crate::parts::Parts;
use crate::setting::{Form, Setting};

const ACCEPTED: Answer = Answer {
    number: 0,
    place: 0,
    row: 0,
    products: 12,
};

const CAUGHT: Answer = Answer {
    number: 12,
    place: 0,
    row: 0,
    products: 8,
};

/// ℓmn products.
const ACCEPTED_IN_FULL: Answer = Answer {
    number: 0,
    place: 0,
    row: 0,
    products: 8,
};

/// Case g.
const UNTRUE: Answer = Answer {
    number: 16,
    place: 0,
    row: 0,
    products: 2,
};

/// The true claims under K.
const QUOTIENTS: [i64; 4] = [-2, 3, 2, -1];
const REMAINDERS: [i64; 4] = [3, 4, 3, 8];

fn case_c() -> TicketCase {
    craft::case_c(Form::Plain)
}

fn writer_case_b(past: usize) -> WriterCase {
    writer::writer_case_b(Form::Plain, past)
}

/// The ticket of case d.
fn first_quotient_false() -> Vec<u8> {
    with_claims([-1, 3, 2, -1], REMAINDERS)
}

/// Case c with another value in one record.
fn value(what: &'static str, record: usize, value: u32, expected: Answer) -> TicketCase {
    let mut case = case_c();
    set_value(&mut case.ticket, record, value);
    TicketCase {
        what,
        expected: Some(expected),
        ..case
    }
}

/// The ticket of case c under another setting.
fn setting(what: &'static str, setting: Setting, number: u32) -> TicketCase {
    TicketCase {
        what,
        setting,
        expected: Some(refused(number, 0)),
        ..case_c()
    }
}

fn ticket(what: &'static str, ticket: Vec<u8>, list: [u32; 2], expected: Answer) -> TicketCase {
    TicketCase {
        what,
        setting: K,
        ticket,
        list: list.to_vec(),
        expected: Some(expected),
    }
}

/// The rows of the table, in order. Those of 1 to 3 are tried with the writer
/// too.
pub fn table(visit: &mut Visitor, _: Form) {
    visit.checks(&setting("K with n = 33", Setting { columns: 33, ..K }, 1));
    visit.checks(&setting("K with α = 1", Setting { scale: 1, ..K }, 2));
    visit.checks(&setting("K with v = 4", Setting { width: 4, ..K }, 3));
    visit.checks(&ticket("K, 0 bytes", Vec::new(), [1, 2], refused(4, 0)));
    let mut other_kind = case_c().ticket;
    other_kind[0] = 0x02;
    visit.checks(&ticket("record 0 begins 02", other_kind, [1, 2], refused(5, 0)));
    let mut p_in_record_0 = case_c().ticket;
    p_in_record_0[4..8].copy_from_slice(&[0xFF, 0xFF, 0xFF, 0x7F]);
    visit.checks(&ticket("FF FF FF 7F in record 0", p_in_record_0, [1, 2], refused(6, 0)));
    visit.checks(&value("entry -9 in record 0", 0, residue(-9), refused(7, 0)));
    visit.checks(&value("quotient 16 in record 8", 8, 16, refused(8, 8)));
    visit.checks(&value("10 in record 12", 12, 10, refused(9, 12)));
    visit.checks(&TicketCase {
        what: "K, 3 numbers",
        list: vec![1, 2, 3],
        expected: Some(refused(10, 0)),
        ..case_c()
    });
    visit.checks(&ticket("p at index 1", case_c().ticket, [1, P], refused(11, 1)));
    visit.checks(&ticket("case e", first_quotient_false(), [1, 5], CAUGHT));
    let short = WriterCase {
        a: vec![3, -2, 5],
        ..refusal("K, A of 3", K, refused(13, 0))
    };
    visit.write(&short);
    let nine = WriterCase {
        b: vec![9, 6, 7, -8],
        ..refusal("9 first in B", K, refused(14, 4))
    };
    visit.write(&nine);
    let short = WriterCase {
        output: vec![0xA5; 127],
        ..refusal("K, 127 bytes", K, refused(15, 0))
    };
    visit.write(&short);
    visit.full("case g", &K, &first_quotient_false(), Some(UNTRUE));
    for (what, setting, number) in [
        ("K with n = 33", Setting { columns: 33, ..K }, 1),
        ("K with α = 1", Setting { scale: 1, ..K }, 2),
        ("K with v = 4", Setting { width: 4, ..K }, 3),
    ] {
        visit.write(&refusal(what, setting, refused(number, 0)));
    }
}

/// The operands of case b under a setting that they are refused with.
fn refusal(what: &'static str, setting: Setting, answer: Answer) -> WriterCase {
    WriterCase {
        what,
        setting,
        expected: Some(Writing::Refusal(answer)),
        ..writer_case_b(0)
    }
}

/// The marked examples.
pub fn marked(visit: &mut Visitor, _: Form) {
    visit.checks(&ticket(
        "cases a and b",
        with_claims(QUOTIENTS, REMAINDERS),
        [1, 2],
        ACCEPTED,
    ));
    // Record 8 byte for byte as case b has it.
    let mut record_8 = case_c().ticket;
    record_8[64..72].copy_from_slice(&[0x03, 0x00, 0x00, 0x00, 0xFD, 0xFF, 0xFF, 0x7F]);
    visit.checks(&ticket("case b, record 8", record_8, [1, 2], ACCEPTED));
    // The writer's ticket for A and B, with an output of its length and a longer
    // one.
    for past in [0, 1, 100] {
        visit.write(&WriterCase {
            expected: Some(Writing::Ticket(TICKET.to_vec())),
            ..writer_case_b(past)
        });
    }
    visit.full("case b, the whole ticket", &K, &TICKET, Some(ACCEPTED_IN_FULL));
    visit.checks(&ticket("case b, the whole ticket", TICKET.to_vec(), [1, 2], ACCEPTED));
    visit.checks(&TicketCase {
        expected: Some(ACCEPTED),
        ..case_c()
    });
    visit.checks(&ticket("case d", first_quotient_false(), [0, 5], ACCEPTED));
    visit.checks(&ticket("case e", first_quotient_false(), [1, 5], CAUGHT));
    visit.full("case g", &K, &first_quotient_false(), Some(UNTRUE));
    let two_false = with_claims([-1, 4, 2, -1], REMAINDERS);
    visit.checks(&ticket(
        "case f, X = (1, p - 1)",
        two_false.clone(),
        [1, P - 1],
        ACCEPTED,
    ));
    visit.checks(&ticket("case f, X = (1, 1)", two_false, [1, 1], CAUGHT));
    visit.checks(&ticket(
        "case h",
        with_claims([-3, 3, 2, -1], [13, 4, 3, 8]),
        [1, 2],
        refused(9, 12),
    ));
    visit.checks(&setting("case i, T = 9", Setting { bound: 9, ..K }, 3));
    visit.checks(&ticket(
        "case i, entry -8",
        apart::true_ticket(&examples::K, &[-8, -2, 5, 4], &B),
        [1, 2],
        ACCEPTED,
    ));
    visit.checks(&value("case j, quotient -16", 8, residue(-16), CAUGHT));
    visit.checks(&value("case j, quotient 15", 8, residue(15), CAUGHT));
    visit.checks(&value("case j, quotient -17", 8, residue(-17), refused(8, 8)));
    // S = 1 here, and both sides of the claim are 1.
    let narrow = Setting::from([1, 1, 1, 1, 65_536, 1, 14]);
    let one = TicketCase {
        what: "case k, v = 14",
        setting: narrow,
        ticket: Parts::true_ones(&narrow, &[1], &[1], &[]).ticket(&narrow),
        list: vec![1],
        expected: Some(Answer {
            products: 3,
            ..ACCEPTED
        }),
    };
    visit.checks(&one);
    visit.checks(&TicketCase {
        what: "case k, v = 15",
        setting: Setting { width: 15, ..narrow },
        expected: Some(refused(3, 0)),
        ..one
    });
}
