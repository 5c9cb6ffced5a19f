//! The cases: a call of a check or of a writer with what is handed to it, the
//! reply of both sides, and the reply that the rules state.

use apart::{Answer, Mark};

use crate::parts::ticket_length;
use crate::setting::{Form, Setting, Taken};

/// The calls that are compared on families: those that cases are made for, the
/// quotes, and those of runs.
#[derive(Clone, Copy, Debug, PartialEq, Eq)]
pub enum Kind {
    Challenge,
    Full,
    Writer,
    BiasChallenge,
    BiasFull,
    BiasWriter,
    Quote,
    BiasQuote,
    RunBegin,
    RunStep,
    RunAdd,
}

impl Kind {
    pub const ALL: [Kind; 11] = [
        Kind::Challenge,
        Kind::Full,
        Kind::Writer,
        Kind::BiasChallenge,
        Kind::BiasFull,
        Kind::BiasWriter,
        Kind::Quote,
        Kind::BiasQuote,
        Kind::RunBegin,
        Kind::RunStep,
        Kind::RunAdd,
    ];

    pub fn name(self) -> &'static str {
        match self {
            Kind::Challenge => "challenge check",
            Kind::Full => "full check",
            Kind::Writer => "writer",
            Kind::BiasChallenge => "bias challenge check",
            Kind::BiasFull => "bias full check",
            Kind::BiasWriter => "bias writer",
            Kind::Quote => "quote",
            Kind::BiasQuote => "bias quote",
            Kind::RunBegin => "run begin",
            Kind::RunStep => "run step",
            Kind::RunAdd => "run addition",
        }
    }

    /// The numbers that the call answers with.
    pub fn numbers(self) -> &'static [u32] {
        match self {
            Kind::Challenge => &[0, 1, 2, 3, 4, 5, 6, 7, 8, 9, 10, 11, 12, 19, 21],
            Kind::Full => &[0, 1, 2, 3, 4, 5, 6, 7, 8, 9, 16, 19],
            Kind::Writer => &[0, 1, 2, 3, 13, 14, 15, 19],
            Kind::BiasChallenge => &[0, 1, 2, 3, 4, 5, 6, 7, 8, 9, 10, 11, 12, 17, 18, 19, 21],
            Kind::BiasFull => &[0, 1, 2, 3, 4, 5, 6, 7, 8, 9, 16, 17, 18, 19],
            Kind::BiasWriter => &[0, 1, 2, 3, 13, 14, 15, 17, 18, 19],
            Kind::Quote => &[0, 1, 2, 19, 20],
            Kind::BiasQuote => &[0, 1, 2, 17, 19, 20],
            Kind::RunBegin => &[0, 1, 2, 3, 4, 5, 6, 7, 8, 9, 10, 11, 19, 21],
            Kind::RunStep => &[0, 1, 2, 3, 4, 5, 6, 7, 8, 9, 10, 11, 12, 19, 21],
            Kind::RunAdd => &[0, 1, 2, 3, 10, 11, 19, 21, 22],
        }
    }

    /// The marks that the call answers with, where it is one of a run.
    pub fn marks(self) -> &'static [Mark] {
        match self {
            Kind::RunStep => &[Mark::UnderWay, Mark::Caught, Mark::Complete, Mark::Refused],
            Kind::RunBegin | Kind::RunAdd => &[Mark::UnderWay, Mark::Refused],
            _ => &[],
        }
    }
}

pub fn mark_name(mark: Mark) -> &'static str {
    match mark {
        Mark::UnderWay => "under way",
        Mark::Caught => "caught",
        Mark::Complete => "complete",
        Mark::Refused => "refused",
    }
}

/// A call, with what is handed to it beside the setting. The setting says whether
/// it is the call for plain tickets or that for bias tickets.
#[derive(Clone, Copy, Debug)]
pub enum Call<'a> {
    Challenge {
        ticket: &'a [u8],
        list: &'a [u32],
    },
    Full {
        ticket: &'a [u8],
    },
    Writer {
        a: &'a [i32],
        b: &'a [i32],
        /// Empty for a plain ticket.
        bias: &'a [i32],
        /// The output as it is before the call.
        output: &'a [u8],
    },
}

/// A call and, where it is stated, the reply to it.
#[derive(Debug)]
pub struct Case<'a> {
    /// Which case of its family it is.
    pub what: &'static str,
    pub setting: Setting,
    pub call: Call<'a>,
    /// The reply where the rules state it or it follows from how the case was
    /// made. Both sides are held to it.
    pub expected: Option<Reply>,
}

impl Case<'_> {
    pub fn kind(&self) -> Kind {
        match (self.call, self.setting.form()) {
            (Call::Challenge { .. }, Form::Plain) => Kind::Challenge,
            (Call::Full { .. }, Form::Plain) => Kind::Full,
            (Call::Writer { .. }, Form::Plain) => Kind::Writer,
            (Call::Challenge { .. }, Form::Bias) => Kind::BiasChallenge,
            (Call::Full { .. }, Form::Bias) => Kind::BiasFull,
            (Call::Writer { .. }, Form::Bias) => Kind::BiasWriter,
        }
    }
}

/// What comes back from a call.
#[derive(Clone, Debug, PartialEq, Eq)]
pub struct Reply {
    pub answer: Answer,
    /// After a call of a writer its output, between bytes that were not lent; after
    /// a check nothing.
    pub buffer: Vec<u8>,
}

impl Reply {
    /// The whole output of a writer, and of a check nothing.
    pub fn output(&self) -> &[u8] {
        let end = self.buffer.len().saturating_sub(GUARD.len());
        self.buffer.get(GUARD.len()..end).unwrap_or_default()
    }
}

impl From<Answer> for Reply {
    /// The reply of a check.
    fn from(answer: Answer) -> Reply {
        Reply {
            answer,
            buffer: Vec::new(),
        }
    }
}

/// The bytes on each side of an output. Their number is odd, so an output does
/// not begin where it would be aligned.
pub const GUARD: [u8; 13] = [0x5A; 13];

/// An output between bytes that are not lent.
fn guarded(output: &[u8]) -> Vec<u8> {
    [GUARD.as_slice(), output, &GUARD].concat()
}

/// One side of the comparison: the library, or the implementation written apart.
pub type Side = fn(&Case) -> Reply;

pub fn library(case: &Case) -> Reply {
    let setting = case.setting.of_library();
    let answer = |answer: dikdumar::Answer| Answer::from(answer.numbers());
    match case.call {
        Call::Challenge { ticket, list } => Reply::from(answer(match setting {
            Taken::Plain(setting) => dikdumar::challenge_check(setting, ticket, list),
            Taken::Bias(setting) => dikdumar::bias_challenge_check(setting, ticket, list),
        })),
        Call::Full { ticket } => Reply::from(answer(match setting {
            Taken::Plain(setting) => dikdumar::full_check(setting, ticket),
            Taken::Bias(setting) => dikdumar::bias_full_check(setting, ticket),
        })),
        Call::Writer { a, b, bias, output } => write_into(output, |output| {
            answer(match setting {
                Taken::Plain(setting) => dikdumar::write_ticket(setting, a, b, output),
                Taken::Bias(setting) => dikdumar::write_bias_ticket(setting, a, b, bias, output),
            })
        }),
    }
}

pub fn apart(case: &Case) -> Reply {
    let setting = &case.setting.of_apart();
    match case.call {
        Call::Challenge { ticket, list } => Reply::from(match setting {
            Taken::Plain(setting) => apart::challenge_check(setting, ticket, list),
            Taken::Bias(setting) => apart::bias_challenge_check(setting, ticket, list),
        }),
        Call::Full { ticket } => Reply::from(match setting {
            Taken::Plain(setting) => apart::full_check(setting, ticket),
            Taken::Bias(setting) => apart::bias_full_check(setting, ticket),
        }),
        Call::Writer { a, b, bias, output } => write_into(output, |output| match setting {
            Taken::Plain(setting) => apart::write_ticket(setting, a, b, output),
            Taken::Bias(setting) => apart::write_bias_ticket(setting, a, b, bias, output),
        }),
    }
}

/// Lends a copy of the output to a writer.
fn write_into(output: &[u8], write: impl FnOnce(&mut [u8]) -> Answer) -> Reply {
    let mut buffer = guarded(output);
    let answer = write(&mut buffer[GUARD.len()..][..output.len()]);
    Reply { answer, buffer }
}

/// A ticket with a list, for the challenge check or both checks.
#[derive(Clone, Debug)]
pub struct TicketCase {
    pub what: &'static str,
    pub setting: Setting,
    pub ticket: Vec<u8>,
    pub list: Vec<u32>,
    /// The answer of the challenge check, where it is stated.
    pub expected: Option<Answer>,
}

/// Operands and an output, for the writer.
#[derive(Clone, Debug)]
pub struct WriterCase {
    pub what: &'static str,
    pub setting: Setting,
    pub a: Vec<i32>,
    pub b: Vec<i32>,
    /// Empty for a plain ticket.
    pub bias: Vec<i32>,
    pub output: Vec<u8>,
    /// What the writer does, where it is stated.
    pub expected: Option<Writing>,
}

/// What the writer does.
#[derive(Clone, Debug)]
pub enum Writing {
    /// It writes this ticket over the beginning of the output.
    Ticket(Vec<u8>),
    /// It refuses with this answer and writes nothing.
    Refusal(Answer),
}

impl Writing {
    fn reply(&self, setting: &Setting, output: &[u8]) -> Reply {
        match self {
            Writing::Ticket(ticket) => {
                let past = &output[ticket.len()..];
                Reply {
                    answer: written(setting),
                    buffer: guarded(&[ticket, past].concat()),
                }
            }
            Writing::Refusal(answer) => Reply {
                answer: *answer,
                buffer: guarded(output),
            },
        }
    }
}

/// Takes the cases of a family one by one. A family lends what they are made of,
/// so that it may change one ticket over and over.
pub struct Visitor<'a>(pub &'a mut dyn FnMut(&Case));

impl Visitor<'_> {
    /// The challenge check of a ticket with a list, and the full check of the
    /// ticket. Both make the tests 1 to 9 and 17 to 19 first, so a stated answer
    /// among these is that of both.
    pub fn checks(&mut self, case: &TicketCase) {
        self.challenge(case);
        let of_both = case.expected.filter(|answer| matches!(answer.number, 1..=9 | 17..=19));
        self.full(case.what, &case.setting, &case.ticket, of_both);
    }

    pub fn challenge(&mut self, case: &TicketCase) {
        (self.0)(&Case {
            what: case.what,
            setting: case.setting,
            call: Call::Challenge {
                ticket: &case.ticket,
                list: &case.list,
            },
            expected: case.expected.map(Reply::from),
        });
    }

    pub fn full(&mut self, what: &'static str, setting: &Setting, ticket: &[u8], expected: Option<Answer>) {
        (self.0)(&Case {
            what,
            setting: *setting,
            call: Call::Full { ticket },
            expected: expected.map(Reply::from),
        });
    }

    pub fn write(&mut self, case: &WriterCase) {
        (self.0)(&Case {
            what: case.what,
            setting: case.setting,
            call: Call::Writer {
                a: &case.a,
                b: &case.b,
                bias: &case.bias,
                output: &case.output,
            },
            expected: case
                .expected
                .as_ref()
                .map(|writing| writing.reply(&case.setting, &case.output)),
        });
    }
}

/// The cases of a family, for the calls of one form.
pub type Cases = fn(&mut Visitor, Form);

/// A family of cases, compared as one test.
pub struct Family {
    pub name: String,
    pub form: Form,
    pub cases: Cases,
}

impl Family {
    pub fn visit(&self, visit: &mut Visitor) {
        (self.cases)(visit, self.form);
    }
}

/// The products of one row in the challenge check: n of the claims with X, m of
/// the row of A, and for a bias ticket n of the bias with X.
fn products_of_a_row(setting: &Setting) -> u32 {
    let Setting { inner, columns, .. } = *setting;
    match setting.form() {
        Form::Plain => columns + inner,
        Form::Bias => 2 * columns + inner,
    }
}

/// The products of one vector in the challenge check, with all its rows.
fn products_of_a_vector(setting: &Setting) -> u32 {
    setting.inner * setting.columns + setting.rows * products_of_a_row(setting)
}

/// Accepted by the challenge check.
pub fn accepted(setting: &Setting) -> Answer {
    Answer {
        number: 0,
        place: 0,
        row: 0,
        products: setting.vectors * products_of_a_vector(setting),
    }
}

pub fn refused(number: u32, place: usize) -> Answer {
    Answer {
        number,
        place: place as u32,
        row: 0,
        products: 0,
    }
}

/// Caught by the challenge check in vector t, row i.
pub fn caught(setting: &Setting, t: usize, i: usize) -> Answer {
    let (t, i) = (t as u32, i as u32);
    let before = t * products_of_a_vector(setting) + setting.inner * setting.columns;
    Answer {
        number: 12,
        place: t,
        row: i,
        products: before + (i + 1) * products_of_a_row(setting),
    }
}

/// Accepted by the full check.
pub fn accepted_in_full(setting: &Setting) -> Answer {
    Answer {
        number: 0,
        place: 0,
        row: 0,
        products: setting.rows * setting.inner * setting.columns,
    }
}

/// The first untrue claim is at place i·n + j.
pub fn untrue(setting: &Setting, place: usize) -> Answer {
    let place = place as u32;
    Answer {
        number: 16,
        place,
        row: 0,
        products: setting.inner * (place + 1),
    }
}

/// Written under a setting within the limits.
fn written(setting: &Setting) -> Answer {
    Answer {
        place: ticket_length(setting) as u32,
        ..accepted_in_full(setting)
    }
}
