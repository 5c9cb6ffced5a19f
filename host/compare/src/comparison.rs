//! The comparison of both sides on a family of cases.

use std::fmt::{self, Display, Formatter};

use apart::{Answer, Mark};
use digests::{Digest, Digests};

use crate::cases::{Call, Case, Family, Kind, Reply, Side, Visitor, GUARD};
use crate::outcome::{agreed, Report};
use crate::setting::Form;

/// How often the library answered, and how often with each number from 0 to 22 and with
/// each mark, for each call in the order of `Kind::ALL`. Any other number is a
/// difference, and so is not counted by itself.
#[derive(Clone, Debug, Default, PartialEq, Eq)]
pub struct Numbers {
    cases: [u64; Kind::ALL.len()],
    numbers: [[u64; 23]; Kind::ALL.len()],
    marks: [[u64; 4]; Kind::ALL.len()],
}

impl Numbers {
    pub fn count(&mut self, kind: Kind, number: u32) {
        self.cases[kind as usize] += 1;
        if let Some(count) = self.numbers[kind as usize].get_mut(number as usize) {
            *count += 1;
        }
    }

    pub fn count_mark(&mut self, kind: Kind, mark: Mark) {
        self.marks[kind as usize][mark as usize] += 1;
    }

    pub fn cases(&self, kind: Kind) -> u64 {
        self.cases[kind as usize]
    }

    pub fn of(&self, kind: Kind, number: u32) -> u64 {
        self.numbers[kind as usize][number as usize]
    }

    pub fn of_mark(&self, kind: Kind, mark: Mark) -> u64 {
        self.marks[kind as usize][mark as usize]
    }

    pub fn add(&mut self, others: &Numbers) {
        let totals = self.cases.iter_mut().chain(self.numbers.iter_mut().flatten());
        let counts = others.cases.iter().chain(others.numbers.iter().flatten());
        let marks = self.marks.iter_mut().flatten().zip(others.marks.iter().flatten());
        for (total, count) in totals.zip(counts).chain(marks) {
            *total += count;
        }
    }
}

/// What the comparison of a family found.
#[derive(Default)]
pub struct Outcome {
    pub compared: u64,
    pub differing: u64,
    /// The first case whose replies are not all the same.
    pub first: Option<String>,
    pub numbers: Numbers,
    /// Of all replies of the library.
    pub digest: Digest,
}

/// Compares the two sides on every case of a family.
pub fn compare(family: &Family, library: Side, apart: Side) -> Outcome {
    let mut outcome = Outcome::default();
    family.visit(&mut Visitor(&mut |case| {
        let (by_library, by_apart) = (library(case), apart(case));
        outcome.numbers.count(case.kind(), by_library.answer.number);
        digest_reply(&mut outcome.digest, &by_library);
        let right = case.expected.as_ref().unwrap_or(&by_apart);
        if by_library != *right || by_apart != *right {
            outcome.differing += 1;
            outcome.first.get_or_insert_with(|| {
                Difference {
                    index: outcome.compared,
                    case,
                    library: &by_library,
                    apart: &by_apart,
                }
                .to_string()
            });
        }
        outcome.compared += 1;
    }));
    outcome
}

impl Outcome {
    /// The report on a family of this name, of cases, of quotes or of calls of runs.
    pub fn report(&self, name: &str, items: &str, digests: &mut Digests) -> Report {
        let (compared, digest) = (self.compared, self.digest);
        let on_file = digests.take(name, compared, digest);
        match &self.first {
            None if compared == 0 => Err(format!("{name}: no {items}")),
            None => agreed(format!("{name}: {compared} {items}, no difference"), digest, on_file),
            Some(first) => Err(format!(
                "{name}: {compared} {items}, {} with a wrong reply, the first is\n{first}",
                self.differing
            )),
        }
    }
}

/// As digests.txt says.
fn digest_reply(digest: &mut Digest, reply: &Reply) {
    let Answer {
        number,
        place,
        row,
        products,
    } = reply.answer;
    for number in [number, place, row, products] {
        digest.update(&number.to_le_bytes());
    }
    digest.update(reply.output());
}

/// A case whose replies are not all the same.
struct Difference<'a> {
    /// Its index in the family.
    index: u64,
    case: &'a Case<'a>,
    library: &'a Reply,
    apart: &'a Reply,
}

impl Display for Difference<'_> {
    fn fmt(&self, f: &mut Formatter) -> fmt::Result {
        let Case {
            what,
            setting,
            call,
            expected,
        } = self.case;
        writeln!(f, "  case {}, {}: {what}", self.index, self.case.kind().name())?;
        writeln!(f, "  setting: {setting}")?;
        match call {
            Call::Challenge { ticket, list } => {
                write_ticket(f, ticket)?;
                writeln!(f, "  list: {} numbers {list:?}", list.len())?;
            }
            Call::Full { ticket } => write_ticket(f, ticket)?,
            Call::Writer { a, b, bias, output } => {
                write_operand(f, "A", a)?;
                write_operand(f, "B", b)?;
                if setting.form() == Form::Bias {
                    write_operand(f, "bias", bias)?;
                }
                writeln!(f, "  output: {} bytes", output.len())?;
            }
        }
        let replies = [
            ("stated: ", expected.as_ref()),
            ("library:", Some(self.library)),
            ("apart:  ", Some(self.apart)),
        ];
        let right = expected.as_ref().unwrap_or(self.apart);
        let lines = replies.into_iter().filter_map(|(name, reply)| {
            let reply = reply?;
            let byte = first_other_byte(&reply.buffer, &right.buffer);
            Some(format!("  {name} {}{}", line(&reply.answer), byte.unwrap_or_default()))
        });
        write!(f, "{}", lines.collect::<Vec<_>>().join("\n"))
    }
}

/// Longer tickets and operands would only hide the rest; the seeds are fixed, so
/// the case can be made again.
const LONGEST_TICKET: usize = 512;
const LONGEST_OPERAND: usize = 64;

pub fn write_ticket(f: &mut Formatter, ticket: &[u8]) -> fmt::Result {
    writeln!(f, "  ticket: {} bytes", ticket.len())?;
    if ticket.len() <= LONGEST_TICKET {
        for (index, record) in ticket.chunks(8).enumerate() {
            write!(f, "    {index:3}:")?;
            for byte in record {
                write!(f, " {byte:02X}")?;
            }
            writeln!(f)?;
        }
    }
    Ok(())
}

fn write_operand(f: &mut Formatter, name: &str, operand: &[i32]) -> fmt::Result {
    write!(f, "  {name}: {} numbers", operand.len())?;
    if operand.len() <= LONGEST_OPERAND {
        write!(f, " {operand:?}")?;
    }
    writeln!(f)
}

/// Where a writer's buffer is first not the right one, counted from the
/// beginning of the output.
fn first_other_byte(buffer: &[u8], right: &[u8]) -> Option<String> {
    let index = buffer.iter().zip(right).position(|(one, other)| one != other)?;
    Some(format!(
        ", byte {} of the output is {:02X} and not {:02X}",
        index as i64 - GUARD.len() as i64,
        buffer[index],
        right[index]
    ))
}

/// An answer as the program prints it.
pub fn line(answer: &Answer) -> String {
    let Answer {
        number,
        place,
        row,
        products,
    } = answer;
    format!("{number} {place} {row} {products}")
}

#[cfg(test)]
mod tests {
    use std::collections::BTreeSet;

    use super::*;
    use crate::cases::{apart, Cases};
    use crate::families::craft::case_c;
    use crate::families::writer::writer_case_b;

    /// A family of one case.
    fn one(name: &str, form: Form, cases: Cases) -> Family {
        Family {
            name: name.to_owned(),
            form,
            cases,
        }
    }

    fn challenge(form: Form) -> Family {
        one("one challenge check", form, |visit, form| {
            visit.challenge(&case_c(form))
        })
    }

    fn full(form: Form) -> Family {
        one("one full check", form, |visit, form| {
            let case = case_c(form);
            let accepted = Answer::from([0, 0, 0, 8]);
            visit.full("case b", &case.setting, &case.ticket, Some(accepted));
        })
    }

    fn writer(form: Form) -> Family {
        one("one ticket written", form, |visit, form| {
            visit.write(&writer_case_b(form, 2));
        })
    }

    fn one_product_more(case: &Case) -> Reply {
        number_changed(case, 3)
    }

    /// One more in one of the four numbers.
    fn number_changed(case: &Case, index: usize) -> Reply {
        let mut reply = apart(case);
        let Answer {
            number,
            place,
            row,
            products,
        } = &mut reply.answer;
        *[number, place, row, products][index] += 1;
        reply
    }

    /// The byte of the buffer at this distance from the beginning of the output.
    fn byte_changed(case: &Case, index: i64) -> Reply {
        let mut reply = apart(case);
        reply.buffer[(GUARD.len() as i64 + index) as usize] ^= 1;
        reply
    }

    /// The line of a file that has the outcome.
    fn line_of(family: &Family, outcome: &Outcome) -> String {
        format!("{}: {} {}\n", family.name, outcome.compared, outcome.digest)
    }

    fn report_on_file(family: &Family, outcome: &Outcome, text: &str) -> Report {
        let mut digests = Digests::new("digests.txt", text, &[]).expect("no argument");
        outcome.report(&family.name, "cases", &mut digests)
    }

    #[test]
    fn the_right_reply_passes() {
        for (family, kind) in [
            (challenge(Form::Plain), Kind::Challenge),
            (full(Form::Plain), Kind::Full),
            (writer(Form::Plain), Kind::Writer),
            (challenge(Form::Bias), Kind::BiasChallenge),
            (full(Form::Bias), Kind::BiasFull),
            (writer(Form::Bias), Kind::BiasWriter),
        ] {
            let outcome = compare(&family, apart, apart);
            assert_eq!((outcome.compared, outcome.differing), (1, 0));
            for each in Kind::ALL {
                assert_eq!(outcome.numbers.of(each, 0), u64::from(each == kind));
            }
            assert_eq!(outcome.numbers.cases(kind), 1);
            assert!(report_on_file(&family, &outcome, &line_of(&family, &outcome)).is_ok());
        }
    }

    fn report(family: &Family, library: Side) -> String {
        let outcome = compare(family, library, apart);
        assert_eq!((outcome.compared, outcome.differing), (1, 1));
        report_on_file(family, &outcome, &line_of(family, &outcome)).expect_err("the replies differ")
    }

    fn assert_parts(report: &str, parts: &[&str]) {
        for part in parts {
            assert!(report.contains(part), "{part} is not in\n{report}");
        }
    }

    /// A comparison that could not fail would be no test.
    #[test]
    fn a_wrong_answer_is_noticed() {
        let setting = "setting: rows 2, inner 2, columns 2, vectors 1, scale 10, bound 8, width 5, rounding 0";
        let record_8 = "8: 03 00 00 00 FD FF FF 7F";
        assert_parts(
            &report(&challenge(Form::Plain), one_product_more),
            &[
                "challenge check: case c",
                setting,
                record_8,
                "list: 2 numbers [1, 2]",
                "library: 0 0 0 13",
                "apart:   0 0 0 12",
            ],
        );
        assert_parts(
            &report(&full(Form::Plain), one_product_more),
            &[
                "full check: case b",
                setting,
                record_8,
                "library: 0 0 0 9",
                "apart:   0 0 0 8",
            ],
        );
        assert_parts(
            &report(&writer(Form::Plain), one_product_more),
            &[
                "writer: case b",
                setting,
                "A: 4 numbers [3, -2, 5, 4]",
                "B: 4 numbers [-1, 6, 7, -8]",
                "output: 130 bytes",
                "library: 0 128 0 9",
                "apart:   0 128 0 8",
            ],
        );
    }

    #[test]
    fn a_wrong_answer_of_a_bias_call_is_noticed() {
        let setting = "scale 10, bound 8, width 5, rounding 0, bias bound 23";
        let record_8 = "8: 05 00 00 00 FB FF FF 7F";
        assert_parts(
            &report(&challenge(Form::Bias), one_product_more),
            &[
                "bias challenge check: case c",
                setting,
                record_8,
                "library: 0 0 0 17",
                "apart:   0 0 0 16",
            ],
        );
        assert_parts(
            &report(&full(Form::Bias), one_product_more),
            &[
                "bias full check: case b",
                setting,
                record_8,
                "library: 0 0 0 9",
                "apart:   0 0 0 8",
            ],
        );
        assert_parts(
            &report(&writer(Form::Bias), one_product_more),
            &[
                "bias writer: case b",
                setting,
                "bias: 4 numbers [-4, 23, -23, 5]",
                "output: 162 bytes",
                "library: 0 160 0 9",
                "apart:   0 160 0 8",
            ],
        );
    }

    #[test]
    fn a_wrong_byte_is_noticed() {
        let wrong: [(Side, &str); 6] = [
            (
                |case| byte_changed(case, -13),
                "byte -13 of the output is 5B and not 5A",
            ),
            (|case| byte_changed(case, -1), "byte -1 of the output is 5B and not 5A"),
            (|case| byte_changed(case, 0), "byte 0 of the output is 00 and not 01"),
            (
                |case| byte_changed(case, 127),
                "byte 127 of the output is 01 and not 00",
            ),
            (|case| byte_changed(case, 129), "byte 129 of the output is"),
            (
                |case| byte_changed(case, 130),
                "byte 130 of the output is 5B and not 5A",
            ),
        ];
        for (library, part) in wrong {
            assert_parts(&report(&writer(Form::Plain), library), &["library: 0 128 0 8", part]);
        }
    }

    #[test]
    fn the_same_wrong_reply_on_both_sides_is_noticed() {
        let first_byte: Side = |case| byte_changed(case, 0);
        for form in [Form::Plain, Form::Bias] {
            for (family, side) in [
                (challenge(form), one_product_more as Side),
                (full(form), one_product_more),
                (writer(form), one_product_more),
                (writer(form), first_byte),
            ] {
                let outcome = compare(&family, side, side);
                assert_eq!((outcome.compared, outcome.differing), (1, 1));
            }
        }
    }

    fn digest(family: &Family, library: Side) -> String {
        compare(family, library, apart).digest.to_string()
    }

    #[test]
    fn the_digest_is_of_the_replies_of_the_library() {
        let mut right = Digest::default();
        right.update(&[0, 0, 0, 0, 0, 0, 0, 0, 0, 0, 0, 0, 13, 0, 0, 0]);
        assert_eq!(digest(&challenge(Form::Plain), one_product_more), right.to_string());

        let mut right = Digest::default();
        right.update(&[0, 0, 0, 0, 128, 0, 0, 0, 0, 0, 0, 0, 9, 0, 0, 0]);
        right.update(&case_c(Form::Plain).ticket);
        right.update(&writer_case_b(Form::Plain, 2).output[128..]);
        assert_eq!(digest(&writer(Form::Plain), one_product_more), right.to_string());

        let mut right = Digest::default();
        right.update(&[0, 0, 0, 0, 160, 0, 0, 0, 0, 0, 0, 0, 9, 0, 0, 0]);
        right.update(&case_c(Form::Bias).ticket);
        right.update(&writer_case_b(Form::Bias, 2).output[160..]);
        assert_eq!(digest(&writer(Form::Bias), one_product_more), right.to_string());
    }

    #[test]
    fn a_changed_reply_changes_the_digest() {
        let numbers: [Side; 5] = [
            apart,
            |case| number_changed(case, 0),
            |case| number_changed(case, 1),
            |case| number_changed(case, 2),
            |case| number_changed(case, 3),
        ];
        let bytes: [Side; 3] = [
            |case| byte_changed(case, 0),
            |case| byte_changed(case, 127),
            |case| byte_changed(case, 129),
        ];
        for (family, sides) in [
            (challenge(Form::Plain), numbers.to_vec()),
            (full(Form::Plain), numbers.to_vec()),
            (writer(Form::Plain), [&numbers[..], &bytes].concat()),
        ] {
            let digests: BTreeSet<String> = sides.iter().map(|side| digest(&family, *side)).collect();
            assert_eq!(digests.len(), sides.len(), "{}", family.name);
        }
    }

    #[test]
    fn the_order_of_the_replies_changes_the_digest() {
        let one_way = one("one way", Form::Plain, |visit, form| {
            challenge(form).visit(visit);
            full(form).visit(visit);
        });
        let the_other = one("the other", Form::Plain, |visit, form| {
            full(form).visit(visit);
            challenge(form).visit(visit);
        });
        assert_ne!(digest(&one_way, apart), digest(&the_other, apart));
    }

    #[test]
    fn other_replies_than_on_file_fail() {
        let full = full(Form::Plain);
        let outcome = compare(&full, apart, apart);
        let line = line_of(&full, &outcome);
        for other in [
            String::new(),
            line.replace(": 1 ", ": 2 "),
            line_of(&full, &compare(&full, one_product_more, apart)),
        ] {
            let report = report_on_file(&full, &outcome, &other).expect_err("not on file");
            let begin = "one full check: 1 cases, no difference, but FAILED: expected ";
            assert!(report.starts_with(begin), "{report}");
        }
    }

    #[test]
    fn a_family_without_a_case_fails() {
        let none = one("none", Form::Plain, |_, _| ());
        let outcome = compare(&none, apart, apart);
        assert!(report_on_file(&none, &outcome, &line_of(&none, &outcome)).is_err());
    }

    #[test]
    fn numbers_are_counted_for_each_call() {
        let mut numbers = Numbers::default();
        numbers.count(Kind::Full, 16);
        numbers.count(Kind::Writer, 0);
        numbers.count(Kind::Writer, 23);
        numbers.count(Kind::Writer, u32::MAX);
        numbers.count(Kind::BiasWriter, 19);
        numbers.count(Kind::BiasQuote, 20);
        numbers.count(Kind::Challenge, 21);
        numbers.count(Kind::RunAdd, 22);
        numbers.count_mark(Kind::RunAdd, Mark::Refused);
        numbers.count_mark(Kind::RunStep, Mark::Caught);
        let mut twice = numbers.clone();
        twice.add(&numbers);
        let cases = Kind::ALL.map(|kind| twice.cases(kind));
        assert_eq!(cases, [2, 2, 6, 0, 0, 2, 0, 2, 0, 0, 2]);
        let all = [
            (Kind::Full, 16),
            (Kind::Writer, 0),
            (Kind::BiasWriter, 19),
            (Kind::BiasQuote, 20),
            (Kind::Challenge, 21),
            (Kind::RunAdd, 22),
        ];
        let marks = [(Kind::RunAdd, Mark::Refused), (Kind::RunStep, Mark::Caught)];
        for kind in Kind::ALL {
            for number in 0..=22 {
                let counted = all.contains(&(kind, number));
                assert_eq!(twice.of(kind, number), if counted { 2 } else { 0 });
            }
            for mark in [Mark::UnderWay, Mark::Caught, Mark::Complete, Mark::Refused] {
                let counted = marks.contains(&(kind, mark));
                assert_eq!(twice.of_mark(kind, mark), if counted { 2 } else { 0 });
            }
        }
    }
}
