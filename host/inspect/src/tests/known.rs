use super::*;

use std::fs;

use dikdumar::residue;

use crate::layout::{self, Layout};
use crate::report::no_answers;
use crate::words::{count, hex};

#[test]
fn tickets_are_shown_as_expected() {
    for (folder, bias_bound, expected) in [
        (
            "tickets/caught-last-column",
            None,
            include_str!("caught-last-column.txt"),
        ),
        ("tickets/unrounded-with", None, include_str!("unrounded-with.txt")),
        (
            "bias-tickets/caught-last-column",
            Some(23),
            include_str!("caught-last-column-of-bias.txt"),
        ),
        ("bias-tickets/rounded", Some(23), include_str!("rounded-of-bias.txt")),
    ] {
        let files = Files::read(&examples(folder)).expect("an example");
        assert_eq!(report(&files, bias_bound), expected);
    }
}

#[test]
fn examples_show_their_answers() {
    for (folder, check) in [("tickets", "challenge check"), ("bias-tickets", "bias challenge check")] {
        let mut checked = 0;
        for folder in fs::read_dir(examples(folder)).expect("the examples") {
            let folder = folder.expect("an example").path();
            let numbers = |file| {
                let text = fs::read_to_string(folder.join(file)).ok()?;
                text.split_whitespace()
                    .map(|number| number.parse().ok())
                    .collect::<Option<Vec<u32>>>()
            };
            let Some(answer) = numbers("answer") else {
                continue;
            };
            let bias_bound = numbers("bias-bound").map(|numbers| numbers[0]);
            let files = Files::read(&folder).expect("an example");
            let text = report(&files, bias_bound);
            match answer_shown(&text, check) {
                Some(shown) => assert_eq!(shown, *answer, "{}", folder.display()),
                None if files.challenge.is_none() => assert!(text.contains("there is no list")),
                None => assert!(text.ends_with(no_answers(bias_bound)), "{}", folder.display()),
            }
            checked += 1;
        }
        assert!(checked >= 8);
    }
}

#[test]
fn matrices_can_be_read_back_from_their_tables() {
    let mut random = Random(1);
    for terms in [
        k(),
        k_with_bias(),
        plain([1, 1, 1, 1, 2, 1, 2, 1]),
        with_bias(0, plain([1, 1, 1, 1, 2, 1, 2, 1])),
        plain([3, 5, 4, 2, 1000, 10_000, 20, 500]),
        with_bias(1_000_000, plain([3, 5, 4, 2, 1000, 10_000, 20, 500])),
        plain([12, 11, 13, 8, 7, 100, 20, 0]),
        with_bias(3_000_000, plain([12, 11, 13, 8, 7, 100, 20, 0])),
    ] {
        let operands = random.operands(terms);
        let operands = operands.each_ref().map(Vec::as_slice);
        let text = shown_under(terms, &written(terms, operands), &[]);
        let Setting { inner, columns, .. } = terms.setting;
        let [a, b, bias] = operands;
        let mut matrices = vec![("A: ", a, inner), ("B: ", b, columns)];
        if terms.bias_bound.is_some() {
            matrices.push(("bias: ", bias, columns));
        }
        for (heading, entries, columns) in matrices {
            let lines = table(&text, heading);
            let length = lines[0].chars().count();
            assert!(lines.iter().all(|line| line.chars().count() == length), "{text}");

            let read = |cell: &str| cell.parse::<i32>().expect("a number");
            let read: Vec<Vec<i32>> = lines
                .iter()
                .map(|line| line.split_whitespace().map(read).collect())
                .collect();
            let rows = entries.chunks(columns as usize);
            let expected: Vec<Vec<i32>> = (0..)
                .zip(rows)
                .map(|(row, entries)| [&[row], entries].concat())
                .collect();
            assert_eq!(read, expected);
        }
    }
}

#[test]
fn claims_that_differ_are_marked_and_no_other() {
    let [down, nearest] = [0, 5].map(|rounding| plain([3, 5, 4, 1, 10, 8, 8, rounding]));
    let mut random = Random(2);
    for terms in [down, nearest, with_bias(50, down), with_bias(50, nearest)] {
        let ticket = random.ticket(terms);
        let text = shown_under(terms, &ticket, &[1; 4]);
        assert_eq!(table(&text, "claims: ").len(), 12);
        assert!(!table(&text, "claims: ").iter().any(|line| line.contains("differs")));

        // In turn each record of each claim gets a value that is in range.
        let layout = Layout::new(terms);
        for changed in layout.claim_parts() {
            for claim in 0..12 {
                let mut ticket = ticket.clone();
                let record = changed.first + claim;
                let value = layout::value(&layout::records(&ticket).0[record]);
                set_value(&mut ticket, record, if value == 0 { 1 } else { 0 });
                let text = shown_under(terms, &ticket, &[1; 4]);
                assert_eq!(
                    answer_shown(&text, &terms.call("full check")),
                    Some([16, claim as u32, 0, 5 * (claim as u32 + 1)])
                );
                assert!(text.contains(&format!(
                    "; the claim is that of row {}, column {}\n",
                    claim / 4,
                    claim % 4
                )));
                for part in layout.claim_parts() {
                    let record = part.first + claim;
                    assert!(text.contains(&format!("\n  record {record}: 0{} ", part.kind)));
                }
                for (number, line) in table(&text, "claims: ").into_iter().enumerate() {
                    assert_eq!(line.ends_with("  differs"), number == claim, "{line}");
                    let stars = usize::from(number == claim) * layout.claim_parts().count();
                    assert_eq!(line.matches('*').count(), stars);
                    let cells: Vec<&str> = line.split_whitespace().collect();
                    assert_eq!(cells[..2], [(number / 4).to_string(), (number % 4).to_string()]);
                }
            }
        }
    }
}

/// Row, column, quotient, remainder, α·q + r and S, then c where there is a bias,
/// and what is divided where anything is added.
#[test]
fn sums_stand_beside_what_is_added() {
    for (terms, last, expected) in [
        (
            k(),
            "S",
            [
                &[0, 0, -2, 3, -17, -17][..],
                &[0, 1, 3, 4, 34, 34],
                &[1, 0, 2, 3, 23, 23],
                &[1, 1, -1, 8, -2, -2],
            ],
        ),
        (
            k_rounded(),
            "S + o",
            [
                &[0, 0, -2, 8, -12, -17, -12],
                &[0, 1, 3, 9, 39, 34, 39],
                &[1, 0, 2, 8, 28, 23, 28],
                &[1, 1, 0, 3, 3, -2, 3],
            ],
        ),
        (
            k_with_bias(),
            "S + c",
            [
                &[0, 0, -3, 9, -21, -17, -4, -21],
                &[0, 1, 5, 7, 57, 34, 23, 57],
                &[1, 0, 0, 0, 0, 23, -23, 0],
                &[1, 1, 0, 3, 3, -2, 5, 3],
            ],
        ),
        (
            k_rounded_with_bias(),
            "S + c + o",
            [
                &[0, 0, -2, 4, -16, -17, -4, -16],
                &[0, 1, 6, 2, 62, 34, 23, 62],
                &[1, 0, 0, 5, 5, 23, -23, 5],
                &[1, 1, 0, 8, 8, -2, 5, 8],
            ],
        ),
    ] {
        let text = shown_under(terms, &true_ticket(terms), &[1, 2]);
        let mut headings = text.lines().skip_while(|line| !line.starts_with("claims: "));
        let heading = headings.next().expect("a heading");
        assert!(heading.starts_with(&format!("claims: α·q + r beside {last}")), "{text}");
        assert!(
            headings.next().expect("names").ends_with(&format!("  {last}")),
            "{text}"
        );
        let claims = table(&text, "claims: ");
        let numbers = claims.iter().map(|line| {
            let numbers: Vec<i32> = line
                .split_whitespace()
                .map(|number| number.parse().expect("a number"))
                .collect();
            numbers
        });
        assert!(numbers.eq(expected), "{text}");
    }
}

/// The true ticket of o = 0 and, where it fits, that of the same o.
#[test]
fn any_rounding_number_is_taken_and_shown() {
    for rounding in [0, 1, 5, 9, 10, 256 + 5, 5 << 24, u32::MAX] {
        let terms = plain([2, 2, 2, 1, 10, 8, 5, rounding]);
        let [full, challenge] = match rounding {
            0 => [[0, 0, 0, 8], [0, 0, 0, 12]],
            1..=9 => [[16, 0, 0, 2], [12, 0, 0, 8]],
            _ => [[19, 0, 0, 0]; 2],
        };
        let text = shown_under(terms, &true_ticket(k()), &[1, 2]);
        assert_eq!(answer_shown(&text, "full check"), Some(full), "{text}");
        assert_eq!(answer_shown(&text, "challenge check"), Some(challenge), "{text}");
        let line = text.lines().find(|line| line.starts_with("  rounding "));
        let line = line.expect("a line");
        let cells: Vec<&str> = line.split_whitespace().collect();
        assert_eq!(cells[..3], ["rounding", "o", &rounding.to_string()]);
        assert_eq!(line.ends_with("; it adds nothing"), rounding == 0);
        assert_eq!(text.contains("; allowed: 0 to 9\n"), rounding > 9, "{text}");
        // Every claim differs, or none does.
        let claims = table(&text, "claims: ");
        assert!(claims.iter().all(|line| line.ends_with("  differs") == (rounding > 0)));
        if rounding < 10 {
            let text = shown_under(terms, &true_ticket(terms), &[1, 2]);
            assert_eq!(answer_shown(&text, "full check"), Some([0, 0, 0, 8]));
            assert!(!table(&text, "claims: ").iter().any(|line| line.contains("differs")));
        }
    }
}

#[test]
fn a_setting_of_another_length_is_named() {
    let bytes = setting_bytes(k().setting);
    for terms in [k(), k_with_bias()] {
        for length in 0..20 {
            let text = shown(&bytes[..length], &true_ticket(terms), &[], terms.bias_bound);
            assert!(text.contains("\n  a setting has 20 bytes\n"), "{text}");
            let former = "of the former form, without a rounding number: append four zero bytes for o = 0\n";
            assert_eq!(text.contains(former), length == 16, "{text}");
            assert!(text.ends_with(no_answers(terms.bias_bound)));
        }
        // As the text says.
        let appended = [&bytes[..16], &[0; 4]].concat();
        let text = shown(&appended, &true_ticket(terms), &[], terms.bias_bound);
        assert_eq!(
            answer_shown(&text, &terms.call("full check")),
            Some([0, 0, 0, 8]),
            "{text}"
        );
    }
}

#[test]
fn any_bias_bound_is_taken_and_shown() {
    for (bound, number) in [
        (0, 18),
        (23, 0),
        (24, 3),
        (1 << 30, 3),
        ((1 << 30) + 1, 17),
        (u32::MAX, 17),
    ] {
        let text = shown_under(with_bias(bound, k()), &true_ticket(k_with_bias()), &[1, 2]);
        let line = text.lines().find(|line| line.starts_with("  bias "));
        let cells: Vec<&str> = line.expect("a line").split_whitespace().collect();
        assert_eq!(cells[..3], ["bias", "W", &bound.to_string()]);
        for check in ["bias full check", "bias challenge check"] {
            assert_eq!(answer_shown(&text, check).expect("an answer")[0], number, "{text}");
        }
    }
}

/// 1, 2, 17, 19, 3.
#[test]
fn the_first_fault_of_a_setting_is_the_answer() {
    let over = (1 << 30) + 1;
    for (setting, bound, number) in [
        ([2, 2, 33, 1, 1, 8, 4, 10], over, 1),
        ([2, 2, 2, 1, 1, 8, 4, 10], over, 2),
        ([2, 2, 2, 1, 10, 8, 4, 10], over, 17),
        ([2, 2, 2, 1, 10, 8, 4, 10], over - 1, 19),
        ([2, 2, 2, 1, 10, 8, 4, 9], over - 1, 3),
        // 128 + 23 + 1 + 9 is 161, 128 + 18 + 5 + 9 is 160; a bias entry is 23.
        ([2, 2, 2, 1, 10, 8, 5, 1], 23, 3),
        ([2, 2, 2, 1, 10, 8, 5, 5], 18, 18),
    ] {
        let text = shown_under(with_bias(bound, plain(setting)), &true_ticket(k_with_bias()), &[1, 2]);
        for check in ["bias full check", "bias challenge check"] {
            assert_eq!(answer_shown(&text, check).expect("an answer")[0], number, "{text}");
        }
    }
}

#[test]
fn a_refused_record_is_shown() {
    let p = residue::from_signed(-1) + 1;
    for (terms, record, value, number, cell, place) in [
        (
            k(),
            3,
            u32::MAX,
            6,
            "4294967295*",
            "A, row 1, column 1, value 4294967295, which is p or more",
        ),
        (
            k(),
            5,
            p,
            6,
            "2147483647*",
            "B, row 0, column 1, value 2147483647, which is p or more",
        ),
        (
            k(),
            0,
            p - 9,
            7,
            "-9*",
            "A, row 0, column 0, value 2147483638, which stands for -9",
        ),
        (k(), 7, 9, 7, "9*", "B, row 1, column 1, value 9"),
        (k(), 8, 16, 8, "16*", "quotients, row 0, column 0, value 16"),
        (
            k(),
            11,
            p - 17,
            8,
            "-17*",
            "quotients, row 1, column 1, value 2147483630, which stands for -17",
        ),
        (k(), 12, 10, 9, "10*", "remainders, row 0, column 0, value 10"),
        (
            k(),
            15,
            p - 7,
            9,
            "2147483640*",
            "remainders, row 1, column 1, value 2147483640, which stands for -7",
        ),
        (k_with_bias(), 7, 9, 7, "9*", "B, row 1, column 1, value 9"),
        (
            k_with_bias(),
            8,
            p,
            6,
            "2147483647*",
            "bias, row 0, column 0, value 2147483647, which is p or more",
        ),
        (k_with_bias(), 9, 24, 18, "24*", "bias, row 0, column 1, value 24"),
        (
            k_with_bias(),
            11,
            p - 24,
            18,
            "-24*",
            "bias, row 1, column 1, value 2147483623, which stands for -24",
        ),
        (k_with_bias(), 12, 16, 8, "16*", "quotients, row 0, column 0, value 16"),
        (k_with_bias(), 19, 10, 9, "10*", "remainders, row 1, column 1, value 10"),
    ] {
        let mut ticket = true_ticket(terms);
        set_value(&mut ticket, record, value);
        let text = shown_under(terms, &ticket, &[1, 2]);
        let check = terms.call("full check");
        assert_eq!(answer_shown(&text, &check), Some([number, record as u32, 0, 0]));
        let allowed = match number {
            6 => "",
            7 => "; allowed: -8 to 8",
            18 => "; allowed: -23 to 23",
            8 => "; allowed: -16 to 15",
            _ => "; allowed: 0 to 9",
        };
        let meaning = ::answers::meaning(&check, number, &[record as u32, 0, 0]).expect("words");
        let bytes = hex(&ticket[8 * record..8 * record + 8]);
        let expected = format!("  {meaning}{allowed}\n  record {record}: {bytes}\n    {place}\n");
        assert!(text.contains(&expected), "{text}");
        assert!(text.contains(&format!("  {cell}")), "{text}");
    }
}

#[test]
fn an_unexpected_beginning_is_shown_beside_the_expected_one() {
    for (terms, record, expected) in [(k(), 6, [2, 0, 1, 0]), (k_with_bias(), 10, [5, 0, 1, 0])] {
        for byte in 0..4 {
            let mut found = expected;
            found[byte] = 7;
            let mut ticket = true_ticket(terms);
            ticket[8 * record + byte] = 7;
            let text = shown_under(terms, &ticket, &[1, 2]);
            assert_eq!(
                answer_shown(&text, &terms.call("full check")),
                Some([5, record as u32, 0, 0])
            );
            let [found, expected] = [found, expected].map(|bytes| hex(&bytes));
            let expected = format!("    it begins {found}, and should begin {expected}\n");
            assert!(text.contains(&expected), "{text}");
        }
    }
}

#[test]
fn lists_are_shown() {
    for (list, answer, expected) in [
        (
            &[1, 2][..],
            [0, 0, 0, 12],
            "challenge.rec: 8 bytes\n  vector 0:  1   2\n",
        ),
        (&[1, u32::MAX], [11, 1, 0, 0], "\n  vector 0:  1   4294967295*\n"),
        (
            &[1, 2, 3],
            [10, 0, 0, 0],
            "\n  under this setting a list has 2 numbers\n  from index 0:  1   2   3\n",
        ),
        (&[7; 9], [10, 0, 0, 0], "\n  from index 8:  7\n"),
        (&[0, 5], [0, 0, 0, 12], "\n  vector 0:  0   5\n"),
        (&[0, 0], [21, 0, 0, 0], "\n  vector 0:  0*  0*\n"),
    ] {
        let text = shown_under(k(), &true_ticket(k()), list);
        assert_eq!(answer_shown(&text, "challenge check"), Some(answer));
        assert!(text.contains(expected), "{text}");
    }
}

/// The numbers of the vector that the answer names, and no other zeros.
#[test]
fn a_vector_of_zeros_is_marked() {
    let mut terms = k();
    terms.setting.vectors = 3;
    let text = shown_under(terms, &true_ticket(terms), &[0, 2, 0, 0, 0, 0]);
    assert_eq!(answer_shown(&text, "challenge check"), Some([21, 1, 0, 0]));
    let expected = "\n  vector 0:  0   2\n  vector 1:  0*  0*\n  vector 2:  0   0\n";
    assert!(text.contains(expected), "{text}");
}

#[test]
fn missing_files_and_long_ones_are_named() {
    let long = Contents {
        bytes: vec![0; READ_AT_MOST],
        is_longer: true,
    };
    let long_ticket = Files {
        setting: contents(&setting_bytes(k().setting)),
        ticket: Some(long),
        challenge: None,
    };
    let nothing = Files {
        setting: None,
        ticket: None,
        challenge: None,
    };
    for terms in [k(), k_with_bias()] {
        let text = report(&long_ticket, terms.bias_bound);
        assert!(text.contains("ticket.rec: longer than 65536 bytes"));
        let not_made = format!("\n{}: not made, since there is no list", terms.call("challenge check"));
        assert!(text.contains("challenge.rec: missing") && text.contains(&not_made));
        assert_eq!(answer_shown(&text, &terms.call("full check")), Some([4, 0, 0, 0]));

        let text = report(&nothing, terms.bias_bound);
        assert!(text.contains("setting.rec: missing") && text.contains("ticket.rec: missing"));
        assert!(text.ends_with(no_answers(terms.bias_bound)));
    }
}

#[test]
fn the_largest_ticket_is_shown_whole() {
    let largest = plain([32, 64, 32, 8, 65_536, 2000, 14, 32_768]);
    let mut random = Random(3);
    for (terms, length, products) in [
        (largest, 49_152, 40_960),
        (with_bias(200_000_000, largest), 57_344, 49_152),
    ] {
        let text = shown_under(terms, &random.ticket(terms), &[1; 256]);
        assert!(text.contains(&format!("ticket.rec: {}\n", count(length, "byte"))));
        let [full, challenge] = ["full check", "challenge check"].map(|check| terms.call(check));
        assert_eq!(answer_shown(&text, &full), Some([0, 0, 0, 65_536]));
        assert_eq!(answer_shown(&text, &challenge), Some([0, 0, 0, products]));
        assert_eq!(table(&text, "claims: ").len(), 32 * 32);
        assert!(text.lines().count() < 1300);
    }
}
