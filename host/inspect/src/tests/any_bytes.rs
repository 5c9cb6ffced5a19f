//! Whatever the bytes: no panic, the library's answers, and a text of bounded length.

use super::*;

use dikdumar::{bias_challenge_check, bias_full_check, challenge_check, full_check, residue};

use crate::inputs;
use crate::layout::Layout;
use crate::report::{no_answers, WHOSE_ANSWERS};
use crate::words::{count, hex};

/// A plain ticket, W that fits K, one that does not, and the limits of W and of
/// its type.
const BIAS_BOUNDS: [Option<u32>; 6] = [None, Some(0), Some(23), Some(24), Some(1 << 30), Some(u32::MAX)];

fn holds(setting_file: &[u8], ticket: &[u8], list_file: &[u8]) {
    for bias_bound in BIAS_BOUNDS {
        let text = shown(setting_file, ticket, list_file, bias_bound);
        assert!(text.lines().count() < 100 + ticket.len() + list_file.len());
        assert!(!text.contains("a number that docs/answers.txt does not have"));
        let Some(setting) = inputs::setting(setting_file) else {
            assert!(text.ends_with(no_answers(bias_bound)));
            continue;
        };
        assert!(text.ends_with(WHOSE_ANSWERS));
        let list = inputs::list(list_file).unwrap_or_default();
        let checks = match bias_bound {
            None => [
                ("full check", full_check(setting, ticket)),
                ("challenge check", challenge_check(setting, ticket, &list)),
            ],
            Some(bias_bound) => {
                let setting = BiasSetting { setting, bias_bound };
                [
                    ("bias full check", bias_full_check(setting, ticket)),
                    ("bias challenge check", bias_challenge_check(setting, ticket, &list)),
                ]
            }
        };
        for (check, answer) in checks {
            assert_eq!(answer_shown(&text, check), Some(answer.numbers()));
        }
        // Where every claim was tested, those that are shown to differ are the untrue ones.
        let [(_, full), _] = checks;
        if full.number == 0 || full.number == 16 {
            let claims = table(&text, "claims: ");
            let first = claims.iter().position(|line| line.ends_with("  differs"));
            assert_eq!(first, (full.number == 16).then_some(full.place as usize), "{text}");
        }
    }
}

#[test]
fn tickets_of_every_length() {
    for (terms, due) in [
        (k(), 128),
        (k_rounded(), 128),
        (k_with_bias(), 160),
        (k_rounded_with_bias(), 160),
    ] {
        let long = [true_ticket(terms), true_ticket(terms)].concat();
        for length in 0..=200 {
            let ticket = &long[..length];
            holds(&setting_bytes(terms.setting), ticket, &list_bytes(&[1, 2]));
            let text = shown_under(terms, ticket, &[1, 2]);
            let [bytes, records] = [count(length, "byte"), count(length / 8, "whole record")];
            assert!(text.contains(&format!("ticket.rec: {bytes}\n  {records}\n")));
            if length == due {
                continue;
            }
            let needed = format!("under this setting a ticket has {due} bytes, {} records", due / 8);
            assert!(text.contains(&needed));
            for (number, record) in ticket.chunks_exact(8).enumerate() {
                assert!(
                    text.contains(&format!("\n  {number:>4}  {}  kind ", hex(record))),
                    "{text}"
                );
            }
            let rest = &ticket[length - length % 8..];
            assert!(text.contains(&format!("{}\n", hex(rest))), "{text}");
        }
    }
}

#[test]
fn settings_of_every_length() {
    for length in 0..40 {
        for terms in [k(), k_with_bias()] {
            holds(&vec![2; length], &true_ticket(terms), &list_bytes(&[1, 2]));
        }
    }
}

#[test]
fn lists_of_every_length() {
    for (terms, products) in [
        (k(), 12),
        (k_rounded(), 12),
        (k_with_bias(), 16),
        (k_rounded_with_bias(), 16),
    ] {
        let [setting, ticket] = [setting_bytes(terms.setting), true_ticket(terms)];
        for length in 0..40 {
            holds(&setting, &ticket, &vec![1; length]);
            let text = shown(&setting, &ticket, &vec![1; length], terms.bias_bound);
            let expected = if length == 8 {
                [0, 0, 0, products]
            } else {
                [10, 0, 0, 0]
            };
            let check = terms.call("challenge check");
            assert_eq!(answer_shown(&text, &check), Some(expected), "{length}");
        }
    }
}

#[test]
fn random_bytes() {
    for seed in 0..2000 {
        let mut random = Random(seed);
        let setting = [20, 20, 20, 16, 19, 21, 0, 40][random.below(8)];
        let [ticket, list] = [random.below(300), random.below(100)];
        holds(&random.bytes(setting), &random.bytes(ticket), &random.bytes(list));
    }
    let mut random = Random(2000);
    holds(
        &setting_bytes(k().setting),
        &random.bytes(READ_AT_MOST),
        &random.bytes(READ_AT_MOST),
    );
    holds(
        &random.bytes(READ_AT_MOST),
        &random.bytes(READ_AT_MOST),
        &random.bytes(READ_AT_MOST),
    );
}

/// Small sizes, zero among them, with as many records as they ask for, most of
/// which begin as they should.
#[test]
fn random_records_of_the_right_length() {
    for seed in 0..2000 {
        let mut random = Random(seed);
        let mut setting = setting_bytes(k().setting);
        for size in &mut setting[..4] {
            *size = random.below(6) as u8;
        }
        // The first byte of o; α is 10.
        setting[16] = random.below(12) as u8;
        if seed % 2 == 0 {
            setting[4..].copy_from_slice(&random.bytes(16));
        }
        let layout = Layout::new(Terms {
            setting: inputs::setting(&setting).expect("20 bytes"),
            bias_bound: [None, Some(4)][random.below(2)],
        });
        let mut ticket = random.bytes(8 * layout.records());
        for (number, record) in ticket.chunks_mut(8).enumerate() {
            let (part, row, column) = layout.locate(number).expect("a record of the ticket");
            if random.below(50) > 0 {
                record[..4].copy_from_slice(&[part.kind, 0, row as u8, column as u8]);
            }
            if random.below(10) > 0 {
                let small = residue::from_signed(random.below(9) as i32 - 4);
                record[4..].copy_from_slice(&small.to_le_bytes());
            }
        }
        let list = 4 * usize::from(setting[2]) * usize::from(setting[3]);
        holds(&setting, &ticket, &random.bytes(list));
    }
}

/// The true ticket with a few bytes changed, added or lost.
#[test]
fn damaged_tickets() {
    for seed in 0..2000 {
        let mut random = Random(seed);
        let terms = [k(), k_with_bias(), k_rounded(), k_rounded_with_bias()][random.below(4)];
        let mut ticket = true_ticket(terms);
        for _ in 0..=random.below(4) {
            let at = random.below(ticket.len());
            match random.below(8) {
                0 => ticket.insert(at, random.next() as u8),
                1 => _ = ticket.remove(at),
                2 | 3 => ticket[at] = random.next() as u8,
                _ => ticket[at] ^= 1 << random.below(8),
            }
        }
        holds(&setting_bytes(terms.setting), &ticket, &list_bytes(&[1, 5]));
    }
}
