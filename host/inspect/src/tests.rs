//! The whole text, for tickets of known contents and for any bytes.

mod any_bytes;
mod known;

use std::path::{Path, PathBuf};

use dikdumar::{write_bias_ticket, write_ticket, BiasSetting, Setting};

use crate::files::{Contents, Files, READ_AT_MOST};
use crate::report::report;
use crate::terms::Terms;

/// ℓ = m = n = 2, s = 1, α = 10, T = 8, v = 5, o = 0.
fn k() -> Terms {
    plain([2, 2, 2, 1, 10, 8, 5, 0])
}

/// K with o = 5, half of α.
fn k_rounded() -> Terms {
    plain([2, 2, 2, 1, 10, 8, 5, 5])
}

/// K with W = 23, the most that fits.
fn k_with_bias() -> Terms {
    with_bias(23, k())
}

/// K with W = 23, o = 5 and v = 6, which fits.
fn k_rounded_with_bias() -> Terms {
    with_bias(23, plain([2, 2, 2, 1, 10, 8, 6, 5]))
}

fn plain(setting: [u32; 8]) -> Terms {
    let setting = Setting::from(setting);
    Terms {
        setting,
        bias_bound: None,
    }
}

fn with_bias(bound: u32, terms: Terms) -> Terms {
    let bias_bound = Some(bound);
    Terms { bias_bound, ..terms }
}

/// The true ticket for A = (3, -2), (5, 4), B = (-1, 6), (7, -8) and, where there
/// is a bias, (-4, 23), (-23, 5), under K or another of its sizes.
fn true_ticket(terms: Terms) -> Vec<u8> {
    written(terms, [&[3, -2, 5, 4], &[-1, 6, 7, -8], &[-4, 23, -23, 5]])
}

/// The true ticket for A, B and the bias, which a plain one does not have.
fn written(terms: Terms, [a, b, bias]: [&[i32]; 3]) -> Vec<u8> {
    let mut ticket = vec![0; READ_AT_MOST];
    let Terms { setting, bias_bound } = terms;
    let answer = match bias_bound {
        None => write_ticket(setting, a, b, &mut ticket),
        Some(bias_bound) => write_bias_ticket(BiasSetting { setting, bias_bound }, a, b, bias, &mut ticket),
    };
    assert_eq!(answer.number, 0);
    ticket.truncate(answer.place as usize);
    ticket
}

fn set_value(ticket: &mut [u8], record: usize, value: u32) {
    ticket[8 * record + 4..8 * record + 8].copy_from_slice(&value.to_le_bytes());
}

fn setting_bytes(setting: Setting) -> Vec<u8> {
    let sizes = [setting.rows, setting.inner, setting.columns, setting.vectors].map(|size| size as u8);
    let numbers = [setting.scale, setting.bound, setting.width, setting.rounding];
    [&sizes[..], &list_bytes(&numbers)].concat()
}

fn list_bytes(list: &[u32]) -> Vec<u8> {
    list.iter().flat_map(|number| number.to_le_bytes()).collect()
}

fn contents(bytes: &[u8]) -> Option<Contents> {
    let bytes = bytes.to_vec();
    Some(Contents {
        bytes,
        is_longer: false,
    })
}

/// The text for three files, and W where the ticket is to have a bias.
fn shown(setting: &[u8], ticket: &[u8], list: &[u8], bias_bound: Option<u32>) -> String {
    let [setting, ticket, challenge] = [setting, ticket, list].map(contents);
    let files = Files {
        setting,
        ticket,
        challenge,
    };
    report(&files, bias_bound)
}

fn shown_under(terms: Terms, ticket: &[u8], list: &[u32]) -> String {
    let setting = setting_bytes(terms.setting);
    shown(&setting, ticket, &list_bytes(list), terms.bias_bound)
}

/// The four numbers that a text gives for a check.
fn answer_shown(text: &str, check: &str) -> Option<[u32; 4]> {
    let answer = text
        .lines()
        .find_map(|line| line.strip_prefix(check)?.strip_prefix(": "))?;
    let numbers: Vec<u32> = answer
        .split(' ')
        .map(|number| number.parse().ok())
        .collect::<Option<_>>()?;
    numbers.try_into().ok()
}

/// The lines of the table below a heading and its line of column names.
fn table<'a>(text: &'a str, heading: &str) -> Vec<&'a str> {
    let below = text.lines().skip_while(|line| !line.starts_with(heading));
    below.skip(2).take_while(|line| !line.is_empty()).collect()
}

fn examples(folder: &str) -> PathBuf {
    Path::new(env!("CARGO_MANIFEST_DIR"))
        .join("../../examples")
        .join(folder)
}

/// Pseudo-random numbers (SplitMix64).
struct Random(u64);

impl Random {
    fn next(&mut self) -> u64 {
        self.0 = self.0.wrapping_add(0x9E37_79B9_7F4A_7C15);
        let mixed = (self.0 ^ (self.0 >> 30)).wrapping_mul(0xBF58_476D_1CE4_E5B9);
        let mixed = (mixed ^ (mixed >> 27)).wrapping_mul(0x94D0_49BB_1331_11EB);
        mixed ^ (mixed >> 31)
    }

    fn below(&mut self, limit: usize) -> usize {
        (self.next() % limit as u64) as usize
    }

    fn bytes(&mut self, length: usize) -> Vec<u8> {
        (0..length).map(|_| self.next() as u8).collect()
    }

    /// Entries from -`bound` to `bound`.
    fn entries(&mut self, count: u32, bound: u32) -> Vec<i32> {
        (0..count)
            .map(|_| self.below(2 * bound as usize + 1) as i32 - bound as i32)
            .collect()
    }

    /// A, B and the bias, within T and W.
    fn operands(&mut self, Terms { setting, bias_bound }: Terms) -> [Vec<i32>; 3] {
        let [rows, inner, columns] = [setting.rows, setting.inner, setting.columns];
        [
            self.entries(rows * inner, setting.bound),
            self.entries(inner * columns, setting.bound),
            self.entries(rows * columns, bias_bound.unwrap_or_default()),
        ]
    }

    /// A true ticket.
    fn ticket(&mut self, terms: Terms) -> Vec<u8> {
        written(terms, self.operands(terms).each_ref().map(Vec::as_slice))
    }
}
