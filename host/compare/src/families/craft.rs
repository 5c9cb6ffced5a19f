//! The pieces that cases are made of.

use apart::examples::{self, A, B, BIAS};
use apart::Answer;

use crate::cases::{accepted, accepted_in_full, caught, refused, untrue, TicketCase, Visitor};
use crate::generator::Generator;
use crate::parts::Parts;
use crate::setting::{Form, Setting};

pub const P: u32 = apart::P as u32;

pub const K: Setting = Setting::plain(examples::K);

/// K with W = 23, the largest that fits.
pub const K_WITH_BIAS: Setting = Setting::with_bias(examples::K_WITH_BIAS);

/// K in either form.
pub fn k(form: Form) -> Setting {
    match form {
        Form::Plain => K,
        Form::Bias => K_WITH_BIAS,
    }
}

/// The largest setting, with quotients of few bits.
pub const LARGEST: Setting = Setting {
    rows: 32,
    inner: 64,
    columns: 32,
    vectors: 8,
    scale: 1000,
    bound: 100,
    width: 11,
    rounding: 0,
    bias_bound: None,
};

/// Settings of different shapes that fit, none large.
const SHAPES: [Setting; 5] = [
    K,
    Setting {
        rows: 1,
        inner: 1,
        columns: 1,
        vectors: 1,
        scale: 2,
        bound: 1,
        width: 1,
        rounding: 0,
        bias_bound: None,
    },
    Setting {
        rows: 3,
        inner: 2,
        columns: 1,
        vectors: 2,
        scale: 65_536,
        bound: 181,
        width: 13,
        rounding: 0,
        bias_bound: None,
    },
    Setting {
        rows: 1,
        inner: 4,
        columns: 3,
        vectors: 3,
        scale: 7,
        bound: 100,
        width: 28,
        rounding: 0,
        bias_bound: None,
    },
    // By one the first condition of fitting holds here.
    Setting {
        rows: 2,
        inner: 1,
        columns: 5,
        vectors: 8,
        scale: 32_767,
        bound: 32_767,
        width: 16,
        rounding: 0,
        bias_bound: None,
    },
];

/// A plain setting that fits, in either form: for bias tickets with the largest W
/// that fits.
pub fn in_form(setting: Setting, form: Form) -> Setting {
    match form {
        Form::Plain => setting,
        Form::Bias => Setting {
            bias_bound: Some(slack(&setting) as u32),
            ..setting
        },
    }
}

/// The shapes. With a bias, W is 23, 0, 268304399, 939484090 and 1.
pub fn shapes(form: Form) -> [Setting; 5] {
    SHAPES.map(|setting| in_form(setting, form))
}

/// The shapes and the largest setting.
pub fn shapes_and_largest(form: Form) -> impl Iterator<Item = Setting> {
    shapes(form).into_iter().chain([in_form(LARGEST, form)])
}

/// A number of a setting, with its limits. Those of o go by α, and it is not among
/// these.
pub struct Field {
    pub of: fn(&mut Setting) -> &mut u32,
    pub least: u32,
    pub greatest: u32,
    /// The answer to a number outside.
    pub refusal: u32,
}

const fn field(of: fn(&mut Setting) -> &mut u32, least: u32, greatest: u32, refusal: u32) -> Field {
    Field {
        of,
        least,
        greatest,
        refusal,
    }
}

const FIELDS: [Field; 8] = [
    field(|setting| &mut setting.rows, 1, 32, 1),
    field(|setting| &mut setting.inner, 1, 64, 1),
    field(|setting| &mut setting.columns, 1, 32, 1),
    field(|setting| &mut setting.vectors, 1, 8, 1),
    field(|setting| &mut setting.scale, 2, 65_536, 2),
    field(|setting| &mut setting.bound, 1, 32_767, 2),
    field(|setting| &mut setting.width, 1, 30, 2),
    field(|setting| setting.bias_bound.get_or_insert(0), 0, 1 << 30, 17),
];

/// The numbers of a setting of this form.
pub fn fields(form: Form) -> &'static [Field] {
    const ALL: &[Field] = &FIELDS;
    match form {
        Form::Plain => &ALL[..7],
        Form::Bias => ALL,
    }
}

/// What is left on the right of the first condition of fitting, m·T² + o + α - 1 ≤
/// 2^(v-1)·α, or m·T² + W + o + α - 1 ≤ 2^(v-1)·α, within the limits.
pub fn slack(setting: &Setting) -> i64 {
    let [m, t, alpha] = [setting.inner, setting.bound, setting.scale].map(i64::from);
    let [w, o] = [setting.greatest_bias(), setting.rounding].map(i64::from);
    (alpha << (setting.width - 1)) - (m * t * t + w + o + alpha - 1)
}

/// Whether a setting within the limits fits.
pub fn fits(setting: &Setting) -> bool {
    slack(setting) >= 0 && i64::from(setting.scale) << setting.width < i64::from(P)
}

/// A setting of the given sizes that fits: a bound of any number of bits, then
/// any scale and width that go with it, and then any W. Its o is 0.
pub fn fitting(generator: &mut Generator, form: Form, sizes: [u32; 4]) -> Setting {
    let setting = plain_fitting(generator, sizes);
    with_some_bias_bound(generator, form, setting)
}

/// A plain setting that fits, in either form: for bias tickets with any W.
pub fn with_some_bias_bound(generator: &mut Generator, form: Form, setting: Setting) -> Setting {
    match form {
        Form::Plain => setting,
        Form::Bias => Setting {
            bias_bound: Some(some_bias_bound(generator, &setting)),
            ..setting
        },
    }
}

/// A W with which a plain setting that fits still does: the largest that there
/// is, which makes quotients come near the ends of their range, 0, or one of any
/// number of bits.
fn some_bias_bound(generator: &mut Generator, setting: &Setting) -> u32 {
    let largest = slack(setting);
    let bound = match generator.below(8) {
        0..3 => largest,
        3 => 0,
        _ => {
            let bits = generator.between(1, 30);
            generator.between(0, largest.min((1 << bits) - 1))
        }
    };
    bound as u32
}

fn plain_fitting(generator: &mut Generator, [rows, inner, columns, vectors]: [u32; 4]) -> Setting {
    loop {
        let bits = generator.between(1, 15);
        let bound = generator.between(1, (1 << bits) - 1) as u32;
        let bits = generator.between(1, 16);
        let scale = generator.between(2, 1 << bits) as u32;
        let widths: Vec<Setting> = (1..=30)
            .map(|width| Setting::from([rows, inner, columns, vectors, scale, bound, width]))
            .filter(fits)
            .collect();
        // The smallest width makes quotients come near its ends.
        match widths.first() {
            Some(&smallest) if generator.once_in(2) => return smallest,
            Some(_) => return generator.choose(&widths),
            None => continue,
        }
    }
}

/// Random sizes up to the given ones.
pub fn sizes_up_to(generator: &mut Generator, greatest: [u32; 4]) -> [u32; 4] {
    greatest.map(|size| generator.between(1, i64::from(size)) as u32)
}

/// Rows, inner, columns and vectors.
pub fn sizes(setting: &Setting) -> [usize; 4] {
    [setting.rows, setting.inner, setting.columns, setting.vectors].map(|size| size as usize)
}

/// How many numbers A, B and the bias have, and how many claims there are.
pub fn counts(setting: &Setting) -> [usize; 4] {
    let [rows, inner, columns, _] = sizes(setting);
    let of_bias = match setting.form() {
        Form::Plain => 0,
        Form::Bias => rows * columns,
    };
    [rows * inner, inner * columns, of_bias, rows * columns]
}

/// The parts of a true ticket with random entries.
pub fn true_parts(generator: &mut Generator, setting: &Setting) -> Parts {
    let [a, b, bias] = operands(generator, setting);
    Parts::true_ones(setting, &a, &b, &bias)
}

/// A, B and, for bias tickets, a bias with random entries, one in eight of them at an
/// end of the range.
pub fn operands(generator: &mut Generator, setting: &Setting) -> [Vec<i64>; 3] {
    let [of_a, of_b, of_bias, _] = counts(setting);
    let operands = [
        (of_a, setting.bound),
        (of_b, setting.bound),
        (of_bias, setting.greatest_bias()),
    ];
    operands.map(|(count, bound)| {
        let bound = i64::from(bound);
        (0..count)
            .map(|_| match generator.below(16) {
                0 => bound,
                1 => -bound,
                _ => generator.between(-bound, bound),
            })
            .collect()
    })
}

/// The parts of the true ticket whose operands are zeros only. The remainders are
/// o, and all else is 0.
pub fn zeros(setting: &Setting) -> Parts {
    let [of_a, of_b, of_bias, claims] = counts(setting);
    Parts {
        a: vec![0; of_a],
        b: vec![0; of_b],
        bias: vec![0; of_bias],
        quotients: vec![0; claims],
        remainders: vec![i64::from(setting.rounding); claims],
    }
}

/// A list of the right length with random residues, one in eight of them 0, 1 or
/// p - 1.
pub fn list(generator: &mut Generator, setting: &Setting) -> Vec<u32> {
    let [_, _, columns, vectors] = sizes(setting);
    (0..vectors * columns)
        .map(|_| match generator.below(24) {
            0 => 0,
            1 => 1,
            2 => P - 1,
            _ => generator.word() % P,
        })
        .collect()
}

/// A list of the right length without a zero.
pub fn list_without_zero(generator: &mut Generator, setting: &Setting) -> Vec<u32> {
    let mut list = list(generator, setting);
    for number in &mut list {
        *number = (*number).max(1);
    }
    list
}

/// A well-formed list: the same as `list`, with 1 last in each vector of zeros.
pub fn well_formed_list(generator: &mut Generator, setting: &Setting) -> Vec<u32> {
    let mut list = list(generator, setting);
    let columns = setting.columns as usize;
    while let Some(t) = first_of_zeros(setting, &list) {
        list[(t + 1) * columns - 1] = 1;
    }
    list
}

/// The first vector of a list that is of zeros alone.
pub fn first_of_zeros(setting: &Setting, list: &[u32]) -> Option<usize> {
    list.chunks(setting.columns as usize)
        .position(|x| x.iter().max() == Some(&0))
}

/// The answer to a list of the right length whose numbers are below p: 21 where a
/// vector is of zeros, and this one where the list is well formed.
pub fn unless_zeros(setting: &Setting, list: &[u32], answer: Answer) -> Answer {
    match first_of_zeros(setting, list) {
        Some(t) => refused(21, t),
        None => answer,
    }
}

/// Puts another claim, or another entry of the bias, within the ranges at row i,
/// column j. The claim is untrue when the former was true: αq + r takes each value
/// once.
pub fn falsify(generator: &mut Generator, setting: &Setting, parts: &mut Parts, i: usize, j: usize) {
    let place = i * setting.columns as usize + j;
    if setting.greatest_bias() > 0 && generator.once_in(3) {
        falsify_bias(generator, setting, parts, place);
        return;
    }
    let half = 1 << (setting.width - 1);
    let alpha = i64::from(setting.scale);
    let (quotient, remainder) = (parts.quotients[place], parts.remainders[place]);
    loop {
        let (other_quotient, other_remainder) = match generator.below(4) {
            0 => (quotient + generator.choose(&[-1, 1]), remainder),
            1 => (quotient, remainder + generator.choose(&[-1, 1])),
            2 => (generator.between(-half, half - 1), remainder),
            _ => (generator.between(-half, half - 1), generator.between(0, alpha - 1)),
        };
        let in_range = (-half..half).contains(&other_quotient) && (0..alpha).contains(&other_remainder);
        if in_range && (other_quotient, other_remainder) != (quotient, remainder) {
            parts.quotients[place] = other_quotient;
            parts.remainders[place] = other_remainder;
            return;
        }
    }
}

/// Puts another entry of the bias within its range, which is not 0 alone, at a
/// place i·n + j.
pub fn falsify_bias(generator: &mut Generator, setting: &Setting, parts: &mut Parts, place: usize) {
    let bound = i64::from(setting.greatest_bias());
    let entry = parts.bias[place];
    loop {
        let other = match generator.below(4) {
            0 => entry + generator.choose(&[-1, 1]),
            1 => generator.choose(&[-bound, bound]),
            _ => generator.between(-bound, bound),
        };
        if other.abs() <= bound && other != entry {
            parts.bias[place] = other;
            return;
        }
    }
}

/// αq + r - o - S, or αq + r - o - S - c, in every place, row by row.
pub fn differences(setting: &Setting, parts: &Parts) -> Vec<i128> {
    let [alpha, o] = [setting.scale, setting.rounding].map(i128::from);
    parts
        .sums(setting)
        .into_iter()
        .zip(parts.quotients.iter().zip(&parts.remainders))
        .map(|(sum, (&q, &r))| alpha * i128::from(q) + i128::from(r) - o - sum)
        .collect()
}

/// The challenge check's answer to a ticket within the ranges and a well-formed
/// list, found by the exact sums and not by u: row i is caught when the
/// differences of the row, times X, do not add up to 0 modulo p.
pub fn by_sums(setting: &Setting, parts: &Parts, list: &[u32]) -> Answer {
    let columns = setting.columns as usize;
    let differences = differences(setting, parts);
    for (t, x) in list.chunks(columns).enumerate() {
        for (i, row) in differences.chunks(columns).enumerate() {
            let sum: i128 = row.iter().zip(x).map(|(&d, &x)| d * i128::from(x)).sum();
            if sum.rem_euclid(apart::P) != 0 {
                return caught(setting, t, i);
            }
        }
    }
    accepted(setting)
}

/// The same to a list of the right length whose numbers are below p.
pub fn by_list(setting: &Setting, parts: &Parts, list: &[u32]) -> Answer {
    unless_zeros(setting, list, by_sums(setting, parts, list))
}

/// The full check's answer to a ticket whose entries of A and B are within their
/// range: its first entry of the bias out of range, then its first quotient, then
/// its first remainder, then its first claim that is not true.
pub fn full_by_sums(setting: &Setting, parts: &Parts) -> Answer {
    let w = i64::from(setting.greatest_bias());
    let half = 1 << (setting.width - 1);
    let alpha = i64::from(setting.scale);
    let first_bias = parts.a.len() + parts.b.len();
    let first_quotient = first_bias + parts.bias.len();
    let first_remainder = first_quotient + parts.quotients.len();
    if let Some(index) = parts.bias.iter().position(|c| c.abs() > w) {
        return refused(18, first_bias + index);
    }
    if let Some(index) = parts.quotients.iter().position(|q| !(-half..half).contains(q)) {
        return refused(8, first_quotient + index);
    }
    if let Some(index) = parts.remainders.iter().position(|r| !(0..alpha).contains(r)) {
        return refused(9, first_remainder + index);
    }
    match differences(setting, parts)
        .iter()
        .position(|&difference| difference != 0)
    {
        Some(place) => untrue(setting, place),
        None => accepted_in_full(setting),
    }
}

/// Visits both checks of a ticket within the ranges, with a list of the right length
/// whose numbers are below p.
pub fn visit_claims(visit: &mut Visitor, what: &'static str, setting: &Setting, parts: &Parts, list: &[u32]) {
    let case = claims_case(what, setting, parts, list);
    visit.challenge(&case);
    visit.full(what, setting, &case.ticket, Some(full_by_sums(setting, parts)));
}

/// The case of a ticket within the ranges and such a list.
pub fn claims_case(what: &'static str, setting: &Setting, parts: &Parts, list: &[u32]) -> TicketCase {
    TicketCase {
        what,
        setting: *setting,
        ticket: parts.ticket(setting),
        list: list.to_vec(),
        expected: Some(by_list(setting, parts, list)),
    }
}

/// The true ticket of K with X = (1, 2), case c, or the same with a bias.
pub fn case_c(form: Form) -> TicketCase {
    let setting = k(form);
    TicketCase {
        what: "case c",
        setting,
        ticket: Parts::true_ones(&setting, &A, &B, &BIAS).ticket(&setting),
        list: vec![1, 2],
        expected: Some(accepted(&setting)),
    }
}

/// Puts a value into a record.
pub fn set_value(ticket: &mut [u8], record: usize, value: u32) {
    ticket[8 * record + 4..8 * record + 8].copy_from_slice(&value.to_le_bytes());
}
