//! The calls that are timed have to give the answers of the implementation written
//! apart, on tickets true, false and damaged and for all refusals. The kernels
//! have to do what the calls as one writes them first do, or plain loops.

use std::collections::BTreeSet;

use super::*;
use kernels::{four_of, Vector};

const P: u32 = 2_147_483_647;

fn apart_setting(setting: Setting) -> apart::Setting {
    let Setting {
        rows,
        inner,
        columns,
        vectors,
        scale,
        bound,
        width,
        rounding,
    } = setting;
    [rows, inner, columns, vectors, scale, bound, width, rounding].into()
}

/// The number of all programs' answer, which is that of the implementation apart.
fn number(setting: Setting, right: apart::Answer, answer: impl Fn(&Program) -> Answer) -> u32 {
    for (index, program) in PROGRAMS.iter().enumerate() {
        let answer = apart::Answer::from(answer(program).numbers());
        assert_eq!(answer, right, "program {index}, {setting:?}");
    }
    right.number
}

fn challenge_number(setting: Setting, ticket: &[u8], list: &[u32]) -> u32 {
    let right = apart::challenge_check(&apart_setting(setting), ticket, list);
    number(setting, right, |program| {
        (program.challenge_check)(setting, ticket, list)
    })
}

fn full_number(setting: Setting, ticket: &[u8]) -> u32 {
    let right = apart::full_check(&apart_setting(setting), ticket);
    number(setting, right, |program| (program.full_check)(setting, ticket))
}

/// The same of the writers, with an output of this length, which is not zeros
/// before.
fn writer_number(setting: Setting, a: &[i32], b: &[i32], length: usize) -> u32 {
    let before: Vec<u8> = (0..length).map(|index| (index * 89 + 7) as u8).collect();
    let mut right_output = before.clone();
    let right = apart::write_ticket(&apart_setting(setting), a, b, &mut right_output);
    number(setting, right, |program| {
        let mut output = before.clone();
        let answer = (program.write_ticket)(setting, a, b, &mut output);
        assert!(output == right_output, "{setting:?}");
        answer
    })
}

fn true_ticket(setting: Setting, a: &[i32], b: &[i32]) -> Vec<u8> {
    let mut ticket = vec![0; apart::make::ticket_length(&apart_setting(setting)) as usize];
    assert_eq!(straightforward::write_ticket(setting, a, b, &mut ticket).number, 0);
    ticket
}

/// SplitMix64.
struct Generator(u64);

impl Generator {
    fn next(&mut self) -> u64 {
        self.0 = self.0.wrapping_add(0x9e37_79b9_7f4a_7c15);
        let z = (self.0 ^ (self.0 >> 30)).wrapping_mul(0xbf58_476d_1ce4_e5b9);
        let z = (z ^ (z >> 27)).wrapping_mul(0x94d0_49bb_1331_11eb);
        z ^ (z >> 31)
    }

    /// From 0 to `count` - 1.
    fn below(&mut self, count: usize) -> usize {
        (self.next() % count as u64) as usize
    }

    fn choose<T: Copy>(&mut self, items: &[T]) -> T {
        items[self.below(items.len())]
    }

    /// From `least` to `greatest`, often one of the two.
    fn number(&mut self, least: u32, greatest: u32) -> u32 {
        match self.below(4) {
            0 => greatest,
            1 => least,
            _ => least + self.below((greatest - least + 1) as usize) as u32,
        }
    }

    /// A setting that fits, with numbers of all orders of magnitude and sizes that
    /// are multiples of `step` up to `size`, m up to twice that.
    fn setting(&mut self, step: u32, size: u32) -> Setting {
        loop {
            let greatest_scale = 1 << self.number(1, 16);
            let scale = self.number(2, greatest_scale);
            let width = self.number(1, 30);
            let inner = step * self.number(1, 2 * size / step);
            // The greatest bound that fits, if there is one.
            let half = 1u64 << (width - 1);
            let room = (half * u64::from(scale)).saturating_sub(u64::from(scale) - 1);
            let greatest = (room / u64::from(inner)).isqrt().min(32_767) as u32;
            if greatest == 0 || 2 * half * u64::from(scale) >= u64::from(P) {
                continue;
            }
            let bound = self.number(1, greatest);
            let room = room - u64::from(inner * bound * bound);
            return Setting {
                rows: step * self.number(1, size / step),
                inner,
                columns: step * self.number(1, size / step),
                vectors: self.number(1, 8),
                scale,
                bound,
                width,
                rounding: self.number(0, room.min(u64::from(scale) - 1) as u32),
            };
        }
    }

    /// A setting that the kernels take.
    fn kernel_setting(&mut self) -> Setting {
        loop {
            let mut setting = self.setting(8, 32);
            let greatest = (32_760 / setting.columns).min(65_535 / setting.inner);
            setting.bound = setting.bound.min(greatest);
            if kernels::fit(setting) {
                return setting;
            }
        }
    }

    /// The entries of a matrix: any, mostly the greatest ones, or only these.
    fn matrix(&mut self, setting: Setting, count: u32) -> Vec<i32> {
        let bound = setting.bound as i32;
        let kind = self.below(4);
        (0..count)
            .map(|_| {
                let any = self.below(2 * bound as usize + 1) as i32 - bound;
                match kind {
                    0 => bound,
                    1 => self.choose(&[-bound, bound]),
                    2 => self.choose(&[-bound, bound, 0, any]),
                    _ => any,
                }
            })
            .collect()
    }

    fn matrices(&mut self, setting: Setting) -> [Vec<i32>; 2] {
        [setting.rows * setting.inner, setting.inner * setting.columns].map(|count| self.matrix(setting, count))
    }

    /// A list: any numbers, numbers at the edges, or mostly zeros.
    fn list(&mut self, setting: Setting) -> Vec<u32> {
        let kind = self.below(4);
        (0..setting.vectors * setting.columns)
            .map(|_| match kind {
                0 => self.choose(&[0, 1, P - 1, 1 << 30, (1 << 30) - 1, 0x7fff_8000, 0x7fff]),
                1 if self.below(4) > 0 => 0,
                _ => self.below(P as usize) as u32,
            })
            .collect()
    }

    /// A value at the edge of some test.
    fn edge(&mut self, setting: Setting) -> u32 {
        let half = 1 << (setting.width - 1);
        let edge = self.choose(&[
            0,
            setting.bound,
            P - setting.bound,
            setting.scale,
            half,
            P - half,
            1 << 15,
            1 << 16,
            1 << 30,
            P,
            1 << 31,
            (1 << 31) + (1 << 15),
            u32::MAX - (1 << 15),
        ]);
        edge.wrapping_add_signed(self.choose(&[-2, -1, 0, 0, 1, 2]))
    }

    /// Changes a record.
    fn damage(&mut self, setting: Setting, ticket: &mut [u8]) {
        let index = self.below(ticket.len() / 8);
        let record = &mut ticket[8 * index..8 * index + 8];
        match self.below(4) {
            0 => record[self.below(8)] ^= 1 << self.below(8),
            1 => record[4..].copy_from_slice(&(self.next() as u32).to_le_bytes()),
            _ => record[4..].copy_from_slice(&self.edge(setting).to_le_bytes()),
        }
    }

    /// Puts another remainder in place of one.
    fn change_claim(&mut self, setting: Setting, ticket: &mut [u8]) {
        let claims = (setting.rows * setting.columns) as usize;
        let start = ticket.len() - 8 * (1 + self.below(claims));
        let value: &mut [u8; 4] = (&mut ticket[start + 4..start + 8]).try_into().unwrap();
        let change = 1 + self.below(setting.scale as usize - 1) as u32;
        *value = ((u32::from_le_bytes(*value) + change) % setting.scale).to_le_bytes();
    }
}

#[test]
fn all_agree_on_tickets() {
    let mut generator = Generator(1);
    let mut seen_challenge = BTreeSet::new();
    let mut seen_full = BTreeSet::new();
    for round in 0..1000 {
        let setting = generator.setting(1, if round % 8 == 0 { 32 } else { 4 });
        let [a, b] = generator.matrices(setting);
        let ticket = true_ticket(setting, &a, &b);
        let list = generator.list(setting);
        assert_eq!(writer_number(setting, &a, &b, ticket.len() + 19), 0);
        assert_eq!(full_number(setting, &ticket), 0);
        let mut vectors = list.chunks(setting.columns as usize);
        let of_zeros = vectors.any(|vector| vector.iter().all(|&number| number == 0));
        assert_eq!(challenge_number(setting, &ticket, &list), if of_zeros { 21 } else { 0 });
        for kind in 0..8 {
            let mut other = ticket.clone();
            match kind {
                0..=1 => generator.change_claim(setting, &mut other),
                _ => generator.damage(setting, &mut other),
            }
            seen_full.insert(full_number(setting, &other));
            seen_challenge.insert(challenge_number(setting, &other, &list));
        }
        let mut other = list.clone();
        let place = generator.below(other.len());
        other[place] = generator.choose(&[P - 1, P, P + 1, 1 << 31, u32::MAX]);
        seen_challenge.insert(challenge_number(setting, &ticket, &other));
    }
    assert_eq!(seen_full, BTreeSet::from([0, 5, 6, 7, 8, 9, 16]));
    assert_eq!(seen_challenge, BTreeSet::from([0, 5, 6, 7, 8, 9, 11, 12, 21]));
}

#[test]
fn all_agree_on_refusals() {
    let mut generator = Generator(2);
    let mut seen = BTreeSet::new();
    // The example's setting with each number in turn at and beside every limit, and
    // 2·8² + o + 19 ≤ 8·20, which holds up to o = 13.
    let k = apart::examples::K.numbers();
    let mut settings = Vec::new();
    for limit in [1, 2, 8, 10, 30, 32, 64, 32_767, 65_536] {
        for value in limit - 1..=limit + 1 {
            for field in 0..8 {
                let mut numbers = k;
                numbers[field] = value;
                settings.push(Setting::from(numbers));
            }
        }
    }
    settings.extend((12..=21).map(|rounding| Setting {
        scale: 20,
        width: 4,
        rounding,
        ..Setting::from(k)
    }));
    for setting in settings {
        seen.insert(challenge_number(setting, &[], &[]));
        seen.insert(full_number(setting, &[]));
        seen.insert(writer_number(setting, &[], &[], 0));
    }
    for _ in 0..300 {
        let setting = generator.setting(1, 5);
        let [mut a, b] = generator.matrices(setting);
        let ticket = true_ticket(setting, &a, &b);
        let list = generator.list(setting);
        let longer = [&ticket[..], &[0; 8]].concat();
        for length in [0, 8, ticket.len() - 8, ticket.len() - 1, ticket.len() + 1, longer.len()] {
            seen.insert(full_number(setting, &longer[..length]));
            seen.insert(challenge_number(setting, &longer[..length], &list));
            seen.insert(writer_number(setting, &a, &b, length));
        }
        let longer = [&list[..], &[0]].concat();
        for list in [&[], &list[1..], &longer] {
            seen.insert(challenge_number(setting, &ticket, list));
        }
        seen.insert(writer_number(setting, &a[1..], &b, ticket.len()));
        seen.insert(writer_number(setting, &a, &b[1..], ticket.len()));
        let bound = setting.bound as i32;
        let place = generator.below(a.len());
        a[place] = generator.choose(&[bound + 1, -bound - 1, 1 << 16, i32::MAX, i32::MIN]);
        seen.insert(writer_number(setting, &a, &b, ticket.len()));
    }
    assert_eq!(seen, BTreeSet::from([0, 1, 2, 3, 4, 10, 13, 14, 15, 19]));
}

fn narrow(matrix: &[i32]) -> Vec<i16> {
    matrix.iter().map(|&entry| entry as i16).collect()
}

/// The product of two matrices, by plain loops.
fn plain_sums(a: &[i32], b: &[i32], columns: usize) -> Vec<i32> {
    let inner = b.len() / columns;
    let sum = |i: usize, j: usize| (0..inner).map(|k| a[i * inner + k] * b[k * columns + j]).sum();
    let claims = a.len() / inner * columns;
    (0..claims).map(|claim| sum(claim / columns, claim % columns)).collect()
}

/// The product of numbers with those of a vector modulo p, by a plain loop.
fn plain_dot(numbers: impl Iterator<Item = i64>, vector: &[u32]) -> u32 {
    let products = numbers.zip(vector).map(|(x, &y)| x * i64::from(y) % i64::from(P));
    products.sum::<i64>().rem_euclid(i64::from(P)) as u32
}

/// u by the kernel, and its residues.
fn kernel_product(setting: Setting, ticket: &[u8], x: &[u32]) -> (Vec<kernels::Limbs>, Vec<u32>) {
    let mut u = vec![[four_of(0); 2]; setting.inner as usize / 2];
    kernels::product(kernels::parts(setting, ticket)[1], x, &mut u);
    // SAFETY: both are 16 bytes, all of which may have any value.
    let lanes = |vector: Vector| -> [i16; 8] { unsafe { std::mem::transmute(vector) } };
    let residues = u.iter().flat_map(|limbs| {
        let [low, high] = limbs.map(lanes);
        [0, 1].map(|index| {
            let number = i64::from(low[index]) + (i64::from(high[index]) << 16);
            number.rem_euclid(i64::from(P)) as u32
        })
    });
    let residues = residues.collect();
    (u, residues)
}

/// αq + r + α·2^(v-1) for each claim of a ticket, which is not negative.
fn lifted_claims(setting: Setting, ticket: &[u8]) -> Vec<u32> {
    let [_, _, quotients, remainders] = kernels::parts(setting, ticket);
    let value = |record: &[u8]| u32::from_le_bytes(record[4..].try_into().unwrap());
    let half = 1 << (setting.width - 1);
    quotients
        .chunks_exact(8)
        .zip(remainders.chunks_exact(8))
        .map(|(q, r)| setting.scale * ((value(q) + half) % P) + value(r))
        .collect()
}

#[test]
fn reading_kernel() {
    let mut generator = Generator(3);
    let agree = |setting: Setting, ticket: &[u8]| {
        // A list of the wrong length is refused after the records.
        let passed = straightforward::challenge_check(setting, ticket, &[]).number == 10;
        assert_eq!(kernels::reading(setting, ticket), passed, "{setting:?}");
    };
    for _ in 0..300 {
        let setting = generator.kernel_setting();
        let [a, b] = generator.matrices(setting);
        let ticket = true_ticket(setting, &a, &b);
        assert!(kernels::reading(setting, &ticket));
        for _ in 0..10 {
            let mut damaged = ticket.clone();
            generator.damage(setting, &mut damaged);
            agree(setting, &damaged);
        }
    }
    let input = Input::new([8, 8, 8]);
    let mut ticket = input.ticket;
    for bit in 0..8 * ticket.len() {
        ticket[bit / 8] ^= 1 << (bit % 8);
        agree(input.setting, &ticket);
        ticket[bit / 8] ^= 1 << (bit % 8);
    }
}

#[test]
fn product_kernel() {
    let mut generator = Generator(4);
    for _ in 0..300 {
        let setting = generator.kernel_setting();
        let columns = setting.columns as usize;
        let [a, b] = generator.matrices(setting);
        let ticket = true_ticket(setting, &a, &b);
        let x = &generator.list(setting)[..columns];
        let plain: Vec<u32> = b
            .chunks_exact(columns)
            .map(|row| plain_dot(row.iter().map(|&entry| i64::from(entry)), x))
            .collect();
        assert_eq!(kernel_product(setting, &ticket, x).1, plain, "{setting:?}");
    }
}

#[test]
fn rows_kernel() {
    let mut generator = Generator(5);
    let mut seen = BTreeSet::new();
    for _ in 0..300 {
        let setting = generator.kernel_setting();
        let [inner, columns] = [setting.inner, setting.columns].map(|columns| columns as usize);
        let [a, b] = generator.matrices(setting);
        let ticket = true_ticket(setting, &a, &b);
        let x = &generator.list(setting)[..columns];
        let (u, u_residues) = kernel_product(setting, &ticket, x);
        let a_by_rows = kernels::by_rows(&narrow(&a), inner);
        let lift = kernels::lift(setting);
        let mut claims = lifted_claims(setting, &ticket);
        assert!(kernels::rows(&a_by_rows, &claims, lift, x, &u), "{setting:?}");
        for _ in 0..4 {
            let place = generator.below(claims.len());
            claims[place] = generator.number(0, (setting.scale << setting.width) - 1);
            let plain = claims
                .chunks_exact(columns)
                .zip(a.chunks_exact(inner))
                .all(|(claims, a)| {
                    let left = plain_dot(claims.iter().map(|&claim| i64::from(claim) - i64::from(lift)), x);
                    left == plain_dot(a.iter().map(|&entry| i64::from(entry)), &u_residues)
                });
            assert_eq!(kernels::rows(&a_by_rows, &claims, lift, x, &u), plain, "{setting:?}");
            seen.insert(plain);
        }
    }
    assert_eq!(seen.len(), 2);
}

#[test]
fn sums_kernel() {
    let mut generator = Generator(6);
    for _ in 0..300 {
        let setting = generator.kernel_setting();
        let columns = setting.columns as usize;
        let [a, b] = generator.matrices(setting);
        let mut room = vec![four_of(0); 4 * setting.inner as usize];
        let mut sums = vec![0; (setting.rows * setting.columns) as usize];
        kernels::sums(&narrow(&a), &narrow(&b), columns, &mut room, &mut sums);
        assert_eq!(sums, plain_sums(&a, &b, columns), "{setting:?}");
    }
}

#[test]
fn records_kernel() {
    let mut generator = Generator(7);
    for _ in 0..300 {
        let setting = generator.kernel_setting();
        let [inner, columns] = [setting.inner, setting.columns].map(|columns| columns as usize);
        let [a, b] = generator.matrices(setting);
        let sums = plain_sums(&a, &b, columns);
        let [scale, rounding] = [setting.scale, setting.rounding].map(|number| number as i32);
        let quotients: Vec<i32> = sums.iter().map(|sum| (sum + rounding).div_euclid(scale)).collect();
        let remainders: Vec<i32> = sums.iter().map(|sum| (sum + rounding).rem_euclid(scale)).collect();
        let ticket = true_ticket(setting, &a, &b);
        let mut output = vec![0; ticket.len()];
        let parts = [
            (&a[..], inner),
            (&b, columns),
            (&quotients, columns),
            (&remainders, columns),
        ];
        kernels::records(parts, &mut output);
        assert!(output == ticket, "{setting:?}");
    }
}
