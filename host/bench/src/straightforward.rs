//! The calls as one writes them first: safe Rust, ordinary indexing, the values
//! in vectors, 64-bit arithmetic, every product modulo p reduced at once with
//! `% P`. The same tests in the same order.

#![forbid(unsafe_code)]
#![allow(clippy::needless_range_loop)]

use dikdumar::{Answer, Setting};

const P: u64 = 2_147_483_647;

pub fn challenge_check(setting: Setting, ticket: &[u8], list: &[u32]) -> Answer {
    let values = match read(setting, ticket) {
        Ok(values) => values,
        Err(refusal) => return refusal,
    };
    let scale = u64::from(setting.scale);
    let rounding = u64::from(setting.rounding);
    let rows = setting.rows as usize;
    let inner = setting.inner as usize;
    let columns = setting.columns as usize;
    let vectors = setting.vectors as usize;

    if list.len() != vectors * columns {
        return refused(10, 0);
    }
    for (index, &number) in list.iter().enumerate() {
        if u64::from(number) >= P {
            return refused(11, index);
        }
    }
    for t in 0..vectors {
        if list[t * columns..(t + 1) * columns].iter().all(|&number| number == 0) {
            return refused(21, t);
        }
    }

    let a = &values[..rows * inner];
    let b = &values[rows * inner..rows * inner + inner * columns];
    let quotients = &values[rows * inner + inner * columns..rows * inner + inner * columns + rows * columns];
    let remainders = &values[rows * inner + inner * columns + rows * columns..];
    let mut claims = vec![0; rows * columns];
    for index in 0..claims.len() {
        claims[index] = (scale * quotients[index] + remainders[index] + P - rounding) % P;
    }

    let mut u = vec![0; inner];
    let mut products = 0;
    for t in 0..vectors {
        let x = &list[t * columns..(t + 1) * columns];
        for k in 0..inner {
            let mut sum = 0;
            for j in 0..columns {
                sum = (sum + b[k * columns + j] * u64::from(x[j])) % P;
            }
            u[k] = sum;
        }
        products += inner * columns;
        for i in 0..rows {
            let mut left = 0;
            for j in 0..columns {
                left = (left + claims[i * columns + j] * u64::from(x[j])) % P;
            }
            let mut right = 0;
            for k in 0..inner {
                right = (right + a[i * inner + k] * u[k]) % P;
            }
            products += columns + inner;
            if left != right {
                return Answer {
                    number: 12,
                    place: t as u32,
                    row: i as u32,
                    products: products as u32,
                };
            }
        }
    }
    Answer {
        number: 0,
        place: 0,
        row: 0,
        products: products as u32,
    }
}

pub fn full_check(setting: Setting, ticket: &[u8]) -> Answer {
    let values = match read(setting, ticket) {
        Ok(values) => values,
        Err(refusal) => return refusal,
    };
    let rows = setting.rows as usize;
    let inner = setting.inner as usize;
    let columns = setting.columns as usize;
    let mut entries = vec![0; values.len()];
    for index in 0..entries.len() {
        entries[index] = to_signed(values[index]);
    }
    let a = &entries[..rows * inner];
    let b = &entries[rows * inner..rows * inner + inner * columns];
    let quotients = &entries[rows * inner + inner * columns..rows * inner + inner * columns + rows * columns];
    let remainders = &entries[rows * inner + inner * columns + rows * columns..];
    for i in 0..rows {
        for j in 0..columns {
            let mut sum = 0;
            for k in 0..inner {
                sum += a[i * inner + k] * b[k * columns + j];
            }
            let place = i * columns + j;
            let claim = i64::from(setting.scale) * quotients[place] + remainders[place] - i64::from(setting.rounding);
            if claim != sum {
                return Answer {
                    number: 16,
                    place: place as u32,
                    row: 0,
                    products: (inner * (place + 1)) as u32,
                };
            }
        }
    }
    Answer {
        number: 0,
        place: 0,
        row: 0,
        products: (rows * inner * columns) as u32,
    }
}

pub fn write_ticket(setting: Setting, a: &[i32], b: &[i32], output: &mut [u8]) -> Answer {
    if let Some(number) = setting_refusal(setting) {
        return refused(number, 0);
    }
    let rows = setting.rows as usize;
    let inner = setting.inner as usize;
    let columns = setting.columns as usize;
    if a.len() != rows * inner {
        return refused(13, 0);
    }
    if b.len() != inner * columns {
        return refused(13, 1);
    }
    let bound = i64::from(setting.bound);
    for index in 0..a.len() {
        if i64::from(a[index]).abs() > bound {
            return refused(14, index);
        }
    }
    for index in 0..b.len() {
        if i64::from(b[index]).abs() > bound {
            return refused(14, a.len() + index);
        }
    }
    let length = 8 * (rows * inner + inner * columns + 2 * rows * columns);
    if output.len() < length {
        return refused(15, 0);
    }

    for i in 0..rows {
        for k in 0..inner {
            write_record(output, i * inner + k, 1, i, k, i64::from(a[i * inner + k]));
        }
    }
    for k in 0..inner {
        for j in 0..columns {
            let index = rows * inner + k * columns + j;
            write_record(output, index, 2, k, j, i64::from(b[k * columns + j]));
        }
    }
    let scale = i64::from(setting.scale);
    for i in 0..rows {
        for j in 0..columns {
            let mut sum = i64::from(setting.rounding);
            for k in 0..inner {
                sum += i64::from(a[i * inner + k]) * i64::from(b[k * columns + j]);
            }
            let index = rows * inner + inner * columns + i * columns + j;
            write_record(output, index, 3, i, j, sum.div_euclid(scale));
            write_record(output, index + rows * columns, 4, i, j, sum.rem_euclid(scale));
        }
    }
    Answer {
        number: 0,
        place: length as u32,
        row: 0,
        products: (rows * inner * columns) as u32,
    }
}

/// The number of the test of 1, 2, 19 and 3 that the setting does not pass.
fn setting_refusal(setting: Setting) -> Option<u32> {
    if !within(setting.rows, 1, 32)
        || !within(setting.inner, 1, 64)
        || !within(setting.columns, 1, 32)
        || !within(setting.vectors, 1, 8)
    {
        return Some(1);
    }
    if !within(setting.scale, 2, 65_536) || !within(setting.bound, 1, 32_767) || !within(setting.width, 1, 30) {
        return Some(2);
    }
    if setting.rounding >= setting.scale {
        return Some(19);
    }
    let scale = u64::from(setting.scale);
    let bound = u64::from(setting.bound);
    let greatest = u64::from(setting.inner) * bound * bound + u64::from(setting.rounding);
    let half = 1u64 << (setting.width - 1);
    if greatest + scale - 1 > half * scale || 2 * half * scale >= P {
        return Some(3);
    }
    None
}

/// The values of the four parts, one after another, after the tests before 10.
fn read(setting: Setting, ticket: &[u8]) -> Result<Vec<u64>, Answer> {
    if let Some(number) = setting_refusal(setting) {
        return Err(refused(number, 0));
    }
    let scale = u64::from(setting.scale);
    let bound = u64::from(setting.bound);
    let half = 1u64 << (setting.width - 1);
    let rows = setting.rows as usize;
    let inner = setting.inner as usize;
    let columns = setting.columns as usize;
    if ticket.len() != 8 * (rows * inner + inner * columns + 2 * rows * columns) {
        return Err(refused(4, 0));
    }

    let mut values = Vec::with_capacity(ticket.len() / 8);
    for (kind, height, width) in [
        (1, rows, inner),
        (2, inner, columns),
        (3, rows, columns),
        (4, rows, columns),
    ] {
        for row in 0..height {
            for column in 0..width {
                let index = values.len();
                let record = &ticket[8 * index..8 * index + 8];
                if record[0] != kind || record[1] != 0 || record[2] as usize != row || record[3] as usize != column {
                    return Err(refused(5, index));
                }
                let value = u64::from(u32::from_le_bytes([record[4], record[5], record[6], record[7]]));
                if value >= P {
                    return Err(refused(6, index));
                }
                match kind {
                    1 | 2 => {
                        if value > bound && value < P - bound {
                            return Err(refused(7, index));
                        }
                    }
                    3 => {
                        if (value + half) % P >= 2 * half {
                            return Err(refused(8, index));
                        }
                    }
                    _ => {
                        if value >= scale {
                            return Err(refused(9, index));
                        }
                    }
                }
                values.push(value);
            }
        }
    }
    Ok(values)
}

fn write_record(output: &mut [u8], index: usize, kind: u8, row: usize, column: usize, number: i64) {
    let value = number.rem_euclid(P as i64) as u32;
    let record = &mut output[8 * index..8 * index + 8];
    record[0] = kind;
    record[1] = 0;
    record[2] = row as u8;
    record[3] = column as u8;
    record[4..].copy_from_slice(&value.to_le_bytes());
}

fn to_signed(value: u64) -> i64 {
    if value <= (P - 1) / 2 {
        value as i64
    } else {
        value as i64 - P as i64
    }
}

fn within(number: u32, least: u32, greatest: u32) -> bool {
    least <= number && number <= greatest
}

fn refused(number: u32, place: usize) -> Answer {
    Answer {
        number,
        place: place as u32,
        row: 0,
        products: 0,
    }
}
