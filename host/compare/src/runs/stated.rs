//! The answer that the rules state, worked out from the numbers that a ticket was made
//! of, with none of its bytes read, so that an error of both sides is noticed.

use apart::{Answer, Mark, Run, RunAnswer};

use super::craft::Lent;
use crate::cases::{accepted, caught, refused};
use crate::families::craft::{first_of_zeros, sizes, P};
use crate::families::settings;
use crate::parts::Parts;
use crate::setting::Setting;

/// The state of a begin that is refused.
pub const ZEROS: Run = Run {
    setting: apart::Setting {
        rows: 0,
        inner: 0,
        columns: 0,
        vectors: 0,
        scale: 0,
        bound: 0,
        width: 0,
        rounding: 0,
    },
    list: [0; 256],
    list_length: 0,
    vector: 0,
    row: 0,
    u: [0; 64],
    caught: 0,
};

/// The answer to a begin, unless it is not known what reading the ticket gives.
pub fn begin(setting: &Setting, ticket: &Lent, list: &[u32]) -> Option<RunAnswer> {
    let tested = read(setting, ticket)?.and_then(|_| test_list(setting, 0, setting.vectors, list));
    Some(match tested {
        Err(answer) => refusal(&ZEROS, answer),
        Ok(()) => {
            let mut run = ZEROS;
            run.setting = setting.numbers().into();
            run.list[..list.len()].copy_from_slice(list);
            run.list_length = list.len() as u32;
            told(&run)
        }
    })
}

/// The same to a step.
pub fn step(run: &Run, ticket: &Lent) -> Option<RunAnswer> {
    let read = read(&Setting::plain(run.setting), ticket)?;
    Some(match read.and_then(|parts| test_held(run).map(|()| parts)) {
        Err(answer) => refusal(run, answer),
        Ok(parts) => match told(run) {
            under_way if under_way.mark == Mark::UnderWay => told(&after_row(run, parts)),
            ended => ended,
        },
    })
}

/// The answer to an addition.
pub fn add(run: &Run, vector: &[u32]) -> RunAnswer {
    match test_addition(run, vector) {
        Err(answer) => refusal(run, answer),
        Ok(()) => {
            let mut longer = *run;
            let end = run.list_length as usize;
            longer.list[end..end + vector.len()].copy_from_slice(vector);
            longer.list_length += run.setting.columns;
            longer.setting.vectors += 1;
            told(&longer)
        }
    }
}

/// A refusal, which hands this state back.
pub fn refusal(run: &Run, answer: Answer) -> RunAnswer {
    RunAnswer {
        run: *run,
        mark: Mark::Refused,
        answer,
    }
}

/// The mark and the numbers of a state whose setting passes its tests. Beyond the end of
/// t or of row it is complete, whatever else it says.
pub fn told(run: &Run) -> RunAnswer {
    let setting = Setting::plain(run.setting);
    let (t, i) = (run.vector, run.row);
    let (mark, answer) = match (t < setting.vectors && i < setting.rows, run.caught) {
        (false, _) => (Mark::Complete, accepted(&setting)),
        (true, 0) => (Mark::UnderWay, Answer::from([0, t, i, products_so_far(&setting, t, i)])),
        (true, _) => (Mark::Caught, caught(&setting, t as usize, i as usize)),
    };
    RunAnswer {
        run: *run,
        mark,
        answer,
    }
}

/// t(mn + ℓn + ℓm), mn once row 0 is done, and row(n + m).
fn products_so_far(setting: &Setting, t: u32, row: u32) -> u32 {
    let [l, m, n] = [setting.rows, setting.inner, setting.columns];
    let of_u = if row > 0 { m * n } else { 0 };
    t * (m * n + l * n + l * m) + of_u + row * (n + m)
}

/// The tests of the setting, and then what reading the ticket gives.
fn read<'a>(setting: &Setting, ticket: &'a Lent) -> Option<Result<&'a Parts, Answer>> {
    match settings::refusal(setting) {
        Some(answer) => Some(Err(answer)),
        None => ticket.reading(setting),
    }
}

/// The tests 10, 11 and 21 on the numbers of so many vectors, the first of which is
/// vector t.
fn test_list(setting: &Setting, t: u32, count: u32, numbers: &[u32]) -> Result<(), Answer> {
    let columns = setting.columns as usize;
    let t = t as usize;
    if numbers.len() != count as usize * columns {
        return Err(refused(10, 0));
    }
    if let Some(index) = numbers.iter().position(|&number| number >= P) {
        return Err(refused(11, t * columns + index));
    }
    match first_of_zeros(setting, numbers) {
        Some(index) => Err(refused(21, t + index)),
        None => Ok(()),
    }
}

/// The same on the list of a state. A length that is right is at most 256.
fn test_held(run: &Run) -> Result<(), Answer> {
    let setting = Setting::plain(run.setting);
    if run.list_length != setting.vectors * setting.columns {
        return Err(refused(10, 0));
    }
    test_list(&setting, 0, setting.vectors, &run.list[..run.list_length as usize])
}

/// All tests of an addition.
fn test_addition(run: &Run, vector: &[u32]) -> Result<(), Answer> {
    let setting = Setting::plain(run.setting);
    if let Some(answer) = settings::refusal(&setting) {
        return Err(answer);
    }
    test_held(run)?;
    test_list(&setting, setting.vectors, 1, vector)?;
    let is_under_way = told(run).mark == Mark::UnderWay;
    if is_under_way && setting.vectors < 8 {
        Ok(())
    } else {
        Err(refused(22, 0))
    }
}

/// The state after the next row of a run that is under way.
fn after_row(run: &Run, parts: &Parts) -> Run {
    let setting = Setting::plain(run.setting);
    let [rows, inner, columns, _] = sizes(&setting);
    let (t, i) = (run.vector as usize, run.row as usize);
    let x = &run.list[t * columns..(t + 1) * columns];
    let mut next = *run;
    if i == 0 {
        next.u[..inner].copy_from_slice(&product(&setting, parts, x));
    }
    let [alpha, o] = [setting.scale, setting.rounding].map(i64::from);
    let claims = (0..columns).map(|j| {
        let place = i * columns + j;
        i128::from(alpha * parts.quotients[place] + parts.remainders[place] - o) * i128::from(x[j])
    });
    let entries = (0..inner).map(|k| i128::from(parts.a[i * inner + k]) * i128::from(next.u[k]));
    let difference = claims.sum::<i128>() - entries.sum::<i128>();
    if difference.rem_euclid(apart::P) != 0 {
        next.caught = 1;
    } else if i + 1 < rows {
        next.row += 1;
    } else {
        next.row = 0;
        next.vector += 1;
    }
    next
}

/// B times X modulo p.
pub fn product(setting: &Setting, parts: &Parts, x: &[u32]) -> Vec<u32> {
    let row = |b: &[i64]| -> i128 { b.iter().zip(x).map(|(&b, &x)| i128::from(b) * i128::from(x)).sum() };
    let rows = parts.b.chunks(setting.columns as usize);
    rows.map(|b| row(b).rem_euclid(apart::P) as u32).collect()
}

#[cfg(test)]
mod tests {
    use super::*;
    use crate::families::craft::K;

    /// Of K, with 4 products of u and 4 of each row.
    #[test]
    fn products_so_far_under_k() {
        let counts = [[0, 0], [0, 1], [1, 0], [1, 1], [7, 1]].map(|[t, row]| products_so_far(&K, t, row));
        assert_eq!(counts, [0, 8, 12, 20, 92]);
    }

    /// Before a row it is what a check has counted that is caught in the row before.
    #[test]
    fn products_so_far_are_those_of_a_check_up_to_there() {
        let setting = Setting::from([3, 5, 2, 8, 10, 8, 6]);
        for t in 0..8 {
            for row in 1..3 {
                let before = caught(&setting, t as usize, row as usize - 1);
                assert_eq!(products_so_far(&setting, t, row), before.products);
            }
            let vectors = Setting { vectors: t, ..setting };
            assert_eq!(products_so_far(&setting, t, 0), accepted(&vectors).products);
        }
    }
}
