//! Folders drawn at random from fixed seeds, under small settings.

use apart::make::Parts;
use apart::{challenge_check, Setting};

use crate::case::{Case, Entry};
use crate::random::Random;
use crate::sample::{accepted, caught, refused, unless_zeros, Sample, P};

const TRUE: usize = 20;
const FALSE: usize = 30;
const DAMAGED: usize = 35;
const OF_ANOTHER: usize = 25;

/// Which rounding numbers the settings have.
#[derive(Clone, Copy, Debug, PartialEq, Eq)]
pub enum Rounding {
    Zero,
    Drawn,
}

/// All accepted, if no vector is of zeros.
pub fn true_tickets(rounding: Rounding) -> Vec<Case> {
    let mut random = Random::new(1);
    (0..TRUE)
        .map(|k| {
            let (sample, _) = draw(&mut random, rounding);
            let case = sample.case(format!("true ticket {k} {:?}", sample.setting.numbers()));
            case.states(unless_zeros(&sample.setting, &sample.list, accepted(&sample.setting)))
        })
        .collect()
}

/// One claim is changed, within its range: caught in its row by the first vector
/// that is not 0 in its column, if no vector is of zeros. The change is less than
/// 2^v·α, which is below p.
pub fn false_tickets(rounding: Rounding) -> Vec<Case> {
    let mut random = Random::new(2);
    (0..FALSE)
        .map(|k| {
            let (mut sample, mut parts) = draw(&mut random, rounding);
            let setting = sample.setting;
            let columns = setting.columns as usize;
            let changed = random.index(parts.quotients.len());
            let (row, column) = (changed / columns, changed % columns);
            change(&mut random, &setting, &mut parts, changed);
            // The first few vectors don't see it.
            let unseen = random.index(setting.vectors as usize + 1);
            for t in 0..unseen {
                sample.list[t * columns + column] = 0;
            }
            let line = match (0..setting.vectors).find(|&t| sample.list[t as usize * columns + column] != 0) {
                Some(t) => caught(&setting, t, row as u32),
                None => accepted(&setting),
            };
            sample.ticket = parts.ticket(&setting);
            let case = sample.case(format!("false ticket {k} {:?}", setting.numbers()));
            case.states(unless_zeros(&setting, &sample.list, line))
        })
        .collect()
}

/// Bytes changed, cut off or put in, in any of the files; in a setting file before
/// o, which is 0.
pub fn damaged_files() -> Vec<Case> {
    let mut random = Random::new(3);
    (0..DAMAGED)
        .map(|k| {
            let (sample, _) = draw(&mut random, Rounding::Zero);
            let mut case = sample.case(format!("damaged files {k} {:?}", sample.setting.numbers()));
            for _ in 0..=random.index(2) {
                let (entry, kept) = match random.index(4) {
                    0 => (&mut case.setting, 4),
                    1 | 2 => (&mut case.ticket, 0),
                    _ => (&mut case.challenge, 0),
                };
                if let Entry::Bytes(bytes) = entry {
                    let end = bytes.split_off(bytes.len() - kept);
                    damage(&mut random, bytes);
                    bytes.extend(end);
                }
            }
            case
        })
        .collect()
}

/// True tickets of one drawn o under another.
pub fn tickets_of_another() -> Vec<Case> {
    let mut random = Random::new(4);
    let mut cases = Vec::new();
    while cases.len() < OF_ANOTHER {
        let (sample, _) = draw(&mut random, Rounding::Drawn);
        let rounding = draw_rounding(&mut random, sample.setting.scale);
        if rounding != sample.setting.rounding {
            cases.push(under_another(&mut random, sample, rounding));
        }
    }
    cases
}

/// True tickets of a drawn o, of which each bit in its turn is changed.
pub fn changed_bits() -> Vec<Case> {
    let mut random = Random::new(5);
    (0..u32::BITS)
        .map(|bit| {
            let (sample, _) = draw(&mut random, Rounding::Drawn);
            let rounding = sample.setting.rounding ^ (1 << bit);
            under_another(&mut random, sample, rounding)
        })
        .collect()
}

/// The ticket under another o, by which every claim is off by the same: caught in
/// row 0 by the first vector whose numbers don't sum to 0, if that o is below α, the
/// setting fits with it and no vector is of zeros.
fn under_another(random: &mut Random, mut sample: Sample, rounding: u32) -> Case {
    let before = sample.setting.rounding;
    let setting = Setting {
        rounding,
        ..sample.setting
    };
    sample.setting = setting;
    // The first few vectors don't see it; of one number those would be of zeros.
    let columns = setting.columns as usize;
    let unseen = random.index(setting.vectors as usize + 1);
    let unseen = if columns == 1 { 0 } else { unseen };
    for vector in sample.list.chunks_mut(columns).take(unseen) {
        let (last, others) = vector.split_last_mut().expect("a column");
        *last = (P - sum(others)) % P;
    }
    let seeing = sample.list.chunks(columns).position(|vector| sum(vector) != 0);
    let line = if rounding >= setting.scale {
        refused(19, 0)
    } else if left_side(&setting) > u64::from(setting.scale) << (setting.width - 1) {
        refused(3, 0)
    } else {
        let line = match seeing {
            Some(t) => caught(&setting, t as u32, 0),
            None => accepted(&setting),
        };
        unless_zeros(&setting, &sample.list, line)
    };
    let case = sample.case(format!("the ticket of o = {before} under {:?}", setting.numbers()));
    case.states(line)
}

/// m·T² + o + α - 1.
fn left_side(setting: &Setting) -> u64 {
    let [m, bound, rounding, scale] = [setting.inner, setting.bound, setting.rounding, setting.scale].map(u64::from);
    m * bound * bound + rounding + scale - 1
}

/// The sum of these numbers modulo p.
fn sum(numbers: &[u32]) -> u32 {
    numbers.iter().fold(0, |sum, &number| apart::add(sum, number))
}

/// A true ticket of drawn operands and a drawn list.
fn draw(random: &mut Random, rounding: Rounding) -> (Sample, Parts) {
    let setting = draw_setting(random, rounding);
    let [l, m, n] = [setting.rows, setting.inner, setting.columns];
    let bound = i64::from(setting.bound);
    let mut entries = |count: u32| -> Vec<i64> {
        (0..count)
            .map(|_| match random.index(8) {
                0 => bound,
                1 => -bound,
                _ => random.between(-bound, bound),
            })
            .collect()
    };
    let (a, b) = (entries(l * m), entries(m * n));
    let list = (0..setting.vectors * n).map(|_| draw_number(random)).collect();
    let parts = Parts::true_ones(&setting, &a, &b);
    let sample = Sample {
        setting,
        ticket: parts.ticket(&setting),
        list,
    };
    (sample, parts)
}

/// Sizes up to 6 and, of the drawn scales, bounds, widths and rounding numbers,
/// some that fit.
fn draw_setting(random: &mut Random, rounding: Rounding) -> Setting {
    loop {
        // Small ones are as likely as large ones.
        let mut up_to = |bits: i64| {
            let limit = 1 << random.between(1, bits);
            random.between(1, limit) as u32
        };
        let (scale, bound) = (up_to(16), up_to(14));
        let mut size = |greatest| random.between(1, greatest) as u32;
        let numbers = [size(6), size(6), size(6), size(4), scale, bound, size(29), 0];
        let mut setting = Setting::from(numbers);
        if rounding == Rounding::Drawn {
            setting.rounding = draw_rounding(random, scale);
        }
        if fits(&setting) {
            return setting;
        }
    }
}

/// Below the scale, which is above 0.
fn draw_rounding(random: &mut Random, scale: u32) -> u32 {
    match random.index(4) {
        0 => scale / 2,
        1 => scale - 1,
        _ => random.between(0, i64::from(scale) - 1) as u32,
    }
}

/// Without a ticket 4 comes next.
fn fits(setting: &Setting) -> bool {
    challenge_check(setting, &[], &[]).number == 4
}

fn draw_number(random: &mut Random) -> u32 {
    match random.index(8) {
        0 => 0,
        1 => 1,
        2 => P - 1,
        3 => random.between(0, 255) as u32,
        _ => random.between(0, i64::from(P) - 1) as u32,
    }
}

/// Draws another quotient or another remainder, within its range.
fn change(random: &mut Random, setting: &Setting, parts: &mut Parts, place: usize) {
    let half = 1 << (setting.width - 1);
    let (number, least, greatest) = if random.index(2) == 0 {
        (&mut parts.quotients[place], -half, half - 1)
    } else {
        (&mut parts.remainders[place], 0, i64::from(setting.scale) - 1)
    };
    let before = *number;
    while *number == before {
        *number = random.between(least, greatest);
    }
}

fn damage(random: &mut Random, bytes: &mut Vec<u8>) {
    if bytes.is_empty() {
        bytes.push(random.number() as u8);
        return;
    }
    let place = random.index(bytes.len());
    match random.index(10) {
        0 => bytes.truncate(place),
        1 => bytes.insert(place, 0),
        2 => bytes.extend_from_within(place..),
        3 => {
            bytes.remove(place);
        }
        4 | 5 => bytes[place] = random.number() as u8,
        _ => bytes[place] ^= 1 << random.index(8),
    }
}

#[cfg(test)]
mod tests {
    use super::*;

    #[test]
    fn the_same_in_every_run() {
        let line = |case: Case| (case.description.clone(), case.expected());
        for cases in [damaged_files, tickets_of_another, changed_bits] {
            let first: Vec<_> = cases().into_iter().map(line).collect();
            let second: Vec<_> = cases().into_iter().map(line).collect();
            assert_eq!(first, second);
        }
    }

    #[test]
    fn settings_are_of_every_size() {
        let mut random = Random::new(4);
        let settings: Vec<Setting> = (0..200).map(|_| draw_setting(&mut random, Rounding::Zero)).collect();
        for size in 1..=6 {
            assert!(settings.iter().any(|setting| setting.rows == size));
            assert!(settings.iter().any(|setting| setting.inner == size));
            assert!(settings.iter().any(|setting| setting.columns == size));
        }
        assert!((1..=4).all(|size| settings.iter().any(|setting| setting.vectors == size)));
        assert!(settings.iter().all(|setting| setting.rounding == 0));
    }

    #[test]
    fn rounding_numbers_of_every_kind() {
        let mut random = Random::new(5);
        let settings: Vec<Setting> = (0..TRUE).map(|_| draw_setting(&mut random, Rounding::Drawn)).collect();
        let any = |kind: fn(&Setting) -> bool| settings.iter().any(kind);
        assert!(any(|setting| setting.rounding == setting.scale / 2));
        assert!(any(|setting| setting.rounding == setting.scale - 1));
        assert!(any(|setting| setting.rounding > 255));
        assert!(any(|setting| (1..setting.scale / 2).contains(&setting.rounding)));
    }

    #[test]
    fn false_tickets_are_caught_or_not() {
        for cases in [
            false_tickets(Rounding::Zero),
            false_tickets(Rounding::Drawn),
            tickets_of_another(),
            changed_bits(),
        ] {
            let lines: Vec<String> = cases.iter().map(Case::expected).collect();
            assert!(lines.iter().any(|line| line.starts_with("0 ")));
            assert!(lines.iter().any(|line| line.starts_with("12 0 ")));
            assert!(lines.iter().any(|line| line.starts_with("12 2 ")));
        }
    }

    #[test]
    fn damage_changes_something() {
        let mut random = Random::new(6);
        let mut changed = 0;
        for _ in 0..100 {
            let before = vec![1, 2, 3, 4, 5];
            let mut after = before.clone();
            damage(&mut random, &mut after);
            changed += usize::from(before != after);
        }
        // A byte may be drawn again as it was.
        assert!(changed > 90);
    }
}
