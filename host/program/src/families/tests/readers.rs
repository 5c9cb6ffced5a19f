//! Readers of the three files with one thing wrong: each gives another answer in
//! some folder of the family that is for it.

use apart::program::{challenge_file, output, Files};

use super::FAMILIES;
use crate::case::Entry;

/// What a reader prints for the contents of the setting, the ticket and the
/// challenge file.
fn right(setting: &[u8], ticket: &[u8], challenge: &[u8]) -> String {
    output(&Files {
        setting: Some(setting),
        ticket: Some(ticket),
        challenge: Some(challenge),
    })
}

/// Whether a reader gives another answer than the right one in this family.
fn is_found(name: &str, reader: impl Fn(&[u8], &[u8], &[u8]) -> String) -> bool {
    let family = FAMILIES.iter().find(|family| family.name == name).expect("a family");
    family.cases.iter().any(|case| {
        let [setting, ticket, challenge] =
            [&case.setting, &case.ticket, &case.challenge].map(|entry: &Entry| entry.contents().unwrap_or_default());
        reader(&setting, &ticket, &challenge) != case.expected()
    })
}

fn cut(bytes: &[u8], length: usize) -> &[u8] {
    &bytes[..bytes.len().min(length)]
}

/// s·n as the setting file has it.
fn count_of(setting: &[u8]) -> usize {
    match setting {
        [_, _, n, s, ..] => usize::from(*n) * usize::from(*s),
        _ => 0,
    }
}

/// These bytes with every four turned round.
fn turned(bytes: &[u8]) -> Vec<u8> {
    let mut bytes = bytes.to_vec();
    bytes.chunks_exact_mut(4).for_each(<[u8]>::reverse);
    bytes
}

#[test]
fn the_right_reader_is_not_found() {
    for family in FAMILIES.iter() {
        assert!(!is_found(family.name, right), "{}", family.name);
    }
}

#[test]
fn lengths_of_the_setting() {
    let found = |reader: fn(&[u8]) -> Vec<u8>| {
        is_found("lengths of the setting file", |setting, ticket, challenge| {
            right(&reader(setting), ticket, challenge)
        })
    };
    // The first 20 bytes count.
    assert!(found(|setting| cut(setting, 20).to_vec()));
    // Missing bytes are 0.
    assert!(found(|setting| {
        let mut setting = setting.to_vec();
        setting.resize(setting.len().max(20), 0);
        setting
    }));
    // 16 bytes are a setting without o.
    assert!(found(|setting| match setting.len() {
        16 => [setting, &[0; 4]].concat(),
        _ => setting.to_vec(),
    }));
}

#[test]
fn the_bytes_of_the_rounding_number() {
    let found_in = |family: &str, reader: &dyn Fn(&mut [u8])| {
        is_found(family, |setting, ticket, challenge| {
            let mut setting = setting.to_vec();
            if setting.len() == 20 {
                reader(&mut setting);
            }
            right(&setting, ticket, challenge)
        })
    };
    let found = |reader: &dyn Fn(&mut [u8])| found_in("rounding numbers", reader);
    // One byte of it is not read.
    for place in 16..20 {
        for family in ["rounding numbers", "rounding numbers with a bit changed, drawn"] {
            assert!(found_in(family, &|setting| setting[place] = 0), "{family}, {place}");
        }
    }
    // Its bytes are in the other order.
    assert!(found(&|setting| setting[16..].reverse()));
    // It changes places with α, T or v.
    for place in [4, 8, 12] {
        assert!(
            found(&|setting| {
                let (numbers, rounding) = setting.split_at_mut(16);
                numbers[place..place + 4].swap_with_slice(rounding);
            }),
            "{place}"
        );
    }
    // It stands before α, T and v, or before the sizes.
    assert!(found(&|setting| setting[4..].rotate_left(4)));
    assert!(found(&|setting| setting.rotate_left(4)));
}

/// o and α of a setting file of the right length.
fn rounding_and_scale(setting: &[u8]) -> Option<[u32; 2]> {
    let setting: &[u8; 20] = setting.try_into().ok()?;
    let &[_, scale, _, _, rounding] = setting.as_chunks().0 else {
        return None;
    };
    Some([rounding, scale].map(u32::from_le_bytes))
}

/// What is right if o is 0.
fn without_rounding(setting: &[u8], ticket: &[u8], challenge: &[u8]) -> String {
    let mut setting = setting.to_vec();
    if setting.len() == 20 {
        setting[16..].fill(0);
    }
    right(&setting, ticket, challenge)
}

#[test]
fn the_test_of_the_rounding_number() {
    let family = "rounding numbers";
    // It passes where it is α.
    assert!(is_found(family, |setting, ticket, challenge| {
        match rounding_and_scale(setting) {
            Some([rounding, scale]) if rounding == scale => without_rounding(setting, ticket, challenge),
            _ => right(setting, ticket, challenge),
        }
    }));
    // 19 comes after 3 or 4.
    for early in ["3 0 0 0\n", "4 0 0 0\n"] {
        assert!(is_found(family, |setting, ticket, challenge| {
            let line = without_rounding(setting, ticket, challenge);
            if line == early {
                line
            } else {
                right(setting, ticket, challenge)
            }
        }));
    }
    // It comes before 2 or 1.
    for late in ["2 0 0 0\n", "1 0 0 0\n"] {
        assert!(is_found(family, |setting, ticket, challenge| {
            let line = right(setting, ticket, challenge);
            match rounding_and_scale(setting) {
                Some([rounding, scale]) if line == late && rounding >= scale => "19 0 0 0\n".to_owned(),
                _ => line,
            }
        }));
    }
}

#[test]
fn a_rounding_number_that_is_left_out() {
    // Of fitting.
    assert!(is_found("rounding numbers", |setting, ticket, challenge| {
        let line = right(setting, ticket, challenge);
        if line == "3 0 0 0\n" {
            without_rounding(setting, ticket, challenge)
        } else {
            line
        }
    }));
    // Of the claims.
    for family in [
        "rounded tickets",
        "rounded true tickets drawn",
        "rounded false tickets drawn",
        "rounded tickets of another number drawn",
    ] {
        let is_found = is_found(family, |setting, ticket, challenge| {
            let line = right(setting, ticket, challenge);
            if line == "3 0 0 0\n" || line == "19 0 0 0\n" {
                line
            } else {
                without_rounding(setting, ticket, challenge)
            }
        });
        assert!(is_found, "{family}");
    }
}

#[test]
fn lengths_of_the_ticket() {
    let found = |length: fn(usize) -> usize| {
        is_found("lengths of the ticket file", |setting, ticket, challenge| {
            right(setting, cut(ticket, length(ticket.len())), challenge)
        })
    };
    assert!(found(|length| length / 8 * 8));
    assert!(found(|length| length % 65_536));
    assert!(found(|length| length.min(49_152)));
}

#[test]
fn the_begin_of_the_ticket_is_not_enough() {
    for length in [4_096, 8_192, 32_768, 49_151] {
        assert!(is_found("the largest setting", |setting, ticket, challenge| {
            right(setting, cut(ticket, length), challenge)
        }));
    }
}

#[test]
fn lengths_of_the_challenge() {
    let found = |length: fn(usize, usize) -> usize| {
        is_found("lengths of the challenge file", |setting, ticket, challenge| {
            let asked_for = 4 * count_of(setting);
            right(setting, ticket, cut(challenge, length(challenge.len(), asked_for)))
        })
    };
    // Whole numbers only.
    assert!(found(|length, _| length / 4 * 4));
    assert!(found(|length, _| length % 65_536));
    assert!(found(|length, _| length.min(1_024)));
    assert!(found(|length, asked_for| length.min(asked_for)));
    // One byte too many.
    assert!(found(|length, asked_for| if length == asked_for + 1 {
        asked_for
    } else {
        length
    }));
}

#[test]
fn bytes_in_the_other_order() {
    assert!(is_found("marked examples", |setting, ticket, challenge| {
        let (sizes, numbers) = setting.split_at(setting.len().min(4));
        right(&[sizes, &turned(numbers)].concat(), ticket, challenge)
    }));
    assert!(is_found("numbers of the list", |setting, ticket, challenge| {
        right(setting, ticket, &turned(challenge))
    }));
}

#[test]
fn numbers_of_fewer_bytes() {
    for places in [[7, 11, 15], [6, 10, 14], [5, 9, 13]] {
        assert!(is_found("numbers of the setting", |setting, ticket, challenge| {
            let mut setting = setting.to_vec();
            places.iter().for_each(|&place| setting[place] = 0);
            right(&setting, ticket, challenge)
        }));
    }
    for place in 0..4 {
        assert!(is_found("numbers of the list", |setting, ticket, challenge| {
            let mut challenge = challenge.to_vec();
            challenge.iter_mut().skip(place).step_by(4).for_each(|byte| *byte = 0);
            right(setting, ticket, &challenge)
        }));
    }
}

#[test]
fn list_numbers_that_are_reduced() {
    assert!(is_found("numbers of the list", |setting, ticket, challenge| {
        let (numbers, _) = challenge.as_chunks();
        let reduced: Vec<u32> = numbers
            .iter()
            .map(|&bytes| apart::reduce(u32::from_le_bytes(bytes)))
            .collect();
        right(setting, ticket, &challenge_file(&reduced))
    }));
}

#[test]
fn another_order_of_the_tests() {
    let family = "precedence of the tests";
    // The length of the list before the ticket.
    assert!(is_found(family, |setting, ticket, challenge| {
        let line = right(setting, ticket, challenge);
        if line.starts_with("4 ") && challenge.len() != 4 * count_of(setting) {
            "10 0 0 0\n".to_owned()
        } else {
            line
        }
    }));
    // The ticket before the setting.
    assert!(is_found(family, |setting, ticket, challenge| {
        if ticket.is_empty() {
            "4 0 0 0\n".to_owned()
        } else {
            right(setting, ticket, challenge)
        }
    }));
    // The numbers of the list before its length.
    assert!(is_found(family, |setting, ticket, challenge| {
        let line = right(setting, ticket, challenge);
        if line == "10 0 0 0\n" && challenge.starts_with(&[0xFF, 0xFF, 0xFF, 0x7F]) {
            "11 0 0 0\n".to_owned()
        } else {
            line
        }
    }));
}

/// The numbers of a challenge file, vector by vector. n is within its limits where 21
/// can be the answer.
fn vectors_of(setting: &[u8], challenge: &[u8]) -> Vec<Vec<u32>> {
    let columns = setting.get(2).map_or(1, |&n| usize::from(n.clamp(1, 32)));
    let (numbers, _) = challenge.as_chunks();
    let numbers: Vec<u32> = numbers.iter().map(|&bytes| u32::from_le_bytes(bytes)).collect();
    numbers.chunks(columns).map(<[u32]>::to_vec).collect()
}

/// Whether a reader is found in these families that prints this line, or none of its
/// own, by the right one and the vectors.
fn is_found_in(families: &[&str], reader: fn(&str, &[Vec<u32>]) -> Option<String>) -> bool {
    families.iter().all(|family| {
        is_found(family, |setting, ticket, challenge| {
            let line = right(setting, ticket, challenge);
            reader(&line, &vectors_of(setting, challenge)).unwrap_or(line)
        })
    })
}

fn is_of_zeros(vector: &[u32]) -> bool {
    vector.iter().all(|&number| number == 0)
}

#[test]
fn vectors_of_zeros() {
    let families = ["vectors of zeros"];
    let both = ["vectors of zeros", "precedence of the tests"];
    let line = |t: usize| format!("21 {t} 0 0\n");
    // One zero is enough.
    assert!(is_found_in(&families, |line, vectors| {
        let t = vectors.iter().position(|vector| vector.contains(&0))?;
        ["0 ", "12 "]
            .iter()
            .any(|begin| line.starts_with(begin))
            .then(|| format!("21 {t} 0 0\n"))
    }));
    // Only the first vector is tested, or only the last.
    assert!(is_found_in(&both, |line, vectors| {
        (line.starts_with("21 ") && !is_of_zeros(&vectors[0])).then(|| "0 0 0 0\n".to_owned())
    }));
    assert!(is_found_in(&families, |line, vectors| {
        (line.starts_with("21 ") && !is_of_zeros(vectors.last()?)).then(|| "0 0 0 0\n".to_owned())
    }));
    // The place is that of the last such vector, or that of a number.
    assert!(is_found_in(&families, |line, vectors| {
        let t = vectors.iter().rposition(|vector| is_of_zeros(vector))?;
        line.starts_with("21 ").then(|| format!("21 {t} 0 0\n"))
    }));
    assert!(is_found_in(&both, |line, vectors| {
        let t = vectors.iter().position(|vector| is_of_zeros(vector))?;
        let index = t * vectors[0].len();
        line.starts_with("21 ").then(|| format!("21 {index} 0 0\n"))
    }));
    // It comes before 11, or before 10.
    for begin in ["11 ", "10 "] {
        assert!(both.iter().all(|family| is_found(family, |setting, ticket, challenge| {
            let right = right(setting, ticket, challenge);
            let t = vectors_of(setting, challenge)
                .iter()
                .position(|vector| is_of_zeros(vector));
            t.filter(|_| right.starts_with(begin)).map_or(right, line)
        })));
    }
}
