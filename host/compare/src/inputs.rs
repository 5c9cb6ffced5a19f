//! The inputs of the residue calls: corner values in all pairs, pseudo-random
//! numbers that are the same in every run, and exponents.

use apart::P;

use crate::generator::Generator;

/// The corner values as machine words: those of the unsigned numbers, those of
/// the signed ones by their bits, and the exponents around 30.
pub fn corners() -> Vec<u32> {
    let half = (P - 1) / 2;
    let unsigned = [
        0,
        1,
        2,
        half - 1,
        half,
        half + 1,
        half + 2,
        P - 2,
        P - 1,
        P,
        P + 1,
        1 << 31,
        2 * P - 1,
        2 * P,
        2 * P + 1,
        (1 << 32) - 1,
    ];
    let signed = [
        -(1 << 31),
        -P,
        -P + 1,
        -half - 2,
        -half - 1,
        -half,
        -half + 1,
        -2,
        -1,
        0,
        1,
        half,
        half + 1,
        P - 1,
        P,
    ];
    let exponents = 0..=65;
    let mut words: Vec<u32> = unsigned
        .into_iter()
        .chain(exponents)
        .map(|n| u32::try_from(n).expect("an unsigned 32-bit number"))
        .chain(
            signed
                .into_iter()
                .map(|n| i32::try_from(n).expect("a signed 32-bit number") as u32),
        )
        .collect();
    words.sort_unstable();
    words.dedup();
    words
}

/// Every pair of corner values.
pub fn pairs() -> impl Iterator<Item = (u32, u32)> {
    let corners = corners();
    corners
        .clone()
        .into_iter()
        .flat_map(move |x| corners.clone().into_iter().map(move |y| (x, y)))
}

/// `count` pairs of words: one in four within 8 of a corner value, the others
/// anywhere.
pub fn random(seed: u64, count: usize) -> impl Iterator<Item = (u32, u32)> {
    let corners = corners();
    let mut generator = Generator::new(seed);
    let mut word = move || {
        let bits = generator.next();
        let anywhere = (bits >> 32) as u32;
        if bits.is_multiple_of(4) {
            let corner = corners[((bits >> 8) % corners.len() as u64) as usize];
            corner.wrapping_add(anywhere % 17).wrapping_sub(8)
        } else {
            anywhere
        }
    };
    std::iter::repeat_with(move || (word(), word())).take(count)
}

/// Every exponent up to 2^16, the corner values, and above 2^16 runs of 32
/// exponents: from each power of two on, up to each, and from as far below 2^32 on.
/// A shift, or a narrower number, would take their low bits for them, which are an
/// exponent up to 31.
pub fn exponents() -> impl Iterator<Item = u32> {
    let powers = || (16..32).map(|bits| 1u32 << bits);
    let below_the_end = (5..32).map(|bits| (1u32 << bits).wrapping_neg());
    let runs = powers()
        .chain(powers().map(|power| power - 32))
        .chain(below_the_end)
        .flat_map(|first| first..=first + 31);
    (0..=1 << 16).chain(corners()).chain(runs)
}
