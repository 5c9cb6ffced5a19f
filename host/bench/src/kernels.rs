//! How fast the machine does the work inside the calls: one loop for each part of
//! it, with SSE2, which every x86-64 processor has, and nothing beyond.
//!
//! The kernels take tickets of a known good form, in whole vectors (`fit`), and
//! refuse nothing.

use std::arch::x86_64::*;
use std::array::from_fn;

use dikdumar::Setting;

/// 16 bytes: two numbers of 64 bits, four of 32 or eight of 16.
pub type Vector = __m128i;

const P: u32 = 2_147_483_647;

/// By how much a header, the first word of a record, grows from one row and from
/// one column to the next.
const NEXT_ROW: u32 = 1 << 16;
const NEXT_COLUMN: u32 = 1 << 24;

// SAFETY, for every block below: SSE2 is there, and memory is reached through
// `load` and `store` alone, which test the length.

/// Whether the kernels take tickets of this setting: the sizes are whole vectors,
/// and all sums fit their lanes.
pub fn fit(setting: Setting) -> bool {
    let sizes = [setting.rows, setting.inner, setting.columns];
    sizes.iter().all(|size| size.is_multiple_of(8))
        && setting.columns * setting.bound <= 32_760
        && setting.inner * setting.bound <= 65_535
        && u64::from(setting.scale) << setting.width <= 1 << 28
}

/// The records of the four parts.
pub fn parts(setting: Setting, ticket: &[u8]) -> [&[u8]; 4] {
    let (a, rest) = ticket.split_at(8 * (setting.rows * setting.inner) as usize);
    let (b, claims) = rest.split_at(8 * (setting.inner * setting.columns) as usize);
    let (quotients, remainders) = claims.split_at(claims.len() / 2);
    [a, b, quotients, remainders]
}

/// Reading: whether every record of a ticket has its header, and a value within
/// its range.
#[inline(never)]
pub fn reading(setting: Setting, ticket: &[u8]) -> bool {
    let [inner, columns] = [setting.inner, setting.columns].map(|columns| columns as usize);
    let [a, b, quotients, remainders] = parts(setting, ticket);
    unsafe {
        let [mut wrong, mut top, mut least, mut greatest] = [four_of(0); 4];
        let mut entries = |[first, second]: [Vector; 2]| {
            let entries = doubled(first, second);
            least = _mm_min_epi16(least, entries);
            greatest = _mm_max_epi16(greatest, entries);
            wrong = _mm_or_si128(wrong, _mm_cmpeq_epi16(entries, four_of(0)));
            top = _mm_or_si128(top, _mm_or_si128(first, second));
        };
        let a_headers = read_part(1, a, inner, &mut entries);
        let b_headers = read_part(2, b, columns, &mut entries);
        let bound = setting.bound as i16;
        let below = _mm_cmpgt_epi16(_mm_set1_epi16(-2 * bound), least);
        let above = _mm_cmpgt_epi16(greatest, _mm_set1_epi16(2 * bound + 2));

        // A quotient in two's complement of 31 bits is its value, and 1 more if it
        // is negative; with 2^(v-1) added it has v bits.
        let half = four_of(1 << (setting.width - 1));
        let mut shifted = four_of(0);
        let quotient_headers = read_part(3, quotients, columns, |values| {
            for values in values {
                let quotients = _mm_sub_epi32(values, _mm_cmpgt_epi32(values, four_of((1 << 30) - 1)));
                top = _mm_or_si128(top, quotients);
                shifted = _mm_or_si128(shifted, _mm_add_epi32(quotients, half));
            }
        });
        let shifted = _mm_and_si128(shifted, four_of(P));
        let beyond = _mm_srl_epi32(shifted, _mm_cvtsi32_si128(setting.width as i32));

        let greatest_remainder = four_of(setting.scale - 1);
        let remainder_headers = read_part(4, remainders, columns, |values| {
            for values in values {
                wrong = _mm_or_si128(wrong, _mm_subs_epu16(values, greatest_remainder));
            }
        });

        let headers = [a_headers, b_headers, quotient_headers, remainder_headers];
        for bits in [_mm_srai_epi32::<31>(top), below, above, beyond].iter().chain(&headers) {
            wrong = _mm_or_si128(wrong, *bits);
        }
        _mm_movemask_epi8(_mm_cmpeq_epi8(wrong, four_of(0))) == 0xffff
    }
}

/// Hands on the values of a part's records, eight at a time, and gives the bits in
/// which headers are wrong.
#[inline(always)]
unsafe fn read_part(kind: u32, part: &[u8], columns: usize, mut take: impl FnMut([Vector; 2])) -> Vector {
    let mut wrong = four_of(0);
    for (row, records) in part.chunks_exact(8 * columns).enumerate() {
        let mut expected = first_headers(kind, row);
        let mut next_expected = _mm_add_epi32(expected, four_of(4 * NEXT_COLUMN));
        for eight in records.chunks_exact(64) {
            let [a, b, c, d] = from_fn(|two| load(&eight[16 * two..]));
            wrong = _mm_or_si128(wrong, _mm_xor_si128(headers(a, b), expected));
            wrong = _mm_or_si128(wrong, _mm_xor_si128(headers(c, d), next_expected));
            take([values(a, b), values(c, d)]);
            expected = _mm_add_epi32(expected, four_of(8 * NEXT_COLUMN));
            next_expected = _mm_add_epi32(next_expected, four_of(8 * NEXT_COLUMN));
        }
    }
    wrong
}

/// Eight numbers that stand for 2e + 2 for an entry e, or for 2e if it is
/// negative, of the values of eight entries; what does not fit 16 bits is beyond
/// every bound. For p it is 0.
#[inline(always)]
unsafe fn doubled(first: Vector, second: Vector) -> Vector {
    // In 32 bits, a value twice is 2e, or 2e - 2, as p is 2^31 - 1.
    let [first, second] = [first, second].map(|values| _mm_add_epi32(values, values));
    _mm_adds_epi16(_mm_packs_epi32(first, second), _mm_set1_epi16(2))
}

/// Two numbers modulo p as low + 2^16·high, with limbs of 16 bits with signs: four
/// times the two low limbs, then four times the two high ones.
pub type Limbs = [Vector; 2];

/// u: the product of B, given as its records, with a vector.
#[inline(never)]
pub fn product(b: &[u8], x: &[u32], u: &mut [Limbs]) {
    unsafe {
        let mut room = [[four_of(0); 2]; 16];
        let x_limbs = &mut room[..x.len() / 2];
        for (numbers, to) in x.chunks_exact(4).zip(x_limbs.chunks_exact_mut(2)) {
            to.copy_from_slice(&spread(split(load(numbers))));
        }
        let row = 8 * x.len();
        for (rows, to) in b.chunks_exact(4 * row).zip(u.chunks_exact_mut(2)) {
            let rows: [&[u8]; 4] = from_fn(|index| &rows[index * row..(index + 1) * row]);
            let mut sums = [four_of(0); 2];
            for (pair, limbs) in x_limbs.iter().enumerate() {
                let [a, b, c, d] = rows.map(|row| load(&row[16 * pair..]));
                // Of 2e + 2 and 2e, times 2^15 - 1, the upper 16 bits are e.
                let entries = _mm_mulhi_epi16(doubled(values(a, b), values(c, d)), _mm_set1_epi16(i16::MAX));
                sums = added(sums, entries, limbs);
            }
            to.copy_from_slice(&spread(joined(sums)));
        }
    }
}

/// Sums for four rows and two limbs, with the products of two columns more.
#[inline(always)]
unsafe fn added(sums: [Vector; 2], entries: Vector, limbs: &Limbs) -> [Vector; 2] {
    from_fn(|limb| _mm_add_epi32(sums[limb], _mm_madd_epi16(entries, limbs[limb])))
}

/// The limbs of four numbers below 2^31: four low ones, then four high ones.
#[inline(always)]
unsafe fn split(numbers: Vector) -> Vector {
    // From 2^30 on, a number stands for one that is p less.
    let lower = _mm_srai_epi32::<1>(_mm_add_epi32(numbers, numbers));
    let signed = _mm_sub_epi32(lower, _mm_srai_epi32::<31>(lower));
    let low = _mm_srai_epi32::<16>(_mm_slli_epi32::<16>(signed));
    let high = _mm_srai_epi32::<16>(_mm_add_epi32(signed, four_of(1 << 15)));
    _mm_packs_epi32(low, high)
}

/// The same of four sums, without a reduction to least residues.
#[inline(always)]
unsafe fn joined([low, high]: [Vector; 2]) -> Vector {
    // 2^16·high is 2^16 times its lower 15 bits and, as 2^31 is 1, the rest. The
    // limbs are moved, so that they are around 0 in the end.
    let high = _mm_add_epi32(high, four_of(1 << 14));
    let low = _mm_add_epi32(_mm_add_epi32(low, four_of(1 << 15)), _mm_srai_epi32::<15>(high));
    let high = _mm_sub_epi32(_mm_and_si128(high, four_of(0x7fff)), four_of(1 << 14));
    let high = _mm_add_epi32(high, _mm_srai_epi32::<16>(low));
    let low = _mm_sub_epi32(_mm_and_si128(low, four_of(0xffff)), four_of(1 << 15));
    _mm_packs_epi32(low, high)
}

#[inline(always)]
unsafe fn spread(limbs: Vector) -> [Limbs; 2] {
    [
        [_mm_shuffle_epi32::<0x00>(limbs), _mm_shuffle_epi32::<0xaa>(limbs)],
        [_mm_shuffle_epi32::<0x55>(limbs), _mm_shuffle_epi32::<0xff>(limbs)],
    ]
}

/// Rows: whether for a vector x and u, its product with B, the claims' side is
/// A's in every row. A comes as `by_rows` gives it; the claims are αq + r of the
/// ticket with α·2^(v-1) added, and the lift is that of the setting.
#[inline(never)]
pub fn rows(a: &[Vector], claims: &[u32], lift: u32, x: &[u32], u: &[Limbs]) -> bool {
    // What the lift makes too much.
    let total = x.iter().map(|&number| u64::from(number)).sum();
    let excess = folded(folded(u64::from(lift) * folded(folded(total))));
    let mut equal = true;
    for (a, claims) in a.chunks_exact(u.len()).zip(claims.chunks_exact(4 * x.len())) {
        unsafe {
            let mut right = [four_of(0); 2];
            for (&entries, limbs) in a.iter().zip(u) {
                right = added(right, entries, limbs);
            }
            let mut left = [four_of(0); 4];
            for (sum, claims) in left.iter_mut().zip(claims.chunks_exact(x.len())) {
                for (claims, numbers) in claims.chunks_exact(4).zip(x.chunks_exact(4)) {
                    let [claims, numbers] = [load(claims), load(numbers)];
                    let [odd_claims, odd_numbers] = [claims, numbers].map(|four| _mm_srli_epi64::<32>(four));
                    *sum = _mm_add_epi64(*sum, _mm_mul_epu32(claims, numbers));
                    *sum = _mm_add_epi64(*sum, _mm_mul_epu32(odd_claims, odd_numbers));
                }
            }
            equal &= sides_equal(left, right, excess);
        }
    }
    equal
}

/// By how much the claims of a true ticket are above their sums: by o, and by
/// α·2^(v-1), so that none is negative.
pub fn lift(setting: Setting) -> u32 {
    (setting.scale << (setting.width - 1)) + setting.rounding
}

/// The entries of a matrix as `rows` takes them: four rows and two columns in a
/// vector, a row's two entries side by side.
pub fn by_rows(matrix: &[i16], columns: usize) -> Vec<Vector> {
    let mut vectors = Vec::new();
    for rows in matrix.chunks_exact(4 * columns) {
        for pair in 0..columns / 2 {
            let entries: [i16; 8] = from_fn(|lane| rows[lane / 2 * columns + 2 * pair + lane % 2]);
            vectors.push(load(&entries));
        }
    }
    vectors
}

/// Whether left - excess = low + 2^16·high modulo p in four rows. A row's left
/// side is the sum of two numbers.
#[inline(always)]
unsafe fn sides_equal(left: [Vector; 4], right: [Vector; 2], excess: u64) -> bool {
    // A multiple of p makes the differences positive; they stay below 2^50. With
    // 2^31 added to both limbs, the right side has 2^31 and 2^47 more.
    let p = u64::from(P);
    let more = (p << 18) + (p << 3) + (1 << 31) + (1 << 16) - excess;
    let more = _mm_set1_epi64x(more as i64);
    let [low, high] = right.map(|limbs| {
        let limbs = _mm_add_epi32(limbs, four_of(1 << 31));
        [
            _mm_unpacklo_epi32(limbs, four_of(0)),
            _mm_unpackhi_epi32(limbs, four_of(0)),
        ]
    });
    let differences: [Vector; 2] = from_fn(|two| {
        let [first, second] = [left[2 * two], left[2 * two + 1]];
        let left = _mm_add_epi64(_mm_unpacklo_epi64(first, second), _mm_unpackhi_epi64(first, second));
        let right = _mm_add_epi64(low[two], _mm_slli_epi64::<16>(high[two]));
        fold(_mm_sub_epi64(_mm_add_epi64(fold(left), more), right))
    });
    // Folded, and below 2p, it is p only if it is 0 modulo p.
    let equal = _mm_cmpeq_epi32(headers(differences[0], differences[1]), four_of(P));
    _mm_movemask_epi8(equal) == 0xffff
}

/// (x mod 2^31) + x div 2^31, which is equal modulo p.
fn folded(x: u64) -> u64 {
    (x & u64::from(P)) + (x >> 31)
}

/// The same of two numbers.
#[inline(always)]
unsafe fn fold(numbers: Vector) -> Vector {
    let lower = _mm_and_si128(numbers, _mm_set1_epi64x(i64::from(P)));
    _mm_add_epi64(lower, _mm_srli_epi64::<31>(numbers))
}

/// Sums: the product of two matrices of 16-bit numbers, row by row. The room is
/// for half as many vectors as B has rows, eight times.
#[inline(never)]
pub fn sums(a: &[i16], b: &[i16], columns: usize, room: &mut [Vector], sums: &mut [i32]) {
    if columns.is_multiple_of(32) {
        sums_of::<1, 8>(a, b, columns, room, sums);
    } else {
        sums_of::<4, 2>(a, b, columns, room, sums);
    }
}

/// The same, `R` rows of A and `Q` times four columns of B at a time.
#[inline(always)]
fn sums_of<const R: usize, const Q: usize>(
    a: &[i16],
    b: &[i16],
    columns: usize,
    room: &mut [Vector],
    sums: &mut [i32],
) {
    let pairs = b.len() / columns / 2;
    let room = &mut room.as_chunks_mut::<Q>().0[..pairs];
    for start in (0..columns).step_by(4 * Q) {
        // The entries of two rows, side by side.
        for (rows, to) in b.chunks_exact(2 * columns).zip(room.iter_mut()) {
            for (index, to) in to.as_chunks_mut::<2>().0.iter_mut().enumerate() {
                let at = start + 8 * index;
                let [upper, lower] = [load(&rows[at..]), load(&rows[columns + at..])];
                *to = unsafe { [_mm_unpacklo_epi16(upper, lower), _mm_unpackhi_epi16(upper, lower)] };
            }
        }
        let blocks = a.as_chunks::<2>().0.chunks_exact(R * pairs);
        for (rows, sums) in blocks.zip(sums.chunks_exact_mut(R * columns)) {
            let rows: [&[[i16; 2]]; R] = from_fn(|row| &rows[row * pairs..(row + 1) * pairs]);
            let mut block = [[four_of(0); Q]; R];
            for (pair, b) in room.iter().enumerate() {
                for (row, block) in rows.iter().zip(&mut block) {
                    let [first, second] = row[pair].map(|entry| u32::from(entry as u16));
                    let a = four_of(second << 16 | first);
                    for (sum, &b) in block.iter_mut().zip(b) {
                        *sum = unsafe { _mm_add_epi32(*sum, _mm_madd_epi16(a, b)) };
                    }
                }
            }
            for (block, sums) in block.into_iter().zip(sums.chunks_exact_mut(columns)) {
                for (sum, to) in block.into_iter().zip(sums[start..].chunks_exact_mut(4)) {
                    store(sum, to);
                }
            }
        }
    }
}

/// Records: writes those of the four parts, each given as its numbers and the
/// length of a row.
#[inline(never)]
pub fn records(parts: [(&[i32], usize); 4], output: &mut [u8]) {
    let mut rest = output;
    for (kind, (numbers, columns)) in (1..).zip(parts) {
        let (records, others) = rest.split_at_mut(8 * numbers.len());
        rest = others;
        let rows = numbers.chunks_exact(columns).zip(records.chunks_exact_mut(8 * columns));
        for (row, (numbers, records)) in rows.enumerate() {
            let mut headers = first_headers(kind, row);
            for (numbers, to) in numbers.chunks_exact(4).zip(records.chunks_exact_mut(32)) {
                let numbers = load(numbers);
                unsafe {
                    let negative = _mm_srai_epi32::<31>(numbers);
                    let values = _mm_add_epi32(numbers, _mm_and_si128(negative, four_of(P)));
                    store(_mm_unpacklo_epi32(headers, values), to);
                    store(_mm_unpackhi_epi32(headers, values), &mut to[16..]);
                    headers = _mm_add_epi32(headers, four_of(4 * NEXT_COLUMN));
                }
            }
        }
    }
}

/// The headers of the first four columns of a row.
#[inline(always)]
fn first_headers(kind: u32, row: usize) -> Vector {
    load(&[0, 1, 2, 3].map(|column| kind + row as u32 * NEXT_ROW + column * NEXT_COLUMN))
}

/// The headers of four records, of which each vector holds two.
#[inline(always)]
unsafe fn headers(first: Vector, second: Vector) -> Vector {
    let [first, second] = [first, second].map(|records| _mm_castsi128_ps(records));
    _mm_castps_si128(_mm_shuffle_ps::<0x88>(first, second))
}

/// Their values.
#[inline(always)]
unsafe fn values(first: Vector, second: Vector) -> Vector {
    let [first, second] = [first, second].map(|records| _mm_castsi128_ps(records));
    _mm_castps_si128(_mm_shuffle_ps::<0xdd>(first, second))
}

#[inline(always)]
pub fn four_of(number: u32) -> Vector {
    unsafe { _mm_set1_epi32(number as i32) }
}

/// Numbers of any bytes.
trait Plain {}

impl Plain for u8 {}
impl Plain for i16 {}
impl Plain for i32 {}
impl Plain for u32 {}

#[inline(always)]
fn load<T: Plain>(from: &[T]) -> Vector {
    assert!(size_of_val(from) >= 16);
    // SAFETY: 16 bytes are there.
    unsafe { _mm_loadu_si128(from.as_ptr().cast()) }
}

#[inline(always)]
fn store<T: Plain>(vector: Vector, to: &mut [T]) {
    assert!(size_of_val(to) >= 16);
    // SAFETY: 16 bytes are there, and T takes any.
    unsafe { _mm_storeu_si128(to.as_mut_ptr().cast(), vector) }
}
