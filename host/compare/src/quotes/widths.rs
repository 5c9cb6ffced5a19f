//! The width is not read: the same setting with many widths has one quote.

use super::random::some_setting;
use super::stated::stated;
use super::Visitor;
use crate::families::craft::{shapes_and_largest, P};
use crate::generator::Generator;
use crate::setting::{Form, Setting};

/// Widths around the limits and where a byte, 16 bits, a signed number or p ends, and
/// what would be within the limits if the upper bits were dropped.
const WIDTHS: [u32; 34] = [
    0,
    1,
    2,
    3,
    4,
    5,
    6,
    7,
    15,
    16,
    17,
    28,
    29,
    30,
    31,
    32,
    33,
    63,
    64,
    65,
    255,
    256,
    257,
    65_535,
    65_536,
    65_537,
    (1 << 24) + 1,
    1 << 30,
    P - 1,
    P,
    1 << 31,
    (1 << 31) + 1,
    u32::MAX - 1,
    u32::MAX,
];

/// Settings of every shape, and random ones, most of which are quoted for.
pub fn settings(visit: &mut Visitor, form: Form) {
    let mut generator = Generator::new(1121);
    let random: Vec<Setting> = (0..3_000).map(|_| some_setting(&mut generator, form)).collect();
    for setting in shapes_and_largest(form).chain(random) {
        let quote = stated(&setting);
        for width in WIDTHS {
            visit.stated("one of many widths", Setting { width, ..setting }, quote);
        }
    }
}
