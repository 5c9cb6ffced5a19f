//! Tickets written from random and extreme operands of every size, and each of
//! them through both checks.

use super::{of_patterns, visit_written, visit_written_with_lists, PATTERNS};
use crate::cases::Visitor;
use crate::families::craft::{fitting, shapes, true_parts};
use crate::families::true_tickets::{lists, sizes_and_largest};
use crate::generator::Generator;
use crate::setting::{Form, Setting};

/// Every corner of the sizes.
const CORNERS: [[u32; 3]; 8] = [
    [1, 1, 1],
    [32, 1, 1],
    [1, 64, 1],
    [1, 1, 32],
    [32, 64, 1],
    [32, 1, 32],
    [1, 64, 32],
    [32, 64, 32],
];

/// Sizes at, next to and between the limits: random operands, and two patterns.
pub fn many_sizes(visit: &mut Visitor, form: Form) {
    let mut generator = Generator::new(801);
    for sizes in sizes_and_largest() {
        let setting = fitting(&mut generator, form, sizes);
        visit_random_and_extreme(visit, &mut generator, &setting);
    }
}

/// Tickets written under a setting that fits: from random operands, with several
/// lists, and from two patterns.
pub fn visit_random_and_extreme(visit: &mut Visitor, generator: &mut Generator, setting: &Setting) {
    let parts = true_parts(generator, setting);
    let lists = lists(generator, setting);
    visit_written_with_lists(visit, generator, "random operands", setting, &parts, lists);
    let (in_a, in_b) = (generator.choose(&PATTERNS), generator.choose(&PATTERNS));
    let parts = of_patterns(setting, in_a, in_b);
    visit_written(visit, generator, "extreme operands", setting, &parts);
}

/// Every pair of patterns at every corner of the sizes.
pub fn corners(visit: &mut Visitor, form: Form) {
    let mut generator = Generator::new(802);
    for [rows, inner, columns] in CORNERS {
        for in_a in PATTERNS {
            for in_b in PATTERNS {
                let vectors = generator.between(1, 2) as u32;
                let setting = fitting(&mut generator, form, [rows, inner, columns, vectors]);
                let parts = of_patterns(&setting, in_a, in_b);
                visit_written(visit, &mut generator, "extreme operands", &setting, &parts);
            }
        }
    }
}

/// Every size up to 4 and some shapes, with every pair of patterns and with
/// random operands.
pub fn small_sizes(visit: &mut Visitor, form: Form) {
    let mut generator = Generator::new(803);
    let mut settings = shapes(form).to_vec();
    for index in 0..4_u32.pow(3) {
        let sizes = [index % 4 + 1, index / 4 % 4 + 1, index / 16 + 1, index % 8 + 1];
        settings.push(fitting(&mut generator, form, sizes));
        settings.push(fitting(&mut generator, form, sizes));
    }
    for setting in settings {
        for in_a in PATTERNS {
            for in_b in PATTERNS {
                let parts = of_patterns(&setting, in_a, in_b);
                visit_written(visit, &mut generator, "extreme operands", &setting, &parts);
            }
        }
        for _ in 0..20 {
            let parts = true_parts(&mut generator, &setting);
            let lists = lists(&mut generator, &setting);
            visit_written_with_lists(visit, &mut generator, "random operands", &setting, &parts, lists);
        }
    }
}
