//! Layers built after they were quoted for: what the writer and the checks answer is
//! to be what was quoted.

use apart::{Answer, Quote};

use super::{line, Visitor};
use crate::cases::{self, refused, Call};
use crate::families::craft::{fits, operands, sizes_up_to, well_formed_list};
use crate::families::rounding::fitting;
use crate::generator::Generator;
use crate::setting::{Form, Setting};

/// What a layer is built from, beside its setting.
pub struct Layer {
    a: Vec<i32>,
    b: Vec<i32>,
    /// Empty for a plain ticket.
    bias: Vec<i32>,
    /// A well-formed list.
    list: Vec<u32>,
    /// Widths above the smallest with which the setting fits too.
    wider: Vec<u32>,
}

impl Layer {
    /// Random operands within the bounds, a random list, and of the widths above the
    /// smallest any one and the largest, where there are such.
    fn build(generator: &mut Generator, setting: &Setting) -> Layer {
        let narrowed = |entries: Vec<i64>| entries.into_iter().map(|entry| entry as i32).collect();
        let [a, b, bias] = operands(generator, setting).map(narrowed);
        let fits_with = |&width: &u32| fits(&Setting { width, ..*setting });
        let mut wider: Vec<u32> = (1..=30).filter(fits_with).skip(1).collect();
        if let Some(&largest) = wider.last() {
            wider = vec![generator.choose(&wider), largest];
            wider.dedup();
        }
        Layer {
            a,
            b,
            bias,
            list: well_formed_list(generator, setting),
            wider,
        }
    }

    /// The first answer that is not the one quoted: of the writer and of both checks of
    /// what it writes, with the width quoted and with wider ones, and of the writer with
    /// a width of one less, with which the setting does not fit.
    pub fn first_broken(&self, setting: &Setting, quote: &Quote, calls: cases::Side) -> Option<String> {
        if quote.number != 0 {
            return None;
        }
        [quote.width]
            .iter()
            .chain(&self.wider)
            .find_map(|&width| self.first_broken_with(&Setting { width, ..*setting }, quote, calls))
            .or_else(|| {
                let width = quote.width.checked_sub(1).filter(|&width| width > 0)?;
                let output = vec![0; quote.length as usize];
                let written = calls(&self.written(Setting { width, ..*setting }, &output));
                broken("writer", width, written.answer, refused(3, 0))
            })
    }

    fn first_broken_with(&self, setting: &Setting, quote: &Quote, calls: cases::Side) -> Option<String> {
        let &Quote {
            length,
            full_products,
            challenge_products,
            ..
        } = quote;
        let output = vec![0; length as usize];
        let written = calls(&self.written(*setting, &output));
        let ticket = written.output();
        let list = &self.list;
        let answer = |call| calls(&case(*setting, call)).answer;
        let accepted = |products| Answer::from([0, 0, 0, products]);
        let width = setting.width;
        broken(
            "writer",
            width,
            written.answer,
            Answer::from([0, length, 0, full_products]),
        )
        .or_else(|| {
            let full = answer(Call::Full { ticket });
            broken("full check", width, full, accepted(full_products))
        })
        .or_else(|| {
            let challenge = answer(Call::Challenge { ticket, list });
            broken("challenge check", width, challenge, accepted(challenge_products))
        })
    }

    /// The writer's case for these operands.
    fn written<'a>(&'a self, setting: Setting, output: &'a [u8]) -> cases::Case<'a> {
        let Layer { a, b, bias, .. } = self;
        case(setting, Call::Writer { a, b, bias, output })
    }
}

fn case(setting: Setting, call: Call) -> cases::Case {
    cases::Case {
        what: "a layer",
        setting,
        call,
        expected: None,
    }
}

fn broken(call: &str, width: u32, answer: Answer, quoted: Answer) -> Option<String> {
    let line = |answer: Answer| line([answer.number, answer.place, answer.row, answer.products]);
    (answer != quoted).then(|| {
        format!(
            "{call} with width {width}: {}, and by the quote {}",
            line(answer),
            line(quoted)
        )
    })
}

/// Sizes up to these, so many times.
const SIZES: [([u32; 4], usize); 4] = [
    ([1, 64, 1, 1], 2_000),
    ([4, 4, 4, 3], 20_000),
    ([12, 12, 12, 8], 5_000),
    ([32, 64, 32, 8], 1_000),
];

/// Settings that fit with some width, of random sizes, and some of the largest.
pub fn built(visit: &mut Visitor, form: Form) {
    let mut generator = Generator::new(1141);
    for (most, count) in SIZES {
        for _ in 0..count {
            let sizes = sizes_up_to(&mut generator, most);
            visit_layer(visit, &mut generator, form, sizes);
        }
    }
    for _ in 0..50 {
        visit_layer(visit, &mut generator, form, [32, 64, 32, 8]);
    }
}

/// A few small ones of these.
#[cfg(test)]
pub fn few(visit: &mut Visitor, form: Form) {
    let mut generator = Generator::new(1);
    for _ in 0..40 {
        let sizes = sizes_up_to(&mut generator, [3, 3, 3, 2]);
        visit_layer(visit, &mut generator, form, sizes);
    }
}

fn visit_layer(visit: &mut Visitor, generator: &mut Generator, form: Form, sizes: [u32; 4]) {
    let setting = fitting(generator, form, sizes);
    let layer = Layer::build(generator, &setting);
    visit.layer("a layer", setting, &layer);
}

#[cfg(test)]
mod tests {
    use super::*;
    use crate::quotes::Case;

    /// The family would be of no use with settings that are all alike.
    #[test]
    fn settings_of_every_width_are_built_with_wider_ones_too() {
        for form in [Form::Plain, Form::Bias] {
            let mut generator = Generator::new(1);
            let mut widths = [0; 31];
            let mut wider = [0; 3];
            let mut visit = |case: &Case| {
                let [number, width, ..] = case.stated.numbers();
                assert_eq!(number, 0, "{}", case.setting);
                widths[width as usize] += 1;
                let layer = case.layer.expect("every case has one");
                assert!(layer.wider.iter().all(|&wider| width < wider), "{}", case.setting);
                wider[layer.wider.len()] += 1;
            };
            for round in 0..2_000 {
                // Width 1 is quoted with m = 1 alone.
                let inner = if round % 4 == 0 { 1 } else { 64 };
                let sizes = sizes_up_to(&mut generator, [2, inner, 2, 2]);
                visit_layer(&mut Visitor(&mut visit), &mut generator, form, sizes);
            }
            assert!(widths[1..=29].iter().all(|&count| count > 0), "{form:?}: {widths:?}");
            assert!(wider.iter().all(|&count| count > 50), "{form:?}: {wider:?}");
        }
    }
}
