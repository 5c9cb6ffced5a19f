//! The quotes: both calls on families of settings, each held to the quote that the
//! rules state; and layers built for settings, whose calls are held to the quote.

mod edges;
mod examples;
mod layers;
mod limits;
mod random;
mod stated;
mod unfit;
mod widths;

use std::fmt::{self, Display, Formatter};

use apart::Quote;

use crate::cases::{self, Kind};
use crate::comparison::Outcome;
use crate::setting::{Form, Setting, Taken};

use layers::Layer;
use stated::stated;

/// A setting to quote for.
struct Case<'a> {
    /// Which case of its family it is.
    what: &'static str,
    setting: Setting,
    /// The quote by the rules. Both sides are held to it.
    stated: Quote,
    /// A layer that is built for the setting.
    layer: Option<&'a Layer>,
}

/// Takes the cases of a family one by one.
struct Visitor<'a>(&'a mut dyn FnMut(&Case));

impl Visitor<'_> {
    /// A setting, whose quote is worked out from the rules.
    fn quote(&mut self, what: &'static str, setting: Setting) {
        self.stated(what, setting, stated(&setting));
    }

    /// A setting with its quote.
    fn stated(&mut self, what: &'static str, setting: Setting, stated: Quote) {
        (self.0)(&Case {
            what,
            setting,
            stated,
            layer: None,
        });
    }

    /// A setting with a layer that is built for it.
    fn layer(&mut self, what: &'static str, setting: Setting, layer: &Layer) {
        (self.0)(&Case {
            what,
            setting,
            stated: stated(&setting),
            layer: Some(layer),
        });
    }
}

/// The cases of a family, for the quotes of one form.
type Cases = fn(&mut Visitor, Form);

/// A family of cases, compared as one test.
pub struct Family {
    pub name: String,
    form: Form,
    cases: Cases,
}

/// Of both forms.
const FAMILIES: [(&str, Cases); 11] = [
    ("quotes of the examples", examples::examples),
    ("quotes at and beyond each limit", limits::each),
    ("quotes with two numbers at or beyond their limits", limits::pairs),
    ("several refusals of a quote at once", limits::several),
    ("quotes at the edge of every width, every scale", edges::every_scale),
    ("quotes at the edge of every width, every bound", edges::every_bound),
    (
        "quotes at the edge of every width, every inner size",
        edges::every_inner,
    ),
    ("quotes where no width fits", unfit::settings),
    ("quotes that do not read the width", widths::settings),
    ("random quotes", random::settings),
    ("quotes kept by the writer and both checks", layers::built),
];

/// All families, in the order of digests.txt.
pub fn all() -> Vec<Family> {
    let of_plain = FAMILIES.iter().map(|&(name, cases)| Family {
        name: name.to_owned(),
        form: Form::Plain,
        cases,
    });
    let with_a_bias = FAMILIES.iter().map(|&(name, cases)| Family {
        name: format!("{name}, with a bias"),
        form: Form::Bias,
        cases,
    });
    of_plain.chain(with_a_bias).collect()
}

/// What quotes, on one side of the comparison.
type Side = fn(&Setting) -> Quote;

/// Both sides, and the side whose writer and checks are to keep what its quotes say.
#[derive(Clone, Copy)]
pub struct Sides {
    library: Side,
    apart: Side,
    calls: cases::Side,
}

pub const SIDES: Sides = Sides {
    library,
    apart,
    calls: cases::library,
};

fn library(setting: &Setting) -> Quote {
    let quote = match setting.of_library() {
        Taken::Plain(setting) => dikdumar::quote_ticket(setting),
        Taken::Bias(setting) => dikdumar::quote_bias_ticket(setting),
    };
    Quote::from(quote.numbers())
}

fn apart(setting: &Setting) -> Quote {
    match setting.of_apart() {
        Taken::Plain(setting) => apart::quote_ticket(&setting),
        Taken::Bias(setting) => apart::quote_bias_ticket(&setting),
    }
}

fn kind(form: Form) -> Kind {
    match form {
        Form::Plain => Kind::Quote,
        Form::Bias => Kind::BiasQuote,
    }
}

/// Compares the two sides on every case of a family.
pub fn compare(family: &Family, sides: &Sides) -> Outcome {
    let mut outcome = Outcome::default();
    let mut visit = |case: &Case| {
        let (by_library, by_apart) = ((sides.library)(&case.setting), (sides.apart)(&case.setting));
        outcome.numbers.count(kind(family.form), by_library.number);
        // As digests.txt says.
        for number in by_library.numbers() {
            outcome.digest.update(&number.to_le_bytes());
        }
        let broken = case
            .layer
            .and_then(|layer| layer.first_broken(&case.setting, &by_library, sides.calls));
        if by_library != case.stated || by_apart != case.stated || broken.is_some() {
            outcome.differing += 1;
            outcome.first.get_or_insert_with(|| {
                Difference {
                    index: outcome.compared,
                    case,
                    library: &by_library,
                    apart: &by_apart,
                    broken: broken.as_deref(),
                }
                .to_string()
            });
        }
        outcome.compared += 1;
    };
    (family.cases)(&mut Visitor(&mut visit), family.form);
    outcome
}

/// A case whose quotes are not all the same, or whose layer does not keep them.
struct Difference<'a> {
    /// Its index in the family.
    index: u64,
    case: &'a Case<'a>,
    library: &'a Quote,
    apart: &'a Quote,
    /// The first answer that is not the one quoted.
    broken: Option<&'a str>,
}

impl Display for Difference<'_> {
    fn fmt(&self, f: &mut Formatter) -> fmt::Result {
        let Case {
            what, setting, stated, ..
        } = self.case;
        writeln!(f, "  case {}, {}: {what}", self.index, kind(setting.form()).name())?;
        writeln!(f, "  setting: {setting}")?;
        writeln!(f, "  stated:  {}", line(stated.numbers()))?;
        writeln!(f, "  library: {}", line(self.library.numbers()))?;
        write!(f, "  apart:   {}", line(self.apart.numbers()))?;
        match self.broken {
            None => Ok(()),
            Some(broken) => write!(f, "\n  {broken}"),
        }
    }
}

/// Numbers with a space between.
fn line<const COUNT: usize>(numbers: [u32; COUNT]) -> String {
    numbers.map(|number| number.to_string()).join(" ")
}

/// A refusal by this number.
fn refused(number: u32) -> Quote {
    Quote::from([number, 0, 0, 0, 0])
}

#[cfg(test)]
mod tests;
