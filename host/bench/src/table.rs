//! The tables of ratios, in Markdown, and what they are to be.

use std::fmt::{Display, Formatter, Result};

/// The programs beside the library, and the most that the ratio of a whole call
/// may be.
const OTHERS: [(&str, f64); 2] = [("straightforward", 1.0 / 3.0), ("FLINT", 1.0)];

/// The most that the ratio of a part to its kernel may be.
const OF_KERNEL: f64 = 1.1;

#[derive(Default)]
pub struct Table {
    pub calls: Vec<Call>,
    pub parts: Vec<Part>,
    pub bias: Vec<Bias>,
    pub stepped: Vec<Stepped>,
}

/// A whole call.
pub struct Call {
    pub size: String,
    pub vectors: Option<u32>,
    pub name: &'static str,
    /// Nanoseconds of the library and of the others, as far as there are any.
    pub times: Vec<f64>,
}

impl Call {
    /// The library's time over that of the other of this index.
    fn ratio(&self, index: usize) -> Option<f64> {
        Some(self.times[0] / self.times.get(index + 1)?)
    }
}

/// A part of a call.
pub struct Part {
    pub size: String,
    pub name: &'static str,
    /// Nanoseconds of the library and, if there is one, of the kernel.
    pub library: f64,
    pub kernel: Option<f64>,
}

impl Part {
    fn ratio(&self) -> Option<f64> {
        Some(self.library / self.kernel?)
    }
}

/// A call on a bias ticket.
pub struct Bias {
    pub size: String,
    pub vectors: Option<u32>,
    pub name: &'static str,
    /// Nanoseconds, and those of the call on a plain ticket.
    pub time: f64,
    pub plain: f64,
    /// The products counted, and those of the call on a plain ticket.
    pub products: [u32; 2],
}

impl Bias {
    /// What a product costs, over that of the plain ticket.
    fn ratio(&self) -> f64 {
        let [products, plain] = self.products.map(f64::from);
        (self.time / products) / (self.plain / plain)
    }
}

/// A challenge check by steps.
pub struct Stepped {
    pub size: String,
    pub vectors: u32,
    pub steps: u32,
    /// Nanoseconds of all steps, of the tests that each makes, and of the whole check.
    pub run: f64,
    pub reading: f64,
    pub check: f64,
}

impl Stepped {
    /// Nanoseconds of a step.
    fn step(&self) -> f64 {
        self.run / f64::from(self.steps)
    }

    /// What the steps cost beside the tests of each, over the whole check.
    fn ratio(&self) -> f64 {
        (self.run - f64::from(self.steps) * self.reading) / self.check
    }
}

impl Display for Table {
    fn fmt(&self, f: &mut Formatter) -> Result {
        write!(f, "| Size | s | Call | Library, µs |")?;
        for (name, _) in OTHERS {
            write!(f, " Library / {name} |")?;
        }
        writeln!(f)?;
        writeln!(f, "|---|---|---|---:|{}", "---:|".repeat(OTHERS.len()))?;
        for call in &self.calls {
            let vectors = call.vectors.map_or(String::new(), |vectors| vectors.to_string());
            let time = call.times[0] / 1000.0;
            write!(f, "| {} | {vectors} | {} | {time:.3} |", call.size, call.name)?;
            for index in 0..OTHERS.len() {
                write!(f, " {} |", shown(call.ratio(index), 2))?;
            }
            writeln!(f)?;
        }
        writeln!(f)?;
        writeln!(f, "| Size | Part | Library, µs | Kernel, µs | Library / kernel |")?;
        writeln!(f, "|---|---|---:|---:|---:|")?;
        for part in &self.parts {
            let time = part.library / 1000.0;
            let kernel = shown(part.kernel.map(|kernel| kernel / 1000.0), 3);
            let ratio = shown(part.ratio(), 2);
            writeln!(f, "| {} | {} | {time:.3} | {kernel} | {ratio} |", part.size, part.name)?;
        }
        writeln!(f)?;
        writeln!(
            f,
            "| Size | s | Call | Bias ticket, µs | Bias / plain | Bias / plain, a product |"
        )?;
        writeln!(f, "|---|---|---|---:|---:|---:|")?;
        for call in &self.bias {
            let vectors = call.vectors.map_or(String::new(), |vectors| vectors.to_string());
            let (time, whole, product) = (call.time / 1000.0, call.time / call.plain, call.ratio());
            write!(f, "| {} | {vectors} | {} |", call.size, call.name)?;
            writeln!(f, " {time:.3} | {whole:.2} | {product:.2} |")?;
        }
        writeln!(f)?;
        writeln!(
            f,
            "| Size | s | Steps | Steps, µs | Step, µs | Tests, µs | (Steps - tests) / challenge check |"
        )?;
        writeln!(f, "|---|---|---:|---:|---:|---:|---:|")?;
        for run in &self.stepped {
            let [all, step, reading] = [run.run, run.step(), run.reading].map(|time| time / 1000.0);
            write!(f, "| {} | {} | {} | {all:.3} |", run.size, run.vectors, run.steps)?;
            writeln!(f, " {step:.3} | {reading:.3} | {:.2} |", run.ratio())?;
        }

        writeln!(f)?;
        writeln!(f, "Goals:")?;
        writeln!(f)?;
        for (index, (name, most)) in OTHERS.into_iter().enumerate() {
            let ratios = self.calls.iter().map(|call| (call.to_string(), call.ratio(index)));
            goal(f, "Calls", name, most, ratios)?;
        }
        let ratios = self.parts.iter().map(|part| (part.to_string(), part.ratio()));
        goal(f, "Parts", "kernel", OF_KERNEL, ratios)
    }
}

/// Says which of the ratios that there are meet a goal.
fn goal(
    f: &mut Formatter,
    kind: &str,
    other: &str,
    most: f64,
    ratios: impl Iterator<Item = (String, Option<f64>)>,
) -> Result {
    let ratios: Vec<(String, f64)> = ratios.filter_map(|(name, ratio)| Some((name, ratio?))).collect();
    let missed: Vec<String> = ratios
        .iter()
        .filter(|(_, ratio)| *ratio > most)
        .map(|(name, ratio)| format!("{name} ({ratio:.3})"))
        .collect();
    write!(f, "- {kind}, library / {other} at most {most:.2}: ")?;
    match (ratios.len(), missed.len()) {
        (0, _) => writeln!(f, "not measured."),
        (all, 0) => writeln!(f, "met by all {all}."),
        (all, count) => writeln!(f, "met by {} of {all}; missed by {}.", all - count, missed.join(", ")),
    }
}

fn shown(number: Option<f64>, decimals: usize) -> String {
    number.map_or("-".to_string(), |number| format!("{number:.decimals$}"))
}

impl Display for Call {
    fn fmt(&self, f: &mut Formatter) -> Result {
        write!(f, "{} {}", self.name, self.size)?;
        match self.vectors {
            Some(vectors) => write!(f, " s = {vectors}"),
            None => Ok(()),
        }
    }
}

impl Display for Part {
    fn fmt(&self, f: &mut Formatter) -> Result {
        write!(f, "{} {}", self.name, self.size)
    }
}
