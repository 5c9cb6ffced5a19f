//! A case whose answers are not all the same, in words.

use std::fmt::{self, Display, Formatter};

use apart::{Run, RunAnswer};

use super::{Call, Case};
use crate::cases::mark_name;
use crate::comparison::{line, write_ticket};
use crate::setting::Setting;

/// A case whose answers are not all the same, or whose run does not end as the challenge
/// check says.
pub struct Difference<'a> {
    /// Its index in the family.
    pub index: u64,
    pub case: &'a Case<'a>,
    pub library: &'a RunAnswer,
    pub apart: &'a RunAnswer,
    /// What the challenge check says.
    pub broken: Option<&'a str>,
}

impl Display for Difference<'_> {
    fn fmt(&self, f: &mut Formatter) -> fmt::Result {
        let Case { what, call, stated, .. } = self.case;
        writeln!(f, "  case {}, {}: {what}", self.index, call.kind().name())?;
        match call {
            Call::Begin { setting, ticket, list } => {
                writeln!(f, "  setting: {setting}")?;
                write_ticket(f, ticket)?;
                writeln!(f, "  list: {} numbers {list:?}", list.len())?;
            }
            Call::Step { run, ticket } => {
                write_run(f, run)?;
                write_ticket(f, ticket)?;
            }
            Call::Add { run, vector } => {
                write_run(f, run)?;
                writeln!(f, "  vector: {} numbers {vector:?}", vector.len())?;
            }
        }
        let right = stated.as_ref().unwrap_or(self.apart);
        let answers = [
            ("stated: ", stated.as_ref()),
            ("library:", Some(self.library)),
            ("apart:  ", Some(self.apart)),
        ];
        let lines = answers.into_iter().filter_map(|(name, told)| {
            let told = told?;
            let word = first_other_word(&told.run, &right.run).unwrap_or_default();
            let mark = mark_name(told.mark);
            Some(format!("  {name} {mark}, {}{word}", line(&told.answer)))
        });
        write!(f, "{}", lines.collect::<Vec<_>>().join("\n"))?;
        match self.broken {
            None => Ok(()),
            Some(broken) => write!(f, "\n  {broken}"),
        }
    }
}

/// A state, without what stands past its list and its u.
fn write_run(f: &mut Formatter, run: &Run) -> fmt::Result {
    let Run {
        list,
        list_length,
        vector,
        row,
        u,
        caught,
        ..
    } = run;
    let list = &list[..list.len().min(*list_length as usize)];
    let u = &u[..u.len().min(run.setting.inner as usize)];
    writeln!(f, "  setting: {}", Setting::plain(run.setting))?;
    writeln!(f, "  list: {list_length} numbers {list:?}")?;
    writeln!(f, "  vector {vector}, row {row}, caught {caught}, u {u:?}")
}

/// All numbers of a state, in the order of its fields.
pub fn words(run: &Run) -> impl Iterator<Item = u32> + '_ {
    let setting = Setting::plain(run.setting).numbers();
    let list = run.list.iter().copied();
    let u = run.u.iter().copied();
    let places = [run.list_length, run.vector, run.row];
    setting
        .into_iter()
        .chain(list)
        .chain(places)
        .chain(u)
        .chain([run.caught])
}

const SETTING: usize = 8;
const PLACES: usize = SETTING + 256;
const U: usize = PLACES + 3;
const CAUGHT: usize = U + 64;

/// Where a state is first not the right one.
fn first_other_word(run: &Run, right: &Run) -> Option<String> {
    let (index, (one, other)) = words(run)
        .zip(words(right))
        .enumerate()
        .find(|(_, (one, other))| one != other)?;
    let name = match index {
        ..SETTING => format!("number {index} of the setting"),
        SETTING..PLACES => format!("list[{}]", index - SETTING),
        PLACES..U => ["list_length", "vector", "row"][index - PLACES].to_owned(),
        U..CAUGHT => format!("u[{}]", index - U),
        _ => "caught".to_owned(),
    };
    Some(format!(", {name} is {one} and not {other}"))
}
