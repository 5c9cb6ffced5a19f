//! Both sides, and what they answer.

use apart::{Mark, Run, RunAnswer};

use super::Call;
use crate::cases;
use crate::setting::Setting;

/// What answers, on one side of the comparison.
pub type Side = fn(&Call) -> RunAnswer;

/// Both sides, each with the side whose challenge check its runs are held to.
#[derive(Clone, Copy)]
pub struct Sides {
    pub library: (Side, cases::Side),
    pub apart: (Side, cases::Side),
}

pub const SIDES: Sides = Sides {
    library: (library, cases::library),
    apart: (apart, cases::apart),
};

fn library(call: &Call) -> RunAnswer {
    let told = match *call {
        Call::Begin { setting, ticket, list } => dikdumar::run_begin(setting.numbers().into(), ticket, list),
        Call::Step { run, ticket } => dikdumar::run_step(of_library(run), ticket),
        Call::Add { run, vector } => dikdumar::run_add(of_library(run), vector),
    };
    RunAnswer {
        run: of_apart(&told.run),
        mark: match told.mark {
            dikdumar::Mark::UnderWay => Mark::UnderWay,
            dikdumar::Mark::Caught => Mark::Caught,
            dikdumar::Mark::Complete => Mark::Complete,
            dikdumar::Mark::Refused => Mark::Refused,
        },
        answer: told.answer.numbers().into(),
    }
}

pub fn apart(call: &Call) -> RunAnswer {
    match *call {
        Call::Begin { setting, ticket, list } => apart::run_begin(&setting.numbers().into(), ticket, list),
        Call::Step { run, ticket } => apart::run_step(run, ticket),
        Call::Add { run, vector } => apart::run_add(run, vector),
    }
}

fn of_library(run: &Run) -> dikdumar::Run {
    dikdumar::Run {
        setting: Setting::plain(run.setting).numbers().into(),
        list: run.list,
        list_length: run.list_length,
        vector: run.vector,
        row: run.row,
        u: run.u,
        caught: run.caught,
    }
}

fn of_apart(run: &dikdumar::Run) -> Run {
    let dikdumar::Setting {
        rows,
        inner,
        columns,
        vectors,
        scale,
        bound,
        width,
        rounding,
    } = run.setting;
    Run {
        setting: [rows, inner, columns, vectors, scale, bound, width, rounding].into(),
        list: run.list,
        list_length: run.list_length,
        vector: run.vector,
        row: run.row,
        u: run.u,
        caught: run.caught,
    }
}
