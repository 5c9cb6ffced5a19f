//! "Further vectors during a check": "Let a plain check proceed one row at a
//! step, the ticket lent at each, its state handed in and handed back."

use crate::answer::Refusal;
use crate::check::{self, is_unequal, products_of_a_row, products_of_a_vector, read_list, read_vectors};
use crate::setting::Terms;
use crate::ticket::{self, Ticket};
use crate::{reduce, residue_of, Answer, Setting};

/// The state of a run. Any value may stand in any of its numbers; s stands in the
/// setting.
#[derive(Clone, Copy, Debug, PartialEq, Eq)]
pub struct Run {
    pub setting: Setting,
    /// The vectors one after another.
    pub list: [u32; 256],
    /// How many numbers of it are the list.
    pub list_length: u32,
    /// The next t.
    pub vector: u32,
    /// The next row.
    pub row: u32,
    /// u of vector t, from that vector's first row on.
    pub u: [u32; 64],
    /// Whether the run is caught, in vector t and row: it is if this is not 0.
    pub caught: u32,
}

/// "The answer carries a mark: under way, caught, complete or refused".
#[derive(Clone, Copy, Debug, PartialEq, Eq)]
pub enum Mark {
    UnderWay,
    Caught,
    Complete,
    Refused,
}

/// The state handed back, the mark and the four numbers.
#[derive(Clone, Copy, Debug, PartialEq, Eq)]
pub struct RunAnswer {
    pub run: Run,
    pub mark: Mark,
    pub answer: Answer,
}

/// A run over this list, before its first row.
pub fn run_begin(setting: &Setting, ticket: &[u8], list: &[u32]) -> RunAnswer {
    begin(setting, ticket, list).unwrap_or_else(|refusal| refused(zeros(), refusal))
}

/// The run after one more row, or as it was if it is finished: "A finished state
/// gives its answer again".
pub fn run_step(run: &Run, ticket: &[u8]) -> RunAnswer {
    step(run, ticket).unwrap_or_else(|refusal| refused(*run, refusal))
}

/// The run with one vector more: "While it is neither caught nor complete, one
/// more vector may be added at the end."
pub fn run_add(run: &Run, vector: &[u32]) -> RunAnswer {
    addition(run, vector).unwrap_or_else(|refusal| refused(*run, refusal))
}

/// "Begin, step and addition first make the ordinary tests": those of the
/// challenge check, in its order.
fn begin(setting: &Setting, ticket: &[u8], list: &[u32]) -> Result<RunAnswer, Refusal> {
    let terms = Terms::from(setting);
    terms.test()?;
    ticket::read(&terms, ticket)?;
    read_list(setting, list)?;
    let run = Run {
        setting: *setting,
        ..zeros()
    };
    Ok(told(with_numbers(run, list)))
}

/// The tests are made "on the state's setting and list too", also for a finished
/// state.
fn step(run: &Run, ticket: &[u8]) -> Result<RunAnswer, Refusal> {
    let terms = Terms::from(&run.setting);
    terms.test()?;
    let ticket = ticket::read(&terms, ticket)?;
    let vectors = read_held(run)?;
    let former = told(*run);
    if former.mark != Mark::UnderWay {
        return Ok(former);
    }
    // It is not complete, so t is below s.
    let x = &vectors[run.vector as usize];
    Ok(told(after_a_row(run, &ticket, x)))
}

/// "an addition is lent no ticket; its vector comes after the state's list". "It
/// refuses an addition as 22 when the run is caught or complete or holds eight
/// vectors, after the tests of 10, 11 and 21 on the vector, places counted in the
/// lengthened list."
fn addition(run: &Run, vector: &[u32]) -> Result<RunAnswer, Refusal> {
    Terms::from(&run.setting).test()?;
    read_held(run)?;
    let s = run.setting.vectors;
    read_vectors(&run.setting, s..s + 1, vector)?;
    if told(*run).mark != Mark::UnderWay || s == 8 {
        return Err(Refusal { number: 22, place: 0 });
    }
    let mut longer = with_numbers(*run, vector);
    longer.setting.vectors += 1;
    Ok(told(longer))
}

/// The vectors of the state's list, by the tests 10, 11 and 21. A length above
/// 256 is none that s·n can be.
fn read_held(run: &Run) -> Result<Vec<Vec<i128>>, Refusal> {
    match run.list.get(..run.list_length as usize) {
        Some(list) => read_list(&run.setting, list),
        None => Err(Refusal { number: 10, place: 0 }),
    }
}

/// The run with these numbers at the end of its list. There are at most eight
/// vectors of at most 32 numbers then, so all of them find their place.
fn with_numbers(mut run: Run, numbers: &[u32]) -> Run {
    let end = run.list_length as usize;
    for (held, &number) in run.list.iter_mut().skip(end).zip(numbers) {
        *held = number;
    }
    run.list_length += numbers.len() as u32;
    run
}

/// The run after its next row, for X, the vector t. Neither t nor row is beyond
/// its end here. Unequal: it is caught where it stands.
fn after_a_row(run: &Run, ticket: &Ticket, x: &[i128]) -> Run {
    let mut next = *run;
    // "A vector's u comes from the ticket lent at its first row."
    if run.row == 0 {
        for (held, number) in next.u.iter_mut().zip(ticket.b.times(x)) {
            *held = residue_of(number);
        }
    }
    let m = run.setting.inner as usize;
    // For the computation only: the state's u comes back as it came.
    let u: Vec<i128> = next
        .u
        .iter()
        .take(m)
        .map(|&number| i128::from(reduce(number)))
        .collect();
    if is_unequal(ticket, run.row, x, &u) {
        next.caught = 1;
    } else if run.row + 1 < run.setting.rows {
        next.row += 1;
    } else {
        next.row = 0;
        next.vector += 1;
    }
    next
}

/// What a state tells whose setting has passed its tests: its mark and its
/// numbers. "one whose t or row is beyond its end counts as complete", also where
/// it says that it is caught.
fn told(run: Run) -> RunAnswer {
    let terms = Terms::from(&run.setting);
    let (mark, answer) = if run.vector >= run.setting.vectors || run.row >= run.setting.rows {
        (Mark::Complete, check::accepted(&terms))
    } else if run.caught != 0 {
        (Mark::Caught, check::caught(&terms, run.vector, run.row))
    } else {
        (Mark::UnderWay, under_way(&terms, run.vector, run.row))
    };
    RunAnswer { run, mark, answer }
}

/// "under way, and after an addition, the numbers are 0, next t, next row,
/// products so far, always worked out from t and row (a vector's mn counts once
/// its row 0 is done)."
fn under_way(terms: &Terms, t: u32, row: u32) -> Answer {
    let Setting { inner, columns, .. } = terms.setting;
    let products_of_u = if row > 0 { inner * columns } else { 0 };
    Answer {
        number: 0,
        place: t,
        row,
        products: t * products_of_a_vector(terms) + products_of_u + row * products_of_a_row(terms),
    }
}

/// "a refusal gives the former state, begin's one of zeros."
fn refused(run: Run, refusal: Refusal) -> RunAnswer {
    RunAnswer {
        run,
        mark: Mark::Refused,
        answer: Answer::from(refusal),
    }
}

fn zeros() -> Run {
    Run {
        setting: Setting::from([0; 8]),
        list: [0; 256],
        list_length: 0,
        vector: 0,
        row: 0,
        u: [0; 64],
        caught: 0,
    }
}

#[cfg(test)]
mod tests;

#[cfg(test)]
mod order_tests;

#[cfg(test)]
mod state_tests;

#[cfg(test)]
mod add_tests;

#[cfg(test)]
mod whole_tests;
