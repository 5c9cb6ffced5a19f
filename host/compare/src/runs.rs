//! Checks by steps: begin, step and addition on families of states, each held to what
//! the rules state; and whole runs, whose ends are held to the challenge check with the
//! final list. All are of plain tickets.

mod begin;
mod craft;
mod difference;
mod examples;
mod extremes;
mod lent;
mod random;
mod refusals;
mod sets;
mod sides;
mod stated;
mod states;
mod whole;

use apart::{Mark, Run, RunAnswer};
use digests::Digest;

use crate::cases::{self, Kind};
use crate::comparison::{line, Outcome};
use crate::setting::Setting;

use craft::Lent;
use difference::{words, Difference};
use sides::Sides;

pub use sides::SIDES;

/// A call, with what is handed to it.
#[derive(Clone, Copy, Debug)]
pub enum Call<'a> {
    Begin {
        setting: Setting,
        ticket: &'a [u8],
        list: &'a [u32],
    },
    Step {
        run: &'a Run,
        ticket: &'a [u8],
    },
    Add {
        run: &'a Run,
        vector: &'a [u32],
    },
}

impl Call<'_> {
    fn kind(&self) -> Kind {
        match self {
            Call::Begin { .. } => Kind::RunBegin,
            Call::Step { .. } => Kind::RunStep,
            Call::Add { .. } => Kind::RunAdd,
        }
    }
}

/// A call and, where it is stated, the answer to it.
struct Case<'a> {
    /// Which case of its family it is.
    what: &'static str,
    call: Call<'a>,
    /// The answer where the rules state it. Both sides are held to it.
    stated: Option<RunAnswer>,
    /// Whether it is a step of a run to which one ticket is lent throughout. Where it
    /// ends the run, it is held to the challenge check.
    of_one_ticket: bool,
}

/// Takes the cases of a family one by one.
struct Visitor<'a>(&'a mut dyn FnMut(&Case));

impl Visitor<'_> {
    /// A call with its answer.
    fn stated(&mut self, what: &'static str, call: Call, stated: RunAnswer) {
        self.case(what, call, Some(stated), false);
    }

    /// A begin, whose answer is worked out from the rules where it is known what reading
    /// the ticket gives.
    fn begin(&mut self, what: &'static str, setting: &Setting, ticket: &Lent, list: &[u32]) -> Option<RunAnswer> {
        let stated = stated::begin(setting, ticket, list);
        let call = Call::Begin {
            setting: *setting,
            ticket: &ticket.bytes,
            list,
        };
        self.case(what, call, stated, false);
        stated
    }

    /// A step, in the same way.
    fn step(&mut self, what: &'static str, run: &Run, ticket: &Lent) -> Option<RunAnswer> {
        self.step_of(what, run, ticket, false)
    }

    /// A step of a run to which one ticket is lent throughout.
    fn step_on(&mut self, what: &'static str, run: &Run, ticket: &Lent) -> RunAnswer {
        let stated = self.step_of(what, run, ticket, true);
        stated.expect("it is known what reading the ticket gives")
    }

    fn step_of(&mut self, what: &'static str, run: &Run, ticket: &Lent, of_one_ticket: bool) -> Option<RunAnswer> {
        let stated = stated::step(run, ticket);
        let ticket = &ticket.bytes;
        self.case(what, Call::Step { run, ticket }, stated, of_one_ticket);
        stated
    }

    /// An addition, whose answer is worked out from the rules.
    fn add(&mut self, what: &'static str, run: &Run, vector: &[u32]) -> RunAnswer {
        let stated = stated::add(run, vector);
        self.stated(what, Call::Add { run, vector }, stated);
        stated
    }

    fn case(&mut self, what: &'static str, call: Call, stated: Option<RunAnswer>, of_one_ticket: bool) {
        (self.0)(&Case {
            what,
            call,
            stated,
            of_one_ticket,
        });
    }
}

/// The cases of a family.
type Cases = fn(&mut Visitor);

/// A family of cases, compared as one test.
pub struct Family {
    pub name: &'static str,
    cases: Cases,
}

const FAMILIES: [(&str, Cases); 21] = [
    ("examples of runs", examples::examples),
    (
        "whole runs of every small size, additions at every place",
        whole::small_sizes,
    ),
    ("whole runs caught in every vector and row", whole::caught_everywhere),
    ("whole runs of false tickets, hidden by some vectors", whole::hidden),
    ("whole runs of the largest size, up to eight vectors", whole::largest),
    (
        "begin of a run, and all that a challenge check refuses",
        begin::refusals,
    ),
    ("begin of a run, and what its state holds", begin::states),
    ("states of a run at t and row in and beyond their ends", states::places),
    ("states of a run with lists of other lengths", states::list_lengths),
    ("states of a run with any list numbers", states::list_numbers),
    ("states of a run with any numbers in u", states::products),
    ("runs with extreme entries, claims and numbers", extremes::numbers),
    ("tickets lent to a run", lent::tickets),
    ("runs with every sequence of tickets", lent::sequences),
    ("vectors added to a run", lent::vectors),
    ("settings of a run at and beyond each limit", refusals::limits),
    (
        "settings of a run with two numbers at or beyond their limits",
        refusals::pairs_of_limits,
    ),
    ("several refusals of a run at once", sets::several),
    ("states of a run handed back by a refusal", refusals::handed_back),
    ("random runs", random::runs),
    ("random states of a run", random::states),
];

/// All families, in the order of digests.txt.
pub fn all() -> Vec<Family> {
    FAMILIES.map(|(name, cases)| Family { name, cases }).into()
}

/// Compares the two sides on every case of a family.
pub fn compare(family: &Family, sides: &Sides) -> Outcome {
    let mut outcome = Outcome::default();
    let mut visit = |case: &Case| {
        let answers = [sides.library, sides.apart].map(|(side, _)| side(&case.call));
        let [by_library, by_apart] = &answers;
        let kind = case.call.kind();
        outcome.numbers.count(kind, by_library.answer.number);
        outcome.numbers.count_mark(kind, by_library.mark);
        digest_answer(&mut outcome.digest, by_library);
        let right = case.stated.as_ref().unwrap_or(by_apart);
        let broken = [sides.library, sides.apart]
            .into_iter()
            .zip(&answers)
            .find_map(|((_, check), told)| case.other_than_checked(told, check));
        if by_library != right || by_apart != right || broken.is_some() {
            outcome.differing += 1;
            outcome.first.get_or_insert_with(|| {
                Difference {
                    index: outcome.compared,
                    case,
                    library: by_library,
                    apart: by_apart,
                    broken: broken.as_deref(),
                }
                .to_string()
            });
        }
        outcome.compared += 1;
    };
    (family.cases)(&mut Visitor(&mut visit));
    outcome
}

/// As digests.txt says.
fn digest_answer(digest: &mut Digest, told: &RunAnswer) {
    let answer = told.answer;
    let numbers = [answer.number, answer.place, answer.row, answer.products];
    for number in [told.mark as u32].into_iter().chain(numbers).chain(words(&told.run)) {
        digest.update(&number.to_le_bytes());
    }
}

impl Case<'_> {
    /// What the challenge check says to the ticket with the list of the state, where the
    /// run ends here with another answer.
    fn other_than_checked(&self, told: &RunAnswer, check: cases::Side) -> Option<String> {
        let Call::Step { ticket, .. } = self.call else {
            return None;
        };
        if !self.of_one_ticket || !matches!(told.mark, Mark::Caught | Mark::Complete) {
            return None;
        }
        let run = &told.run;
        let call = cases::Call::Challenge {
            ticket,
            list: run.list.get(..run.list_length as usize).unwrap_or_default(),
        };
        let checked = check(&cases::Case {
            what: self.what,
            setting: Setting::plain(run.setting),
            call,
            expected: None,
        });
        (checked.answer != told.answer).then(|| {
            format!(
                "the run ends with {}, and the challenge check says {}",
                line(&told.answer),
                line(&checked.answer)
            )
        })
    }
}

#[cfg(test)]
mod tests;
