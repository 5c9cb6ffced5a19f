//! "A missing file counts as empty": each file whole, missing or empty, in all
//! combinations.

use crate::case::{Case, Entry};
use crate::sample::Sample;

#[derive(Clone, Copy, Debug, PartialEq, Eq)]
enum State {
    Whole,
    Missing,
    Empty,
}

impl State {
    const ALL: [State; 3] = [State::Whole, State::Missing, State::Empty];

    fn of(self, whole: &Entry) -> Entry {
        match self {
            State::Whole => whole.clone(),
            State::Missing => Entry::Missing,
            State::Empty => Entry::Bytes(Vec::new()),
        }
    }
}

pub fn cases() -> Vec<Case> {
    let mut cases = Vec::new();
    for setting in State::ALL {
        for ticket in State::ALL {
            for challenge in State::ALL {
                cases.push(case([setting, ticket, challenge]));
            }
        }
    }
    cases
}

fn case(states: [State; 3]) -> Case {
    let [setting, ticket, challenge] = states;
    // The first file that is not whole decides.
    let line = match states.iter().position(|&state| state != State::Whole) {
        Some(0) => "1 0 0 0",
        Some(1) => "4 0 0 0",
        Some(_) => "10 0 0 0",
        None => "0 0 0 12",
    };
    let whole = Sample::of_c().case(format!(
        "setting {setting:?}, ticket {ticket:?}, challenge {challenge:?}"
    ));
    Case {
        setting: setting.of(&whole.setting),
        ticket: ticket.of(&whole.ticket),
        challenge: challenge.of(&whole.challenge),
        ..whole
    }
    .states(line)
}
