//! Examples under K, worked out by hand, state for state: the marked examples by steps,
//! with vectors added, and states made by hand.

use apart::examples::{with_claims, TICKET};
use apart::{Answer, Mark, Run, RunAnswer};

use super::stated::ZEROS;
use super::{Call, Visitor};
use crate::families::craft::{K, P};
use crate::setting::Setting;

/// The state of K with these vectors, at t and row, with zeros past its list and its u.
fn state(list: &[u32], [vector, row]: [u32; 2], u: &[u32]) -> Run {
    let mut run = Run {
        setting: apart::examples::K,
        list_length: list.len() as u32,
        vector,
        row,
        ..ZEROS
    };
    run.setting.vectors = list.len() as u32 / 2;
    run.list[..list.len()].copy_from_slice(list);
    run.u[..u.len()].copy_from_slice(u);
    run
}

fn marked(mark: Mark, run: Run, numbers: [u32; 4]) -> RunAnswer {
    RunAnswer {
        run,
        mark,
        answer: Answer::from(numbers),
    }
}

pub fn examples(visit: &mut Visitor) {
    steps(visit);
    additions(visit);
    refusals(visit);
    made_by_hand(visit);
}

fn step(visit: &mut Visitor, what: &'static str, run: Run, ticket: &[u8], told: RunAnswer) {
    visit.stated(what, Call::Step { run: &run, ticket }, told);
}

fn add(visit: &mut Visitor, what: &'static str, run: Run, vector: &[u32], told: RunAnswer) {
    visit.stated(what, Call::Add { run: &run, vector }, told);
}

/// The ticket of case d, with one more in the first quotient.
fn ticket_of_d() -> Vec<u8> {
    with_claims([-1, 3, 2, -1], [3, 4, 3, 8])
}

/// u is (11, -9) for X = (1, 2), (-5, 35) for (5, 0), (30, -40) for (0, 5) and (29, -33) for
/// (1, 5).
fn steps(visit: &mut Visitor) {
    let of_c = [11, P - 9];
    let begun = state(&[1, 2], [0, 0], &[]);
    let call = Call::Begin {
        setting: K,
        ticket: &TICKET,
        list: &[1, 2],
    };
    visit.stated("case c", call, marked(Mark::UnderWay, begun, [0, 0, 0, 0]));
    let next = state(&[1, 2], [0, 1], &of_c);
    let told = marked(Mark::UnderWay, next, [0, 0, 1, 8]);
    step(visit, "case c, row 0", begun, &TICKET, told);
    let complete = marked(Mark::Complete, state(&[1, 2], [1, 0], &of_c), [0, 0, 0, 12]);
    step(visit, "case c, row 1", next, &TICKET, complete);
    step(visit, "case c, complete", complete.run, &TICKET, complete);

    let next = state(&[0, 5], [0, 1], &[30, P - 40]);
    let told = marked(Mark::UnderWay, next, [0, 0, 1, 8]);
    step(
        visit,
        "case d, row 0",
        state(&[0, 5], [0, 0], &[]),
        &ticket_of_d(),
        told,
    );
    let told = marked(Mark::Complete, state(&[0, 5], [1, 0], &[30, P - 40]), [0, 0, 0, 12]);
    step(visit, "case d, row 1", next, &ticket_of_d(), told);

    let mut run = state(&[1, 5], [0, 0], &[29, P - 33]);
    run.caught = 1;
    let caught = marked(Mark::Caught, run, [12, 0, 0, 8]);
    step(visit, "case e", state(&[1, 5], [0, 0], &[]), &ticket_of_d(), caught);
    step(visit, "case e, caught", run, &ticket_of_d(), caught);
    step(visit, "case e, caught, and the true ticket", run, &TICKET, caught);
}

fn additions(visit: &mut Visitor) {
    let of_c = [11, P - 9];
    let list = [1, 2, 5, 0];
    let told = marked(Mark::UnderWay, state(&list, [0, 0], &[]), [0, 0, 0, 0]);
    add(visit, "before row 0", state(&[1, 2], [0, 0], &[]), &[5, 0], told);
    let longer = state(&list, [0, 1], &of_c);
    let told = marked(Mark::UnderWay, longer, [0, 0, 1, 8]);
    add(visit, "before row 1", state(&[1, 2], [0, 1], &of_c), &[5, 0], told);
    let second = state(&list, [1, 0], &of_c);
    let told = marked(Mark::UnderWay, second, [0, 1, 0, 12]);
    step(visit, "row 1 of the first vector", longer, &TICKET, told);
    let next = state(&list, [1, 1], &[P - 5, 35]);
    let told = marked(Mark::UnderWay, next, [0, 1, 1, 20]);
    step(visit, "row 0 of the second vector", second, &TICKET, told);
    let told = marked(Mark::Complete, state(&list, [2, 0], &[P - 5, 35]), [0, 0, 0, 24]);
    step(visit, "row 1 of the second vector", next, &TICKET, told);

    // Numbers past the list stay, and the vector takes the place of those behind it.
    let mut run = state(&[1, 2], [0, 0], &[7, 8, 9]);
    run.list[2..].fill(P);
    let mut longer = run;
    longer.list[2..4].copy_from_slice(&[0, P - 1]);
    longer.list_length = 4;
    longer.setting.vectors = 2;
    let told = marked(Mark::UnderWay, longer, [0, 0, 0, 0]);
    add(visit, "numbers past the list", run, &[0, P - 1], told);

    let seven = [1; 14];
    let told = marked(Mark::UnderWay, state(&[1; 16], [6, 1], &of_c), [0, 6, 1, 80]);
    add(visit, "the eighth vector", state(&seven, [6, 1], &of_c), &[1, 1], told);
}

/// Each hands the state back, and begin's one of zeros.
fn refusals(visit: &mut Visitor) {
    let refused = |run, number, place| marked(Mark::Refused, run, [number, place, 0, 0]);
    for (what, setting, ticket, list, number, place) in [
        (
            "K with n = 33",
            Setting { columns: 33, ..K },
            &TICKET[..],
            &[1, 2][..],
            1,
            0,
        ),
        ("K with o = 10", Setting { rounding: 10, ..K }, &TICKET, &[1, 2], 19, 0),
        ("K, 0 bytes", K, &[], &[1, 2], 4, 0),
        ("K, 3 numbers", K, &TICKET, &[1, 2, 3], 10, 0),
        ("p at index 1", K, &TICKET, &[1, P], 11, 1),
        ("zeros", K, &TICKET, &[0, 0], 21, 0),
    ] {
        let call = Call::Begin { setting, ticket, list };
        visit.stated(what, call, refused(ZEROS, number, place));
    }
    let under_way = state(&[1, 2], [0, 1], &[11, P - 9]);
    let with = |change: fn(&mut Run)| {
        let mut run = under_way;
        change(&mut run);
        run
    };
    for (what, run, ticket, number, place) in [
        ("K with α = 1", with(|run| run.setting.scale = 1), &TICKET[..], 2, 0),
        ("K with v = 4", with(|run| run.setting.width = 4), &TICKET, 3, 0),
        ("127 bytes", under_way, &TICKET[..127], 4, 0),
        ("three numbers", with(|run| run.list_length = 3), &TICKET, 10, 0),
        ("257 numbers", with(|run| run.list_length = 257), &TICKET, 10, 0),
        ("p at index 0", with(|run| run.list[0] = P), &TICKET, 11, 0),
        ("zeros", with(|run| run.list[..2].fill(0)), &TICKET, 21, 0),
        ("complete, and 0 bytes", with(|run| run.vector = 1), &[], 4, 0),
        ("three numbers, and 0 bytes", with(|run| run.list_length = 3), &[], 4, 0),
        (
            "caught, and zeros",
            with(|run| (run.list[0], run.list[1], run.caught) = (0, 0, 1)),
            &TICKET,
            21,
            0,
        ),
    ] {
        step(visit, what, run, ticket, refused(run, number, place));
    }
    let eight = state(&[1; 16], [7, 1], &[1, 1]);
    for (what, run, vector, number, place) in [
        ("K with ℓ = 0", with(|run| run.setting.rows = 0), &[1, 1][..], 1, 0),
        ("three numbers", with(|run| run.list_length = 3), &[1, 1], 10, 0),
        ("one number of the vector", under_way, &[1], 10, 0),
        ("three numbers of the vector", under_way, &[1, 1, 1], 10, 0),
        ("p second in the vector", under_way, &[0, P], 11, 3),
        ("a vector of zeros", under_way, &[0, 0], 21, 1),
        ("complete by t", with(|run| run.vector = 1), &[1, 1], 22, 0),
        ("complete by row", with(|run| run.row = 2), &[1, 1], 22, 0),
        ("caught", with(|run| run.caught = 1), &[1, 1], 22, 0),
        ("eight vectors", eight, &[1, 1], 22, 0),
        ("eight vectors, and zeros", eight, &[0, 0], 21, 8),
        ("eight vectors, and p", eight, &[P, 0], 11, 16),
        ("caught, and no number", with(|run| run.caught = 1), &[], 10, 0),
    ] {
        add(visit, what, run, vector, refused(run, number, place));
    }
}

fn made_by_hand(visit: &mut Visitor) {
    let with = |[t, row]: [u32; 2], u: [u32; 2], caught| Run {
        caught,
        ..state(&[1, 2], [t, row], &u)
    };
    let of_c = [11, P - 9];
    // Above p, and the same modulo p: u comes back as it came.
    let beyond = [P + 11, 2 * P - 9];
    for (what, run, next, mark, numbers) in [
        (
            "u beyond p",
            with([0, 1], beyond, 0),
            with([1, 0], beyond, 0),
            Mark::Complete,
            [0, 0, 0, 12],
        ),
        (
            "another u",
            with([0, 1], [12, P - 9], 0),
            with([0, 1], [12, P - 9], 1),
            Mark::Caught,
            [12, 0, 1, 12],
        ),
        (
            "another u in row 0",
            with([0, 0], beyond, 0),
            with([0, 1], of_c, 0),
            Mark::UnderWay,
            [0, 0, 1, 8],
        ),
        (
            "caught by 2",
            with([0, 1], of_c, 2),
            with([0, 1], of_c, 2),
            Mark::Caught,
            [12, 0, 1, 12],
        ),
        (
            "caught, and t = s",
            with([1, 0], of_c, 1),
            with([1, 0], of_c, 1),
            Mark::Complete,
            [0, 0, 0, 12],
        ),
        (
            "caught, and row = ℓ",
            with([0, 2], of_c, 1),
            with([0, 2], of_c, 1),
            Mark::Complete,
            [0, 0, 0, 12],
        ),
        (
            "the last t",
            with([u32::MAX, 0], of_c, 0),
            with([u32::MAX, 0], of_c, 0),
            Mark::Complete,
            [0, 0, 0, 12],
        ),
    ] {
        step(visit, what, run, &TICKET, marked(mark, next, numbers));
    }
}
