//! Several things wrong at once: the earliest test wins. "1, 2, 3, 4; then
//! record after record, each by 5, 6 and its own range; then 10, 11, 12", and 21
//! "once every list number has passed 11".

use apart::examples::{with_claims, K};
use apart::program::challenge_file;
use apart::Setting;

use crate::case::{Case, Entry};
use crate::sample::{cycle, setting_bytes, Sample, P};

pub fn cases() -> Vec<Case> {
    [between_files(), within_a_setting(), within_a_ticket(), within_a_list()].concat()
}

/// A file with one thing wrong, and the line for it if nothing before is.
struct Fault {
    name: &'static str,
    bytes: Vec<u8>,
    line: &'static str,
}

fn fault(name: &'static str, bytes: Vec<u8>, line: &'static str) -> Fault {
    Fault { name, bytes, line }
}

fn settings() -> Vec<Fault> {
    let of = |setting: Setting| setting_bytes(&setting);
    vec![
        fault("setting of 21 bytes", cycle(&of(K), 21), "1 0 0 0"),
        fault("n = 33", of(Setting { columns: 33, ..K }), "1 0 0 0"),
        fault("α = 1", of(Setting { scale: 1, ..K }), "2 0 0 0"),
        fault("v = 4", of(Setting { width: 4, ..K }), "3 0 0 0"),
    ]
}

fn tickets() -> Vec<Fault> {
    let c = Sample::of_c();
    vec![
        fault("ticket of 129 bytes", cycle(&c.ticket, 129), "4 0 0 0"),
        fault("column 2 in record 15", c.with_byte(8 * 15 + 3, 2), "5 15 0 0"),
        fault("p in record 15", c.with_value(15, P), "6 15 0 0"),
        fault("entry 9 in record 7", c.with_value(7, 9), "7 7 0 0"),
        fault("quotient -17 in record 11", c.with_value(11, P - 17), "8 11 0 0"),
        fault("remainder 10 in record 15", c.with_value(15, 10), "9 15 0 0"),
    ]
}

fn challenges() -> Vec<Fault> {
    vec![
        fault("no list", Vec::new(), "10 0 0 0"),
        fault("challenge of 9 bytes", cycle(&challenge_file(&[1, 2]), 9), "10 0 0 0"),
        fault("p at index 1", challenge_file(&[1, P]), "11 1 0 0"),
        fault("two zeros", challenge_file(&[0, 0]), "21 0 0 0"),
    ]
}

/// One fault in each of two or three files.
fn between_files() -> Vec<Case> {
    let c = Sample::of_c();
    let mut cases = Vec::new();
    for setting in settings() {
        for ticket in tickets().iter().step_by(3) {
            let case = c
                .case(format!("{}, {}", setting.name, ticket.name))
                .setting(setting.bytes.clone())
                .ticket(ticket.bytes.clone());
            cases.push(case.states(setting.line));
        }
        for challenge in challenges().into_iter().skip(1) {
            let case = c
                .case(format!("{}, {}", setting.name, challenge.name))
                .setting(setting.bytes.clone())
                .challenge(challenge.bytes);
            cases.push(case.states(setting.line));
        }
        let case = c.case(format!("{}, no ticket, no list", setting.name));
        let case = case
            .setting(setting.bytes)
            .ticket(Entry::Missing)
            .challenge(Entry::Missing);
        cases.push(case.states(setting.line));
    }
    for ticket in tickets() {
        for challenge in challenges() {
            let case = c
                .case(format!("{}, {}", ticket.name, challenge.name))
                .ticket(ticket.bytes.clone())
                .challenge(challenge.bytes);
            cases.push(case.states(ticket.line));
        }
    }
    // A false ticket is caught by X = (1, 5), if the list is well formed.
    for challenge in challenges() {
        let case = c
            .case(format!("a false ticket, {}", challenge.name))
            .ticket(with_claims([-1, 3, 2, -1], [3, 4, 3, 8]))
            .challenge(challenge.bytes);
        cases.push(case.states(challenge.line));
    }
    cases
}

fn within_a_setting() -> Vec<Case> {
    let case = |description: &str, setting: Setting| Sample::of_c().case(description).setting(setting_bytes(&setting));
    // v = 4 doesn't fit.
    let wrong = Setting { width: 4, ..K };
    vec![
        case(
            "s = 0, α = 1, T = 9",
            Setting {
                vectors: 0,
                scale: 1,
                bound: 9,
                ..K
            },
        )
        .states("1 0 0 0"),
        case("m = 65, v = 4", Setting { inner: 65, ..wrong }).states("1 0 0 0"),
        case(
            "ℓ = 33, v = 31",
            Setting {
                rows: 33,
                width: 31,
                ..K
            },
        )
        .states("1 0 0 0"),
        case("α = 65,537, v = 4", Setting { scale: 65_537, ..wrong }).states("2 0 0 0"),
        case("T = 0, v = 4", Setting { bound: 0, ..wrong }).states("2 0 0 0"),
        // 2^(v-1) and 2^v are not to be made of it.
        case("v = 0", Setting { width: 0, ..K }).states("2 0 0 0"),
        case(
            "α, T and v at 2^32 - 1",
            Setting::from([2, 2, 2, 1, u32::MAX, u32::MAX, u32::MAX, 0]),
        )
        .states("2 0 0 0"),
    ]
}

fn within_a_ticket() -> Vec<Case> {
    let c = Sample::of_c();
    // Values into records, kinds of 0 into others.
    let case = |description: &str, values: &[(usize, u32)], kinds: &[usize]| {
        let mut sample = c.clone();
        for &(record, value) in values {
            sample.ticket = sample.with_value(record, value);
        }
        for &record in kinds {
            sample.ticket = sample.with_byte(8 * record, 0);
        }
        sample.case(description)
    };
    vec![
        case("5 and 6 in record 3", &[(3, P)], &[3]).states("5 3 0 0"),
        case("5 and 7 in record 3", &[(3, 9)], &[3]).states("5 3 0 0"),
        case("5 and 9 in record 14", &[(14, 10)], &[14]).states("5 14 0 0"),
        // p + 9 would be an entry of 9, p a remainder of 0.
        case("6 and 7 in record 3", &[(3, P + 9)], &[]).states("6 3 0 0"),
        case("6 and 9 in record 14", &[(14, P)], &[]).states("6 14 0 0"),
        case("7 in record 3, 5 in record 4", &[(3, 9)], &[4]).states("7 3 0 0"),
        case("6 in record 2, 5 in record 15", &[(2, P)], &[15]).states("6 2 0 0"),
        case("8 in record 8, 7 in record 7", &[(8, 16), (7, 9)], &[]).states("7 7 0 0"),
        case("8 in record 11, 9 in record 12", &[(11, 16), (12, 10)], &[]).states("8 11 0 0"),
        case(
            "5 in each record",
            &[],
            &[15, 14, 13, 12, 11, 10, 9, 8, 7, 6, 5, 4, 3, 2, 1, 0],
        )
        .states("5 0 0 0"),
    ]
}

fn within_a_list() -> Vec<Case> {
    let c = Sample::of_c();
    let false_ticket = || with_claims([-1, 3, 2, -1], [3, 4, 3, 8]);
    let three = Sample::of_three_vectors();
    let mut list = three.list.clone();
    list[14] = P;
    list[6] = u32::MAX;
    let case = three
        .case("2^32 - 1 at index 6, p at index 14")
        .challenge(challenge_file(&list));
    let of_two = |description: &str, list: &[u32]| {
        c.case(description)
            .setting(setting_bytes(&Setting { vectors: 2, ..K }))
            .ticket(false_ticket())
            .challenge(challenge_file(list))
    };
    vec![
        c.case("three numbers of p")
            .challenge(challenge_file(&[P; 3]))
            .states("10 0 0 0"),
        c.case("p at both indices")
            .challenge(challenge_file(&[P, P]))
            .states("11 0 0 0"),
        case.states("11 6 0 0"),
        // The first vector catches, and the list is tested whole before it.
        of_two("a false ticket, p at index 3 of two vectors", &[1, 5, 1, P]).states("11 3 0 0"),
        of_two(
            "a false ticket caught by the first vector and the second",
            &[1, 5, 1, 5],
        )
        .states("12 0 0 8"),
        of_two("a false ticket caught by the first vector, zeros second", &[1, 5, 0, 0]).states("21 1 0 0"),
        of_two("a false ticket, zeros first, p at index 3", &[0, 0, 1, P]).states("11 3 0 0"),
        of_two("a false ticket, p at index 0, zeros second", &[P, 5, 0, 0]).states("11 0 0 0"),
        of_two("a false ticket, three zeros for two vectors", &[0; 3]).states("10 0 0 0"),
        of_two("a false ticket, six zeros for two vectors", &[0; 6]).states("10 0 0 0"),
    ]
}
