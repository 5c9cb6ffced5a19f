//! Files of a gibibyte and more, which take no room on the disk, with limited
//! memory; and shorter ones, with the memory watched, as one may try to get it
//! and go on without. Each begins as a right one. Some are of a length that is
//! right modulo 2^32.

use apart::program::challenge_file;

use crate::case::{Case, Entry};
use crate::run::{Memory, TIME};
use crate::sample::{setting_bytes, Sample};

pub fn cases() -> Vec<Case> {
    // With nothing too long, to show that the memory is enough.
    let mut cases = vec![
        Sample::of_c().case("case c").states("0 0 0 12"),
        Sample::largest().case("the largest setting").states("0 0 0 40960"),
    ];
    cases.extend(each("2^30", [1 << 30; 3]));
    // Whoever reads to the end of it all needs longer.
    let right_modulo = [(1 << 32) + 20, (1 << 32) + 128, (1 << 32) + 8];
    cases.extend(each("2^32 and a few", right_modulo).map(|case| case.time(4 * TIME)));
    cases.push(all().time(3 * TIME));
    let limited = cases.into_iter().map(|case| case.memory(Memory::Limited));
    let watched = each("2^28", [1 << 28; 3]).map(|case| case.memory(Memory::Watched));
    limited.chain(watched).collect()
}

/// One file of case c at a time is of its length here.
fn each(name: &str, [setting, ticket, challenge]: [u64; 3]) -> [Case; 3] {
    let c = Sample::of_c();
    let case = |file: &str| c.case(format!("{file} of {name} bytes"));
    [
        case("setting")
            .setting(Entry::sparse(&setting_bytes(&c.setting), setting))
            .states("1 0 0 0"),
        case("ticket")
            .ticket(Entry::sparse(&c.ticket, ticket))
            .states("4 0 0 0"),
        case("challenge")
            .challenge(Entry::sparse(&challenge_file(&c.list), challenge))
            .states("10 0 0 0"),
    ]
}

fn all() -> Case {
    let c = Sample::of_c();
    Case::new(
        "all of 2^30 bytes",
        Entry::sparse(&setting_bytes(&c.setting), 1 << 30),
        Entry::sparse(&c.ticket, 1 << 30),
        Entry::sparse(&challenge_file(&c.list), 1 << 30),
    )
    .states("1 0 0 0")
}
