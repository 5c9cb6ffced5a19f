//! "A setting file of another length is 1", whatever its bytes. They begin as
//! those of K, so that one who reads 20 bytes of a longer one goes on, and one
//! who takes 16 as a setting without o.

use apart::examples::K;

use crate::case::Case;
use crate::sample::{cycle, setting_bytes, Sample};

pub fn cases() -> Vec<Case> {
    let long = [256, 276, 4_116, 65_536, 65_556, 1_048_576, 1_048_596];
    (0..=40)
        .chain(long)
        .filter(|&length| length != 20)
        .map(|length| {
            let bytes = cycle(&setting_bytes(&K), length);
            let case = Sample::of_c().case(format!("setting of {length} bytes"));
            case.setting(bytes).states("1 0 0 0")
        })
        .collect()
}
