//! The families of cases for the checks and the writer.

mod bias;
mod claims;
pub mod craft;
pub mod damage;
pub mod examples;
pub mod extremes;
pub mod false_tickets;
pub mod lengths;
pub mod lists;
pub mod random;
pub mod rounding;
pub mod settings;
pub mod true_tickets;
pub mod writer;
pub mod zeros;

use crate::cases::{Cases, Family};
use crate::setting::Form;

/// Of plain tickets alone: the examples of the scope paper.
const PLAIN: [(&str, Cases); 2] = [
    ("examples of the table of numbers", examples::table),
    ("marked examples", examples::marked),
];

/// Of both forms.
const BOTH: [(&str, Cases); 43] = [
    ("settings at and beyond each limit", settings::limits),
    (
        "settings with two numbers at or beyond their limits",
        settings::pairs_of_limits,
    ),
    ("settings at the edge of fitting", settings::edge_of_fitting),
    ("true tickets of many sizes", true_tickets::many_sizes),
    ("true tickets of every small size", true_tickets::small_sizes),
    ("one byte damaged, at every position", damage::every_position),
    (
        "one byte damaged, every position and value",
        damage::every_position_and_value,
    ),
    ("last column and last row alone false", damage::last_column_and_row),
    ("last records of each part alone changed", damage::last_records),
    ("two faults in a ticket", damage::two_faults),
    ("ticket lengths", lengths::tickets),
    ("tickets of other sizes and the same length", lengths::other_sizes),
    ("list lengths", lists::lengths),
    ("list numbers", lists::numbers),
    (
        "false tickets accepted, zeros in the false columns",
        false_tickets::zeros,
    ),
    (
        "false tickets accepted, differences that cancel",
        false_tickets::cancelling,
    ),
    (
        "false tickets caught in a later vector or row",
        false_tickets::caught_late,
    ),
    (
        "false tickets of two vectors by all small lists",
        false_tickets::small_lists,
    ),
    ("extreme entries", extremes::entries),
    ("extreme values in every record", extremes::values),
    ("random tickets, small", random::small),
    ("random tickets, medium", random::medium),
    ("random tickets, large", random::large),
    ("random settings", random::settings),
    (
        "one claim of a written ticket changed, every claim",
        claims::every_claim,
    ),
    ("one claim of a written ticket changed, many sizes", claims::some_claims),
    ("two claims of a written ticket changed", claims::two_claims),
    ("an operand of a written ticket changed", claims::operands),
    ("written tickets of many sizes", writer::operands::many_sizes),
    (
        "written tickets of the extreme sizes and operands",
        writer::operands::corners,
    ),
    ("written tickets of every small size", writer::operands::small_sizes),
    (
        "written tickets, the largest bound that fits",
        writer::fitting::largest_bounds,
    ),
    (
        "written tickets, the largest bound that fits, large sizes",
        writer::fitting::largest_bounds_of_large,
    ),
    (
        "written tickets, the smallest and the largest width that fits",
        writer::fitting::widths,
    ),
    ("output lengths", writer::outputs::lengths),
    ("operand lengths", writer::refusals::operand_lengths),
    ("one operand at or beyond the bound", writer::refusals::operands_beyond),
    ("two operands beyond the bound", writer::refusals::two_operands_beyond),
    ("several refusals of the writer at once", writer::refusals::several),
    ("random operands, small", writer::random::small),
    ("random operands, medium", writer::random::medium),
    ("random operands, large", writer::random::large),
    ("random settings of the writer", writer::random::settings),
];

/// Of bias tickets alone.
const BIAS: [(&str, Cases); 6] = [
    ("examples of bias tickets", bias::examples),
    (
        "bias tickets, each number the largest that fits and one more",
        bias::largest_that_fit,
    ),
    ("bias tickets false through the bias alone", bias::false_through_bias),
    (
        "bias tickets accepted, errors of the bias that cancel",
        bias::cancelling,
    ),
    ("tickets handed to the calls of the other form", bias::of_the_other_form),
    ("random bias tickets, the largest", random::largest),
];

/// Of both forms, with a rounding number. In all before these o is 0.
const ROUNDING: [(&str, Cases); 18] = [
    ("examples with a rounding number", rounding::examples::examples),
    (
        "rounding numbers below, at and beyond the scale",
        rounding::limits::below_and_beyond,
    ),
    (
        "rounding numbers beside a number at or beyond its limits",
        rounding::limits::pairs_of_limits,
    ),
    (
        "rounding numbers beyond the scale and faults of all kinds",
        rounding::limits::faults_of_all,
    ),
    (
        "several refusals of the writer at once, and the rounding number",
        writer::refusals::several_with_rounding,
    ),
    (
        "settings at the edge of fitting by the rounding number",
        rounding::limits::edge_of_fitting,
    ),
    (
        "sums that reach the last quotient by the rounding number",
        rounding::written::last_quotients,
    ),
    (
        "tickets written for another rounding number",
        rounding::shifted::other_roundings,
    ),
    ("rows of claims shifted by one number", rounding::shifted::rows),
    (
        "written tickets of many sizes, rounding numbers",
        rounding::written::many_sizes,
    ),
    (
        "written tickets, the largest rounding number that fits",
        rounding::written::largest_roundings,
    ),
    (
        "sums halfway between quotients, and next to it",
        rounding::written::halves,
    ),
    (
        "extreme entries and values, rounding numbers",
        rounding::written::extremes,
    ),
    (
        "one claim of a written ticket changed, rounding numbers",
        rounding::written::changed_claims,
    ),
    ("random tickets, rounding numbers", rounding::random::tickets),
    ("random settings, rounding numbers", rounding::random::settings),
    ("random operands, rounding numbers", rounding::random::operands),
    (
        "random settings of the writer, rounding numbers",
        rounding::random::settings_of_the_writer,
    ),
];

/// Of both forms, on vectors of zeros.
const ZEROS: [(&str, Cases); 13] = [
    ("examples of vectors of zeros", zeros::examples),
    ("one vector of zeros, in every place", zeros::one_vector),
    ("vectors of zeros, in every set of places", zeros::every_set),
    ("vectors of zeros and a list number of p or more", zeros::numbers_beyond),
    ("lists of zeros of every length", zeros::lengths),
    ("zeros that stand together", zeros::runs),
    (
        "one zero in a list, and one other number in a vector",
        zeros::one_number,
    ),
    ("all lists of four numbers", zeros::four_numbers),
    ("lists of one column", zeros::one_column),
    ("false tickets accepted, and with a vector of zeros", zeros::hidden),
    ("vectors of zeros and other refusals", zeros::other_refusals),
    ("vectors of zeros in the largest lists", zeros::largest),
    ("random lists with vectors of zeros", zeros::random),
];

/// All families, in the order of digests.txt.
pub fn all() -> Vec<Family> {
    let family = |name: String, form, cases| Family { name, form, cases };
    let of_plain = |&(name, cases): &(&str, Cases)| family(name.to_owned(), Form::Plain, cases);
    let of_bias = |&(name, cases): &(&str, Cases)| family(name.to_owned(), Form::Bias, cases);
    let with_a_bias = |&(name, cases): &(&str, Cases)| family(format!("{name}, with a bias"), Form::Bias, cases);
    let mut all = Vec::new();
    all.extend(PLAIN.iter().chain(&BOTH).map(of_plain));
    all.extend(BOTH.iter().map(with_a_bias));
    all.extend(BIAS.iter().map(of_bias));
    all.extend(ROUNDING.iter().map(of_plain));
    all.extend(ROUNDING.iter().map(with_a_bias));
    all.extend(ZEROS.iter().map(of_plain));
    all.extend(ZEROS.iter().map(with_a_bias));
    all
}
