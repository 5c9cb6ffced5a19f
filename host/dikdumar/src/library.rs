//! The calls of include/dikdumar.h, declared once. All unsafe code of this crate
//! stands here.
//!
//! The calls are proved to meet contracts that ask nothing of a number. So the
//! residue calls and the quotes, which take numbers alone, are declared safe. Of a
//! pointer the calls on tickets ask what the header says, and slices promise all
//! of it:
//!
//! - The pointer is aligned, and lends as many items as the length beside it says:
//!   both are taken from one slice. That of an empty slice lends nothing.
//! - The output does not overlap the operands: it is a `&mut` slice, so nothing
//!   else reaches its bytes during the call.
//! - Nothing is written but the output, which is the only slice lent by `&mut`.
//! - The items are lent during the call only: a call keeps no pointer, always
//!   returns, and does not unwind.
//!
//! What is left to trust is that the declarations below, and the layouts of
//! `Setting`, `BiasSetting`, `Answer`, `Quote`, `Run` and `Told`, are those of the
//! header.

use crate::{Answer, BiasSetting, Mark, Quote, Run, RunAnswer, Setting};

unsafe extern "C" {
    pub safe fn dikdumar_reduce(x: u32) -> u32;
    pub safe fn dikdumar_add(x: u32, y: u32) -> u32;
    pub safe fn dikdumar_subtract(x: u32, y: u32) -> u32;
    pub safe fn dikdumar_multiply(x: u32, y: u32) -> u32;
    pub safe fn dikdumar_from_signed(x: i32) -> u32;
    pub safe fn dikdumar_to_signed(x: u32) -> i32;
    pub safe fn dikdumar_power_of_two(k: u32) -> u32;

    pub safe fn dikdumar_quote_ticket(setting: Setting) -> Quote;
    pub safe fn dikdumar_quote_bias_ticket(setting: BiasSetting) -> Quote;

    fn dikdumar_challenge_check(
        setting: Setting,
        ticket: *const u8,
        ticket_length: usize,
        list: *const u32,
        list_length: usize,
    ) -> Answer;

    fn dikdumar_full_check(setting: Setting, ticket: *const u8, ticket_length: usize) -> Answer;

    fn dikdumar_write_ticket(
        setting: Setting,
        a: *const i32,
        a_length: usize,
        b: *const i32,
        b_length: usize,
        output: *mut u8,
        output_length: usize,
    ) -> Answer;

    fn dikdumar_bias_challenge_check(
        setting: BiasSetting,
        ticket: *const u8,
        ticket_length: usize,
        list: *const u32,
        list_length: usize,
    ) -> Answer;

    fn dikdumar_bias_full_check(setting: BiasSetting, ticket: *const u8, ticket_length: usize) -> Answer;

    fn dikdumar_write_bias_ticket(
        setting: BiasSetting,
        a: *const i32,
        a_length: usize,
        b: *const i32,
        b_length: usize,
        bias: *const i32,
        bias_length: usize,
        output: *mut u8,
        output_length: usize,
    ) -> Answer;

    fn dikdumar_run_begin(
        setting: Setting,
        ticket: *const u8,
        ticket_length: usize,
        list: *const u32,
        list_length: usize,
    ) -> Told;

    fn dikdumar_run_step(run: Run, ticket: *const u8, ticket_length: usize) -> Told;

    fn dikdumar_run_add(run: Run, vector: *const u32, vector_length: usize) -> Told;
}

/// `dikdumar_run_answer`. Its mark comes as a number, since a `Mark` may be no other
/// than the four.
#[repr(C)]
struct Told {
    run: Run,
    mark: u32,
    answer: Answer,
}

impl From<Told> for RunAnswer {
    fn from(told: Told) -> RunAnswer {
        RunAnswer {
            run: told.run,
            mark: Mark::of_number(told.mark),
            answer: told.answer,
        }
    }
}

pub fn challenge_check(setting: Setting, ticket: &[u8], list: &[u32]) -> Answer {
    // SAFETY: slices promise what the call asks of its pointers; see above.
    unsafe { dikdumar_challenge_check(setting, ticket.as_ptr(), ticket.len(), list.as_ptr(), list.len()) }
}

pub fn full_check(setting: Setting, ticket: &[u8]) -> Answer {
    // SAFETY: as in `challenge_check`.
    unsafe { dikdumar_full_check(setting, ticket.as_ptr(), ticket.len()) }
}

pub fn write_ticket(setting: Setting, a: &[i32], b: &[i32], output: &mut [u8]) -> Answer {
    let (room, length) = (output.as_mut_ptr(), output.len());
    // SAFETY: as in `challenge_check`; the output is borrowed mutably, so it lies apart from the operands.
    unsafe { dikdumar_write_ticket(setting, a.as_ptr(), a.len(), b.as_ptr(), b.len(), room, length) }
}

pub fn bias_challenge_check(setting: BiasSetting, ticket: &[u8], list: &[u32]) -> Answer {
    // SAFETY: as in `challenge_check`.
    unsafe { dikdumar_bias_challenge_check(setting, ticket.as_ptr(), ticket.len(), list.as_ptr(), list.len()) }
}

pub fn bias_full_check(setting: BiasSetting, ticket: &[u8]) -> Answer {
    // SAFETY: as in `challenge_check`.
    unsafe { dikdumar_bias_full_check(setting, ticket.as_ptr(), ticket.len()) }
}

pub fn write_bias_ticket(setting: BiasSetting, a: &[i32], b: &[i32], bias: &[i32], output: &mut [u8]) -> Answer {
    let (room, length) = (output.as_mut_ptr(), output.len());
    // SAFETY: as in `write_ticket`.
    unsafe {
        dikdumar_write_bias_ticket(
            setting,
            a.as_ptr(),
            a.len(),
            b.as_ptr(),
            b.len(),
            bias.as_ptr(),
            bias.len(),
            room,
            length,
        )
    }
}

pub fn run_begin(setting: Setting, ticket: &[u8], list: &[u32]) -> RunAnswer {
    // SAFETY: as in `challenge_check`.
    let told = unsafe { dikdumar_run_begin(setting, ticket.as_ptr(), ticket.len(), list.as_ptr(), list.len()) };
    told.into()
}

pub fn run_step(run: Run, ticket: &[u8]) -> RunAnswer {
    // SAFETY: as in `challenge_check`.
    let told = unsafe { dikdumar_run_step(run, ticket.as_ptr(), ticket.len()) };
    told.into()
}

pub fn run_add(run: Run, vector: &[u32]) -> RunAnswer {
    // SAFETY: as in `challenge_check`.
    let told = unsafe { dikdumar_run_add(run, vector.as_ptr(), vector.len()) };
    told.into()
}
