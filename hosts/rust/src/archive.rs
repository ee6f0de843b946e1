//! The functions of the archive, as hosts/c/lopresnik.h declares them.

use crate::tables::{Coordinator, Ticket};

/// The version of the interface that these declarations are of.
const VERSION: u32 = 1;

/// The call's code, 0 or the number of its refusal, then its numbers.
#[repr(C)]
#[derive(Clone, Copy, Debug, PartialEq, Eq)]
pub struct Answer {
    pub code: i64,
    pub refusal: i64,
    pub first: i64,
    pub second: i64,
    pub third: i64,
}

/// Why a list ended, the offset of a stop or the number of a refusal, then what was used.
#[repr(C)]
#[derive(Clone, Copy, Debug, PartialEq, Eq)]
pub struct Ran {
    pub end: u32,
    pub at: usize,
    pub used: usize,
    pub calls: usize,
    pub pairs: usize,
}

extern "C" {
    fn lopresnik_version() -> u32;
}

/// Lets nobody call an archive whose functions are not those declared here.
///
/// # Panics
///
/// Where the archive that was linked has another version.
pub fn check_version() {
    // SAFETY: the function takes nothing, answers a number, and is the same in every version.
    let version = unsafe { lopresnik_version() };
    assert!(
        version == VERSION,
        "liblopresnik.a has version {version} of the interface, this wrapper version {VERSION}: \
         take both from the same commit"
    );
}

/// Declares functions that all take the tables first: to change (`*mut`) or only to read (`*const`).
macro_rules! declare {
    ($access:tt $(fn $name:ident($($argument:ident: $type:ty),*) -> $answer:ty;)*) => {
        extern "C" {
            $(pub fn $name(
                keys: *$access u64, keys_length: usize,
                values: *$access i64, values_length: usize,
                rows: *$access u32, rows_length: usize,
                buckets: *$access u32, buckets_length: usize,
                tickets: *mut Ticket, tickets_length: usize,
                coordinator: *mut Coordinator,
                $($argument: $type),*
            ) -> $answer;)*
        }
    };
}

declare! { mut
    fn lopresnik_set_up(capacity: u32, start: u32) -> u32;
    fn lopresnik_insert(key: i64, value: i64, coin: u64) -> Answer;
    fn lopresnik_remove(key: i64) -> Answer;
    fn lopresnik_hand_over(node: u32) -> Answer;
    fn lopresnik_sweep() -> Answer;
    fn lopresnik_run_list(
        bytes: *const u8, bytes_length: usize,
        more: bool,
        answers: *mut i64, answers_length: usize,
        out_keys: *mut i64, out_keys_length: usize,
        out_values: *mut i64, out_values_length: usize
    ) -> Ran;
}

declare! { const
    fn lopresnik_lookup(key: i64) -> Answer;
    fn lopresnik_ceil(key: i64) -> Answer;
    fn lopresnik_floor(key: i64) -> Answer;
    fn lopresnik_succ(key: i64) -> Answer;
    fn lopresnik_pred(key: i64) -> Answer;
    fn lopresnik_fast_range(
        low: i64, high: i64,
        out_keys: *mut i64, out_keys_length: usize,
        out_values: *mut i64, out_values_length: usize
    ) -> Answer;
    fn lopresnik_open_range(low: i64, high: i64) -> Answer;
    fn lopresnik_step_range(
        version: u32,
        out_keys: *mut i64, out_keys_length: usize,
        out_values: *mut i64, out_values_length: usize
    ) -> Answer;
    fn lopresnik_close_range(version: u32) -> Answer;
    fn lopresnik_tally() -> Answer;
}
