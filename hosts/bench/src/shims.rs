//! C++'s std::map, in a shim that runs a whole list, and what lends to a shim.

use std::os::raw::c_void;

use crate::subjects::{Out, Subject};
use crate::work::{Op, Work};

/// `struct out` of shims/ops.h.
#[repr(C)]
pub struct ShimOut {
    answers: *mut i64,
    keys: *mut i64,
    values: *mut i64,
    pairs: usize,
}

extern "C" {
    fn std_map_new() -> *mut c_void;
    fn std_map_copy(from: *const c_void) -> *mut c_void;
    fn std_map_free(subject: *mut c_void);
    fn std_map_run(subject: *mut c_void, ops: *const Op, count: usize, out: *mut ShimOut);
}

/// Lends operations and room to a shim.
pub fn run_shim(
    run: unsafe extern "C" fn(*mut c_void, *const Op, usize, *mut ShimOut),
    subject: *mut c_void,
    ops: &[Op],
    out: &mut Out,
) {
    let mut lent = ShimOut {
        answers: out.answers.as_mut_ptr(),
        keys: out.keys.as_mut_ptr(),
        values: out.values.as_mut_ptr(),
        pairs: 0,
    };
    // SAFETY: the subject is a live one of the same shim; `Out::for_work` has room for every answer
    // and, ranges spanning at most 100 keys, for every pair.
    unsafe { run(subject, ops.as_ptr(), ops.len(), &mut lent) };
    out.pairs = lent.pairs;
}

/// C++'s std::map.
pub struct StdMap<'work> {
    work: &'work Work,
    filled: *mut c_void,
    map: *mut c_void,
}

impl<'work> StdMap<'work> {
    pub fn new(work: &'work Work) -> StdMap<'work> {
        // SAFETY: the shim makes a subject of its own.
        let filled = unsafe { std_map_new() };
        let mut out = Out::for_work(work);
        out.answers.resize(out.answers.len().max(work.fill.len()), 0);
        run_shim(std_map_run, filled, &work.fill, &mut out);
        // SAFETY: the subject is alive.
        let map = unsafe { std_map_copy(filled) };
        StdMap { work, filled, map }
    }
}

impl Subject for StdMap<'_> {
    fn name(&self) -> &'static str {
        "std::map"
    }

    fn reset(&mut self) {
        // SAFETY: both subjects are alive, and the old one is not used again.
        unsafe {
            std_map_free(self.map);
            self.map = std_map_copy(self.filled);
        }
    }

    fn run(&mut self, list: usize, out: &mut Out) {
        run_shim(std_map_run, self.map, &self.work.lists[list], out);
    }

    fn answers(&self, list: usize, out: &Out) -> Vec<i64> {
        out.answers[..self.work.lists[list].len()].to_vec()
    }
}

impl Drop for StdMap<'_> {
    fn drop(&mut self) {
        // SAFETY: both subjects are alive, and not used again.
        unsafe {
            std_map_free(self.map);
            std_map_free(self.filled);
        }
    }
}
