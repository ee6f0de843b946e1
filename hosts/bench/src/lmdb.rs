//! LMDB, in a shim that runs a whole list.

use std::ffi::CString;
use std::os::raw::{c_char, c_void};
use std::path::PathBuf;

use crate::shims::{run_shim, ShimOut};
use crate::subjects::{Out, Subject};
use crate::work::{Op, Work};

extern "C" {
    fn lmdb_new(folder: *const c_char) -> *mut c_void;
    fn lmdb_free(subject: *mut c_void);
    fn lmdb_run(subject: *mut c_void, ops: *const Op, count: usize, out: *mut ShimOut);
}

/// LMDB in a folder in memory, without sync.
pub struct Lmdb<'work> {
    work: &'work Work,
    folder: PathBuf,
    map: *mut c_void,
}

impl<'work> Lmdb<'work> {
    pub fn new(work: &'work Work) -> Lmdb<'work> {
        let base = ["/dev/shm", "/tmp"].into_iter().map(PathBuf::from).find(|base| base.is_dir());
        let folder =
            base.expect("a folder").join(format!("lopresnik-bench-{}", std::process::id()));
        let mut lmdb = Lmdb { work, folder, map: std::ptr::null_mut() };
        lmdb.reset();
        lmdb
    }

    fn close(&mut self) {
        if !self.map.is_null() {
            // SAFETY: the subject is alive, and not used again.
            unsafe { lmdb_free(self.map) };
        }
        let _ = std::fs::remove_dir_all(&self.folder);
    }
}

impl Subject for Lmdb<'_> {
    fn name(&self) -> &'static str {
        "LMDB"
    }

    fn reset(&mut self) {
        self.close();
        std::fs::create_dir_all(&self.folder).expect("the folder can be made");
        let folder = CString::new(self.folder.to_str().expect("a plain name")).expect("no zero");
        // SAFETY: the name ends with a zero.
        self.map = unsafe { lmdb_new(folder.as_ptr()) };
        let mut out = Out::for_work(self.work);
        out.answers.resize(out.answers.len().max(self.work.fill.len()), 0);
        run_shim(lmdb_run, self.map, &self.work.fill, &mut out);
    }

    fn run(&mut self, list: usize, out: &mut Out) {
        run_shim(lmdb_run, self.map, &self.work.lists[list], out);
    }

    fn answers(&self, list: usize, out: &Out) -> Vec<i64> {
        out.answers[..self.work.lists[list].len()].to_vec()
    }
}

impl Drop for Lmdb<'_> {
    fn drop(&mut self) {
        self.close();
    }
}
