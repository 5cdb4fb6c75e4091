//! Memory between guard pages. A buffer's end or its start touches one, so that a word read or written beyond it ends
//! the program; what is left of its own pages on the other side holds canaries.

use std::collections::BTreeMap;
use std::ffi::{c_int, c_long, c_void};
use std::ptr;

extern "C" {
    fn mmap(at: *mut c_void, bytes: usize, access: c_int, flags: c_int, file: c_int, offset: i64) -> *mut c_void;
    fn mprotect(at: *mut c_void, bytes: usize, access: c_int) -> c_int;
    fn munmap(at: *mut c_void, bytes: usize) -> c_int;
    fn sysconf(name: c_int) -> c_long;
}

// Numbers of Linux.
const NO_ACCESS: c_int = 0;
const READ: c_int = 1;
const READ_WRITE: c_int = 3;
const PRIVATE_ANONYMOUS_UNRESERVED: c_int = 0x4022;
const PAGE_SIZE: c_int = 30;

/// Bytes without access on both sides: wide, so that a wild index meets them too. They cost addresses only.
const GUARD: usize = 1 << 26;
/// A length that a count of 32 bits cannot hold: this many words more than the buffer has.
pub const WIDE: usize = 1 << 32;
pub const CANARY: u32 = 0xC5A3_9E1B;

/// Pages with a guard before and behind them.
struct Fence {
    mapping: *mut c_void,
    bytes: usize,
    first: *mut u32,
    words: usize,
}

impl Fence {
    /// Room for `words`; `behind` bytes more without access behind it.
    fn new(words: usize, behind: usize) -> Fence {
        let room = words * 4;
        let bytes = GUARD + room + behind + GUARD;
        // SAFETY: a new mapping at no wanted address; the part made accessible lies in it.
        unsafe {
            let mapping = mmap(ptr::null_mut(), bytes, NO_ACCESS, PRIVATE_ANONYMOUS_UNRESERVED, -1, 0);
            assert!(mapping as isize != -1, "no {bytes} bytes of addresses to be had");
            let fence = Fence { mapping, bytes, first: mapping.byte_add(GUARD).cast(), words };
            fence.allow(READ_WRITE);
            fence
        }
    }

    fn allow(&self, access: c_int) {
        // SAFETY: the pages are this fence's own, and no reference to them lives across the call.
        let done = unsafe { mprotect(self.first.cast(), self.words * 4, access) };
        assert_eq!(done, 0, "mprotect");
    }

    fn all(&self) -> &[u32] {
        // SAFETY: mapped, readable at all times, and only written through `all_mut` and by the calls under test.
        unsafe { std::slice::from_raw_parts(self.first, self.words) }
    }

    fn all_mut(&mut self) -> &mut [u32] {
        // SAFETY: as above; writable but during a call.
        unsafe { std::slice::from_raw_parts_mut(self.first, self.words) }
    }
}

impl Drop for Fence {
    fn drop(&mut self) {
        // SAFETY: the mapping is this fence's own.
        unsafe { munmap(self.mapping, self.bytes) };
    }
}

/// Which end of a buffer touches a guard page.
#[derive(Clone, Copy, Debug, PartialEq, Eq)]
pub enum Side {
    Start,
    End,
}

/// Where one lent buffer lies: a fence for each count of pages, and the buffer in one of them.
pub struct Ground {
    fences: BTreeMap<(usize, bool), Fence>,
    page: usize,
    /// The fence in use: its pages, and whether it is a wide one.
    at: (usize, bool),
    /// The buffer's first word in the fence, and its length.
    first: usize,
    len: usize,
}

impl Ground {
    pub fn new() -> Ground {
        let mut ground = Ground { fences: BTreeMap::new(), page: page_words(), at: (1, false), first: 0, len: 0 };
        ground.lay(&[], Side::End, false);
        ground
    }

    /// Lays a buffer of these words. A wide one is lent as [`WIDE`] words longer, all of them without access but the
    /// first pages, and its start touches the guard.
    pub fn lay(&mut self, words: &[u32], side: Side, wide: bool) {
        let pages = words.len().div_ceil(self.page).max(1);
        let room = pages * self.page;
        self.at = (pages, wide);
        self.first = if side == Side::End && !wide { room - words.len() } else { 0 };
        self.len = words.len();
        let behind = if wide { WIDE * 4 } else { 0 };
        let fence = self.fences.entry(self.at).or_insert_with(|| Fence::new(room, behind));
        let all = fence.all_mut();
        all[..self.first].fill(CANARY);
        all[self.first..self.first + self.len].copy_from_slice(words);
        all[self.first + self.len..].fill(CANARY);
    }

    fn fence(&self) -> &Fence {
        &self.fences[&self.at]
    }

    /// What a call is given: the first word and the count of words.
    pub fn lent(&self) -> (*mut u32, usize) {
        // SAFETY: within the fence, or its end where the buffer is empty.
        let first = unsafe { self.fence().first.add(self.first) };
        (first, if self.at.1 { self.len + WIDE } else { self.len })
    }

    pub fn words(&self) -> &[u32] {
        &self.fence().all()[self.first..self.first + self.len]
    }

    pub fn set(&mut self, index: usize, to: u32) {
        let at = self.first + index;
        if let Some(fence) = self.fences.get_mut(&self.at) {
            fence.all_mut()[at] = to;
        }
    }

    /// Takes away the right to write while a call is made, or gives it back.
    pub fn read_only(&self, read_only: bool) {
        self.fence().allow(if read_only { READ } else { READ_WRITE });
    }

    /// The first canary that is gone: its place counted from the buffer's first word, and what stands there.
    pub fn broken_canary(&self) -> Option<(isize, u32)> {
        let all = self.fence().all();
        let (before, behind) = (&all[..self.first], &all[self.first + self.len..]);
        if whole(before) && whole(behind) {
            return None;
        }
        let outside = |at: &usize| *at < self.first || *at >= self.first + self.len;
        let at = (0..all.len()).filter(outside).find(|&at| all[at] != CANARY)?;
        Some((at as isize - self.first as isize, all[at]))
    }
}

/// Words of a page of memory.
pub fn page_words() -> usize {
    // SAFETY: a question.
    unsafe { sysconf(PAGE_SIZE) as usize / 4 }
}

/// Written so that the compiler takes many words at once: this is most of the work of a call.
fn whole(canaries: &[u32]) -> bool {
    canaries.iter().fold(0, |gone, word| gone | (word ^ CANARY)) == 0
}

impl Default for Ground {
    fn default() -> Ground {
        Ground::new()
    }
}
