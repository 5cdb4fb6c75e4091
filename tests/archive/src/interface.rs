//! `include/tray_store.h` as a table of functions: the archive fills it, and so do stores broken on purpose.

pub struct Interface {
    pub version: unsafe extern "C" fn() -> u32,
    pub state_words: unsafe extern "C" fn() -> usize,
    pub tally_words: unsafe extern "C" fn() -> usize,
    pub node_words: unsafe extern "C" fn(u32) -> usize,
    pub reading_words: unsafe extern "C" fn(u32) -> usize,
    pub open: Open,
    pub start_put: StartPut,
    pub start_get: StartGet,
    pub start_sweep: StartSweep,
    pub step: Step,
    pub look: Look,
    pub inspect: Inspect,
    pub standing: Standing,
}

// Each pointer but those of answers is followed by its count of words; a u64 is a tray.
pub type Open = unsafe extern "C" fn(*mut u32, usize, *mut u32, usize, *mut u32, usize, u32, u32) -> u32;
pub type StartPut = unsafe extern "C" fn(
    *mut u32,
    usize,
    *const u32,
    usize,
    *const u32,
    usize,
    u32,
    u64,
    u32,
    u32,
    u16,
    *mut u32,
) -> u32;
pub type StartGet =
    unsafe extern "C" fn(*mut u32, usize, *const u32, usize, *const u32, usize, u32, u64, *mut u32) -> u32;
pub type StartSweep =
    unsafe extern "C" fn(*mut u32, usize, *const u32, usize, *const u32, usize, u32, u64, u64, *mut u32) -> u32;
pub type Step =
    unsafe extern "C" fn(*mut u32, usize, *mut u32, usize, *mut u32, usize, *mut u32, usize, u32, *mut u32) -> u32;
pub type Look =
    unsafe extern "C" fn(*const u32, usize, *const u32, usize, *const u32, usize, u64, u32, *mut u32) -> u32;
pub type Inspect = unsafe extern "C" fn(*const u32, usize, *const u32, usize, *const u32, usize, *mut u32) -> u32;
pub type Standing = unsafe extern "C" fn(*const u32, usize, u32, *mut u32) -> u32;
