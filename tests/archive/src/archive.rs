//! The archive's functions, declared as in `include/tray_store.h`. Only a build with the feature `linked` has them.

use crate::interface::Interface;

extern "C" {
    fn tray_version() -> u32;
    fn tray_state_words() -> usize;
    fn tray_tally_words() -> usize;
    fn tray_node_words(trays: u32) -> usize;
    fn tray_reading_words(readings: u32) -> usize;

    fn tray_open(
        state: *mut u32,
        state_words: usize,
        nodes: *mut u32,
        node_words: usize,
        readings: *mut u32,
        reading_words: usize,
        stations: u32,
        limit: u32,
    ) -> u32;

    fn tray_start_put(
        state: *mut u32,
        state_words: usize,
        nodes: *const u32,
        node_words: usize,
        readings: *const u32,
        reading_words: usize,
        station: u32,
        tray: u64,
        value: u32,
        stamp: u32,
        draw: u16,
        tick: *mut u32,
    ) -> u32;

    fn tray_start_get(
        state: *mut u32,
        state_words: usize,
        nodes: *const u32,
        node_words: usize,
        readings: *const u32,
        reading_words: usize,
        station: u32,
        tray: u64,
        tick: *mut u32,
    ) -> u32;

    fn tray_start_sweep(
        state: *mut u32,
        state_words: usize,
        nodes: *const u32,
        node_words: usize,
        readings: *const u32,
        reading_words: usize,
        station: u32,
        first: u64,
        last: u64,
        tick: *mut u32,
    ) -> u32;

    fn tray_step(
        state: *mut u32,
        state_words: usize,
        nodes: *mut u32,
        node_words: usize,
        readings: *mut u32,
        reading_words: usize,
        tally: *mut u32,
        tally_words: usize,
        station: u32,
        answer: *mut u32,
    ) -> u32;

    fn tray_look(
        state: *const u32,
        state_words: usize,
        nodes: *const u32,
        node_words: usize,
        readings: *const u32,
        reading_words: usize,
        tray: u64,
        back: u32,
        answer: *mut u32,
    ) -> u32;

    fn tray_inspect(
        state: *const u32,
        state_words: usize,
        nodes: *const u32,
        node_words: usize,
        readings: *const u32,
        reading_words: usize,
        answer: *mut u32,
    ) -> u32;

    fn tray_standing(state: *const u32, state_words: usize, station: u32, answer: *mut u32) -> u32;
}

pub const ARCHIVE: Interface = Interface {
    version: tray_version,
    state_words: tray_state_words,
    tally_words: tray_tally_words,
    node_words: tray_node_words,
    reading_words: tray_reading_words,
    open: tray_open,
    start_put: tray_start_put,
    start_get: tray_start_get,
    start_sweep: tray_start_sweep,
    step: tray_step,
    look: tray_look,
    inspect: tray_inspect,
    standing: tray_standing,
};
