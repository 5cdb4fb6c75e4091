//! Stores behind include/tray_store.h: the proved archive and the hand-written C, called in the same way.

use crate::drive::{Done, Store, Turn, PROCESSES};
use crate::plan::{Call, Kind};

const STATE_WORDS: usize = 177;
const TALLY_WORDS: usize = 7;
const LIMIT: u32 = 1_000_000_000;
const ON: u32 = 0;
const WAIT: u32 = 1;
const SHOWN: u32 = 3;

// Left as it is by rustfmt: an argument a line would triple it.
#[rustfmt::skip]
macro_rules! store {
    ($name:ident, $open:ident, $start_put:ident, $start_get:ident, $start_sweep:ident, $step:ident, $inspect:ident) => {
        extern "C" {
            fn $open(
                state: *mut u32, state_words: usize, nodes: *mut u32, node_words: usize, readings: *mut u32,
                reading_words: usize, stations: u32, limit: u32,
            ) -> u32;
            fn $start_put(
                state: *mut u32, state_words: usize, nodes: *const u32, node_words: usize, readings: *const u32,
                reading_words: usize, station: u32, tray: u64, value: u32, stamp: u32, draw: u16, tick: *mut u32,
            ) -> u32;
            fn $start_get(
                state: *mut u32, state_words: usize, nodes: *const u32, node_words: usize, readings: *const u32,
                reading_words: usize, station: u32, tray: u64, tick: *mut u32,
            ) -> u32;
            fn $start_sweep(
                state: *mut u32, state_words: usize, nodes: *const u32, node_words: usize, readings: *const u32,
                reading_words: usize, station: u32, first: u64, last: u64, tick: *mut u32,
            ) -> u32;
            fn $step(
                state: *mut u32, state_words: usize, nodes: *mut u32, node_words: usize, readings: *mut u32,
                reading_words: usize, tally: *mut u32, tally_words: usize, station: u32, answer: *mut u32,
            ) -> u32;
            fn $inspect(
                state: *const u32, state_words: usize, nodes: *const u32, node_words: usize, readings: *const u32,
                reading_words: usize, answer: *mut u32,
            ) -> u32;
        }

        pub struct $name {
            state: [u32; STATE_WORDS],
            nodes: Vec<u32>,
            readings: Vec<u32>,
            tally: [u32; TALLY_WORDS],
        }

        // Safety, of every call below: each pointer is lent with the length of what it points to.
        impl Store for $name {
            fn closed(keys: u32, versions: u32) -> Self {
                let nodes = vec![0; 16 * (keys as usize + 1)];
                let readings = vec![0; 3 * (versions as usize + 1)];
                $name { state: [0; STATE_WORDS], nodes, readings, tally: [0; TALLY_WORDS] }
            }

            fn open(&mut self) {
                let refusal = unsafe {
                    $open(
                        self.state.as_mut_ptr(), STATE_WORDS, self.nodes.as_mut_ptr(), self.nodes.len(),
                        self.readings.as_mut_ptr(), self.readings.len(), PROCESSES as u32, LIMIT,
                    )
                };
                assert_eq!(refusal, 0);
            }

            fn start(&mut self, process: u32, call: &Call) {
                let mut tick = 0;
                let refusal = match call.kind {
                    Kind::Get => unsafe {
                        $start_get(
                            self.state.as_mut_ptr(), STATE_WORDS, self.nodes.as_ptr(), self.nodes.len(),
                            self.readings.as_ptr(), self.readings.len(), process, call.key, &mut tick,
                        )
                    },
                    Kind::Scan { last } => unsafe {
                        $start_sweep(
                            self.state.as_mut_ptr(), STATE_WORDS, self.nodes.as_ptr(), self.nodes.len(),
                            self.readings.as_ptr(), self.readings.len(), process, call.key, last, &mut tick,
                        )
                    },
                    Kind::Put { value, timestamp, draw } => unsafe {
                        $start_put(
                            self.state.as_mut_ptr(), STATE_WORDS, self.nodes.as_ptr(), self.nodes.len(),
                            self.readings.as_ptr(), self.readings.len(), process, call.key, value, timestamp, draw,
                            &mut tick,
                        )
                    },
                };
                assert_eq!(refusal, 0);
            }

            fn step(&mut self, process: u32) -> Turn {
                let mut words = [0; 8];
                let refusal = unsafe {
                    $step(
                        self.state.as_mut_ptr(), STATE_WORDS, self.nodes.as_mut_ptr(), self.nodes.len(),
                        self.readings.as_mut_ptr(), self.readings.len(), self.tally.as_mut_ptr(), TALLY_WORDS, process,
                        words.as_mut_ptr(),
                    )
                };
                assert_eq!(refusal, 0);
                let [what, tick, _, answer, value, timestamp, start, effect] = words;
                match what {
                    ON => Turn::On(tick),
                    WAIT => Turn::Wait(tick),
                    SHOWN => Turn::Shown { tick, key: (words[3] as u64) << 32 | words[2] as u64, value, timestamp },
                    _ => Turn::Done(Done { answer, value, timestamp, start, effect, finish: tick }),
                }
            }

            fn inspect(&self) -> u32 {
                let mut words = [0; 3];
                let refusal = unsafe {
                    $inspect(
                        self.state.as_ptr(), STATE_WORDS, self.nodes.as_ptr(), self.nodes.len(), self.readings.as_ptr(),
                        self.readings.len(), words.as_mut_ptr(),
                    )
                };
                assert_eq!(refusal, 0);
                words[0]
            }
        }
    };
}

store!(Archive, tray_open, tray_start_put, tray_start_get, tray_start_sweep, tray_step, tray_inspect);
store!(HandC, c_tray_open, c_tray_start_put, c_tray_start_get, c_tray_start_sweep, c_tray_step, c_tray_inspect);
