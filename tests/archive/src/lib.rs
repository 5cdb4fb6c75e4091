//! The tray store as `include/tray_store.h` shows it, held to the model call by call.
//!
//! - [`interface`]: the header's functions as a table, filled from the archive by `archive`; [`sizes`]: the simplest of
//!   them; [`fence`]: buffers between guard pages and canaries.
//! - [`words`]: the layout of what is lent; [`expected`]: what a call on it should give; [`unknown`]: the same where a station
//!   has a number without meaning, told number by number.
//! - [`subject`]: one call on the store under test, and the comparison of every word.
//! - [`cases`]: single calls on altered words; [`history`]: calls in a row on one store.
//! - [`run`]: what a seed does; [`met`]: what was met; [`watch`]: the seed told where a call never comes back.

#[cfg(feature = "linked")]
pub mod archive;
pub mod cases;
pub mod expected;
pub mod fence;
pub mod history;
pub mod interface;
pub mod met;
pub mod run;
pub mod sizes;
pub mod subject;
pub mod unknown;
pub mod watch;
pub mod words;
