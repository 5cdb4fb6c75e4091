//! An implementation of document 01 (`01-scope.md`), with the tray numbers of 64 bits (request P3) and the sweep (P1)
//! of document 02, written from their text alone, to be held against another one.
//!
//! - [`model`]: the store; total on any state, tables, tally and arguments.
//! - [`ledger`]: the plain ledger and two checkers of demand 3.
//! - [`sheet`]: the sheet program; bytes in, lines out.
//! - [`explore`]: all interleavings of small stores; [`broken`]: stores with a known slip;
//!   [`meetings`]: what scans met in a search or a history.
//! - [`generate`]: random sheets and histories; [`damage`]: altered memory; all repeat from a seed.
//! - [`text`]: sheets as readable lines.
//! - [`compare`]: another sheet program held against [`sheet`].

pub mod broken;
pub mod compare;
pub mod damage;
pub mod explore;
pub mod generate;
pub mod ledger;
pub mod machine;
pub mod meetings;
pub mod model;
pub mod random;
pub mod sheet;
pub mod text;
