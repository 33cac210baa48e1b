//! The differential tests of libdialmoth.a.
//!
//! [`reference`] is document 01 in plain Rust; [`library`] puts it and the archive behind one
//! trait. Against the paper itself: [`cases`], [`start_cases`], [`move_cases`], [`turn_cases`],
//! [`reader_cases`], [`nchilada_cases`], [`rawarray_cases`] and [`old_cases`], worked out by hand, [`files`]
//! of the real GSD library and of 1.0, [`demand3`], the words of "A run of appends", [`moving`], those of
//! what moving the index costs, [`turns`], those of an append in turns, and [`readers`], those of what a
//! reader answers for ever. Against each other: [`check`] makes each call on both, and [`groups`] feed it
//! what [`generate`] and [`images`] make.

pub mod ask;
pub mod cases;
pub mod check;
pub mod demand3;
pub mod files;
pub mod generate;
pub mod groups;
pub mod images;
pub mod lent;
pub mod library;
pub mod model;
pub mod move_cases;
pub mod moving;
pub mod nchilada_cases;
pub mod old_cases;
pub mod random;
pub mod rawarray_cases;
pub mod reader_cases;
pub mod readers;
pub mod reference;
pub mod start_cases;
pub mod suite;
pub mod turn_cases;
pub mod turns;
#[cfg(linked)]
pub mod wrapper;
