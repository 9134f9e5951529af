//! The benchmark of the interpreter: three engines, eight tasks, one run.
//!
//! The files in reading order: `strategies` and `terms` (how a task's words are
//! made), `tasks`, `foreign` (the archive's functions and a clock), `optimised`
//! (an engine written for speed), `engines` (the three behind one signature),
//! `maude` (the tasks in Maude, where it is installed), `whole_module` (one call
//! against many), `measure`, `report` (the page), `chart` (the picture).

#![deny(unsafe_code)]

pub mod chart;
pub mod engines;
pub mod foreign;
pub mod maude;
pub mod measure;
pub mod optimised;
pub mod report;
pub mod strategies;
pub mod tasks;
pub mod terms;
pub mod whole_module;
