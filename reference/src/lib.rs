//! The library: an independent implementation of docs/RULES.md, one module for each part of the rules.

pub mod generate;
pub mod job;
pub mod lines;
pub mod measure;
pub mod page;
pub mod reduce;
pub mod refusal;
pub mod total;
pub mod tray;
pub mod worked;
