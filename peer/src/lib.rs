//! An independent program of the rules of document 01: the planner, the plan check,
//! the frame runner and the lister for one panel and its servers.
//!
//! It is written from document 01 alone, so that the proved library can be compared
//! with it. Sentences in quotation marks are document 01's own.

#![deny(unsafe_code)]
#![warn(missing_docs)]

pub mod check;
pub mod frame;
pub mod generate;
pub mod library;
pub mod listing;
pub mod plan;
pub mod planner;
#[cfg(proved)]
#[allow(unsafe_code)]
pub mod proved;
mod records;
pub mod refusal;
pub mod replay;
pub mod run;
pub mod search;
pub mod table;
