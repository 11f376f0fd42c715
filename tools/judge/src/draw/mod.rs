//! What the comparisons draw their inputs by: single values, tables, lists of calls and question files.

pub mod damage;
pub mod lists;
pub mod papers;
pub mod samples;
pub mod sender;
pub mod spoil;
pub mod tables;
pub mod values;
