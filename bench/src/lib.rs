//! The script language of `dipq` in plain Rust, to compare its answers, time and memory with.
//!
//! It is written for speed with what is usual for each command: values by columns, periods packed
//! beside them, a hash index for the columns that conditions name, a sorted map of periods for each key,
//! a heap of last ends for `dip`, rows found by their ids for `check`, for `join` one sweep over the
//! rows of both tables by their starts, with a hash map of the values that are compared, for `anti` the
//! union of the periods of the rows of equal values, and for `agg` one sweep over the starts and ends of
//! each group's rows. Records are read
//! from the script one by one and kept nowhere. It has one thread.
//!
//! It answers all commands and all refusals. Left out are the answers to want of memory, where it
//! aborts, and the limit on interrupted calls, of which it tries each again.

mod aggregate;
mod answer;
mod anti;
mod book;
mod changes;
mod check;
mod csv;
mod divide;
mod fields;
mod join;
mod key;
pub mod large;
pub mod numbers;
pub mod point;
mod queries;
pub mod random;
mod refusal;
pub mod script;
mod table;
mod values;
