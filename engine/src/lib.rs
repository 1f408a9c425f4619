//! The second engine of the disk share controller.
//!
//! It is written from document 01 ("Hierarchical Disk Sharing: the account
//! table and its calls") and document 02 up to request (h) alone, to check another
//! implementation of them call by call. Quoted words in the comments are the
//! documents'.
//!
//! * The engine: [`table`], [`order`], [`rates`], [`cost`](mod@cost), `calls`,
//!   `tick`, [`plan`], [`hours`], [`mod@print`], behind the trait
//!   [`Controller`], and [`load`].
//! * The checks: [`judge`] (demand 3), [`random`] with [`damage`], [`plans`]
//!   and [`timetables`] (whole runs of calls), [`steps`] and [`differential`] (two
//!   controllers side by side), [`faulty`] (controllers with known faults),
//!   [`loads`] and [`faulty_load`] (inputs of the load, and loads with known
//!   faults).

#![forbid(unsafe_code)]
#![warn(missing_docs)]

mod arguments;
mod calls;
pub mod controller;
pub mod cost;
pub mod damage;
pub mod differential;
mod families;
pub mod faulty;
mod faulty_hours;
pub mod faulty_load;
mod faulty_parts;
mod faulty_picks;
mod faulty_plans;
mod faulty_ports;
mod faulty_renewals;
mod faulty_stated;
pub mod hours;
pub mod judge;
pub mod load;
pub mod loads;
pub mod order;
pub mod plan;
pub mod plans;
pub mod print;
pub mod random;
pub mod rates;
pub mod refusal;
mod rng;
pub mod steps;
pub mod table;
mod tick;
pub mod timetables;

pub use controller::{Controller, Counts, Engine, Lists, NewNode, Seen};
pub use refusal::Answer;
