//! All tests, by subject.

mod costs;
mod edges;
mod editions;
mod family;
mod faults;
mod hours;
mod judging;
mod load;
mod loads;
mod lost_grains;
mod observer;
mod ordering;
mod plan_files;
mod ports;
mod refusals;
mod renewal;
mod runs;
mod stated;
mod stuck;
mod support;
mod ticks;
