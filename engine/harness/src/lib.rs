//! The second engine beside the archive of the crate cabinet: the boundary, and the tables that several programs use.

pub mod cabinet;
mod editions;
mod hours;
mod ports;
mod renewals;
pub mod scenes;
mod stated;
pub mod trees;

pub use cabinet::Cabinet;
