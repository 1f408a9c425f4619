//! The calls of document 01 as a trait, and the engine behind it.

use crate::order;
use crate::refusal::Answer;
use crate::table::PORTS;
use crate::{calls, hours, plan, tick};

/// The arguments of a join, any numbers.
#[derive(Clone, Copy, Debug, PartialEq, Eq)]
pub struct NewNode {
    /// Node number of the caller's choosing.
    pub node: i64,
    /// Parent's node number.
    pub parent: i64,
    /// 1 class, 2 client.
    pub sort: i64,
    /// 0 fixed, 1 weighted, 2 stated.
    pub kind: i64,
    /// Share.
    pub share: i64,
    /// Depth in tokens.
    pub depth: i64,
    /// 0 or 1 for a client, 0 for a class.
    pub port: i64,
}

/// What a look answers: rate, balance, waiting count, and the grains nobody
/// gets.
pub type Seen = [i64; 4];

/// The dispatch lists of a tick: the first is that of port 0's clients, the second that
/// of port 1's.
pub type Lists<'a> = [&'a mut [i64]; PORTS];

/// What a tick answers: how many dispatches each list received.
pub type Counts = [i64; PORTS];

/// A disk share controller: one method for each call, over raw buffers.
///
/// Tables are slices of any length with any contents, and arguments are any
/// numbers. A call answers its values, or the number of its refusal; a refusal
/// leaves each buffer as it came. Accepted calls with no other answer give 0.
pub trait Controller {
    /// Called before each run of calls, for controllers that keep something of
    /// their own between calls.
    fn start(&mut self) {}

    /// Open, with disk rate and root depth.
    fn open(&mut self, table: &mut [i64], rate: i64, depth: i64) -> Answer<i64>;

    /// Join.
    fn join(&mut self, table: &mut [i64], new: &NewNode) -> Answer<i64>;

    /// Leave.
    fn leave(&mut self, table: &mut [i64], node: i64) -> Answer<i64>;

    /// Change share.
    fn change_share(&mut self, table: &mut [i64], node: i64, kind: i64, share: i64) -> Answer<i64>;

    /// Change rate, of the root.
    fn change_rate(&mut self, table: &mut [i64], rate: i64) -> Answer<i64>;

    /// Request: answers its arrival number.
    fn request(&mut self, table: &mut [i64], client: i64, tag: i64, size: i64) -> Answer<i64>;

    /// Tick, with a dispatch list for each port: answers how many each received.
    fn tick(&mut self, table: &mut [i64], lists: Lists) -> Answer<Counts>;

    /// Look at a node.
    fn look(&mut self, table: &[i64], node: i64) -> Answer<Seen>;

    /// Same: whether two tables have the same tree.
    fn same(&mut self, first: &[i64], second: &[i64]) -> Answer<bool>;

    /// Plan read, into a table of any contents: answers the edition met, 1 or 2.
    fn plan_read(&mut self, plan: &[u8], table: &mut [i64]) -> Answer<i64>;

    /// Plan write in edition 1 or 2: answers the plan's length.
    fn plan_write(&mut self, table: &[i64], edition: i64, buffer: &mut [u8]) -> Answer<i64>;

    /// Plan check: 0 or a refusal number.
    fn plan_check(&mut self, plan: &[u8]) -> i64;

    /// Set minute, with a plan, the windows of a timetable, four numbers each, and a minute
    /// of the week.
    fn set_minute(
        &mut self,
        table: &mut [i64],
        plan: &[u8],
        windows: &[i64],
        minute: i64,
    ) -> Answer<i64>;
}

/// The second engine. It judges refusal 1 here and leaves the rest of each
/// call to its body.
#[derive(Clone, Copy, Debug, Default)]
pub struct Engine;

impl Controller for Engine {
    fn open(&mut self, table: &mut [i64], rate: i64, depth: i64) -> Answer<i64> {
        order::check_length(table)?;
        calls::open(table, rate, depth)
    }

    fn join(&mut self, table: &mut [i64], new: &NewNode) -> Answer<i64> {
        order::check(table)?;
        calls::join(table, new)
    }

    fn leave(&mut self, table: &mut [i64], node: i64) -> Answer<i64> {
        order::check(table)?;
        calls::leave(table, node)
    }

    fn change_share(&mut self, table: &mut [i64], node: i64, kind: i64, share: i64) -> Answer<i64> {
        order::check(table)?;
        calls::change_share(table, node, kind, share)
    }

    fn change_rate(&mut self, table: &mut [i64], rate: i64) -> Answer<i64> {
        order::check(table)?;
        calls::change_rate(table, rate)
    }

    fn request(&mut self, table: &mut [i64], client: i64, tag: i64, size: i64) -> Answer<i64> {
        order::check(table)?;
        calls::request(table, client, tag, size)
    }

    fn tick(&mut self, table: &mut [i64], lists: Lists) -> Answer<Counts> {
        order::check(table)?;
        tick::tick(table, lists)
    }

    fn look(&mut self, table: &[i64], node: i64) -> Answer<Seen> {
        order::check(table)?;
        calls::look(table, node)
    }

    fn same(&mut self, first: &[i64], second: &[i64]) -> Answer<bool> {
        order::check(first)?;
        order::check(second)?;
        Ok(calls::same(first, second))
    }

    fn plan_read(&mut self, plan: &[u8], table: &mut [i64]) -> Answer<i64> {
        order::check_length(table)?;
        plan::read(plan, table)
    }

    fn plan_write(&mut self, table: &[i64], edition: i64, buffer: &mut [u8]) -> Answer<i64> {
        order::check(table)?;
        plan::write(table, edition, buffer)
    }

    fn plan_check(&mut self, plan: &[u8]) -> i64 {
        plan::check(plan)
    }

    fn set_minute(
        &mut self,
        table: &mut [i64],
        plan: &[u8],
        windows: &[i64],
        minute: i64,
    ) -> Answer<i64> {
        order::check(table)?;
        hours::set_minute(table, plan, windows, minute)
    }
}
