//! The second engine under the names of `include/hds.h`, so that a client in C
//! can be run on it.
//!
//! The header says what each call does. Every function here asks of its caller
//! what the header asks: a pointer is not null, also where the length is 0, and
//! is followed by as many numbers as its length says; what a call writes to
//! overlaps no other buffer of it.

#![warn(missing_docs)]
// What is asked is the same for all, and stands above.
#![allow(clippy::missing_safety_doc)]

use std::slice;

use hds_engine::{Answer, Controller, Engine, NewNode};

/// Open.
#[no_mangle]
pub unsafe extern "C" fn hds_open(
    table: *mut i64,
    table_length: usize,
    rate: i64,
    depth: i64,
) -> i64 {
    number(Engine.open(lent_mut(table, table_length), rate, depth))
}

/// Join.
#[no_mangle]
pub unsafe extern "C" fn hds_join(
    table: *mut i64,
    table_length: usize,
    node: i64,
    parent: i64,
    sort: i64,
    kind: i64,
    share: i64,
    depth: i64,
    port: i64,
) -> i64 {
    let new = NewNode { node, parent, sort, kind, share, depth, port };
    number(Engine.join(lent_mut(table, table_length), &new))
}

/// Leave.
#[no_mangle]
pub unsafe extern "C" fn hds_leave(table: *mut i64, table_length: usize, node: i64) -> i64 {
    number(Engine.leave(lent_mut(table, table_length), node))
}

/// Change share.
#[no_mangle]
pub unsafe extern "C" fn hds_change_share(
    table: *mut i64,
    table_length: usize,
    node: i64,
    kind: i64,
    share: i64,
) -> i64 {
    number(Engine.change_share(lent_mut(table, table_length), node, kind, share))
}

/// Change rate.
#[no_mangle]
pub unsafe extern "C" fn hds_change_rate(table: *mut i64, table_length: usize, rate: i64) -> i64 {
    number(Engine.change_rate(lent_mut(table, table_length), rate))
}

/// Request: answers its arrival number.
#[no_mangle]
pub unsafe extern "C" fn hds_request(
    table: *mut i64,
    table_length: usize,
    client: i64,
    tag: i64,
    size: i64,
) -> i64 {
    number(Engine.request(lent_mut(table, table_length), client, tag, size))
}

/// Tick: `counts` gets how many dispatches each list received.
#[no_mangle]
pub unsafe extern "C" fn hds_tick(
    table: *mut i64,
    table_length: usize,
    first: *mut i64,
    first_length: usize,
    second: *mut i64,
    second_length: usize,
    counts: *mut i64,
) -> i64 {
    let lists = [lent_mut(first, first_length), lent_mut(second, second_length)];
    let answer = Engine.tick(lent_mut(table, table_length), lists);
    number(answer.map(|values| {
        lent_mut(counts, values.len()).copy_from_slice(&values);
        0
    }))
}

/// Look: `seen` gets rate, balance, waiting count and the grains nobody gets.
#[no_mangle]
pub unsafe extern "C" fn hds_look(
    table: *const i64,
    table_length: usize,
    node: i64,
    seen: *mut i64,
) -> i64 {
    let answer = Engine.look(lent(table, table_length), node);
    number(answer.map(|values| {
        lent_mut(seen, values.len()).copy_from_slice(&values);
        0
    }))
}

/// Same: answers 1 for yes, 0 for no.
#[no_mangle]
pub unsafe extern "C" fn hds_same(
    first: *const i64,
    first_length: usize,
    second: *const i64,
    second_length: usize,
) -> i64 {
    number(Engine.same(lent(first, first_length), lent(second, second_length)))
}

/// Plan read: answers the edition met, 1 or 2.
#[no_mangle]
pub unsafe extern "C" fn hds_plan_read(
    table: *mut i64,
    table_length: usize,
    plan: *const u8,
    plan_length: usize,
) -> i64 {
    number(Engine.plan_read(lent(plan, plan_length), lent_mut(table, table_length)))
}

/// Plan write in edition 1 or 2: answers the plan's length.
#[no_mangle]
pub unsafe extern "C" fn hds_plan_write(
    table: *const i64,
    table_length: usize,
    edition: i64,
    buffer: *mut u8,
    buffer_length: usize,
) -> i64 {
    let buffer = lent_mut(buffer, buffer_length);
    number(Engine.plan_write(lent(table, table_length), edition, buffer))
}

/// Plan check: answers 0 or the refusal's number, as it is.
#[no_mangle]
pub unsafe extern "C" fn hds_plan_check(plan: *const u8, plan_length: usize) -> u32 {
    Engine.plan_check(lent(plan, plan_length)) as u32
}

/// Set minute, with the windows of a timetable, four numbers each.
#[no_mangle]
pub unsafe extern "C" fn hds_set_minute(
    table: *mut i64,
    table_length: usize,
    plan: *const u8,
    plan_length: usize,
    windows: *const i64,
    windows_length: usize,
    minute: i64,
) -> i64 {
    let (plan, windows) = (lent(plan, plan_length), lent(windows, windows_length));
    number(Engine.set_minute(lent_mut(table, table_length), plan, windows, minute))
}

/// What C gets of an answer: its value, or the refusal's number negated.
fn number(answer: Answer<impl Into<i64>>) -> i64 {
    answer.map_or_else(|refusal| -refusal, Into::into)
}

/// A buffer that a call only reads.
unsafe fn lent<'a, T>(pointer: *const T, length: usize) -> &'a [T] {
    // Safety: not null and that long, as every function asks of its caller.
    unsafe { slice::from_raw_parts(pointer, length) }
}

/// A buffer that a call may write to.
unsafe fn lent_mut<'a, T>(pointer: *mut T, length: usize) -> &'a mut [T] {
    // Safety: as above, and no other buffer of the call overlaps it.
    unsafe { slice::from_raw_parts_mut(pointer, length) }
}
