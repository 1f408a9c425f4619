//! A load that can be repeated: document 02's request (d).
//!
//! The table is in order from the plan's reading on, so the bodies of the calls
//! are used.

use std::io::{self, Write};

use crate::refusal::*;
use crate::table::*;
use crate::tick::ENTRY_LEN;
use crate::{calls, plan, tick};

/// Bytes before the plan: the seed and the number of ticks, 4 each.
pub const HEAD_LEN: usize = 8;
/// Numbers in a list that is long enough for every queue.
const LIST_LEN: usize = ENTRY_LEN * QUEUE_LEN * (NODES - 1);
/// Ticks whose lines are written together. There is at most one request for each
/// tick, so they are few.
const TICKS_AT_ONCE: u32 = 4096;
/// Bytes that are enough for every line: five numbers of 20 digits at most.
const LINE_LEN: usize = 105;

/// The draws from a seed.
#[derive(Clone, Copy, Debug)]
pub struct Draws(u32);

impl Draws {
    /// The seed is the first state.
    pub fn new(seed: u32) -> Draws {
        Draws(seed)
    }

    /// "State × 1664525 + 1013904223, wrapping at 32 bits; that is the new state,
    /// and its upper 16 bits are what is drawn."
    pub fn draw(&mut self) -> u16 {
        self.0 = self.0.wrapping_mul(1_664_525).wrapping_add(1_013_904_223);
        (self.0 >> 16) as u16
    }
}

/// What is asked for.
#[derive(Clone, Copy, Debug, PartialEq, Eq)]
pub struct Request {
    /// The client's node number.
    pub client: usize,
    /// Tag, 0 to 65,535.
    pub tag: i64,
    /// Size in tokens, from 1 on.
    pub size: i64,
}

/// A load on its way.
#[derive(Clone, Debug)]
pub struct Load {
    draws: Draws,
    /// How many ticks were made, and how many are left.
    made: u32,
    left: u32,
    /// The clients in rising number.
    clients: Vec<usize>,
    table: [i64; TABLE_LEN],
    list: [i64; LIST_LEN],
}

impl Load {
    /// Reads seed, number of ticks and plan; "an input below 8 bytes is refused
    /// with 14".
    pub fn read(input: &[u8]) -> Answer<Load> {
        let (seed, rest) = input.split_first_chunk().ok_or(PLAN_WRONG)?;
        let (ticks, plan) = rest.split_first_chunk().ok_or(PLAN_WRONG)?;
        let mut table = [0; TABLE_LEN];
        plan::read(plan, &mut table)?;
        Ok(Load {
            draws: Draws::new(u32::from_le_bytes(*seed)),
            made: 0,
            left: u32::from_le_bytes(*ticks),
            clients: clients(&table).collect(),
            table,
            list: [0; LIST_LEN],
        })
    }

    /// "Three draws give one request." "A tree without clients gets no requests."
    pub fn request(&mut self) -> Option<Request> {
        if self.clients.is_empty() {
            return None;
        }
        let [first, second, third] = [(); 3].map(|()| self.draws.draw());
        let client = self.clients[usize::from(first) % self.clients.len()];
        let size = i64::from(second) % get(&self.table, client, DEPTH) + 1;
        Some(Request { client, tag: i64::from(third), size })
    }

    /// "One request before each tick", and the tick, whose lines are added to the
    /// text. A tick must be left.
    pub fn tick(&mut self, text: &mut Vec<u8>) {
        if let Some(Request { client, tag, size }) = self.request() {
            // "A refused request is dropped."
            let _ = calls::request(&mut self.table, client as i64, tag, size);
        }
        // A plan puts every client on port 0, so the second list receives nothing.
        let counts = tick::tick(&mut self.table, [&mut self.list, &mut []]);
        let count = counts.expect("a list that is long enough")[0] as usize;
        self.made += 1;
        self.left -= 1;
        for entry in self.list.chunks_exact(ENTRY_LEN).take(count) {
            push_line(text, self.made, entry);
        }
    }

    /// The account table as it is now.
    pub fn table(&self) -> &[i64] {
        &self.table
    }
}

/// Writes what the program prints of an input, at the end of whole ticks.
pub fn write(input: &[u8], out: &mut impl Write) -> io::Result<()> {
    let mut load = match Load::read(input) {
        Ok(load) => load,
        Err(number) => return writeln!(out, "refused {number}"),
    };
    let mut text = Vec::new();
    while load.left > 0 {
        load.tick(&mut text);
        if load.made % TICKS_AT_ONCE == 0 || load.left == 0 {
            out.write_all(&text)?;
            text.clear();
        }
    }
    Ok(())
}

/// The whole text of an input.
pub fn text(input: &[u8]) -> Vec<u8> {
    let mut text = Vec::new();
    write(input, &mut text).expect("room for the text");
    text
}

/// A line: "tick, client, tag, size, supplier". It is put together from its end.
fn push_line(text: &mut Vec<u8>, tick: u32, entry: &[i64]) {
    let mut line = [b' '; LINE_LEN];
    line[LINE_LEN - 1] = b'\n';
    let mut end = LINE_LEN - 1;
    for &number in entry.iter().rev() {
        end = put_number(&mut line, end, number as u64) - 1;
    }
    let begin = put_number(&mut line, end, u64::from(tick));
    text.extend_from_slice(&line[begin..]);
}

/// Puts the digits of a number before that place; gives the place of the first.
fn put_number(line: &mut [u8; LINE_LEN], end: usize, mut number: u64) -> usize {
    let mut begin = end;
    loop {
        begin -= 1;
        line[begin] = b'0' + (number % 10) as u8;
        number /= 10;
        if number == 0 {
            return begin;
        }
    }
}
