//! Calls as data, and the world of buffers that they run in.

use std::panic::{catch_unwind, AssertUnwindSafe};

use crate::controller::{Controller, Counts, NewNode, Seen};
use crate::refusal::Answer;
use crate::table::{PORTS, TABLE_LEN};

/// One call with its arguments.
#[derive(Clone, Debug, PartialEq, Eq)]
pub enum Call {
    /// Open the table.
    Open {
        /// Disk rate.
        rate: i64,
        /// Root depth.
        depth: i64,
    },
    /// Join a node.
    Join(NewNode),
    /// Leave.
    Leave {
        /// The leaving node.
        node: i64,
    },
    /// Change share.
    ChangeShare {
        /// The node.
        node: i64,
        /// Its new kind.
        kind: i64,
        /// Its new share.
        share: i64,
    },
    /// Change rate.
    ChangeRate {
        /// The new disk rate.
        rate: i64,
    },
    /// Request.
    Request {
        /// The client.
        client: i64,
        /// The caller's tag.
        tag: i64,
        /// Size in tokens.
        size: i64,
    },
    /// Tick, with lists of these lengths.
    Tick {
        /// Numbers in the dispatch list of each port.
        list_lens: [usize; PORTS],
    },
    /// Look at a node.
    Look {
        /// The node.
        node: i64,
    },
    /// Same, of the table and the kept table.
    Same {
        /// The kept table comes first.
        swapped: bool,
    },
    /// Read a plan into the table.
    PlanRead {
        /// The plan's bytes.
        plan: Vec<u8>,
    },
    /// Write the table's plan to a buffer of that length.
    PlanWrite {
        /// The edition's number.
        edition: i64,
        /// Bytes in the buffer.
        buffer_len: usize,
    },
    /// Check a plan.
    PlanCheck {
        /// The plan's bytes.
        plan: Vec<u8>,
    },
    /// Set minute.
    SetMinute {
        /// The plan's bytes.
        plan: Vec<u8>,
        /// The numbers of the windows.
        windows: Vec<i64>,
        /// The minute.
        minute: i64,
    },
}

/// One step of a run: a call, or something done to the tables from outside.
#[derive(Clone, Debug, PartialEq, Eq)]
pub enum Step {
    /// A call.
    Call(Call),
    /// Keeps a copy of the table, in place of the last one.
    Keep,
    /// Puts the kept table back.
    Restore,
    /// Writes one number of the table, if it is that long.
    Poke {
        /// Index in the table.
        place: usize,
        /// The number.
        value: i64,
    },
    /// Makes the table shorter, or longer with zeros.
    Resize {
        /// The new length.
        len: usize,
    },
}

/// What a call gave back.
#[derive(Clone, Copy, Debug, PartialEq, Eq)]
pub enum Reply {
    /// A number.
    Number(i64),
    /// What a tick answers.
    Counts(Counts),
    /// What a look answers.
    Look(Seen),
    /// Yes or no.
    Same(bool),
    /// A refusal, with its number.
    Refused(i64),
    /// The controller panicked. This is never right.
    Panicked,
}

/// A buffer with guard values before and behind it.
#[derive(Clone, Debug, PartialEq, Eq)]
pub struct Guarded<T> {
    cells: Vec<T>,
    guard: T,
}

const GUARD_LEN: usize = 16;
const NUMBER_GUARD: i64 = -6_172_839_450_617;
const BYTE_GUARD: u8 = 0xA5;

impl<T: Copy + PartialEq> Guarded<T> {
    fn new(contents: &[T], guard: T) -> Guarded<T> {
        let wall = [guard; GUARD_LEN];
        Guarded { cells: [&wall, contents, &wall].concat(), guard }
    }

    /// The buffer itself.
    pub fn inner(&self) -> &[T] {
        &self.cells[GUARD_LEN..self.cells.len() - GUARD_LEN]
    }

    fn inner_mut(&mut self) -> &mut [T] {
        let end = self.cells.len() - GUARD_LEN;
        &mut self.cells[GUARD_LEN..end]
    }

    fn replace(&mut self, contents: &[T]) {
        *self = Guarded::new(contents, self.guard);
    }

    /// Whether all guard values are as they were.
    pub fn is_intact(&self) -> bool {
        let wall = [self.guard; GUARD_LEN];
        self.cells.starts_with(&wall) && self.cells.ends_with(&wall)
    }
}

/// Every buffer that a run of steps lends to a controller.
#[derive(Clone, Debug, PartialEq, Eq)]
pub struct World {
    /// The account table.
    pub table: Guarded<i64>,
    /// The table kept by [`Step::Keep`], and the other one of a same.
    pub kept: Guarded<i64>,
    /// The lists of the last tick.
    pub lists: [Guarded<i64>; PORTS],
    /// The plan or the plan buffer of the last call that had one.
    pub plan: Guarded<u8>,
    /// The windows of the last set minute.
    pub windows: Guarded<i64>,
}

impl Default for World {
    /// Two zeroed tables, empty lists, no plan and no windows.
    fn default() -> World {
        World {
            table: Guarded::new(&[0; TABLE_LEN], NUMBER_GUARD),
            kept: Guarded::new(&[0; TABLE_LEN], NUMBER_GUARD),
            lists: [(); PORTS].map(|()| Guarded::new(&[], NUMBER_GUARD)),
            plan: Guarded::new(&[], BYTE_GUARD),
            windows: Guarded::new(&[], NUMBER_GUARD),
        }
    }
}

impl World {
    /// Runs one step. Only a call has a reply.
    pub fn run(&mut self, controller: &mut dyn Controller, step: &Step) -> Option<Reply> {
        match step {
            Step::Call(call) => return Some(self.call(controller, call)),
            Step::Keep => self.kept = self.table.clone(),
            Step::Restore => self.table = self.kept.clone(),
            Step::Poke { place, value } => {
                if let Some(number) = self.table.inner_mut().get_mut(*place) {
                    *number = *value;
                }
            }
            Step::Resize { len } => {
                let mut numbers = self.table.inner().to_vec();
                numbers.resize(*len, 0);
                self.table.replace(&numbers);
            }
        }
        None
    }

    /// Makes one call. A panic of the controller is a reply of its own.
    pub fn call(&mut self, controller: &mut dyn Controller, call: &Call) -> Reply {
        self.lend(call);
        catch_unwind(AssertUnwindSafe(|| self.make_call(controller, call)))
            .unwrap_or(Reply::Panicked)
    }

    /// Whether the guards of every buffer are as they were.
    pub fn is_intact(&self) -> bool {
        let numbers = [&self.table, &self.kept, &self.windows];
        numbers.into_iter().chain(&self.lists).all(Guarded::is_intact) && self.plan.is_intact()
    }

    /// What the lists hold.
    pub fn lists(&self) -> [&[i64]; PORTS] {
        self.lists.each_ref().map(Guarded::inner)
    }

    /// Makes the lists, the plan buffer or the windows ready that a call needs. No number
    /// stands in both lists.
    fn lend(&mut self, call: &Call) {
        match call {
            Call::Tick { list_lens } => {
                for (port, (list, &len)) in self.lists.iter_mut().zip(list_lens).enumerate() {
                    let first = -7_000_000 * (port as i64 + 1);
                    let numbers: Vec<i64> = (0..len as i64).map(|place| first - place).collect();
                    list.replace(&numbers);
                }
            }
            Call::PlanWrite { buffer_len, .. } => {
                let buffer: Vec<u8> =
                    (0..*buffer_len).map(|place| 200 - (place % 100) as u8).collect();
                self.plan.replace(&buffer);
            }
            Call::PlanRead { plan } | Call::PlanCheck { plan } => self.plan.replace(plan),
            Call::SetMinute { plan, windows, .. } => {
                self.plan.replace(plan);
                self.windows.replace(windows);
            }
            _ => {}
        }
    }

    fn make_call(&mut self, controller: &mut dyn Controller, call: &Call) -> Reply {
        let kept = self.kept.inner();
        let lists = self.lists.each_mut().map(Guarded::inner_mut);
        let plan = self.plan.inner_mut();
        let windows = self.windows.inner();
        let table = self.table.inner_mut();
        match *call {
            Call::Open { rate, depth } => number(controller.open(table, rate, depth)),
            Call::Join(ref new) => number(controller.join(table, new)),
            Call::Leave { node } => number(controller.leave(table, node)),
            Call::ChangeShare { node, kind, share } => {
                number(controller.change_share(table, node, kind, share))
            }
            Call::ChangeRate { rate } => number(controller.change_rate(table, rate)),
            Call::Request { client, tag, size } => {
                number(controller.request(table, client, tag, size))
            }
            Call::Tick { .. } => reply(controller.tick(table, lists), Reply::Counts),
            Call::Look { node } => reply(controller.look(table, node), Reply::Look),
            Call::Same { swapped: false } => reply(controller.same(table, kept), Reply::Same),
            Call::Same { swapped: true } => reply(controller.same(kept, table), Reply::Same),
            Call::PlanRead { .. } => number(controller.plan_read(plan, table)),
            Call::PlanWrite { edition, .. } => number(controller.plan_write(table, edition, plan)),
            Call::PlanCheck { .. } => Reply::Number(controller.plan_check(plan)),
            Call::SetMinute { minute, .. } => {
                number(controller.set_minute(table, plan, windows, minute))
            }
        }
    }
}

/// Makes a tick that is lent room for its counts, as those of `include/hds.h` are. It answers
/// 0 and has written both counts, or answers a refusal's number negated and leaves them. What
/// is wrong with it otherwise is said.
pub fn with_lent_counts(tick: impl FnOnce(&mut Counts) -> i64) -> Result<Answer<Counts>, String> {
    const BEFORE: [i64; 3 * PORTS] = [-41, -42, -43, -44, -45, -46];
    let mut cells = BEFORE;
    let answer = match cells.split_at_mut(PORTS).1.first_chunk_mut() {
        Some(counts) => tick(counts),
        None => return Err("no room for the counts".into()),
    };
    let [before, counts, behind] = [0, PORTS, 2 * PORTS].map(|at| &cells[at..at + PORTS]);
    if before != &BEFORE[..PORTS] || behind != &BEFORE[2 * PORTS..] {
        return Err("a tick wrote beside its counts".into());
    }
    let counts: Counts = std::array::from_fn(|port| counts[port]);
    match answer {
        0 if counts.iter().all(|&count| count >= 0) => Ok(Ok(counts)),
        0 => Err(format!("an accepted tick counts {counts:?}")),
        1.. => Err(format!("an accepted tick answers {answer}")),
        _ if counts != BEFORE[PORTS..2 * PORTS] => Err("a refused tick wrote its counts".into()),
        _ => Ok(Err(answer.wrapping_neg())),
    }
}

fn number(answer: Answer<i64>) -> Reply {
    reply(answer, Reply::Number)
}

fn reply<T>(answer: Answer<T>, accepted: impl Fn(T) -> Reply) -> Reply {
    match answer {
        Ok(value) => accepted(value),
        Err(number) => Reply::Refused(number),
    }
}
