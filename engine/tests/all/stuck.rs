//! "A call that always refuses or answers alike or leaves the table untouched":
//! each of the calls, in each of these ways, must be found.

use hds_engine::differential::first_difference;
use hds_engine::random::{run, Profile};
use hds_engine::refusal::NOT_IN_ORDER;
use hds_engine::{Answer, Controller, Counts, Engine, Lists, NewNode, Seen};

#[derive(Clone, Copy, Debug, PartialEq)]
enum Name {
    Open,
    Join,
    Leave,
    ChangeShare,
    ChangeRate,
    Request,
    TickFirst,
    TickSecond,
    Look,
    Same,
    PlanRead,
    PlanWrite,
    PlanCheck,
    SetMinute,
}

#[derive(Clone, Copy, Debug, PartialEq)]
enum Way {
    /// Refuses what it should accept.
    Refuses,
    /// Gives every accepted call the same answer, and does the rest right.
    AnswersAlike,
    /// Leaves table, lists and plan buffer as they were.
    LeavesBuffers,
}

/// The engine, with one call stuck.
struct Stuck(Name, Way);

impl Stuck {
    /// Makes the call of that name on a buffer that it may change.
    fn make<T, N: Copy>(
        &self,
        name: Name,
        alike: T,
        buffer: &mut [N],
        call: impl FnOnce(&mut [N]) -> Answer<T>,
    ) -> Answer<T> {
        let before = buffer.to_vec();
        let answer = call(buffer);
        if self.0 != name || answer.is_err() {
            return answer;
        }
        if self.1 != Way::AnswersAlike {
            buffer.copy_from_slice(&before);
        }
        match self.1 {
            Way::Refuses => Err(NOT_IN_ORDER),
            Way::AnswersAlike => Ok(alike),
            Way::LeavesBuffers => answer,
        }
    }
}

impl Controller for Stuck {
    fn open(&mut self, table: &mut [i64], rate: i64, depth: i64) -> Answer<i64> {
        self.make(Name::Open, 7, table, |table| Engine.open(table, rate, depth))
    }

    fn join(&mut self, table: &mut [i64], new: &NewNode) -> Answer<i64> {
        self.make(Name::Join, 7, table, |table| Engine.join(table, new))
    }

    fn leave(&mut self, table: &mut [i64], node: i64) -> Answer<i64> {
        self.make(Name::Leave, 7, table, |table| Engine.leave(table, node))
    }

    fn change_share(&mut self, table: &mut [i64], node: i64, kind: i64, share: i64) -> Answer<i64> {
        let change = |table: &mut [i64]| Engine.change_share(table, node, kind, share);
        self.make(Name::ChangeShare, 7, table, change)
    }

    fn change_rate(&mut self, table: &mut [i64], rate: i64) -> Answer<i64> {
        self.make(Name::ChangeRate, 7, table, |table| Engine.change_rate(table, rate))
    }

    fn request(&mut self, table: &mut [i64], client: i64, tag: i64, size: i64) -> Answer<i64> {
        let request = |table: &mut [i64]| Engine.request(table, client, tag, size);
        self.make(Name::Request, 1, table, request)
    }

    fn tick(&mut self, table: &mut [i64], [first, second]: Lists) -> Answer<Counts> {
        // Here it is one of the lists that stays; a table that stays is found as well.
        match self.0 {
            Name::TickFirst => self
                .make(Name::TickFirst, [0, 0], first, |first| Engine.tick(table, [first, second])),
            _ => self.make(Name::TickSecond, [0, 0], second, |second| {
                Engine.tick(table, [first, second])
            }),
        }
    }

    fn look(&mut self, table: &[i64], node: i64) -> Answer<Seen> {
        self.make(Name::Look, Seen::default(), &mut [0], |_| Engine.look(table, node))
    }

    fn same(&mut self, first: &[i64], second: &[i64]) -> Answer<bool> {
        self.make(Name::Same, true, &mut [0], |_| Engine.same(first, second))
    }

    fn plan_read(&mut self, plan: &[u8], table: &mut [i64]) -> Answer<i64> {
        self.make(Name::PlanRead, 1, table, |table| Engine.plan_read(plan, table))
    }

    fn plan_write(&mut self, table: &[i64], edition: i64, buffer: &mut [u8]) -> Answer<i64> {
        self.make(Name::PlanWrite, 9, buffer, |buffer| Engine.plan_write(table, edition, buffer))
    }

    fn plan_check(&mut self, plan: &[u8]) -> i64 {
        let answer = match Engine.plan_check(plan) {
            0 => Ok(0),
            number => Err(number),
        };
        self.make(Name::PlanCheck, 7, &mut [0], |_| answer).unwrap_or_else(|number| number)
    }

    fn set_minute(
        &mut self,
        table: &mut [i64],
        plan: &[u8],
        windows: &[i64],
        minute: i64,
    ) -> Answer<i64> {
        let set = |table: &mut [i64]| Engine.set_minute(table, plan, windows, minute);
        self.make(Name::SetMinute, 7, table, set)
    }
}

#[test]
fn every_stuck_call_is_found() {
    let names = [
        Name::Open,
        Name::Join,
        Name::Leave,
        Name::ChangeShare,
        Name::ChangeRate,
        Name::Request,
        Name::TickFirst,
        Name::TickSecond,
        Name::Look,
        Name::Same,
        Name::PlanRead,
        Name::PlanWrite,
        Name::PlanCheck,
        Name::SetMinute,
    ];
    for name in names {
        for way in [Way::Refuses, Way::AnswersAlike, Way::LeavesBuffers] {
            let reads_only = matches!(name, Name::Look | Name::Same | Name::PlanCheck);
            if way == Way::LeavesBuffers && reads_only {
                continue;
            }
            let found = (0..40).any(|seed| {
                let steps = run(seed, 400, Profile::Wild);
                first_difference(&mut Engine, &mut Stuck(name, way), &steps).is_some()
            });
            assert!(found, "{name:?} {way:?}");
        }
    }
}
