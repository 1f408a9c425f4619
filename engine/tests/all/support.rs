//! Helpers for the tests.

use hds_engine::differential::first_difference;
use hds_engine::faulty::{Fault, Faulty};
use hds_engine::order;
use hds_engine::random::{run, Profile};
use hds_engine::steps::{Call, Reply, Step, World};
use hds_engine::table::*;
use hds_engine::{Answer, Controller, Counts, Engine, Lists, NewNode, Seen};

/// A table under the engine, with short calls.
pub struct Disk {
    pub table: Vec<i64>,
    engine: Watched<Engine>,
}

/// A dispatch as the list shows it: client, tag, size, supplier.
pub type Entry = [i64; 4];

impl Disk {
    pub fn open(rate: i64, depth: i64) -> Disk {
        let mut disk = Disk { table: vec![-1; TABLE_LEN], engine: Watched(Engine) };
        assert_eq!(disk.engine.open(&mut disk.table, rate, depth), Ok(0));
        disk
    }

    pub fn join(&mut self, new: NewNode) -> Answer<i64> {
        self.engine.join(&mut self.table, &new)
    }

    pub fn leave(&mut self, node: i64) -> Answer<i64> {
        self.engine.leave(&mut self.table, node)
    }

    pub fn change_share(&mut self, node: i64, kind: i64, share: i64) -> Answer<i64> {
        self.engine.change_share(&mut self.table, node, kind, share)
    }

    pub fn change_rate(&mut self, rate: i64) -> Answer<i64> {
        self.engine.change_rate(&mut self.table, rate)
    }

    pub fn request(&mut self, client: i64, tag: i64, size: i64) -> Answer<i64> {
        self.engine.request(&mut self.table, client, tag, size)
    }

    pub fn look(&mut self, node: i64) -> Answer<Seen> {
        self.engine.look(&self.table, node)
    }

    pub fn same(&mut self, other: &Disk) -> Answer<bool> {
        self.engine.same(&self.table, &other.table)
    }

    pub fn plan_write(&mut self, edition: i64, buffer: &mut [u8]) -> Answer<i64> {
        self.engine.plan_write(&self.table, edition, buffer)
    }

    pub fn plan_read(&mut self, plan: &[u8]) -> Answer<i64> {
        self.engine.plan_read(plan, &mut self.table)
    }

    pub fn set_minute(&mut self, plan: &[u8], windows: &[[i64; 4]], minute: i64) -> Answer<i64> {
        self.engine.set_minute(&mut self.table, plan, &windows.concat(), minute)
    }

    pub fn tick_with(&mut self, first: &mut [i64], second: &mut [i64]) -> Answer<Counts> {
        self.engine.tick(&mut self.table, [first, second])
    }

    /// A tick with lists of just the needed lengths; gives the dispatches of each port's
    /// clients.
    pub fn tick_on_ports(&mut self) -> [Vec<Entry>; 2] {
        dispatches(&mut self.engine, &mut self.table)
    }

    /// A tick where nothing waits at clients of port 1, with a list of just the needed
    /// length and an empty second one; gives the dispatches.
    pub fn tick(&mut self) -> Vec<Entry> {
        assert_eq!(waiting_by_port(&self.table)[1], 0);
        let [first, second] = self.tick_on_ports();
        assert_eq!(second, Vec::<Entry>::new());
        first
    }

    pub fn rate(&mut self, node: i64) -> i64 {
        self.look(node).unwrap()[0]
    }

    pub fn balance(&mut self, node: i64) -> i64 {
        self.look(node).unwrap()[1]
    }

    /// The grains that nobody gets of a node's rate.
    pub fn lost(&mut self, node: i64) -> i64 {
        self.look(node).unwrap()[3]
    }

    /// Writes a place of a record from outside.
    pub fn poke(&mut self, node: usize, place: usize, value: i64) {
        self.table[at(node, place)] = value;
    }
}

/// A controller's tick with lists of just the needed lengths; gives the dispatches of each
/// list and sees that the lists beyond them stay untouched.
pub fn dispatches(controller: &mut dyn Controller, table: &mut [i64]) -> [Vec<Entry>; 2] {
    let mut lists = waiting_by_port(table).map(|count| vec![-77; 4 * count]);
    let [first, second] = &mut lists;
    let counts = controller.tick(table, [first, second]).unwrap();
    for (list, count) in lists.iter().zip(counts) {
        assert!(list[4 * count as usize..].iter().all(|&number| number == -77));
    }
    entries_of(lists.each_ref().map(Vec::as_slice), counts)
}

/// The first entries of a list.
pub fn entries(list: &[i64], count: usize) -> Vec<Entry> {
    list.chunks(4).take(count).map(|entry| entry.try_into().unwrap()).collect()
}

/// The first entries of each list.
pub fn entries_of(lists: [&[i64]; 2], counts: Counts) -> [Vec<Entry>; 2] {
    [0, 1].map(|port| entries(lists[port], counts[port] as usize))
}

pub fn class(node: i64, parent: i64, kind: i64, share: i64, depth: i64) -> NewNode {
    NewNode { node, parent, sort: CLASS, kind, share, depth, port: 0 }
}

pub fn client(node: i64, parent: i64, kind: i64, share: i64, depth: i64) -> NewNode {
    NewNode { node, parent, sort: CLIENT, kind, share, depth, port: 0 }
}

/// The node with another port.
pub fn on_port(port: i64, new: NewNode) -> NewNode {
    NewNode { port, ..new }
}

/// A controller that is watched: a refusal must leave each buffer as it came,
/// and an accepted call must leave a table in order.
pub struct Watched<C>(pub C);

impl<C: Controller> Watched<C> {
    fn change<T>(
        &mut self,
        table: &mut [i64],
        call: impl FnOnce(&mut C, &mut [i64]) -> Answer<T>,
    ) -> Answer<T> {
        let before = table.to_vec();
        let answer = call(&mut self.0, table);
        match answer {
            Ok(_) => assert!(order::in_order(table), "out of order after an accepted call"),
            Err(number) => {
                assert!((1..=17).contains(&number));
                assert!(table == before, "a refusal wrote the table");
            }
        }
        answer
    }
}

impl<C: Controller> Controller for Watched<C> {
    fn open(&mut self, table: &mut [i64], rate: i64, depth: i64) -> Answer<i64> {
        self.change(table, |inner, table| inner.open(table, rate, depth))
    }

    fn join(&mut self, table: &mut [i64], new: &NewNode) -> Answer<i64> {
        self.change(table, |inner, table| inner.join(table, new))
    }

    fn leave(&mut self, table: &mut [i64], node: i64) -> Answer<i64> {
        self.change(table, |inner, table| inner.leave(table, node))
    }

    fn change_share(&mut self, table: &mut [i64], node: i64, kind: i64, share: i64) -> Answer<i64> {
        self.change(table, |inner, table| inner.change_share(table, node, kind, share))
    }

    fn change_rate(&mut self, table: &mut [i64], rate: i64) -> Answer<i64> {
        self.change(table, |inner, table| inner.change_rate(table, rate))
    }

    fn request(&mut self, table: &mut [i64], client: i64, tag: i64, size: i64) -> Answer<i64> {
        self.change(table, |inner, table| inner.request(table, client, tag, size))
    }

    fn tick(&mut self, table: &mut [i64], [first, second]: Lists) -> Answer<Counts> {
        let before = [first.to_vec(), second.to_vec()];
        let answer =
            self.change(table, |inner, table| inner.tick(table, [&mut *first, &mut *second]));
        let counts = answer.unwrap_or([0, 0]);
        for ((list, before), count) in [first, second].into_iter().zip(&before).zip(counts) {
            let written = 4 * count as usize;
            assert!(list[written..] == before[written..], "a list beyond its dispatches");
        }
        answer
    }

    fn look(&mut self, table: &[i64], node: i64) -> Answer<Seen> {
        self.0.look(table, node)
    }

    fn same(&mut self, first: &[i64], second: &[i64]) -> Answer<bool> {
        let answer = self.0.same(first, second);
        assert_eq!(answer, self.0.same(second, first));
        answer
    }

    fn plan_read(&mut self, plan: &[u8], table: &mut [i64]) -> Answer<i64> {
        let check = self.0.plan_check(plan);
        let answer = self.change(table, |inner, table| inner.plan_read(plan, table));
        if table.len() == TABLE_LEN {
            assert_eq!(answer.err().unwrap_or(0), check);
        }
        if let Ok(edition) = answer {
            assert_eq!(edition, if plan.starts_with(&[0xFF; 4]) { 2 } else { 1 });
            let mut copy = vec![0; plan.len()];
            assert_eq!(self.0.plan_write(table, edition, &mut copy), Ok(plan.len() as i64));
            assert!(copy == plan, "the bytes that are written back are others");
        }
        answer
    }

    fn plan_write(&mut self, table: &[i64], edition: i64, buffer: &mut [u8]) -> Answer<i64> {
        let before = buffer.to_vec();
        let answer = self.0.plan_write(table, edition, buffer);
        let written = answer.map_or(0, |length| length as usize);
        assert!(buffer[written..] == before[written..], "the buffer beyond the plan was written");
        if answer.is_ok() {
            let mut copy = vec![0; TABLE_LEN];
            assert_eq!(self.0.plan_read(&buffer[..written], &mut copy), Ok(edition));
            assert_eq!(self.0.same(table, &copy), Ok(true));
        }
        answer
    }

    fn plan_check(&mut self, plan: &[u8]) -> i64 {
        self.0.plan_check(plan)
    }

    fn set_minute(
        &mut self,
        table: &mut [i64],
        plan: &[u8],
        windows: &[i64],
        minute: i64,
    ) -> Answer<i64> {
        let before = table.to_vec();
        let answer =
            self.change(table, |inner, table| inner.set_minute(table, plan, windows, minute));
        for place in (0..table.len()).filter(|&place| table[place] != before[place]) {
            let of_record = place.checked_sub(48).map(|place| place % 40);
            assert!(matches!(of_record, Some(3 | 4 | 6)), "place {place} was written");
        }
        if answer.is_ok() {
            assert_eq!((answer, self.0.plan_check(plan)), (Ok(0), 0));
        }
        answer
    }
}

/// Calls, each with all causes that hold of it, in the order in which they are
/// judged. One without a cause is accepted.
pub type Cases<'a> = [(&'a [i64], Call)];

/// Sees that each call, made on that table, gets the first of its causes.
pub fn first_cause_counts(table: &[i64], cases: &Cases) {
    for (causes, call) in cases {
        let reply = world_of(table).call(&mut Watched(Engine), call);
        let expected = causes.first().copied().unwrap_or(0);
        assert_eq!(refusal(call, reply), expected, "{call:?}, of which {causes:?} hold");
    }
}

/// A world whose table holds these numbers.
pub fn world_of(table: &[i64]) -> World {
    let mut world = World::default();
    world.run(&mut Engine, &Step::Resize { len: table.len() });
    for (place, &value) in table.iter().enumerate() {
        world.run(&mut Engine, &Step::Poke { place, value });
    }
    world
}

/// The refusal number, or 0 for an accepted call.
pub fn refusal(call: &Call, reply: Reply) -> i64 {
    match reply {
        Reply::Refused(number) => number,
        Reply::Number(number) if matches!(call, Call::PlanCheck { .. }) => number,
        Reply::Panicked => panic!("the engine panicked"),
        _ => 0,
    }
}

/// Sizes with their costs: the ends of every range, and the largest size that
/// any client may ask for.
pub const COSTS: [(i64, i64); 8] =
    [(1, 8), (7, 8), (8, 12), (63, 67), (64, 72), (511, 519), (512, 528), (999_984, 1_000_000)];

/// The cost of a size from 1 on, as what it adds to the size.
pub fn cost_of(size: i64) -> i64 {
    let added = if size < 8 {
        8 - size
    } else if size < 64 {
        4
    } else if size < 512 {
        8
    } else {
        16
    };
    size + added
}

/// Calls as steps.
pub fn steps(calls: &[Call]) -> Vec<Step> {
    calls.iter().cloned().map(Step::Call).collect()
}

pub fn open(rate: i64, depth: i64) -> Call {
    Call::Open { rate, depth }
}

pub fn request(client: i64, size: i64) -> Call {
    Call::Request { client, tag: 7, size }
}

/// A tick whose lists are long enough for anything.
pub fn tick() -> Call {
    Call::Tick { list_lens: [4 * 8 * 63; 2] }
}

/// Runs of a profile from the seeds 0, 1, ..., each made when it is first asked for.
pub struct Runs {
    profile: Profile,
    made: Vec<Vec<Step>>,
}

impl Runs {
    pub fn new(profile: Profile) -> Runs {
        Runs { profile, made: Vec::new() }
    }

    fn get(&mut self, seed: usize) -> &[Step] {
        while self.made.len() <= seed {
            self.made.push(run(self.made.len() as u64, 400, self.profile));
        }
        &self.made[seed]
    }

    /// The step after which the first of so many runs shows a difference between the engine
    /// and one with that fault.
    pub fn shows(&mut self, fault: Fault, runs: usize) -> Option<Step> {
        (0..runs).find_map(|seed| {
            let steps = self.get(seed);
            let (position, _) = first_difference(&mut Engine, &mut Faulty::new(fault), steps)?;
            Some(steps[position].clone())
        })
    }
}
