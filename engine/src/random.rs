//! Random runs: whole lists of steps, made from a seed.
//!
//! The generator plays its own steps on a shadow world with the engine, so
//! that it knows which nodes are there, who waits and what is left. Most
//! arguments make sense; some are bent to and beyond their limits.

use crate::controller::{Engine, NewNode};
use crate::cost::largest_size;
use crate::plan::{Edition, Plan};
use crate::steps::{Call, Step, World};
use crate::table::*;
use crate::timetables::{self, Taste};
use crate::{arguments, damage, families, order, plans};

pub use crate::rng::Rng;

/// What a run is made of.
#[derive(Clone, Copy, Debug, PartialEq, Eq)]
pub enum Profile {
    /// An accepted open, then only the calls of demand 3, with any arguments.
    Clean,
    /// The same in a tree whose classes supply their clients, mostly with several
    /// requests before a tick.
    Family,
    /// The same in a deep tree that changes at almost every call.
    Tree,
    /// Every call, with damage to the table and to plans.
    Wild,
}

/// A run of at least `length` steps beside those that write single numbers of the
/// table.
pub fn run(seed: u64, length: usize, profile: Profile) -> Vec<Step> {
    let mut generator = Generator::new(seed, profile);
    generator.begin();
    while generator.counted < length {
        generator.go_on();
    }
    generator.steps
}

struct Generator {
    rng: Rng,
    profile: Profile,
    /// The shadow world, and whether its table is damaged just now.
    world: World,
    damaged: bool,
    steps: Vec<Step>,
    /// How many of the steps are no writes of single numbers.
    counted: usize,
    /// Percentage of arguments that are bent.
    bent: usize,
    /// Percentage of requests among requests and ticks. The busiest runs let many requests
    /// wait.
    busy: usize,
    /// Into how many parts joining clients divide the depth that is left.
    spread: i64,
    /// Percentage of stated rates among the shares under the root.
    stated: usize,
    /// Percentage of joining clients on port 1.
    on_second: usize,
}

impl Generator {
    fn new(seed: u64, profile: Profile) -> Generator {
        let mut rng = Rng::new(seed);
        let bent = rng.pick(&[0, 1, 3, 10]);
        let busy = rng.pick(&[30, 50, 65, 88]);
        let spread = rng.pick(&[2, 5, 30, 200]);
        let stated = rng.pick(&[0, 10, 25, 50]);
        let on_second = rng.pick(&[0, 20, 50, 50, 80, 100]);
        Generator {
            rng,
            profile,
            world: World::default(),
            damaged: false,
            steps: Vec::new(),
            counted: 0,
            bent,
            busy,
            spread,
            stated,
            on_second,
        }
    }

    /// Opens the table and joins some nodes.
    fn begin(&mut self) {
        match self.profile {
            Profile::Family => return self.begin_family(),
            Profile::Tree => return self.begin_tree(),
            _ => {}
        }
        if self.profile == Profile::Wild && self.rng.chance(10) {
            self.any_call();
        }
        while !order::in_order(self.world.table.inner()) {
            self.open();
        }
        self.join_many();
    }

    fn begin_family(&mut self) {
        let rate = families::rate(&mut self.rng);
        self.call(Call::Open { rate, depth: families::ROOT_DEPTH });
        for _ in 0..15 + self.rng.below(40) {
            self.join_family();
        }
    }

    fn begin_tree(&mut self) {
        let any = self.rng.between(1, MAX_RATE);
        let rate = self.rng.pick(&[1, 7, 1000, 999_983, any, MAX_RATE]);
        self.call(Call::Open { rate, depth: MAX_DEPTH });
        self.join_many();
    }

    fn join_many(&mut self) {
        let joins = self.rng.pick(&[3, 20, 60, 150]);
        for _ in 0..joins / 2 + self.rng.below(joins) {
            self.join();
        }
    }

    fn go_on(&mut self) {
        if self.profile == Profile::Family {
            self.family_call();
        } else if self.profile == Profile::Tree {
            self.tree_call();
        } else if self.profile == Profile::Clean || self.rng.chance(70) {
            self.tree_or_queue_call();
        } else if self.rng.chance(40) {
            self.other_call();
        } else {
            match self.rng.below(10) {
                0..=5 => self.damage_episode(),
                6 => self.twin_episode(),
                _ => self.push(Step::Keep),
            }
        }
    }

    /// One of demand 3's calls, or a few of them.
    fn tree_or_queue_call(&mut self) {
        match self.rng.below(100) {
            0..=14 => self.join(),
            15..=19 => self.leave(),
            20..=25 => self.change_share(),
            26..=28 => self.change_rate(),
            29..=34 => self.set_minute(),
            _ if self.rng.chance(self.busy) => self.request(),
            _ => {
                self.tick();
                self.clear_out_debtor();
            }
        }
    }

    /// One of demand 3's calls in a run of families, or a few of them.
    fn family_call(&mut self) {
        match self.rng.below(100) {
            0..=7 => self.join_family(),
            8..=10 => self.leave(),
            11..=13 => self.change_share(),
            14..=17 => {
                let rate = families::rate(&mut self.rng);
                self.call(Call::ChangeRate { rate });
            }
            18..=39 => self.tick(),
            40..=51 => self.set_minute(),
            _ => self.rush(),
        }
    }

    /// A change of the tree, and now and then a tick.
    fn tree_call(&mut self) {
        match self.rng.below(100) {
            0..=33 => self.join(),
            34..=52 => self.leave(),
            53..=80 => self.change_share(),
            81..=89 => self.change_rate(),
            90..=94 => self.set_minute(),
            _ => self.tick(),
        }
    }

    /// One of the calls outside demand 3.
    fn other_call(&mut self) {
        match self.rng.below(100) {
            0..=24 => self.look(),
            25..=44 => self.same(),
            45..=64 => self.plan_write(),
            65..=87 => self.plan_check(),
            88..=97 => self.plan_read(),
            _ => {
                self.open();
                if !self.damaged {
                    self.join_many();
                }
            }
        }
    }

    fn any_call(&mut self) {
        if self.rng.chance(50) {
            self.tree_or_queue_call();
        } else {
            self.other_call();
        }
    }

    /// Some calls on a table that was written from outside, which is put back
    /// afterwards. Now and then one that is in order goes on.
    fn damage_episode(&mut self) {
        self.push(Step::Keep);
        self.damaged = true;
        for step in damage::any(&mut self.rng, self.world.kept.inner()) {
            self.push(step);
        }
        for _ in 0..1 + self.rng.below(4) {
            self.any_call();
        }
        let table = self.world.table.inner();
        let usable = order::in_order(table) && table[ACCEPTED] < MAX_ACCEPTED / 2;
        if !usable || self.rng.chance(50) {
            self.push(Step::Restore);
        }
        self.damaged = false;
    }

    /// Same of two tables that differ in one number of the tree, both ways.
    fn twin_episode(&mut self) {
        self.push(Step::Keep);
        for step in damage::other_tree(&mut self.rng, self.world.kept.inner()) {
            self.push(step);
        }
        self.call(Call::Same { swapped: false });
        self.call(Call::Same { swapped: true });
    }

    fn open(&mut self) {
        let depth = self.rng.pick(&[8, 16, 24, 80, 320, 1600, 40_000, 300_000, MAX_DEPTH]);
        let per_tick = depth * GRAINS;
        let few = self.rng.pick(&[1, 7, 8000, MAX_RATE]);
        let parts = self.rng.pick(&[400, 50, 10, 3, 1]);
        let rate = self.rng.pick(&[few, per_tick / parts, per_tick / parts, 3 * per_tick]);
        let rate = self.bend(rate.clamp(1, MAX_RATE), 1, MAX_RATE);
        let depth = self.bend(depth, 1, MAX_DEPTH);
        self.call(Call::Open { rate, depth });
    }

    fn join(&mut self) {
        let (spread, stated, on_second) = (self.spread, self.stated, self.on_second);
        let (rng, view) = self.rng_and_view();
        let mut class = arguments::class(rng, view);
        if arguments::depth_left(view, class) == 0 {
            class = arguments::class(rng, view);
        }
        // Only under the root a stated node has a place.
        if rng.chance(stated / 2) {
            class = ROOT;
        }
        let sort = rng.pick(&[CLASS, CLIENT, CLIENT]);
        // A class needs depth for its children.
        let parts = if sort == CLASS { spread.min(5) } else { spread };
        let (kind, share) = arguments::kind_and_share(rng, view, class, None, stated);
        let mut new = NewNode {
            node: arguments::unused_node(rng, view),
            parent: class as i64,
            sort,
            kind,
            share,
            depth: arguments::depth(rng, view, class, parts),
            port: arguments::port(rng, sort, on_second),
        };
        if rng.chance(2) {
            new.node = arguments::any_node(rng, view);
        }
        if rng.chance(2) {
            new.parent = arguments::any_node(rng, view);
        }
        let new = NewNode {
            node: self.bend(new.node, 1, 63),
            parent: self.bend(new.parent, 0, 63),
            sort: self.bend(new.sort, CLASS, CLIENT),
            kind: self.bend(new.kind, FIXED, STATED),
            share: self.bend(new.share, 1, largest_share(new.kind).unwrap_or(MAX_SHARE)),
            depth: self.bend(new.depth, 1, MAX_DEPTH),
            port: self.bend(new.port, 0, 1),
        };
        self.call(Call::Join(new));
    }

    fn join_family(&mut self) {
        let (stated, on_second) = (self.stated, self.on_second);
        let (rng, view) = self.rng_and_view();
        let new = families::new_node(rng, view, stated);
        let port = arguments::port(rng, new.sort, on_second);
        self.call(Call::Join(NewNode { port, ..new }));
    }

    fn leave(&mut self) {
        let (rng, view) = self.rng_and_view();
        let node = arguments::leaving_node(rng, view);
        let node = self.bend(node, 0, 63);
        self.call(Call::Leave { node });
    }

    /// If a class is in debt and nothing waits below it: at times all below it
    /// leave, from the lowest level up, and then the class tries to.
    fn clear_out_debtor(&mut self) {
        if !self.rng.chance(30) {
            return;
        }
        let (rng, view) = self.rng_and_view();
        if let Some(class) = arguments::quiet_debtor(rng, view) {
            for node in arguments::family(view, class).into_iter().rev() {
                self.call(Call::Leave { node: node as i64 });
            }
        }
    }

    fn change_share(&mut self) {
        let stated = self.stated;
        let (rng, view) = self.rng_and_view();
        let mut node = arguments::any_node(rng, view) as usize;
        if rng.chance(stated) {
            node = arguments::child_of_root(rng, view).unwrap_or(node);
        }
        let class = parent(view, node).unwrap_or(ROOT);
        let (kind, share) = arguments::kind_and_share(rng, view, class, Some(node), stated);
        let node = self.bend(node as i64, 0, 63);
        let share = self.bend(share, 1, largest_share(kind).unwrap_or(MAX_SHARE));
        let kind = self.bend(kind, FIXED, STATED);
        self.call(Call::ChangeShare { node, kind, share });
    }

    fn change_rate(&mut self) {
        let (rng, view) = self.rng_and_view();
        let rate = arguments::disk_rate(rng, view);
        let rate = self.bend(rate, 1, MAX_RATE);
        self.call(Call::ChangeRate { rate });
    }

    /// The plan of the tree, or one that is wrong, with a timetable and a minute. In a run of
    /// families the shares stay small.
    fn set_minute(&mut self) {
        let taste = Taste {
            most: if self.profile == Profile::Family { 5 } else { MAX_SHARE },
            parts: if self.profile == Profile::Family { 8 } else { 1 },
            wrong: 45,
            other_minutes: if self.damaged { 25 } else { 0 },
            any_windows: if self.profile == Profile::Wild { 8 } else { 0 },
            any_plans: if self.profile == Profile::Wild { 15 } else { 0 },
        };
        let (rng, view) = self.rng_and_view();
        let call = timetables::any(rng, view, &taste);
        self.call(call);
    }

    fn request(&mut self) {
        let (rng, view) = self.rng_and_view();
        let client = arguments::client(rng, view);
        let depth = get(view, client as usize, DEPTH);
        let size = arguments::size(rng, depth);
        let tag = rng.number() >> rng.below(63);
        let client = self.bend(client, 0, 63);
        let tag = self.bend(tag, i64::MIN, i64::MAX);
        let size = self.bend(size, 1, largest_size(depth).unwrap_or(0));
        self.call(Call::Request { client, tag, size });
    }

    /// A few clients ask in turn, and a tick follows.
    fn rush(&mut self) {
        let (rng, view) = self.rng_and_view();
        let clients = families::crowd(rng, view);
        for _ in 0..2 * clients.len() {
            let (rng, view) = self.rng_and_view();
            let client = rng.pick(&clients);
            let size = families::size(rng, view, client);
            let tag = rng.number() >> rng.below(63);
            self.call(Call::Request { client: client as i64, tag, size });
        }
        self.tick();
    }

    fn tick(&mut self) {
        let (rng, view) = self.rng_and_view();
        let list_lens = arguments::list_lens(rng, waiting_by_port(view));
        self.call(Call::Tick { list_lens });
    }

    /// Looks at two classes, one of which has the most children, and at any node.
    fn look(&mut self) {
        let (rng, view) = self.rng_and_view();
        let class = arguments::class(rng, view) as i64;
        let largest = arguments::largest_class(view) as i64;
        let any = arguments::any_node(rng, view);
        for node in [class, largest, any] {
            let node = self.bend(node, 0, 63);
            self.call(Call::Look { node });
        }
    }

    fn same(&mut self) {
        let swapped = self.rng.chance(50);
        self.call(Call::Same { swapped });
    }

    fn plan_write(&mut self) {
        let (rng, view) = self.rng_and_view();
        let plan = Plan::of_table(view);
        let right = plans::edition_for(rng, &plan);
        let edition = if rng.chance(12) { rng.edge(1, 2) } else { right.number() };
        let [first, second] = Edition::ALL.map(|edition| edition.plan_len(plan.nodes.len()));
        let needed = right.plan_len(plan.nodes.len());
        let more = rng.below(20);
        let about = rng.pick(&[first - 1, first, second - 1, second]);
        let buffer_len = rng.pick(&[needed, needed + more, needed - 1, about, about, more]);
        self.call(Call::PlanWrite { edition, buffer_len });
    }

    fn plan_read(&mut self) {
        let plan = self.plan();
        self.call(Call::PlanRead { plan });
    }

    fn plan_check(&mut self) {
        let plan = self.plan();
        self.call(Call::PlanCheck { plan });
    }

    fn plan(&mut self) -> Vec<u8> {
        let (rng, view) = self.rng_and_view();
        plans::any(rng, &Plan::of_table(view))
    }

    /// The argument itself, or now and then one at or beyond its limits.
    fn bend(&mut self, value: i64, low: i64, high: i64) -> i64 {
        if self.rng.chance(self.bent) {
            self.rng.edge(low, high)
        } else {
            value
        }
    }

    /// The random numbers, and a table in order (or all zero) to take
    /// arguments from.
    fn rng_and_view(&mut self) -> (&mut Rng, &[i64]) {
        let table = if self.damaged { &self.world.kept } else { &self.world.table };
        (&mut self.rng, table.inner())
    }

    fn call(&mut self, call: Call) {
        self.push(Step::Call(call));
    }

    fn push(&mut self, step: Step) {
        self.world.run(&mut Engine, &step);
        self.counted += usize::from(!matches!(step, Step::Poke { .. }));
        self.steps.push(step);
    }
}
