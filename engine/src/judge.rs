//! Demand 3's judge.
//!
//! "Over every list of calls from a freshly opened table, and every stretch of
//! it: a waiting client never falls below its reservation, and disk and classes
//! never exceed theirs by more than five depths."
//!
//! The judge goes by the calls, their answers and the lists that ticks write,
//! never by the table. Precisely, for every stretch:
//!
//! * a client that has a request waiting after every call of the stretch gets
//!   more grains dispatched than the sum of its rates over the accepted ticks
//!   of the stretch less depth × 1000;
//! * all grains dispatched together are at most the sum of the disk's rates
//!   over those ticks plus 5 × the root's depth × 1000;
//! * to every class joined throughout, at most the sum of its rates over those
//!   ticks plus 5 × depth × 1000 grains are charged.
//!
//! # Entries
//!
//! An accepted tick dispatches as many entries of each of its lists, from the front, as
//! it answers for that list; those of both lists count alike. Every one of them counts
//! for the disk, once, whatever client and supplier it names. For the client that it
//! names it counts if that is a joined client, and for the classes below the root if
//! they are met on the way up from the supplier that it names; a number that no joined
//! node has leads nowhere.
//!
//! An entry counts cost × 1000 grains, the cost being that of the size in the
//! list.
//!
//! The port that a client joins with counts for nothing, and neither does the list
//! on which its entries stand.
//!
//! # The tree
//!
//! It follows the calls. An accepted set minute gives every node the kind that stands in the
//! call's plan, and the share of the window that covers the call's minute, else the plan's.
//!
//! # What only a faulty controller does
//!
//! Where a tick answers more than a list has whole entries, those in the list count. A size
//! below 1 counts 0 grains: it makes up for nothing that was dispatched beside it. A set
//! minute whose plan cannot be decoded counts for nothing, and so does what its plan says of
//! a node that the tree has not. Of several windows the first counts.
//!
//! # All stretches in one pass
//!
//! Give every node a running sum, its drift. For a client it is all its rates
//! so far less all grains dispatched for it; for the disk all grains dispatched,
//! and for a class all grains charged, less all its rates. What a stretch adds
//! is then the drift at its end less the drift at its start, and all promises
//! say that this stays under a bound. For one end the worst start is the one
//! with the lowest drift among all allowed starts, so it is enough to keep that
//! lowest drift and its position. Allowed starts of the disk are all positions;
//! those of a class, all since its join; those of a client, all since it last
//! had nothing waiting, that one included: the call after it may be the request
//! itself.

use std::fmt;
use std::ops::Range;

use crate::controller::{Controller, Counts, NewNode};
use crate::cost::cost;
use crate::plan::Plan;
use crate::rates::Division;
use crate::steps::{Call, Reply, Step, World};
use crate::table::{
    node_number, CLASS, CLIENT, FIXED, GRAINS, MAX_SHARE, NODES, PORTS, ROOT, STATED, WEIGHTED,
};

/// Depths by which the disk or a class may exceed its rates.
const CLASS_DEPTHS: i128 = 5;

/// A broken promise.
#[derive(Clone, Debug, PartialEq, Eq)]
pub struct Violation {
    /// Which promise it is.
    pub promise: Promise,
    /// The node.
    pub node: usize,
    /// The stretch, as positions in the list of calls after open. The call
    /// right after open has position 0.
    pub stretch: Range<usize>,
    /// Grains of the stretch that count: rates less dispatched for a client,
    /// dispatched less rates for the disk, charged less rates for a class.
    pub grains: i128,
    /// The bound: grains must stay under it (client) or not exceed it (disk,
    /// class).
    pub bound: i128,
}

/// The promises of demand 3.
#[derive(Clone, Copy, Debug, PartialEq, Eq)]
pub enum Promise {
    /// A waiting client never falls below its reservation.
    Client,
    /// The disk never exceeds its rate by more than five depths.
    Disk,
    /// The same for a class.
    Class,
}

impl fmt::Display for Violation {
    fn fmt(&self, out: &mut fmt::Formatter) -> fmt::Result {
        let Range { start, end } = self.stretch;
        let (promise, node, grains, bound) = (self.promise, self.node, self.grains, self.bound);
        match promise {
            Promise::Client => {
                write!(out, "client {node} lags {grains} grains, not under {bound}")?
            }
            _ => write!(out, "{promise:?} {node} exceeds by {grains} grains, more than {bound}")?,
        }
        write!(out, ", in calls {start}..{end} after open")
    }
}

/// What the judge keeps of a joined node.
#[derive(Clone, Debug)]
struct Account {
    parent: usize,
    sort: i64,
    kind: i64,
    share: i64,
    depth: i64,
    /// Requests accepted and entries dispatched since its join.
    accepted: u64,
    dispatched: u64,
    /// The running sum, its lowest value at an allowed start, and where.
    drift: i128,
    lowest: i128,
    lowest_at: usize,
    /// A violation of this node was reported already.
    reported: bool,
}

impl Account {
    fn new(
        parent: usize,
        sort: i64,
        kind: i64,
        share: i64,
        depth: i64,
        position: usize,
    ) -> Account {
        Account {
            parent,
            sort,
            kind,
            share,
            depth,
            accepted: 0,
            dispatched: 0,
            drift: 0,
            lowest: 0,
            lowest_at: position,
            reported: false,
        }
    }

    fn is_waiting(&self) -> bool {
        self.accepted > self.dispatched
    }

    fn start_from(&mut self, position: usize) {
        self.lowest = self.drift;
        self.lowest_at = position;
    }
}

/// The observer of one controller.
#[derive(Clone, Debug, Default)]
pub struct Judge {
    /// The joined nodes by number; empty before the first accepted open.
    tree: Vec<Option<Account>>,
    disk_rate: i64,
    /// Calls seen since open.
    position: usize,
    violations: Vec<Violation>,
}

/// Runs the calls of `steps` on a controller under the judge's eyes. Steps
/// that write the table from outside end the list that is being judged.
pub fn watch(controller: &mut dyn Controller, steps: &[Step]) -> Vec<Violation> {
    let mut world = World::default();
    let mut judge = Judge::default();
    controller.start();
    for step in steps {
        let reply = world.run(controller, step);
        match (step, reply) {
            (Step::Call(call), Some(reply)) => judge.observe(call, reply, world.lists()),
            (Step::Keep, _) => {}
            _ => judge.end_list(),
        }
    }
    judge.violations
}

impl Judge {
    /// What was found so far: at most one violation for each joining of a node.
    pub fn violations(&self) -> &[Violation] {
        &self.violations
    }

    /// Forgets the list; nothing is judged until the next accepted open.
    pub fn end_list(&mut self) {
        self.tree.clear();
    }

    /// Takes in one call with its reply, and for a tick its lists afterwards.
    /// An accepted open starts a list; an accepted plan read, which leaves
    /// another table, ends it; the other calls outside demand 3 do not count.
    pub fn observe(&mut self, call: &Call, reply: Reply, lists: [&[i64]; PORTS]) {
        let accepted = matches!(reply, Reply::Number(_));
        match *call {
            Call::Open { rate, depth } if accepted => self.start_list(rate, depth),
            Call::PlanRead { .. } if accepted => self.end_list(),
            Call::Join(_)
            | Call::Leave { .. }
            | Call::ChangeShare { .. }
            | Call::ChangeRate { .. }
            | Call::Request { .. }
            | Call::Tick { .. }
            | Call::SetMinute { .. }
                if !self.tree.is_empty() =>
            {
                self.position += 1;
                match reply {
                    Reply::Number(_) => self.accept(call),
                    Reply::Counts(counts) => self.tick(counts, lists),
                    _ => {}
                }
                self.settle();
            }
            _ => {}
        }
    }

    fn start_list(&mut self, rate: i64, depth: i64) {
        self.tree = vec![None; NODES];
        self.tree[ROOT] = Some(Account::new(ROOT, CLASS, FIXED, MAX_SHARE, depth, 0));
        self.disk_rate = rate;
        self.position = 0;
    }

    /// An accepted call of the list that is no tick. What no right controller accepts,
    /// such as a join of 64 or of the root, counts for nothing.
    fn accept(&mut self, call: &Call) {
        match *call {
            Call::Join(ref new) => self.add(new),
            Call::Leave { node } => self.take_out(node),
            Call::ChangeShare { node, kind, share } => {
                if let Some(account) = self.account(node) {
                    account.kind = kind;
                    account.share = share;
                }
            }
            Call::ChangeRate { rate } => self.disk_rate = rate,
            Call::SetMinute { ref plan, ref windows, minute } => {
                self.set_minute(plan, windows, minute);
            }
            Call::Request { client, .. } => {
                if let Some(account) = self.account(client) {
                    account.accepted += 1;
                }
            }
            _ => {}
        }
    }

    fn account(&mut self, node: i64) -> Option<&mut Account> {
        self.tree[node_number(node)?].as_mut()
    }

    fn add(&mut self, new: &NewNode) {
        let node = node_number(new.node).filter(|&node| node != ROOT);
        if let (Some(node), Some(parent)) = (node, node_number(new.parent)) {
            let NewNode { sort, kind, share, depth, .. } = *new;
            let account = Account::new(parent, sort, kind, share, depth, self.position);
            self.tree[node] = Some(account);
        }
    }

    /// Gives every node the kind and the share that the call sets.
    fn set_minute(&mut self, plan: &[u8], windows: &[i64], minute: i64) {
        let Ok(plan) = Plan::decode(plan) else { return };
        for new in plan.nodes.iter().filter(|new| new.node != ROOT as i64) {
            let is_inside =
                |window: &&[i64]| window[0] == new.node && (window[1]..window[2]).contains(&minute);
            let inside = windows.chunks_exact(4).find(is_inside).map(|window| window[3]);
            if let Some(account) = self.account(new.node) {
                account.kind = new.kind;
                account.share = inside.unwrap_or(new.share);
            }
        }
    }

    fn take_out(&mut self, node: i64) {
        if let Some(node) = node_number(node).filter(|&node| node != ROOT) {
            self.tree[node] = None;
        }
    }

    /// An accepted tick: every node earns its rate, then the entries count, of each list
    /// as many as it answers and the list has whole.
    fn tick(&mut self, counts: Counts, lists: [&[i64]; PORTS]) {
        let rates = self.rates();
        for (account, rate) in self.tree.iter_mut().zip(rates) {
            match account {
                Some(client) if client.sort == CLIENT => client.drift += rate,
                Some(class) => class.drift -= rate,
                None => {}
            }
        }
        let dispatched = lists.into_iter().zip(counts).flat_map(|(list, count)| {
            list.chunks_exact(4).take(usize::try_from(count).unwrap_or(0))
        });
        for entry in dispatched {
            let grains = i128::from(cost(entry[2])) * i128::from(GRAINS);
            self.count_for_client(entry[0], grains);
            self.count_for_disk(grains);
            self.charge(entry[3], grains);
        }
    }

    fn count_for_client(&mut self, client: i64, grains: i128) {
        if let Some(account) = self.account(client).filter(|account| account.sort == CLIENT) {
            account.dispatched += 1;
            account.drift -= grains;
        }
    }

    fn count_for_disk(&mut self, grains: i128) {
        if let Some(disk) = self.tree[ROOT].as_mut() {
            disk.drift += grains;
        }
    }

    /// Charges the classes below the root, from the supplier up. The way is no
    /// longer than the tree has nodes, also where a faulty controller let in a
    /// ring.
    fn charge(&mut self, supplier: i64, grains: i128) {
        let mut payer = node_number(supplier);
        for _ in 0..NODES {
            let Some(node) = payer.filter(|&node| node != ROOT) else { return };
            let Some(account) = self.tree[node].as_mut() else { return };
            if account.sort == CLASS {
                account.drift += grains;
            }
            payer = Some(account.parent);
        }
    }

    /// The rates of all nodes in the tree as it stands, from the root down. A
    /// node off the tree, which only a faulty controller lets in, has rate 0.
    fn rates(&self) -> [i128; NODES] {
        let mut rates = [0; NODES];
        rates[ROOT] = i128::from(self.disk_rate);
        let mut classes = vec![ROOT];
        while let Some(class) = classes.pop() {
            let division = Division {
                class_rate: rates[class],
                stated_sum: self.share_sum(class, STATED),
                fixed_sum: self.share_sum(class, FIXED),
                weight_sum: self.share_sum(class, WEIGHTED),
            };
            for (node, account) in self.children(class) {
                rates[node] = division.child_rate(account.kind, account.share);
                if account.sort == CLASS {
                    classes.push(node);
                }
            }
        }
        rates
    }

    fn children(&self, class: usize) -> impl Iterator<Item = (usize, &Account)> {
        self.tree.iter().enumerate().skip(1).filter_map(move |(node, account)| {
            let account = account.as_ref()?;
            (account.parent == class).then_some((node, account))
        })
    }

    fn share_sum(&self, class: usize, kind: i64) -> i128 {
        self.children(class)
            .filter(|(_, account)| account.kind == kind)
            .map(|(_, account)| i128::from(account.share))
            .sum()
    }

    /// Judges all stretches that end here, and takes this position in as a
    /// start of later ones.
    fn settle(&mut self) {
        let position = self.position;
        for (node, account) in self.tree.iter_mut().enumerate() {
            let Some(account) = account else { continue };
            if account.sort == CLIENT && !account.is_waiting() {
                account.start_from(position);
                continue;
            }
            if let Some(violation) = broken_promise(node, account, position) {
                if !account.reported {
                    account.reported = true;
                    self.violations.push(violation);
                }
            }
            // The latest of equally low starts gives the shortest stretch.
            if account.drift <= account.lowest {
                account.start_from(position);
            }
        }
    }
}

/// The worst stretch that ends here, if it breaks the node's promise.
fn broken_promise(node: usize, account: &Account, position: usize) -> Option<Violation> {
    let grains = account.drift - account.lowest;
    let depth = i128::from(account.depth) * i128::from(GRAINS);
    let (promise, bound, broken) = if account.sort == CLIENT {
        (Promise::Client, depth, grains >= depth)
    } else {
        let promise = if node == ROOT { Promise::Disk } else { Promise::Class };
        (promise, CLASS_DEPTHS * depth, grains > CLASS_DEPTHS * depth)
    };
    let stretch = account.lowest_at..position;
    broken.then_some(Violation { promise, node, stretch, grains, bound })
}
