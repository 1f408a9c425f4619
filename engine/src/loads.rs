//! Inputs of the load: special ones, and random ones from a seed.

use crate::controller::NewNode;
use crate::plan::{Edition, Plan};
use crate::plans;
use crate::random::Rng;
use crate::table::*;

/// Depths that the cost of a size at the end of a range just fits, and some that
/// are below every cost.
const TIGHT_DEPTHS: [i64; 12] = [1, 7, 8, 11, 12, 16, 67, 71, 72, 519, 527, 528];
/// The largest depth that all clients of a random plan have together.
const DEPTH_IN_ALL: i64 = 900_000;

/// An input: seed, number of ticks, plan.
pub fn input(seed: u32, ticks: u32, plan: &[u8]) -> Vec<u8> {
    [&seed.to_le_bytes(), &ticks.to_le_bytes(), plan].concat()
}

/// So many inputs: the special ones, then random ones from that seed.
pub fn inputs(seed: u64, count: usize) -> Vec<Vec<u8>> {
    let mut rng = Rng::new(seed);
    let random = std::iter::repeat_with(|| any(&mut rng));
    special().into_iter().chain(random).take(count).collect()
}

/// The special inputs. Together they tell every fault of the load.
pub fn special() -> Vec<Vec<u8>> {
    let mut all = vec![Vec::new(), vec![1; 7], input(1, 5, &[])];
    for nodes in [vec![], vec![class(9, 0, WEIGHTED, 1, 40), class(3, 9, WEIGHTED, 1, 40)]] {
        all.push(input(1, 20, &first(&Plan { rate: 1000, depth: 40, nodes })));
    }
    all.extend(family_inputs());
    all.extend(second_inputs());
    let spoiled = [spoiled(), spoiled_second()].concat();
    all.extend(spoiled.iter().flat_map(|plan| [input(1, 0, plan), input(1, 20, plan)]));
    all.extend(small_inputs());
    all
}

/// Trees on all levels: from every kind of seed, with disks of any speed.
fn family_inputs() -> Vec<Vec<u8>> {
    let mut all = Vec::new();
    for ticks in [0, 1, 2, 40] {
        all.push(input(1, ticks, &first(&family(60_000))));
    }
    for seed in [0, 1, u32::MAX, 0x8000_0000, 0x0102_0304] {
        all.push(input(seed, 300, &first(&family(60_000))));
    }
    for (rate, ticks) in [(1, 400), (2000, 1000), (30_000, 1000), (100_000, 500), (MAX_RATE, 200)] {
        all.push(input(1, ticks, &first(&family(rate))));
    }
    all
}

/// Plans of the second edition: one without a stated node, and desks on disks that are
/// fast, or have nothing beside the stated rates.
fn second_inputs() -> Vec<Vec<u8>> {
    let mut all = vec![input(1, 40, &second(&family(60_000)))];
    for (rate, ticks) in [(DESKS, 400), (60_000, 400), (MAX_RATE, 100)] {
        all.push(input(1, ticks, &second(&desks(rate))));
    }
    // A disk rate that begins as the mark does, but for its last byte.
    let nodes = vec![client(5, 0, WEIGHTED, 4, 100)];
    all.push(input(1, 40, &first(&Plan { rate: 0xFF_FFFF, depth: 1000, nodes })));
    all
}

/// One client of every depth that is at an edge, many clients, and more ticks than
/// 16 bits hold.
fn small_inputs() -> Vec<Vec<u8>> {
    let mut all = Vec::new();
    for depth in TIGHT_DEPTHS.into_iter().chain([100, 65_535, 65_536, 65_537, MAX_DEPTH]) {
        let nodes = vec![client(5, 0, WEIGHTED, 4, depth)];
        let rate = in_grains(depth) / 2;
        all.push(input(1, 100, &first(&Plan { rate, depth: MAX_DEPTH, nodes })));
    }
    for (rate, depth) in [(8000, 16), (20_000, 40), (400_000, 1000)] {
        let nodes = (1..64).map(|node| client(node, 0, WEIGHTED, node, depth)).collect();
        all.push(input(0, 800, &first(&Plan { rate, depth: 63 * depth, nodes })));
    }
    let nodes = vec![client(5, 0, WEIGHTED, 1, 16)];
    all.push(input(1, 65_540, &first(&Plan { rate: 100, depth: 40, nodes })));
    all
}

/// A tree on all levels. Its clients have not the plan's order by number, and one
/// of them never asks.
fn family(rate: i64) -> Plan {
    let nodes = vec![
        class(9, 0, FIXED, 5000, 300),
        client(12, 0, FIXED, 100, 16),
        client(40, 0, WEIGHTED, 2, 600),
        client(41, 0, WEIGHTED, 1, 7),
        client(7, 9, WEIGHTED, 3, 100),
        class(20, 9, WEIGHTED, 2, 150),
        class(2, 20, FIXED, 6000, 100),
        client(3, 20, FIXED, 50, 30),
        client(5, 2, WEIGHTED, 1, 40),
        client(63, 2, WEIGHTED, 1, 24),
    ];
    Plan { rate, depth: 1000, nodes }
}

/// What the desks have stated together.
const DESKS: i64 = 18_000;

/// Desks with stated rates, of which one is a class, beside a class and a client that
/// have none. The disk's rate is no less than what is stated.
fn desks(rate: i64) -> Plan {
    let nodes = vec![
        client(6, 0, STATED, 6000, 100),
        class(9, 0, STATED, 12_000, 300),
        class(30, 0, FIXED, 5000, 200),
        client(41, 0, WEIGHTED, 1, 40),
        client(4, 9, FIXED, 2500, 40),
        client(7, 9, WEIGHTED, 1, 100),
        client(8, 30, WEIGHTED, 1, 100),
    ];
    Plan { rate, depth: 1000, nodes }
}

/// Plans of the second edition that are refused with 14, 2, 16, 8 and 15, and a first
/// edition with a stated node, which is refused with 14.
fn spoiled_second() -> Vec<Vec<u8>> {
    let right = desks(60_000);
    let changed = |change: fn(&mut Plan)| {
        let mut plan = right.clone();
        change(&mut plan);
        second(&plan)
    };
    let bytes = second(&right);
    vec![
        first(&right),
        bytes[1..].to_vec(),
        bytes[4..].to_vec(),
        bytes[..bytes.len() - 1].to_vec(),
        bytes[..4].to_vec(),
        [&bytes[..], &[0]].concat(),
        [&[0xFF; 4], &first(&family(60_000))[..]].concat(),
        changed(|plan| plan.nodes[0].share = MAX_RATE + 1),
        changed(|plan| plan.nodes[2].share = MAX_SHARE + 1),
        changed(|plan| plan.rate = DESKS - 1),
        changed(|plan| plan.nodes[4].kind = STATED),
        changed(|plan| plan.nodes.swap(0, 1)),
        // Out of order as well, and too deep as well.
        changed(|plan| {
            plan.rate = DESKS - 1;
            plan.nodes.swap(0, 1);
        }),
        changed(|plan| {
            plan.rate = 5999;
            plan.nodes[0].depth = 1001;
        }),
    ]
}

/// Plans that are refused with 14, 2, 3, 4, 8 and 15.
fn spoiled() -> Vec<Vec<u8>> {
    let right = family(60_000);
    let changed = |change: fn(&mut Plan)| {
        let mut plan = right.clone();
        change(&mut plan);
        first(&plan)
    };
    let bytes = first(&right);
    let long = |more: usize| [&bytes[..], &vec![0; more]].concat();
    let mut wrong_kind = bytes.clone();
    wrong_kind[9 + 4 * right.nodes.len()] = 4;
    let mut wrong_count = bytes.clone();
    wrong_count[8] = 64;
    vec![
        bytes[..bytes.len() - 1].to_vec(),
        bytes[..8].to_vec(),
        long(1),
        long(11),
        long(5000),
        wrong_kind,
        wrong_count,
        changed(|plan| plan.rate = 0),
        changed(|plan| plan.nodes[3].parent = 50),
        changed(|plan| plan.nodes[3].node = 40),
        changed(|plan| plan.depth = 900),
        changed(|plan| plan.nodes.swap(1, 2)),
    ]
}

/// A random input: mostly of an accepted plan, else of a damaged one, or cut short
/// or lengthened.
pub fn any(rng: &mut Rng) -> Vec<u8> {
    let plan = accepted_plan(rng);
    let edition = if plan.has_stated() { Edition::Second } else { rng.pick(&Edition::ALL) };
    let bytes = if rng.chance(12) { plans::any(rng, &plan) } else { plan.encode(edition) };
    let random = rng.bits() as u32;
    let seed = rng.pick(&[0, 1, u32::MAX, random, random]);
    let most = rng.pick(&[0, 1, 2, 50, 400, 400, 1000, 1000, 3000]);
    let ticks = rng.between(most / 2, most) as u32;
    let mut input = input(seed, ticks, &bytes);
    if rng.chance(6) {
        let (len, any) = (input.len(), rng.below(2 * input.len()));
        input.resize(rng.pick(&[4, 7, 8, 9, 16, len - 1, len + 1, len + 11, any]), 0);
    }
    input
}

/// A random plan that is accepted, in the second edition if a node is stated: any shape,
/// and a disk that is slow or fast for what its clients ask.
pub fn accepted_plan(rng: &mut Rng) -> Plan {
    let (few, many, all) = (1 + rng.below(4), 5 + rng.below(15), 1 + rng.below(63));
    let shapes =
        [(0, 1), (0, few), (0, many), (0, all), (few, 0), (few, few), (many, many), (3, 60)];
    let (classes, clients) = rng.pick(&shapes);
    let mut nodes = tree(rng, classes, clients);
    let depths = give_depths(rng, &mut nodes, clients as i64);
    let rate = rate(rng, &nodes);
    if rng.chance(40) {
        state_some(rng, &mut nodes, rate);
    }
    let spare = rng.pick(&[0, 0, depths / 2, MAX_DEPTH]);
    Plan { rate, depth: (depths + spare).clamp(1, MAX_DEPTH), nodes }
}

/// Gives some children of the root stated rates, within the disk's together.
fn state_some(rng: &mut Rng, nodes: &mut [NewNode], rate: i64) {
    let mut left = rate;
    for new in nodes.iter_mut().filter(|new| new.parent == ROOT as i64) {
        if left > 0 && rng.chance(40) {
            let part = rng.between(1, left / 3);
            new.kind = STATED;
            new.share = rng.pick(&[1, part, part, part, left]);
            left -= new.share;
        }
    }
}

/// So many classes and clients, by level and then by number.
fn tree(rng: &mut Rng, classes: usize, clients: usize) -> Vec<NewNode> {
    let mut numbers: Vec<i64> = (1..NODES as i64).collect();
    if rng.chance(80) {
        numbers.sort_by_cached_key(|_| rng.bits());
    }
    let largest_share = MAX_SHARE / (classes + clients).max(1) as i64;
    let deep = rng.pick(&[0, 30, 90]);
    let mut nodes: Vec<(i64, NewNode)> = Vec::new();
    let mut parents = vec![(0, ROOT as i64)];
    for (index, node) in numbers.into_iter().take(classes + clients).enumerate() {
        let sort = if index < classes { CLASS } else { CLIENT };
        let mut above = parents.clone();
        above.retain(|&(level, _)| sort == CLIENT || level < MAX_CLASS_LEVEL);
        let lowest = above[above.len() - 1];
        let (level, parent) = if rng.chance(deep) { lowest } else { rng.pick(&above) };
        let (kind, most) = rng.pick(&[(FIXED, largest_share), (FIXED, 1), (WEIGHTED, 5)]);
        let share = rng.between(1, most);
        let new = NewNode { node, parent, sort, kind, share, depth: 0, port: 0 };
        nodes.push((level + 1, new));
        if sort == CLASS {
            parents.push((level + 1, node));
        }
    }
    nodes.sort_by_key(|(level, new)| (*level, new.node));
    nodes.into_iter().map(|(_, new)| new).collect()
}

/// Gives every node a depth, a class at least what its children need. Returns what
/// the root needs.
fn give_depths(rng: &mut Rng, nodes: &mut [NewNode], clients: i64) -> i64 {
    let most = rng.pick(&[8, 16, 24, 80, 600, 3000, 70_000, 400_000]);
    let most = most.min(DEPTH_IN_ALL / clients.max(1));
    for index in (0..nodes.len()).rev() {
        nodes[index].depth = if nodes[index].sort == CLIENT {
            let any = rng.between(most / 3, most);
            let tight = rng.pick(&TIGHT_DEPTHS).min(most);
            rng.pick(&[any, any, any, most, tight]).max(1)
        } else {
            (children_need(nodes, nodes[index].node) + rng.pick(&[0, 0, 10, 100])).max(1)
        };
    }
    children_need(nodes, ROOT as i64)
}

/// The depths of a class's children together.
fn children_need(nodes: &[NewNode], class: i64) -> i64 {
    nodes.iter().filter(|new| new.parent == class).map(|new| new.depth).sum()
}

/// A disk rate: mostly a part of what the clients ask for in a tick.
fn rate(rng: &mut Rng, nodes: &[NewNode]) -> i64 {
    let depths: Vec<i64> =
        nodes.iter().filter(|new| new.sort == CLIENT).map(|new| new.depth).collect();
    // A size is half a depth on average, but no more than 65,536.
    let asked: i64 = depths.iter().map(|depth| (depth / 2 + 8).min(40_000)).sum();
    let in_a_tick = in_grains(asked / depths.len().max(1) as i64);
    let percent = rng.pick(&[5, 30, 60, 80, 100, 130, 300]);
    let few = rng.pick(&[1, 300, 8000, MAX_RATE]);
    let part = in_a_tick * percent / 100;
    rng.pick(&[part, part, part, part, part, few]).clamp(1, MAX_RATE)
}

fn first(plan: &Plan) -> Vec<u8> {
    plan.encode(Edition::First)
}

fn second(plan: &Plan) -> Vec<u8> {
    plan.encode(Edition::Second)
}

fn class(node: i64, parent: i64, kind: i64, share: i64, depth: i64) -> NewNode {
    NewNode { node, parent, sort: CLASS, kind, share, depth, port: 0 }
}

fn client(node: i64, parent: i64, kind: i64, share: i64, depth: i64) -> NewNode {
    NewNode { node, parent, sort: CLIENT, kind, share, depth, port: 0 }
}
