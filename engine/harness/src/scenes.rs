//! Lists of steps with known numbers: the edges of document 01 with the costs of document 02's request (a), every end of
//! the ranges of cost, the grains nobody gets before and after every change, what step 4 picks, every call at wrong
//! lengths and at every limit, plans cut short, lengthened and changed byte by byte, a table damaged in every clause
//! of "in order", and the scenes of `renewals`, `stated`, `editions`, `ports` and `hours`. Each begins with two zeroed tables.

use hds_engine::cost::{cost, largest_size, RANGE_ENDS};
use hds_engine::damage;
use hds_engine::order::CLAUSES;
use hds_engine::plan::{Edition, Plan};
use hds_engine::random::{run, Profile, Rng};
use hds_engine::steps::{Call, Reply, Step, World};
use hds_engine::table::*;
use hds_engine::{Engine, NewNode};

use crate::{editions, hours, ports, renewals, stated, trees};

/// A name and its steps.
pub type Scene = (String, Vec<Step>);

/// All scenes.
pub fn all() -> Vec<Scene> {
    let mut scenes: Vec<Scene> = Vec::new();
    for (name, steps) in edges() {
        scenes.push((name.into(), steps));
    }
    scenes.extend(costs());
    scenes.extend(lost_grains());
    scenes.extend(families());
    scenes.extend(supplies());
    scenes.extend(lengths());
    scenes.extend(limits());
    scenes.extend(plans());
    scenes.extend(damaged());
    scenes.extend(changes());
    scenes.extend(renewals::wrong_rates());
    scenes.extend(stated());
    scenes.extend(editions());
    scenes.extend(ports());
    scenes.extend(hours());
    scenes
}

/// The scenes of changes of the tree under every class of a deep one.
pub fn changes() -> Vec<Scene> {
    renewals::changes()
}

/// The scenes of stated rates.
pub fn stated() -> Vec<Scene> {
    stated::all()
}

/// The scenes of the editions of plans.
pub fn editions() -> Vec<Scene> {
    editions::all()
}

/// The scenes of ports.
pub fn ports() -> Vec<Scene> {
    ports::all()
}

/// The scenes of timetables.
pub fn hours() -> Vec<Scene> {
    hours::all()
}

pub(crate) fn open(rate: i64, depth: i64) -> Step {
    Step::Call(Call::Open { rate, depth })
}

pub(crate) fn join(node: i64, parent: i64, sort: i64, kind: i64, share: i64, depth: i64) -> Step {
    Step::Call(Call::Join(NewNode { node, parent, sort, kind, share, depth, port: 0 }))
}

/// The join of that step, with a port.
pub(crate) fn on_port(port: i64, join: Step) -> Step {
    match join {
        Step::Call(Call::Join(new)) => Step::Call(Call::Join(NewNode { port, ..new })),
        other => other,
    }
}

pub(crate) fn client(node: i64, parent: i64, kind: i64, share: i64, depth: i64) -> Step {
    join(node, parent, CLIENT, kind, share, depth)
}

pub(crate) fn class(node: i64, parent: i64, kind: i64, share: i64, depth: i64) -> Step {
    join(node, parent, CLASS, kind, share, depth)
}

pub(crate) fn request(client: i64, tag: i64, size: i64) -> Step {
    Step::Call(Call::Request { client, tag, size })
}

/// A tick whose second list is empty.
pub(crate) fn tick(list_len: usize) -> Step {
    tick_of(list_len, 0)
}

/// A tick with lists of these lengths.
pub(crate) fn tick_of(first: usize, second: usize) -> Step {
    Step::Call(Call::Tick { list_lens: [first, second] })
}

pub(crate) fn look(node: i64) -> Step {
    Step::Call(Call::Look { node })
}

pub(crate) fn leave(node: i64) -> Step {
    Step::Call(Call::Leave { node })
}

pub(crate) fn change_share(node: i64, kind: i64, share: i64) -> Step {
    Step::Call(Call::ChangeShare { node, kind, share })
}

pub(crate) fn change_rate(rate: i64) -> Step {
    Step::Call(Call::ChangeRate { rate })
}

pub(crate) fn same(swapped: bool) -> Step {
    Step::Call(Call::Same { swapped })
}

pub(crate) fn plan_check(plan: &[u8]) -> Step {
    Step::Call(Call::PlanCheck { plan: plan.to_vec() })
}

pub(crate) fn plan_read(plan: &[u8]) -> Step {
    Step::Call(Call::PlanRead { plan: plan.to_vec() })
}

pub(crate) fn plan_write(edition: i64, buffer_len: usize) -> Step {
    Step::Call(Call::PlanWrite { edition, buffer_len })
}

pub(crate) fn set_minute(plan: &[u8], windows: &[i64], minute: i64) -> Step {
    Step::Call(Call::SetMinute { plan: plan.to_vec(), windows: windows.to_vec(), minute })
}

pub(crate) fn poke(node: usize, place: usize, value: i64) -> Step {
    Step::Poke { place: at(node, place), value }
}

fn looks(nodes: &[i64]) -> Vec<Step> {
    nodes.iter().map(|&node| look(node)).collect()
}

/// Looks at every node number, and at one beyond them at either end.
pub(crate) fn look_everywhere() -> Vec<Step> {
    (-1..=NODES as i64).map(look).collect()
}

fn ticks(count: usize, list_len: usize) -> Vec<Step> {
    vec![tick(list_len); count]
}

/// The edges of document 01, marked or not, and some more. What they give is worked by hand in the engine's own tests.
fn edges() -> Vec<(&'static str, Vec<Step>)> {
    let two = [open(1000, 40), client(5, 0, WEIGHTED, 1, 16), client(6, 0, WEIGHTED, 1, 16)];
    let two_fast = [&two[..], &[change_rate(8000)]].concat();
    let alone = [open(1000, 40), client(5, 0, WEIGHTED, 4, 16)];
    let deep = [
        open(1000, 100),
        class(1, 0, FIXED, 5000, 50),
        class(2, 1, FIXED, 5000, 40),
        class(3, 2, FIXED, 5000, 30),
        client(4, 3, FIXED, 5000, 20),
        client(5, 0, WEIGHTED, 5, 20),
    ];
    let nine: Vec<Step> = (0..9).map(|tag| request(5, tag, 12)).collect();
    vec![
        (
            "the paper's rates",
            [
                vec![open(1000, 40), class(1, 0, FIXED, 5000, 30), client(2, 1, FIXED, 4000, 10)],
                vec![client(3, 1, WEIGHTED, 4, 10), client(4, 1, WEIGHTED, 6, 10)],
                looks(&[0, 1, 2, 3, 4]),
            ]
            .concat(),
        ),
        (
            "three weights of 1",
            [
                vec![open(1000, 40)],
                (1..4).map(|node| client(node, 0, WEIGHTED, 1, 1)).collect(),
                looks(&[1, 2, 3]),
            ]
            .concat(),
        ),
        (
            "a weight beside fixed 10,000",
            [
                vec![open(1000, 40), client(1, 0, WEIGHTED, 9, 1), client(2, 0, FIXED, 10_000, 1)],
                looks(&[1, 2]),
            ]
            .concat(),
        ),
        (
            "a weight beside three thirds",
            [
                vec![open(1000, 40), client(1, 0, FIXED, 3333, 1), client(2, 0, FIXED, 3333, 1)],
                vec![client(3, 0, FIXED, 3334, 1), client(4, 0, WEIGHTED, 1, 1)],
                looks(&[1, 2, 3, 4]),
            ]
            .concat(),
        ),
        (
            "a weight beside fixed 3333",
            [
                vec![open(1000, 40), client(1, 0, FIXED, 3333, 1), client(2, 0, WEIGHTED, 1, 1)],
                looks(&[0, 1, 2]),
            ]
            .concat(),
        ),
        (
            "fixed 10,001 in all",
            vec![
                open(1000, 40),
                client(1, 0, FIXED, 6000, 1),
                client(2, 0, FIXED, 4001, 1),
                client(2, 0, FIXED, 4000, 1),
                change_share(2, FIXED, 4001),
                change_share(2, WEIGHTED, 4001),
                change_share(2, FIXED, 4000),
            ],
        ),
        (
            "size 3 goes at the eighth tick",
            [&alone[..], &[request(5, 42, 3)], &ticks(8, 4), &looks(&[0, 5])].concat(),
        ),
        (
            "the root supplies at the eighth tick",
            [&two[..], &[request(5, 1, 1)], &ticks(8, 4), &looks(&[0, 5, 6])].concat(),
        ),
        (
            "the root supplies at the first tick",
            [&two_fast[..], &[request(5, 1, 1), tick(4)], &looks(&[0, 5, 6])].concat(),
        ),
        (
            "the earlier one goes first, ticks 8 and 16",
            [&two[..], &[request(6, 66, 1), request(5, 55, 1)], &ticks(16, 8), &looks(&[0, 5, 6])]
                .concat(),
        ),
        (
            "the earlier one goes first, ticks 1 and 2",
            [
                &two_fast[..],
                &[request(6, 66, 1), request(5, 55, 1)],
                &ticks(2, 8),
                &looks(&[0, 5, 6]),
            ]
            .concat(),
        ),
        ("the root goes into debt, disk 1000", debt(1000, 7500, 8000)),
        ("the root goes into debt, disk 8000", debt(8000, 4000, 8000)),
        (
            "sizes at depth 16",
            [
                &alone[..],
                &[12, 13, 16, 17, i64::MAX, 0, i64::MIN].map(|size| request(5, 0, size)),
                &ticks(17, 8),
                &looks(&[0, 5]),
            ]
            .concat(),
        ),
        (
            "depths under 40",
            vec![
                open(1000, 40),
                client(1, 0, WEIGHTED, 1, 16),
                client(2, 0, WEIGHTED, 1, 25),
                client(2, 0, WEIGHTED, 1, 24),
                client(3, 0, WEIGHTED, 1, 1),
            ],
        ),
        (
            "the ninth waiting",
            [&alone[..], &nine, &[look(5), tick(31), tick(32), tick(33)]].concat(),
        ),
        (
            "lengths of the list",
            [
                &alone[..],
                &[
                    tick(0),
                    request(5, 0, 12),
                    request(5, 0, 12),
                    tick(7),
                    tick(8),
                    tick(9),
                    tick(0),
                ],
            ]
            .concat(),
        ),
        (
            "levels, and who may be a parent",
            [
                &deep[..],
                &[class(6, 3, WEIGHTED, 1, 1), client(6, 3, WEIGHTED, 1, 1)],
                &[client(7, 4, WEIGHTED, 1, 1), client(7, 8, WEIGHTED, 1, 1)],
                &[client(5, 0, WEIGHTED, 1, 1), client(0, 0, WEIGHTED, 1, 1)],
            ]
            .concat(),
        ),
        (
            "leaving",
            [
                &deep[..],
                &[leave(0), leave(1), leave(9), leave(64), request(4, 1, 1), leave(4)],
                &ticks(8, 4),
                &[leave(4), leave(3), leave(2), leave(1), look(1), look(0)],
            ]
            .concat(),
        ),
        (
            "a class in debt stays",
            [
                vec![open(10, 16), class(1, 0, FIXED, 10_000, 8), client(2, 1, FIXED, 10_000, 8)],
                vec![poke(2, BALANCE, 8000), request(2, 0, 7), tick(4), leave(2), leave(1)],
                looks(&[0, 1]),
            ]
            .concat(),
        ),
        (
            "the count at its end",
            [
                &alone[..],
                &[Step::Poke { place: ACCEPTED, value: MAX_ACCEPTED - 1 }],
                &[request(5, 0, 1), request(5, 0, 1), look(5), tick(4), request(5, 0, 1)],
            ]
            .concat(),
        ),
        (
            "same",
            [
                &two[..],
                &[Step::Keep, same(false), request(5, 1, 1), tick(4), same(false), same(true)],
                &[
                    change_share(5, WEIGHTED, 2),
                    same(false),
                    change_share(5, WEIGHTED, 1),
                    same(true),
                ],
                &[
                    change_rate(1001),
                    same(true),
                    change_rate(1000),
                    same(true),
                    leave(6),
                    same(false),
                ],
            ]
            .concat(),
        ),
        (
            "same of different trees",
            [&two[..], &[Step::Keep], &alone, &[same(false), same(true)]].concat(),
        ),
        (
            "same, the kept table out of order, then both",
            [
                &two[..],
                &[poke(5, BALANCE, -1), Step::Keep, poke(5, BALANCE, 0)],
                &[look(5), same(false), same(true)],
                &[poke(5, BALANCE, -1), look(5), same(false), same(true)],
            ]
            .concat(),
        ),
        ("looks at no node", [&alone[..], &looks(&[-1, 64, 4, 6, 63, 0, 5])].concat()),
        (
            "no bucket is full at joining",
            [&two[..], &[tick(0), tick(0), leave(5), client(5, 0, WEIGHTED, 1, 16), look(5)]]
                .concat(),
        ),
    ]
}

/// Two clients with those balances pay for themselves, and the root for both.
fn debt(rate: i64, first: i64, second: i64) -> Vec<Step> {
    [
        vec![open(rate, 16), client(1, 0, WEIGHTED, 1, 8), client(2, 0, WEIGHTED, 1, 8)],
        vec![poke(1, BALANCE, first), poke(2, BALANCE, second)],
        vec![request(1, 0, 1), request(2, 0, 1), tick(8)],
        looks(&[0, 1, 2]),
    ]
    .concat()
}

/// Depths at and about the costs of the sizes at the ends of the ranges, and the largest.
const DEPTHS: [i64; 17] =
    [1, 7, 8, 9, 11, 12, 13, 67, 68, 71, 72, 519, 520, 527, 528, 529, MAX_DEPTH];

/// Sizes at the ends of the ranges, at and about the largest that a depth lets wait, and ones that no request has.
fn sizes(depth: i64) -> Vec<i64> {
    let largest = largest_size(depth).unwrap_or(0);
    let about = [largest - 1, largest, largest + 1, largest + 2, depth - 1, depth, depth + 1];
    let never = [i64::MIN, i64::MIN + 16, -1, 0];
    let too_large = [-17, -16, -15, -8, -4, -1, 0].map(|more| i64::MAX + more);
    [&RANGE_ENDS[..], &about, &never, &too_large].concat()
}

/// Costs: which sizes a depth lets wait, by request and in a table written from outside, and what is compared with a
/// balance and charged at every end of a range.
fn costs() -> Vec<Scene> {
    let mut scenes = Vec::new();
    for depth in DEPTHS {
        let one = [open(1, MAX_DEPTH), client(5, 0, WEIGHTED, 1, depth)];
        let (mut asked, mut written) = (Vec::new(), Vec::new());
        for size in sizes(depth) {
            asked.extend([&one[..], &[request(5, 7, size), look(5), tick(4), look(5)]].concat());
            let waits = [(WAITING, 1), (QUEUE, 7), (QUEUE + 1, size), (QUEUE + 2, 1)];
            written.extend(one.iter().cloned());
            written.push(Step::Poke { place: ACCEPTED, value: 1 });
            written.extend(waits.map(|(place, value)| poke(5, place, value)));
            written.extend([look(5), request(5, 8, 1), tick(8), leave(5), look(0)]);
        }
        scenes.push((format!("sizes asked for at depth {depth}"), asked));
        scenes.push((format!("sizes waiting at depth {depth}"), written));
    }
    for size in RANGE_ENDS.into_iter().chain([MAX_DEPTH - 16]) {
        let mut steps = Vec::new();
        for missing in [0, 1] {
            let rate = 1000 * cost(size) - missing;
            let own = [open(rate, MAX_DEPTH), client(5, 0, WEIGHTED, 1, cost(size))];
            let borrowed = [
                open(rate, MAX_DEPTH),
                class(1, 0, FIXED, 10_000, MAX_DEPTH),
                client(5, 1, FIXED, 1, MAX_DEPTH),
            ];
            for tree in [&own[..], &borrowed[..]] {
                steps.extend([tree, &[request(5, 7, size)]].concat());
                for _ in 0..2 {
                    steps.extend([&ticks(1, 4)[..], &looks(&[0, 1, 5])].concat());
                }
            }
        }
        scenes.push((format!("what a size of {size} costs"), steps));
    }
    scenes
}

/// The grains nobody gets: after each step every node is looked at.
fn lost_grains() -> Vec<Scene> {
    let weights =
        |count| -> Vec<Step> { (1..=count).map(|node| client(node, 0, WEIGHTED, 1, 1)).collect() };
    let thirds =
        [(1, 3333), (2, 3333), (3, 3334)].map(|(node, share)| client(node, 0, FIXED, share, 1));
    let nested = [1, 2, 3].map(|node| class(node, node - 1, FIXED, 5000, 40));
    let tiny = |rate| {
        [
            open(rate, 40),
            class(1, 0, FIXED, 1000, 20),
            client(2, 1, FIXED, 10_000, 1),
            client(3, 1, WEIGHTED, 1, 1),
            client(4, 0, WEIGHTED, 1, 1),
            client(5, 0, WEIGHTED, 1, 1),
            change_share(1, FIXED, 10_000),
        ]
    };
    let scenes = vec![
        (
            "the paper's rates",
            vec![
                open(1000, 40),
                class(1, 0, FIXED, 5000, 30),
                client(2, 1, FIXED, 4000, 10),
                client(3, 1, WEIGHTED, 4, 10),
                client(4, 1, WEIGHTED, 6, 10),
            ],
        ),
        ("three weights of 1", [vec![open(1000, 40)], weights(3)].concat()),
        (
            "three thirds, with a weight and without",
            [&[open(1000, 40)], &thirds[..], &[client(4, 0, WEIGHTED, 1, 1), leave(4)]].concat(),
        ),
        (
            "no children on any level",
            [
                &[open(1000, 40)],
                &nested[..],
                &[client(4, 3, WEIGHTED, 1, 8), leave(4), leave(3), leave(2), leave(1)],
            ]
            .concat(),
        ),
        (
            "every change of the tree, accepted and refused",
            vec![
                open(1000, 40),
                client(1, 0, WEIGHTED, 1, 1),
                client(2, 0, WEIGHTED, 2, 1),
                class(3, 0, FIXED, 3333, 9),
                class(3, 0, FIXED, 1, 1),
                client(4, 3, FIXED, 5000, 1),
                change_share(4, WEIGHTED, 9),
                change_share(4, FIXED, 9999),
                change_share(4, FIXED, 10_001),
                change_share(1, FIXED, 1),
                change_share(2, FIXED, 1),
                change_share(2, FIXED, 9999),
                change_rate(10_000),
                change_rate(0),
                leave(1),
                leave(3),
                leave(4),
                leave(3),
                leave(2),
            ],
        ),
        (
            "a change at the root",
            vec![
                open(1000, 40),
                class(1, 0, WEIGHTED, 1, 30),
                class(2, 1, WEIGHTED, 1, 30),
                client(3, 2, WEIGHTED, 1, 10),
                client(4, 2, WEIGHTED, 1, 10),
                client(5, 2, WEIGHTED, 1, 10),
                change_rate(1001),
                change_rate(999),
                client(6, 0, WEIGHTED, 1, 10),
            ],
        ),
        (
            "ticks and requests",
            [
                vec![open(1000, 40), class(4, 0, FIXED, 1, 8)],
                (1..=3).map(|node| client(node, 0, WEIGHTED, 1, 8)).collect(),
                vec![request(1, 7, 1), request(2, 7, 7), request(2, 7, 1)],
                ticks(30, 12),
            ]
            .concat(),
        ),
        (
            "63 children of weight 1",
            [vec![open(1000, 63)], weights(63), vec![change_rate(MAX_RATE)]].concat(),
        ),
        (
            "63 children of the weights 1 to 63",
            [
                vec![open(MAX_RATE, 63)],
                (1..64).map(|node| client(node, 0, WEIGHTED, node, 1)).collect(),
                vec![change_rate(2016), change_rate(2015), change_rate(1)],
            ]
            .concat(),
        ),
        (
            "63 fixed children, then weighted ones",
            [
                vec![open(MAX_RATE, 63)],
                (1..64).map(|node| client(node, 0, FIXED, 1 + node % 3, 1)).collect(),
                vec![change_rate(1000)],
                (1..64).map(|node| change_share(node, WEIGHTED, 1)).collect(),
            ]
            .concat(),
        ),
        (
            "63 nodes on all levels",
            [
                vec![plan_read(&Plan::of_table(&trees::large(1_000_000)).encode(Edition::First))],
                [1, 2, 3, 4].map(|node| change_share(node, FIXED, 77)).to_vec(),
                [1, 2, 3, 4].map(|node| change_share(node, WEIGHTED, 77)).to_vec(),
                [1, 7, 999_983, MAX_RATE].map(change_rate).to_vec(),
                (5..63).map(leave).collect(),
                [3, 2, 1, 4].map(leave).to_vec(),
            ]
            .concat(),
        ),
        ("rates too small to divide", (1..=12).flat_map(tiny).collect()),
    ];
    let looked_at = |step| [vec![step], look_everywhere()].concat();
    scenes
        .into_iter()
        .map(|(name, steps)| {
            (format!("lost grains, {name}"), steps.into_iter().flat_map(looked_at).collect())
        })
        .collect()
}

/// A tree with balances, what its clients ask for, and the list of the tick that follows, worked by hand.
///
/// All balances are in tokens, as steps 2 to 4 find them: the root's rate is 1 grain, which it lacks before, and the others
/// have none. A node is a class if it is a parent here. Requests are client and size, and their tags are their arrival
/// numbers. The list is client, arrival number, size and supplier. A size of 1 costs 8, 8 costs 12, 12 costs 16, 20 costs
/// 24. Steps are those of the supplier above the client.
pub(crate) struct Family {
    pub(crate) name: &'static str,
    root: i64,
    nodes: &'static [(i64, i64, i64)],
    pub(crate) requests: &'static [(i64, i64)],
    pub(crate) list: &'static [[i64; 4]],
}

/// Client 2 in class 1, which has 8, and client 5 in class 4, which has nothing.
const FAMILY_AND_STRANGER: &[(i64, i64, i64)] = &[(1, 0, 8), (2, 1, 0), (4, 0, 0), (5, 4, 0)];

/// Clients 2 and 3 in class 1, which has 8, and client 5 in class 4, which has nothing.
const TWO_AND_STRANGER: &[(i64, i64, i64)] =
    &[(1, 0, 8), (2, 1, 0), (3, 1, 0), (4, 0, 0), (5, 4, 0)];

/// Client 2 in class 1, which has 8, and client 5 under the root.
const FAMILY_AND_CHILD_OF_ROOT: &[(i64, i64, i64)] = &[(1, 0, 8), (2, 1, 0), (5, 0, 0)];

/// Classes 1 and 2 with 8 each, client 8 in class 1 and client 9 in class 2.
const TWO_FAMILIES: &[(i64, i64, i64)] = &[(1, 0, 8), (8, 1, 0), (2, 0, 8), (9, 2, 0)];

/// The same with the clients exchanged.
const TWO_FAMILIES_CROSSED: &[(i64, i64, i64)] = &[(1, 0, 8), (9, 1, 0), (2, 0, 8), (8, 2, 0)];

/// Five clients on level 4, each in three classes of its own: client 14 has 8 and class 13 has 16, and classes 23, 32 and
/// 41 have 8.
const FIVE_BRANCHES: &[(i64, i64, i64)] = &[
    (11, 0, 0),
    (12, 11, 0),
    (13, 12, 16),
    (14, 13, 8),
    (21, 0, 0),
    (22, 21, 0),
    (23, 22, 8),
    (24, 23, 0),
    (31, 0, 0),
    (32, 31, 8),
    (33, 32, 0),
    (34, 33, 0),
    (41, 0, 8),
    (42, 41, 0),
    (43, 42, 0),
    (44, 43, 0),
    (51, 0, 0),
    (52, 51, 0),
    (53, 52, 0),
    (54, 53, 0),
];

pub(crate) const FAMILIES: [Family; 22] = [
    // Client 2 has class 1 at 1 step, client 5 the root at 2. Class 1 pays and with it the root, which has 0 then.
    Family {
        name: "the family before an earlier stranger",
        root: 8,
        nodes: FAMILY_AND_STRANGER,
        requests: &[(5, 1), (2, 1)],
        list: &[[2, 2, 1, 1]],
    },
    // The root has 8 left.
    Family {
        name: "the stranger after the family",
        root: 16,
        nodes: FAMILY_AND_STRANGER,
        requests: &[(5, 1), (2, 1)],
        list: &[[2, 2, 1, 1], [5, 1, 1, 0]],
    },
    // The root has 7 left.
    Family {
        name: "a token too little for the stranger",
        root: 15,
        nodes: FAMILY_AND_STRANGER,
        requests: &[(5, 1), (2, 1)],
        list: &[[2, 2, 1, 1]],
    },
    // Class 1 has 8 and the root falls to -8.
    Family {
        name: "a family with an empty root",
        root: 0,
        nodes: FAMILY_AND_STRANGER,
        requests: &[(5, 1), (2, 1)],
        list: &[[2, 2, 1, 1]],
    },
    // Client 5 has class 4 at 1 step, client 2 the root at 2.
    Family {
        name: "a stranger of lower numbers",
        root: 8,
        nodes: &[(1, 0, 0), (2, 1, 0), (4, 0, 8), (5, 4, 0)],
        requests: &[(2, 1), (5, 1)],
        list: &[[5, 2, 1, 4]],
    },
    // Both have 1 step. The root pays 8 of 8, and falls to -8 by what class 1 pays.
    Family {
        name: "a child of the root before a family",
        root: 8,
        nodes: FAMILY_AND_CHILD_OF_ROOT,
        requests: &[(5, 1), (2, 1)],
        list: &[[5, 1, 1, 0], [2, 2, 1, 1]],
    },
    // Both have 1 step. Class 1 pays and with it the root, which has 0 then.
    Family {
        name: "a child of the root after a family",
        root: 8,
        nodes: FAMILY_AND_CHILD_OF_ROOT,
        requests: &[(2, 1), (5, 1)],
        list: &[[2, 1, 1, 1]],
    },
    // All of these have 1 step, so they go by arrival.
    Family {
        name: "two families, 8 first",
        root: 16,
        nodes: TWO_FAMILIES,
        requests: &[(8, 1), (9, 1)],
        list: &[[8, 1, 1, 1], [9, 2, 1, 2]],
    },
    Family {
        name: "two families, 9 first",
        root: 16,
        nodes: TWO_FAMILIES,
        requests: &[(9, 1), (8, 1)],
        list: &[[9, 1, 1, 2], [8, 2, 1, 1]],
    },
    Family {
        name: "two families crossed, 8 first",
        root: 16,
        nodes: TWO_FAMILIES_CROSSED,
        requests: &[(8, 1), (9, 1)],
        list: &[[8, 1, 1, 2], [9, 2, 1, 1]],
    },
    Family {
        name: "two families crossed, 9 first",
        root: 16,
        nodes: TWO_FAMILIES_CROSSED,
        requests: &[(9, 1), (8, 1)],
        list: &[[9, 1, 1, 1], [8, 2, 1, 2]],
    },
    // Both have 1 step, and class 1 pays 16 for the earlier one. Then client 2 has its own 8, at 0 steps.
    Family {
        name: "a client that pays itself before a class",
        root: 40,
        nodes: &[(1, 0, 16), (2, 1, 8), (4, 0, 8), (3, 4, 0)],
        requests: &[(2, 12), (3, 1), (2, 1)],
        list: &[[2, 1, 12, 1], [2, 3, 1, 2], [3, 2, 1, 4]],
    },
    // Class 1 pays 16 of 24, and 8 with client 2, which pays itself. So client 3 has the root, with 40 - 24.
    Family {
        name: "a client that pays itself empties its class",
        root: 40,
        nodes: &[(1, 0, 24), (2, 1, 8), (3, 1, 0)],
        requests: &[(2, 12), (3, 1), (2, 1)],
        list: &[[2, 1, 12, 1], [2, 3, 1, 2], [3, 2, 1, 0]],
    },
    // Class 1 pays for client 2 and is empty. Then clients 3 and 5 have the root at 2 steps, and client 5 is earlier.
    Family {
        name: "steps rise",
        root: 24,
        nodes: TWO_AND_STRANGER,
        requests: &[(2, 1), (5, 1), (3, 1)],
        list: &[[2, 1, 1, 1], [5, 2, 1, 0], [3, 3, 1, 0]],
    },
    // The same with a root that has 8 left after client 2.
    Family {
        name: "steps rise, and one waits",
        root: 16,
        nodes: TWO_AND_STRANGER,
        requests: &[(2, 1), (5, 1), (3, 1)],
        list: &[[2, 1, 1, 1], [5, 2, 1, 0]],
    },
    // Class 2 pays 16 and with it class 1, which is empty. Then client 4 has the root at 2 steps, behind client 5.
    Family {
        name: "steps rise by what is paid further down",
        root: 32,
        nodes: &[(1, 0, 16), (2, 1, 16), (3, 2, 0), (4, 1, 0), (6, 0, 0), (5, 6, 0)],
        requests: &[(3, 12), (5, 1), (4, 1)],
        list: &[[3, 1, 12, 2], [5, 2, 1, 0], [4, 3, 1, 0]],
    },
    // Client 4 has class 3 at 1 step for 8, then class 1 at 3 steps for 16. Client 8 has class 6 at 2 steps twice.
    Family {
        name: "steps rise with the next request",
        root: 40,
        nodes: &[(1, 0, 24), (2, 1, 0), (3, 2, 8), (4, 3, 0), (6, 0, 24), (5, 6, 0), (8, 5, 0)],
        requests: &[(4, 1), (8, 1), (4, 12), (8, 1)],
        list: &[[4, 1, 1, 3], [8, 2, 1, 6], [8, 4, 1, 6], [4, 3, 12, 1]],
    },
    // Clients 54, 44, 34 and 24 have the root and classes 41, 32 and 23 at 4, 3, 2 and 1 steps. Client 14 has class 13 at 1
    // step for 16, then itself for 8. The root pays 56 in all.
    Family {
        name: "0 to 4 steps",
        root: 56,
        nodes: FIVE_BRANCHES,
        requests: &[(54, 1), (44, 1), (34, 1), (24, 1), (14, 12), (14, 1)],
        list: &[
            [24, 4, 1, 23],
            [14, 5, 12, 13],
            [14, 6, 1, 14],
            [34, 3, 1, 32],
            [44, 2, 1, 41],
            [54, 1, 1, 0],
        ],
    },
    // Client 5 has the root at 1 step, and client 4 has class 1 at 3.
    Family {
        name: "steps from clients on two levels",
        root: 8,
        nodes: &[(1, 0, 8), (2, 1, 0), (3, 2, 0), (4, 3, 0), (5, 0, 0)],
        requests: &[(4, 1), (5, 1)],
        list: &[[5, 2, 1, 0], [4, 1, 1, 1]],
    },
    // Client 2 has its own 8 for its second request, but the first has the root at 2 steps, for 16. Client 5 has 1 step.
    Family {
        name: "a small one behind a large one",
        root: 24,
        nodes: &[(1, 0, 0), (2, 1, 8), (4, 0, 8), (5, 4, 0)],
        requests: &[(2, 12), (2, 1), (5, 1)],
        list: &[[5, 3, 1, 4], [2, 1, 12, 0], [2, 2, 1, 2]],
    },
    // All have 1 step, so the two classes take turns by arrival.
    Family {
        name: "families in turn",
        root: 32,
        nodes: &[(1, 0, 16), (11, 1, 0), (13, 1, 0), (2, 0, 16), (12, 2, 0)],
        requests: &[(11, 1), (12, 1), (13, 1), (12, 1)],
        list: &[[11, 1, 1, 1], [12, 2, 1, 2], [13, 3, 1, 1], [12, 4, 1, 2]],
    },
    // Class 1 pays 16 of 20, and class 4 pays 8 of 9. Then all have the root at 2 steps, which has 20: 12 and 8 go.
    Family {
        name: "the rest by arrival, until nobody has enough",
        root: 44,
        nodes: &[(1, 0, 20), (2, 1, 0), (3, 1, 7), (4, 0, 9), (5, 4, 0), (6, 4, 0)],
        requests: &[(2, 12), (5, 8), (3, 1), (6, 1), (2, 1), (5, 1), (3, 1)],
        list: &[[2, 1, 12, 1], [6, 4, 1, 4], [5, 2, 8, 0], [3, 3, 1, 0]],
    },
];

impl Family {
    /// The clients.
    pub(crate) fn clients(&self) -> Vec<i64> {
        let is_class = |node: i64| self.nodes.iter().any(|&(_, parent, _)| parent == node);
        self.nodes.iter().map(|new| new.0).filter(|&node| !is_class(node)).collect()
    }

    /// The tree with each client on the port that the function gives it, its balances and the requests.
    pub(crate) fn asked(&self, port: impl Fn(i64) -> i64) -> Vec<Step> {
        let clients = self.clients();
        let mut steps = vec![open(1, 20_000), poke(ROOT, BALANCE, 1000 * self.root - 1)];
        let parent_of = |node: i64| self.nodes.iter().find(|new| new.0 == node).map(|new| new.1);
        for &(node, parent, tokens) in self.nodes {
            let levels = std::iter::successors(Some(parent), |&node| parent_of(node)).count();
            steps.push(match clients.contains(&node) {
                true => on_port(port(node), client(node, parent, FIXED, 1, 24)),
                false => class(node, parent, FIXED, 1, [2000, 500, 100][levels - 1]),
            });
            steps.push(poke(node as usize, BALANCE, 1000 * tokens));
        }
        let requests = (1..).zip(self.requests);
        steps.extend(requests.map(|(arrival, &(client, size))| request(client, arrival, size)));
        steps
    }

    /// The same on port 0, and a tick.
    fn steps(&self) -> Vec<Step> {
        [self.asked(|_| 0), vec![tick(4 * self.requests.len())]].concat()
    }

    /// Sees that the second engine gives the list.
    fn check(&self) {
        let mut world = World::default();
        let mut reply = None;
        for step in self.steps() {
            reply = world.run(&mut Engine, &step);
        }
        let list = self.list.concat();
        assert_eq!(reply, Some(Reply::Counts([self.list.len() as i64, 0])), "{}", self.name);
        assert_eq!(world.lists()[0][..list.len()], list, "{}", self.name);
    }
}

/// What step 4 picks, with lists worked by hand; then all nodes are looked at, and the rest goes from a faster disk.
fn families() -> Vec<Scene> {
    FAMILIES
        .iter()
        .map(|family| {
            family.check();
            let rest = [&look_everywhere()[..], &[change_rate(9000)], &ticks(5, 32)].concat();
            (format!("families, {}", family.name), [family.steps(), rest].concat())
        })
        .collect()
}

/// 63 nodes on all levels, every queue full, and each class with enough for all, for some or for one; the disk gives next
/// to nothing at the first tick, and more at the next ones.
fn supplies() -> Vec<Scene> {
    let tree = trees::large(1);
    let clients = trees::clients(&tree);
    let classes: Vec<usize> = hds_engine::table::classes(&tree).collect();
    let mut scenes = Vec::new();
    for tokens in [8, 30, 200, 1000, 10_000] {
        let mut steps = vec![plan_read(&Plan::of_table(&tree).encode(Edition::Second))];
        steps.extend(classes.iter().map(|&class| poke(class, BALANCE, 1000 * tokens)));
        for turn in 0..QUEUE_LEN as i64 {
            for &client in &clients {
                let size = 1 + (7 * client + 11 * turn) % 20;
                steps.push(request(client, 100 * client + turn, size));
            }
        }
        for rate in [1, 1_000_000, 10_000_000, MAX_RATE] {
            steps.extend([change_rate(rate), tick(4 * QUEUE_LEN * clients.len())]);
        }
        steps.extend(look_everywhere());
        scenes.push((format!("families, 63 nodes, {tokens} tokens in each class"), steps));
    }
    scenes
}

/// A table with a tree and requests that wait, two of which cost their clients' depth.
fn sound() -> Vec<Step> {
    vec![
        open(1000, 100),
        class(1, 0, FIXED, 5000, 50),
        client(2, 1, FIXED, 6000, 20),
        client(3, 1, WEIGHTED, 6, 30),
        class(4, 0, WEIGHTED, 1, 50),
        request(2, 7, 16),
        request(3, 7, 26),
        request(2, 7, 9),
    ]
}

/// The plan of the sound table.
fn sound_plan() -> Plan {
    let mut world = World::default();
    for step in sound() {
        world.run(&mut Engine, &step);
    }
    Plan::of_table(world.table.inner())
}

/// Every call, with arguments that a sound table accepts.
fn every_call() -> Vec<Step> {
    vec![
        set_minute(&sound_plan().encode(Edition::First), &[2, 0, 60, 10_000], 59),
        look(2),
        request(2, -1, 1),
        tick(100),
        client(9, 4, WEIGHTED, 1, 1),
        change_share(3, WEIGHTED, 9),
        change_rate(77),
        leave(9),
        same(false),
        same(true),
        plan_write(1, 100),
        plan_write(2, 100),
        plan_write(3, 100),
        plan_check(&ONE_CLIENT),
        plan_read(&ONE_CLIENT),
        open(5, 6),
    ]
}

/// Every call at tables of wrong length, whatever their contents.
fn lengths() -> Vec<Scene> {
    let lengths = [0, 1, HEADER_LEN, TABLE_LEN - 1, TABLE_LEN, TABLE_LEN + 1, 2 * TABLE_LEN];
    lengths
        .iter()
        .map(|&len| {
            let cut = [Step::Keep, Step::Resize { len }];
            (format!("length {len}"), [&sound()[..], &cut, &every_call()].concat())
        })
        .collect()
}

/// Document 01's plan: disk 1000, root depth 40, client 5 with weight 4 and depth 16.
const ONE_CLIENT: [u8; 20] = [
    0xE8, 0x03, 0x00, 0x00, 0x28, 0x00, 0x00, 0x00, 0x01, 0x05, 0x00, 0x0D, 0x00, 0x03, 0x04, 0x00,
    0x10, 0x00, 0x00, 0x00,
];

/// Document 01's plan and that of the sound table, in both editions, and one with stated nodes: whole, cut short, lengthened,
/// and with each byte changed; each of the tables written in every edition to buffers about its length.
fn plans() -> Vec<Scene> {
    let sound = sound_plan();
    let first = Plan::decode(&ONE_CLIENT).expect("a plan");
    let mut scenes = Vec::new();
    for (name, plan, editions) in [
        ("of document 01", first, &Edition::ALL[..]),
        ("of the sound table", sound, &Edition::ALL),
        ("with stated nodes", stated_plan(), &[Edition::Second]),
    ] {
        for &edition in editions {
            let name = format!("plan {name}, edition {}", edition.number());
            let bytes = plan.encode(edition);
            let right = plan_read(&bytes);
            scenes.push((format!("{name}, written"), [vec![right], writes(&plan)].concat()));
            scenes.push((format!("{name}, lengths"), lengths_of(&bytes)));
            scenes.push((format!("{name}, bytes"), bytes_of(&bytes)));
        }
    }
    scenes
}

/// Disk 200,000; client 5 with 70,000 and class 9 with 300 stated, client 12 with a weight beside them, client 3 with half of
/// the class.
pub(crate) fn stated_plan() -> Plan {
    let new = |node, parent, sort, kind, share| NewNode {
        node,
        parent,
        sort,
        kind,
        share,
        depth: 8,
        port: 0,
    };
    let nodes = vec![
        new(5, 0, CLIENT, STATED, 70_000),
        new(9, 0, CLASS, STATED, 300),
        new(12, 0, CLIENT, WEIGHTED, 1),
        new(3, 9, CLIENT, FIXED, 5000),
    ];
    Plan { rate: 200_000, depth: 100, nodes }
}

/// Writes in every edition, and in some that there are not, to buffers about the lengths of the plan.
fn writes(plan: &Plan) -> Vec<Step> {
    let [first, second] = Edition::ALL.map(|edition| edition.plan_len(plan.nodes.len()));
    let lengths =
        [0, 1, 8, 9, 12, 13, first - 1, first, first + 1, second - 1, second, second + 1, 1000];
    let editions = [1, 2, 0, 3, -1, 4, 255, 256, 257, 258, i64::MIN, i64::MAX];
    editions
        .into_iter()
        .flat_map(|edition| lengths.map(|buffer_len| plan_write(edition, buffer_len)))
        .collect()
}

/// A plan checked and read, and what it made written in both editions.
pub(crate) fn tried(plan: &[u8]) -> [Step; 4] {
    [plan_check(plan), plan_read(plan), plan_write(1, 1000), plan_write(2, 1000)]
}

/// A plan of every length up to some bytes more.
fn lengths_of(plan: &[u8]) -> Vec<Step> {
    let cut = |len: usize| {
        let mut cut = plan.to_vec();
        cut.resize(len, 0);
        tried(&cut)
    };
    (0..plan.len() + 14).flat_map(cut).collect()
}

/// A plan with each of its bytes changed.
fn bytes_of(plan: &[u8]) -> Vec<Step> {
    let mut steps = Vec::new();
    for place in 0..plan.len() {
        for byte in [0, 1, 2, 3, 4, 5, 6, 9, 63, 64, 254, 255] {
            let mut other = plan.to_vec();
            other[place] = byte;
            steps.extend(tried(&other));
        }
    }
    steps
}

/// Each argument of each call at and beyond its limits, the others sound.
fn limits() -> Vec<Scene> {
    let mut steps = sound();
    for low in [0, 1, 8, 26, 63, 64, 512, 10_000, 1_000_000, 1_000_000_000] {
        for value in [low - 1, low, low + 1, -low, i64::MIN, i64::MIN + 1, i64::MAX - 1, i64::MAX] {
            steps.extend([
                look(value),
                leave(value),
                request(value, 1, 1),
                request(3, value, 1),
                request(3, 1, value),
                change_share(value, WEIGHTED, 1),
                change_share(3, value, 1),
                change_share(3, WEIGHTED, value),
                change_share(3, FIXED, value),
                change_share(3, STATED, value),
                change_share(4, STATED, value),
                change_rate(value),
                client(value, 4, WEIGHTED, 1, 1),
                client(9, value, WEIGHTED, 1, 1),
                join(9, 4, value, WEIGHTED, 1, 1),
                client(9, 4, value, 1, 1),
                client(9, 4, WEIGHTED, value, 1),
                client(9, 4, STATED, value, 1),
                client(9, 0, STATED, value, 1),
                client(9, 4, WEIGHTED, 1, value),
                on_port(value, client(9, 4, WEIGHTED, 1, 1)),
                on_port(value, class(9, 4, WEIGHTED, 1, 1)),
                leave(9),
                tick(128),
                Step::Keep,
                open(value, 10),
                open(10, value),
                Step::Restore,
            ]);
        }
    }
    vec![("limits".into(), steps)]
}

/// Tables with one clause of "in order" broken and no other, and every call and a look at every node on each of them.
/// Every clause is reached. Then tables with another tree written from outside, in order, and looks at every node.
fn damaged() -> Vec<Scene> {
    let mut scenes = Vec::new();
    let mut reached = [false; CLAUSES.len()];
    for seed in 0..40 {
        let mut steps = if seed == 0 { sound() } else { run(seed, 150, Profile::Clean) };
        let mut world = World::default();
        for step in &steps {
            world.run(&mut Engine, step);
        }
        let mut rng = Rng::new(seed);
        for (clause, reached) in reached.iter_mut().enumerate() {
            if let Some(damage) = damage::isolated(&mut rng, world.table.inner(), clause) {
                *reached = true;
                for call in every_call() {
                    steps.extend(episode(&damage, &[call]));
                }
                steps.extend(episode(&damage, &look_everywhere()));
            }
        }
        let other = damage::other_tree(&mut rng, world.table.inner());
        steps.extend(episode(&other, &look_everywhere()));
        scenes.push((format!("damage {seed}"), steps));
    }
    assert!(reached.iter().all(|&clause| clause), "a clause is never broken alone: {reached:?}");
    scenes
}

/// Calls on a table that was written from outside, which is put back afterwards.
pub(crate) fn episode(damage: &[Step], calls: &[Step]) -> Vec<Step> {
    [&[Step::Keep], damage, calls, &[Step::Restore]].concat()
}
