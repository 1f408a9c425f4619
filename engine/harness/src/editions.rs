//! Scenes of the two editions of plans, of document 02's request (f): plans of each written out in bytes with what reading
//! them and writing them back answers, the causes of reading and writing in their order, marks that are too short, and
//! bodies of one edition in the frame of the other.

use hds_engine::plan::{Edition, Plan};
use hds_engine::steps::{Reply, Step};
use hds_engine::table::*;
use hds_engine::NewNode;

use crate::renewals::made;
use crate::scenes::*;
use crate::stated::{accepted, checked, refused, Told};
use crate::trees;

/// All scenes of editions.
pub(crate) fn all() -> Vec<Scene> {
    let by_hand = [
        ("document 01's plan", one_client()),
        ("stated nodes", stated_nodes()),
        ("causes of reading", causes_of_reading()),
        ("causes of writing", causes_of_writing()),
        ("rates that begin as the mark does", marked_rates()),
    ];
    let by_hand = by_hand.map(|(name, told)| (format!("editions, {name}"), checked(name, told)));
    let mut scenes = by_hand.to_vec();
    scenes.push(("editions, marks".into(), marks()));
    scenes.push(("editions, one in the frame of the other".into(), frames()));
    scenes.push(("editions, entries in every order".into(), orders()));
    for (name, table) in [
        ("desks", trees::desks(999_983)),
        ("all stated", trees::all_stated(1000)),
        ("63 nodes", trees::large(MAX_RATE)),
        ("63 weights", trees::heavy(1000, 63)),
    ] {
        scenes.push((format!("editions, there and back, {name}"), there_and_back(&table)));
    }
    scenes
}

/// Disk 1000, root depth 40, client 5 with weight 4 and depth 16, in the first edition and in the second.
pub(crate) const ONE_CLIENT: [u8; 20] = [
    0xE8, 0x03, 0x00, 0x00, 0x28, 0x00, 0x00, 0x00, 0x01, 0x05, 0x00, 0x0D, 0x00, 0x03, 0x04, 0x00,
    0x10, 0x00, 0x00, 0x00,
];
pub(crate) const ONE_CLIENT_SECOND: [u8; 26] = [
    0xFF, 0xFF, 0xFF, 0xFF, 0xE8, 0x03, 0x00, 0x00, 0x28, 0x00, 0x00, 0x00, 0x01, 0x05, 0x00, 0x11,
    0x00, 0x03, 0x04, 0x00, 0x00, 0x00, 0x10, 0x00, 0x00, 0x00,
];

/// The plan with stated nodes of the other scenes: 4 entries behind 13 bytes, so the bodies begin at 29, 38, 47 and 56.
const STATED_NODES: [u8; 65] = [
    0xFF, 0xFF, 0xFF, 0xFF, 0x40, 0x0D, 0x03, 0x00, 0x64, 0x00, 0x00, 0x00,
    0x04, // 200,000 and 100
    0x05, 0x00, 0x1D, 0x00, 0x09, 0x00, 0x26, 0x00, 0x0C, 0x00, 0x2F, 0x00, 0x03, 0x09, 0x38, 0x00,
    0x05, 0x70, 0x11, 0x01, 0x00, 0x08, 0x00, 0x00, 0x00, // a client, 70,000 stated
    0x04, 0x2C, 0x01, 0x00, 0x00, 0x08, 0x00, 0x00, 0x00, // a class, 300 stated
    0x03, 0x01, 0x00, 0x00, 0x00, 0x08, 0x00, 0x00, 0x00, // a client of weight 1
    0x02, 0x88, 0x13, 0x00, 0x00, 0x08, 0x00, 0x00, 0x00, // a client of fixed 5000
];

pub(crate) fn answered(number: i64, steps: impl IntoIterator<Item = Step>) -> Vec<Told> {
    steps.into_iter().map(|step| (step, Reply::Number(number))).collect()
}

fn read(edition: i64, plan: &[u8]) -> Vec<Told> {
    [answered(0, [plan_check(plan)]), answered(edition, [plan_read(plan)])].concat()
}

fn not_read(number: i64, plan: &[u8]) -> Vec<Told> {
    [answered(number, [plan_check(plan)]), refused(number, [plan_read(plan)])].concat()
}

fn rate(node: i64, rate: i64, lost: i64) -> Vec<Told> {
    vec![(look(node), Reply::Look([rate, 0, 0, lost]))]
}

fn one_client() -> Vec<Told> {
    let write = [answered(20, [plan_write(1, 20)]), answered(26, [plan_write(2, 26)])].concat();
    [
        read(1, &ONE_CLIENT),
        rate(5, 1000, 0),
        write.clone(),
        accepted([open(1, 1)]),
        read(2, &ONE_CLIENT_SECOND),
        rate(5, 1000, 0),
        write,
    ]
    .concat()
}

/// 129,700 are divided, and all of them are for the weight. Client 3 has half of 300.
fn stated_nodes() -> Vec<Told> {
    assert_eq!(stated_plan().encode(Edition::Second), STATED_NODES);
    [
        read(2, &STATED_NODES),
        rate(0, 200_000, 0),
        rate(5, 70_000, 0),
        rate(9, 300, 150),
        rate(12, 129_700, 0),
        rate(3, 150, 0),
        answered(65, [plan_write(2, 65), plan_write(2, 70)]),
        refused(13, [plan_write(2, 64), plan_write(1, 52)]),
        refused(16, [plan_write(1, 53), plan_write(1, 65)]),
    ]
    .concat()
}

/// A plan of the second edition.
fn second(rate: i64, depth: i64, nodes: &[NewNode]) -> Vec<u8> {
    Plan { rate, depth, nodes: nodes.to_vec() }.encode(Edition::Second)
}

fn stated(node: i64, parent: i64, share: i64, depth: i64) -> NewNode {
    NewNode { node, parent, sort: CLIENT, kind: STATED, share, depth, port: 0 }
}

fn upper(node: i64, parent: i64) -> NewNode {
    NewNode { node, parent, sort: CLASS, kind: WEIGHTED, share: 1, depth: 8, port: 0 }
}

/// 14, then open and the joins entry by entry, with 16 behind all others of its join, then 15.
fn causes_of_reading() -> Vec<Told> {
    let weight = |node, depth| NewNode { kind: WEIGHTED, share: 1, ..stated(node, 0, 1, depth) };
    let mut wrong_kind = second(100, 40, &[stated(1, 0, 101, 1)]);
    wrong_kind[17] = 6;
    [
        not_read(14, &wrong_kind),
        not_read(14, &Plan::encode(&stated_plan(), Edition::First)),
        not_read(2, &second(0, 40, &[stated(1, 0, 101, 1)])),
        not_read(2, &second(100, 40, &[stated(1, 0, MAX_RATE + 1, 1)])),
        not_read(2, &second(100, 40, &[stated(1, 0, 0, 1)])),
        not_read(8, &second(100, 40, &[stated(1, 0, 101, 41)])),
        not_read(16, &second(100, 40, &[stated(1, 0, 101, 1)])),
        not_read(16, &second(100, 40, &[upper(1, 0), stated(2, 1, 1, 1)])),
        not_read(16, &second(100, 40, &[stated(1, 0, 60, 1), stated(2, 0, 41, 1)])),
        // The earlier entry counts.
        not_read(16, &second(100, 40, &[stated(1, 0, 101, 1), weight(2, 41)])),
        not_read(8, &second(100, 40, &[weight(1, 41), stated(2, 0, 101, 1)])),
        // Out of order as well.
        not_read(16, &second(100, 40, &[stated(2, 0, 60, 1), stated(1, 0, 41, 1)])),
        not_read(15, &second(100, 40, &[stated(2, 0, 60, 1), stated(1, 0, 40, 1)])),
        read(2, &second(100, 40, &[stated(1, 0, 60, 1), stated(2, 0, 40, 1)])),
    ]
    .concat()
}

/// 1, 2, 13 by the edition's length, 16.
fn causes_of_writing() -> Vec<Told> {
    let others = [0, 3, -1, 256, 257, 258, i64::MIN, i64::MAX];
    let mut told = read(2, &STATED_NODES);
    for edition in others {
        told.extend(refused(2, [0, 52, 53, 64, 65].map(|len| plan_write(edition, len))));
    }
    told.extend(refused(13, [plan_write(1, 52), plan_write(2, 53), plan_write(2, 64)]));
    told.extend(refused(16, [plan_write(1, 53)]));
    told.extend(answered(65, [plan_write(2, 65)]));
    let damage = [poke(5, BALANCE, -1)];
    for write in [plan_write(1, 0), plan_write(2, 65), plan_write(3, 0), plan_write(3, 65)] {
        told.extend(refused(1, episode(&damage, &[write])));
    }
    told
}

/// Disk rates whose low bytes are FF are of the first edition up to three of them; four are the mark.
fn marked_rates() -> Vec<Told> {
    let mut told = Vec::new();
    for (rate, number) in [
        (0xFF, 0),
        (0xFFFF, 0),
        (0xFF_FFFF, 0),
        (0x1FF_FFFF, 0),
        (0x3AFF_FFFF, 0),
        // Above 1,000,000,000.
        (0x3BFF_FFFF, 2),
        (0xFFFF_FFFE, 2),
        // A second edition without a whole head.
        (0xFFFF_FFFF, 14),
    ] {
        let plan = Plan { rate, depth: 40, nodes: Vec::new() };
        let first = plan.encode(Edition::First);
        told.extend(match number {
            0 => [read(1, &first), answered(9, [plan_write(1, 9)])].concat(),
            number => not_read(number, &first),
        });
        let number = if rate <= MAX_RATE { 0 } else { 2 };
        let second = plan.encode(Edition::Second);
        told.extend(match number {
            0 => [read(2, &second), answered(13, [plan_write(2, 13)])].concat(),
            number => not_read(number, &second),
        });
    }
    told
}

/// The plans above behind up to nine bytes FF, without their first bytes, and these bytes alone.
fn marks() -> Vec<Step> {
    let mut steps = Vec::new();
    for plan in [&ONE_CLIENT[..], &ONE_CLIENT_SECOND, &STATED_NODES] {
        for count in 0..10 {
            steps.extend(tried(&[&vec![0xFF; count], plan].concat()));
            steps.extend(tried(&plan[count..]));
            steps.extend(tried(&vec![0xFF; count]));
        }
        // One of the first bytes is another.
        for (place, byte) in (0..5).flat_map(|place| [0, 1, 0x7F, 0xFE].map(|byte| (place, byte))) {
            let mut other = plan.to_vec();
            other[place] = byte;
            steps.extend(tried(&other));
        }
    }
    steps
}

/// Plans put together from a mark, a head, entries and bodies, each as in one edition or the other.
fn frames() -> Vec<Step> {
    let mut steps = Vec::new();
    for plan in [Plan::decode(&ONE_CLIENT).expect("a plan"), stated_plan()] {
        for mark in [0, 4] {
            for share_len in [2, 4] {
                for offsets_by in [-9, -4, -2, 0, 2, 4, 9] {
                    steps.extend(tried(&put_together(&plan, mark, share_len, offsets_by)));
                }
            }
        }
    }
    steps
}

/// A plan with so many bytes FF, shares of so many bytes, and offsets that are so much more than the bodies' places.
fn put_together(plan: &Plan, mark: usize, share_len: usize, offsets_by: i64) -> Vec<u8> {
    let low = |value: i64, len: usize| value.to_le_bytes()[..len].to_vec();
    let count = plan.nodes.len();
    let head = [low(plan.rate, 4), low(plan.depth, 4), low(count as i64, 1)].concat();
    let first_body = (mark + 9 + 4 * count) as i64;
    let mut bytes = [vec![0xFF; mark], head].concat();
    for (index, new) in (0..).zip(&plan.nodes) {
        let offset = first_body + (5 + share_len as i64) * index + offsets_by;
        bytes.extend([low(new.node, 1), low(new.parent, 1), low(offset, 2)].concat());
    }
    for new in &plan.nodes {
        let kind = match new.kind {
            STATED => 3 + new.sort,
            kind => kind + 2 * (new.sort - 1),
        };
        bytes.extend([low(kind, 1), low(new.share, share_len), low(new.depth, 4)].concat());
    }
    bytes
}

/// The plan with stated nodes, its entries in every order, and with a disk's rate that is too low for them as well.
fn orders() -> Vec<Step> {
    let plan = stated_plan();
    let mut steps = Vec::new();
    for rate in [200_000, 70_300, 70_299, 70_000, 69_999] {
        for order in 0..4_usize.pow(4) {
            let nodes: Vec<NewNode> =
                (0..4).map(|place| plan.nodes[order / 4_usize.pow(place) % 4]).collect();
            let bytes = second(rate, plan.depth, &nodes);
            steps.extend([plan_check(&bytes), plan_read(&bytes)]);
        }
    }
    steps
}

/// A table written in both editions, the plans read, and written again.
fn there_and_back(table: &[i64]) -> Vec<Step> {
    let mut steps = [made(table), vec![plan_write(1, 1000), plan_write(2, 1000)]].concat();
    for edition in Edition::ALL {
        let bytes = Plan::of_table(table).encode(edition);
        steps.extend([open(1, 1), plan_check(&bytes), plan_read(&bytes), Step::Keep]);
        steps.extend([plan_write(1, 1000), plan_write(2, 1000)]);
        steps.extend(made(table));
        steps.extend([same(false), same(true), tick(0)]);
    }
    steps
}
