//! Opening hours for shares: what a window covers, what a set minute writes and what it
//! leaves, its causes in their order, worked by hand; the whole call once more from the
//! words of document 02, minute by minute; and what holds of all timetables of random runs.

use std::collections::BTreeMap;

use crate::faults::scenario;
use crate::judging::{all_pairs, Ends, BOTH};
use crate::support::*;
use hds_engine::damage;
use hds_engine::differential::first_difference;
use hds_engine::faulty::{Fault, Faulty, Hours, FAULTS};
use hds_engine::hours::Window;
use hds_engine::judge::{watch, Judge, Promise};
use hds_engine::order::{in_order, CLAUSES};
use hds_engine::plan::{Edition, Plan};
use hds_engine::random::{run, Profile, Rng};
use hds_engine::steps::{Call, Reply, Step, World};
use hds_engine::table::*;
use hds_engine::{Answer, Controller, Engine, NewNode};

/// The nodes of a studio. Of a disk of 2000 class 20 and client 30 state 1000. Of the other
/// 1000 class 10 has 300 and client 31 has 600, and 100 are left for client 32. Of class 10's
/// 300 client 11 has 120 and client 12 has 150, and 30 are left for client 13. Of class 20's
/// 400 client 21 has 100 and class 22 has 300, all of it for client 23.
fn nodes() -> Vec<NewNode> {
    vec![
        class(10, 0, FIXED, 3000, 100),
        class(20, 0, STATED, 400, 60),
        client(30, 0, STATED, 600, 16),
        client(31, 0, FIXED, 6000, 8),
        client(32, 0, WEIGHTED, 1, 8),
        client(11, 10, FIXED, 4000, 40),
        client(12, 10, FIXED, 5000, 40),
        client(13, 10, WEIGHTED, 5, 8),
        client(21, 20, WEIGHTED, 1, 30),
        class(22, 20, WEIGHTED, 3, 30),
        client(23, 22, WEIGHTED, 1, 30),
    ]
}

const RATES: [(i64, i64); 12] = [
    (0, 2000),
    (10, 300),
    (11, 120),
    (12, 150),
    (13, 30),
    (20, 400),
    (21, 100),
    (22, 300),
    (23, 300),
    (30, 600),
    (31, 600),
    (32, 100),
];

fn studio() -> Disk {
    let mut disk = Disk::open(2000, 200);
    nodes().into_iter().for_each(|new| assert_eq!(disk.join(new), Ok(0)));
    disk
}

fn plan() -> Plan {
    Plan { rate: 2000, depth: 200, nodes: nodes() }
}

/// The plan with a node changed.
fn with(node: i64, change: impl Fn(&mut NewNode)) -> Plan {
    let mut plan = plan();
    plan.nodes.iter_mut().filter(|new| new.node == node).for_each(change);
    plan
}

/// The plan without a node.
fn without(node: i64) -> Plan {
    let mut plan = plan();
    plan.nodes.retain(|new| new.node != node);
    plan
}

/// The plan with two entries in each other's place.
fn swapped(one: usize, other: usize) -> Plan {
    let mut plan = plan();
    plan.nodes.swap(one, other);
    plan
}

fn bytes(plan: &Plan) -> Vec<u8> {
    plan.encode(Edition::Second)
}

/// The plan in bytes, and cut short.
fn right() -> Vec<u8> {
    bytes(&plan())
}

fn cut() -> Vec<u8> {
    let mut bytes = right();
    bytes.pop();
    bytes
}

/// A set minute as a call.
fn set(plan: Vec<u8>, windows: &[[i64; 4]], minute: i64) -> Call {
    Call::SetMinute { plan, windows: windows.concat(), minute }
}

fn rates(disk: &mut Disk) -> Vec<(i64, i64)> {
    RATES.iter().map(|&(node, _)| (node, disk.rate(node))).collect()
}

/// The rates of the studio with these in place of its own.
fn rates_with(others: &[(i64, i64)]) -> Vec<(i64, i64)> {
    let mut rates: BTreeMap<i64, i64> = RATES.into_iter().collect();
    rates.extend(others.iter().copied());
    rates.into_iter().collect()
}

#[test]
fn the_plan_is_that_of_the_studio() {
    let mut disk = studio();
    assert_eq!(rates(&mut disk), RATES);
    let mut buffer = vec![0; 13 + 13 * 11];
    assert_eq!(disk.plan_write(2, &mut buffer), Ok(156));
    assert_eq!(buffer, right());
}

#[test]
fn a_window_covers_its_start_and_not_its_end() {
    // Client 31 with 7000 has 700 of 1000, and nothing is left for client 32.
    let inside = rates_with(&[(31, 700), (32, 0)]);
    let mut disk = studio();
    let before = disk.table.clone();
    for (minute, is_inside) in
        [(0, false), (99, false), (100, true), (101, true), (199, true), (200, false), (201, false)]
    {
        assert_eq!(disk.set_minute(&right(), &[[31, 100, 200, 7000]], minute), Ok(0));
        let expected = if is_inside { inside.clone() } else { RATES.to_vec() };
        assert_eq!(rates(&mut disk), expected, "minute {minute}");
        assert_eq!(disk.table == before, !is_inside);
    }
}

#[test]
fn a_set_minute_writes_kinds_shares_and_rates_alone() {
    let mut disk = studio();
    disk.poke(32, PORT, 1);
    disk.poke(11, PORT, 1);
    for (client, tag, size) in [(32, 7, 1), (11, -1, 30), (32, 8, 2)] {
        disk.request(client, tag, size).unwrap();
    }
    assert!(disk.tick_on_ports().concat().is_empty());
    let mut expected = disk.table.clone();
    // Class 10 with 4000 has 400 of 1000: 160, and 200, and 40 are left. Nothing is left for
    // client 32. Class 22 has 5 of 6 parts of 400 instead of 3 of 4.
    for (node, share, rate) in [(10, 4000, 400), (22, 5, 333), (31, 6000, 600)] {
        expected[8 + 40 * node + 4] = share;
        expected[8 + 40 * node + 6] = rate;
    }
    for (node, rate) in [(11, 160), (12, 200), (13, 40), (32, 0), (21, 66), (23, 333)] {
        expected[8 + 40 * node + 6] = rate;
    }
    let windows = [[10, 0, 10_080, 4000], [22, 5, 6, 5], [31, 6, 7, 1]];
    assert_eq!(disk.set_minute(&right(), &windows, 5), Ok(0));
    assert_eq!(disk.table, expected);
    // A plan with other kinds: client 32 is fixed, and class 20 has a weight.
    let mut other = with(32, |new| (new.kind, new.share) = (FIXED, 500));
    other.nodes[1] = class(20, 0, WEIGHTED, 9, 60);
    // Of 1400: 420, 840 and 70, and 70 are left for class 20, of which 17, and 52.
    for (node, kind, share, rate) in [
        (10, 0, 3000, 420),
        (31, 0, 6000, 840),
        (32, 0, 500, 70),
        (20, 1, 9, 70),
        (22, 1, 3, 52),
        (21, 1, 1, 17),
        (23, 1, 1, 52),
        (11, 0, 4000, 168),
        (12, 0, 5000, 210),
        (13, 1, 5, 42),
    ] {
        let record = &mut expected[8 + 40 * node..][..40];
        (record[3], record[4], record[6]) = (kind, share, rate);
    }
    assert_eq!(disk.set_minute(&bytes(&other), &[], 10_079), Ok(0));
    assert_eq!(disk.table, expected);
}

#[test]
fn kind_and_share_of_the_table_do_not_matter() {
    let mut disk = studio();
    let planned = disk.table.clone();
    for (node, kind, share) in [
        (31, WEIGHTED, 9999),
        (32, FIXED, 1000),
        (32, STATED, 1000),
        (20, FIXED, 1),
        (30, WEIGHTED, 1),
        (12, WEIGHTED, 3),
        (22, FIXED, 10_000),
    ] {
        disk.change_share(node, kind, share).unwrap();
        assert_ne!(disk.table, planned);
        assert_eq!(disk.set_minute(&right(), &[[31, 9, 10, 1]], 8), Ok(0));
        assert_eq!(disk.table, planned);
    }
}

#[test]
fn the_ends_of_the_week() {
    for (window, inside, outside) in [
        ([31, 0, 1, 7000], vec![0], vec![1, 2, 10_079]),
        ([31, 10_079, 10_080, 7000], vec![10_079], vec![0, 10_078]),
        ([31, 0, 10_080, 7000], vec![0, 1, 5000, 10_079], vec![]),
        ([31, 1, 10_079, 7000], vec![1, 10_078], vec![0, 10_079]),
    ] {
        let mut disk = studio();
        for (minutes, rate) in [(inside, 700), (outside, 600)] {
            for minute in minutes {
                assert_eq!(disk.set_minute(&right(), &[window], minute), Ok(0));
                assert_eq!(disk.rate(31), rate, "{window:?} at {minute}");
            }
        }
    }
}

#[test]
fn plans_of_both_editions() {
    // Without stated nodes: 600 and 1200 of 2000, and 200 are left for weights of 10.
    let mut weights = with(20, |new| (new.kind, new.share) = (WEIGHTED, 4));
    weights.nodes[2] = client(30, 0, WEIGHTED, 5, 16);
    for edition in Edition::ALL {
        let mut disk = studio();
        let plan = weights.encode(edition);
        assert_eq!(disk.set_minute(&plan, &[[31, 0, 9, 7000]], 9), Ok(0));
        assert_eq!([10, 31, 20, 30, 32].map(|node| disk.rate(node)), [600, 1200, 80, 100, 20]);
        assert_eq!(disk.set_minute(&plan, &[[31, 0, 9, 7000]], 8), Ok(0));
        assert_eq!([10, 31, 20, 30, 32].map(|node| disk.rate(node)), [600, 1400, 0, 0, 0]);
    }
    // A first edition has no kinds for stated nodes.
    let cases: &Cases = &[(&[14], set(plan().encode(Edition::First), &[], 0))];
    first_cause_counts(&studio().table, cases);
}

#[test]
fn a_tree_of_the_root_alone() {
    let mut disk = Disk::open(7, 9);
    let plan = Plan { rate: 7, depth: 9, nodes: vec![] };
    for edition in Edition::ALL {
        assert_eq!(disk.set_minute(&plan.encode(edition), &[], 10_079), Ok(0));
        let window = disk.set_minute(&plan.encode(edition), &[[1, 0, 9, 1]], 0);
        assert_eq!(window, Err(17));
    }
    assert_eq!(disk.table, Disk::open(7, 9).table);
}

/// What brings each cause about, in their order.
const CAUSES: [i64; 7] = [1, 2, 14, 17, 2, 7, 16];

#[test]
fn of_every_set_of_causes_the_first_counts() {
    let sound = studio().table;
    let mut damaged = sound.clone();
    damaged[8 + 40 * 63 + 9] = 1;
    for chosen in 0..1 << CAUSES.len() {
        let holds = |cause: usize| chosen >> cause & 1 == 1;
        // From the last cause to the first, so that none is met first by its place.
        let mut windows = vec![[13, 0, 5, 6]];
        windows.extend(holds(6).then_some([30, 20, 30, 1601]));
        windows.extend(holds(5).then_some([12, 40, 50, 6001]));
        windows.extend(holds(4).then_some([32, 0, 10_080, 10_001]));
        windows.extend(holds(3).then_some([13, 4, 6, 6]));
        let plan = if holds(2) { cut() } else { right() };
        let minute = if holds(1) { -1 } else { 3 };
        let table = if holds(0) { &damaged } else { &sound };
        let causes = (0..CAUSES.len()).filter(|&cause| holds(cause));
        let causes: Vec<i64> = causes.map(|cause| CAUSES[cause]).collect();
        first_cause_counts(table, &[(&causes, set(plan.clone(), &windows, minute))]);
        windows.reverse();
        first_cause_counts(table, &[(&causes, set(plan, &windows, minute))]);
    }
}

#[test]
fn a_table_out_of_order_comes_first() {
    let mut rng = Rng::new(1);
    let mut disk = studio();
    for client in [11, 12, 23] {
        disk.request(client, 0, 20).unwrap();
    }
    let mut broken = Vec::new();
    for (clause, (name, _)) in CLAUSES.iter().enumerate() {
        let mut tries = (0..20).map(|_| damage::isolated(&mut rng, &disk.table, clause));
        let Some(damage) = tries.find_map(|damage| damage) else { continue };
        broken.push(*name);
        let mut world = world_of(&disk.table);
        for step in &damage {
            world.run(&mut Engine, step);
        }
        let cases: &Cases = &[
            (&[1], set(right(), &[], 0)),
            (&[1, 2], set(right(), &[], 10_080)),
            (&[1, 14], set(vec![], &[], 0)),
            (&[1, 17], set(right(), &[[0, 0, 9, 1]], 0)),
            (&[1, 2], set(right(), &[[32, 0, 9, 0]], 0)),
            (&[1, 7], set(right(), &[[31, 0, 9, 7001]], 0)),
            (&[1, 16], set(right(), &[[30, 0, 9, 1601]], 0)),
        ];
        first_cause_counts(world.table.inner(), cases);
    }
    // No node stands on level 4, where a class would be too low.
    assert_eq!(broken.len(), CLAUSES.len() - 1, "{broken:?}");
    for table in [vec![], disk.table[1..].to_vec(), [&disk.table[..], &[0]].concat()] {
        first_cause_counts(
            &table,
            &[(&[1], set(right(), &[], 0)), (&[1, 2], set(vec![], &[], -1))],
        );
    }
}

#[test]
fn the_limits_of_the_minute() {
    let table = studio().table;
    for minute in [0, 1, 10_078, 10_079] {
        first_cause_counts(&table, &[(&[], set(right(), &[[31, 0, 10_080, 1]], minute))]);
    }
    for minute in [i64::MIN, -10_080, -1, 10_080, 10_081, 1 << 32, i64::MAX] {
        let cases: &Cases = &[
            (&[2], set(right(), &[], minute)),
            (&[2, 14], set(vec![], &[], minute)),
            (&[2, 15], set(bytes(&swapped(0, 1)), &[], minute)),
            (&[2, 17], set(right(), &[[0, 0, 9, 1]], minute)),
        ];
        first_cause_counts(&table, cases);
    }
}

#[test]
fn the_plans_own_causes_come_before_17() {
    let table = studio().table;
    // As they are, and of another disk, which would be 17.
    let other_disk = |plan: Plan| Plan { rate: 2001, depth: 201, ..plan };
    let no_disk = bytes(&Plan { rate: 0, ..plan() });
    first_cause_counts(&table, &[(&[2, 17], set(no_disk, &[], 5))]);
    for (number, plan) in [
        (2, with(32, |new| new.share = 0)),
        (2, with(31, |new| new.share = 10_001)),
        (3, with(11, |new| new.parent = 9)),
        (4, with(32, |new| new.node = 31)),
        (5, with(11, |new| new.parent = 30)),
        (7, with(31, |new| new.share = 7001)),
        (8, with(13, |new| new.depth = 21)),
        (16, with(30, |new| new.share = 1602)),
        (16, with(13, |new| new.kind = STATED)),
        (15, swapped(3, 4)),
        (15, swapped(8, 9)),
        // Client 23 before its class.
        (3, swapped(9, 10)),
    ] {
        for plan in [bytes(&plan), bytes(&other_disk(plan.clone()))] {
            let cases: &Cases = &[
                (&[number], set(plan.clone(), &[], 5)),
                (&[number, 17], set(plan.clone(), &[[13, 5, 5, 6]], 5)),
                (&[number, 17], set(plan.clone(), &[[40, 0, 9, 6]], 5)),
                (&[number, 17], set(plan.clone(), &[[13, 0, 9, 6], [13, 8, 9, 6]], 5)),
                (&[number, 2], set(plan.clone(), &[[32, 0, 9, 0]], 5)),
                (&[number, 7], set(plan.clone(), &[[12, 0, 9, 6001]], 5)),
                (&[2, number], set(plan.clone(), &[], 10_080)),
            ];
            first_cause_counts(&table, cases);
        }
    }
    for plan in [vec![], cut(), [right(), vec![0]].concat(), right()[4..].to_vec()] {
        let cases: &Cases = &[
            (&[14], set(plan.clone(), &[], 5)),
            (&[14, 17], set(plan.clone(), &[[0, 0, 9, 1]], 5)),
            (&[14, 17], Call::SetMinute { plan, windows: vec![1; 7], minute: 5 }),
        ];
        first_cause_counts(&table, cases);
    }
}

#[test]
fn a_table_that_is_not_the_plans() {
    let table = studio().table;
    let mut more = plan();
    more.nodes.insert(5, client(33, 0, WEIGHTED, 1, 1));
    // Class 10 has depth for 12 more.
    for plan in [
        Plan { rate: 2001, ..plan() },
        Plan { rate: 1999, ..plan() },
        Plan { depth: 201, ..plan() },
        Plan { depth: 199, ..plan() },
        with(32, |new| new.depth = 7),
        with(32, |new| new.depth = 9),
        with(10, |new| new.depth = 99),
        with(23, |new| new.depth = 29),
        with(32, |new| new.sort = CLASS),
        with(23, |new| new.sort = CLASS),
        with(13, |new| (new.parent, new.node) = (10, 14)),
        with(32, |new| new.node = 33),
        without(32),
        without(23),
        without(31),
        more,
        Plan { nodes: vec![], ..plan() },
    ] {
        assert_eq!(Engine.plan_check(&bytes(&plan)), 0);
        let cases: &Cases = &[
            (&[17], set(bytes(&plan), &[], 5)),
            (&[17], set(bytes(&plan), &[[11, 0, 9, 1]], 10_079)),
            (&[17, 2], set(bytes(&plan), &[[11, 0, 9, 0]], 5)),
            (&[17, 7], set(bytes(&plan), &[[12, 0, 9, 6001]], 5)),
        ];
        first_cause_counts(&table, cases);
    }
    // Another parent alone: client 32 stands in class 10, and then client 13 under the root.
    for (node, parent) in [(32, 10), (13, 0)] {
        let mut moved = with(node, |new| new.parent = parent);
        moved.nodes.sort_by_key(|new| {
            let level = match new.parent {
                0 => 1,
                22 => 3,
                _ => 2,
            };
            (level, new.node)
        });
        assert_eq!(Engine.plan_check(&bytes(&moved)), 0);
        first_cause_counts(&table, &[(&[17], set(bytes(&moved), &[], 5))]);
        // The table in its place, and the plan as it was.
        let mut disk = studio();
        disk.leave(node).unwrap();
        let new = moved.nodes.iter().find(|new| new.node == node).unwrap();
        disk.join(*new).unwrap();
        first_cause_counts(&disk.table, &[(&[17], set(right(), &[], 5))]);
        first_cause_counts(&disk.table, &[(&[], set(bytes(&moved), &[], 5))]);
    }
}

#[test]
fn what_is_not_compared() {
    // Kinds, shares, ports, balances, waiting requests and the header's count.
    let mut disk = studio();
    disk.change_share(32, FIXED, 1).unwrap();
    disk.change_share(13, FIXED, 1).unwrap();
    disk.poke(32, PORT, 1);
    disk.request(32, 5, 1).unwrap();
    disk.request(23, 5, 1).unwrap();
    disk.tick_on_ports();
    disk.table[ACCEPTED] = MAX_ACCEPTED;
    let before = disk.table.clone();
    assert_eq!(disk.set_minute(&right(), &[], 5), Ok(0));
    assert_eq!(rates(&mut disk), RATES);
    for (place, (now, then)) in disk.table.iter().zip(&before).enumerate() {
        let of_record = (place >= 8).then(|| (place - 8) % 40);
        assert!(now == then || matches!(of_record, Some(3 | 4 | 6)), "place {place}");
    }
}

#[test]
fn a_list_that_is_not_whole_windows() {
    let table = studio().table;
    let list = [[31, 100, 200, 7000], [32, 0, 9, 5]].concat();
    for len in 0..=8 {
        let windows = list[..len].to_vec();
        let causes: &[i64] = if len % 4 == 0 { &[] } else { &[17] };
        first_cause_counts(
            &table,
            &[(causes, Call::SetMinute { plan: right(), windows, minute: 5 })],
        );
    }
    // Before 2 for a share.
    let windows = vec![32, 0, 9, 0, 1];
    first_cause_counts(
        &table,
        &[(&[17, 2], Call::SetMinute { plan: right(), windows, minute: 5 })],
    );
}

#[test]
fn bad_windows() {
    let table = studio().table;
    let bad = [
        [31, 5, 5, 1],
        [31, 0, 0, 1],
        [31, 10_080, 10_080, 1],
        [31, 6, 5, 1],
        [31, -1, 5, 1],
        [31, -5, -1, 1],
        [31, 0, 10_081, 1],
        [31, 10_080, 10_081, 1],
        [31, i64::MIN, i64::MAX, 1],
        [31, i64::MAX, i64::MIN, 1],
        [0, 0, 9, 1],
        [0, 0, 9, 10_000],
        [1, 0, 9, 1],
        [33, 0, 9, 1],
        [63, 0, 9, 1],
        [64, 0, 9, 1],
        [-1, 0, 9, 1],
        [i64::MIN, 0, 9, 1],
        [i64::MAX, 0, 9, 1],
        [256 + 31, 0, 9, 1],
    ];
    for window in bad {
        let [node, start, end, _] = window;
        let cases: &Cases = &[
            (&[17], set(right(), &[window], 5)),
            (&[17], set(right(), &[[32, 0, 9, 1], window], 5)),
            (&[17], set(right(), &[window, [32, 0, 9, 1]], 5)),
            (&[17, 2], set(right(), &[[32, 0, 9, 0], window], 5)),
            (&[17, 2], set(right(), &[[node, start, end, 0]], 5)),
            (&[17, 7], set(right(), &[[12, 0, 9, 6001], window], 5)),
            (&[17, 16], set(right(), &[[30, 0, 9, 1601], window], 5)),
        ];
        first_cause_counts(&table, cases);
    }
    for window in [[31, 0, 1, 1], [31, 10_079, 10_080, 1], [31, 0, 10_080, 1], [10, 5, 6, 1]] {
        first_cause_counts(&table, &[(&[], set(right(), &[window], 5))]);
    }
}

#[test]
fn windows_of_one_node_that_overlap() {
    let table = studio().table;
    let of = |node: i64, (start, end): (i64, i64)| [node, start, end, 1];
    for (one, other, overlap) in [
        ((0, 5), (5, 9), false),
        ((0, 5), (4, 9), true),
        ((0, 5), (6, 9), false),
        ((0, 5), (0, 5), true),
        ((0, 9), (4, 5), true),
        ((0, 9), (8, 9), true),
        ((0, 9), (0, 1), true),
        ((3, 4), (3, 4), true),
        ((3, 4), (4, 5), false),
        ((0, 10_080), (10_079, 10_080), true),
        ((0, 10_079), (10_079, 10_080), false),
    ] {
        let causes: &[i64] = if overlap { &[17] } else { &[] };
        let (first, second) = (of(31, one), of(31, other));
        let between = [of(11, (0, 10_080)), of(32, (2, 7)), of(13, one)];
        for windows in [
            vec![first, second],
            vec![second, first],
            [&[first][..], &between, &[second]].concat(),
            [&[second][..], &between, &[first]].concat(),
        ] {
            first_cause_counts(&table, &[(causes, set(right(), &windows, 5))]);
        }
        // Of two nodes.
        first_cause_counts(&table, &[(&[], set(right(), &[first, of(13, other)], 5))]);
    }
}

#[test]
fn the_limits_of_a_windows_share_go_by_the_plans_kind() {
    let table = studio().table;
    let at = |node: i64, share: i64| set(right(), &[[node, 700, 800, share]], 5);
    for (node, most) in [(10, 4000), (31, 7000), (11, 5000), (12, 6000)] {
        let cases: &Cases = &[
            (&[], at(node, 1)),
            (&[], at(node, most)),
            (&[7], at(node, most + 1)),
            (&[7], at(node, 10_000)),
            (&[2, 7], at(node, 10_001)),
            (&[2], at(node, 0)),
            (&[2], at(node, i64::MIN)),
        ];
        first_cause_counts(&table, cases);
    }
    for node in [13, 21, 22, 23, 32] {
        let cases: &Cases = &[
            (&[], at(node, 1)),
            (&[], at(node, 10_000)),
            (&[2], at(node, 10_001)),
            (&[2], at(node, 0)),
        ];
        first_cause_counts(&table, cases);
    }
    for (node, most) in [(20, 1400), (30, 1600)] {
        let cases: &Cases = &[
            (&[], at(node, 1)),
            (&[], at(node, most)),
            (&[16], at(node, most + 1)),
            (&[16], at(node, 10_001)),
            (&[16], at(node, 1_000_000_000)),
            (&[2, 16], at(node, 1_000_000_001)),
            (&[2], at(node, 0)),
            (&[2], at(node, -1)),
        ];
        first_cause_counts(&table, cases);
    }
    // Client 30 is weighted in the plan, and stated in the table; and the other way round.
    let weighted = bytes(&with(30, |new| (new.kind, new.share) = (WEIGHTED, 1)));
    let of_30 = |plan: &Vec<u8>, share: i64| set(plan.clone(), &[[30, 0, 9, share]], 50);
    let cases: &Cases = &[
        (&[], of_30(&weighted, 10_000)),
        (&[2], of_30(&weighted, 10_001)),
        (&[], of_30(&right(), 1600)),
        (&[16], of_30(&right(), 10_001)),
    ];
    first_cause_counts(&table, cases);
    let mut disk = studio();
    disk.change_share(30, WEIGHTED, 1).unwrap();
    first_cause_counts(&disk.table, cases);
    disk.change_share(30, FIXED, 1).unwrap();
    first_cause_counts(&disk.table, cases);
}

#[test]
fn shares_are_judged_at_every_minute() {
    let table = studio().table;
    for minute in [0, 99, 100, 150, 199, 200, 201, 10_079] {
        // Client 31 has 1000 for a while, and class 10 may have 9000 then; class 20 has 100,
        // and client 30 may have 1900; client 11 has 1, and client 12 may have 9999.
        for (number, node, less, other, more) in
            [(7, 31, 1000, 10, 9000), (16, 20, 100, 30, 1900), (7, 11, 1, 12, 9999)]
        {
            let low = [node, 100, 200, less];
            let at = |start, end| set(right(), &[low, [other, start, end, more]], minute);
            let too_much = set(right(), &[low, [other, 100, 200, more + 1]], minute);
            let causes = [number];
            let cases: &Cases = &[
                (&[], at(100, 200)),
                (&[], at(101, 199)),
                (&[], at(199, 200)),
                (&causes, at(99, 200)),
                (&causes, at(99, 101)),
                (&causes, at(100, 201)),
                (&causes, at(199, 201)),
                (&causes, at(200, 201)),
                (&causes, at(99, 100)),
                (&causes, at(0, 1)),
                (&causes, at(10_079, 10_080)),
                (&causes, at(0, 10_080)),
                (&causes, too_much),
            ];
            first_cause_counts(&table, cases);
        }
    }
}

#[test]
fn seven_at_any_minute_comes_before_16_at_any() {
    let table = studio().table;
    let slots = [(0, 10), (5, 15), (10, 20), (10_000, 10_080)];
    for (fixed, stated) in slots.into_iter().flat_map(|one| slots.map(|other| (one, other))) {
        let fixed = [31, fixed.0, fixed.1, 7001];
        let stated = [30, stated.0, stated.1, 1601];
        for minute in [0, 7, 15, 10_079] {
            let cases: &Cases = &[
                (&[7, 16], set(right(), &[fixed, stated], minute)),
                (&[7, 16], set(right(), &[stated, fixed], minute)),
                (&[16], set(right(), &[stated], minute)),
                (&[7], set(right(), &[fixed], minute)),
                (&[2, 7, 16], set(right(), &[stated, fixed, [32, 0, 1, 0]], minute)),
            ];
            first_cause_counts(&table, cases);
        }
    }
}

/// A set minute from the words of document 02, by a list of the shares of every minute. Gives
/// the table that it leaves.
fn plainly(table: &[i64], plan: &[u8], list: &[i64], minute: i64) -> Answer<Vec<i64>> {
    let place = |node: i64, place: usize| 8 + 40 * node as usize + place;
    if !in_order(table) {
        return Err(1);
    }
    if !(0..=10_079).contains(&minute) {
        return Err(2);
    }
    let mut planned = vec![0; 2568];
    Engine.plan_read(plan, &mut planned)?;
    // Sorts (0 of a node that is not there), parents, depths and the disk's rate.
    let places = (0..64).flat_map(|node| [0, 1, 5].map(|at| place(node, at))).chain([place(0, 6)]);
    let differs = places.into_iter().any(|at| table[at] != planned[at]);
    if differs || !list.len().is_multiple_of(4) {
        return Err(17);
    }
    let windows: Vec<&[i64]> = list.chunks(4).collect();
    let mut week: BTreeMap<i64, Vec<Option<i64>>> = BTreeMap::new();
    for window in &windows {
        let [node, start, end, share] = [window[0], window[1], window[2], window[3]];
        let is_there = (1..=63).contains(&node) && planned[place(node, 0)] != 0;
        let are_good = 0 <= start && start < end && end <= 10_080;
        if !is_there || !are_good {
            return Err(17);
        }
        let own = week.entry(node).or_insert_with(|| vec![None; 10_080]);
        for at in start..end {
            if own[at as usize].replace(share).is_some() {
                return Err(17);
            }
        }
    }
    for window in &windows {
        let most = if planned[place(window[0], 3)] == 2 { 1_000_000_000 } else { 10_000 };
        if window[3] < 1 || window[3] > most {
            return Err(2);
        }
    }
    let shares = |minute: i64| -> Vec<i64> {
        let inside = |node: i64| week.get(&node).and_then(|own| own[minute as usize]);
        (0..64).map(|node| inside(node).unwrap_or(planned[place(node, 4)])).collect()
    };
    let (mut seven, mut sixteen) = (false, false);
    let mut last = Vec::new();
    for minute in 0..10_080 {
        let now = shares(minute);
        if now == last {
            continue;
        }
        let mut sums: BTreeMap<(i64, i64), i64> = BTreeMap::new();
        for node in (1..64).filter(|&node| planned[place(node, 0)] != 0) {
            let [parent, kind] = [1, 3].map(|at| planned[place(node, at)]);
            *sums.entry((parent, kind)).or_default() += now[node as usize];
        }
        let above =
            |kind: i64, most: i64| sums.iter().any(|(&key, &sum)| key.1 == kind && sum > most);
        let [fixed, stated] = [above(0, 10_000), above(2, planned[place(0, 6)])];
        // A plan with these shares is accepted where neither holds.
        let made = made_by(&planned, &now);
        assert_eq!(made.is_ok(), !fixed && !stated, "{made:?}");
        (seven, sixteen) = (seven || fixed, sixteen || stated);
        last = now;
    }
    if seven || sixteen {
        return Err(if seven { 7 } else { 16 });
    }
    let made = made_by(&planned, &shares(minute))?;
    let mut left = table.to_vec();
    for at in (1..64).flat_map(|node| [3, 4, 6].map(|at| place(node, at))) {
        left[at] = made[at];
    }
    Ok(left)
}

/// The table that the plan of another one makes with these shares.
fn made_by(planned: &[i64], shares: &[i64]) -> Answer<Vec<i64>> {
    let mut plan = Plan::of_table(planned);
    for new in &mut plan.nodes {
        new.share = shares[new.node as usize];
    }
    let mut made = vec![0; 2568];
    Engine.plan_read(&plan.encode(Edition::Second), &mut made)?;
    Ok(made)
}

/// The set minutes of some runs, each with the table before it.
fn met_in(profile: Profile, seeds: std::ops::Range<u64>) -> Vec<(Vec<i64>, Call)> {
    let mut met = Vec::new();
    for seed in seeds {
        let mut world = World::default();
        for step in run(seed, 400, profile) {
            if let Step::Call(call @ Call::SetMinute { .. }) = &step {
                met.push((world.table.inner().to_vec(), call.clone()));
            }
            world.run(&mut Engine, &step);
        }
    }
    met
}

/// All profiles, with how many runs are looked at.
const PROFILES: [(Profile, u64); 4] =
    [(Profile::Clean, 10), (Profile::Family, 25), (Profile::Tree, 10), (Profile::Wild, 25)];

#[test]
fn the_engine_does_what_the_words_say_minute_by_minute() {
    let mut counts: BTreeMap<i64, usize> = BTreeMap::new();
    for (profile, seeds) in PROFILES {
        for (table, call) in met_in(profile, 0..seeds) {
            let Call::SetMinute { plan, windows, minute } = &call else { continue };
            let plainly = plainly(&table, plan, windows, *minute);
            let mut world = world_of(&table);
            let reply = world.call(&mut Watched(Engine), &call);
            let number = plainly.as_ref().err().copied().unwrap_or(0);
            assert_eq!(refusal(&call, reply), number, "{call:?}");
            assert!(world.table.inner() == plainly.unwrap_or(table), "{call:?}");
            *counts.entry(number).or_default() += 1;
        }
    }
    for (number, least) in [(0, 300), (1, 10), (2, 50), (7, 10), (14, 20), (16, 10), (17, 80)] {
        assert!(counts.get(&number) >= Some(&least), "{number}: {counts:?}");
    }
}

/// The answer to a set minute and the table that it leaves.
fn left(table: &[i64], plan: &[u8], windows: &[i64], minute: i64) -> (Answer<i64>, Vec<i64>) {
    let mut table = table.to_vec();
    let answer = Engine.set_minute(&mut table, plan, windows, minute);
    (answer, table)
}

/// Minutes at and about the ends of windows, the ends of the week, and some others.
fn sample(rng: &mut Rng, windows: &[i64]) -> Vec<i64> {
    let mut minutes = vec![0, 10_079, rng.between(0, 10_079), rng.between(0, 10_079)];
    for window in windows.chunks_exact(4).take(4) {
        for end in [window[1], window[2]] {
            minutes.extend([end.saturating_sub(1), end]);
        }
    }
    minutes.retain(|minute| (0..10_080).contains(minute));
    minutes
}

#[test]
fn what_is_accepted_at_one_minute_is_accepted_at_all() {
    let mut rng = Rng::new(4);
    let (mut accepted, mut refused) = (0, 0);
    for (profile, seeds) in PROFILES {
        for (table, call) in met_in(profile, 30..30 + seeds / 2) {
            let Call::SetMinute { plan, windows, minute } = &call else { continue };
            if !(0..10_080).contains(minute) {
                continue;
            }
            let (answer, after) = left(&table, plan, windows, *minute);
            for other in sample(&mut rng, windows) {
                let (again, alone) = left(&table, plan, windows, other);
                assert_eq!(again, answer, "{call:?} at {other}");
                // On the table that was left, too, and the first minute leaves no trace.
                assert_eq!(
                    left(&after, plan, windows, other),
                    (answer, alone),
                    "{call:?} at {other}"
                );
            }
            accepted += usize::from(answer.is_ok());
            refused += usize::from(answer.is_err());
        }
    }
    assert!(accepted > 150 && refused > 100, "{accepted}, {refused}");
}

#[test]
fn the_order_of_the_windows_does_not_matter() {
    let mut rng = Rng::new(5);
    let mut several = 0;
    for (profile, seeds) in PROFILES {
        for (table, call) in met_in(profile, 50..50 + seeds / 2) {
            let Call::SetMinute { plan, windows, minute } = &call else { continue };
            if !windows.len().is_multiple_of(4) {
                continue;
            }
            let mut list: Vec<&[i64]> = windows.chunks(4).collect();
            let given = left(&table, plan, windows, *minute);
            for _ in 0..3 {
                for place in (1..list.len()).rev() {
                    list.swap(place, rng.below(place + 1));
                }
                assert_eq!(left(&table, plan, &list.concat(), *minute), given, "{call:?}");
            }
            several += usize::from(list.len() > 1);
        }
    }
    assert!(several > 100, "{several}");
}

#[test]
fn a_window_is_the_two_that_it_is_divided_into() {
    let mut rng = Rng::new(6);
    let mut divided = 0;
    for (profile, seeds) in PROFILES {
        for (table, call) in met_in(profile, 70..70 + seeds / 2) {
            let Call::SetMinute { plan, windows, minute } = &call else { continue };
            let given = left(&table, plan, windows, *minute);
            let whole = windows.len() / 4;
            let Some(place) = (0..whole).map(|place| 4 * place).find(|&place| {
                let [start, end] = [windows[place + 1], windows[place + 2]];
                0 <= start && start < end && end <= 10_080 && end - start > 1
            }) else {
                continue;
            };
            let [node, start, end, share] = [0, 1, 2, 3].map(|at| windows[place + at]);
            let between = rng.between(start + 1, end - 1);
            let mut list = windows.clone();
            list[place + 2] = between;
            list.splice(0..0, [node, between, end, share]);
            assert_eq!(left(&table, plan, &list, *minute), given, "{call:?} at {between}");
            divided += 1;
        }
    }
    assert!(divided > 100, "{divided}");
}

#[test]
fn windows_as_numbers_and_back() {
    let list = [31, 5, 9, 7, 0, -1, i64::MAX, 2, 4, 4];
    let windows = Window::whole_ones(&list);
    assert_eq!(windows.len(), 2);
    assert_eq!(windows[1], Window { node: 0, start: -1, end: i64::MAX, share: 2 });
    let numbers: Vec<i64> = windows.iter().flat_map(Window::numbers).collect();
    assert_eq!(numbers, list[..8]);
    assert_eq!([4, 5, 8, 9].map(|minute| windows[0].covers(minute)), [false, true, true, false]);
    assert!(windows[0].has_good_minutes() && !windows[1].has_good_minutes());
}

/// What the set minutes of a run met, by name.
type Met = BTreeMap<&'static str, usize>;

/// Counts what a set minute met, given the table before it and the answer, 0 for an accepted
/// one.
fn count(met: &mut Met, table: &[i64], call: &Call, answer: i64) {
    let Call::SetMinute { plan, windows, minute } = call else { return };
    let mut count = |name, holds| *met.entry(name).or_default() += usize::from(holds);
    let accepted = answer == 0;
    let chunks: Vec<&[i64]> = windows.chunks(4).collect();
    let any =
        |holds: &dyn Fn(&[i64]) -> bool| accepted && chunks.iter().any(|window| holds(window));
    count("no windows", accepted && windows.is_empty());
    count("several windows", accepted && chunks.len() > 1);
    count("minute at a start", any(&|window| *minute == window[1]));
    count("minute before a start", any(&|window| *minute == window[1] - 1));
    count("minute at an end", any(&|window| *minute == window[2]));
    count("minute before an end", any(&|window| *minute == window[2] - 1));
    count("first minute in a window", any(&|window| *minute == 0 && window[1] == 0));
    count("last minute in a window", any(&|window| *minute == 10_079 && window[2] == 10_080));
    count("whole week", any(&|window| window[1] == 0 && window[2] == 10_080));
    count("one minute", any(&|window| window[1] + 1 == window[2]));
    let touch =
        |window: &[i64]| chunks.iter().any(|other| other[0] == window[0] && other[1] == window[2]);
    count("windows that touch", any(&touch));
    count("first edition", accepted && !plan.starts_with(&[0xFF; 4]));
    count("second edition", accepted && plan.starts_with(&[0xFF; 4]));
    if let (true, Ok(plan)) = (accepted, Plan::decode(plan)) {
        let own = |new: &NewNode, place: usize| get(table, new.node as usize, place);
        let differs = |place: usize, of_plan: fn(&NewNode) -> i64| {
            plan.nodes.iter().any(|new| own(new, place) != of_plan(new))
        };
        count("other kinds", differs(KIND, |new| new.kind));
        count("other shares", differs(SHARE, |new| new.share));
        count("client on port 1", differs(PORT, |_| 0));
        count("balances", differs(BALANCE, |_| 0));
        count("waiting requests", differs(WAITING, |_| 0));
        let of_kind =
            |node: i64| plan.nodes.iter().find(|new| new.node == node).map(|new| new.kind);
        count("window of a stated node", any(&|window| of_kind(window[0]) == Some(STATED)));
        count("window of a fixed node", any(&|window| of_kind(window[0]) == Some(FIXED)));
        count("window of a weight", any(&|window| of_kind(window[0]) == Some(WEIGHTED)));
    }
    for (name, number) in [
        ("refused with 2", 2),
        ("refused with 7", 7),
        ("refused with 14", 14),
        ("refused with 16", 16),
        ("refused with 17", 17),
    ] {
        count(name, answer == number);
    }
}

#[test]
fn runs_meet_timetables_in_every_way() {
    for (profile, least) in
        [(Profile::Clean, 10), (Profile::Family, 3), (Profile::Tree, 10), (Profile::Wild, 3)]
    {
        let mut met = Met::new();
        let mut all = 0;
        for (table, call) in met_in(profile, 0..100) {
            let reply = world_of(&table).call(&mut Engine, &call);
            count(&mut met, &table, &call, refusal(&call, reply));
            all += 1;
        }
        // No client asks where the tree changes at almost every call.
        if profile == Profile::Tree {
            assert_eq!(met.remove("waiting requests"), Some(0));
        }
        assert!(met.values().all(|&count| count >= least), "{profile:?}, {all}: {met:?}");
    }
}

/// A place of the table and what stands there: node, place, value.
type Write = (usize, usize, i64);

/// A misreading, a table, a set minute, the right answer and the wrong one, and what the table
/// that is left has by the misreading instead.
type Misread = (Hours, Vec<i64>, Call, Answer<i64>, Answer<i64>, Vec<Write>);

/// The studio with something done to it.
fn after(act: impl FnOnce(&mut Disk)) -> Vec<i64> {
    let mut disk = studio();
    act(&mut disk);
    disk.table
}

/// Misreadings of windows: which are good, what they cover, and of what nodes they are.
fn misread_windows() -> Vec<Misread> {
    let at = |windows: &[[i64; 4]], minute: i64| set(right(), windows, minute);
    let ones =
        |windows: &[i64]| Call::SetMinute { plan: right(), windows: windows.to_vec(), minute: 5 };
    // Client 31 with 7000, and with 6000.
    let seven = vec![(31, SHARE, 7000), (31, RATE, 700), (32, RATE, 0)];
    let six = vec![(31, SHARE, 6000), (31, RATE, 600), (32, RATE, 100)];
    let all = vec![
        (Hours::EndIncluded, at(&[[31, 100, 200, 7000]], 200), Ok(0), Ok(0), seven.clone()),
        (Hours::StartExcluded, at(&[[31, 100, 200, 7000]], 100), Ok(0), Ok(0), six),
        (Hours::LastMinuteAccepted, at(&[], 10_080), Err(2), Ok(0), vec![]),
        (Hours::LastMinuteAccepted, at(&[], 10_081), Err(2), Err(2), vec![]),
        (Hours::EndOfWeekRefused, at(&[[31, 0, 10_080, 1]], 5), Ok(0), Err(17), vec![]),
        (Hours::EmptyAccepted, at(&[[31, 5, 5, 1]], 5), Err(17), Ok(0), vec![]),
        (Hours::EmptyAccepted, at(&[[31, 6, 5, 1]], 5), Err(17), Err(17), vec![]),
        (Hours::WrapsAround, at(&[[31, 9000, 9, 7000]], 5), Err(17), Ok(0), seven.clone()),
        (Hours::WrapsAround, at(&[[31, 9000, 9, 7000]], 9), Err(17), Ok(0), vec![]),
        (Hours::WrapsAround, at(&[[31, 9, 9, 7000]], 9), Err(17), Err(17), vec![]),
        (Hours::MinutesAreTwo, at(&[[31, 5, 5, 1]], 5), Err(17), Err(2), vec![]),
        (Hours::NotWholeAccepted, ones(&[31, 9, 18, 1, 31]), Err(17), Ok(0), vec![]),
        (Hours::NotWholeAccepted, ones(&[0, 0, 1]), Err(17), Ok(0), vec![]),
        (Hours::RootAccepted, at(&[[0, 0, 9, 1]], 5), Err(17), Ok(0), vec![]),
        (Hours::RootAccepted, at(&[[40, 0, 9, 1]], 5), Err(17), Err(17), vec![]),
        (Hours::RootIsFive, at(&[[0, 0, 9, 1]], 5), Err(17), Err(5), vec![]),
        (Hours::AbsentAccepted, at(&[[40, 0, 9, 1]], 5), Err(17), Ok(0), vec![]),
        (Hours::AbsentAccepted, at(&[[64, 0, 9, 1]], 5), Err(17), Ok(0), vec![]),
        (Hours::AbsentAccepted, at(&[[0, 0, 9, 1]], 5), Err(17), Err(17), vec![]),
        (Hours::AbsentIsThree, at(&[[40, 0, 9, 1]], 5), Err(17), Err(3), vec![]),
        (Hours::OutsideIsTwo, at(&[[64, 0, 9, 1]], 5), Err(17), Err(2), vec![]),
        (Hours::OutsideIsTwo, at(&[[40, 0, 9, 1]], 5), Err(17), Err(17), vec![]),
        (Hours::TouchingOverlap, at(&[[31, 6, 7, 1], [31, 7, 8, 1]], 5), Ok(0), Err(17), vec![]),
        (Hours::TouchingOverlap, at(&[[31, 6, 7, 1], [31, 8, 9, 1]], 5), Ok(0), Ok(0), vec![]),
        // The first one counts.
        (Hours::OverlapAllowed, at(&[[31, 0, 9, 7000], [31, 5, 6, 1]], 5), Err(17), Ok(0), seven),
        (Hours::OverlapAcross, at(&[[31, 6, 9, 1], [32, 8, 9, 1]], 5), Ok(0), Err(17), vec![]),
        (Hours::OverlapAcross, at(&[[31, 6, 8, 1], [32, 8, 9, 1]], 5), Ok(0), Ok(0), vec![]),
        (
            Hours::NeighboursOnly,
            at(&[[31, 6, 9, 1], [32, 6, 9, 1], [31, 8, 10, 1]], 5),
            Err(17),
            Ok(0),
            vec![],
        ),
        (Hours::NeighboursOnly, at(&[[31, 6, 9, 1], [31, 8, 10, 1]], 5), Err(17), Err(17), vec![]),
    ];
    let of_studio =
        |(wrong, call, right, answer, writes)| (wrong, studio().table, call, right, answer, writes);
    all.into_iter().map(of_studio).collect()
}

/// Misreadings of what is compared with the plan. At minute 5 the plan's shares are the
/// table's.
fn misread_comparison() -> Vec<Misread> {
    let of = |plan: Plan| set(bytes(&plan), &[], 5);
    let mut more = plan();
    more.nodes.insert(5, client(33, 0, WEIGHTED, 1, 1));
    let mut moved = with(32, |new| new.parent = 10);
    moved.nodes[4..10].rotate_left(1);
    let table = || studio().table;
    let differs = |wrong, plan| (wrong, table(), of(plan), Err(17), Ok(0), vec![]);
    let same = |wrong, table| (wrong, table, of(plan()), Ok(0), Err(17), vec![]);
    let waiting = after(|disk| assert_eq!(disk.request(32, 7, 1), Ok(1)));
    vec![
        differs(Hours::DepthsIgnored, with(32, |new| new.depth = 7)),
        (
            Hours::DepthsIgnored,
            table(),
            of(Plan { depth: 201, ..plan() }),
            Err(17),
            Err(17),
            vec![],
        ),
        differs(Hours::RootDepthIgnored, Plan { depth: 201, ..plan() }),
        differs(Hours::SortsIgnored, with(32, |new| new.sort = CLASS)),
        differs(Hours::ParentsIgnored, moved),
        differs(Hours::DiskRateIgnored, Plan { rate: 2001, ..plan() }),
        differs(Hours::MoreInTable, without(32)),
        (Hours::MoreInTable, table(), of(more.clone()), Err(17), Err(17), vec![]),
        differs(Hours::MoreInPlan, more),
        (Hours::MoreInPlan, table(), of(without(32)), Err(17), Err(17), vec![]),
        same(Hours::PortsCompared, after(|disk| disk.poke(32, PORT, 1))),
        same(
            Hours::KindsCompared,
            after(|disk| disk.change_share(32, FIXED, 1).map(drop).unwrap()),
        ),
        same(
            Hours::SharesCompared,
            after(|disk| disk.change_share(32, WEIGHTED, 2).map(drop).unwrap()),
        ),
        same(Hours::BalancesCompared, after(|disk| assert!(disk.tick().is_empty()))),
        same(Hours::WaitingCompared, waiting),
    ]
}

/// Misreadings of the limits of shares, and of 7 and 16 through the week.
fn misread_shares() -> Vec<Misread> {
    let at = |windows: &[[i64; 4]]| set(right(), windows, 5);
    let stated = bytes(&with(32, |new| (new.kind, new.share) = (STATED, 1)));
    let of_stated = set(stated, &[[32, 100, 200, 10_001]], 5);
    let all = vec![
        (Hours::LimitsByTable, of_stated, Err(16), Err(2)),
        (Hours::NarrowShares, at(&[[30, 100, 200, 10_001]]), Err(16), Err(2)),
        (Hours::WideShares, at(&[[32, 100, 200, 10_001]]), Err(2), Ok(0)),
        (Hours::WideShares, at(&[[31, 100, 200, 10_001]]), Err(2), Err(7)),
        (Hours::ZeroShare, at(&[[32, 100, 200, 0]]), Err(2), Ok(0)),
        (Hours::ZeroShare, at(&[[32, 100, 200, -1]]), Err(2), Err(2)),
        (Hours::ShareIsSeventeen, at(&[[32, 100, 200, 0]]), Err(2), Err(17)),
        (Hours::FixedHereOnly, at(&[[31, 100, 200, 7001]]), Err(7), Ok(0)),
        (Hours::FixedHereOnly, at(&[[31, 5, 6, 7001]]), Err(7), Err(7)),
        (Hours::FixedHereOnly, at(&[[30, 100, 200, 1601]]), Err(16), Err(16)),
        (Hours::StatedHereOnly, at(&[[30, 100, 200, 1601]]), Err(16), Ok(0)),
        (Hours::StatedHereOnly, at(&[[31, 100, 200, 7001]]), Err(7), Err(7)),
        // At minute 100 client 31 has 6000 again, beside 5000.
        (Hours::StartsOnly, at(&[[31, 6, 100, 1], [10, 50, 150, 5000]]), Err(7), Ok(0)),
        (Hours::OneAtATime, at(&[[31, 6, 9, 1000], [10, 6, 9, 9000]]), Ok(0), Err(7)),
        (Hours::OneAtATime, at(&[[31, 6, 9, 6500], [10, 6, 9, 3600]]), Err(7), Ok(0)),
        (Hours::PlanCounted, at(&[[31, 6, 9, 1001]]), Ok(0), Err(7)),
        (Hours::PlanCounted, at(&[[31, 6, 9, 1000]]), Ok(0), Ok(0)),
        (Hours::FixedUnderRoot, at(&[[11, 6, 9, 5001]]), Err(7), Ok(0)),
        (Hours::FixedUnderRoot, at(&[[10, 6, 9, 4001]]), Err(7), Err(7)),
        (Hours::WeightsCounted, at(&[[32, 6, 9, 1001]]), Ok(0), Err(7)),
        (Hours::WeightsCounted, at(&[[32, 6, 9, 1000]]), Ok(0), Ok(0)),
        (Hours::FixedAtLeast, at(&[[31, 6, 9, 7000]]), Ok(0), Err(7)),
        (Hours::StatedAtLeast, at(&[[30, 6, 9, 1600]]), Ok(0), Err(16)),
        (Hours::EarlierMinute, at(&[[31, 100, 200, 7001], [30, 6, 9, 1601]]), Err(7), Err(16)),
        (Hours::EarlierMinute, at(&[[31, 6, 9, 7001], [30, 6, 9, 1601]]), Err(7), Err(7)),
    ];
    let of_studio =
        |(wrong, call, right, answer)| (wrong, studio().table, call, right, answer, vec![]);
    all.into_iter().map(of_studio).collect()
}

/// Misreadings of the order of causes, and of what the plan's own are.
fn misread_order() -> Vec<Misread> {
    let other_disk = Plan { rate: 2001, ..swapped(0, 1) };
    let bad_share = [32, 6, 9, 0];
    let absent = [40, 6, 9, 1];
    let fixed = [31, 100, 200, 7001];
    let stated = [30, 6, 9, 1601];
    let all = vec![
        (Hours::PlanBeforeMinute, set(cut(), &[], -1), Err(2), Err(14)),
        (Hours::WindowsBeforePlan, set(cut(), &[absent], 5), Err(14), Err(17)),
        (Hours::WindowsBeforePlan, set(bytes(&other_disk), &[], 5), Err(15), Err(15)),
        (Hours::TimetableBeforePlan, set(bytes(&other_disk), &[], 5), Err(15), Err(17)),
        (Hours::TimetableBeforePlan, set(bytes(&swapped(0, 1)), &[absent], 5), Err(15), Err(17)),
        (Hours::TimetableBeforePlan, set(cut(), &[absent], 5), Err(14), Err(14)),
        (Hours::ShareBeforeTimetable, set(right(), &[absent, bad_share], 5), Err(17), Err(2)),
        (Hours::FirstWindow, set(right(), &[bad_share, absent], 5), Err(17), Err(2)),
        (Hours::FirstWindow, set(right(), &[absent, bad_share], 5), Err(17), Err(17)),
        (Hours::FixedBeforeShare, set(right(), &[bad_share, fixed], 5), Err(2), Err(7)),
        (Hours::FixedBeforeShare, set(right(), &[bad_share, stated], 5), Err(2), Err(2)),
        (Hours::StatedBeforeFixed, set(right(), &[fixed, stated], 5), Err(7), Err(16)),
        (Hours::PlanIsSeventeen, set(cut(), &[], 5), Err(14), Err(17)),
        (Hours::PlanIsSeventeen, set(bytes(&swapped(0, 1)), &[], 5), Err(15), Err(17)),
        (Hours::AnyOrder, set(bytes(&swapped(0, 1)), &[], 5), Err(15), Ok(0)),
        (Hours::AnyOrder, set(bytes(&swapped(9, 10)), &[], 5), Err(3), Err(3)),
        (Hours::FirstEditionOnly, set(right(), &[], 5), Ok(0), Err(14)),
    ];
    let of_studio =
        |(wrong, call, right, answer)| (wrong, studio().table, call, right, answer, vec![]);
    let mut all: Vec<Misread> = all.into_iter().map(of_studio).collect();
    let damaged = after(|disk| disk.poke(63, PORT, 1));
    let both = set(right(), &[], 10_080);
    all.push((Hours::MinuteBeforeTable, damaged, both, Err(1), Err(2), vec![]));
    all
}

/// Misreadings of what is written.
fn misread_writing() -> Vec<Misread> {
    let fixed = || set(bytes(&with(32, |new| (new.kind, new.share) = (FIXED, 1000))), &[], 5);
    let heavy = set(bytes(&with(32, |new| new.share = 7)), &[], 5);
    let in_window = |node: i64, share: i64| set(right(), &[[node, 0, 9, share]], 5);
    let table = || studio().table;
    // After a tick every balance is the rate.
    let ticked = after(|disk| assert!(disk.tick().is_empty()));
    let emptied = RATES.map(|(node, _)| (node as usize, BALANCE, 0)).to_vec();
    let waiting = after(|disk| assert_eq!(disk.request(32, 7, 1), Ok(1)));
    let dropped = [WAITING, QUEUE, QUEUE + 1, QUEUE + 2].map(|place| (32, place, 0)).to_vec();
    let late = set(right(), &[[31, 0, 9, 7000], [30, 100, 200, 1601]], 5);
    let all = vec![
        // A weight of 1000 has what the other fixed shares leave, 100 as well.
        (Hours::KindKept, table(), fixed(), vec![(32, KIND, WEIGHTED)]),
        (Hours::ShareKept, table(), heavy, vec![(32, SHARE, 1)]),
        (Hours::OutsideKept, table(), fixed(), vec![(32, KIND, WEIGHTED), (32, SHARE, 1)]),
        (Hours::RatesKept, table(), in_window(31, 7000), vec![(31, RATE, 600), (32, RATE, 100)]),
        (
            Hours::ChildrenOnly,
            table(),
            in_window(10, 4000),
            vec![(11, RATE, 120), (12, RATE, 150), (13, RATE, 30)],
        ),
        (Hours::BalancesEmptied, ticked, in_window(31, 1), emptied),
        (
            Hours::PortsReset,
            after(|disk| disk.poke(32, PORT, 1)),
            in_window(31, 1),
            vec![(32, PORT, 0)],
        ),
        (Hours::RequestsDropped, waiting, in_window(31, 1), dropped),
    ];
    let accepted = |(wrong, table, call, writes)| (wrong, table, call, Ok(0), Ok(0), writes);
    let mut all: Vec<Misread> = all.into_iter().map(accepted).collect();
    let seven = vec![(31, SHARE, 7000), (31, RATE, 700), (32, RATE, 0)];
    all.push((Hours::WrittenFirst, table(), late, Err(16), Err(16), seven));
    all.push((Hours::AnswersMinute, table(), set(right(), &[], 5), Ok(0), Ok(5), vec![]));
    all
}

fn misreadings() -> Vec<Misread> {
    [misread_windows(), misread_comparison(), misread_shares(), misread_order(), misread_writing()]
        .concat()
}

#[test]
fn misreadings_give_their_wrong_answers_and_tables() {
    let made = |controller: &mut dyn Controller, table: &[i64], call: &Call| {
        let mut world = world_of(table);
        let answer = match world.call(controller, call) {
            Reply::Number(number) => Ok(number),
            Reply::Refused(number) => Err(number),
            other => panic!("{other:?}"),
        };
        (answer, world.table.inner().to_vec())
    };
    for (misreading, table, call, right, wrong, writes) in misreadings() {
        let (answer, mut expected) = made(&mut Engine, &table, &call);
        assert_eq!(answer, right, "{misreading:?} {call:?}");
        assert_eq!(made(&mut Faulty::new(Fault::None), &table, &call), (right, expected.clone()));
        if right.is_ok() && wrong.is_err() {
            // What is refused leaves the table.
            expected.clone_from(&table);
        }
        for &(node, place, value) in &writes {
            assert_ne!(expected[at(node, place)], value, "{misreading:?} {call:?}");
            expected[at(node, place)] = value;
        }
        let given = made(&mut Faulty::new(Fault::WrongHours(misreading)), &table, &call);
        assert_eq!(given.0, wrong, "{misreading:?} {call:?}");
        for (place, (given, expected)) in given.1.iter().zip(&expected).enumerate() {
            assert_eq!(given, expected, "{misreading:?} {call:?}: place {place}");
        }
    }
}

#[test]
fn every_misreading_is_worked_by_hand() {
    // Where right and wrong agree, the misreading is shown by another line.
    let shown: Vec<Hours> = misreadings()
        .into_iter()
        .filter(|(_, _, _, right, wrong, writes)| right != wrong || !writes.is_empty())
        .map(|(misreading, ..)| misreading)
        .collect();
    let mut count = 0;
    for fault in FAULTS {
        if let Fault::WrongHours(misreading) = fault {
            assert!(shown.contains(&misreading), "{misreading:?}");
            count += 1;
        }
    }
    assert_eq!(count, 65);
}

#[test]
fn few_runs_tell_every_misreading_by_a_set_minute() {
    let mut runs = [Profile::Wild, Profile::Clean].map(Runs::new);
    for fault in FAULTS.into_iter().filter(|fault| matches!(fault, Fault::WrongHours(_))) {
        let runs = &mut runs[usize::from(!fault.needs_wild_runs())];
        let found = runs.shows(fault, 60);
        assert!(matches!(found, Some(Step::Call(Call::SetMinute { .. }))), "{fault:?}: {found:?}");
    }
}

/// A judge that is told of a client of depth 8 and weight 1 beside one of fixed 9000 on a disk
/// of 8000: it has 800 at a tick, and has asked.
fn told() -> Judge {
    let mut judge = Judge::default();
    for call in [
        open(8000, 100),
        Call::Join(client(5, 0, WEIGHTED, 1, 8)),
        Call::Join(client(6, 0, FIXED, 9000, 8)),
        request(5, 1),
    ] {
        judge.observe(&call, Reply::Number(0), [&[], &[]]);
    }
    judge
}

/// How many empty ticks it takes until the judge finds client 5 behind its reservation.
fn ticks_until_found(mut judge: Judge) -> usize {
    (1..)
        .find(|_| {
            judge.observe(&tick(), Reply::Counts([0, 0]), [&[], &[]]);
            let is_found = |node| judge.violations().iter().any(|found| found.node == node);
            assert!(!is_found(0) && !is_found(6));
            is_found(5)
        })
        .unwrap_or(0)
}

#[test]
fn the_judge_reads_rates_from_the_tree_that_a_set_minute_leaves() {
    assert_eq!(ticks_until_found(told()), 10);
    // In this plan client 5 is fixed with 1000, and has 800 as well; in its window it has 5000,
    // which is 4000 at a tick. Client 6 has a weight.
    let nodes = vec![client(5, 0, FIXED, 1000, 8), client(6, 0, WEIGHTED, 1, 8)];
    let plan = Plan { rate: 8000, depth: 100, nodes };
    for (edition, windows, minute, reply, ticks) in [
        (Edition::First, vec![5, 10, 20, 5000], 9, Reply::Number(0), 10),
        (Edition::First, vec![5, 10, 20, 5000], 10, Reply::Number(0), 2),
        (Edition::Second, vec![5, 10, 20, 5000], 19, Reply::Number(0), 2),
        (Edition::Second, vec![5, 10, 20, 5000], 20, Reply::Number(0), 10),
        (Edition::Second, vec![5, 10, 20, 5000, 5, 20, 30, 2500], 20, Reply::Number(0), 4),
        (Edition::Second, vec![6, 10, 20, 5000], 15, Reply::Number(0), 10),
        // A refused one leaves the tree.
        (Edition::First, vec![5, 10, 20, 5000], 10, Reply::Refused(17), 10),
    ] {
        let mut judge = told();
        let call = Call::SetMinute { plan: plan.encode(edition), windows, minute };
        judge.observe(&call, reply, [&[], &[]]);
        assert_eq!(ticks_until_found(judge), ticks, "{call:?}");
    }
    // One that nobody accepts: a plan that cannot be decoded, and one of other nodes.
    for plan in
        [vec![], Plan { rate: 1, depth: 1, nodes: nodes_of_others() }.encode(Edition::First)]
    {
        let mut judge = told();
        let windows = vec![0, 0, 10_080, 1, 64, 0, 9, 1, -1, 5, 5];
        let call = Call::SetMinute { plan, windows, minute: 5 };
        judge.observe(&call, Reply::Number(0), [&[], &[]]);
        assert_eq!(ticks_until_found(judge), 10);
    }
}

/// Nodes that the judge's tree has not, or that are none.
fn nodes_of_others() -> Vec<NewNode> {
    [0, 7, 63, 64, 255].map(|node| client(node, 0, FIXED, 10_000, 1)).to_vec()
}

#[test]
fn a_set_minute_is_a_call_of_the_list() {
    // The stretch begins behind the request, at position 3, and the set minute is call 4.
    let mut judge = told();
    let nodes = vec![client(5, 0, FIXED, 10_000, 8), client(6, 0, WEIGHTED, 1, 8)];
    let plan = Plan { rate: 8000, depth: 100, nodes }.encode(Edition::First);
    judge.observe(&tick(), Reply::Counts([0, 0]), [&[], &[]]);
    let call = Call::SetMinute { plan, windows: vec![], minute: 0 };
    judge.observe(&call, Reply::Number(0), [&[], &[]]);
    judge.observe(&tick(), Reply::Counts([0, 0]), [&[], &[]]);
    let found = &judge.violations()[0];
    // 800 and 8000 grains.
    assert_eq!((found.promise, found.node, found.grains), (Promise::Client, 5, 8800));
    assert_eq!(found.stretch, 3..6);
}

#[test]
fn the_judge_goes_by_the_call_and_not_by_the_table() {
    // A controller that keeps its rates has right kinds and shares in its table, and one that
    // does not cover starts has right rates for what it has.
    for misreading in [Hours::RatesKept, Hours::StartExcluded, Hours::ShareKept] {
        let fault = Fault::WrongHours(misreading);
        let steps = scenario(fault);
        assert_eq!(watch(&mut Engine, &steps), []);
        assert_eq!(all_pairs(&mut Engine, &steps, BOTH, cost_of), Ends::new());
        let found = watch(&mut Faulty::new(fault), &steps);
        assert!(!found.is_empty(), "{misreading:?}");
        let all = all_pairs(&mut Faulty::new(fault), &steps, BOTH, cost_of);
        assert_eq!(found.len(), all.len(), "{misreading:?}");
        let differs = first_difference(&mut Engine, &mut Faulty::new(fault), &steps);
        assert_eq!(differs.map(|(position, _)| position), Some(3), "{misreading:?}");
    }
}
