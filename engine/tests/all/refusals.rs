//! "What is turned back", call by call: tables of calls with all causes that
//! hold of each, of which the first counts. That a refusal leaves all as it was
//! is seen to by the watched engine.

use crate::support::*;
use hds_engine::refusal::*;
use hds_engine::steps::Call;
use hds_engine::table::*;
use hds_engine::{Controller, Engine, NewNode};

const OUTSIDE_NODES: [i64; 4] = [i64::MIN, -1, 64, i64::MAX];
const OUTSIDE_KINDS: [i64; 4] = [i64::MIN, -1, 3, i64::MAX];
const OUTSIDE_SHARES: [i64; 4] = [i64::MIN, 0, 10_001, i64::MAX];
const OUTSIDE_DEPTHS: [i64; 4] = [i64::MIN, 0, 1_000_001, i64::MAX];
const OUTSIDE_RATES: [i64; 4] = [i64::MIN, 0, 1_000_000_001, i64::MAX];

/// Classes 1, 2, 3 below each other, client 4 on level 4, client 5 on level 1.
fn deep() -> Disk {
    let mut disk = Disk::open(1000, 100);
    disk.join(class(1, 0, FIXED, 5000, 50)).unwrap();
    disk.join(class(2, 1, FIXED, 5000, 40)).unwrap();
    disk.join(class(3, 2, FIXED, 5000, 30)).unwrap();
    disk.join(client(4, 3, FIXED, 5000, 20)).unwrap();
    disk.join(client(5, 0, WEIGHTED, 5, 20)).unwrap();
    disk
}

fn leave(node: i64) -> Call {
    Call::Leave { node }
}

fn change_share(node: i64, kind: i64, share: i64) -> Call {
    Call::ChangeShare { node, kind, share }
}

fn change_rate(rate: i64) -> Call {
    Call::ChangeRate { rate }
}

fn tick_with(list_len: usize) -> Call {
    Call::Tick { list_lens: [list_len, 0] }
}

fn look(node: i64) -> Call {
    Call::Look { node }
}

fn plan_write(edition: i64, buffer_len: usize) -> Call {
    Call::PlanWrite { edition, buffer_len }
}

/// Sees that a number outside its limits, and nothing else, turns each back.
fn outside_limits(table: &[i64], calls: impl IntoIterator<Item = Call>) {
    let cases: Vec<(&[i64], Call)> = calls.into_iter().map(|call| (&[2][..], call)).collect();
    first_cause_counts(table, &cases);
}

/// The names of the causes, in the order of the documents.
const CAUSES: [i64; 17] = [
    NOT_IN_ORDER,
    OUTSIDE_LIMITS,
    NOT_THERE,
    IN_USE,
    WRONG_NODE,
    LEVEL_TOO_LOW,
    SHARES_ABOVE,
    DEPTH_ABOVE,
    NOT_EMPTY,
    IN_DEBT,
    QUEUE_FULL,
    COUNT_AT_END,
    BUFFER_SHORT,
    PLAN_WRONG,
    PLAN_OUT_OF_ORDER,
    STATED_WRONG,
    TIMETABLE_WRONG,
];

#[test]
fn the_causes_are_numbered_from_1_to_17() {
    assert!(CAUSES.into_iter().eq(1..=17));
}

#[test]
fn causes_of_open() {
    for length in [0, 1, 8, TABLE_LEN - 1, TABLE_LEN + 1] {
        first_cause_counts(
            &vec![3; length],
            &[(&[1], open(1000, 40)), (&[1, 2], open(0, 40)), (&[1, 2], open(1000, 0))],
        );
    }
    // A table of right length may hold anything.
    let table = vec![3; TABLE_LEN];
    outside_limits(&table, OUTSIDE_RATES.map(|rate| open(rate, 40)));
    outside_limits(&table, OUTSIDE_DEPTHS.map(|depth| open(1000, depth)));
    first_cause_counts(&table, &[(&[], open(1, 1)), (&[], open(1_000_000_000, 1_000_000))]);
}

#[test]
fn open_makes_the_root_alone() {
    for (rate, depth) in [(1, 1), (1_000_000_000, 1_000_000)] {
        let disk = Disk::open(rate, depth);
        let mut expected = vec![0; TABLE_LEN];
        expected[8..16].copy_from_slice(&[1, 0, 0, 0, 10_000, depth, rate, 0]);
        assert_eq!(disk.table, expected);
    }
}

#[test]
fn a_table_out_of_order_comes_first() {
    let nowhere =
        NewNode { node: -1, parent: -1, sort: -1, kind: -1, share: -1, depth: -1, port: -1 };
    let cases: &Cases = &[
        (&[1], Call::Join(client(9, 0, WEIGHTED, 1, 1))),
        (&[1, 2, 3], Call::Join(nowhere)),
        (&[1], leave(5)),
        (&[1, 2, 3], leave(-1)),
        (&[1], change_share(5, WEIGHTED, 1)),
        (&[1, 2], change_share(5, WEIGHTED, 0)),
        (&[1], change_rate(1)),
        (&[1, 2], change_rate(0)),
        (&[1], request(5, 1)),
        (&[1, 2], request(5, 0)),
        (&[1], tick_with(4)),
        (&[1, 13], tick_with(3)),
        (&[1], look(5)),
        (&[1, 2, 3], look(-1)),
        (&[1], plan_write(1, 64)),
        (&[1, 13], plan_write(1, 63)),
        (&[1], plan_write(2, 78)),
        (&[1, 13], plan_write(2, 77)),
        (&[1, 2], plan_write(3, 78)),
    ];
    // One request waits, and the plan of five nodes has 9 + 11 × 5 bytes, of the second
    // edition 13 + 13 × 5.
    let mut disk = deep();
    disk.request(4, 0, 16).unwrap();
    let sound = disk.table;
    let mut damaged = sound.clone();
    damaged[7] = 1;
    for table in [damaged, sound[..TABLE_LEN - 1].to_vec(), [&sound[..], &[0]].concat()] {
        first_cause_counts(&table, cases);
    }
    // Whatever else holds of a table without a root.
    for table in [vec![], vec![0; TABLE_LEN]] {
        let cases: Vec<(&[i64], Call)> =
            cases.iter().map(|(_, call)| (&[1][..], call.clone())).collect();
        first_cause_counts(&table, &cases);
    }
}

#[test]
fn join_outside_limits() {
    let table = deep().table;
    let right = client(9, 0, WEIGHTED, 1, 1);
    let join = Call::Join;
    outside_limits(&table, OUTSIDE_NODES.map(|node| join(NewNode { node, ..right })));
    let sorts = [i64::MIN, -1, 0, 3, i64::MAX];
    outside_limits(&table, sorts.map(|sort| join(NewNode { sort, ..right })));
    outside_limits(&table, OUTSIDE_KINDS.map(|kind| join(NewNode { kind, ..right })));
    outside_limits(&table, OUTSIDE_SHARES.map(|share| join(NewNode { share, ..right })));
    let depths = [i64::MIN, 0];
    outside_limits(&table, depths.map(|depth| join(NewNode { depth, ..right })));
    // Depths above a million are above the root's too.
    let cases = [1_000_001, i64::MAX].map(|depth| (&[2, 8][..], join(NewNode { depth, ..right })));
    first_cause_counts(&table, &cases);
    // No parent outside the limits is there.
    let cases = OUTSIDE_NODES.map(|parent| (&[2, 3][..], join(NewNode { parent, ..right })));
    first_cause_counts(&table, &cases);
}

#[test]
fn causes_of_join() {
    // Client 6 stands on level 3. What is left under the root is fixed 5000 and
    // depth 30; under class 2, fixed 5000 and depth 5; under class 3, fixed
    // 5000 and depth 10.
    let mut disk = deep();
    disk.join(client(6, 2, WEIGHTED, 1, 5)).unwrap();
    let sort = |sort, new| NewNode { sort, ..new };
    let cases: &[(&[i64], NewNode)] = &[
        (&[2, 3], client(9, 60, WEIGHTED, 0, 1)),
        (&[2, 3, 4], client(5, 60, WEIGHTED, 1, 0)),
        (&[2, 4], client(0, 0, WEIGHTED, 1, 1)),
        (&[2, 4], sort(3, client(5, 0, WEIGHTED, 1, 1))),
        (&[2, 4, 5], client(0, 5, WEIGHTED, 1, 1)),
        (&[2, 5], client(9, 5, 3, 1, 1)),
        (&[2, 6], class(9, 3, WEIGHTED, 10_001, 1)),
        (&[2, 7], client(9, 0, FIXED, 10_001, 1)),
        (&[2, 8], client(9, 0, WEIGHTED, 1, 1_000_001)),
        (&[3], client(9, 60, WEIGHTED, 1, 1)),
        (&[3], class(9, 9, FIXED, 10_000, 1_000_000)),
        (&[3, 4], client(5, 60, WEIGHTED, 1, 1)),
        (&[4], client(5, 0, WEIGHTED, 1, 1)),
        (&[4, 5], client(4, 5, WEIGHTED, 1, 1)),
        (&[4, 5], client(5, 5, WEIGHTED, 1, 1)),
        (&[4, 5, 6], class(5, 4, WEIGHTED, 1, 1)),
        (&[4, 6], class(5, 3, WEIGHTED, 1, 1)),
        (&[4, 7], client(5, 3, FIXED, 5001, 1)),
        (&[4, 8], client(5, 3, WEIGHTED, 1, 11)),
        (&[5], client(9, 4, FIXED, 10_000, 1_000_000)),
        (&[5], class(9, 5, WEIGHTED, 1, 1)),
        (&[5, 6], class(9, 6, WEIGHTED, 1, 1)),
        (&[5, 6], class(9, 4, FIXED, 10_000, 1_000_000)),
        (&[6], class(9, 3, FIXED, 5000, 10)),
        (&[6, 7], class(9, 3, FIXED, 5001, 10)),
        (&[6, 8], class(9, 3, FIXED, 5000, 11)),
        (&[6, 7, 8], class(9, 3, FIXED, 5001, 11)),
        (&[7], client(9, 3, FIXED, 5001, 10)),
        (&[7], class(9, 2, FIXED, 10_000, 5)),
        (&[7, 8], client(9, 3, FIXED, 5001, 11)),
        (&[7, 8], class(9, 2, FIXED, 10_000, 1_000_000)),
        (&[8], client(9, 3, FIXED, 5000, 11)),
        (&[8], client(9, 3, WEIGHTED, 10_000, 11)),
        (&[8], class(9, 2, FIXED, 1, 6)),
        (&[], client(9, 3, FIXED, 5000, 10)),
        (&[], client(9, 3, WEIGHTED, 10_000, 10)),
        (&[], class(9, 2, FIXED, 5000, 5)),
        (&[], client(63, 0, FIXED, 5000, 30)),
    ];
    let cases: Vec<(&[i64], Call)> =
        cases.iter().map(|&(causes, new)| (causes, Call::Join(new))).collect();
    first_cause_counts(&disk.table, &cases);
}

#[test]
fn causes_of_leave() {
    let mut disk = deep();
    disk.request(4, 0, 16).unwrap();
    first_cause_counts(&disk.table, &OUTSIDE_NODES.map(|node| (&[2, 3][..], leave(node))));
    first_cause_counts(
        &disk.table,
        &[
            (&[3], leave(6)),
            (&[3], leave(63)),
            (&[5, 9], leave(0)),
            (&[9], leave(1)),
            (&[9], leave(3)),
            (&[9], leave(4)),
            (&[], leave(5)),
        ],
    );
    // The root and class 3 in debt.
    let mut disk = deep();
    disk.poke(0, BALANCE, -1);
    disk.poke(3, BALANCE, -1);
    first_cause_counts(
        &disk.table,
        &[(&[5, 9, 10], leave(0)), (&[9, 10], leave(3)), (&[], leave(4))],
    );
    disk.leave(4).unwrap();
    first_cause_counts(&disk.table, &[(&[10], leave(3))]);
    for balance in [0, 30_000] {
        disk.poke(3, BALANCE, balance);
        first_cause_counts(&disk.table, &[(&[], leave(3))]);
    }
    // The root alone.
    let mut disk = Disk::open(1000, 40);
    first_cause_counts(&disk.table, &[(&[5], leave(0))]);
    disk.poke(0, BALANCE, -1);
    first_cause_counts(&disk.table, &[(&[5, 10], leave(0))]);
}

#[test]
fn leave_gives_the_rate_back_and_zeroes_the_record() {
    let mut disk = Disk::open(1000, 40);
    disk.join(client(5, 0, WEIGHTED, 1, 16)).unwrap();
    let alone = disk.table.clone();
    disk.join(client(6, 0, WEIGHTED, 1, 16)).unwrap();
    assert_eq!(disk.rate(5), 500);
    disk.poke(6, BALANCE, 700);
    disk.leave(6).unwrap();
    assert_eq!(disk.table, alone);
    disk.join(client(6, 0, WEIGHTED, 1, 16)).unwrap();
    assert_eq!(disk.balance(6), 0);
}

#[test]
fn causes_of_change_share() {
    let table = deep().table;
    outside_limits(&table, OUTSIDE_KINDS.map(|kind| change_share(5, kind, 1)));
    outside_limits(&table, OUTSIDE_SHARES.map(|share| change_share(5, WEIGHTED, share)));
    let cases = OUTSIDE_NODES.map(|node| (&[2, 3][..], change_share(node, FIXED, 1)));
    first_cause_counts(&table, &cases);
    // Class 1 leaves fixed 5000 for client 5.
    first_cause_counts(
        &table,
        &[
            (&[2, 3], change_share(60, FIXED, 0)),
            (&[2, 3], change_share(60, 3, 1)),
            (&[2, 5], change_share(0, WEIGHTED, 0)),
            (&[2, 5], change_share(0, 3, 10_000)),
            (&[2, 7], change_share(5, FIXED, 10_001)),
            (&[3], change_share(60, FIXED, 1)),
            (&[3], change_share(60, FIXED, 10_000)),
            (&[5], change_share(0, FIXED, 10_000)),
            (&[5], change_share(0, WEIGHTED, 1)),
            (&[7], change_share(5, FIXED, 5001)),
            (&[7], change_share(5, FIXED, 10_000)),
            (&[], change_share(5, FIXED, 5000)),
            (&[], change_share(5, WEIGHTED, 10_000)),
            (&[], change_share(1, FIXED, 10_000)),
            (&[], change_share(1, WEIGHTED, 1)),
        ],
    );
}

#[test]
fn change_share_does_not_count_the_share_before() {
    let mut disk = deep();
    assert_eq!(disk.change_share(5, FIXED, 5000), Ok(0));
    assert_eq!(disk.change_share(5, FIXED, 4999), Ok(0));
    assert_eq!(disk.change_share(1, FIXED, 5001), Ok(0));
    assert_eq!([1, 2, 3, 4, 5].map(|node| disk.rate(node)), [500, 250, 125, 62, 499]);
    assert_eq!(disk.change_share(1, FIXED, 5002), Err(7));
}

#[test]
fn causes_of_change_rate() {
    let mut disk = deep();
    outside_limits(&disk.table, OUTSIDE_RATES.map(change_rate));
    assert_eq!(disk.change_rate(1), Ok(0));
    assert_eq!([0, 1, 5].map(|node| disk.rate(node)), [1, 0, 0]);
    assert_eq!(disk.change_rate(1_000_000_000), Ok(0));
    assert_eq!([0, 1, 4].map(|node| disk.rate(node)), [1_000_000_000, 500_000_000, 62_500_000]);
}

#[test]
fn causes_of_request() {
    // Eight wait at client 4; clients 4 and 5 have depth 20, which a size of 16
    // costs.
    let mut disk = deep();
    for _ in 0..8 {
        disk.request(4, i64::MIN, 16).unwrap();
    }
    outside_limits(&disk.table, [i64::MIN, -1, 0].map(|size| request(5, size)));
    first_cause_counts(&disk.table, &OUTSIDE_NODES.map(|node| (&[2, 3][..], request(node, 1))));
    first_cause_counts(
        &disk.table,
        &[
            (&[2, 3], request(60, 0)),
            (&[2, 5], request(3, 0)),
            (&[2, 5], request(0, 0)),
            (&[2, 11], request(4, 0)),
            (&[3], request(60, 1)),
            (&[3], request(60, i64::MAX)),
            (&[5], request(3, 1)),
            (&[5], request(0, i64::MAX)),
            (&[8], request(5, 17)),
            (&[8], request(5, 20)),
            (&[8], request(5, 21)),
            (&[8], request(5, 512)),
            (&[8], request(5, i64::MAX - 16)),
            (&[8], request(5, i64::MAX - 15)),
            (&[8], request(5, i64::MAX)),
            (&[8, 11], request(4, 17)),
            (&[8, 11], request(4, i64::MAX)),
            (&[11], request(4, 16)),
            (&[11], request(4, 1)),
            (&[], request(5, 16)),
            (&[], request(5, 1)),
        ],
    );
    disk.table[ACCEPTED] = MAX_ACCEPTED;
    first_cause_counts(
        &disk.table,
        &[
            (&[2, 12], request(5, 0)),
            (&[2, 3, 12], request(60, 0)),
            (&[2, 5, 12], request(3, 0)),
            (&[2, 11, 12], request(4, 0)),
            (&[3, 12], request(60, 1)),
            (&[5, 12], request(3, 1)),
            (&[8, 12], request(5, 17)),
            (&[8, 12], request(5, i64::MAX)),
            (&[8, 11, 12], request(4, 17)),
            (&[11, 12], request(4, 16)),
            (&[12], request(5, 16)),
        ],
    );
    disk.table[ACCEPTED] = MAX_ACCEPTED - 1;
    assert_eq!(disk.request(5, i64::MAX, 16), Ok(MAX_ACCEPTED));
    assert_eq!(disk.request(5, 0, 16), Err(12));
}

#[test]
fn causes_of_tick() {
    let mut disk = deep();
    first_cause_counts(&disk.table, &[(&[], tick_with(0)), (&[], tick_with(1))]);
    disk.request(4, 0, 16).unwrap();
    disk.request(5, 0, 16).unwrap();
    first_cause_counts(
        &disk.table,
        &[(&[13], tick_with(0)), (&[13], tick_with(7)), (&[], tick_with(8)), (&[], tick_with(9))],
    );
    // Also where nothing is dispatched, all that wait count.
    assert_eq!(disk.tick(), Vec::<Entry>::new());
}

#[test]
fn causes_of_look() {
    let mut disk = deep();
    first_cause_counts(&disk.table, &OUTSIDE_NODES.map(|node| (&[2, 3][..], look(node))));
    first_cause_counts(&disk.table, &[(&[3], look(60)), (&[3], look(6)), (&[3], look(63))]);
    assert_eq!(disk.look(0), Ok([1000, 0, 0, 0]));
    disk.request(4, 0, 16).unwrap();
    assert_eq!(disk.tick(), Vec::<Entry>::new());
    assert_eq!(disk.look(4), Ok([62, 62, 1, 0]));
}

#[test]
fn causes_of_plan_write() {
    first_cause_counts(
        &deep().table,
        &[
            (&[13], plan_write(1, 0)),
            (&[13], plan_write(1, 63)),
            (&[], plan_write(1, 64)),
            (&[], plan_write(1, 65)),
            (&[13], plan_write(2, 0)),
            (&[13], plan_write(2, 64)),
            (&[13], plan_write(2, 77)),
            (&[], plan_write(2, 78)),
            (&[], plan_write(2, 79)),
        ],
    );
    let alone = Disk::open(1, 1).table;
    first_cause_counts(&alone, &[(&[13], plan_write(1, 8)), (&[], plan_write(1, 9))]);
    first_cause_counts(&alone, &[(&[13], plan_write(2, 12)), (&[], plan_write(2, 13))]);
}

#[test]
fn causes_of_same() {
    let sound = deep().table;
    let other = Disk::open(1000, 100).table;
    let mut damaged = sound.clone();
    damaged[7] = 1;
    let broken = [damaged, sound[1..].to_vec(), [&sound[..], &[0]].concat(), Vec::new()];
    for table in &broken {
        assert_eq!(Engine.same(table, &sound), Err(1));
        assert_eq!(Engine.same(&sound, table), Err(1));
        assert_eq!(Engine.same(&other, table), Err(1));
        assert!(broken.iter().all(|second| Engine.same(table, second) == Err(1)));
    }
    assert_eq!(Engine.same(&sound, &sound), Ok(true));
    assert_eq!(Engine.same(&sound, &other), Ok(false));
}

#[test]
fn same_goes_by_the_tree_and_the_disk_rate() {
    let mut disk = deep();
    let mut other = deep();
    assert_eq!(disk.same(&other), Ok(true));
    disk.request(4, 0, 1).unwrap();
    disk.tick();
    assert_eq!(disk.same(&other), Ok(true));
    other.change_rate(1001).unwrap();
    assert_eq!(disk.same(&other), Ok(false));
    other.change_rate(1000).unwrap();
    assert_eq!(disk.same(&other), Ok(true));
    for new in [
        client(5, 1, WEIGHTED, 5, 10),
        class(5, 0, WEIGHTED, 5, 20),
        client(5, 0, FIXED, 5, 20),
        client(5, 0, WEIGHTED, 6, 20),
        client(5, 0, WEIGHTED, 5, 21),
        client(6, 0, WEIGHTED, 5, 20),
    ] {
        let mut other = deep();
        other.leave(5).unwrap();
        assert_eq!(disk.same(&other), Ok(false));
        other.join(new).unwrap();
        assert_eq!(disk.same(&other), Ok(false));
    }
    // The root's depth is one of its places 1 to 5.
    let mut low = Disk::open(1000, 40);
    assert_eq!(low.same(&Disk::open(1000, 41)), Ok(false));
}
