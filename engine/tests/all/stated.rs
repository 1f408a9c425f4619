//! Stated rates, by hand: what they and those beside them get, when 16 is given, which
//! tables are in order, what random runs meet of them, and the misreadings.

use std::collections::{BTreeMap, BTreeSet};

use crate::support::*;
use hds_engine::damage::{failing, isolated};
use hds_engine::differential::first_difference;
use hds_engine::faulty::{Fault, Faulty, Stated, FAULTS};
use hds_engine::judge::{Judge, Promise};
use hds_engine::order::{
    in_order, LIMITS_CLAUSE, RATES_CLAUSE, STATED_PLACES_CLAUSE, STATED_RATES_CLAUSE,
};
use hds_engine::random::{run, Profile, Rng};
use hds_engine::steps::{Call, Reply, Step, World};
use hds_engine::table::*;
use hds_engine::{Answer, Controller, Engine, NewNode};

/// Client 1 with 300 stated, client 2 with half and client 3 with a weight beside it, of
/// a disk of that rate.
fn three(rate: i64) -> Disk {
    let mut disk = Disk::open(rate, 100);
    disk.join(client(1, 0, STATED, 300, 8)).unwrap();
    disk.join(client(2, 0, FIXED, 5000, 8)).unwrap();
    disk.join(client(3, 0, WEIGHTED, 1, 8)).unwrap();
    disk
}

fn rates<const N: usize>(disk: &mut Disk, nodes: [i64; N]) -> [i64; N] {
    nodes.map(|node| disk.rate(node))
}

fn share(node: i64, kind: i64, share: i64) -> Call {
    Call::ChangeShare { node, kind, share }
}

fn leave(node: i64) -> Call {
    Call::Leave { node }
}

fn change_rate(rate: i64) -> Call {
    Call::ChangeRate { rate }
}

fn plan_write(edition: i64, buffer_len: usize) -> Call {
    Call::PlanWrite { edition, buffer_len }
}

#[test]
fn a_stated_rate_beside_a_half_and_a_weight() {
    // 700 are divided: half of them, and half is left for the weight.
    let mut disk = three(1000);
    assert_eq!(rates(&mut disk, [0, 1, 2, 3]), [1000, 300, 350, 350]);
    assert_eq!([0, 1, 2, 3].map(|node| disk.lost(node)), [0; 4]);
    // Without the other two 700 go to nobody.
    disk.leave(2).unwrap();
    disk.leave(3).unwrap();
    assert_eq!(disk.look(0), Ok([1000, 0, 0, 700]));
    assert_eq!(disk.look(1), Ok([300, 0, 0, 0]));
}

#[test]
fn a_stated_rate_stays_whatever_the_disks_rate_becomes() {
    let mut disk = three(1000);
    for (rate, expected, lost) in [
        (2000, [300, 850, 850], 0),
        (1_000_000_000, [300, 499_999_850, 499_999_850], 0),
        // 1 is divided: half a grain, and half a grain is left.
        (301, [300, 0, 0], 1),
        (300, [300, 0, 0], 0),
        (303, [300, 1, 1], 1),
        (1000, [300, 350, 350], 0),
    ] {
        assert_eq!(disk.change_rate(rate), Ok(0));
        assert_eq!(rates(&mut disk, [1, 2, 3]), expected, "{rate}");
        assert_eq!(disk.lost(0), lost, "{rate}");
    }
    for rate in [299, 298, 150, 2, 1] {
        assert_eq!(disk.change_rate(rate), Err(16), "{rate}");
    }
    assert_eq!(disk.table, three(1000).table);
}

#[test]
fn rounding_is_that_of_what_is_divided() {
    // 999 are divided: 332.97, and 666.03 are left for three weights. Of 1000 the fixed
    // share would have 333 too, but 666.7 would be left as well, and of 998 it is 332.6.
    let mut disk = Disk::open(1000, 100);
    disk.join(client(1, 0, STATED, 1, 8)).unwrap();
    disk.join(client(2, 0, FIXED, 3333, 8)).unwrap();
    for node in [3, 4, 5] {
        disk.join(client(node, 0, WEIGHTED, 1, 8)).unwrap();
    }
    assert_eq!(rates(&mut disk, [1, 2, 3, 4, 5]), [1, 332, 222, 222, 222]);
    assert_eq!(disk.lost(0), 1);
    // 995 are divided: 331.63, and 663.37 are left.
    disk.change_share(1, STATED, 5).unwrap();
    assert_eq!(rates(&mut disk, [1, 2, 3, 4, 5]), [5, 331, 221, 221, 221]);
    assert_eq!(disk.lost(0), 1);
}

#[test]
fn stated_rates_of_just_the_disks() {
    let mut disk = Disk::open(1000, 100);
    disk.join(client(1, 0, STATED, 400, 8)).unwrap();
    assert_eq!(disk.join(client(2, 0, STATED, 601, 8)), Err(16));
    assert_eq!(disk.join(client(2, 0, STATED, 600, 8)), Ok(0));
    assert_eq!(disk.look(0), Ok([1000, 0, 0, 0]));
    // Nothing is left for the others, and no grain for a third.
    disk.join(client(3, 0, FIXED, 10_000, 8)).unwrap();
    disk.join(client(4, 0, WEIGHTED, 10_000, 8)).unwrap();
    assert_eq!(rates(&mut disk, [1, 2, 3, 4]), [400, 600, 0, 0]);
    assert_eq!(disk.join(client(5, 0, STATED, 1, 8)), Err(16));
    disk.change_rate(1001).unwrap();
    assert_eq!(rates(&mut disk, [1, 2, 3, 4]), [400, 600, 1, 0]);
    assert_eq!(disk.join(client(5, 0, STATED, 1, 8)), Ok(0));
    assert_eq!(rates(&mut disk, [1, 2, 3, 4, 5]), [400, 600, 0, 0, 1]);
}

#[test]
fn one_node_with_the_greatest_rate() {
    let mut disk = Disk::open(1_000_000_000, 100);
    assert_eq!(disk.join(class(1, 0, STATED, 1_000_000_000, 50)), Ok(0));
    disk.join(client(2, 1, WEIGHTED, 1, 8)).unwrap();
    disk.join(client(3, 0, WEIGHTED, 1, 8)).unwrap();
    assert_eq!(rates(&mut disk, [1, 2, 3]), [1_000_000_000, 1_000_000_000, 0]);
    assert_eq!([0, 1].map(|node| disk.lost(node)), [0, 0]);
    assert_eq!(disk.change_rate(999_999_999), Err(16));
    assert_eq!(disk.change_share(1, STATED, 1_000_000_001), Err(2));
    assert_eq!(disk.change_share(3, STATED, 1), Err(16));
}

#[test]
fn sixty_three_stated_rates() {
    // The numbers 1 to 63 sum to 2016.
    let mut disk = Disk::open(2016, 63);
    for node in 1..64 {
        assert_eq!(disk.join(client(node, 0, STATED, node, 1)), Ok(0));
    }
    assert!((1..64).all(|node| disk.rate(node) == node));
    assert_eq!(disk.lost(0), 0);
    assert_eq!(disk.change_rate(2015), Err(16));
    assert_eq!(disk.change_share(63, STATED, 64), Err(16));
    assert_eq!(disk.change_share(63, STATED, 62), Ok(0));
    assert_eq!(disk.change_rate(2015), Ok(0));
}

#[test]
fn a_stated_class_divides_its_rate_as_any_other() {
    // Class 1 has 400: a quarter, and 300 are left for weights 1 and 2. Client 5 has the
    // 600 that are divided under the root.
    let mut disk = Disk::open(1000, 100);
    disk.join(class(1, 0, STATED, 400, 50)).unwrap();
    disk.join(client(2, 1, FIXED, 2500, 8)).unwrap();
    disk.join(client(3, 1, WEIGHTED, 1, 8)).unwrap();
    disk.join(client(4, 1, WEIGHTED, 2, 8)).unwrap();
    disk.join(client(5, 0, WEIGHTED, 1, 8)).unwrap();
    assert_eq!(rates(&mut disk, [1, 2, 3, 4, 5]), [400, 100, 100, 200, 600]);
    // The disk's rate does not matter to what stands below it.
    disk.change_rate(700).unwrap();
    assert_eq!(rates(&mut disk, [1, 2, 3, 4, 5]), [400, 100, 100, 200, 300]);
    disk.change_rate(400).unwrap();
    assert_eq!(rates(&mut disk, [1, 2, 3, 4, 5]), [400, 100, 100, 200, 0]);
    assert_eq!(disk.change_rate(399), Err(16));
    disk.change_rate(1000).unwrap();
    // 100.25, and 300.75 are left: 100 and 200 of 300.
    disk.change_share(1, STATED, 401).unwrap();
    assert_eq!(rates(&mut disk, [1, 2, 3, 4, 5]), [401, 100, 100, 200, 599]);
    assert_eq!([0, 1].map(|node| disk.lost(node)), [0, 1]);
    // The smallest rate is too small to divide.
    disk.change_share(1, STATED, 1).unwrap();
    assert_eq!(rates(&mut disk, [1, 2, 3, 4, 5]), [1, 0, 0, 0, 999]);
    // A class without children has its rate for nobody.
    for node in [2, 3, 4] {
        disk.leave(node).unwrap();
    }
    assert_eq!([0, 1].map(|node| disk.lost(node)), [0, 1]);
}

#[test]
fn below_a_stated_class_on_every_level() {
    // Halves of 800, then all of that.
    let mut disk = Disk::open(1000, 100);
    disk.join(class(1, 0, STATED, 800, 90)).unwrap();
    disk.join(class(2, 1, FIXED, 5000, 80)).unwrap();
    disk.join(class(3, 2, WEIGHTED, 1, 70)).unwrap();
    disk.join(client(4, 3, FIXED, 5000, 60)).unwrap();
    assert_eq!(rates(&mut disk, [1, 2, 3, 4]), [800, 400, 400, 200]);
    disk.change_share(1, STATED, 1000).unwrap();
    assert_eq!(rates(&mut disk, [1, 2, 3, 4]), [1000, 500, 500, 250]);
    // Nobody below it may be stated.
    for node in [2, 3, 4] {
        assert_eq!(disk.change_share(node, STATED, 1), Err(16));
    }
    for parent in [1, 2, 3] {
        assert_eq!(disk.join(client(9, parent, STATED, 1, 8)), Err(16));
    }
}

/// A change of the tree of [`three`] at 1000 with client 3's weight 3, and the rates of
/// clients 1 to 3 and node 4 after it, 0 for one that is not there.
fn changes_by_hand() -> Vec<(Call, [i64; 4])> {
    vec![
        // Client 1 stops being stated: all 1000 are divided.
        (share(1, FIXED, 1000), [100, 500, 400, 0]),
        (share(1, WEIGHTED, 1), [125, 500, 375, 0]),
        // It states another rate: 900, 500, 1 and 0 are divided.
        (share(1, STATED, 100), [100, 450, 450, 0]),
        (share(1, STATED, 500), [500, 250, 250, 0]),
        (share(1, STATED, 999), [999, 0, 0, 0]),
        (share(1, STATED, 1000), [1000, 0, 0, 0]),
        // Another one becomes stated: 200 and 400 are divided.
        (share(2, STATED, 500), [300, 500, 200, 0]),
        (share(3, STATED, 300), [300, 200, 300, 0]),
        (share(3, STATED, 700), [300, 0, 700, 0]),
        // Others change beside it: of 700 a fifth, and 560 are left.
        (share(2, FIXED, 2000), [300, 140, 560, 0]),
        (share(2, WEIGHTED, 1), [300, 175, 525, 0]),
        // Somebody leaves: all 1000 are divided, and 700 for one or the other.
        (leave(1), [0, 500, 500, 0]),
        (leave(2), [300, 0, 700, 0]),
        (leave(3), [300, 350, 0, 0]),
        // Somebody joins: 500 are divided; then 700, of which 350 are left for weights 3
        // and 2, and half and a tenth, 280 being left.
        (Call::Join(client(4, 0, STATED, 200, 8)), [300, 250, 250, 200]),
        (Call::Join(class(4, 0, STATED, 700, 8)), [300, 0, 0, 700]),
        (Call::Join(client(4, 0, WEIGHTED, 2, 8)), [300, 350, 210, 140]),
        (Call::Join(class(4, 0, FIXED, 1000, 8)), [300, 350, 280, 70]),
    ]
}

#[test]
fn every_change_beside_a_stated_rate() {
    let mut disk = three(1000);
    disk.change_share(3, WEIGHTED, 3).unwrap();
    for (call, expected) in changes_by_hand() {
        let mut world = world_of(&disk.table);
        assert_eq!(world.call(&mut Watched(Engine), &call), Reply::Number(0), "{call:?}");
        let after = world.table.inner();
        assert_eq!([1, 2, 3, 4].map(|node| get(after, node, RATE)), expected, "{call:?}");
    }
}

#[test]
fn rates_do_not_depend_on_the_order_of_joining() {
    let nodes = [
        client(9, 0, WEIGHTED, 7, 3),
        client(2, 0, STATED, 123_456, 3),
        client(5, 0, FIXED, 1234, 3),
        client(4, 0, STATED, 77, 3),
    ];
    let mut forth = Disk::open(999_983, 40);
    let mut back = Disk::open(999_983, 40);
    nodes.iter().for_each(|&new| assert_eq!(forth.join(new), Ok(0)));
    nodes.iter().rev().for_each(|&new| assert_eq!(back.join(new), Ok(0)));
    assert_eq!(forth.table, back.table);
    // 999,983 − 123,533 = 876,450; 108,153.93; 768,296.07 are left.
    assert_eq!(rates(&mut forth, [2, 4, 5, 9]), [123_456, 77, 108_153, 768_296]);
}

#[test]
fn shares_have_the_limits_of_their_kind() {
    for (rate, kind, share, answer) in [
        (10_001, STATED, 10_001, Ok(0)),
        (10_000, STATED, 10_001, Err(16)),
        (10_001, FIXED, 10_001, Err(2)),
        (10_001, WEIGHTED, 10_001, Err(2)),
        (10_000, STATED, 10_000, Ok(0)),
        (10_000, FIXED, 10_000, Ok(0)),
        (10_000, WEIGHTED, 10_000, Ok(0)),
        (1, STATED, 1, Ok(0)),
        (1, STATED, 0, Err(2)),
        (1, STATED, -1, Err(2)),
        (1, STATED, i64::MIN, Err(2)),
        (1_000_000_000, STATED, 1_000_000_000, Ok(0)),
        (1_000_000_000, STATED, 1_000_000_001, Err(2)),
        (1_000_000_000, STATED, i64::MAX, Err(2)),
        (999_999_999, STATED, 1_000_000_000, Err(16)),
        (10_000, 3, 1, Err(2)),
    ] {
        let mut disk = Disk::open(rate, 40);
        assert_eq!(disk.join(client(1, 0, kind, share, 8)), answer, "{kind} {share} of {rate}");
        let mut disk = Disk::open(rate, 40);
        disk.join(client(1, 0, WEIGHTED, 7, 8)).unwrap();
        assert_eq!(disk.change_share(1, kind, share), answer, "{kind} {share} of {rate}");
    }
}

/// Classes 1, 2, 3 below each other, client 4 on level 4, client 5 with 600 stated of a
/// disk of 1000. What is left under the root is fixed 5000, 400 to be stated and depth
/// 30; under classes 1, 2 and 3 it is depth 10.
fn deep() -> Disk {
    let mut disk = Disk::open(1000, 100);
    disk.join(class(1, 0, FIXED, 5000, 50)).unwrap();
    disk.join(class(2, 1, FIXED, 5000, 40)).unwrap();
    disk.join(class(3, 2, FIXED, 5000, 30)).unwrap();
    disk.join(client(4, 3, FIXED, 5000, 20)).unwrap();
    disk.join(client(5, 0, STATED, 600, 20)).unwrap();
    disk
}

#[test]
fn causes_of_join() {
    let cases: &[(&[i64], NewNode)] = &[
        (&[2], client(9, 0, STATED, 0, 1)),
        (&[2, 16], client(9, 0, STATED, 1_000_000_001, 1)),
        (&[2, 16], client(9, 1, STATED, 0, 1)),
        (&[2, 16], client(0, 0, STATED, 401, 1)),
        (&[2, 16], client(9, 0, STATED, 401, 0)),
        (&[2, 3, 16], client(9, 60, STATED, 0, 1)),
        (&[3, 16], client(9, 60, STATED, 1, 1)),
        (&[3, 4, 16], client(4, 60, STATED, 401, 1)),
        (&[4, 16], client(4, 0, STATED, 401, 1)),
        (&[4, 5, 16], client(4, 5, STATED, 1, 1)),
        (&[5, 16], client(9, 5, STATED, 1, 1)),
        (&[5, 16], client(9, 4, STATED, 401, 1_000_000)),
        (&[6, 16], class(9, 3, STATED, 1, 1)),
        (&[6, 8, 16], class(9, 3, STATED, 1, 11)),
        (&[7], client(9, 0, FIXED, 5001, 30)),
        (&[7, 8], client(9, 0, FIXED, 5001, 31)),
        (&[8], client(9, 0, STATED, 400, 31)),
        (&[8, 16], client(9, 0, STATED, 401, 31)),
        (&[8, 16], client(9, 1, STATED, 1, 11)),
        (&[8, 16], class(9, 2, STATED, 1, 1_000_000)),
        (&[16], client(9, 0, STATED, 401, 30)),
        (&[16], class(9, 0, STATED, 401, 1)),
        (&[16], client(9, 0, STATED, 1_000_000_000, 1)),
        (&[16], client(9, 1, STATED, 1, 1)),
        (&[16], client(9, 2, STATED, 250, 10)),
        (&[16], class(9, 2, STATED, 1, 1)),
        (&[16], client(9, 3, STATED, 1, 1)),
        (&[], client(9, 0, STATED, 400, 30)),
        (&[], class(9, 0, STATED, 400, 30)),
        (&[], client(9, 0, STATED, 1, 1)),
        (&[], client(9, 0, FIXED, 5000, 30)),
        (&[], client(9, 3, WEIGHTED, 1, 10)),
    ];
    let cases: Vec<(&[i64], Call)> =
        cases.iter().map(|&(causes, new)| (causes, Call::Join(new))).collect();
    first_cause_counts(&deep().table, &cases);
}

#[test]
fn causes_of_change_share() {
    first_cause_counts(
        &deep().table,
        &[
            (&[2, 3], share(64, STATED, 1)),
            (&[2, 3], share(60, STATED, 0)),
            (&[2, 3, 16], share(60, STATED, 1_000_000_001)),
            (&[2, 5], share(0, STATED, 0)),
            (&[2, 16], share(1, STATED, 1_000_000_001)),
            (&[2, 16], share(2, STATED, 0)),
            (&[2], share(5, STATED, 0)),
            (&[3, 16], share(60, STATED, 401)),
            // The root is not under the root.
            (&[5, 16], share(0, STATED, 1)),
            (&[5, 16], share(0, STATED, 10_000)),
            (&[5, 16], share(0, STATED, 1_000_000_000)),
            (&[7], share(5, FIXED, 5001)),
            (&[16], share(1, STATED, 401)),
            (&[16], share(1, STATED, 1_000_000_000)),
            (&[16], share(2, STATED, 1)),
            (&[16], share(3, STATED, 125)),
            (&[16], share(4, STATED, 1)),
            // The 600 that client 5 had do not count.
            (&[16], share(5, STATED, 1001)),
            (&[], share(5, STATED, 1000)),
            (&[], share(5, STATED, 601)),
            (&[], share(5, STATED, 1)),
            (&[], share(5, FIXED, 5000)),
            (&[], share(5, WEIGHTED, 10_000)),
            (&[], share(1, STATED, 400)),
            (&[], share(1, FIXED, 10_000)),
        ],
    );
}

#[test]
fn causes_of_change_rate() {
    first_cause_counts(
        &deep().table,
        &[
            (&[2, 16], change_rate(0)),
            (&[2, 16], change_rate(-1)),
            (&[2, 16], change_rate(i64::MIN)),
            (&[2], change_rate(1_000_000_001)),
            (&[2], change_rate(i64::MAX)),
            (&[16], change_rate(1)),
            (&[16], change_rate(599)),
            (&[], change_rate(600)),
            (&[], change_rate(601)),
            (&[], change_rate(1_000_000_000)),
        ],
    );
}

#[test]
fn causes_of_plan_write() {
    // A plan of five nodes has 9 + 11 × 5 bytes, of the second edition 13 + 13 × 5.
    let mut disk = deep();
    first_cause_counts(
        &disk.table,
        &[
            (&[13, 16], plan_write(1, 0)),
            (&[13, 16], plan_write(1, 63)),
            (&[16], plan_write(1, 64)),
            (&[16], plan_write(1, 1000)),
            (&[13], plan_write(2, 77)),
            (&[], plan_write(2, 78)),
            (&[2], plan_write(3, 78)),
            (&[2, 13], plan_write(3, 0)),
            (&[2, 13], plan_write(0, 63)),
        ],
    );
    disk.change_share(5, WEIGHTED, 1).unwrap();
    first_cause_counts(&disk.table, &[(&[13], plan_write(1, 63)), (&[], plan_write(1, 64))]);
    disk.change_share(1, STATED, 1).unwrap();
    first_cause_counts(&disk.table, &[(&[13, 16], plan_write(1, 63)), (&[16], plan_write(1, 64))]);
    // A refused writing touches nothing.
    let mut buffer = [0xEE; 70];
    assert_eq!(disk.plan_write(1, &mut buffer), Err(16));
    assert_eq!(disk.plan_write(2, &mut buffer), Err(13));
    assert_eq!(disk.plan_write(3, &mut buffer), Err(2));
    assert_eq!(buffer, [0xEE; 70]);
}

#[test]
fn a_table_out_of_order_comes_first() {
    let mut table = deep().table;
    table[7] = 1;
    first_cause_counts(
        &table,
        &[
            (&[1, 16], Call::Join(client(9, 0, STATED, 401, 1))),
            (&[1, 16], Call::Join(client(9, 1, STATED, 1, 1))),
            (&[1, 16], share(5, STATED, 1001)),
            (&[1, 16], share(4, STATED, 1)),
            (&[1, 16], change_rate(599)),
            (&[1, 16], plan_write(1, 64)),
            (&[1, 13, 16], plan_write(1, 63)),
        ],
    );
}

#[test]
fn leaving_makes_room() {
    let mut disk = deep();
    assert_eq!(disk.join(client(9, 0, STATED, 401, 1)), Err(16));
    assert_eq!(disk.change_rate(599), Err(16));
    disk.leave(5).unwrap();
    assert_eq!(disk.join(client(9, 0, STATED, 1000, 1)), Ok(0));
    disk.leave(9).unwrap();
    assert_eq!(disk.change_rate(1), Ok(0));
    assert_eq!(disk.join(client(9, 0, STATED, 2, 1)), Err(16));
    assert_eq!(disk.join(client(9, 0, STATED, 1, 1)), Ok(0));
}

/// A write from outside: node, place, value.
type Write = (usize, usize, i64);

/// Whether the table of these nodes is in order after the writes: client 1 with 300
/// stated, class 2 with half of 700, client 3 with all of that, client 4 with the other
/// half.
fn holds(writes: &[Write]) -> bool {
    let mut disk = Disk::open(1000, 100);
    disk.join(client(1, 0, STATED, 300, 8)).unwrap();
    disk.join(class(2, 0, FIXED, 5000, 50)).unwrap();
    disk.join(client(3, 2, WEIGHTED, 1, 8)).unwrap();
    disk.join(client(4, 0, WEIGHTED, 1, 8)).unwrap();
    for &(node, place, value) in writes {
        disk.poke(node, place, value);
    }
    let answer = Engine.look(&disk.table, 0);
    assert_eq!(answer.is_ok(), in_order(&disk.table));
    assert!(answer.is_ok() || answer == Err(1));
    answer.is_ok()
}

/// Writes of the rates of nodes 1 to 4.
fn with_rates(rates: [i64; 4], more: &[Write]) -> Vec<Write> {
    let rates = (1..).zip(rates).map(|(node, rate)| (node, RATE, rate));
    rates.chain(more.iter().copied()).collect()
}

#[test]
fn tables_in_order() {
    assert!(holds(&[]));
    assert!(holds(&with_rates([300, 350, 350, 350], &[])));
    // Stated 1, just all of the disk, and another disk's rate.
    assert!(holds(&with_rates([1, 499, 499, 499], &[(1, SHARE, 1)])));
    assert!(holds(&with_rates([1000, 0, 0, 0], &[(1, SHARE, 1000)])));
    assert!(holds(&with_rates([300, 0, 0, 0], &[(0, RATE, 300)])));
    let greatest = [(0, RATE, 1_000_000_000), (1, SHARE, 1_000_000_000)];
    assert!(holds(&with_rates([1_000_000_000, 0, 0, 0], &greatest)));
    // Class 2 and client 4 stated beside client 1.
    assert!(holds(&with_rates([300, 500, 500, 200], &[(2, KIND, STATED), (2, SHARE, 500)])));
    assert!(holds(&with_rates([300, 175, 175, 350], &[(4, KIND, STATED), (4, SHARE, 350)])));
    assert!(holds(&with_rates([300, 0, 0, 700], &[(4, KIND, STATED), (4, SHARE, 700)])));
    // Client 1 with a weight that is not above 10,000.
    assert!(holds(&with_rates([498, 500, 500, 1], &[(1, KIND, WEIGHTED)])));
    let most = [(1, KIND, WEIGHTED), (1, SHARE, 10_000)];
    assert!(holds(&with_rates([499, 500, 500, 0], &most)));
}

#[test]
fn tables_that_break_a_limit() {
    // Each with the rates that the rule gives it: 500 and 500 without a stated rate, and
    // 0.5 of −1 is 0.
    for share in [0, -1] {
        let half = (1000 - share) / 2;
        assert!(!holds(&with_rates([share, half, half, half], &[(1, SHARE, share)])));
    }
    assert!(!holds(&with_rates([1001, 0, 0, 0], &[(1, SHARE, 1001)])));
    assert!(!holds(&with_rates([300, 0, 0, 0], &[(0, RATE, 299)])));
    let beyond = [(0, RATE, 1_000_000_001), (1, SHARE, 1_000_000_001)];
    assert!(!holds(&with_rates([1_000_000_001, 0, 0, 0], &beyond)));
    // Two that are too much together.
    assert!(!holds(&with_rates([300, 0, 0, 701], &[(4, KIND, STATED), (4, SHARE, 701)])));
    // Under a class, with that class's rate, with a part of it, and beside the root's own.
    for stated in [350, 100, 1] {
        assert!(!holds(&with_rates(
            [300, 350, stated, 350],
            &[(3, KIND, STATED), (3, SHARE, stated)]
        )));
    }
    // The root.
    assert!(!holds(&[(0, KIND, STATED)]));
    // A kind behind the last, and a share that only a stated node may have.
    assert!(!holds(&[(1, KIND, 3)]));
    assert!(!holds(&with_rates([499, 500, 500, 0], &[(1, KIND, WEIGHTED), (1, SHARE, 10_001)])));
    assert!(!holds(&with_rates([499, 500, 500, 0], &[(4, KIND, 3)])));
}

#[test]
fn tables_with_other_rates() {
    // By rules beside the right one: nothing taken off, taken off after the fixed shares,
    // half of the whole, the weight of the whole, and a stated rate that is a share.
    for rates in [
        [300, 500, 500, 500],
        [300, 500, 500, 200],
        [300, 500, 500, 350],
        [300, 350, 350, 500],
        [30, 350, 350, 350],
        [299, 350, 350, 350],
        [301, 350, 350, 350],
        [0, 350, 350, 350],
        [300, 349, 349, 350],
        [300, 350, 350, 351],
        [300, 350, 50, 350],
    ] {
        assert!(!holds(&with_rates(rates, &[])), "{rates:?}");
    }
}

#[test]
fn the_clauses_on_stated_nodes_stand_on_their_own() {
    let after = |writes: &[Write]| {
        let mut disk = deep();
        for &(node, place, value) in writes {
            disk.poke(node, place, value);
        }
        failing(&disk.table)
    };
    // Client 4 has 25 of class 3's 50, which is 1000 less 600, halved three times.
    assert_eq!(rates(&mut deep(), [1, 2, 3, 4, 5]), [200, 100, 50, 25, 600]);
    assert_eq!(after(&[(4, KIND, STATED), (4, SHARE, 25)]), [STATED_PLACES_CLAUSE]);
    // 1000 less 1001 is −1, and half of that is 0.
    let above = [(5, SHARE, 1001), (5, RATE, 1001)];
    let none = [1, 2, 3, 4].map(|node| (node, RATE, 0));
    assert_eq!(after(&[&above[..], &none].concat()), [STATED_RATES_CLAUSE]);
    assert_eq!(after(&above), [RATES_CLAUSE, STATED_RATES_CLAUSE]);
    // A stated root, and a stated node without a parent, are left to other clauses.
    assert_eq!(after(&[(0, KIND, STATED)]), [2]);
    assert!(!after(&[(5, PARENT, 64)]).contains(&STATED_PLACES_CLAUSE));
    // 400 a weight, beyond its limits.
    let weight = [(5, KIND, WEIGHTED), (5, SHARE, 10_001), (5, RATE, 500)];
    let others = [(1, RATE, 500), (2, RATE, 250), (3, RATE, 125), (4, RATE, 62)];
    assert_eq!(after(&[&weight[..], &others].concat()), [LIMITS_CLAUSE]);
}

#[test]
fn every_call_refuses_a_table_that_breaks_the_limits_of_16() {
    let mut above = deep();
    for (node, rate) in [(5, 1001), (1, 0), (2, 0), (3, 0), (4, 0)] {
        above.poke(node, RATE, rate);
    }
    above.poke(5, SHARE, 1001);
    let mut elsewhere = deep();
    elsewhere.poke(4, KIND, STATED);
    elsewhere.poke(4, SHARE, 25);
    for table in [above.table, elsewhere.table] {
        let cases = [
            Call::Join(client(9, 0, WEIGHTED, 1, 1)),
            leave(4),
            leave(5),
            share(5, WEIGHTED, 1),
            share(4, WEIGHTED, 1),
            change_rate(2000),
            request(4, 1),
            tick(),
            Call::Look { node: 0 },
            Call::Same { swapped: false },
            Call::Same { swapped: true },
            plan_write(1, 64),
            plan_write(2, 78),
        ]
        .map(|call| (&[1][..], call));
        first_cause_counts(&table, &cases);
    }
}

#[test]
fn same_goes_by_kind_and_stated_rate() {
    let tree = |kind: i64, share: i64| {
        let mut disk = Disk::open(1000, 100);
        disk.join(client(1, 0, kind, share, 8)).unwrap();
        disk
    };
    let mut stated = tree(STATED, 300);
    assert_eq!(stated.same(&tree(STATED, 300)), Ok(true));
    for (kind, share) in [(STATED, 301), (STATED, 299), (WEIGHTED, 300), (FIXED, 300)] {
        assert_eq!(stated.same(&tree(kind, share)), Ok(false));
    }
    let mut faster = tree(STATED, 300);
    faster.change_rate(1001).unwrap();
    assert_eq!(stated.same(&faster), Ok(false));
    // Fixed 3000 of 1000 is the same rate and another tree.
    let mut fixed = tree(FIXED, 3000);
    assert_eq!(rates(&mut fixed, [1]), rates(&mut stated, [1]));
    assert_eq!(stated.same(&fixed), Ok(false));
}

#[test]
fn a_stated_client_has_its_rate_at_every_tick() {
    // Client 1 has the 8 tokens of a size of 1 at each tick, whatever the disk has. Client
    // 2 has the rest: 8 tokens, then none, the root's balance being that of client 1.
    let mut disk = Disk::open(16_000, 100);
    disk.join(client(1, 0, STATED, 8000, 8)).unwrap();
    disk.join(client(2, 0, WEIGHTED, 1, 8)).unwrap();
    for _ in 0..3 {
        disk.request(2, 22, 1).unwrap();
        disk.request(1, 11, 1).unwrap();
        assert_eq!(disk.tick(), [[1, 11, 1, 1], [2, 22, 1, 2]]);
    }
    disk.change_rate(8000).unwrap();
    for _ in 0..3 {
        disk.request(2, 22, 1).unwrap();
        disk.request(1, 11, 1).unwrap();
        assert_eq!(disk.tick(), [[1, 11, 1, 1]]);
    }
    assert_eq!([0, 1, 2].map(|node| disk.balance(node)), [0, 0, 0]);
    assert_eq!(disk.look(2), Ok([0, 0, 3, 0]));
}

#[test]
fn a_stated_class_supplies_its_clients() {
    // Class 1 gets 8 tokens at each tick and its clients 4 each. Client 3 has all of the
    // root's other 8 and does not ask.
    let mut disk = Disk::open(16_000, 100);
    disk.join(class(1, 0, STATED, 8000, 50)).unwrap();
    disk.join(client(2, 1, WEIGHTED, 1, 8)).unwrap();
    disk.join(client(4, 1, WEIGHTED, 1, 8)).unwrap();
    disk.join(client(3, 0, WEIGHTED, 1, 8)).unwrap();
    disk.request(2, 22, 1).unwrap();
    assert_eq!(disk.tick(), [[2, 22, 1, 1]]);
    assert_eq!([0, 1, 2, 3, 4].map(|node| disk.balance(node)), [8000, 0, 4000, 8000, 4000]);
}

#[test]
fn the_judge_counts_stated_rates() {
    // Client 5 with 300 stated of 1000 lags 26 × 300 grains of a depth of 8000 and then
    // 27 × 300. Client 6 with the other 700 lags 11 × 700, and then 12 × 700.
    let waiting = |node: i64| {
        let mut judge = Judge::default();
        for call in [
            open(1000, 100),
            Call::Join(client(5, 0, STATED, 300, 8)),
            Call::Join(client(6, 0, WEIGHTED, 1, 8)),
            request(node, 1),
        ] {
            judge.observe(&call, Reply::Number(0), [&[], &[]]);
        }
        judge
    };
    for (node, quiet) in [(5, 26), (6, 11)] {
        let mut judge = waiting(node);
        let mut idle = || judge.observe(&tick(), Reply::Counts([0, 0]), [&[], &[]]);
        (0..quiet).for_each(|_| idle());
        assert_eq!(judge.violations(), []);
        judge.observe(&tick(), Reply::Counts([0, 0]), [&[], &[]]);
        let found = judge.violations().first().expect("a violation");
        assert_eq!((found.promise, found.node), (Promise::Client, node as usize));
    }
    // At a disk rate of 300 nothing is left for client 6, and as much for client 5.
    for (node, ticks, broken) in [(6, 1000, 0), (5, 26, 0), (5, 27, 1)] {
        let mut judge = waiting(node);
        judge.observe(&change_rate(300), Reply::Number(0), [&[], &[]]);
        let mut idle = || judge.observe(&tick(), Reply::Counts([0, 0]), [&[], &[]]);
        (0..ticks).for_each(|_| idle());
        assert_eq!(judge.violations().len(), broken, "client {node}");
    }
}

/// How often each situation was met, by its name.
type Met = BTreeMap<&'static str, usize>;

/// The stated rates under the root, without those of a node.
fn stated_beside(table: &[i64], node: i64) -> i64 {
    (1..64)
        .filter(|&other| other != node)
        .map(|other| other as usize)
        .filter(|&other| get(table, other, SORT) != 0 && get(table, other, KIND) == 2)
        .map(|other| get(table, other, SHARE))
        .sum()
}

/// Counts what a call met, given the table before it and the answer, 0 for an accepted
/// one.
fn count(met: &mut Met, table: &[i64], call: &Call, answer: i64) {
    if answer != 0 && answer != 16 {
        return;
    }
    let mut count = |name, holds| *met.entry(name).or_default() += usize::from(holds);
    let disk = get(table, 0, RATE);
    match *call {
        Call::Join(NewNode { node, parent, sort, kind: 2, share, .. }) => {
            let sum = stated_beside(table, node) + share;
            count("join of a stated client", answer == 0 && sort == 2);
            count("join of a stated class", answer == 0 && sort == 1);
            count("join of a second stated node", answer == 0 && sum > share);
            count("join up to the disk's rate", answer == 0 && sum == disk);
            count("join one above the disk's rate", answer == 16 && parent == 0 && sum == disk + 1);
            count("join far above the disk's rate", answer == 16 && parent == 0 && sum > 2 * disk);
            count("join elsewhere", answer == 16 && parent != 0);
            count("join above 10,000", answer == 0 && share > 10_000);
        }
        Call::ChangeShare { node, kind, share } => {
            let [old_kind, old] = [KIND, SHARE].map(|place| get(table, node as usize, place));
            let is_under_root = get(table, node as usize, PARENT) == 0;
            let sum = stated_beside(table, node) + share;
            let [from, to] = [old_kind == 2, kind == 2];
            count("change to stated", answer == 0 && to && !from);
            count("change from stated", answer == 0 && from && !to);
            count("change of a stated rate", answer == 0 && from && to && old != share);
            count("change up to the disk's rate", answer == 0 && to && sum == disk);
            count("change that the old rate would hinder", {
                answer == 0 && from && to && sum + old > disk
            });
            count("change one above the disk's rate", {
                answer == 16 && is_under_root && sum == disk + 1
            });
            count("change elsewhere", answer == 16 && !is_under_root);
        }
        Call::ChangeRate { rate } => {
            let sum = stated_beside(table, 0);
            count("rate down to the stated rates", answer == 0 && sum > 0 && rate == sum);
            count("rate one below the stated rates", answer == 16 && rate == sum - 1);
            count("rate far below the stated rates", answer == 16 && 2 * rate < sum);
            count("another rate beside stated ones", answer == 0 && sum > 0);
        }
        Call::Leave { node } => {
            let is_stated = answer == 0 && get(table, node as usize, KIND) == 2;
            count("leave of a stated node", is_stated);
        }
        Call::Tick { .. } => {
            let stated: Vec<usize> = (1..64).filter(|&node| get(table, node, KIND) == 2).collect();
            let has_children =
                |&&class: &&usize| (1..64).any(|node| get(table, node, PARENT) == class as i64);
            count("tick with a stated node", answer == 0 && !stated.is_empty());
            count("tick with children of a stated class", {
                answer == 0 && stated.iter().any(|class| has_children(&class))
            });
        }
        _ => {}
    }
}

/// How many situations are counted.
const SITUATIONS: usize = 22;

#[test]
fn runs_meet_stated_rates_in_every_way() {
    for (profile, least) in
        [(Profile::Clean, 5), (Profile::Tree, 15), (Profile::Wild, 2), (Profile::Family, 0)]
    {
        let mut met = Met::new();
        for seed in 0..100 {
            let mut world = World::default();
            for step in run(seed, 400, profile) {
                let before = world.table.inner().to_vec();
                let reply = world.run(&mut Engine, &step);
                if let (Step::Call(call), Some(reply), true) = (&step, reply, in_order(&before)) {
                    count(&mut met, &before, call, refusal(call, reply));
                }
            }
        }
        assert_eq!(met.len(), SITUATIONS);
        assert!(met.values().all(|&count| count >= least), "{profile:?}: {met:?}");
        assert!(met["tick with children of a stated class"] > 100, "{profile:?}: {met:?}");
    }
}

#[test]
fn damage_breaks_the_limits_of_16_in_every_way() {
    // Of the tree of `deep` at 1000: the stated rates one above the disk's by a node's
    // rate or by the disk's, and nodes stated under every class.
    let table = deep().table;
    let mut rng = Rng::new(3);
    let mut seen = BTreeSet::new();
    for clause in [STATED_PLACES_CLAUSE, STATED_RATES_CLAUSE] {
        for _ in 0..300 {
            for step in isolated(&mut rng, &table, clause).expect("a broken clause") {
                if let Step::Poke { place, value } = step {
                    seen.insert((place, value));
                }
            }
        }
    }
    // 599 for the disk; 1001 for client 5, 401 for class 1. Classes 2 and 3 and client 4
    // have 100, 50 and 25, and their classes 200, 100 and 50.
    for (node, place, value) in [(0, RATE, 599), (5, SHARE, 1001), (1, SHARE, 401)] {
        assert!(seen.contains(&(at(node, place), value)), "node {node}, {value}");
    }
    for (node, own, whole) in [(2, 100, 200), (3, 50, 100), (4, 25, 50)] {
        for share in [1, own, whole] {
            assert!(seen.contains(&(at(node, SHARE), share)), "node {node}, {share}");
        }
    }
}

/// Client 1 and class 2 with 100 and 200 stated, under class 2 a half and a weight; class
/// 5 with half of what is divided, classes 6 and 10 below it with all of that; weights 1
/// and 3.
fn desks(rate: i64) -> Disk {
    let mut disk = Disk::open(rate, 1000);
    for new in [
        client(1, 0, STATED, 100, 8),
        class(2, 0, STATED, 200, 100),
        client(3, 2, FIXED, 5000, 8),
        client(4, 2, WEIGHTED, 1, 8),
        class(5, 0, FIXED, 5000, 100),
        class(6, 5, WEIGHTED, 1, 50),
        client(7, 0, WEIGHTED, 1, 8),
        client(8, 0, WEIGHTED, 3, 8),
        class(10, 6, WEIGHTED, 1, 50),
    ] {
        disk.join(new).unwrap();
    }
    disk
}

/// The nodes of that tree with node 9 beside them.
const NODES_OF_DESKS: [i64; 11] = [0, 1, 2, 3, 4, 5, 6, 7, 8, 9, 10];

/// The rates of these nodes, 0 for one that is not there.
type Rates = [i64; 11];

/// A call on that tree at 1000, and the rates after it.
type Change = (Call, Rates);

/// The rates that a controller leaves after a call on that tree at 1000.
fn rates_after(controller: &mut dyn Controller, call: &Call) -> Rates {
    let mut world = world_of(&desks(1000).table);
    assert_eq!(world.call(controller, call), Reply::Number(0), "{call:?}");
    NODES_OF_DESKS.map(|node| get(world.table.inner(), node as usize, RATE))
}

/// A join of client 9 with 60 stated: 640 are divided, half of them for class 5, a
/// quarter of the other half for client 7.
fn sixty_more() -> Change {
    let call = Call::Join(client(9, 0, STATED, 60, 8));
    (call, [1000, 100, 200, 100, 100, 320, 320, 80, 240, 60, 320])
}

/// Class 2 states 300: 600 are divided.
fn three_hundred() -> Change {
    (share(2, STATED, 300), [1000, 100, 300, 150, 150, 300, 300, 75, 225, 0, 300])
}

/// A disk of 2000: 1700 are divided, and 850 are left.
fn two_thousand() -> Change {
    (change_rate(2000), [2000, 100, 200, 100, 100, 850, 850, 212, 637, 0, 850])
}

/// Every misreading that gives other rates, with a change and the wrong rates after it.
fn misread_rates() -> Vec<(Stated, Change, Rates)> {
    vec![
        // Of 1000: half, and 500 are left for the weights.
        (
            Stated::NotTakenOff,
            sixty_more(),
            [1000, 100, 200, 100, 100, 500, 500, 125, 375, 60, 500],
        ),
        (
            Stated::FixedOfWhole,
            sixty_more(),
            [1000, 100, 200, 100, 100, 500, 500, 80, 240, 60, 500],
        ),
        (
            Stated::WeightsOfWhole,
            sixty_more(),
            [1000, 100, 200, 100, 100, 320, 320, 125, 375, 60, 320],
        ),
        // 500 less 360 are 140.
        (Stated::AfterFixed, sixty_more(), [1000, 100, 200, 100, 100, 500, 500, 35, 105, 60, 500]),
        // 900 are divided, and 450 are left: 112.5 and 337.5.
        (Stated::LowestOnly, sixty_more(), [1000, 100, 200, 100, 100, 450, 450, 112, 337, 60, 450]),
        (Stated::OffBelow, sixty_more(), [1000, 100, 200, 0, 0, 320, 320, 80, 240, 60, 320]),
        (Stated::OffEverywhere, sixty_more(), [1000, 100, 200, 0, 0, 320, 0, 80, 240, 60, 0]),
        // Ten thousandths of 1000.
        (Stated::AsFixed, sixty_more(), [1000, 10, 20, 10, 10, 320, 320, 80, 240, 6, 320]),
        // 500 are left for weights of 364: 137.4, 274.7, 1.4, 4.1 and 82.4.
        (Stated::AsWeight, sixty_more(), [1000, 137, 274, 137, 137, 500, 500, 1, 4, 82, 500]),
        (
            Stated::InTokens,
            sixty_more(),
            [1000, 100_000, 200_000, 100_000, 100_000, 320, 320, 80, 240, 60_000, 320],
        ),
        (Stated::Kept, sixty_more(), [1000, 100, 200, 100, 100, 320, 320, 80, 240, 0, 320]),
        // Those from before: 700 are divided, and 350 are left, 87.5 and 262.5.
        (Stated::OthersKept, sixty_more(), [1000, 100, 200, 100, 100, 350, 350, 87, 262, 60, 350]),
        (Stated::BelowKept, three_hundred(), [1000, 100, 300, 100, 100, 300, 300, 75, 225, 0, 300]),
        (Stated::OldSum, sixty_more(), [1000, 100, 200, 100, 100, 350, 350, 87, 262, 60, 350]),
        (Stated::Scaled, two_thousand(), [2000, 200, 400, 200, 200, 850, 850, 212, 637, 0, 850]),
    ]
}

#[test]
fn misreadings_give_their_wrong_rates() {
    for (misreading, (call, right), wrong) in misread_rates() {
        assert_eq!(rates_after(&mut Engine, &call), right, "{call:?}");
        assert_eq!(rates_after(&mut Faulty::new(Fault::None), &call), right);
        let mut faulty = Faulty::new(Fault::WrongStated(misreading));
        assert_eq!(rates_after(&mut faulty, &call), wrong, "{misreading:?}");
        assert_ne!(right, wrong);
    }
}

/// Every misreading of the causes, with the disk's rate, a call on that tree, the right
/// answer and the wrong one, 0 for accepted.
fn misread_causes() -> Vec<(Stated, i64, Call, i64, i64)> {
    let stated = |parent, share| Call::Join(client(9, parent, STATED, share, 8));
    let weight = Call::Join(client(9, 0, WEIGHTED, 10_001, 8));
    vec![
        (Stated::Unknown, 1000, stated(0, 60), 0, 1),
        (Stated::KindThree, 1000, Call::Join(client(9, 0, 3, 60, 8)), 2, 0),
        (Stated::Narrow, 100_000, stated(0, 10_001), 0, 2),
        (Stated::Wide, 1000, weight, 2, 0),
        (Stated::AboveIsTwo, 1000, stated(0, 1001), 16, 2),
        (Stated::OldTree, 1000, stated(0, 701), 16, 0),
        (Stated::NotAtJoin, 1000, stated(0, 701), 16, 0),
        (Stated::NotAtShare, 1000, share(7, STATED, 701), 16, 0),
        (Stated::NotAtRate, 1000, change_rate(299), 16, 0),
        // Class 5 has 350.
        (Stated::InClass, 1000, stated(5, 350), 16, 0),
        (Stated::JoinedNotCounted, 1000, stated(0, 701), 16, 0),
        (Stated::ChangedNotCounted, 1000, share(7, STATED, 701), 16, 0),
        // 100 and 900 are 1000, and with the old 200 they are 1200.
        (Stated::OldCounted, 1000, share(2, STATED, 900), 0, 16),
        (Stated::AtLeast, 1000, stated(0, 700), 0, 16),
        // 500 are class 5's half of 1000.
        (Stated::BesideFixed, 1000, stated(0, 201), 0, 16),
        (Stated::FirstOfAll, 1000, stated(60, 1), 3, 16),
        (Stated::BeforeLevels, 1000, Call::Join(class(9, 10, STATED, 1, 8)), 6, 16),
        (Stated::BeforeDepths, 1000, Call::Join(client(9, 0, STATED, 701, 1000)), 8, 16),
        (Stated::RateBeforeLimits, 1000, change_rate(0), 2, 16),
        (Stated::RootIsSixteen, 1000, share(0, STATED, 1), 5, 16),
        (Stated::ElsewhereIsTwo, 1000, stated(5, 1), 16, 2),
        (Stated::ElsewhereIsFive, 1000, stated(5, 1), 16, 5),
        (Stated::AboveIsSeven, 1000, stated(0, 701), 16, 7),
        // Fixed 5000, 300 and 4701.
        (Stated::CountsInSeven, 100_000, stated(0, 4701), 0, 7),
    ]
}

/// Calls that these misreadings answer right.
fn still_right(wrong: Stated) -> Vec<Call> {
    let stated = |parent, share| Call::Join(client(9, parent, STATED, share, 8));
    match wrong {
        Stated::NotAtJoin | Stated::JoinedNotCounted => {
            vec![share(7, STATED, 701), change_rate(299)]
        }
        Stated::NotAtShare | Stated::ChangedNotCounted => vec![stated(0, 701), change_rate(299)],
        Stated::NotAtRate => vec![stated(0, 701), share(7, STATED, 701)],
        Stated::InClass => vec![stated(5, 351), stated(0, 701)],
        Stated::OldCounted => vec![share(2, STATED, 700), share(2, STATED, 901)],
        Stated::AtLeast => vec![stated(0, 699), stated(0, 701), change_rate(301)],
        Stated::BesideFixed => vec![stated(0, 200)],
        Stated::CountsInSeven => vec![stated(0, 700), share(7, FIXED, 5001)],
        Stated::BeforeDepths => vec![Call::Join(client(9, 0, STATED, 700, 1000))],
        Stated::Wide => vec![stated(0, 60), Call::Join(client(9, 0, WEIGHTED, 10_000, 8))],
        _ => vec![],
    }
}

/// What a controller answers to a call on that tree, 0 for accepted.
fn answer_of(controller: &mut dyn Controller, table: &[i64], call: &Call) -> i64 {
    refusal(call, world_of(table).call(controller, call))
}

#[test]
fn misreadings_give_their_wrong_answers() {
    for (misreading, rate, call, right, wrong) in misread_causes() {
        let table = desks(rate).table;
        assert_eq!(answer_of(&mut Engine, &table, &call), right, "{call:?}");
        assert_eq!(answer_of(&mut Faulty::new(Fault::None), &table, &call), right);
        let mut faulty = Faulty::new(Fault::WrongStated(misreading));
        assert_eq!(answer_of(&mut faulty, &table, &call), wrong, "{misreading:?}");
        for call in still_right(misreading) {
            let right = answer_of(&mut Engine, &table, &call);
            let mut faulty = Faulty::new(Fault::WrongStated(misreading));
            assert_eq!(answer_of(&mut faulty, &table, &call), right, "{misreading:?} {call:?}");
        }
    }
}

#[test]
fn an_accepted_call_that_is_misread_leaves_what_was_asked_for() {
    let table = desks(1000).table;
    for (misreading, call, places) in [
        (Stated::NotAtJoin, Call::Join(client(9, 0, STATED, 701, 8)), [2, 0, 1, 2, 701, 8, 701]),
        (Stated::InClass, Call::Join(client(9, 5, STATED, 50, 8)), [2, 5, 2, 2, 50, 8, 50]),
        (Stated::Wide, Call::Join(client(9, 0, WEIGHTED, 10_001, 8)), [2, 0, 1, 1, 10_001, 8, 349]),
        (Stated::NotAtShare, share(7, STATED, 701), [2, 0, 1, 2, 701, 8, 701]),
    ] {
        let node = if let Call::ChangeShare { .. } = call { 7 } else { 9 };
        let mut world = world_of(&table);
        let mut faulty = Faulty::new(Fault::WrongStated(misreading));
        assert_eq!(world.call(&mut faulty, &call), Reply::Number(0));
        assert_eq!(record(world.table.inner(), node)[..7], places, "{misreading:?}");
    }
    let mut world = world_of(&table);
    let mut faulty = Faulty::new(Fault::WrongStated(Stated::NotAtRate));
    assert_eq!(world.call(&mut faulty, &change_rate(299)), Reply::Number(0));
    assert_eq!(get(world.table.inner(), ROOT, RATE), 299);
}

/// Every misreading of the in-order test, with writes on that tree at 1000 and whether
/// the table is in order then; by the misreading it is the other way.
fn misread_order() -> Vec<(Stated, Vec<Write>, bool)> {
    let none = [5, 6, 7, 8, 10].map(|node| (node, RATE, 0));
    let with_none = |share: i64| [&[(1, SHARE, share), (1, RATE, share)], &none[..]].concat();
    vec![
        // 100 of class 2's 200, and half of the other 100.
        (Stated::OrderAnyPlace, vec![(4, KIND, STATED), (4, SHARE, 100), (3, RATE, 50)], false),
        // 801 and 200 leave −1, and half of that is 0.
        (Stated::OrderAnySum, with_none(801), false),
        (Stated::OrderAtLeast, with_none(800), true),
        // 20,001 and 200 are all of 20,201.
        (
            Stated::OrderNarrow,
            vec![
                (0, RATE, 20_201),
                (1, SHARE, 20_001),
                (1, RATE, 20_001),
                (5, RATE, 0),
                (6, RATE, 0),
                (7, RATE, 0),
                (8, RATE, 0),
                (10, RATE, 0),
            ],
            true,
        ),
        // 350 are left for weights of 10,004: 349.9 and 0.1.
        (Stated::OrderWide, vec![(7, SHARE, 10_001), (7, RATE, 349), (8, RATE, 0)], false),
        (Stated::OrderStatedRoot, vec![(0, KIND, STATED)], false),
    ]
}

#[test]
fn misreadings_take_other_tables_for_in_order() {
    let look = |controller: &mut dyn Controller, table: &[i64]| -> bool {
        let answer: Answer<_> = controller.look(table, 0);
        assert!(answer.is_ok() || answer == Err(1));
        answer.is_ok()
    };
    for (misreading, writes, right) in misread_order() {
        let mut disk = desks(1000);
        assert!(look(&mut Faulty::new(Fault::WrongStated(misreading)), &disk.table));
        for (node, place, value) in writes {
            disk.poke(node, place, value);
        }
        assert_eq!(look(&mut Engine, &disk.table), right, "{misreading:?}");
        assert_eq!(look(&mut Faulty::new(Fault::None), &disk.table), right);
        let faulty = &mut Faulty::new(Fault::WrongStated(misreading));
        assert_eq!(look(faulty, &disk.table), !right, "{misreading:?}");
    }
}

#[test]
fn misreadings_of_writing() {
    // A plan of nine nodes has 9 + 11 × 9 bytes.
    let table = desks(1000).table;
    for (fault, short, enough) in [
        (Fault::None, Err(13), Err(16)),
        (Fault::WrongStated(Stated::Written), Err(13), Ok(108)),
        (Fault::WrongStated(Stated::WriteBeforeLength), Err(16), Err(16)),
    ] {
        assert_eq!(Faulty::new(fault).plan_write(&table, 1, &mut [0; 107]), short, "{fault:?}");
        assert_eq!(Faulty::new(fault).plan_write(&table, 1, &mut [0; 108]), enough, "{fault:?}");
    }
}

#[test]
fn every_misreading_is_worked_by_hand() {
    let by_hand = misread_rates().into_iter().map(|(misreading, ..)| misreading);
    let by_hand = by_hand.chain(misread_causes().into_iter().map(|(misreading, ..)| misreading));
    let by_hand = by_hand.chain(misread_order().into_iter().map(|(misreading, ..)| misreading));
    let all = by_hand.chain([Stated::Written, Stated::WriteBeforeLength]).map(Fault::WrongStated);
    assert!(all.eq(FAULTS.into_iter().filter(|fault| matches!(fault, Fault::WrongStated(_)))));
}

#[test]
fn few_runs_tell_every_misreading() {
    for fault in FAULTS.into_iter().filter(|fault| matches!(fault, Fault::WrongStated(_))) {
        let profile = if fault.needs_wild_runs() { Profile::Wild } else { Profile::Tree };
        let found = (0..40).any(|seed| {
            let steps = run(seed, 400, profile);
            first_difference(&mut Engine, &mut Faulty::new(fault), &steps).is_some()
        });
        assert!(found, "{fault:?}");
    }
}
