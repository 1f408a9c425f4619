//! The four steps of a tick.

use crate::support::*;
use hds_engine::table::*;

#[test]
fn balances_grow_and_are_cut() {
    let mut disk = Disk::open(30_000, 40);
    disk.join(class(1, 0, WEIGHTED, 1, 20)).unwrap();
    disk.join(client(2, 1, WEIGHTED, 1, 7)).unwrap();
    disk.tick();
    assert_eq!([0, 1, 2].map(|node| disk.balance(node)), [30_000, 20_000, 7_000]);
    disk.tick();
    assert_eq!([0, 1, 2].map(|node| disk.balance(node)), [40_000, 20_000, 7_000]);
}

#[test]
fn step_two_comes_before_the_cut() {
    // Two of 8 tokens go of 20, and 4 are left for the third.
    let mut disk = Disk::open(20_000, 8);
    disk.join(client(1, 0, WEIGHTED, 1, 8)).unwrap();
    for tag in 0..3 {
        disk.request(1, tag, 1).unwrap();
    }
    assert_eq!(disk.tick(), [[1, 0, 1, 1], [1, 1, 1, 1]]);
    assert_eq!((disk.balance(0), disk.balance(1)), (4000, 4000));
}

#[test]
fn step_two_goes_by_number_and_not_by_arrival() {
    // Each client gets 16 tokens, the cost of 12 once and of 1 twice.
    let mut disk = Disk::open(32_000, 32);
    disk.join(client(8, 0, WEIGHTED, 1, 16)).unwrap();
    disk.join(client(3, 0, WEIGHTED, 1, 16)).unwrap();
    disk.request(8, 80, 1).unwrap();
    disk.request(3, 30, 12).unwrap();
    disk.request(8, 81, 1).unwrap();
    assert_eq!(disk.tick(), [[3, 30, 12, 3], [8, 80, 1, 8], [8, 81, 1, 8]]);
}

#[test]
fn a_request_behind_waits_for_the_one_before_it() {
    // The one behind costs 8, which is there at the second tick, the one before
    // it 16.
    let mut disk = Disk::open(4000, 40);
    disk.join(client(1, 0, WEIGHTED, 1, 16)).unwrap();
    disk.request(1, 10, 12).unwrap();
    disk.request(1, 11, 1).unwrap();
    (0..3).for_each(|_| assert!(disk.tick().is_empty()));
    assert_eq!(disk.tick(), [[1, 10, 12, 1]]);
    assert!(disk.tick().is_empty());
    assert_eq!(disk.tick(), [[1, 11, 1, 1]]);
}

#[test]
fn the_supplier_is_the_first_on_the_way_up() {
    let mut disk = Disk::open(1000, 100);
    disk.join(class(1, 0, WEIGHTED, 1, 90)).unwrap();
    disk.join(class(2, 1, WEIGHTED, 1, 80)).unwrap();
    disk.join(class(3, 2, WEIGHTED, 1, 70)).unwrap();
    disk.join(client(4, 3, FIXED, 1, 60)).unwrap();
    for (node, balance) in [(0, 74_000), (1, 53_000), (2, 13_000), (3, 7_000)] {
        disk.poke(node, BALANCE, balance);
    }
    // The client's own rate is 0 grains, and each class grows by 1000. The costs
    // are 44, 14, 8, 8 and 12.
    for size in [40, 10, 3, 7, 8] {
        disk.request(4, size, size).unwrap();
    }
    assert_eq!(disk.tick(), [[4, 40, 40, 1], [4, 10, 10, 2], [4, 3, 3, 3], [4, 7, 7, 0]]);
    // 0 paid 44, 14, 8 and 8 of 75; 1 paid 44, 14 and 8 of 54; 2 paid 14 and 8
    // of 14; 3 paid 8 of 8; the client paid nothing.
    let balances = [0, 1, 2, 3, 4].map(|node| disk.balance(node));
    assert_eq!(balances, [1_000, -12_000, -8_000, 0, 0]);
}

#[test]
fn step_four_passes_over_a_request_without_supplier() {
    // The root has 12 tokens; a size of 9 costs 13, and 8 costs 12.
    let mut disk = Disk::open(12_000, 40);
    disk.join(client(1, 0, FIXED, 1, 20)).unwrap();
    disk.join(client(2, 0, FIXED, 1, 20)).unwrap();
    disk.request(1, 10, 9).unwrap();
    disk.request(2, 20, 8).unwrap();
    assert_eq!(disk.tick(), [[2, 20, 8, 0]]);
}

#[test]
fn among_equal_steps_step_four_goes_by_arrival() {
    // The root is 1 step above both clients.
    let mut disk = Disk::open(40_000, 40);
    disk.join(client(1, 0, FIXED, 1, 20)).unwrap();
    disk.join(client(2, 0, FIXED, 1, 20)).unwrap();
    disk.request(2, 20, 1).unwrap();
    disk.request(1, 10, 1).unwrap();
    disk.request(2, 21, 1).unwrap();
    disk.request(1, 11, 1).unwrap();
    disk.request(2, 22, 8).unwrap();
    disk.request(1, 12, 1).unwrap();
    let served: Vec<i64> = disk.tick().iter().map(|entry| entry[1]).collect();
    // Four cost 32 of 40 tokens. 22 costs 12, so 12 gets the last 8.
    assert_eq!(served, [20, 10, 21, 11, 12]);
}

#[test]
fn a_client_can_be_its_own_supplier_in_step_four() {
    // The client has 8 tokens and the root 16; the costs are 16 and 8.
    let mut disk = Disk::open(16_000, 40);
    disk.join(client(1, 0, FIXED, 5000, 20)).unwrap();
    disk.request(1, 10, 12).unwrap();
    disk.request(1, 11, 1).unwrap();
    assert_eq!(disk.tick(), [[1, 10, 12, 0], [1, 11, 1, 1]]);
    assert_eq!((disk.balance(0), disk.balance(1)), (-8000, 0));
}

#[test]
fn those_behind_move_up_and_leave_zeros() {
    let mut disk = Disk::open(8000, 40);
    disk.join(client(1, 0, WEIGHTED, 1, 16)).unwrap();
    for (tag, size) in [(-5, 1), (-6, 9), (i64::MAX, 8)] {
        disk.request(1, tag, size).unwrap();
    }
    assert_eq!(disk.tick(), [[1, -5, 1, 1]]);
    let queue = &record(&disk.table, 1)[QUEUE..];
    assert_eq!(queue[..6], [-6, 9, 2, i64::MAX, 8, 3]);
    assert!(queue[6..].iter().all(|&number| number == 0));
    assert_eq!(disk.look(1), Ok([8000, 0, 2, 0]));
}

#[test]
fn all_balances_at_their_largest() {
    let mut disk = Disk::open(MAX_RATE, MAX_DEPTH);
    disk.join(client(1, 0, FIXED, 10_000, MAX_DEPTH)).unwrap();
    disk.tick();
    for _ in 0..8 {
        disk.request(1, 0, MAX_DEPTH - 16).unwrap();
    }
    assert_eq!(disk.tick().len(), 2);
    assert_eq!(disk.look(1), Ok([MAX_RATE, 0, 6, 0]));
}

#[test]
fn a_tick_with_sixty_three_full_clients() {
    // The least of the rates is a 2016th of the disk's, 496 tokens; eight
    // requests of 10 cost 112.
    let mut disk = Disk::open(MAX_RATE, 1000);
    for node in 1..64 {
        disk.join(client(node, 0, WEIGHTED, node, 15)).unwrap();
        (0..8).for_each(|tag| assert!(disk.request(node, tag, 10).is_ok()));
    }
    assert_eq!(disk.tick().len(), 504);
}
