//! The edges of document 01, worked by hand with the costs of document 02's
//! request (a), and some more.

use crate::support::*;
use hds_engine::refusal::*;
use hds_engine::table::*;

#[test]
fn the_papers_rates() {
    let mut disk = Disk::open(1000, 40);
    disk.join(class(1, 0, FIXED, 5000, 30)).unwrap();
    disk.join(client(2, 1, FIXED, 4000, 10)).unwrap();
    disk.join(client(3, 1, WEIGHTED, 4, 10)).unwrap();
    disk.join(client(4, 1, WEIGHTED, 6, 10)).unwrap();
    assert_eq!([1, 2, 3, 4].map(|node| disk.rate(node)), [500, 200, 120, 180]);
}

#[test]
fn three_equal_weights_lose_a_grain() {
    let mut disk = Disk::open(1000, 40);
    for node in [1, 2, 3] {
        disk.join(client(node, 0, WEIGHTED, 1, 1)).unwrap();
    }
    assert_eq!([1, 2, 3].map(|node| disk.rate(node)), [333; 3]);
}

#[test]
fn a_weight_beside_fixed_ten_thousand_gets_nothing() {
    let mut disk = Disk::open(1000, 40);
    disk.join(client(1, 0, WEIGHTED, 9, 1)).unwrap();
    disk.join(client(2, 0, FIXED, 10_000, 1)).unwrap();
    assert_eq!([1, 2].map(|node| disk.rate(node)), [0, 1000]);
}

#[test]
fn a_weight_beside_three_thirds_gets_nothing() {
    let mut disk = Disk::open(1000, 40);
    for (node, share) in [(1, 3333), (2, 3333), (3, 3334)] {
        disk.join(client(node, 0, FIXED, share, 1)).unwrap();
    }
    disk.join(client(4, 0, WEIGHTED, 1, 1)).unwrap();
    assert_eq!([1, 2, 3, 4].map(|node| disk.rate(node)), [333, 333, 333, 0]);
}

#[test]
fn a_weight_beside_a_third() {
    // 1000 × 3333 / 10,000 is 333.3; what is left, 1000 × 6667 / 10,000, is
    // 666.7, and the lone weight gets it whole. One grain goes to nobody.
    let mut disk = Disk::open(1000, 40);
    disk.join(client(1, 0, FIXED, 3333, 1)).unwrap();
    disk.join(client(2, 0, WEIGHTED, 1, 1)).unwrap();
    assert_eq!([0, 1, 2].map(|node| disk.rate(node)), [1000, 333, 666]);
}

#[test]
fn fixed_ten_thousand_and_one_in_all() {
    let mut disk = Disk::open(1000, 40);
    disk.join(client(1, 0, FIXED, 6000, 1)).unwrap();
    assert_eq!(disk.join(client(2, 0, FIXED, 4001, 1)), Err(SHARES_ABOVE));
    assert_eq!(disk.join(client(2, 0, FIXED, 4000, 1)), Ok(0));
    assert_eq!(disk.change_share(2, FIXED, 4001), Err(SHARES_ABOVE));
    assert_eq!(disk.change_share(2, WEIGHTED, 4001), Ok(0));
}

#[test]
fn rates_do_not_depend_on_the_order_of_joining() {
    let nodes = [
        client(9, 0, WEIGHTED, 7, 3),
        client(2, 0, FIXED, 1234, 3),
        client(5, 0, WEIGHTED, 11, 3),
        client(4, 0, FIXED, 77, 3),
    ];
    let mut forth = Disk::open(999_983, 40);
    let mut back = Disk::open(999_983, 40);
    nodes.iter().for_each(|&new| assert_eq!(forth.join(new), Ok(0)));
    nodes.iter().rev().for_each(|&new| assert_eq!(back.join(new), Ok(0)));
    assert_eq!(forth.table, back.table);
}

#[test]
fn size_three_goes_at_the_eighth_tick() {
    // It costs 8, and the client has the disk's whole rate.
    let mut disk = Disk::open(1000, 40);
    disk.join(client(5, 0, WEIGHTED, 4, 16)).unwrap();
    assert_eq!(disk.request(5, 42, 3), Ok(1));
    quiet_ticks(&mut disk, 7);
    assert_eq!(disk.tick(), [[5, 42, 3, 5]]);
    assert_eq!((disk.balance(5), disk.balance(0)), (0, 0));
}

#[test]
fn the_root_supplies_one_that_asks_alone() {
    // The root has the 8 tokens of a size of 1 at the eighth tick, 5 half of it.
    let mut disk = two_equal_clients(1000);
    disk.request(5, 1, 1).unwrap();
    quiet_ticks(&mut disk, 7);
    assert_eq!(disk.tick(), [[5, 1, 1, 0]]);
    assert_eq!([5, 6, 0].map(|node| disk.balance(node)), [4000, 4000, 0]);
    // Of a disk eight times as fast it goes at the first.
    let mut disk = two_equal_clients(8000);
    disk.request(5, 1, 1).unwrap();
    assert_eq!(disk.tick(), [[5, 1, 1, 0]]);
    assert_eq!([5, 6, 0].map(|node| disk.balance(node)), [4000, 4000, 0]);
}

#[test]
fn the_earlier_request_gets_the_roots_balance() {
    // The root is 1 step above both, so the earlier one, 6, empties it at the eighth
    // tick, when both clients have 4000. Eight ticks later 5 has 8000 of its own, and
    // the root has 8000 too.
    let mut disk = two_equal_clients(1000);
    disk.request(6, 66, 1).unwrap();
    disk.request(5, 55, 1).unwrap();
    quiet_ticks(&mut disk, 7);
    assert_eq!(disk.tick(), [[6, 66, 1, 0]]);
    quiet_ticks(&mut disk, 7);
    assert_eq!(disk.tick(), [[5, 55, 1, 5]]);
    assert_eq!([5, 6, 0].map(|node| disk.balance(node)), [0, 8000, 0]);
    // At eight times the rate these are the first and the second tick.
    let mut disk = two_equal_clients(8000);
    disk.request(6, 66, 1).unwrap();
    disk.request(5, 55, 1).unwrap();
    assert_eq!(disk.tick(), [[6, 66, 1, 0]]);
    assert_eq!(disk.tick(), [[5, 55, 1, 5]]);
    assert_eq!([5, 6, 0].map(|node| disk.balance(node)), [0, 8000, 0]);
}

/// Ticks that dispatch nothing.
fn quiet_ticks(disk: &mut Disk, count: usize) {
    (0..count).for_each(|_| assert!(disk.tick().is_empty()));
}

fn two_equal_clients(rate: i64) -> Disk {
    let mut disk = Disk::open(rate, 40);
    disk.join(client(5, 0, WEIGHTED, 1, 16)).unwrap();
    disk.join(client(6, 0, WEIGHTED, 1, 16)).unwrap();
    disk
}

#[test]
fn same_of_different_trees() {
    let mut alone = Disk::open(1000, 40);
    alone.join(client(5, 0, WEIGHTED, 4, 16)).unwrap();
    assert_eq!(two_equal_clients(1000).same(&alone), Ok(false));
    assert_eq!(alone.same(&two_equal_clients(1000)), Ok(false));
}

#[test]
fn same_with_a_table_out_of_order() {
    let mut disk = two_equal_clients(1000);
    let mut broken = two_equal_clients(1000);
    broken.poke(5, BALANCE, -1);
    assert_eq!(disk.same(&broken), Err(NOT_IN_ORDER));
    assert_eq!(broken.same(&disk), Err(NOT_IN_ORDER));
    disk.poke(5, BALANCE, -1);
    assert_eq!(disk.same(&broken), Err(NOT_IN_ORDER));
}

#[test]
fn looks_at_no_node() {
    let mut disk = Disk::open(1000, 40);
    disk.join(client(5, 0, WEIGHTED, 4, 16)).unwrap();
    for (node, number) in [(-1, 2), (64, 2), (4, 3), (6, 3), (63, 3)] {
        assert_eq!(disk.look(node), Err(number));
    }
    assert_eq!([0, 5].map(|node| disk.look(node)), [Ok([1000, 0, 0, 0]); 2]);
}

#[test]
fn the_root_goes_into_debt() {
    // Both pay 8 tokens of their own, and the root pays for both. With 500 of
    // 1000 each: 7500 + 500 − 8000, 8000 + 500 − 8000, 0 + 1000 − 16,000. With
    // 4000 of 8000 each: 4000 + 4000 − 8000, 8000 + 4000 − 8000 and 8000 − 16,000.
    for (rate, before, after) in
        [(1000, [7500, 8000], [-15_000, 0, 500]), (8000, [4000, 8000], [-8000, 0, 4000])]
    {
        let mut disk = Disk::open(rate, 16);
        for (node, balance) in [(1, before[0]), (2, before[1])] {
            disk.join(client(node, 0, WEIGHTED, 1, 8)).unwrap();
            disk.poke(node as usize, BALANCE, balance);
            disk.request(node, 0, 1).unwrap();
        }
        assert_eq!(disk.tick(), [[1, 0, 1, 1], [2, 0, 1, 2]]);
        assert_eq!([0, 1, 2].map(|node| disk.balance(node)), after);
    }
}

#[test]
fn sizes_at_depth_sixteen() {
    // A size of 12 costs 16, and 13 costs 17.
    let mut disk = Disk::open(1, 40);
    disk.join(client(5, 0, WEIGHTED, 1, 16)).unwrap();
    assert_eq!(disk.request(5, 0, 12), Ok(1));
    assert_eq!(disk.request(5, 0, 13), Err(DEPTH_ABOVE));
    assert_eq!(disk.request(5, 0, 16), Err(DEPTH_ABOVE));
    assert_eq!(disk.request(5, 0, 17), Err(DEPTH_ABOVE));
    assert_eq!(disk.request(5, 0, i64::MAX), Err(DEPTH_ABOVE));
    assert_eq!(disk.request(5, 0, 0), Err(OUTSIDE_LIMITS));
    assert_eq!(disk.request(5, 0, i64::MIN), Err(OUTSIDE_LIMITS));
    assert!(disk.tick().is_empty());
}

#[test]
fn depths_under_forty() {
    let mut disk = Disk::open(1000, 40);
    disk.join(client(1, 0, WEIGHTED, 1, 16)).unwrap();
    assert_eq!(disk.join(client(2, 0, WEIGHTED, 1, 25)), Err(DEPTH_ABOVE));
    assert_eq!(disk.join(client(2, 0, WEIGHTED, 1, 24)), Ok(0));
    assert_eq!(disk.join(client(3, 0, WEIGHTED, 1, 1)), Err(DEPTH_ABOVE));
}

#[test]
fn the_ninth_waiting_request() {
    let mut disk = Disk::open(1, 40);
    disk.join(client(5, 0, WEIGHTED, 1, 16)).unwrap();
    for arrival in 1..=8 {
        assert_eq!(disk.request(5, -arrival, 12), Ok(arrival));
    }
    assert_eq!(disk.request(5, 0, 1), Err(QUEUE_FULL));
    assert_eq!(disk.look(5), Ok([1, 0, 8, 0]));
}

#[test]
fn lengths_of_the_dispatch_list() {
    let mut disk = Disk::open(1, 40);
    disk.join(client(5, 0, WEIGHTED, 1, 16)).unwrap();
    assert_eq!(disk.tick_with(&mut [], &mut []), Ok([0, 0]));
    disk.request(5, 0, 12).unwrap();
    disk.request(5, 0, 12).unwrap();
    assert_eq!(disk.tick_with(&mut [9; 7], &mut []), Err(BUFFER_SHORT));
    assert_eq!(disk.tick_with(&mut [9; 8], &mut []), Ok([0, 0]));
    assert_eq!(disk.tick_with(&mut [9; 9], &mut []), Ok([0, 0]));
}
