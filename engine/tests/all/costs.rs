//! What a request costs: the ends of the ranges, the depth that a cost may not
//! exceed, the charge and the comparisons with balances.

use crate::support::*;
use hds_engine::cost::{cost, largest_size, RANGE_ENDS};
use hds_engine::refusal::*;
use hds_engine::table::*;

#[test]
fn costs_at_the_ends_of_the_ranges() {
    for (size, expected) in COSTS {
        assert_eq!(cost(size), expected, "{size}");
    }
    assert_eq!(RANGE_ENDS, [1, 7, 8, 63, 64, 511, 512]);
}

#[test]
fn costs_of_all_small_sizes() {
    assert!((1..=2000).all(|size| cost(size) == cost_of(size)));
}

#[test]
fn costs_of_sizes_that_no_request_has() {
    assert_eq!([i64::MIN, -1, 0].map(cost), [0; 3]);
    let largest = i64::MAX - 16;
    let costs = [largest - 1, largest, largest + 1, i64::MAX].map(cost);
    assert_eq!(costs, [i64::MAX - 1, i64::MAX, i64::MAX, i64::MAX]);
}

/// Depths, each with the largest size that they let wait.
const LARGEST: [(i64, i64); 13] = [
    (8, 7),
    (9, 7),
    (11, 7),
    (12, 8),
    (13, 9),
    (67, 63),
    (71, 63),
    (72, 64),
    (519, 511),
    (520, 511),
    (527, 511),
    (528, 512),
    (1_000_000, 999_984),
];

#[test]
fn the_largest_size_at_a_depth() {
    assert_eq!([1, 7].map(largest_size), [None; 2]);
    for (depth, size) in LARGEST {
        assert_eq!(largest_size(depth), Some(size), "{depth}");
    }
    for depth in 8..=2000 {
        let size = largest_size(depth).unwrap();
        assert!(cost_of(size) <= depth && cost_of(size + 1) > depth, "{depth}");
    }
}

#[test]
fn a_cost_above_the_depth_is_refused() {
    for (depth, size) in LARGEST {
        let mut disk = alone(1, MAX_DEPTH, depth);
        assert_eq!(disk.request(5, 0, size + 1), Err(DEPTH_ABOVE), "{depth}");
        assert_eq!(disk.request(5, 0, depth), Err(DEPTH_ABOVE), "{depth}");
        assert_eq!(disk.request(5, 0, i64::MAX), Err(DEPTH_ABOVE), "{depth}");
        assert_eq!(disk.request(5, 0, 0), Err(OUTSIDE_LIMITS), "{depth}");
        assert_eq!(disk.request(5, 0, size), Ok(1), "{depth}");
        assert_eq!(disk.request(5, 0, 1), Ok(2), "{depth}");
    }
}

#[test]
fn a_client_of_a_depth_below_eight_never_asks() {
    for depth in [1, 7] {
        let mut disk = alone(1, 40, depth);
        for size in [1, depth, 8, i64::MAX] {
            assert_eq!(disk.request(5, 0, size), Err(DEPTH_ABOVE));
        }
        assert_eq!(disk.request(5, 0, 0), Err(OUTSIDE_LIMITS));
    }
}

/// Client 5 alone, with the disk's whole rate.
fn alone(rate: i64, root_depth: i64, depth: i64) -> Disk {
    let mut disk = Disk::open(rate, root_depth);
    disk.join(client(5, 0, WEIGHTED, 1, depth)).unwrap();
    disk
}

#[test]
fn step_two_compares_and_charges_the_cost() {
    for (size, cost) in COSTS {
        // Just the cost in one tick.
        let mut disk = alone(1000 * cost, MAX_DEPTH, cost);
        disk.request(5, 3, size).unwrap();
        assert_eq!(disk.tick(), [[5, 3, size, 5]]);
        assert_eq!((disk.balance(5), disk.balance(0)), (0, 0), "{size}");
        // A grain less: it goes at the second tick, of twice that.
        let mut disk = alone(1000 * cost - 1, MAX_DEPTH, cost);
        disk.request(5, 3, size).unwrap();
        assert!(disk.tick().is_empty(), "{size}");
        assert_eq!(disk.tick(), [[5, 3, size, 5]]);
        let left = 1000 * cost - 2;
        assert_eq!((disk.balance(5), disk.balance(0)), (left, left), "{size}");
    }
}

#[test]
fn step_four_compares_and_charges_the_cost() {
    // Class 1 has the disk's rate, and client 5 a ten thousandth of it.
    for (size, cost) in COSTS {
        let mut disk = borrower(1000 * cost);
        disk.request(5, 3, size).unwrap();
        assert_eq!(disk.tick(), [[5, 3, size, 1]]);
        assert_eq!([0, 1].map(|node| disk.balance(node)), [0, 0], "{size}");
        assert_eq!(disk.balance(5), cost / 10, "{size}");
        // A grain less: no supplier at the first tick. At the second, of twice
        // that, the class is the first that has enough.
        let rate = 1000 * cost - 1;
        let mut disk = borrower(rate);
        disk.request(5, 3, size).unwrap();
        assert!(disk.tick().is_empty(), "{size}");
        // At the largest cost the balances are cut to the depth.
        let full = (2 * rate).min(1_000_000_000);
        assert_eq!(disk.tick(), [[5, 3, size, 1]]);
        assert_eq!([0, 1].map(|node| disk.balance(node)), [full - 1000 * cost; 2], "{size}");
        assert_eq!(disk.balance(5), 2 * (rate / 10_000), "{size}");
    }
}

/// Client 5 under class 1, which has the disk's whole rate.
fn borrower(rate: i64) -> Disk {
    let mut disk = Disk::open(rate, MAX_DEPTH);
    disk.join(class(1, 0, FIXED, 10_000, MAX_DEPTH)).unwrap();
    disk.join(client(5, 1, FIXED, 1, MAX_DEPTH)).unwrap();
    disk
}

#[test]
fn sizes_of_one_cost_are_listed_as_they_are() {
    // All cost 8 tokens, and 24 are there.
    let mut disk = alone(24_000, 40, 8);
    for size in [1, 4, 7] {
        disk.request(5, 10 + size, size).unwrap();
    }
    assert_eq!(disk.tick(), [[5, 11, 1, 5], [5, 14, 4, 5], [5, 17, 7, 5]]);
    assert_eq!((disk.balance(5), disk.balance(0)), (0, 0));
}

#[test]
fn a_cost_of_the_whole_depth_goes_of_a_full_balance() {
    // The balance is cut to the depth, 12 tokens, and at the next tick it is
    // 12,001 grains before step 2.
    let mut disk = alone(1, 40, 12);
    disk.poke(5, BALANCE, 12_000);
    disk.tick();
    assert_eq!(disk.balance(5), 12_000);
    disk.request(5, 3, 8).unwrap();
    assert_eq!(disk.tick(), [[5, 3, 8, 5]]);
    // The root had 2 grains and paid 12,000.
    assert_eq!((disk.balance(5), disk.balance(0)), (1, -11_998));
}
