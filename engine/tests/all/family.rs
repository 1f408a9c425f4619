//! Spare stays in the family first: what step 4 picks, worked by hand.
//!
//! Entries are client, arrival number, size and supplier: every tag here is the
//! arrival number. A size of 1 costs 8 tokens, 8 costs 12, 12 costs 16, 20 costs
//! 24. Steps are those of the supplier above the client.

use crate::support::*;
use hds_engine::faulty::{Fault, Faulty, Pick, FAULTS};
use hds_engine::table::*;

/// A disk with these nodes, each given by its number, its parent and its balance in
/// tokens, and with these requests in turn, each given by its client and its size.
/// A node is a class if it is a parent here.
///
/// The balances are those that steps 2 to 4 of the first tick find. The root's rate
/// is 1 grain, which its balance lacks before; the others have a ten thousandth of
/// that, which is 0.
pub fn asking(root: i64, nodes: &[(i64, i64, i64)], requests: &[(i64, i64)]) -> Disk {
    let mut disk = Disk::open(1, 20_000);
    disk.poke(ROOT, BALANCE, 1000 * root - 1);
    for &(node, parent, tokens) in nodes {
        let is_parent = nodes.iter().any(|&(_, parent, _)| parent == node);
        let new = if is_parent {
            let depth = [2000, 500, 100][get(&disk.table, parent as usize, LEVEL) as usize];
            class(node, parent, FIXED, 1, depth)
        } else {
            client(node, parent, FIXED, 1, 24)
        };
        disk.join(new).unwrap();
        disk.poke(node as usize, BALANCE, 1000 * tokens);
    }
    for (arrival, &(client, size)) in (1..).zip(requests) {
        assert_eq!(disk.request(client, arrival, size), Ok(arrival));
    }
    disk
}

/// The balances of these nodes in tokens, all of which are whole.
pub fn tokens<const N: usize>(disk: &mut Disk, nodes: [i64; N]) -> [i64; N] {
    nodes.map(|node| {
        let grains = disk.balance(node);
        assert_eq!(grains % 1000, 0, "node {node}");
        grains / 1000
    })
}

/// How many requests of these clients wait.
fn waiting<const N: usize>(disk: &mut Disk, clients: [i64; N]) -> [i64; N] {
    clients.map(|client| disk.look(client).unwrap()[2])
}

/// Client 2 in class 1, which has 8 tokens; client 5 in class 4, which has none.
/// Client 5 asks first.
pub fn family_and_stranger(root: i64) -> Disk {
    asking(root, &[(1, 0, 8), (2, 1, 0), (4, 0, 0), (5, 4, 0)], &[(5, 1), (2, 1)])
}

#[test]
fn the_family_goes_before_an_earlier_stranger() {
    // Client 2 has class 1 at 1 step, and client 5 the root at 2. Class 1 pays, and
    // with it the root, which has 8 − 8 left: client 5 waits.
    let mut disk = family_and_stranger(8);
    assert_eq!(disk.tick(), [[2, 2, 1, 1]]);
    assert_eq!(tokens(&mut disk, [0, 1, 2, 4, 5]), [0, 0, 0, 0, 0]);
    assert_eq!(waiting(&mut disk, [2, 5]), [0, 1]);
}

#[test]
fn the_stranger_goes_after_the_family_if_the_root_has_enough() {
    // The root has 16 − 8 left, which is the stranger's.
    let mut disk = family_and_stranger(16);
    assert_eq!(disk.tick(), [[2, 2, 1, 1], [5, 1, 1, 0]]);
    assert_eq!(tokens(&mut disk, [0, 1, 2, 4, 5]), [0, 0, 0, 0, 0]);
    assert_eq!(waiting(&mut disk, [2, 5]), [0, 0]);
}

#[test]
fn a_token_less_and_the_stranger_waits() {
    let mut disk = family_and_stranger(15);
    assert_eq!(disk.tick(), [[2, 2, 1, 1]]);
    assert_eq!(tokens(&mut disk, [0, 1]), [7, 0]);
    // The root gets 1 grain at each tick: the stranger goes at the thousandth.
    (0..999).for_each(|_| assert!(disk.tick().is_empty()));
    assert_eq!(disk.tick(), [[5, 1, 1, 0]]);
    assert_eq!(tokens(&mut disk, [0, 1]), [0, 0]);
}

#[test]
fn the_family_pays_also_where_the_root_has_nothing() {
    // Class 1 has enough of its own; the root falls to −8.
    let mut disk = family_and_stranger(0);
    assert_eq!(disk.tick(), [[2, 2, 1, 1]]);
    assert_eq!(tokens(&mut disk, [0, 1]), [-8, 0]);
}

/// As [`family_and_stranger`], with the stranger's numbers below the family's:
/// client 2 in class 1, which has nothing; client 5 in class 4, which has 8 tokens.
fn stranger_and_family() -> Disk {
    asking(8, &[(1, 0, 0), (2, 1, 0), (4, 0, 8), (5, 4, 0)], &[(2, 1), (5, 1)])
}

#[test]
fn the_family_goes_first_whatever_the_numbers() {
    let mut disk = stranger_and_family();
    assert_eq!(disk.tick(), [[5, 2, 1, 4]]);
    assert_eq!(tokens(&mut disk, [0, 1, 4]), [0, 0, 0]);
    assert_eq!(waiting(&mut disk, [2, 5]), [1, 0]);
}

#[test]
fn a_client_of_the_root_is_in_the_roots_family() {
    // Client 5 stands under the root: both have 1 step, and client 5 asked first.
    // The root falls to 0 by its request, and to −8 by what class 1 pays.
    let nodes = [(1, 0, 8), (2, 1, 0), (5, 0, 0)];
    let mut disk = asking(8, &nodes, &[(5, 1), (2, 1)]);
    assert_eq!(disk.tick(), [[5, 1, 1, 0], [2, 2, 1, 1]]);
    assert_eq!(tokens(&mut disk, [0, 1]), [-8, 0]);
    // The other way round class 1 and the root pay first, and client 5 waits.
    let mut disk = asking(8, &nodes, &[(2, 1), (5, 1)]);
    assert_eq!(disk.tick(), [[2, 1, 1, 1]]);
    assert_eq!(tokens(&mut disk, [0, 1]), [0, 0]);
}

/// Two classes with 8 tokens each, and a client in each.
fn two_families(classes: [i64; 2], clients: [i64; 2], asking_order: [i64; 2]) -> Disk {
    let [first, second] = classes;
    let nodes = [(first, 0, 8), (clients[0], first, 0), (second, 0, 8), (clients[1], second, 0)];
    asking(16, &nodes, &asking_order.map(|client| (client, 1)))
}

#[test]
fn of_two_families_the_earlier_goes_first() {
    // All have 1 step. Whether the lower or the higher number asks first, and
    // whether its class has the lower or the higher number: arrival decides.
    for (clients, asking_order, list) in [
        ([8, 9], [8, 9], [[8, 1, 1, 1], [9, 2, 1, 2]]),
        ([8, 9], [9, 8], [[9, 1, 1, 2], [8, 2, 1, 1]]),
        ([9, 8], [8, 9], [[8, 1, 1, 2], [9, 2, 1, 1]]),
        ([9, 8], [9, 8], [[9, 1, 1, 1], [8, 2, 1, 2]]),
    ] {
        let mut disk = two_families([1, 2], clients, asking_order);
        assert_eq!(disk.tick(), list);
        assert_eq!(tokens(&mut disk, [0, 1, 2, 8, 9]), [0, 0, 0, 0, 0]);
    }
}

#[test]
fn in_one_family_the_earlier_goes_first() {
    // Class 1 has enough for one of three.
    for (order, first) in [([2, 3, 4], 2), ([3, 4, 2], 3), ([4, 2, 3], 4)] {
        let nodes = [(1, 0, 8), (2, 1, 0), (3, 1, 0), (4, 1, 0)];
        let mut disk = asking(8, &nodes, &order.map(|client| (client, 1)));
        assert_eq!(disk.tick(), [[first, 1, 1, 1]]);
        assert_eq!(tokens(&mut disk, [0, 1]), [0, 0]);
    }
}

/// Client 2 in class 1, with 8 tokens of its own beside the class's 16; client 3 in
/// class 4, which has 8. Client 2 asks for 16 tokens and at the end for 8.
pub fn own_behind_a_larger_one() -> Disk {
    let nodes = [(1, 0, 16), (2, 1, 8), (4, 0, 8), (3, 4, 0)];
    asking(40, &nodes, &[(2, 12), (3, 1), (2, 1)])
}

#[test]
fn a_client_that_pays_itself_goes_before_others() {
    // Step 2: client 2 has 8 of 16. Step 4: both have 1 step, and class 1 pays the
    // earlier one, of 16. Then client 2 has 8 of 8 itself, at 0 steps, and goes
    // before the request of client 3, which is earlier.
    let mut disk = own_behind_a_larger_one();
    assert_eq!(disk.tick(), [[2, 1, 12, 1], [2, 3, 1, 2], [3, 2, 1, 4]]);
    // The root paid 16, 8 and 8 of 40, class 1 16 and 8 of 16, class 4 8 of 8.
    assert_eq!(tokens(&mut disk, [0, 1, 2, 4, 3]), [8, -8, 0, 0, 0]);
}

#[test]
fn a_client_that_pays_itself_goes_before_others_of_its_class() {
    // Class 1 pays 16 of 24 for client 2. The next of client 2 has 0 steps and goes
    // before the older one of client 3, which has class 1 at 1 step. With it class 1
    // pays 8 and is empty, so client 3 has the root, which has 40 − 16 − 8.
    let mut disk = asking(40, &[(1, 0, 24), (2, 1, 8), (3, 1, 0)], &[(2, 12), (3, 1), (2, 1)]);
    assert_eq!(disk.tick(), [[2, 1, 12, 1], [2, 3, 1, 2], [3, 2, 1, 0]]);
    assert_eq!(tokens(&mut disk, [0, 1, 2, 3]), [8, 0, 0, 0]);
}

/// Clients 2 and 3 in class 1, which has 8 tokens; client 5 in class 4, which has
/// none. They ask in the order 2, 5, 3.
pub fn steps_rise(root: i64) -> Disk {
    let nodes = [(1, 0, 8), (2, 1, 0), (3, 1, 0), (4, 0, 0), (5, 4, 0)];
    asking(root, &nodes, &[(2, 1), (5, 1), (3, 1)])
}

#[test]
fn steps_are_counted_anew_after_each_dispatch() {
    // At first clients 2 and 3 have class 1 at 1 step, and client 5 the root at 2.
    // Class 1 pays for client 2 and is empty: client 3 has the root at 2 steps too,
    // and client 5 asked before it.
    let mut disk = steps_rise(24);
    assert_eq!(disk.tick(), [[2, 1, 1, 1], [5, 2, 1, 0], [3, 3, 1, 0]]);
    assert_eq!(tokens(&mut disk, [0, 1, 4]), [0, 0, 0]);
    // Where the root has 8 left after client 2, they are client 5's.
    let mut disk = steps_rise(16);
    assert_eq!(disk.tick(), [[2, 1, 1, 1], [5, 2, 1, 0]]);
    assert_eq!(waiting(&mut disk, [2, 3, 5]), [0, 1, 0]);
}

#[test]
pub fn steps_rise_by_what_others_take_further_down() {
    // Class 1 has 16, class 2 in it 16. Client 3 in class 2 and client 4 in class 1
    // have 1 step; client 5 in class 6, which has nothing, has the root at 2 steps.
    // Client 3 takes 16 of class 2 and with it of class 1, so client 4 has the root
    // at 2 steps, behind client 5. The root has 32 − 16, which are 8 for each.
    let nodes = [(1, 0, 16), (2, 1, 16), (3, 2, 0), (4, 1, 0), (6, 0, 0), (5, 6, 0)];
    let mut disk = asking(32, &nodes, &[(3, 12), (5, 1), (4, 1)]);
    assert_eq!(disk.tick(), [[3, 1, 12, 2], [5, 2, 1, 0], [4, 3, 1, 0]]);
    assert_eq!(tokens(&mut disk, [0, 1, 2]), [0, 0, 0]);
}

#[test]
pub fn steps_rise_with_the_next_request_of_a_client() {
    // Client 4 under classes 1, 2 and 3, which have 24, 0 and 8 tokens; client 8
    // under classes 6 and 5, which have 24 and 0. Client 4 has class 3 at 1 step for
    // its first request, of 8, and class 1 at 3 steps for its next, of 16. Client 8
    // has class 6 at 2 steps for both of its own, of 8 each.
    let nodes = [(1, 0, 24), (2, 1, 0), (3, 2, 8), (4, 3, 0), (6, 0, 24), (5, 6, 0), (8, 5, 0)];
    let mut disk = asking(40, &nodes, &[(4, 1), (8, 1), (4, 12), (8, 1)]);
    assert_eq!(disk.tick(), [[4, 1, 1, 3], [8, 2, 1, 6], [8, 4, 1, 6], [4, 3, 12, 1]]);
    // The root paid 40 in all, class 1 8 and 16, class 2 and 3 8, class 6 8 and 8.
    assert_eq!(tokens(&mut disk, [0, 1, 2, 3, 6, 5]), [0, 0, -8, 0, 8, 0]);
}

/// Clients on level 4, in five branches of three classes each: the client 14 has the
/// classes 13, 12 and 11 above it, and so on. Client 14 has 8 tokens and class 13
/// has 16; classes 23, 32 and 41 have 8 each.
pub fn five_branches() -> Disk {
    let full = [(14, 8), (13, 16), (23, 8), (32, 8), (41, 8)];
    let mut nodes = Vec::new();
    for branch in [10, 20, 30, 40, 50] {
        let ways = [(1, 0), (2, branch + 1), (3, branch + 2), (4, branch + 3)];
        for (node, parent) in ways.map(|(last, parent)| (branch + last, parent)) {
            let tokens = full.iter().find(|(full, _)| *full == node).map_or(0, |full| full.1);
            nodes.push((node, parent, tokens));
        }
    }
    asking(56, &nodes, &[(54, 1), (44, 1), (34, 1), (24, 1), (14, 12), (14, 1)])
}

/// What the classes pay in [`five_branches`], and client 14 itself.
const FOUR_BRANCHES: &[Entry] =
    &[[24, 4, 1, 23], [14, 5, 12, 13], [14, 6, 1, 14], [34, 3, 1, 32], [44, 2, 1, 41]];

#[test]
fn suppliers_up_to_four_steps_above() {
    // Arrivals 1 to 6. Client 54 has the root at 4 steps, 44 class 41 at 3, 34 class
    // 32 at 2, 24 class 23 at 1. Client 14 has class 13 at 1 step for 16 tokens, and
    // then itself at 0 for 8. So arrivals 4 and 5 go with 1 step, 6 with 0, and then
    // 3, 2 and 1.
    let mut disk = five_branches();
    assert_eq!(disk.tick(), [FOUR_BRANCHES, &[[54, 1, 1, 0]]].concat());
    // The root paid 8, 16, 8, 8, 8 and 8 of 56. What a class pays, those above it pay.
    assert_eq!(tokens(&mut disk, [0, 14, 13, 12, 11]), [0, 0, -8, -24, -24]);
    assert_eq!(tokens(&mut disk, [23, 22, 21]), [0, -8, -8]);
    assert_eq!(tokens(&mut disk, [33, 32, 31]), [0, 0, -8]);
    assert_eq!(tokens(&mut disk, [43, 42, 41]), [0, 0, 0]);
    assert_eq!(tokens(&mut disk, [53, 52, 51]), [0, 0, 0]);
}

#[test]
fn every_pair_of_steps() {
    // Clients 14 and 24 under three classes each. One node above each has 8 tokens,
    // and the root has 16: enough for both in either order.
    let ways = [[14, 13, 12, 11, 0], [24, 23, 22, 21, 0]];
    for (first, second) in (1..=4).flat_map(|first| (1..=4).map(move |second| (first, second))) {
        let suppliers = [ways[0][first], ways[1][second]];
        let tokens = |node| if suppliers.contains(&node) { 8 } else { 0 };
        let mut nodes = Vec::new();
        for way in ways {
            let pairs = (0..4).rev().map(|place| (way[place], way[place + 1]));
            nodes.extend(pairs.map(|(node, parent)| (node, parent, tokens(node))));
        }
        for (order, arrivals) in [([14, 24], [1, 2]), ([24, 14], [2, 1])] {
            let entries = [[14, arrivals[0], 1, suppliers[0]], [24, arrivals[1], 1, suppliers[1]]];
            let [one, other] = entries;
            let one_goes_first = first < second || first == second && arrivals[0] == 1;
            let list = if one_goes_first { [one, other] } else { [other, one] };
            let mut disk = asking(16, &nodes, &order.map(|client| (client, 1)));
            assert_eq!(disk.tick(), list, "{first} and {second} steps");
        }
    }
}

/// Client 4 under classes 1, 2 and 3, of which class 1 has 8 tokens; client 5 under
/// the root, which has 8. Client 4 asks first.
fn two_levels() -> Disk {
    let nodes = [(1, 0, 8), (2, 1, 0), (3, 2, 0), (4, 3, 0), (5, 0, 0)];
    asking(8, &nodes, &[(4, 1), (5, 1)])
}

#[test]
fn steps_count_from_the_client() {
    // The root is 1 step above client 5, and class 1 is 3 steps above client 4, though
    // it is further from the root. The root pays 8 for client 5, and then 8 with
    // class 1.
    let mut disk = two_levels();
    assert_eq!(disk.tick(), [[5, 2, 1, 0], [4, 1, 1, 1]]);
    assert_eq!(tokens(&mut disk, [0, 1, 2, 3]), [-8, 0, 0, 0]);
}

/// Client 2 in class 1, which has nothing, has 8 tokens and asks for 16 and then for
/// 8; client 5 in class 4, which has 8, asks after it.
fn small_behind_large() -> Disk {
    asking(24, &[(1, 0, 0), (2, 1, 8), (4, 0, 8), (5, 4, 0)], &[(2, 12), (2, 1), (5, 1)])
}

#[test]
fn only_the_oldest_request_of_a_client_may_go() {
    // The second request of client 2 would have 0 steps, but its first has the root
    // at 2. So client 5 goes first, with 1 step; the root has 24 − 8, which the first
    // of client 2 takes, and then the second goes.
    let mut disk = small_behind_large();
    assert_eq!(disk.tick(), [[5, 3, 1, 4], [2, 1, 12, 0], [2, 2, 1, 2]]);
    assert_eq!(tokens(&mut disk, [0, 1, 2, 4]), [-8, -8, 0, 0]);
}

#[test]
fn a_small_request_waits_behind_one_without_supplier() {
    // The first of client 2 costs 24, which nobody has.
    let nodes = [(1, 0, 8), (2, 1, 7), (4, 0, 8), (5, 4, 0)];
    let mut disk = asking(23, &nodes, &[(2, 20), (2, 1), (5, 1)]);
    assert_eq!(disk.tick(), [[5, 3, 1, 4]]);
    assert_eq!(tokens(&mut disk, [0, 1, 2, 4]), [15, 8, 7, 0]);
    assert_eq!(waiting(&mut disk, [2, 5]), [2, 0]);
}

/// Clients 11 and 13 in class 1, client 12 in class 2; the classes have 16 tokens each.
fn taking_turns() -> Disk {
    let nodes = [(1, 0, 16), (11, 1, 0), (13, 1, 0), (2, 0, 16), (12, 2, 0)];
    asking(32, &nodes, &[(11, 1), (12, 1), (13, 1), (12, 1)])
}

#[test]
fn families_take_turns_by_arrival() {
    // All have 1 step throughout: each class pays for two.
    let mut disk = taking_turns();
    assert_eq!(disk.tick(), [[11, 1, 1, 1], [12, 2, 1, 2], [13, 3, 1, 1], [12, 4, 1, 2]]);
    assert_eq!(tokens(&mut disk, [0, 1, 2]), [0, 0, 0]);
}

/// Clients 2 and 3 in class 1; it and the root have 12 tokens each. Client 2 asks for 16,
/// and then client 3 for 8.
fn large_before_small() -> Disk {
    asking(12, &[(1, 0, 12), (2, 1, 0), (3, 1, 0)], &[(2, 12), (3, 1)])
}

#[test]
fn a_request_without_supplier_holds_nobody_up() {
    let mut disk = large_before_small();
    assert_eq!(disk.tick(), [[3, 2, 1, 1]]);
    assert_eq!(tokens(&mut disk, [0, 1]), [4, 4]);
    assert_eq!(waiting(&mut disk, [2, 3]), [1, 0]);
}

/// Client 2 in class 1 has nothing, client 3 in it 8 tokens, which are the class's 8
/// too. The root has 16.
fn held_by_a_child() -> Disk {
    asking(16, &[(1, 0, 8), (2, 1, 0), (3, 1, 8)], &[(2, 1)])
}

#[test]
fn a_class_supplies_also_what_a_child_holds() {
    let mut disk = held_by_a_child();
    assert_eq!(disk.tick(), [[2, 1, 1, 1]]);
    assert_eq!(tokens(&mut disk, [0, 1, 2, 3]), [8, 0, 0, 8]);
}

/// Clients 2 and 3 have 8 tokens each, and client 3 asks first.
fn both_pay_themselves() -> Disk {
    asking(16, &[(2, 0, 8), (3, 0, 8)], &[(3, 1), (2, 1)])
}

#[test]
fn step_two_goes_by_number() {
    let mut disk = both_pay_themselves();
    assert_eq!(disk.tick(), [[2, 2, 1, 2], [3, 1, 1, 3]]);
    assert_eq!(tokens(&mut disk, [0, 2, 3]), [0, 0, 0]);
}

#[test]
fn nobody_waits_who_has_a_supplier() {
    // Clients 2 and 3 in class 1, clients 5 and 6 in class 4. The costs are 16, 12
    // and 8 five times.
    let nodes = [(1, 0, 20), (2, 1, 0), (3, 1, 7), (4, 0, 9), (5, 4, 0), (6, 4, 0)];
    let requests = [(2, 12), (5, 8), (3, 1), (6, 1), (2, 1), (5, 1), (3, 1)];
    let mut disk = asking(44, &nodes, &requests);
    // 1: class 1 pays 16 of 20, at 1 step; the root has 28. Then clients 2, 3 and 5
    // have the root at 2 steps, and client 6 has class 4.
    // 4: class 4 pays 8 of 9, at 1 step; the root has 20. All others have 2 steps.
    // 2: the root pays 12 and has 8. 3: the root pays 8 and has 0.
    assert_eq!(disk.tick(), [[2, 1, 12, 1], [6, 4, 1, 4], [5, 2, 8, 0], [3, 3, 1, 0]]);
    // One request of 8 waits at each of clients 2, 3 and 5, and no node has 8.
    assert_eq!(waiting(&mut disk, [2, 3, 5, 6]), [1, 1, 1, 0]);
    assert_eq!(tokens(&mut disk, [0, 1, 2, 3, 4, 5, 6]), [0, 4, 0, 7, 1, 0, 0]);
    disk.poke(ROOT, BALANCE, 23_999);
    // With 24 in the root they go, all with 2 steps.
    assert_eq!(disk.tick(), [[2, 5, 1, 0], [5, 6, 1, 0], [3, 7, 1, 0]]);
}

#[test]
fn a_family_that_asks_all_the_time_keeps_its_spare() {
    // Class 1 has the disk's whole rate, 8 tokens at each tick, and its client 2 a ten
    // thousandth of that, 0.8 grains, which is 0. Class 4 and client 5 in it get 0.
    let mut disk = Disk::open(8000, 100);
    disk.join(class(1, 0, FIXED, 10_000, 50)).unwrap();
    disk.join(client(2, 1, FIXED, 1, 8)).unwrap();
    disk.join(class(4, 0, WEIGHTED, 1, 50)).unwrap();
    disk.join(client(5, 4, WEIGHTED, 1, 8)).unwrap();
    disk.request(5, 50, 1).unwrap();
    for tag in 0..3 {
        disk.request(2, tag, 1).unwrap();
        assert_eq!(disk.tick(), [[2, tag, 1, 1]]);
        assert_eq!(tokens(&mut disk, [0, 1]), [0, 0]);
    }
    // At a tick at which the family asks for nothing, the stranger gets the root's 8.
    assert_eq!(disk.tick(), [[5, 50, 1, 0]]);
    assert_eq!(tokens(&mut disk, [0, 1]), [0, 8]);
    // Class 1 has 16 then, and the root 8. Of two requests class 1 pays both.
    disk.request(5, 51, 1).unwrap();
    disk.request(2, 3, 1).unwrap();
    disk.request(2, 4, 1).unwrap();
    assert_eq!(disk.tick(), [[2, 3, 1, 1], [2, 4, 1, 1]]);
    assert_eq!(tokens(&mut disk, [0, 1]), [-8, 0]);
}

/// The stranger of [`family_and_stranger`] empties the root, and class 1 pays as well.
const STRANGER_FIRST: &[Entry] = &[[5, 1, 1, 0], [2, 2, 1, 1]];

/// In [`two_families`] the higher number goes first, of class 1, though it asks later.
const LATER_FIRST: &[Entry] = &[[9, 2, 1, 1], [8, 1, 1, 2]];

/// In [`own_behind_a_larger_one`] client 3 goes before client 2 pays itself.
const OWN_AFTER_CLASS: &[Entry] = &[[2, 1, 12, 1], [3, 2, 1, 4], [2, 3, 1, 2]];

/// In [`steps_rise`] client 3 goes before client 5, of the root as well.
const STALE_STEPS: &[Entry] = &[[2, 1, 1, 1], [3, 3, 1, 0], [5, 2, 1, 0]];

/// In [`two_levels`] class 1 pays, which leaves the root with 0.
const FAR_FROM_ROOT: &[Entry] = &[[4, 1, 1, 1]];

#[test]
fn arrival_alone_gives_other_lists() {
    // Of the five branches the root pays 8 of 56 first, then 8, 8, 8, 16 and 8 with the
    // others. For the large one of client 2 it pays 16 of 24, then 8 and 8 with others.
    let branches = [[54, 1, 1, 0], [44, 2, 1, 41], [34, 3, 1, 32], [24, 4, 1, 23], [14, 5, 12, 13]];
    for (mut disk, by_arrival) in [
        (family_and_stranger(8), STRANGER_FIRST.to_vec()),
        (family_and_stranger(16), STRANGER_FIRST.to_vec()),
        (own_behind_a_larger_one(), OWN_AFTER_CLASS.to_vec()),
        (two_levels(), FAR_FROM_ROOT.to_vec()),
        (five_branches(), [&branches[..], &[[14, 6, 1, 14]]].concat()),
        (small_behind_large(), vec![[2, 1, 12, 0], [2, 2, 1, 2], [5, 3, 1, 4]]),
    ] {
        let faulty = &mut Faulty::new(Fault::WrongPick(Pick::ArrivalAlone));
        assert_eq!(dispatches(faulty, &mut disk.table.clone()), [by_arrival.clone(), vec![]]);
        assert_ne!(disk.tick(), by_arrival);
    }
}

/// A misreading, a disk that brings it out, and the list that it makes of it.
type Misreading = (Pick, fn() -> Disk, &'static [Entry]);

/// All misreadings of what step 4 picks.
const MISREADINGS: [Misreading; 32] = [
    (Pick::ArrivalAlone, || family_and_stranger(8), STRANGER_FIRST),
    // 2 steps before 1.
    (Pick::MostSteps, || family_and_stranger(8), STRANGER_FIRST),
    (Pick::TiesByNumber, || two_families([1, 2], [9, 8], [9, 8]), &[[8, 2, 1, 2], [9, 1, 1, 1]]),
    (Pick::TiesByHighestNumber, || two_families([1, 2], [9, 8], [8, 9]), LATER_FIRST),
    (Pick::TiesBySupplier, || two_families([1, 2], [9, 8], [8, 9]), LATER_FIRST),
    (Pick::TiesByLatest, || two_families([1, 2], [9, 8], [8, 9]), LATER_FIRST),
    // The root has level 0, class 1 level 1.
    (Pick::SupplierNearRoot, || family_and_stranger(8), STRANGER_FIRST),
    (Pick::SupplierFarFromRoot, two_levels, FAR_FROM_ROOT),
    // Both clients have level 2, so it goes by arrival.
    (Pick::ClientNearRoot, || family_and_stranger(8), STRANGER_FIRST),
    // Neither pays itself, so it goes by arrival.
    (Pick::OwnOrOther, || family_and_stranger(8), STRANGER_FIRST),
    (Pick::ClassOrOther, own_behind_a_larger_one, OWN_AFTER_CLASS),
    (Pick::RootOrOther, two_levels, FAR_FROM_ROOT),
    (Pick::OwnLast, own_behind_a_larger_one, OWN_AFTER_CLASS),
    (Pick::OwnSkipped, own_behind_a_larger_one, &[[2, 1, 12, 1], [3, 2, 1, 4]]),
    // Class 1 is empty after its 16, so the root pays, at 2 steps.
    (Pick::OwnNever, own_behind_a_larger_one, &[[2, 1, 12, 1], [3, 2, 1, 4], [2, 3, 1, 0]]),
    // The root pays for client 5 and is empty, and class 1 is not asked.
    (Pick::SkipsMiddle, two_levels, &[[5, 2, 1, 0]]),
    // The root is 4 steps above client 54, which waits.
    (Pick::ThreeLevels, five_branches, FOUR_BRANCHES),
    // Class 1 has 8 − 8 to spare, and the root 16 − 8.
    (Pick::SpareOnly, held_by_a_child, &[[2, 1, 1, 0]]),
    // Client 5 is looked at after client 2, and has the lower arrival number.
    (Pick::EitherLess, || family_and_stranger(8), STRANGER_FIRST),
    // Client 5 is looked at after client 2, and has not the lower arrival number.
    (Pick::BothLess, stranger_and_family, &[[2, 1, 1, 0], [5, 2, 1, 4]]),
    (Pick::StepsOfClient, || steps_rise(24), STALE_STEPS),
    (Pick::StepsOfRequest, || steps_rise(24), STALE_STEPS),
    (Pick::InRounds, own_behind_a_larger_one, OWN_AFTER_CLASS),
    (
        Pick::WholeClient,
        taking_turns,
        &[[11, 1, 1, 1], [12, 2, 1, 2], [12, 4, 1, 2], [13, 3, 1, 1]],
    ),
    (
        Pick::WholeFamily,
        taking_turns,
        &[[11, 1, 1, 1], [13, 3, 1, 1], [12, 2, 1, 2], [12, 4, 1, 2]],
    ),
    (Pick::StepsSoFar, own_behind_a_larger_one, OWN_AFTER_CLASS),
    (Pick::NeverBack, own_behind_a_larger_one, &[[2, 1, 12, 1], [3, 2, 1, 4]]),
    (Pick::FewestOnly, || family_and_stranger(16), &[[2, 2, 1, 1]]),
    (Pick::OldestOfFamily, large_before_small, &[]),
    // Client 2 pays its second itself, and class 4 pays 8; the root has 24 − 16 left,
    // of the 16 for the first.
    (Pick::AnyOfQueue, small_behind_large, &[[2, 2, 1, 2], [5, 3, 1, 4]]),
    (Pick::StepTwoByArrival, both_pay_themselves, &[[3, 1, 1, 3], [2, 2, 1, 2]]),
    (Pick::WithoutStepTwo, both_pay_themselves, &[[3, 1, 1, 3], [2, 2, 1, 2]]),
];

#[test]
fn misreadings_give_their_wrong_lists() {
    for (pick, disk, wrong) in MISREADINGS {
        let right = disk().tick();
        let given = |fault| {
            let [first, second] = dispatches(&mut Faulty::new(fault), &mut disk().table);
            [first, second].concat()
        };
        assert_eq!(given(Fault::None), right, "{pick:?}");
        assert_eq!(given(Fault::WrongPick(pick)), wrong, "{pick:?}");
        assert_ne!(right, wrong, "{pick:?}");
    }
    let listed = FAULTS.into_iter().filter(|fault| matches!(fault, Fault::WrongPick(_)));
    assert!(listed.eq(MISREADINGS.map(|(pick, ..)| Fault::WrongPick(pick))));
}
