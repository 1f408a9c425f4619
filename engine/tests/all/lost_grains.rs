//! The grains nobody gets: a class's rate less the sum of its children's rates,
//! and 0 for a client.

use std::collections::BTreeMap;

use crate::support::*;
use hds_engine::differential::first_difference;
use hds_engine::faulty::{Fault, Faulty, Lost, FAULTS};
use hds_engine::order::in_order;
use hds_engine::random::{run, Profile};
use hds_engine::refusal::*;
use hds_engine::steps::{Call, Reply, Step, World};
use hds_engine::table::*;
use hds_engine::{Answer, Controller, Engine, Seen};

#[test]
fn three_equal_weights_lose_one() {
    // 333 each.
    let mut disk = Disk::open(1000, 40);
    for node in [1, 2, 3] {
        disk.join(client(node, 0, WEIGHTED, 1, 1)).unwrap();
    }
    assert_eq!(disk.look(0), Ok([1000, 0, 0, 1]));
    assert_eq!([1, 2, 3].map(|node| disk.look(node)), [Ok([333, 0, 0, 0]); 3]);
}

#[test]
fn three_thirds_lose_one() {
    // 333 each, and 0 for the weight beside them, which is there and then is not.
    let mut disk = Disk::open(1000, 40);
    for (node, share) in [(1, 3333), (2, 3333), (3, 3334)] {
        disk.join(client(node, 0, FIXED, share, 1)).unwrap();
    }
    disk.join(client(4, 0, WEIGHTED, 1, 1)).unwrap();
    assert_eq!([0, 1, 2, 3, 4].map(|node| disk.lost(node)), [1, 0, 0, 0, 0]);
    disk.leave(4).unwrap();
    assert_eq!([0, 1, 2, 3].map(|node| disk.lost(node)), [1, 0, 0, 0]);
}

#[test]
fn the_papers_class_loses_nothing_and_its_disk_half() {
    // 200, 120 and 180 of 500; nothing else stands under the root.
    let mut disk = Disk::open(1000, 40);
    disk.join(class(1, 0, FIXED, 5000, 30)).unwrap();
    disk.join(client(2, 1, FIXED, 4000, 10)).unwrap();
    disk.join(client(3, 1, WEIGHTED, 4, 10)).unwrap();
    disk.join(client(4, 1, WEIGHTED, 6, 10)).unwrap();
    assert_eq!([0, 1, 2, 3, 4].map(|node| disk.lost(node)), [500, 0, 0, 0, 0]);
}

#[test]
fn a_class_without_children_loses_its_whole_rate() {
    let mut disk = Disk::open(1000, 40);
    assert_eq!(disk.look(0), Ok([1000, 0, 0, 1000]));
    // Each class gets half of the one above it, which then loses the other half.
    for (node, half) in [(1, 500), (2, 250), (3, 125)] {
        disk.join(class(node, node - 1, FIXED, 5000, 40)).unwrap();
        assert_eq!([node - 1, node].map(|node| disk.lost(node)), [half, half]);
    }
    assert_eq!([0, 1, 2, 3].map(|node| disk.lost(node)), [500, 250, 125, 125]);
    disk.join(client(4, 3, WEIGHTED, 1, 8)).unwrap();
    assert_eq!([0, 1, 2, 3, 4].map(|node| disk.lost(node)), [500, 250, 125, 0, 0]);
}

#[test]
fn a_client_loses_nothing() {
    // One on every level, with a rate, a balance and a request that waits.
    let mut disk = Disk::open(80_000, 400);
    for node in 1..=3 {
        disk.join(class(node, node - 1, FIXED, 5000, 400 - 20 * node)).unwrap();
    }
    for (node, parent) in [(10, 0), (11, 1), (12, 2), (13, 3)] {
        disk.join(client(node, parent, FIXED, 5000, 20)).unwrap();
        disk.request(node, 0, 1).unwrap();
        disk.poke(node as usize, BALANCE, 7000);
    }
    let rates = [(10, 40_000), (11, 20_000), (12, 10_000), (13, 5000)];
    for (node, rate) in rates {
        assert_eq!(disk.look(node), Ok([rate, 7000, 1, 0]));
    }
    // Two halves leave nothing, and half of class 3's 10,000 goes to nobody.
    assert_eq!([0, 1, 2, 3].map(|node| disk.lost(node)), [0, 0, 0, 5000]);
}

#[test]
fn rates_too_small_to_divide() {
    // Halves of 1 grain are 0 and 0.
    let mut disk = Disk::open(1, 40);
    disk.join(client(1, 0, WEIGHTED, 1, 1)).unwrap();
    disk.join(client(2, 0, WEIGHTED, 1, 1)).unwrap();
    assert_eq!([0, 1, 2].map(|node| disk.rate(node)), [1, 0, 0]);
    assert_eq!([0, 1, 2].map(|node| disk.lost(node)), [1, 0, 0]);
    // A tenth of 7 grains is 0, and a class of rate 0 has nothing to lose, with
    // children or without. What is left beside it is 6.3 grains.
    let mut disk = Disk::open(7, 40);
    disk.join(class(1, 0, FIXED, 1000, 20)).unwrap();
    assert_eq!([0, 1].map(|node| disk.lost(node)), [7, 0]);
    disk.join(client(2, 1, FIXED, 10_000, 1)).unwrap();
    disk.join(client(3, 1, WEIGHTED, 1, 1)).unwrap();
    assert_eq!([0, 1, 2, 3].map(|node| disk.lost(node)), [7, 0, 0, 0]);
    disk.join(client(4, 0, WEIGHTED, 1, 1)).unwrap();
    assert_eq!([0, 1, 4].map(|node| disk.lost(node)), [1, 0, 0]);
}

#[test]
fn the_greatest_rate() {
    let mut disk = Disk::open(1_000_000_000, 40);
    assert_eq!(disk.look(0), Ok([1_000_000_000, 0, 0, 1_000_000_000]));
    disk.join(client(1, 0, FIXED, 1, 1)).unwrap();
    assert_eq!(disk.lost(0), 999_900_000);
    disk.change_share(1, FIXED, 10_000).unwrap();
    assert_eq!(disk.lost(0), 0);
    disk.change_share(1, WEIGHTED, 1).unwrap();
    assert_eq!(disk.lost(0), 0);
    disk.join(client(2, 0, WEIGHTED, 1, 1)).unwrap();
    disk.join(client(3, 0, WEIGHTED, 1, 1)).unwrap();
    assert_eq!(disk.lost(0), 1);
}

#[test]
fn sixty_three_children() {
    // A 63rd of 1000 is 15.9, and 63 × 15 is 945.
    assert_eq!(lost_by_all(1000, |_| (WEIGHTED, 1)), 55);
    // A ten thousandth of the greatest rate is 100,000, and 63 get 6,300,000.
    assert_eq!(lost_by_all(1_000_000_000, |_| (FIXED, 1)), 993_700_000);
    // The weights 1 to 63 sum to 2016. Of 2016 each gets its weight, and of 2015
    // one less than that, which is 1953 in all.
    assert_eq!(lost_by_all(2016, |node| (WEIGHTED, node)), 0);
    assert_eq!(lost_by_all(2015, |node| (WEIGHTED, node)), 62);
    // 31 fixed of 0.3 grains get 0; 990.7 are left, of which 32 get 30 each.
    let mixed = |node| if node < 32 { (FIXED, 3) } else { (WEIGHTED, 1) };
    assert_eq!(lost_by_all(1000, mixed), 40);
}

/// What the root loses with clients 1 to 63 below it, each of that kind and share.
fn lost_by_all(rate: i64, kind_and_share: impl Fn(i64) -> (i64, i64)) -> i64 {
    let mut disk = Disk::open(rate, 63);
    for node in 1..64 {
        let (kind, share) = kind_and_share(node);
        disk.join(client(node, 0, kind, share, 1)).unwrap();
    }
    assert!((1..64).all(|node| disk.lost(node) == 0));
    disk.lost(0)
}

#[test]
fn every_change_of_the_tree_shows() {
    let mut disk = Disk::open(1000, 40);
    let mut lost = |change: &dyn Fn(&mut Disk) -> Answer<i64>| {
        assert_eq!(change(&mut disk), Ok(0));
        [0, 3].map(|node| disk.look(node).map(|[.., lost]| lost))
    };
    let gone = Err(NOT_THERE);
    // 1000; 333 and 666.
    assert_eq!(lost(&|disk| disk.join(client(1, 0, WEIGHTED, 1, 1))), [Ok(0), gone]);
    assert_eq!(lost(&|disk| disk.join(client(2, 0, WEIGHTED, 2, 1))), [Ok(1), gone]);
    // 333 to class 3, and 222 and 444 of the 666 that are left.
    assert_eq!(lost(&|disk| disk.join(class(3, 0, FIXED, 3333, 9))), [Ok(1), Ok(333)]);
    // Half of 333 is 166.
    assert_eq!(lost(&|disk| disk.join(client(4, 3, FIXED, 5000, 1))), [Ok(1), Ok(167)]);
    assert_eq!(lost(&|disk| disk.change_share(4, WEIGHTED, 9)), [Ok(1), Ok(0)]);
    assert_eq!(lost(&|disk| disk.change_share(4, FIXED, 9999)), [Ok(1), Ok(1)]);
    // Client 1 gets 0.1 and client 2 the 666 that are left.
    assert_eq!(lost(&|disk| disk.change_share(1, FIXED, 1)), [Ok(1), Ok(1)]);
    // Both get 0.1, and class 3 still 333.
    assert_eq!(lost(&|disk| disk.change_share(2, FIXED, 1)), [Ok(667), Ok(1)]);
    // 1, 1 and 3333, of which client 4 gets 3332.
    assert_eq!(lost(&|disk| disk.change_rate(10_000)), [Ok(6665), Ok(1)]);
    assert_eq!(lost(&|disk| disk.leave(1)), [Ok(6666), Ok(1)]);
    assert_eq!(lost(&|disk| disk.leave(4)), [Ok(6666), Ok(3333)]);
    assert_eq!(lost(&|disk| disk.leave(3)), [Ok(9999), gone]);
    assert_eq!(lost(&|disk| disk.leave(2)), [Ok(10_000), gone]);
}

#[test]
fn a_change_at_the_root_shows_below() {
    // Classes 1 and 2 have the disk's rate, and three clients a third of it each.
    let mut disk = Disk::open(1000, 40);
    disk.join(class(1, 0, WEIGHTED, 1, 30)).unwrap();
    disk.join(class(2, 1, WEIGHTED, 1, 30)).unwrap();
    for node in [3, 4, 5] {
        disk.join(client(node, 2, WEIGHTED, 1, 10)).unwrap();
    }
    assert_eq!([0, 1, 2].map(|node| disk.lost(node)), [0, 0, 1]);
    disk.change_rate(1001).unwrap();
    assert_eq!([0, 1, 2].map(|node| disk.lost(node)), [0, 0, 2]);
    disk.change_rate(999).unwrap();
    assert_eq!([0, 1, 2].map(|node| disk.lost(node)), [0, 0, 0]);
    // Halves of 999 are 499, and a third of that is 166.
    disk.join(client(6, 0, WEIGHTED, 1, 10)).unwrap();
    assert_eq!([0, 1, 2].map(|node| disk.lost(node)), [1, 0, 1]);
}

#[test]
fn ticks_and_requests_leave_it_as_it_is() {
    // The clients have 333 each. At the eighth tick the root has the 8 tokens of
    // the one request.
    let mut disk = Disk::open(1000, 40);
    disk.join(class(4, 0, FIXED, 1, 8)).unwrap();
    for node in [1, 2, 3] {
        disk.join(client(node, 0, WEIGHTED, 1, 8)).unwrap();
    }
    disk.request(1, 0, 1).unwrap();
    assert_eq!([0, 1, 4].map(|node| disk.lost(node)), [1, 0, 0]);
    for dispatched in [0, 0, 0, 0, 0, 0, 0, 1] {
        assert_eq!(disk.tick().len(), dispatched);
        assert_eq!([0, 1, 4].map(|node| disk.lost(node)), [1, 0, 0]);
    }
    assert_eq!(disk.look(0), Ok([1000, 0, 0, 1]));
    assert_eq!(disk.look(1), Ok([333, 8 * 333, 0, 0]));
    // A root in debt, and one with a full balance.
    for balance in [-8000, 40_000] {
        disk.poke(0, BALANCE, balance);
        assert_eq!(disk.look(0), Ok([1000, balance, 0, 1]));
    }
}

#[test]
fn refused_looks_at_classes() {
    let mut disk = Disk::open(1000, 40);
    disk.join(class(1, 0, FIXED, 5000, 8)).unwrap();
    assert_eq!([0, 1].map(|node| disk.lost(node)), [500, 500]);
    for (node, number) in [(i64::MIN, 2), (-1, 2), (64, 2), (i64::MAX, 2), (2, 3), (63, 3)] {
        assert_eq!(disk.look(node), Err(number));
    }
    // A class whose rate is not the one that its parent's gives it.
    disk.poke(1, RATE, 499);
    assert_eq!([-1, 0, 1, 2].map(|node| disk.look(node)), [Err(NOT_IN_ORDER); 4]);
    disk.poke(1, RATE, 500);
    assert_eq!(disk.look(0), Ok([1000, 0, 0, 500]));
    disk.table.pop();
    assert_eq!([-1, 0, 1, 2].map(|node| disk.look(node)), [Err(NOT_IN_ORDER); 4]);
}

/// How often each situation was met, by its name.
type Met = BTreeMap<&'static str, usize>;

/// Checks what a look at a node of a table in order answered, and counts the
/// situations that it met.
fn check_look(met: &mut Met, table: &[i64], node: usize, seen: Seen) {
    let [rate, .., lost] = seen;
    let mut count = |name, holds| *met.entry(name).or_default() += usize::from(holds);
    if get(table, node, SORT) == CLIENT {
        assert_eq!(lost, 0);
        count("a client with a rate", rate > 0);
        return;
    }
    let children = below(table, node);
    let of_kind = |kind: i64| -> Vec<usize> {
        children.iter().copied().filter(|&child| get(table, child, KIND) == kind).collect()
    };
    let [fixed, weighted, stated] = [FIXED, WEIGHTED, STATED].map(of_kind);
    let sum =
        |nodes: &[usize], place| nodes.iter().map(|&node| get(table, node, place)).sum::<i64>();
    let divided = rate - sum(&stated, SHARE);
    let left = divided * (10_000 - sum(&fixed, SHARE)) / 10_000;
    // What rounding takes is less than a grain for each of these.
    let number = (fixed.len() + weighted.len()) as i64;
    assert!(lost >= 0);
    assert_eq!(rate, sum(&children, RATE) + lost);
    if weighted.is_empty() {
        assert!((left..=left + number).contains(&lost));
    } else {
        assert!(lost < number);
    }
    count("a class of rate 0", rate == 0);
    if rate == 0 {
        return;
    }
    let fixed_only = !fixed.is_empty() && weighted.is_empty();
    count("the root", node == 0);
    count("a class below it", node != 0);
    count("the greatest rate", rate == 1_000_000_000);
    count("no children", children.is_empty());
    count("8 children or more", number >= 8);
    count("children of children", children.iter().any(|&child| !below(table, child).is_empty()));
    count("fixed children, some left", fixed_only && left > 0);
    count("fixed children, none left", fixed_only && left == 0);
    count("fixed children, more lost than left", fixed_only && lost > left);
    count("weighted children only", fixed.is_empty() && !weighted.is_empty());
    count("children of both kinds", !fixed.is_empty() && !weighted.is_empty());
    count("weighted children, some lost", !weighted.is_empty() && lost > 0);
    count("weighted children, most lost", number > 1 && !weighted.is_empty() && lost == number - 1);
    count("stated children only", !stated.is_empty() && number == 0);
    count("children of all kinds", [&fixed, &weighted, &stated].iter().all(|of| !of.is_empty()));
    count("stated children of just the rate", divided == 0 && number > 0);
}

/// How many situations are counted.
const SITUATIONS: usize = 18;

/// The nodes other than the root whose parent is that node.
fn below(table: &[i64], node: usize) -> Vec<usize> {
    let is_child = |&other: &usize| get(table, other, PARENT) == node as i64;
    (1..NODES).filter(|&other| is_used(table, other)).filter(is_child).collect()
}

/// Goes through runs of that profile. What is done after a step gets its position,
/// the step itself, its reply and the table.
fn go_through(profile: Profile, mut after: impl FnMut(usize, &Step, Option<Reply>, &[i64])) {
    for seed in 0..40 {
        let mut world = World::default();
        for (position, step) in run(seed, 400, profile).iter().enumerate() {
            let reply = world.run(&mut Engine, step);
            after(position, step, reply, world.table.inner());
        }
    }
}

#[test]
fn random_tables_lose_what_is_left_and_what_rounding_takes() {
    let mut met = Met::new();
    for profile in [Profile::Clean, Profile::Wild] {
        go_through(profile, |position, _, _, table| {
            if position % 20 == 0 && in_order(table) {
                for node in used_nodes(table) {
                    let seen = Engine.look(table, node as i64).unwrap();
                    check_look(&mut met, table, node, seen);
                }
            }
        });
    }
    assert_eq!(met.len(), SITUATIONS);
    assert!(met.values().all(|&count| count >= 60), "{met:?}");
}

#[test]
fn wild_runs_look_at_every_sort_of_node() {
    let mut met = Met::new();
    go_through(Profile::Wild, |_, step, reply, table| {
        if let (Step::Call(Call::Look { node }), Some(Reply::Look(seen))) = (step, reply) {
            check_look(&mut met, table, *node as usize, seen);
        }
    });
    assert_eq!(met.len(), SITUATIONS);
    assert!(met.values().all(|&count| count >= 10), "{met:?}");
}

/// All misreadings, each with the numbers that it gives the nodes of the tree of
/// [`lost_of`].
const MISREADINGS: [(Lost, [i64; 8]); 15] = [
    // 100 + 500 + 166 + 333 + 166 + 166 + 166 of 1100, and 166 + 166 + 166 of 500.
    (Lost::AllBelow, [-497, 2, 166, 0, 0, 0, 0, 0]),
    (Lost::WithoutWeighted, [500, 168, 166, 0, 0, 166, 0, 0]),
    (Lost::WithoutFixed, [501, 500, 166, 0, 0, 0, 0, 0]),
    (Lost::WithoutStated, [101, 168, 166, 0, 0, 0, 0, 0]),
    (Lost::StatedTwice, [-99, 168, 166, 0, 0, 0, 0, 0]),
    (Lost::WithoutClasses, [667, 334, 166, 0, 0, 0, 0, 0]),
    // 5103 of 1100, 6667 of 500, 1 of 166.
    (Lost::OfShares, [-4003, -6167, 166, 0, 0, 165, 0, 0]),
    // After two ticks: 2198 of 1100, 664 of 500, 332 of 166.
    (Lost::OfBalances, [-1098, -164, 166, 0, 0, -166, 0, 0]),
    (Lost::ZeroForClass, [0, 0, 0, 0, 0, 0, 0, 0]),
    (Lost::ZeroForChildless, [1, 168, 0, 0, 0, 0, 0, 0]),
    (Lost::RateForClient, [1, 168, 166, 333, 166, 0, 166, 100]),
    (Lost::RootAmongChildren, [-1099, 168, 166, 0, 0, 0, 0, 0]),
    // 166 are left in class 1, and all 166 in class 2.
    (Lost::WithoutUnclaimed, [1, 2, 0, 0, 0, 0, 0, 0]),
    (Lost::WithoutFixedRounding, [1, 166, 166, 0, 0, 0, 0, 0]),
    // Before client 6 joined, class 5 had no children.
    (Lost::FromBefore, [1, 168, 166, 0, 0, 166, 0, 0]),
];

/// The grains nobody gets of nodes 0 to 7, in a tree that the controller makes.
/// The rates are 1100, of which client 7 has 100; 500, 166 and 333 of the other 1000;
/// 166 and 166 under class 1, where 166.65 are left; 166 under class 5.
fn lost_of(controller: &mut dyn Controller) -> [i64; 8] {
    let mut table = [0; TABLE_LEN];
    assert_eq!(controller.open(&mut table, 1100, 100), Ok(0));
    for new in [
        client(7, 0, STATED, 100, 20),
        class(1, 0, FIXED, 5000, 40),
        class(2, 0, WEIGHTED, 1, 20),
        client(3, 0, WEIGHTED, 2, 20),
        client(4, 1, FIXED, 3333, 20),
        class(5, 1, FIXED, 3334, 20),
        client(6, 5, WEIGHTED, 1, 20),
    ] {
        assert_eq!(controller.join(&mut table, &new), Ok(0));
    }
    for _ in 0..2 {
        assert_eq!(controller.tick(&mut table, [&mut [], &mut []]), Ok([0, 0]));
    }
    [0, 1, 2, 3, 4, 5, 6, 7].map(|node| controller.look(&table, node).unwrap()[3])
}

#[test]
fn misreadings_give_their_wrong_numbers() {
    let right = [1, 168, 166, 0, 0, 0, 0, 0];
    assert_eq!(lost_of(&mut Engine), right);
    assert_eq!(lost_of(&mut Faulty::new(Fault::None)), right);
    for (misreading, wrong) in MISREADINGS {
        let given = lost_of(&mut Faulty::new(Fault::WrongLost(misreading)));
        assert_eq!(given, wrong, "{misreading:?}");
    }
    let listed = FAULTS.into_iter().filter(|fault| matches!(fault, Fault::WrongLost(_)));
    assert!(listed.eq(MISREADINGS.map(|(misreading, _)| Fault::WrongLost(misreading))));
}

#[test]
fn few_runs_tell_every_misreading_by_a_look() {
    for (misreading, _) in MISREADINGS {
        let mut faulty = Faulty::new(Fault::WrongLost(misreading));
        let found = (0..8).find_map(|seed| {
            let mut steps = run(seed, 400, Profile::Wild);
            let (position, _) = first_difference(&mut Engine, &mut faulty, &steps)?;
            Some(steps.swap_remove(position))
        });
        assert!(matches!(found, Some(Step::Call(Call::Look { .. }))), "{misreading:?}: {found:?}");
    }
}
