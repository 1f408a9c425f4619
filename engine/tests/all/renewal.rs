//! Which rates a change of the tree renews, and from what. All numbers are worked by
//! hand from the section on rates; "x are left" is what the fixed shares leave.

use std::collections::BTreeMap;

use crate::support::*;
use hds_engine::damage::isolated;
use hds_engine::differential::first_difference;
use hds_engine::faulty::{Fault, Faulty, Renewal, FAULTS};
use hds_engine::order::{in_order, RATES_CLAUSE};
use hds_engine::random::{run, Profile, Rng};
use hds_engine::rates::{renew_all, renew_below};
use hds_engine::steps::{Call, Reply, Step, World};
use hds_engine::table::*;
use hds_engine::{Controller, Engine, NewNode};

/// Rates by node number.
type Rates = BTreeMap<usize, i64>;

/// Some nodes with their rates.
type Listed = Vec<(usize, i64)>;

/// The nodes of the tree below, with both kinds on every level and classes on all.
/// A class's number may be above its children's.
fn nodes() -> [NewNode; 15] {
    [
        class(1, 0, FIXED, 5000, 400),
        client(2, 0, WEIGHTED, 1, 8),
        class(3, 0, WEIGHTED, 1, 100),
        class(4, 1, FIXED, 4000, 50),
        class(40, 1, WEIGHTED, 3, 200),
        client(6, 1, WEIGHTED, 1, 8),
        class(7, 40, WEIGHTED, 1, 100),
        client(8, 40, FIXED, 2000, 8),
        client(9, 7, FIXED, 5000, 8),
        client(10, 7, WEIGHTED, 1, 8),
        client(11, 7, WEIGHTED, 2, 8),
        client(12, 4, WEIGHTED, 1, 8),
        client(13, 3, FIXED, 1000, 8),
        class(14, 3, WEIGHTED, 1, 50),
        client(15, 14, WEIGHTED, 1, 8),
    ]
}

/// The rates of that tree with a disk of 1000.
const TREE: [(usize, i64); 16] = [
    (0, 1000),
    // 500 are left.
    (1, 500),
    (2, 250),
    (3, 250),
    // Class 1: 300 are left.
    (4, 200),
    (40, 225),
    (6, 75),
    // Class 40: 180 are left.
    (7, 180),
    (8, 45),
    // Class 7: 90 are left.
    (9, 90),
    (10, 30),
    (11, 60),
    // Class 4.
    (12, 200),
    // Class 3: 225 are left.
    (13, 25),
    (14, 225),
    (15, 225),
];

/// The tree with that disk rate.
fn tree(rate: i64) -> Disk {
    let mut disk = Disk::open(rate, 1000);
    for new in nodes() {
        disk.join(new).unwrap();
    }
    disk
}

/// The rates of all nodes that are there.
fn rates(table: &[i64]) -> Rates {
    used_nodes(table).map(|node| (node, get(table, node, RATE))).collect()
}

/// The rates of the tree with these in place of its own or beside them, and without
/// a node that left.
fn tree_with(others: &[(usize, i64)], gone: Option<usize>) -> Rates {
    let all = TREE.into_iter().chain(others.iter().copied());
    all.filter(|&(node, _)| Some(node) != gone).collect()
}

fn leave(node: i64) -> Call {
    Call::Leave { node }
}

fn share(node: i64, kind: i64, share: i64) -> Call {
    Call::ChangeShare { node, kind, share }
}

/// The node that a call joins, takes out or gives a share.
fn node_of(call: &Call) -> Option<usize> {
    match *call {
        Call::Join(new) => Some(new.node as usize),
        Call::Leave { node } | Call::ChangeShare { node, .. } => Some(node as usize),
        _ => None,
    }
}

/// The node that a call takes out.
fn gone(call: &Call) -> Option<usize> {
    node_of(call).filter(|_| matches!(call, Call::Leave { .. }))
}

/// Makes a call, which must be accepted; gives the table after it.
fn made(controller: &mut dyn Controller, table: &[i64], call: &Call) -> Vec<i64> {
    let mut world = world_of(table);
    assert_eq!(world.call(controller, call), Reply::Number(0), "{call:?}");
    world.table.inner().to_vec()
}

/// Sees that of two tables only the rates of these nodes and one whole record may
/// differ.
fn only_rates_differ(before: &[i64], after: &[i64], nodes: &[usize], whole: Option<usize>) {
    for place in 0..TABLE_LEN {
        let node = place.checked_sub(HEADER_LEN).map(|place| place / RECORD_LEN);
        let is_rate = nodes.iter().any(|&node| at(node, RATE) == place);
        if !is_rate && (node.is_none() || node != whole) {
            assert_eq!(before[place], after[place], "place {place}, node {node:?}");
        }
    }
}

/// A change of the tree at 1000, and the rates that are others than before.
fn changes_by_hand() -> Vec<(Call, Listed)> {
    vec![
        // Under the root. 500 are left for weights 1, 1 and 2; of 125 12.5 and 112.5.
        (
            Call::Join(client(20, 0, WEIGHTED, 2, 8)),
            vec![(2, 125), (3, 125), (20, 250), (13, 12), (14, 112), (15, 112)],
        ),
        // 400 are left for two weights; of 200 20 and 180.
        (
            Call::Join(class(20, 0, FIXED, 1000, 8)),
            vec![(20, 100), (2, 200), (3, 200), (13, 20), (14, 180), (15, 180)],
        ),
        // 500 are left for class 3 alone.
        (leave(2), vec![(3, 500), (13, 50), (14, 450), (15, 450)]),
        // Weights 6, 1 and 1 of 1000. Class 1 has 750: 300, and 450 are left, 337.5 and
        // 112.5. Class 40 has 337: 67.4, and 269.6 are left. Class 7 has 269: 134.5, and
        // 134.5 are left, 44.7 and 89.3 of 134. Class 3 has 125: as above.
        (
            share(1, WEIGHTED, 6),
            vec![
                (1, 750),
                (2, 125),
                (3, 125),
                (4, 300),
                (40, 337),
                (6, 112),
                (7, 269),
                (8, 67),
                (9, 134),
                (10, 44),
                (11, 89),
                (12, 300),
                (13, 12),
                (14, 112),
                (15, 112),
            ],
        ),
        // Fixed 10,000 in all: nothing is left for class 3.
        (share(2, FIXED, 5000), vec![(2, 500), (3, 0), (13, 0), (14, 0), (15, 0)]),
        // Under class 1, which has 500. 250 are left for weights 3 and 1. Class 40 has
        // 187: 37.4, and 149.6 are left. Class 7 has 149: 74.5, and 74.5 are left.
        (
            Call::Join(client(20, 1, FIXED, 1000, 8)),
            vec![(20, 50), (40, 187), (6, 62), (7, 149), (8, 37), (9, 74), (10, 24), (11, 49)],
        ),
        // 300 are left for class 40 alone: 60 and 240; of 240 120, 40 and 80.
        (leave(6), vec![(40, 300), (7, 240), (8, 60), (9, 120), (10, 40), (11, 80)]),
        // Weights 2, 3 and 1 of 500: 166.7, 250, 83.3. Class 40 has 250: 50 and 200; of
        // 200 100, 33.3 and 66.7.
        (
            share(4, WEIGHTED, 2),
            vec![
                (4, 166),
                (40, 250),
                (6, 83),
                (12, 166),
                (7, 200),
                (8, 50),
                (9, 100),
                (10, 33),
                (11, 66),
            ],
        ),
        // Under class 40, which has 225. 180 are left for weights 1 and 3: 45 and 135. Of
        // 45 22.5, and 22.5 are left, 7.3 and 14.7 of 22.
        (
            Call::Join(class(20, 40, WEIGHTED, 3, 8)),
            vec![(7, 45), (20, 135), (9, 22), (10, 7), (11, 14)],
        ),
        // No fixed share: 225 for two weights. Of 112 56, 18.7 and 37.3.
        (share(8, WEIGHTED, 1), vec![(7, 112), (8, 112), (9, 56), (10, 18), (11, 37)]),
        // All 225 go to class 7: 112.5, and 112.5 are left, 37.3 and 74.7 of 112.
        (leave(8), vec![(7, 225), (9, 112), (10, 37), (11, 74)]),
        // Under class 7 on level 3, which has 180. 90 are left for weights 1, 2 and 1.
        (Call::Join(client(20, 7, WEIGHTED, 1, 8)), vec![(10, 22), (11, 45), (20, 22)]),
        (leave(10), vec![(11, 90)]),
        (leave(9), vec![(10, 60), (11, 120)]),
        // 0.018, and 179.98 are left, 59.7 and 119.3 of 179.
        (share(9, FIXED, 1), vec![(9, 0), (10, 59), (11, 119)]),
        // Under classes with one child.
        (Call::Join(client(20, 4, WEIGHTED, 1, 8)), vec![(12, 100), (20, 100)]),
        (share(15, FIXED, 5000), vec![(15, 112)]),
        (leave(12), vec![]),
        (leave(15), vec![]),
    ]
}

#[test]
fn a_join_a_leave_and_a_change_of_share_on_every_level() {
    let before = tree(1000).table;
    assert_eq!(rates(&before), Rates::from(TREE));
    for (call, others) in changes_by_hand() {
        let after = made(&mut Watched(Engine), &before, &call);
        assert_eq!(rates(&after), tree_with(&others, gone(&call)), "{call:?}");
        let renewed: Vec<usize> = others.iter().map(|&(node, _)| node).collect();
        only_rates_differ(&before, &after, &renewed, node_of(&call));
        let all: Rates = rates(&renewed_all(&after));
        assert_eq!(all, rates(&after), "{call:?}");
    }
}

/// A copy of the table with all rates renewed.
fn renewed_all(table: &[i64]) -> Vec<i64> {
    let mut table = table.to_vec();
    renew_all(&mut table);
    table
}

#[test]
fn a_change_of_rate_renews_all() {
    let mut disk = tree(1000);
    // Everything divides without a remainder at multiples of 1000.
    for (rate, times) in [(2000, 2), (1_000_000_000, 1_000_000), (1000, 1)] {
        disk.change_rate(rate).unwrap();
        let all: Rates = TREE.iter().map(|&(node, rate)| (node, rate * times)).collect();
        assert_eq!(rates(&disk.table), all);
    }
    // 499.5, and 499.5 are left. Class 1 has 499: 199.6, and 299.4 are left, 224.25 and
    // 74.75 of 299. Class 40 has 224: 44.8, and 179.2 are left. Class 7 has 179: 89.5,
    // and 89.5 are left, 29.7 and 59.3 of 89. Class 3 has 249: 24.9, and 224.1 are left.
    disk.change_rate(999).unwrap();
    assert_eq!(rates(&disk.table), Rates::from(AT_999));
    assert_eq!(disk.table, tree(999).table);
    // Half a grain is none.
    disk.change_rate(1).unwrap();
    let none: Rates = TREE.iter().map(|&(node, _)| (node, i64::from(node == 0))).collect();
    assert_eq!(rates(&disk.table), none);
}

const AT_999: [(usize, i64); 16] = [
    (0, 999),
    (1, 499),
    (2, 249),
    (3, 249),
    (4, 199),
    (40, 224),
    (6, 74),
    (7, 179),
    (8, 44),
    (9, 89),
    (10, 29),
    (11, 59),
    (12, 199),
    (13, 24),
    (14, 224),
    (15, 224),
];

/// Wrong rates of every sort.
const WRONG: [i64; 11] = [
    i64::MIN,
    -1,
    i64::MAX,
    MAX_RATE + 1,
    -1_000_000_007,
    1 << 62,
    0,
    7,
    i64::MIN + 1,
    (1 << 32) + 225,
    MAX_RATE,
];

/// The table with a wrong rate at each node, of which none is the one of the tree; the
/// turn says which gets which.
fn spoiled(table: &[i64], turn: usize) -> Vec<i64> {
    let mut table = table.to_vec();
    for node in 0..NODES {
        if is_used(&table, node) {
            table[at(node, RATE)] = WRONG[(node + turn) % WRONG.len()];
        }
    }
    table
}

/// A class, a rate that it has, and the rates of all nodes below it.
fn below_by_hand() -> Vec<(usize, i64, Listed)> {
    vec![
        // 200 and 800; of 800 400, 133.3 and 266.7.
        (40, 1000, vec![(8, 200), (7, 800), (9, 400), (10, 133), (11, 266)]),
        (40, 0, vec![(8, 0), (7, 0), (9, 0), (10, 0), (11, 0)]),
        (
            40,
            1_000_000_000,
            vec![
                (8, 200_000_000),
                (7, 800_000_000),
                (9, 400_000_000),
                (10, 133_333_333),
                (11, 266_666_666),
            ],
        ),
        // 3.5, and 3.5 are left for weights 1 and 2.
        (7, 7, vec![(9, 3), (10, 1), (11, 2)]),
        // 0.4, and 0.6 are left.
        (1, 1, vec![(4, 0), (40, 0), (6, 0), (7, 0), (8, 0), (9, 0), (10, 0), (11, 0), (12, 0)]),
        // 399.6, and 599.4 are left, 449.25 and 149.75 of 599. Class 40 has 449: 89.8, and
        // 359.2 are left. Class 7 has 359: 179.5, and 179.5 are left, 59.7 and 119.3.
        (
            1,
            999,
            vec![
                (4, 399),
                (40, 449),
                (6, 149),
                (7, 359),
                (8, 89),
                (9, 179),
                (10, 59),
                (11, 119),
                (12, 399),
            ],
        ),
        (3, 10, vec![(13, 1), (14, 9), (15, 9)]),
        (14, 77, vec![(15, 77)]),
        (0, 1000, TREE[1..].to_vec()),
        (0, 999, AT_999[1..].to_vec()),
    ]
}

#[test]
fn a_renewal_alone_goes_by_the_class_and_leaves_wrong_rates_elsewhere() {
    let table = tree(1000).table;
    for (class, rate, below) in below_by_hand() {
        for turn in 0..WRONG.len() {
            let mut before = spoiled(&table, turn);
            before[at(class, RATE)] = rate;
            let mut after = before.clone();
            renew_below(&mut after, class);
            let mut all = rates(&before);
            all.extend(below.iter().copied());
            assert_eq!(rates(&after), all, "class {class} of rate {rate}");
            let nodes: Vec<usize> = below.iter().map(|&(node, _)| node).collect();
            only_rates_differ(&before, &after, &nodes, None);
        }
    }
}

#[test]
fn a_renewal_below_a_class_without_children_changes_nothing() {
    let mut disk = tree(1000);
    disk.join(class(50, 40, WEIGHTED, 9, 8)).unwrap();
    disk.join(class(51, 0, FIXED, 9, 8)).unwrap();
    disk.leave(15).unwrap();
    let opened = Disk::open(1000, 10).table;
    for (table, class) in [(&disk.table, 50), (&disk.table, 51), (&disk.table, 14), (&opened, ROOT)]
    {
        for turn in 0..WRONG.len() {
            let before = spoiled(table, turn);
            let mut after = before.clone();
            renew_below(&mut after, class);
            assert!(after == before, "class {class}");
        }
    }
}

#[test]
fn a_table_in_order_stays_below_every_class() {
    for rate in [1, 7, 999, 1000, 1_000_000_000] {
        let table = tree(rate).table;
        for class in classes(&table) {
            let mut after = table.clone();
            renew_below(&mut after, class);
            assert!(after == table, "class {class} at {rate}");
        }
    }
}

#[test]
fn a_wrong_class_with_all_below_it_derived_from_it_is_out_of_order() {
    for (class, rate, _) in below_by_hand().into_iter().filter(|&(class, ..)| class != ROOT) {
        let mut table = tree(1000).table;
        table[at(class, RATE)] = rate;
        renew_below(&mut table, class);
        assert!(!in_order(&table), "class {class} of rate {rate}");
        assert_eq!(Engine.look(&table, class as i64), Err(1));
    }
}

/// Whether a node stands below a class.
fn is_below(table: &[i64], mut node: usize, class: usize) -> bool {
    while node != ROOT {
        node = get(table, node, PARENT) as usize;
        if node == class {
            return true;
        }
    }
    false
}

/// The rate of a class or of a node below it, from the class's own down the way.
fn derived(table: &[i64], class: usize, node: usize) -> i64 {
    if node == class {
        return get(table, class, RATE);
    }
    let above = get(table, node, PARENT);
    let whole = derived(table, class, above as usize);
    let shares = |kind| -> i64 {
        let children = (1..NODES).filter(|&child| get(table, child, SORT) != 0);
        children
            .filter(|&child| get(table, child, PARENT) == above && get(table, child, KIND) == kind)
            .map(|child| get(table, child, SHARE))
            .sum()
    };
    let share = get(table, node, SHARE);
    let divided = whole - shares(STATED);
    match get(table, node, KIND) {
        STATED => share,
        FIXED => divided * share / 10_000,
        _ => divided * (10_000 - shares(FIXED)) / 10_000 * share / shares(WEIGHTED),
    }
}

/// Tables in order from random runs.
fn random_tables() -> Vec<Vec<i64>> {
    let mut tables = Vec::new();
    for profile in [Profile::Clean, Profile::Family, Profile::Tree, Profile::Wild] {
        for seed in 0..30 {
            let mut world = World::default();
            for (position, step) in run(seed, 200, profile).iter().enumerate() {
                world.run(&mut Engine, step);
                if position % 40 == 39 && in_order(world.table.inner()) {
                    tables.push(world.table.inner().to_vec());
                }
            }
        }
    }
    tables
}

/// Writes a random rate at each of the nodes that are there and are to get one.
fn scramble(rng: &mut Rng, table: &mut [i64], gets: impl Fn(usize) -> bool) {
    for node in (0..NODES).filter(|&node| gets(node)) {
        if is_used(table, node) {
            let rate = table[at(node, RATE)];
            let near = rate.wrapping_add(rng.between(-2, 2));
            let any = rng.edge(0, MAX_RATE);
            table[at(node, RATE)] = rng.pick(&[near, any]);
        }
    }
}

#[test]
fn random_renewals_go_by_the_class_alone() {
    let mut rng = Rng::new(5);
    let mut levels = [0; 4];
    for table in random_tables() {
        for class in classes(&table) {
            let mut before = table.clone();
            scramble(&mut rng, &mut before, |node| node != class);
            before[at(class, RATE)] = match rng.below(3) {
                0 => rng.between(0, MAX_RATE),
                1 => rng.between(0, 20),
                _ => get(&table, class, RATE),
            };
            let mut after = before.clone();
            renew_below(&mut after, class);
            let below: Vec<usize> =
                used_nodes(&table).filter(|&node| is_below(&table, node, class)).collect();
            only_rates_differ(&before, &after, &below, None);
            for &node in &below {
                assert_eq!(get(&after, node, RATE), derived(&before, class, node));
            }
            // What stood below does not matter.
            let mut other = before.clone();
            scramble(&mut rng, &mut other, |node| below.contains(&node));
            renew_below(&mut other, class);
            assert!(other == after);
            // Once more is the same.
            renew_below(&mut other, class);
            assert!(other == after);
            levels[get(&table, class, LEVEL) as usize] += below.len();
        }
    }
    assert!(levels.iter().all(|&nodes| nodes > 500), "{levels:?}");
}

#[test]
fn below_the_root_is_everything() {
    let mut rng = Rng::new(6);
    for table in random_tables() {
        let mut once = table.clone();
        renew_below(&mut once, ROOT);
        assert!(once == table);
        assert!(renewed_all(&table) == table);
        let mut wrong = table.clone();
        scramble(&mut rng, &mut wrong, |node| node != ROOT);
        renew_below(&mut wrong, ROOT);
        assert!(wrong == table);
        wrong[at(ROOT, RATE)] = rng.between(1, MAX_RATE);
        scramble(&mut rng, &mut wrong, |node| node != ROOT);
        let all = renewed_all(&wrong);
        renew_below(&mut wrong, ROOT);
        assert!(wrong == all);
    }
}

#[test]
fn renewals_end_on_any_contents() {
    let mut rng = Rng::new(7);
    let mut table = tree(1000).table;
    for _ in 0..20_000 {
        let place = rng.pick(&[SORT, PARENT, LEVEL, KIND, SHARE, RATE]);
        table[at(rng.below(NODES), place)] = rng.edge(0, 63);
        renew_below(&mut table, rng.below(NODES));
        if rng.chance(10) {
            renew_all(&mut table);
        }
    }
}

/// The class that gets, loses or changes a child by a call, in the table before it.
fn class_of(table: &[i64], call: &Call) -> Option<usize> {
    match call {
        Call::Join(new) => Some(new.parent as usize),
        _ => node_of(call).map(|node| get(table, node, PARENT) as usize),
    }
}

/// Sees what an accepted change left; gives how many rates below the class's children
/// are others than before.
fn check_change(before: &[i64], after: &[i64], call: &Call, class: usize) -> usize {
    assert!(renewed_all(after) == after, "{call:?}");
    let below: Vec<usize> =
        used_nodes(after).filter(|&node| is_below(after, node, class)).collect();
    only_rates_differ(before, after, &below, node_of(call));
    for &node in &below {
        assert_eq!(get(after, node, RATE), derived(after, ROOT, node), "{call:?}, {node}");
    }
    let far = below.iter().filter(|&&node| get(after, node, PARENT) != class as i64);
    far.filter(|&&node| get(before, node, RATE) != get(after, node, RATE)).count()
}

#[test]
fn damage_meets_wrong_rates_of_every_sort() {
    let table = tree(1000).table;
    let mut rng = Rng::new(8);
    // Rates off by one, by level; classes that are wrong with all below them derived
    // from that; all rates from another disk's.
    let (mut near, mut subtrees, mut disks) = ([0; 5], 0, 0);
    for _ in 0..3000 {
        let steps = isolated(&mut rng, &table, RATES_CLAUSE).expect("a wrong rate");
        let mut world = world_of(&table);
        for step in &steps {
            world.run(&mut Engine, step);
        }
        let damaged = world.table.inner();
        assert!(!in_order(damaged));
        let wrong: Vec<usize> = used_nodes(&table)
            .filter(|&node| get(&table, node, RATE) != get(damaged, node, RATE))
            .collect();
        only_rates_differ(&table, damaged, &wrong, None);
        let is_head = |&node: &usize| !wrong.iter().any(|&above| is_below(&table, node, above));
        let heads: Vec<usize> = wrong.iter().copied().filter(is_head).collect();
        let mut again = damaged.to_vec();
        heads.iter().for_each(|&head| renew_below(&mut again, head));
        let is_derived = again == damaged;
        if let ([node], [_]) = (&wrong[..], &heads[..]) {
            let right = get(&table, *node, RATE);
            let is_near = [right - 1, right + 1].contains(&get(damaged, *node, RATE));
            near[get(&table, *node, LEVEL) as usize] += usize::from(is_near);
        } else {
            assert!(is_derived);
            subtrees += usize::from(heads.len() == 1);
            disks += usize::from(heads.len() > 1);
        }
    }
    assert!(near[1..].iter().all(|&count| count > 100), "{near:?}");
    assert!(subtrees > 100 && disks > 100, "{subtrees}, {disks}");
}

/// The name of a call that changes the tree.
fn change_name(call: &Call) -> Option<&'static str> {
    match call {
        Call::Join(_) => Some("join"),
        Call::Leave { .. } => Some("leave"),
        Call::ChangeShare { .. } => Some("change share"),
        Call::ChangeRate { .. } => Some("change rate"),
        _ => None,
    }
}

/// How many changes there were, by call and level of the class, and how many of them
/// gave another rate to nodes below the class's children.
type Changes = BTreeMap<(&'static str, i64), [usize; 2]>;

/// Checks every accepted change of a run.
fn check_run(changes: &mut Changes, steps: &[Step]) {
    let mut world = World::default();
    for step in steps {
        let mut before = world.table.inner().to_vec();
        let reply = world.run(&mut Engine, step);
        let (Step::Call(call), Some(Reply::Number(0))) = (step, reply) else { continue };
        let Some(name) = change_name(call) else { continue };
        if let Call::ChangeRate { rate } = call {
            before[at(ROOT, RATE)] = *rate;
        }
        let class = class_of(&before, call).unwrap_or(ROOT);
        let far = check_change(&before, world.table.inner(), call, class);
        let counts = changes.entry((name, get(&before, class, LEVEL))).or_default();
        counts[0] += 1;
        counts[1] += usize::from(far > 0);
    }
}

#[test]
fn after_every_change_of_random_runs_renewing_all_changes_nothing_more() {
    let mut changes = Changes::new();
    for (profile, seeds) in [
        (Profile::Clean, 0..100),
        (Profile::Family, 0..100),
        (Profile::Tree, 0..100),
        (Profile::Wild, 0..100),
    ] {
        for seed in seeds {
            check_run(&mut changes, &run(seed, 400, profile));
        }
    }
    let tree_calls = ["join", "leave", "change share"];
    let kinds = tree_calls.iter().flat_map(|name| (0..=3).map(move |level| (*name, level)));
    assert!(kinds.chain([("change rate", 0)]).all(|kind| changes.contains_key(&kind)));
    assert_eq!(changes.len(), 13);
    for ((name, level), [all, far]) in changes {
        let least = if level < 3 { 30 } else { 0 };
        assert!(all >= 300 && far >= least, "{name} on level {level}: {all}, {far}");
    }
}

/// Every misreading but the one of balances, with the disk's rate, a change of the
/// tree, and the rates that are others than the right ones.
fn misreadings() -> Vec<(Renewal, i64, Call, Listed)> {
    let under_1 = Call::Join(client(20, 1, FIXED, 1000, 8));
    let under_40 = Call::Join(class(20, 40, WEIGHTED, 3, 8));
    let under_7 = Call::Join(client(20, 7, WEIGHTED, 1, 8));
    let light_4 = share(4, WEIGHTED, 2);
    // What class 40 has below it before a change.
    let below_40 = vec![(7, 180), (8, 45), (9, 90), (10, 30), (11, 60)];
    let with = |more: &[(usize, i64)]| [&below_40[..], more].concat();
    let twice = Call::ChangeRate { rate: 2000 };
    let old_far = with(&[(4, 200), (40, 225), (6, 75), (12, 200), (13, 25), (14, 225), (15, 225)]);
    let old_all = [&old_far[..], &[(1, 500), (2, 250), (3, 250)]].concat();
    let lowest = vec![(9, 90), (10, 30), (11, 60)];
    vec![
        (Renewal::ChildrenOnly, 1000, under_1.clone(), below_40.clone()),
        (Renewal::TwoLevels, 1000, under_1.clone(), lowest.clone()),
        (Renewal::ThreeLevels, 1000, share(1, WEIGHTED, 6), lowest),
        (Renewal::NotTheLowest, 1000, under_7, vec![(10, 30), (11, 60), (20, 0)]),
        // Two levels are below class 40.
        (
            Renewal::LevelsFromRoot,
            1000,
            under_40.clone(),
            vec![(7, 180), (20, 0), (9, 90), (10, 30), (11, 60)],
        ),
        (Renewal::BelowNode, 1000, under_1.clone(), with(&[(20, 0), (40, 225), (6, 75)])),
        (Renewal::NewNodeOnly, 1000, under_1.clone(), with(&[(40, 225), (6, 75)])),
        (Renewal::ChangedNodeOnly, 1000, light_4.clone(), with(&[(40, 225), (6, 75), (12, 200)])),
        // Class 4 has 200 as before, and its child all of it.
        (Renewal::WithoutNode, 1000, light_4.clone(), vec![(4, 200), (12, 200)]),
        (Renewal::NotBelowNode, 1000, light_4.clone(), vec![(12, 200)]),
        (Renewal::NotBelowOthers, 1000, light_4.clone(), below_40.clone()),
        (Renewal::FixedKept, 1000, under_1.clone(), vec![(20, 0), (8, 45), (9, 90)]),
        (Renewal::WeightsKept, 1000, under_1.clone(), with(&[(40, 225), (6, 75)])),
        (Renewal::ClassesKept, 1000, under_1.clone(), with(&[(40, 225)])),
        (Renewal::ClassFromZeroed, 1000, leave(6), with(&[(40, 225)])),
        (Renewal::RateChildrenOnly, 1000, twice.clone(), old_far),
        (Renewal::RateNothing, 1000, twice, old_all),
        // Of 1000: 400 and 100, and 500 are left. Class 40 has 375: 75 and 300.
        (
            Renewal::FromDiskRate,
            1000,
            under_1.clone(),
            vec![
                (4, 400),
                (20, 100),
                (40, 375),
                (6, 125),
                (7, 300),
                (8, 75),
                (9, 150),
                (10, 50),
                (11, 100),
                (12, 400),
            ],
        ),
        // Of 500: 100 and 400 under class 40; 250, 83.3 and 166.7 under class 7.
        (
            Renewal::AllFromClass,
            1000,
            under_1.clone(),
            vec![(7, 400), (8, 100), (9, 250), (10, 83), (11, 166), (12, 500)],
        ),
        // 50 + 200 + 187 + 62.
        (Renewal::OwnRateIsSum, 1000, under_1.clone(), vec![(1, 499)]),
        // 3 ten thousandths of 500 are 0.15.
        (
            Renewal::OwnRateAsFixed,
            1000,
            under_40.clone(),
            vec![(40, 0), (7, 0), (8, 0), (20, 0), (9, 0), (10, 0), (11, 0)],
        ),
        // The children of class 40 are fixed 2000 and weights 1 and 3: 3 of 4 parts of 400
        // are 300. Of these 60, and 240 are left; of 60 30, 10 and 20.
        (
            Renewal::OwnRateByOwnSums,
            1000,
            under_40.clone(),
            vec![(40, 300), (7, 60), (8, 60), (20, 180), (9, 30), (10, 10), (11, 20)],
        ),
        // Class 1 has 500 and 250 are left for weights of 4 in all: a tenth, and a quarter
        // of what is left.
        (Renewal::SameLevel, 1000, under_1.clone(), vec![(13, 50), (14, 62), (15, 62)]),
        // Class 3 with 500.
        (Renewal::NeighboursToo, 1000, under_1.clone(), vec![(13, 50), (14, 450), (15, 450)]),
        // 300 are left for weights of 4 in all, and class 4 has 2 of them.
        (Renewal::OldSums, 1000, light_4, with(&[(4, 150), (12, 150), (40, 225), (6, 75)])),
        // Level 2 has fixed 6000 and weights 5: 200 are left. Level 3 has fixed 2000 and
        // weights 3: of 200 160 are left, 53.3 each; of 120 24, and 96 are left.
        (
            Renewal::SumsOfLevel,
            1000,
            under_1.clone(),
            vec![(40, 120), (6, 40), (12, 53), (7, 32), (8, 24), (9, 16), (10, 5), (11, 10)],
        ),
        // Below class 40 are fixed 7000 and weights 7: 67.5 are left, 9.6 and 28.7 of 67.
        // Of 9 4.5, and 4.5 are left.
        (Renewal::SumsOfAllBelow, 1000, under_40, vec![(7, 9), (20, 28), (9, 4), (10, 1), (11, 2)]),
        // Fixed 15,000 in all leave −500. Tenths of −125 lose their fraction.
        (
            Renewal::RootAmongChildren,
            1000,
            Call::Join(client(20, 0, WEIGHTED, 2, 8)),
            vec![(2, -125), (3, -125), (20, -250), (13, -12), (14, -112), (15, -112)],
        ),
        // Nodes 7 and 8 come before class 40.
        (Renewal::ByNumber, 1000, under_1.clone(), below_40.clone()),
        // Class 4 has 200 before and after.
        (Renewal::StopsAtSame, 1000, under_1, with(&[(20, 0), (40, 225), (6, 75)])),
        // Class 3 goes from 249 to 499: 24 × 499 / 249 is 48.1, and 224 × 499 / 249 448.9.
        (Renewal::Scaled, 999, leave(2), vec![(13, 48), (14, 448), (15, 448)]),
        // 4 of 6 parts of 499.5 are 333, and of 499 332.7.
        (Renewal::RoundsOnce, 999, Call::Join(client(20, 0, WEIGHTED, 4, 8)), vec![(20, 333)]),
        // 999 − 499 are 500, where 499 are left: 125, 125 and 250. Of 125 12, and 113 are
        // left. 499 − 199 are 300: 225 and 75. Of 225 45 and 180; of 180 90, 30 and 60.
        (
            Renewal::LessFixedRates,
            999,
            Call::Join(client(20, 0, WEIGHTED, 2, 8)),
            with(&[(2, 125), (3, 125), (20, 250), (14, 113), (15, 113), (40, 225), (6, 75)]),
        ),
    ]
}

#[test]
fn misreadings_give_their_wrong_rates() {
    for (misreading, rate, call, wrong) in misreadings() {
        let before = tree(rate).table;
        let right = made(&mut Engine, &before, &call);
        assert_eq!(made(&mut Faulty::new(Fault::None), &before, &call), right);
        let given = made(&mut Faulty::new(Fault::WrongRenewal(misreading)), &before, &call);
        for &(node, rate) in &wrong {
            assert_ne!(get(&right, node, RATE), rate, "{misreading:?}, node {node}");
        }
        let mut expected = rates(&right);
        expected.extend(wrong.iter().copied());
        assert_eq!(rates(&given), expected, "{misreading:?}");
        let nodes: Vec<usize> = wrong.iter().map(|&(node, _)| node).collect();
        only_rates_differ(&right, &given, &nodes, None);
    }
}

#[test]
fn a_renewal_that_empties_buckets_is_seen() {
    let mut disk = tree(1000);
    assert!(disk.tick().is_empty());
    let call = Call::Join(client(20, 1, FIXED, 1000, 8));
    let right = made(&mut Engine, &disk.table, &call);
    let emptying = Fault::WrongRenewal(Renewal::EmptiesBuckets);
    let given = made(&mut Faulty::new(emptying), &disk.table, &call);
    assert_eq!(rates(&given), rates(&right));
    // After a tick every balance is the rate.
    for (node, rate) in TREE {
        let is_renewed = [4, 40, 6, 7, 8, 9, 10, 11, 12].contains(&node);
        assert_eq!(get(&right, node, BALANCE), rate);
        assert_eq!(get(&given, node, BALANCE), if is_renewed { 0 } else { rate });
    }
}

#[test]
fn every_wrong_renewal_is_worked_by_hand() {
    let by_hand = misreadings().into_iter().map(|(misreading, ..)| misreading);
    let all = by_hand.chain([Renewal::EmptiesBuckets]).map(Fault::WrongRenewal);
    assert!(all.eq(FAULTS.into_iter().filter(|fault| matches!(fault, Fault::WrongRenewal(_)))));
}

#[test]
fn few_runs_tell_every_wrong_renewal_by_a_change() {
    for fault in FAULTS.into_iter().filter(|fault| matches!(fault, Fault::WrongRenewal(_))) {
        let found = (0..8).find_map(|seed| {
            let mut steps = run(seed, 400, Profile::Clean);
            let mut faulty = Faulty::new(fault);
            let (position, _) = first_difference(&mut Engine, &mut faulty, &steps)?;
            Some(steps.swap_remove(position))
        });
        let is_change = match &found {
            Some(Step::Call(Call::ChangeRate { .. })) => true,
            Some(Step::Call(call)) => node_of(call).is_some(),
            _ => false,
        };
        assert!(is_change, "{fault:?}: {found:?}");
    }
}
