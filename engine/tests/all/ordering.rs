//! The in-order test, clause by clause.

use std::collections::BTreeSet;

use crate::support::*;
use hds_engine::damage::{any, failing, isolated};
use hds_engine::order::{in_order, CLAUSES, SIZES_CLAUSE};
use hds_engine::random::{run, Profile, Rng};
use hds_engine::refusal::NOT_IN_ORDER;
use hds_engine::steps::{Step, World};
use hds_engine::table::*;
use hds_engine::{Controller, Engine};

/// Class 1 with clients 2 and 3, class 4 alone; three requests wait, whose costs
/// are 20, 30 and 13.
fn sound() -> Disk {
    let mut disk = Disk::open(1000, 100);
    disk.join(class(1, 0, FIXED, 5000, 50)).unwrap();
    disk.join(client(2, 1, FIXED, 6000, 20)).unwrap();
    disk.join(client(3, 1, WEIGHTED, 6, 30)).unwrap();
    disk.join(class(4, 0, WEIGHTED, 1, 50)).unwrap();
    for (client, size) in [(2, 16), (3, 26), (2, 9)] {
        disk.request(client, 7, size).unwrap();
    }
    disk
}

/// Whether the table is in order after the writes of (node, place, value).
fn holds(writes: &[(usize, usize, i64)]) -> bool {
    let mut disk = sound();
    for &(node, place, value) in writes {
        disk.poke(node, place, value);
    }
    let answer = Engine.look(&disk.table, 0);
    assert_eq!(answer.is_ok(), in_order(&disk.table));
    in_order(&disk.table)
}

#[test]
fn lengths() {
    let table = sound().table;
    assert!(in_order(&table));
    assert!(!in_order(&table[..TABLE_LEN - 1]));
    assert!(!in_order(&[&table[..], &[0]].concat()));
    assert!(!in_order(&[]));
    assert!(!in_order(&[0; TABLE_LEN]));
}

#[test]
fn header() {
    for (count, right) in
        [(2, false), (3, true), (MAX_ACCEPTED, true), (MAX_ACCEPTED + 1, false), (-1, false)]
    {
        let mut table = sound().table;
        table[ACCEPTED] = count;
        assert_eq!(in_order(&table), right, "{count}");
    }
    for place in 1..HEADER_LEN {
        let mut table = sound().table;
        table[place] = -1;
        assert!(!in_order(&table));
    }
}

#[test]
fn root() {
    for (place, value) in [
        (SORT, UNUSED),
        (SORT, CLIENT),
        (PARENT, 1),
        (LEVEL, 1),
        (KIND, WEIGHTED),
        (SHARE, 9_999),
        (DEPTH, 0),
        (DEPTH, 1_000_001),
        (RATE, 0),
        (WAITING, 1),
    ] {
        assert!(!holds(&[(0, place, value)]));
    }
    assert!(holds(&[(0, DEPTH, 1_000_000)]));
}

#[test]
fn disk_rates() {
    for (rate, right) in [(0, false), (1, true), (MAX_RATE, true), (MAX_RATE + 1, false)] {
        let mut table = Disk::open(1000, 1).table;
        table[at(ROOT, RATE)] = rate;
        assert_eq!(in_order(&table), right);
    }
}

#[test]
fn every_zero_place_counts() {
    let sound = sound().table;
    for node in 0..NODES {
        for place in 0..RECORD_LEN {
            let filled = QUEUE + QUEUE_STEP * waiting_count(&sound, node);
            let is_free = is_used(&sound, node) && place < filled && !(10..16).contains(&place);
            // Clients 2 and 3 may be on port 1, which their place 9 says.
            if !is_free || place == 9 && ![2, 3].contains(&node) {
                assert!(!holds(&[(node, place, 1)]), "node {node}, place {place}");
            }
        }
    }
}

#[test]
fn tags_are_any_number() {
    for tag in [i64::MIN, -1, 0, i64::MAX] {
        assert!(holds(&[(2, QUEUE, tag), (3, QUEUE, tag)]));
    }
}

#[test]
fn tree() {
    for (node, place, value) in [
        (1, SORT, 3),
        (1, SORT, -1),
        (3, PARENT, 2),
        (3, PARENT, 5),
        (3, PARENT, 3),
        (3, PARENT, 0),
        (3, PARENT, 64),
        (3, PARENT, -1),
        (3, PARENT, i64::MIN),
        (3, LEVEL, 1),
        (3, LEVEL, 3),
        (1, LEVEL, i64::MAX),
        (1, KIND, 3),
        (1, KIND, -1),
        (4, SHARE, 0),
        (4, SHARE, 10_001),
        (4, DEPTH, 0),
    ] {
        assert!(!holds(&[(node, place, value)]), "node {node}, place {place}, {value}");
    }
    // A lone weight gets the same rate whatever it is.
    assert!(holds(&[(4, SHARE, 10_000)]));
}

#[test]
fn levels_of_classes() {
    let mut disk = Disk::open(1000, 10);
    for node in 1..=3 {
        disk.join(class(node, node - 1, WEIGHTED, 1, 10)).unwrap();
    }
    disk.join(client(4, 3, WEIGHTED, 1, 10)).unwrap();
    disk.poke(4, SORT, CLASS);
    assert_eq!(disk.look(0), Err(NOT_IN_ORDER));
}

#[test]
fn share_and_depth_sums() {
    assert!(holds(&[(1, SHARE, 5000), (4, KIND, FIXED), (4, SHARE, 5000)]));
    assert!(!holds(&[(4, KIND, FIXED), (4, SHARE, 5001)]));
    assert!(!holds(&[(4, DEPTH, 51)]));
    assert!(!holds(&[(0, DEPTH, 99)]));
}

#[test]
fn rates() {
    for node in 1..=4 {
        for change in [-1, 1] {
            let rate = sound().rate(node as i64);
            assert!(!holds(&[(node, RATE, rate + change)]));
        }
    }
}

#[test]
fn balances() {
    assert!(holds(&[(0, BALANCE, 100_000)]));
    assert!(!holds(&[(0, BALANCE, 100_001)]));
    assert!(holds(&[(2, BALANCE, 20_000)]));
    assert!(!holds(&[(2, BALANCE, 20_001)]));
    assert!(!holds(&[(2, BALANCE, -1)]));
    assert!(holds(&[(4, BALANCE, -50_000)]));
    assert!(!holds(&[(4, BALANCE, -50_001)]));
    // Class 1 has depth 50 and children with 20,000 and 30,000.
    assert!(holds(&[(2, BALANCE, 20_000), (3, BALANCE, 30_000), (1, BALANCE, 0)]));
    assert!(!holds(&[(2, BALANCE, 20_000), (3, BALANCE, 30_000), (1, BALANCE, -1)]));
    // The root's children may pull it down to −100,000 − 100,000.
    assert!(holds(&[(4, BALANCE, -50_000), (1, BALANCE, -50_000), (0, BALANCE, -200_000)]));
    assert!(!holds(&[(4, BALANCE, -50_000), (1, BALANCE, -50_000), (0, BALANCE, -200_001)]));
    // Sums of any contents do not overflow.
    let lowest = [(1, BALANCE, i64::MIN), (4, BALANCE, i64::MIN), (0, BALANCE, i64::MAX)];
    assert!(!holds(&lowest));
}

#[test]
fn waiting_requests() {
    let size = QUEUE + 1;
    let arrival = QUEUE + 2;
    // Client 2 has depth 20, and the requests behind the oldest count as well.
    for place in [size, size + QUEUE_STEP] {
        for right in [1, 7, 8, 15, 16] {
            assert!(holds(&[(2, place, right)]), "{right}");
        }
        for wrong in [i64::MIN, -1, 0, 17, 20, 21, 64, 512, i64::MAX - 15, i64::MAX] {
            assert!(!holds(&[(2, place, wrong)]), "{wrong}");
        }
    }
    assert!(!holds(&[(2, WAITING, 1)]));
    assert!(!holds(&[(2, WAITING, 3)]));
    assert!(!holds(&[(2, WAITING, 9)]));
    assert!(!holds(&[(2, WAITING, -1)]));
    assert!(!holds(&[(2, arrival, 0)]));
    assert!(!holds(&[(2, arrival, 2)]));
    assert!(!holds(&[(2, arrival, 3)]));
    assert!(!holds(&[(2, arrival, 3), (2, arrival + 3, 1)]));
    assert!(!holds(&[(2, arrival + 3, 4)]));
    assert!(holds(&[(2, arrival, 2), (3, arrival, 1)]));
}

#[test]
fn waiting_sizes_go_by_their_cost() {
    for (size, cost) in COSTS {
        for (depth, right) in [(cost - 1, false), (cost, true)] {
            let mut disk = Disk::open(1, MAX_DEPTH);
            disk.join(client(5, 0, WEIGHTED, 1, depth)).unwrap();
            // A request as the table would hold it.
            disk.table[ACCEPTED] = 1;
            disk.poke(5, WAITING, 1);
            disk.poke(5, QUEUE + 1, size);
            disk.poke(5, QUEUE + 2, 1);
            assert_eq!(in_order(&disk.table), right, "size {size} at depth {depth}");
            let sizes_alone: &[usize] = if right { &[] } else { &[SIZES_CLAUSE] };
            assert_eq!(failing(&disk.table), sizes_alone);
        }
    }
}

#[test]
fn every_clause_is_broken_alone() {
    let mut rng = Rng::new(1);
    let mut broken = BTreeSet::new();
    for seed in 0..40 {
        let mut world = World::default();
        for step in run(seed, 120, Profile::Clean) {
            world.run(&mut Engine, &step);
        }
        for clause in 0..CLAUSES.len() {
            let Some(steps) = isolated(&mut rng, world.table.inner(), clause) else { continue };
            let mut damaged = world.clone();
            for step in &steps {
                damaged.run(&mut Engine, step);
            }
            let table = damaged.table.inner();
            assert_eq!(failing(table), [clause]);
            assert_eq!(Engine.look(table, 0), Err(NOT_IN_ORDER));
            broken.insert(clause);
        }
    }
    assert_eq!(broken.len(), CLAUSES.len());
}

#[test]
fn no_clause_panics_on_any_contents() {
    let mut rng = Rng::new(2);
    let mut table = sound().table;
    for _ in 0..20_000 {
        let place = rng.below(TABLE_LEN);
        table[place] = rng.edge(0, 3);
        if rng.chance(10) {
            table[at(rng.below(NODES), rng.below(QUEUE))] = rng.edge(0, 3);
        }
        failing(&table);
    }
    for number in [i64::MIN, i64::MAX, -1, 1, 2] {
        failing(&[number; TABLE_LEN]);
        assert!(!in_order(&[number; TABLE_LEN]));
    }
}

#[test]
fn damage_meets_the_limits_of_waiting_sizes() {
    // Client 2 has depth 20, which a size of 16 costs, and client 3 depth 30,
    // which 26 costs. Both are full, so that a depth one less is one too low.
    let mut rng = Rng::new(5);
    let table = sound().table;
    let mut seen = BTreeSet::new();
    for _ in 0..10_000 {
        for step in any(&mut rng, &table) {
            if let Step::Poke { place, value } = step {
                seen.insert((place, value));
            }
        }
    }
    for (client, depth, largest) in [(2, 20, 16), (3, 30, 26)] {
        let around = [largest - 1, largest + 1, depth, depth + 1];
        let ends = [1, 7, 8, 63, 64, 511, 512];
        let never = [i64::MIN, -1, 0, i64::MAX - 15, i64::MAX];
        for size in around.into_iter().chain(ends).chain(never) {
            assert!(seen.contains(&(at(client, QUEUE + 1), size)), "client {client}, size {size}");
        }
        assert!(seen.contains(&(at(client, DEPTH), depth - 1)));
    }
    // The second of client 2 has size 9.
    assert!(seen.contains(&(at(2, QUEUE + QUEUE_STEP + 1), 16)));
    assert!(seen.contains(&(at(2, QUEUE + QUEUE_STEP + 1), 17)));
}

#[test]
fn damage_is_of_all_sorts() {
    let mut rng = Rng::new(3);
    let table = sound().table;
    let (mut lawful, mut lengths, mut several) = (0, 0, 0);
    for _ in 0..500 {
        let steps = any(&mut rng, &table);
        let mut world = world_of(&table);
        for step in &steps {
            world.run(&mut Engine, step);
        }
        let changed = world.table.inner();
        lawful += usize::from(in_order(changed));
        lengths += usize::from(changed.len() != TABLE_LEN);
        several += usize::from(changed.len() == TABLE_LEN && failing(changed).len() > 1);
    }
    assert!(lawful > 20 && lengths > 20 && several > 20, "{lawful} {lengths} {several}");
}
