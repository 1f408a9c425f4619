//! Two ports on one cabinet: which ports a join takes, on which list a dispatch stands,
//! when a list is too short, and what the other calls make of ports, worked by hand.

use std::collections::BTreeMap;

use crate::family::*;
use crate::faults::scenario;
use crate::judging::{all_pairs, Ends, BOTH};
use crate::support::*;
use hds_engine::differential::first_difference;
use hds_engine::faulty::{Fault, Faulty, Ports, FAULTS};
use hds_engine::judge::{watch, Promise};
use hds_engine::order::{in_order, PORTS_CLAUSE, ZEROS_CLAUSE};
use hds_engine::plan::{Edition, Plan};
use hds_engine::random::{run, Profile, Rng};
use hds_engine::steps::{with_lent_counts, Call, Reply, Step, World};
use hds_engine::table::*;
use hds_engine::{damage, load, loads, Answer, Controller, Counts, Engine, NewNode};

/// Ports that no node has.
const OTHERS: [i64; 8] = [2, -1, 3, 256, 1 << 32, (1 << 32) + 1, i64::MIN, i64::MAX];

/// An empty list of entries.
const NONE: [Entry; 0] = [];

#[test]
fn a_join_puts_its_port_in_place_9() {
    for port in [0, 1] {
        let mut disk = Disk::open(1000, 40);
        disk.join(on_port(port, client(5, 0, WEIGHTED, 4, 16))).unwrap();
        let mut expected = Disk::open(1000, 40).table;
        expected[8 + 40 * 5..][..10].copy_from_slice(&[2, 0, 1, 1, 4, 16, 1000, 0, 0, port]);
        assert_eq!(disk.table, expected);
    }
    let mut disk = Disk::open(1000, 40);
    disk.join(class(5, 0, WEIGHTED, 4, 16)).unwrap();
    assert_eq!(record(&disk.table, 5)[..10], [1, 0, 1, 1, 4, 16, 1000, 0, 0, 0]);
}

/// Classes 1, 2 and 3 below each other, client 4 in class 3, client 5 under the root. What
/// is left under the root is fixed 5000, 1000 to be stated and depth 30.
fn deep() -> Disk {
    let mut disk = Disk::open(1000, 100);
    disk.join(class(1, 0, FIXED, 5000, 50)).unwrap();
    disk.join(class(2, 1, FIXED, 5000, 40)).unwrap();
    disk.join(class(3, 2, FIXED, 5000, 30)).unwrap();
    disk.join(on_port(1, client(4, 3, FIXED, 5000, 20))).unwrap();
    disk.join(client(5, 0, WEIGHTED, 5, 20)).unwrap();
    disk
}

#[test]
fn a_port_other_than_0_and_1_is_outside_its_limits() {
    let table = deep().table;
    for parent in [0, 1, 2] {
        let (client, class) = (client(9, parent, WEIGHTED, 1, 1), class(9, parent, WEIGHTED, 1, 1));
        for port in OTHERS {
            let joins = [client, class].map(|new| (&[2][..], Call::Join(on_port(port, new))));
            first_cause_counts(&table, &joins);
        }
        first_cause_counts(
            &table,
            &[
                (&[], Call::Join(client)),
                (&[], Call::Join(on_port(1, client))),
                (&[], Call::Join(class)),
                (&[2], Call::Join(on_port(1, class))),
            ],
        );
    }
}

/// Joins that are refused in that tree for one cause alone, of each sort where there is one.
const CAUSES: [(i64, [Option<NewNode>; 2]); 6] = {
    const fn new(sort: i64, [node, parent, kind, share, depth]: [i64; 5]) -> Option<NewNode> {
        Some(NewNode { node, parent, sort, kind, share, depth, port: 0 })
    }
    const fn both(numbers: [i64; 5]) -> [Option<NewNode>; 2] {
        [new(CLIENT, numbers), new(CLASS, numbers)]
    }
    [
        (3, both([9, 60, WEIGHTED, 1, 1])),
        (4, both([4, 0, WEIGHTED, 1, 1])),
        (5, both([9, 5, WEIGHTED, 1, 1])),
        (6, [None, new(CLASS, [9, 3, WEIGHTED, 1, 1])]),
        (7, both([9, 0, FIXED, 5001, 1])),
        (8, both([9, 0, WEIGHTED, 1, 31])),
    ]
};

#[test]
fn a_refused_port_comes_before_all_that_are_behind_2() {
    let table = deep().table;
    let stated = [client(9, 0, STATED, 1001, 1), class(9, 1, STATED, 1, 1)].map(Some);
    for (number, joins) in CAUSES.into_iter().chain([(16, stated)]) {
        for new in joins.into_iter().flatten() {
            for port in OTHERS {
                let cause = (&[2, number][..], Call::Join(on_port(port, new)));
                first_cause_counts(&table, &[cause]);
            }
            let both: &[i64] = if new.sort == CLASS { &[2, number] } else { &[number] };
            first_cause_counts(&table, &[(both, Call::Join(on_port(1, new)))]);
            first_cause_counts(&table, &[(&[number], Call::Join(new))]);
        }
    }
    // A table out of order comes before it.
    let mut table = table;
    table[at(5, BALANCE)] = -1;
    let join = Call::Join(on_port(2, client(9, 0, WEIGHTED, 1, 1)));
    first_cause_counts(&table, &[(&[1, 2], join)]);
}

#[test]
fn a_leave_takes_the_port_with_it() {
    let mut disk = deep();
    let before = disk.table.clone();
    disk.leave(4).unwrap();
    assert!(record(&disk.table, 4).iter().all(|&number| number == 0));
    // Another one at the number has the port that it joins with.
    disk.join(client(4, 3, FIXED, 5000, 20)).unwrap();
    assert_eq!(get(&disk.table, 4, PORT), 0);
    disk.leave(4).unwrap();
    disk.join(class(4, 1, FIXED, 1, 10)).unwrap();
    assert_eq!(get(&disk.table, 4, PORT), 0);
    disk.leave(4).unwrap();
    disk.join(on_port(1, client(4, 3, FIXED, 5000, 20))).unwrap();
    assert_eq!(disk.table, before);
}

#[test]
fn no_other_call_changes_a_port() {
    let mut disk = deep();
    disk.change_share(4, WEIGHTED, 7).unwrap();
    disk.change_share(5, STATED, 7).unwrap();
    disk.change_rate(1_000_000).unwrap();
    disk.request(4, 0, 1).unwrap();
    disk.request(5, 0, 1).unwrap();
    disk.tick_on_ports();
    disk.join(client(6, 0, WEIGHTED, 1, 1)).unwrap();
    disk.leave(6).unwrap();
    assert_eq!(
        [0, 1, 2, 3, 4, 5, 6].map(|node| get(&disk.table, node, PORT)),
        [0, 0, 0, 0, 1, 0, 0]
    );
    disk.leave(5).unwrap();
    assert_eq!(get(&disk.table, 4, PORT), 1);
}

/// Gives clients that are there port 1.
fn on_second<const N: usize>(mut disk: Disk, clients: [usize; N]) -> Disk {
    clients.into_iter().for_each(|client| disk.poke(client, PORT, 1));
    disk
}

#[test]
fn each_list_receives_its_own_ports_dispatches() {
    // Document 01's edge: disk 8000, weights of 1, 6 asked before 5. At the first tick each
    // client gets 4000 and the root 8000, which pays for 6; at the second 5 has 8000.
    for six in [0, 1] {
        let mut disk = Disk::open(8000, 40);
        disk.join(on_port(1 - six, client(5, 0, WEIGHTED, 1, 16))).unwrap();
        disk.join(on_port(six, client(6, 0, WEIGHTED, 1, 16))).unwrap();
        disk.request(6, 66, 1).unwrap();
        disk.request(5, 55, 1).unwrap();
        let mut lists = disk.tick_on_ports();
        lists.rotate_left(six as usize);
        assert_eq!(lists, [vec![[6, 66, 1, 0]], vec![]]);
        let mut lists = disk.tick_on_ports();
        lists.rotate_left(six as usize);
        assert_eq!(lists, [vec![], vec![[5, 55, 1, 5]]]);
    }
}

#[test]
fn step_two_goes_by_number_on_each_list() {
    // Each of four clients gets 16 tokens: the cost of 12 once, or of 1 twice.
    let mut disk = Disk::open(64_000, 64);
    for (node, port) in [(8, 1), (3, 1), (5, 0), (9, 0)] {
        disk.join(on_port(port, client(node, 0, WEIGHTED, 1, 16))).unwrap();
    }
    for (client, tag, size) in [(9, 90, 1), (8, 80, 12), (3, 30, 1), (5, 50, 12), (3, 31, 1)] {
        disk.request(client, tag, size).unwrap();
    }
    disk.request(9, 91, 1).unwrap();
    let first = vec![[5, 50, 12, 5], [9, 90, 1, 9], [9, 91, 1, 9]];
    let second = vec![[3, 30, 1, 3], [3, 31, 1, 3], [8, 80, 12, 8]];
    assert_eq!(disk.tick_on_ports(), [first, second]);
    // 16, 16, 16 and 16 of 64.
    assert_eq!(disk.balance(0), 0);
}

#[test]
fn step_four_picks_whatever_the_ports_are() {
    // The list of all is 2, 5, 3: class 1 has 8 for client 2, then the root has 16 for
    // clients 5 and 3.
    let [two, five, three] = [[2, 1, 1, 1], [5, 2, 1, 0], [3, 3, 1, 0]];
    for (clients, lists) in [
        (vec![], [vec![two, five, three], vec![]]),
        (vec![2], [vec![five, three], vec![two]]),
        (vec![5], [vec![two, three], vec![five]]),
        (vec![3], [vec![two, five], vec![three]]),
        (vec![2, 3], [vec![five], vec![two, three]]),
        (vec![3, 5], [vec![two], vec![five, three]]),
        (vec![2, 3, 5], [vec![], vec![two, five, three]]),
    ] {
        let mut disk = steps_rise(24);
        clients.iter().for_each(|&client| disk.poke(client, PORT, 1));
        assert_eq!(disk.tick_on_ports(), lists, "{clients:?}");
        assert_eq!(tokens(&mut disk, [0, 1, 4]), [0, 0, 0]);
    }
    // A client's own dispatches of both steps stand on one list: 2 pays its second itself,
    // before client 3, which asked earlier.
    let mut disk = on_second(own_behind_a_larger_one(), [2]);
    let lists = [vec![[3, 2, 1, 4]], vec![[2, 1, 12, 1], [2, 3, 1, 2]]];
    assert_eq!(disk.tick_on_ports(), lists);
}

#[test]
fn both_ports_draw_on_the_same_balances() {
    // The root has 8 tokens for one of two strangers, and they go by arrival.
    for (first, second) in [(2, 5), (5, 2)] {
        for port in [0, 1] {
            let nodes = [(1, 0, 0), (2, 1, 0), (4, 0, 0), (5, 4, 0)];
            let mut disk = asking(8, &nodes, &[(first, 1), (second, 1)]);
            disk.poke(2, PORT, port);
            disk.poke(5, PORT, 1 - port);
            let lists = disk.tick_on_ports();
            assert_eq!(lists.concat(), [[first, 1, 1, 0]]);
            assert_eq!(lists[get(&disk.table, second as usize, PORT) as usize], NONE);
            assert_eq!(tokens(&mut disk, [0]), [0]);
        }
    }
}

/// Clients 2 and 7 on port 0 with three requests that wait, and client 5 on port 1 with two;
/// the disk has 1 grain.
fn waiting() -> Disk {
    let mut disk = Disk::open(1, 100);
    disk.join(client(2, 0, WEIGHTED, 1, 20)).unwrap();
    disk.join(on_port(1, client(5, 0, WEIGHTED, 1, 20))).unwrap();
    disk.join(client(7, 0, WEIGHTED, 1, 20)).unwrap();
    for client in [2, 5, 7, 5, 2] {
        disk.request(client, 0, 1).unwrap();
    }
    disk
}

fn tick_of(first: usize, second: usize) -> Call {
    Call::Tick { list_lens: [first, second] }
}

#[test]
fn each_list_is_judged_by_what_waits_at_its_own_ports_clients() {
    let table = waiting().table;
    for (first, second) in (0..=24).flat_map(|first| (0..=24).map(move |second| (first, second))) {
        let causes: &[i64] = if first < 12 || second < 8 { &[13] } else { &[] };
        first_cause_counts(&table, &[(causes, tick_of(first, second))]);
    }
    // Where nothing waits at the clients of a port its list may be empty.
    let mut disk = waiting();
    disk.poke(5, PORT, 0);
    let cases: &Cases = &[(&[], tick_of(20, 0)), (&[13], tick_of(19, 9)), (&[], tick_of(20, 1))];
    first_cause_counts(&disk.table, cases);
    let disk = on_second(waiting(), [2, 7]);
    let cases: &Cases = &[(&[], tick_of(0, 20)), (&[13], tick_of(9, 19)), (&[], tick_of(1, 20))];
    first_cause_counts(&disk.table, cases);
    first_cause_counts(&deep().table, &[(&[], tick_of(0, 0)), (&[], tick_of(3, 5))]);
    // 1 comes before 13.
    let mut table = waiting().table;
    table[at(5, PORT)] = 2;
    first_cause_counts(&table, &[(&[1], tick_of(12, 8)), (&[1, 13], tick_of(0, 0))]);
}

#[test]
fn a_list_beyond_its_dispatches_stays() {
    let mut disk = on_second(steps_rise(24), [3, 5]);
    let (mut first, mut second) = ([-7; 11], [-8; 15]);
    assert_eq!(disk.tick_with(&mut first, &mut second), Ok([1, 2]));
    assert_eq!(first, [2, 1, 1, 1, -7, -7, -7, -7, -7, -7, -7]);
    assert_eq!(second, [5, 2, 1, 0, 3, 3, 1, 0, -8, -8, -8, -8, -8, -8, -8]);
}

#[test]
fn places_9_of_all_sorts() {
    let sound = deep().table;
    for node in 0..NODES {
        for port in [0, 1].into_iter().chain(OTHERS) {
            let mut table = sound.clone();
            table[at(node, PORT)] = port;
            let may_be = port == 0 || port == 1 && (node == 4 || node == 5);
            assert_eq!(in_order(&table), may_be, "node {node}, port {port}");
            let clause = if node <= 5 { PORTS_CLAUSE } else { ZEROS_CLAUSE };
            let broken: &[usize] = if may_be { &[] } else { &[clause] };
            assert_eq!(damage::failing(&table), broken, "node {node}, port {port}");
        }
        for place in 10..16 {
            for value in [1, 2, -1, i64::MIN, i64::MAX] {
                let mut table = sound.clone();
                table[at(node, place)] = value;
                assert_eq!(damage::failing(&table), [ZEROS_CLAUSE], "node {node}, place {place}");
            }
        }
    }
}

#[test]
fn same_does_not_look_at_ports() {
    let mut disk = deep();
    for ports in [[0, 0], [0, 1], [1, 0], [1, 1]] {
        let mut other = deep();
        other.poke(4, PORT, ports[0]);
        other.poke(5, PORT, ports[1]);
        assert_eq!(disk.same(&other), Ok(true), "{ports:?}");
        other.change_share(5, WEIGHTED, 6).unwrap();
        assert_eq!(disk.same(&other), Ok(false), "{ports:?}");
    }
}

/// Document 01's plan, in both editions: the first body of the second is at 4 + 9 + 4.
const ONE_CLIENT: [u8; 20] =
    [0xE8, 3, 0, 0, 0x28, 0, 0, 0, 1, 5, 0, 0x0D, 0, 3, 4, 0, 0x10, 0, 0, 0];
const ONE_CLIENT_SECOND: [u8; 26] = [
    0xFF, 0xFF, 0xFF, 0xFF, 0xE8, 3, 0, 0, 0x28, 0, 0, 0, 1, 5, 0, 0x11, 0, 3, 4, 0, 0, 0, 0x10, 0,
    0, 0,
];

#[test]
fn plans_have_no_ports() {
    for port in [0, 1] {
        let mut disk = Disk::open(1000, 40);
        disk.join(on_port(port, client(5, 0, WEIGHTED, 4, 16))).unwrap();
        for (edition, plan) in [(1, &ONE_CLIENT[..]), (2, &ONE_CLIENT_SECOND)] {
            let mut buffer = vec![9; plan.len()];
            assert_eq!(disk.plan_write(edition, &mut buffer), Ok(plan.len() as i64));
            assert_eq!(buffer, plan);
        }
    }
    // Whatever stood in place 9.
    for port in [0, 1, 2, -1, i64::MAX] {
        for (edition, plan) in [(1, &ONE_CLIENT[..]), (2, &ONE_CLIENT_SECOND)] {
            let mut disk = Disk::open(1000, 40);
            disk.join(client(5, 0, WEIGHTED, 4, 16)).unwrap();
            let expected = disk.table.clone();
            disk.poke(5, PORT, port);
            disk.poke(6, PORT, port);
            assert_eq!(disk.plan_read(plan), Ok(edition));
            assert_eq!(disk.table, expected);
        }
    }
}

#[test]
fn a_plan_of_a_table_is_that_of_the_table_on_port_0() {
    for profile in [Profile::Clean, Profile::Tree] {
        for seed in 0..10 {
            let mut world = World::default();
            for step in run(seed, 200, profile) {
                world.run(&mut Engine, &step);
            }
            let table = world.table.inner();
            assert_eq!(Plan::of_table(table), Plan::of_table(&on_first(table)));
            assert_eq!(Engine.same(table, &on_first(table)), Ok(true));
            let bytes = Plan::of_table(table).encode(Edition::Second);
            let mut read = table.to_vec();
            assert_eq!(Engine.plan_read(&bytes, &mut read), Ok(2));
            assert_eq!(read, on_first(&read));
        }
    }
}

/// The table with every client on port 0.
fn on_first(table: &[i64]) -> Vec<i64> {
    let mut table = table.to_vec();
    (0..64).for_each(|node| table[8 + 40 * node + 9] = 0);
    table
}

#[test]
fn the_load_reads_the_first_list() {
    // Seed 0 draws 15470, 18256 and 53708: client 5, the size 18256 mod 8 + 1 = 1 of depth 8,
    // and the tag. At a rate of 8000 it goes at the first tick.
    let plan = Plan { rate: 8000, depth: 40, nodes: vec![client(5, 0, WEIGHTED, 1, 8)] };
    let input = loads::input(0, 1, &plan.encode(Edition::First));
    assert_eq!(load::text(&input), b"1 5 53708 1 5\n");
}

#[test]
fn the_lists_are_the_single_list_divided() {
    // Of each tick: the same on port 0 gives the single list, and the same table but for
    // the ports.
    let mut rng = Rng::new(8);
    let mut met: BTreeMap<&str, usize> = BTreeMap::new();
    for (profile, seeds) in [(Profile::Clean, 40), (Profile::Family, 30), (Profile::Wild, 40)] {
        for seed in 0..seeds {
            let mut world = World::default();
            for step in run(seed, 400, profile) {
                let before = world.table.inner().to_vec();
                let reply = world.run(&mut Engine, &step);
                let Some(Reply::Counts(counts)) = reply else { continue };
                let lists = entries_of(world.lists(), counts);
                let mut single = on_first(&before);
                let [list, none] = dispatches(&mut Engine, &mut single);
                assert_eq!(none, NONE);
                let divided = |port: i64, table: &[i64]| -> Vec<Entry> {
                    let is_own = |entry: &&Entry| get(table, entry[0] as usize, PORT) == port;
                    list.iter().filter(is_own).copied().collect()
                };
                assert_eq!(lists, [0, 1].map(|port| divided(port, &before)));
                assert_eq!(on_first(world.table.inner()), single);
                // With the ports given anew.
                let mut other = before.clone();
                for client in clients(&before) {
                    other[at(client, PORT)] = rng.between(0, 1);
                }
                let ported = other.clone();
                let given = dispatches(&mut Engine, &mut other);
                assert_eq!(given, [0, 1].map(|port| divided(port, &ported)));
                assert_eq!(on_first(&other), single);
                let mut count = |name, holds| *met.entry(name).or_default() += usize::from(holds);
                let [first, second] = lists;
                count("first alone", !first.is_empty() && second.is_empty());
                count("second alone", first.is_empty() && !second.is_empty());
                count("both", !first.is_empty() && !second.is_empty());
                let single = [first, second].concat();
                count("not one behind the other", single != list);
            }
        }
    }
    assert!(met.len() == 4 && met.values().all(|&count| count > 300), "{met:?}");
}

#[test]
fn runs_meet_ports_in_every_way() {
    for (profile, least) in
        [(Profile::Clean, 20), (Profile::Family, 2), (Profile::Tree, 0), (Profile::Wild, 10)]
    {
        let mut met: BTreeMap<&str, usize> = BTreeMap::new();
        for seed in 0..100 {
            let mut world = World::default();
            for step in run(seed, 400, profile) {
                let before = world.table.inner().to_vec();
                let reply = world.run(&mut Engine, &step);
                if let (Step::Call(call), Some(reply)) = (&step, reply) {
                    count(&mut met, &before, call, refusal(call, reply));
                }
            }
        }
        assert_eq!(met.len(), 17, "{met:?}");
        assert!(met.values().all(|&count| count >= least), "{profile:?}: {met:?}");
    }
}

/// Counts what a call met, given the table before it and the answer, 0 for an accepted one.
fn count(met: &mut BTreeMap<&str, usize>, table: &[i64], call: &Call, answer: i64) {
    let mut count = |name, holds| *met.entry(name).or_default() += usize::from(holds);
    match *call {
        Call::Join(NewNode { sort, port, .. }) => {
            count("client on port 0", answer == 0 && sort == 2 && port == 0);
            count("client on port 1", answer == 0 && sort == 2 && port == 1);
            count("client on port 2", answer == 2 && sort == 2 && port == 2);
            count("client on port -1", answer == 2 && sort == 2 && port == -1);
            count("client on a port far off", answer == 2 && sort == 2 && port > 1 << 31);
            count("class on port 1", answer == 2 && sort == 1 && port == 1);
        }
        Call::Tick { list_lens } if answer == 0 || answer == 13 => {
            let [first, second] = [0, 1].map(|port| {
                let own = clients(table).filter(|&client| get(table, client, PORT) == port);
                4 * own.map(|client| get(table, client, WAITING) as usize).sum::<usize>()
            });
            let [short, other] = [list_lens[0] < first, list_lens[1] < second];
            assert_eq!(answer == 13, short || other);
            count("just enough for both", list_lens == [first, second] && first > 0 && second > 0);
            count("empty first list", list_lens[0] == 0 && first == 0 && second > 0);
            count("empty second list", list_lens[1] == 0 && second == 0 && first > 0);
            count("long first list", answer == 0 && list_lens[0] > first + second);
            count("long second list", answer == 0 && list_lens[1] > first + second);
            count("first list a number short", list_lens[0] + 1 == first && !other);
            count("second list a number short", list_lens[1] + 1 == second && !short);
            count("first list an entry short", list_lens[0] + 4 == first && !other);
            count("second list an entry short", list_lens[1] + 4 == second && !short);
            let sum: usize = list_lens.iter().sum();
            count("short beside one long enough for both", answer == 13 && sum >= first + second);
            let exchanged = list_lens == [second, first] && first != second;
            count("in each other's place", exchanged);
        }
        _ => {}
    }
}

#[test]
fn damage_meets_ports_in_every_way() {
    let mut rng = Rng::new(6);
    let table = deep().table;
    let mut seen = Vec::new();
    for _ in 0..6000 {
        for step in damage::any(&mut rng, &table) {
            if let Step::Poke { place, value } = step {
                seen.push((place, value));
            }
        }
    }
    let has = |node: usize, place: usize, value: i64| seen.contains(&(at(node, place), value));
    for value in [0, 2, -1, 256, 1 << 32, (1 << 32) + 1, i64::MIN, i64::MAX] {
        assert!(has(4, PORT, value), "{value}");
    }
    assert!(has(5, PORT, 1));
    assert!([0, 1, 2, 3].into_iter().all(|class| has(class, PORT, 1)));
    for value in [2, -1, 1 << 32] {
        assert!([0, 1, 2, 3].into_iter().any(|class| has(class, PORT, value)), "{value}");
    }
    for value in [1, 2, -1] {
        assert!((6..64).any(|node| has(node, PORT, value)), "{value}");
    }
    for place in [10, 15] {
        assert!((0..6).all(|node| has(node, place, 1)));
        assert!((6..64).any(|node| has(node, place, 1)));
    }
}

#[test]
fn counts_that_are_lent() {
    let both = |answer: i64, given: Counts| {
        with_lent_counts(|counts| {
            *counts = given;
            answer
        })
    };
    assert_eq!(both(0, [3, 0]), Ok(Ok([3, 0])));
    assert_eq!(with_lent_counts(|_| -13), Ok(Err(13)));
    for (answer, given) in [(0, [-1, 0]), (0, [0, -1]), (1, [0, 0]), (-13, [0, 0]), (-1, [7, 7])] {
        assert!(both(answer, given).is_err(), "{answer}, {given:?}");
    }
    // An accepted tick that leaves one of them.
    for port in [0, 1] {
        let one = with_lent_counts(|counts| {
            counts[port] = 0;
            0
        });
        assert!(one.is_err());
        let refused = with_lent_counts(|counts| {
            counts[port] = 0;
            -13
        });
        assert!(refused.is_err());
    }
}

/// A list of 12 numbers, of which these entries were written and the rest was not.
fn list(entries: &[Option<Entry>]) -> Vec<i64> {
    let untouched = [-77; 4];
    let written = entries.iter().map(|entry| entry.unwrap_or(untouched));
    written.chain([untouched; 3]).take(3).flatten().collect()
}

/// What a tick with two lists of 12 numbers gives.
type Ticked = (Answer<Counts>, [Vec<i64>; 2]);

fn ticked(controller: &mut dyn Controller, disk: &Disk, lens: [usize; 2]) -> Ticked {
    let mut lists = lens.map(|len| vec![-77; len]);
    let [first, second] = &mut lists;
    let answer = controller.tick(&mut disk.table.clone(), [first, second]);
    (answer, lists)
}

const TWO: Option<Entry> = Some([2, 1, 1, 1]);
const FIVE: Option<Entry> = Some([5, 2, 1, 0]);
const THREE: Option<Entry> = Some([3, 3, 1, 0]);
const ZEROS: Option<Entry> = Some([0; 4]);

/// Client 2 on port 0, and clients 5 and 3 on port 1; they go in that order.
fn two_five_three() -> Disk {
    on_second(steps_rise(24), [3, 5])
}

/// Class 1 has 8 tokens for one of clients 2 on port 1 and 3 on port 0, who asks later.
fn two_of_a_class() -> Disk {
    on_second(asking(8, &[(1, 0, 8), (2, 1, 0), (3, 1, 0)], &[(2, 1), (3, 1)]), [2])
}

/// Class 1 has 16 tokens for two of clients 2 and 3 on port 0 and 4 on port 1, who asks last.
fn three_of_a_class() -> Disk {
    let nodes = [(1, 0, 16), (2, 1, 0), (3, 1, 0), (4, 1, 0)];
    on_second(asking(16, &nodes, &[(2, 1), (3, 1), (4, 1)]), [4])
}

/// Client 5 on port 0 asks before client 2 on port 1, whose class alone has 8 tokens. The
/// root has 8.
fn stranger_on_first() -> Disk {
    on_second(family_and_stranger(8), [2])
}

/// A misreading, a disk, and what the tick gives by it: counts and lists.
type MisreadList = (Ports, fn() -> Disk, Counts, [Vec<i64>; 2]);

/// Every misreading of what stands on the lists and what is counted.
fn misread_lists() -> Vec<MisreadList> {
    let own = |entry: Entry| Some(entry);
    let own_after_class = [own([2, 1, 12, 1]), own([3, 2, 1, 4]), own([2, 3, 1, 2])];
    vec![
        (Ports::AllOnFirst, two_five_three, [3, 0], [list(&[TWO, FIVE, THREE]), list(&[])]),
        (Ports::Exchanged, two_five_three, [2, 1], [list(&[FIVE, THREE]), list(&[TWO])]),
        // Class 1 and the root supply.
        (Ports::BySupplier, two_five_three, [3, 0], [list(&[TWO, FIVE, THREE]), list(&[])]),
        (Ports::Gaps, two_five_three, [1, 2], [list(&[TWO]), list(&[None, FIVE, THREE])]),
        (Ports::ByClient, two_five_three, [1, 2], [list(&[TWO]), list(&[THREE, FIVE])]),
        (
            Ports::ByArrival,
            || on_second(own_behind_a_larger_one(), [2, 3]),
            [0, 3],
            [list(&[]), list(&own_after_class)],
        ),
        (
            Ports::ClearsRest,
            two_five_three,
            [1, 2],
            [list(&[TWO, ZEROS, ZEROS]), list(&[FIVE, THREE, ZEROS])],
        ),
        (Ports::CountsExchanged, two_five_three, [2, 1], [list(&[TWO]), list(&[FIVE, THREE])]),
        (Ports::FirstTotal, two_five_three, [3, 2], [list(&[TWO]), list(&[FIVE, THREE])]),
        (Ports::SecondTotal, two_five_three, [1, 3], [list(&[TWO]), list(&[FIVE, THREE])]),
        (Ports::SecondZero, two_five_three, [1, 0], [list(&[TWO]), list(&[FIVE, THREE])]),
        (Ports::SecondTwice, two_five_three, [1, 3], [list(&[TWO]), list(&[FIVE, THREE, FIVE])]),
        // The root pays for client 5 first, and then class 1 has its 8 for client 2.
        (
            Ports::PortByPort,
            stranger_on_first,
            [1, 1],
            [list(&[own([5, 1, 1, 0])]), list(&[own([2, 2, 1, 1])])],
        ),
        (
            Ports::FirstPicks,
            stranger_on_first,
            [1, 1],
            [list(&[own([5, 1, 1, 0])]), list(&[own([2, 2, 1, 1])])],
        ),
        (Ports::FirstAmongEqual, two_of_a_class, [1, 0], [list(&[own([3, 2, 1, 1])]), list(&[])]),
        (
            Ports::TakesTurns,
            three_of_a_class,
            [1, 1],
            [list(&[own([2, 1, 1, 1])]), list(&[own([4, 3, 1, 1])])],
        ),
        // For port 1 class 1 has its 8 still, at 1 step for client 3, and the root has 16.
        (
            Ports::OwnBalances,
            two_five_three,
            [1, 2],
            [list(&[TWO]), list(&[own([3, 3, 1, 1]), FIVE])],
        ),
    ]
}

#[test]
fn misreadings_give_their_wrong_lists() {
    for (misreading, disk, counts, lists) in misread_lists() {
        let right = ticked(&mut Engine, &disk(), [12, 12]);
        assert_eq!(ticked(&mut Faulty::new(Fault::None), &disk(), [12, 12]), right);
        let mut faulty = Faulty::new(Fault::WrongPorts(misreading));
        let wrong = ticked(&mut faulty, &disk(), [12, 12]);
        assert_eq!(wrong, (Ok(counts), lists), "{misreading:?}");
        assert_ne!(wrong, right, "{misreading:?}");
    }
}

/// A misreading of 13, a disk, lengths of the lists, whether they are long enough, and whether
/// they are by the misreading.
type MisreadLength = (Ports, fn() -> Disk, [usize; 2], bool, bool);

/// Every misreading of 13. Of the first disk four numbers and eight are needed.
fn misread_lengths() -> Vec<MisreadLength> {
    vec![
        (Ports::ShortByAll, two_five_three, [4, 12], true, false),
        (Ports::ShortByAll, two_five_three, [12, 8], true, false),
        (Ports::ShortFirstOnly, two_five_three, [4, 7], false, true),
        (Ports::ShortSecondOnly, two_five_three, [3, 8], false, true),
        (Ports::ShortBySum, two_five_three, [3, 9], false, true),
        (Ports::ShortBySum, two_five_three, [12, 0], false, true),
        (Ports::ShortByOther, two_five_three, [4, 8], true, false),
        (Ports::ShortByOther, two_five_three, [8, 4], false, true),
        (Ports::ShortIfBoth, two_five_three, [4, 7], false, true),
        (Ports::ShortIfBoth, two_five_three, [3, 8], false, true),
        (Ports::ShortByGone, waiting, [0, 0], false, true),
        (Ports::ShortIfEmpty, || steps_rise(24), [12, 0], true, false),
        (Ports::ShortIfEmpty, || on_second(steps_rise(24), [2, 3, 5]), [0, 12], true, false),
        (Ports::AllOnFirst, two_five_three, [4, 8], true, false),
        (Ports::Exchanged, two_five_three, [4, 8], true, false),
    ]
}

#[test]
fn misreadings_judge_lists_in_their_wrong_way() {
    for (misreading, disk, lens, right, wrong) in misread_lengths() {
        let accepts = |controller: &mut dyn Controller| {
            let (answer, lists) = ticked(controller, &disk(), lens);
            let untouched = lens.map(|len| vec![-77; len]);
            assert!(answer.is_ok() || answer == Err(13) && lists == untouched);
            answer.is_ok()
        };
        assert_eq!(accepts(&mut Engine), right, "{misreading:?}");
        assert_eq!(accepts(&mut Faulty::new(Fault::None)), right, "{misreading:?}");
        let mut faulty = Faulty::new(Fault::WrongPorts(misreading));
        assert_eq!(accepts(&mut faulty), wrong, "{misreading:?}");
    }
    // What a refusal leaves.
    let mut written = Faulty::new(Fault::WrongPorts(Ports::FirstWritten));
    let given = ticked(&mut written, &two_five_three(), [12, 7]);
    assert_eq!(given, (Err(13), [list(&[TWO]), vec![-77; 7]]));
    let given = ticked(&mut written, &two_five_three(), [3, 7]);
    assert_eq!(given, (Err(13), [vec![-77; 3], vec![-77; 7]]));
    let mut counts = Faulty::new(Fault::WrongPorts(Ports::RefusedCounts));
    assert_eq!(ticked(&mut counts, &two_five_three(), [12, 7]).0, Err(0));
    assert_eq!(ticked(&mut counts, &two_five_three(), [12, 12]).0, Ok([1, 2]));
}

/// Every misreading of a join, with a node for the deep tree, the right answer, 0 for an
/// accepted one, the wrong one, and the port that the node has by it.
fn misread_joins() -> Vec<(Ports, NewNode, i64, i64, i64)> {
    let [client, class] = [client(9, 0, WEIGHTED, 1, 1), class(9, 0, WEIGHTED, 1, 1)];
    let nowhere = NewNode { parent: 60, ..client };
    let too_deep = NewNode { depth: 31, ..client };
    let stated = NewNode { kind: STATED, share: 1001, ..client };
    vec![
        (Ports::NotStored, on_port(1, client), 0, 0, 0),
        (Ports::TwoAccepted, on_port(2, client), 2, 0, 2),
        (Ports::TwoAccepted, on_port(3, client), 2, 2, 0),
        (Ports::TwoAccepted, on_port(2, class), 2, 2, 0),
        (Ports::MinusOneAccepted, on_port(-1, client), 2, 0, -1),
        (Ports::LowBitsAccepted, on_port((1 << 32) + 1, client), 2, 0, 1),
        (Ports::LowBitsAccepted, on_port(1 << 32, class), 2, 0, 0),
        (Ports::ClassOnOne, on_port(1, class), 2, 0, 1),
        (Ports::ClassOnOne, on_port(2, class), 2, 2, 0),
        (Ports::ClassIgnored, on_port(1, class), 2, 0, 0),
        (Ports::ClassIgnored, on_port(-5, class), 2, 0, 0),
        (Ports::ClassIsFive, on_port(1, class), 2, 5, 0),
        (Ports::ClassIsFive, on_port(1, NewNode { parent: 60, ..class }), 2, 3, 0),
        (Ports::ClassIsFive, on_port(2, class), 2, 2, 0),
        (Ports::BehindFive, on_port(2, nowhere), 2, 3, 0),
        (Ports::BehindFive, on_port(2, NewNode { parent: 5, ..client }), 2, 5, 0),
        (Ports::BehindFive, on_port(2, too_deep), 2, 2, 0),
        (Ports::BehindEight, on_port(2, too_deep), 2, 8, 0),
        (Ports::BehindEight, on_port(2, stated), 2, 2, 0),
        (Ports::BehindAll, on_port(2, stated), 2, 16, 0),
        (Ports::BehindAll, on_port(2, client), 2, 2, 0),
    ]
}

#[test]
fn misreadings_give_joins_their_wrong_answers() {
    let number = |answer: Answer<i64>| answer.err().unwrap_or(0);
    for (misreading, new, right, wrong, port) in misread_joins() {
        assert_eq!(number(deep().join(new)), right, "{misreading:?} {new:?}");
        let mut table = deep().table;
        let mut faulty = Faulty::new(Fault::WrongPorts(misreading));
        assert_eq!(number(faulty.join(&mut table, &new)), wrong, "{misreading:?} {new:?}");
        assert_eq!(get(&table, 9, PORT), port, "{misreading:?} {new:?}");
        let mut table = deep().table;
        assert_eq!(number(Faulty::new(Fault::None).join(&mut table, &new)), right);
    }
}

/// Every misreading of the in-order test, with a place of the deep tree that is written, and
/// whether the table is in order then; by the misreading it is the other way.
const MISREAD_ORDER: [(Ports, (usize, usize, i64), bool); 12] = [
    (Ports::OrderAny, (4, PORT, 2), false),
    (Ports::OrderAny, (1, PORT, -1), false),
    (Ports::OrderClassOne, (1, PORT, 1), false),
    (Ports::OrderClassOne, (0, PORT, 1), false),
    (Ports::OrderUpToTwo, (5, PORT, 2), false),
    (Ports::OrderStillZero, (5, PORT, 1), true),
    (Ports::OrderLowBits, (4, PORT, 1 << 32), false),
    (Ports::OrderLowBits, (1, PORT, 1 << 32), false),
    (Ports::OrderSpareFree, (4, 10, 1), false),
    (Ports::OrderSpareFree, (0, 15, 1), false),
    (Ports::OrderUnusedFree, (9, PORT, 1), false),
    (Ports::OrderUnusedFree, (63, PORT, 1), false),
];

#[test]
fn misreadings_judge_tables_in_their_wrong_way() {
    for (misreading, (node, place, value), right) in MISREAD_ORDER {
        let mut disk = deep();
        disk.poke(4, PORT, 0);
        disk.poke(node, place, value);
        let sees = |controller: &mut dyn Controller| controller.look(&disk.table, 0).is_ok();
        assert_eq!(sees(&mut Engine), right, "{misreading:?}");
        assert_eq!(sees(&mut Faulty::new(Fault::None)), right);
        let mut faulty = Faulty::new(Fault::WrongPorts(misreading));
        assert_eq!(sees(&mut faulty), !right, "{misreading:?}");
    }
}

/// The other misreadings, with calls on the deep tree, the last of which, a reply or what it
/// leaves, is not the right one.
fn misread_calls() -> Vec<(Ports, Vec<Call>)> {
    let four = client(4, 3, FIXED, 5000, 20);
    let plan = Plan::of_table(&deep().table).encode(Edition::First);
    let leave = || Call::Leave { node: 4 };
    let share = || Call::ChangeShare { node: 4, kind: WEIGHTED, share: 1 };
    let write = |edition: i64| Call::PlanWrite { edition, buffer_len: 100 };
    vec![
        (Ports::KeptAtLeave, vec![leave()]),
        (Ports::KeptForNext, vec![leave(), Call::Join(four)]),
        (Ports::ShareResets, vec![share()]),
        (Ports::ShareRefuses, vec![share()]),
        (Ports::ReadKeeps, vec![Call::PlanRead { plan: plan.clone() }]),
        (Ports::ReadPutsOne, vec![open(1, 1), Call::PlanRead { plan }]),
        (Ports::WriteRefuses, vec![write(1)]),
        (Ports::WriteRefuses, vec![write(2)]),
        (Ports::WriteMarks, vec![write(1)]),
        (Ports::WriteMarks, vec![write(2)]),
        (Ports::WriteLeavesOut, vec![write(1)]),
    ]
}

#[test]
fn misreadings_show_at_the_last_of_their_calls() {
    let deep: Vec<Step> =
        [Step::Call(open(1000, 100))].into_iter().chain(made(&deep().table)).collect();
    for (misreading, calls) in misread_calls() {
        let steps = [deep.clone(), steps(&calls)].concat();
        let differs = |fault| first_difference(&mut Engine, &mut Faulty::new(fault), &steps);
        let found = differs(Fault::WrongPorts(misreading)).map(|(position, _)| position);
        assert_eq!(found, Some(steps.len() - 1), "{misreading:?}");
        assert_eq!(differs(Fault::None), None);
    }
    let mut compares = Faulty::new(Fault::WrongPorts(Ports::SameCompares));
    let (table, other) = (self::deep().table, on_first(&self::deep().table));
    assert_eq!(Engine.same(&table, &other), Ok(true));
    assert_eq!(compares.same(&table, &other), Ok(false));
    assert_eq!(compares.same(&other, &other), Ok(true));
}

/// Joins that make the table from an opened one.
fn made(table: &[i64]) -> Vec<Step> {
    let nodes = Plan::of_table(table).nodes.into_iter();
    let on_its_port = |new: NewNode| on_port(get(table, new.node as usize, PORT), new);
    nodes.map(|new| Step::Call(Call::Join(on_its_port(new)))).collect()
}

#[test]
fn every_misreading_is_worked_by_hand() {
    let mut worked: Vec<Ports> =
        vec![Ports::FirstWritten, Ports::RefusedCounts, Ports::SameCompares];
    worked.extend(misread_lists().iter().map(|misread| misread.0));
    worked.extend(misread_lengths().iter().map(|misread| misread.0));
    worked.extend(misread_joins().iter().map(|misread| misread.0));
    worked.extend(MISREAD_ORDER.iter().map(|misread| misread.0));
    worked.extend(misread_calls().iter().map(|misread| misread.0));
    let mut count = 0;
    for fault in FAULTS {
        if let Fault::WrongPorts(misreading) = fault {
            assert!(worked.contains(&misreading), "{misreading:?}");
            count += 1;
        }
    }
    assert_eq!(count, 54);
}

#[test]
fn the_judge_counts_both_lists_and_one_alone_will_not_do() {
    // One client on port 1 of depth 8 asks for eight of 8 tokens at each tick of 28, so that
    // three and four go by turns, all of them on the second list. A judge of the first list
    // sees nothing dispatched: the client would lag by 28,000 grains at the first tick.
    let mut steps = scenario(Fault::WrongPorts(Ports::SecondTwice));
    steps.truncate(60);
    assert_eq!(watch(&mut Engine, &steps), []);
    assert_eq!(all_pairs(&mut Engine, &steps, BOTH, cost_of), Ends::new());
    let first_alone = [true, false];
    assert!(all_pairs(&mut Engine, &steps, first_alone, cost_of).contains_key(&1));
    // Three at the first tick and four at the next, each of which stands there twice, are 112
    // tokens, where two rates and five depths are 96. Of the first list alone the disk
    // dispatches nothing.
    let twice = &mut Faulty::new(Fault::WrongPorts(Ports::SecondTwice));
    let found = watch(twice, &steps);
    assert!(found.iter().any(|found| found.promise == Promise::Disk), "{found:?}");
    assert!(all_pairs(twice, &steps, BOTH, cost_of).contains_key(&0));
    assert!(!all_pairs(twice, &steps, first_alone, cost_of).contains_key(&0));
    // The second list alone misses what the first has.
    let mut on_both = vec![open(28_000, 16)];
    on_both
        .extend([0, 1].map(|port| Call::Join(on_port(port, client(1 + port, 0, WEIGHTED, 1, 8)))));
    for _ in 0..12 {
        on_both.extend([request(1, 1), request(1, 1), request(2, 1), request(2, 1), tick()]);
    }
    let on_both = crate::support::steps(&on_both);
    assert_eq!(watch(&mut Engine, &on_both), []);
    assert_eq!(all_pairs(&mut Engine, &on_both, BOTH, cost_of), Ends::new());
    assert!(all_pairs(&mut Engine, &on_both, [false, true], cost_of).contains_key(&1));
    assert!(all_pairs(&mut Engine, &on_both, [true, false], cost_of).contains_key(&2));
}
