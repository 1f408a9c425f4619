//! Scenes of document 02's request (g): which ports a join takes, and what comes before its refusal; which lists are too
//! short; on which list a dispatch stands, with lists worked by hand; ports that change by no other call; ports written from
//! outside; and what same and plans make of ports.

use hds_engine::steps::{Call, Reply, Step, World};
use hds_engine::table::*;
use hds_engine::Engine;

use crate::editions::{answered, ONE_CLIENT, ONE_CLIENT_SECOND};
use crate::renewals::made;
use crate::scenes::*;
use crate::stated::{accepted, checked, deep, refused, Told};
use crate::trees;

/// The port of the client of a number.
type Choice = fn(i64) -> i64;

/// Ports that no node has.
const OTHERS: [i64; 11] =
    [2, -1, 3, -2, 255, 256, 1 << 32, (1 << 32) + 1, i64::MIN, i64::MIN + 1, i64::MAX];

/// All scenes of ports.
pub(crate) fn all() -> Vec<Scene> {
    let by_hand = [
        ("joins", joins()),
        ("causes of a join", causes_of_join()),
        ("lengths of the lists", lengths()),
        ("leaving and coming back", coming_back()),
        ("changes of the tree", changes()),
        ("written ports", written()),
        ("written places beside ports", written_beside()),
        ("same", same_trees()),
        ("plans", plans()),
    ];
    let by_hand = by_hand.map(|(name, told)| (format!("ports, {name}"), checked(name, told)));
    let mut scenes = by_hand.to_vec();
    scenes.extend(FAMILIES.iter().map(family));
    scenes.extend(supplies());
    scenes
}

fn counts(first: i64, second: i64, steps: impl IntoIterator<Item = Step>) -> Vec<Told> {
    steps.into_iter().map(|step| (step, Reply::Counts([first, second]))).collect()
}

/// A client and a class of weight 1 and depth 1 under the node, as number 9.
fn two_sorts(parent: i64) -> [Step; 2] {
    [client(9, parent, WEIGHTED, 1, 1), class(9, parent, WEIGHTED, 1, 1)]
}

/// Under every class of the tree, on every level, clients on both ports and classes on port 0.
fn joins() -> Vec<Told> {
    let mut told = deep();
    for parent in [0, 1, 2, 3] {
        for port in OTHERS {
            told.extend(refused(2, two_sorts(parent).map(|join| on_port(port, join))));
        }
        let [client, class] = two_sorts(parent);
        told.extend(refused(2, [on_port(1, class.clone())]));
        told.extend(accepted([on_port(1, client.clone()), leave(9), on_port(0, client), leave(9)]));
        if parent < 3 {
            told.extend(accepted([on_port(0, class), leave(9)]));
        }
    }
    told
}

/// Each other cause with a port that is refused, which comes first, and with one that is not.
fn causes_of_join() -> Vec<Told> {
    let mut told = deep();
    for (number, join) in [
        (3, client(9, 60, WEIGHTED, 1, 1)),
        (3, class(9, 60, WEIGHTED, 1, 1)),
        (4, client(4, 0, WEIGHTED, 1, 1)),
        (4, class(4, 0, WEIGHTED, 1, 1)),
        (5, client(9, 5, WEIGHTED, 1, 1)),
        (5, class(9, 5, WEIGHTED, 1, 1)),
        (6, class(9, 3, WEIGHTED, 1, 1)),
        (7, client(9, 0, FIXED, 5001, 1)),
        (7, class(9, 0, FIXED, 5001, 1)),
        (8, client(9, 0, WEIGHTED, 1, 31)),
        (8, class(9, 0, WEIGHTED, 1, 31)),
        (16, client(9, 0, STATED, 401, 1)),
        (16, class(9, 0, STATED, 401, 1)),
        (16, client(9, 1, STATED, 1, 1)),
    ] {
        for port in OTHERS {
            told.extend(refused(2, [on_port(port, join.clone())]));
        }
        let is_class = matches!(&join, Step::Call(Call::Join(new)) if new.sort == CLASS);
        let with_one = if is_class { 2 } else { number };
        told.extend(refused(with_one, [on_port(1, join.clone())]));
        told.extend(refused(number, [on_port(0, join)]));
    }
    // Other numbers outside their limits, with ports of both sorts.
    for port in [0, 1, 2] {
        let outside = [
            client(0, 0, WEIGHTED, 1, 1),
            client(64, 0, WEIGHTED, 1, 1),
            client(9, -1, WEIGHTED, 1, 1),
            join(9, 0, 0, WEIGHTED, 1, 1),
            join(9, 0, 3, WEIGHTED, 1, 1),
            client(9, 0, 3, 1, 1),
            client(9, 0, WEIGHTED, 0, 1),
            client(9, 0, WEIGHTED, 1, 0),
        ];
        told.extend(refused(2, outside.map(|join| on_port(port, join))));
    }
    told
}

/// A disk of 1 grain, clients 2 and 7 on port 0 and client 5 on port 1, with so many requests of each, none of which may go.
fn waiting(on_first: [i64; 2], on_second: i64) -> Vec<Told> {
    let mut told = accepted([
        open(1, 100),
        on_port(0, client(2, 0, WEIGHTED, 1, 20)),
        on_port(1, client(5, 0, WEIGHTED, 1, 20)),
        on_port(0, client(7, 0, WEIGHTED, 1, 20)),
    ]);
    let asked = [(2, on_first[0]), (5, on_second), (7, on_first[1])];
    let asked = asked.into_iter().flat_map(|(client, count)| (0..count).map(move |_| client));
    for (arrival, client) in (1..).zip(asked) {
        told.extend(answered(arrival, [request(client, arrival, 1)]));
    }
    told
}

/// Every pair of lengths up to one above four times all that waits: 13 is for a first list below four times what waits on
/// port 0, and for a second below four times what waits on port 1.
fn lengths() -> Vec<Told> {
    let mut told = Vec::new();
    for (on_first, on_second) in
        [([2, 1], 2), ([1, 0], 3), ([1, 1], 0), ([0, 0], 2), ([0, 0], 0), ([8, 0], 1)]
    {
        told.extend(waiting(on_first, on_second));
        let needed = [on_first[0] + on_first[1], on_second].map(|count| 4 * count as usize);
        let most = needed[0] + needed[1] + 1;
        for first in 0..=most {
            for second in 0..=most {
                let step = [tick_of(first, second)];
                told.extend(match first < needed[0] || second < needed[1] {
                    true => refused(13, step),
                    false => counts(0, 0, step),
                });
            }
        }
    }
    told
}

/// The number 5 of a client on port 1 for one on port 0, for a class, and for one on port 1 again. At 8000 a request of size 1
/// goes at each tick.
fn coming_back() -> Vec<Told> {
    let five = || client(5, 0, WEIGHTED, 1, 16);
    let asks = |arrival: i64| answered(arrival, [request(5, arrival, 1)]);
    [
        accepted([open(8000, 40), on_port(1, five())]),
        asks(1),
        refused(13, [tick_of(4, 3), tick_of(4, 0)]),
        counts(0, 1, [tick_of(0, 4)]),
        accepted([leave(5), on_port(0, five())]),
        asks(2),
        refused(13, [tick_of(3, 4), tick_of(0, 4)]),
        counts(1, 0, [tick_of(4, 0)]),
        accepted([leave(5), on_port(1, five()), leave(5), class(5, 0, WEIGHTED, 1, 16)]),
        accepted([client(6, 5, WEIGHTED, 1, 16)]),
        answered(3, [request(6, 3, 1)]),
        counts(1, 0, [tick_of(4, 4)]),
        accepted([leave(6), leave(5), on_port(1, five())]),
        asks(4),
        counts(0, 1, [tick_of(0, 4)]),
        // An open leaves no port behind.
        accepted([open(8000, 40), on_port(0, five())]),
        asks(1),
        counts(1, 0, [tick_of(4, 0)]),
    ]
    .concat()
}

/// Client 5 on port 1 stays there whatever changes, and so does client 6 on port 0.
fn changes() -> Vec<Told> {
    let mut told = accepted([
        open(8000, 40),
        on_port(1, client(5, 0, WEIGHTED, 1, 16)),
        client(6, 0, FIXED, 1, 16),
    ]);
    for (arrival, change) in (1..).zip([
        change_share(5, FIXED, 9999),
        change_share(5, STATED, 8000),
        change_share(6, WEIGHTED, 1),
        change_share(5, WEIGHTED, 10_000),
        change_rate(9000),
        change_rate(8000),
        class(7, 0, WEIGHTED, 1, 8),
        leave(7),
    ]) {
        told.extend(accepted([change]));
        told.extend(answered(arrival, [request(5, arrival, 1)]));
        told.extend(refused(13, [tick_of(4, 0)]));
        told.extend(counts(0, 1, [tick_of(0, 4)]));
    }
    told.extend(answered(9, [request(6, 9, 1)]));
    told.extend(refused(13, [tick_of(0, 4)]));
    told
}

/// The deep tree with client 4 on port 1. Nothing waits.
fn deep_on_ports() -> Vec<Told> {
    [deep(), accepted([leave(4), on_port(1, client(4, 3, FIXED, 5000, 20))])].concat()
}

/// The answers of some calls on a table with that write: all are refused, or none.
fn on_written(write: Step, is_in_order: bool) -> Vec<Told> {
    let [change, tick] = [change_share(5, STATED, 600), tick_of(0, 0)];
    let told = match is_in_order {
        true => [accepted([change]), counts(0, 0, [tick])].concat(),
        false => refused(1, [change, tick]),
    };
    // Of these steps only the calls have answers.
    let around = |step: Step| (step, Reply::Number(0));
    [vec![around(Step::Keep), around(write)], told, vec![around(Step::Restore)]].concat()
}

/// Every node, and every number without one, with every port: 0 may be everywhere, and 1 at clients 4 and 5.
fn written() -> Vec<Told> {
    let mut told = deep_on_ports();
    for node in 0..NODES {
        for port in [0, 1].into_iter().chain(OTHERS) {
            let is_in_order = port == 0 || port == 1 && [4, 5].contains(&node);
            told.extend(on_written(poke(node, PORT, port), is_in_order));
        }
    }
    for damage in [poke(4, PORT, 2), poke(1, PORT, 1), poke(0, PORT, 1), poke(9, PORT, 1)] {
        for call in [
            client(9, 0, WEIGHTED, 1, 1),
            leave(5),
            change_share(4, WEIGHTED, 1),
            change_rate(2000),
            request(4, 1, 1),
            tick_of(0, 0),
            tick_of(4, 4),
            look(0),
            look(4),
            same(false),
            same(true),
            plan_write(1, 64),
            plan_write(2, 78),
        ] {
            told.extend(refused(1, episode(std::slice::from_ref(&damage), &[call])));
        }
    }
    told
}

/// Places 10 to 15 of a class, of both clients, and of numbers without a node.
fn written_beside() -> Vec<Told> {
    let mut told = deep_on_ports();
    for node in [0, 1, 4, 5, 9, 63] {
        for place in PORT + 1..QUEUE {
            for value in [0, 1, 2, -1, i64::MAX] {
                told.extend(on_written(poke(node, place, value), value == 0));
            }
        }
    }
    told
}

/// Trees that differ in ports are the same, and those that differ in a share are not.
fn same_trees() -> Vec<Told> {
    let both =
        |is_same: bool| [false, true].map(|swapped| (same(swapped), Reply::Same(is_same))).to_vec();
    let around = |step: Step| vec![(step, Reply::Number(0))];
    let four = |port: i64| accepted([leave(4), on_port(port, client(4, 3, FIXED, 5000, 20))]);
    [
        deep(),
        around(Step::Keep),
        four(1),
        both(true),
        around(Step::Keep),
        both(true),
        four(0),
        both(true),
        around(poke(5, PORT, 1)),
        both(true),
        accepted([change_share(4, FIXED, 5001)]),
        both(false),
        accepted([change_share(4, FIXED, 5000)]),
        both(true),
    ]
    .concat()
}

/// Document 01's plan: its client stands on port 0 after each reading, whatever the table held, and with the client on port 1
/// the same bytes are written.
fn plans() -> Vec<Told> {
    let five = client(5, 0, WEIGHTED, 4, 16);
    for (edition, plan) in [(1, &ONE_CLIENT[..]), (2, &ONE_CLIENT_SECOND[..])] {
        let mut world = World::default();
        for step in [open(1000, 40), on_port(1, five.clone()), plan_write(edition, plan.len())] {
            world.run(&mut Engine, &step);
        }
        assert_eq!(world.plan.inner(), plan, "edition {edition}");
    }
    let mut told = Vec::new();
    for (edition, plan) in [(1, &ONE_CLIENT[..]), (2, &ONE_CLIENT_SECOND[..])] {
        let writes = || {
            let short = refused(13, [plan_write(1, 19), plan_write(2, 25)]);
            let first = answered(20, [plan_write(1, 20), plan_write(1, 30)]);
            let second = answered(26, [plan_write(2, 26), plan_write(2, 30)]);
            [short, first, second].concat()
        };
        told.extend(accepted([open(1000, 40), on_port(1, five.clone())]));
        told.extend(writes());
        told.extend(answered(edition, [plan_read(plan)]));
        told.extend(writes());
        told.extend(accepted([change_rate(8000)]));
        told.extend(answered(1, [request(5, 1, 1)]));
        told.extend(refused(13, [tick_of(0, 4), tick_of(3, 4)]));
        told.extend(counts(1, 0, [tick_of(4, 0)]));
    }
    told
}

/// A family with its clients on every choice of ports. Each list is the part of the list worked by hand that has the clients of
/// its port. Before the tick that is accepted stand ticks with lists that are too short.
fn family(family: &'static Family) -> Scene {
    let clients = family.clients();
    let mut steps = Vec::new();
    for choice in 0..1 << clients.len() {
        let port = |client: i64| {
            let index = clients.iter().position(|&other| other == client).unwrap_or(0);
            choice >> index & 1
        };
        let needed = [0, 1].map(|list| {
            4 * family.requests.iter().filter(|&&(client, _)| port(client) == list).count()
        });
        let asked = family.asked(port);
        let lists = [0, 1].map(|list| {
            let own = family.list.iter().filter(|entry| port(entry[0]) == list);
            own.flatten().copied().collect::<Vec<i64>>()
        });
        check(family.name, &asked, needed, &lists);
        steps.extend(asked);
        steps.extend(short(needed).map(|[first, second]| tick_of(first, second)));
        steps.push(tick_of(needed[0], needed[1]));
        steps.extend(look_everywhere());
        steps.extend([change_rate(9000), tick_of(32, 32), tick_of(32, 40), tick_of(28, 28)]);
    }
    (format!("ports, families, {}", family.name), steps)
}

/// Pairs of lengths that are refused. Something is needed.
fn short(needed: [usize; 2]) -> [[usize; 2]; 10] {
    let [first, second] = needed;
    let all = first + second;
    let less = |len: usize, by: usize| len.saturating_sub(by);
    [
        [less(first, 1), less(second, 1)],
        [less(first, 1), second + 1],
        [first + 1, less(second, 1)],
        [less(first, 4), all],
        [all, less(second, 4)],
        [less(first, 1), all + 4],
        [all + 4, less(second, 1)],
        [second, first],
        [0, less(all, 1)],
        [less(all, 1), 0],
    ]
    .map(|[one, other]| match one >= first && other >= second {
        // These would be accepted.
        true => [less(first, 1), less(second, 1)],
        false => [one, other],
    })
}

/// Sees that the second engine refuses the short lists with 13 and leaves them, and gives these lists.
fn check(name: &str, asked: &[Step], needed: [usize; 2], lists: &[Vec<i64>; 2]) {
    let mut world = World::default();
    for step in asked {
        world.run(&mut Engine, step);
    }
    for [first, second] in short(needed) {
        let reply = world.run(&mut Engine, &tick_of(first, second));
        assert_eq!(reply, Some(Reply::Refused(13)), "{name}: {first} and {second}");
    }
    let reply = world.run(&mut Engine, &tick_of(needed[0], needed[1]));
    let lens = lists.each_ref().map(|list| list.len() as i64 / 4);
    assert_eq!(reply, Some(Reply::Counts(lens)), "{name}");
    for (given, list) in world.lists().into_iter().zip(lists) {
        assert_eq!(given[..list.len()], list[..], "{name}");
    }
}

/// 63 nodes on all levels, every queue full, each class with so many tokens, and clients on both ports in several ways; the disk
/// gives next to nothing at the first tick, and more at the next ones. Each time come lists that lack a number where one is
/// needed, lists in each other's place, and then lists of just the length that was needed at first.
fn supplies() -> Vec<Scene> {
    let ports: [(&str, Choice); 4] = [
        ("by turns", |client| client % 2),
        ("in threes", |client| client / 3 % 2),
        ("the upper half on port 1", |client| i64::from(client > 33)),
        ("all on port 1", |_| 1),
    ];
    let mut scenes = Vec::new();
    for (name, port) in ports {
        for tokens in [8, 200, 10_000] {
            let name = format!("ports, 63 nodes {name}, {tokens} tokens in each class");
            scenes.push((name, supplied(&trees::with_ports(&trees::large(1), port), tokens)));
        }
    }
    scenes
}

fn supplied(table: &[i64], tokens: i64) -> Vec<Step> {
    let mut steps = made(table);
    steps.extend(classes(table).map(|class| poke(class, BALANCE, 1000 * tokens)));
    for turn in 0..QUEUE_LEN as i64 {
        for client in trees::clients(table) {
            let size = 1 + (7 * client + 11 * turn) % 20;
            steps.push(request(client, 100 * client + turn, size));
        }
    }
    let mut world = World::default();
    for step in &steps {
        world.run(&mut Engine, step);
    }
    for rate in [1, 1_000_000, 10_000_000, MAX_RATE] {
        let [first, second] = waiting_by_port(world.table.inner()).map(|count| 4 * count);
        let more = [
            change_rate(rate),
            tick_of(first.saturating_sub(1), second),
            tick_of(first, second.saturating_sub(1)),
            tick_of(second, first),
            tick_of(first, second),
        ];
        for step in more {
            world.run(&mut Engine, &step);
            steps.push(step);
        }
    }
    steps.extend(look_everywhere());
    steps
}
