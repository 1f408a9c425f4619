//! Scenes of document 02's request (f): the edges of stated rates with their answers worked by hand, kinds and shares at
//! every limit under every class and at every node, disk rates about the stated ones, and tables with kinds and shares
//! written from outside.

use hds_engine::rates::renew_all;
use hds_engine::steps::{Reply, Step, World};
use hds_engine::table::*;
use hds_engine::Engine;

use crate::renewals::{calls_on, looks_at, made};
use crate::scenes::*;
use crate::trees;

/// All scenes of stated rates.
pub(crate) fn all() -> Vec<Scene> {
    let mut scenes = edges();
    for rate in [7, 1000, 999_983, MAX_RATE] {
        for (name, tree) in [("desks", trees::desks(rate)), ("all stated", trees::all_stated(rate))]
        {
            for (what, steps) in [
                ("joins", joins(&tree)),
                ("changes of share", changes_of_share(&tree)),
                ("changes of rate", changes_of_rate(&tree)),
                ("written kinds and shares", written(&tree)),
                ("ticks", ticks_of(&tree)),
            ] {
                scenes.push((format!("stated, {what}, {name} at {rate}"), steps));
            }
        }
    }
    scenes
}

/// A step and its answer, worked by hand.
pub(crate) type Told = (Step, Reply);

pub(crate) fn accepted(steps: impl IntoIterator<Item = Step>) -> Vec<Told> {
    steps.into_iter().map(|step| (step, Reply::Number(0))).collect()
}

pub(crate) fn refused(number: i64, steps: impl IntoIterator<Item = Step>) -> Vec<Told> {
    steps.into_iter().map(|step| (step, Reply::Refused(number))).collect()
}

/// Looks at nodes 1, 2, ... with these rates, which have no balance and lose nothing.
fn rates(rates: &[i64]) -> Vec<Told> {
    (1..).zip(rates).map(|(node, &rate)| (look(node), Reply::Look([rate, 0, 0, 0]))).collect()
}

/// A look at a class without balance.
fn class_of(node: i64, rate: i64, lost: i64) -> Vec<Told> {
    vec![(look(node), Reply::Look([rate, 0, 0, lost]))]
}

/// Classes 1, 2, 3 below each other, client 4 on level 4, client 5 with 600 stated of 1000. What is left under the root is
/// fixed 5000, 400 to be stated and depth 30; under classes 1, 2 and 3 it is depth 10.
pub(crate) fn deep() -> Vec<Told> {
    accepted([
        open(1000, 100),
        class(1, 0, FIXED, 5000, 50),
        class(2, 1, FIXED, 5000, 40),
        class(3, 2, FIXED, 5000, 30),
        client(4, 3, FIXED, 5000, 20),
        client(5, 0, STATED, 600, 20),
    ])
}

/// The edges by hand. The second engine must give these answers.
fn edges() -> Vec<Scene> {
    let scenes = [
        ("a half and a weight beside 300", beside_300()),
        ("just the disk's rate", just_the_disk()),
        ("a stated class", stated_class()),
        ("elsewhere", elsewhere()),
        ("limits of each kind", limits()),
        ("causes of a join", causes_of_join()),
        ("causes of a change", causes_of_change()),
        ("from each kind to each", every_kind()),
        ("writing", writing()),
        ("tables that break the limits", broken()),
    ];
    scenes
        .into_iter()
        .map(|(name, told)| (format!("stated, {name}"), checked(name, told)))
        .collect()
}

/// The steps, once the second engine has given their answers.
pub(crate) fn checked(name: &str, told: Vec<Told>) -> Vec<Step> {
    let mut world = World::default();
    for (step, reply) in &told {
        let given = world.run(&mut Engine, step);
        let is_call = matches!(step, Step::Call(_));
        assert!(!is_call || given == Some(*reply), "{name}, {step:?}: {given:?}");
    }
    told.into_iter().map(|(step, _)| step).collect()
}

/// 700 are divided: half of them, and half is left for the weight.
fn beside_300() -> Vec<Told> {
    [
        accepted([open(1000, 100), client(1, 0, STATED, 300, 8)]),
        class_of(0, 1000, 700),
        accepted([client(2, 0, FIXED, 5000, 8), client(3, 0, WEIGHTED, 1, 8)]),
        rates(&[300, 350, 350]),
        class_of(0, 1000, 0),
        refused(16, [change_rate(299), change_rate(1)]),
        rates(&[300, 350, 350]),
        accepted([change_rate(300)]),
        rates(&[300, 0, 0]),
        class_of(0, 300, 0),
        accepted([change_rate(301)]),
        rates(&[300, 0, 0]),
        class_of(0, 301, 1),
        accepted([change_rate(2000)]),
        rates(&[300, 850, 850]),
        accepted([change_rate(1000), leave(1)]),
        class_of(0, 1000, 0),
        vec![(look(2), Reply::Look([500, 0, 0, 0])), (look(3), Reply::Look([500, 0, 0, 0]))],
    ]
    .concat()
}

fn just_the_disk() -> Vec<Told> {
    [
        accepted([open(1000, 100), client(1, 0, STATED, 400, 8)]),
        refused(16, [client(2, 0, STATED, 601, 8)]),
        accepted([client(2, 0, STATED, 600, 8)]),
        class_of(0, 1000, 0),
        accepted([client(3, 0, FIXED, 10_000, 8), client(4, 0, WEIGHTED, 10_000, 8)]),
        rates(&[400, 600, 0, 0]),
        refused(16, [client(5, 0, STATED, 1, 8), change_share(4, STATED, 1), change_rate(999)]),
        accepted([change_rate(1001)]),
        rates(&[400, 600, 1, 0]),
        accepted([change_share(4, STATED, 1)]),
        rates(&[400, 600, 0, 1]),
        accepted([change_share(1, STATED, 1), change_rate(602)]),
        rates(&[1, 600, 0, 1]),
    ]
    .concat()
}

/// Class 1 has 400: a quarter, and 300 are left for weights 1 and 2. Then it has 401: 100.25, and 300.75 are left.
fn stated_class() -> Vec<Told> {
    [
        accepted([
            open(1000, 100),
            class(1, 0, STATED, 400, 50),
            client(2, 1, FIXED, 2500, 8),
            client(3, 1, WEIGHTED, 1, 8),
            client(4, 1, WEIGHTED, 2, 8),
            client(5, 0, WEIGHTED, 1, 8),
        ]),
        rates(&[400, 100, 100, 200, 600]),
        accepted([change_rate(400)]),
        rates(&[400, 100, 100, 200, 0]),
        refused(16, [change_rate(399), client(6, 1, STATED, 1, 8), change_share(3, STATED, 1)]),
        accepted([change_rate(1000), change_share(1, STATED, 401)]),
        class_of(1, 401, 1),
        class_of(0, 1000, 0),
        accepted([leave(2), leave(3), leave(4)]),
        class_of(1, 401, 401),
    ]
    .concat()
}

fn elsewhere() -> Vec<Told> {
    let joins = [1, 2, 3].map(|parent| client(9, parent, STATED, 1, 1));
    let changes = [2, 3, 4].map(|node| change_share(node, STATED, 1));
    [deep(), refused(16, joins), refused(16, changes), refused(16, [class(9, 1, STATED, 1, 1)])]
        .concat()
}

fn limits() -> Vec<Told> {
    let of_disk = |rate, kind, share, number| {
        let join = client(1, 0, kind, share, 8);
        let change = change_share(1, kind, share);
        let told = |step| match number {
            0 => accepted([step]),
            number => refused(number, [step]),
        };
        [
            accepted([open(rate, 100)]),
            told(join),
            accepted([open(rate, 100), client(1, 0, WEIGHTED, 7, 8)]),
            told(change),
        ]
        .concat()
    };
    [
        of_disk(10_001, STATED, 10_001, 0),
        of_disk(10_000, STATED, 10_001, 16),
        of_disk(10_001, FIXED, 10_001, 2),
        of_disk(10_001, WEIGHTED, 10_001, 2),
        of_disk(1, STATED, 1, 0),
        of_disk(1, STATED, 0, 2),
        of_disk(MAX_RATE, STATED, MAX_RATE, 0),
        of_disk(MAX_RATE, STATED, MAX_RATE + 1, 2),
        of_disk(MAX_RATE - 1, STATED, MAX_RATE, 16),
        of_disk(MAX_RATE, 3, 1, 2),
    ]
    .concat()
}

fn causes_of_join() -> Vec<Told> {
    [
        deep(),
        refused(2, [client(9, 0, STATED, MAX_RATE + 1, 1), client(9, 1, STATED, 0, 1)]),
        refused(3, [client(9, 60, STATED, 401, 1)]),
        refused(4, [client(4, 0, STATED, 401, 1), client(4, 5, STATED, 1, 1)]),
        refused(5, [client(9, 5, STATED, 1, 1)]),
        refused(6, [class(9, 3, STATED, 1, 1), class(9, 3, STATED, 1, 11)]),
        refused(7, [client(9, 0, FIXED, 5001, 30), client(9, 0, FIXED, 5001, 31)]),
        refused(8, [client(9, 0, STATED, 401, 31), client(9, 1, STATED, 1, 11)]),
        refused(8, [client(9, 0, STATED, 400, 31)]),
        refused(16, [client(9, 0, STATED, 401, 30), client(9, 1, STATED, 1, 10)]),
        accepted([client(9, 0, STATED, 400, 30)]),
    ]
    .concat()
}

/// The 600 that client 5 had do not count for its change.
fn causes_of_change() -> Vec<Told> {
    [
        deep(),
        refused(2, [change_share(0, STATED, 0), change_share(2, STATED, 0)]),
        refused(2, [change_share(60, STATED, MAX_RATE + 1), change_share(1, 3, 1)]),
        refused(3, [change_share(60, STATED, 401)]),
        refused(5, [change_share(0, STATED, 1), change_share(0, STATED, MAX_RATE)]),
        refused(7, [change_share(5, FIXED, 5001)]),
        refused(16, [change_share(1, STATED, 401), change_share(5, STATED, 1001)]),
        refused(2, [change_rate(0), change_rate(i64::MIN), change_rate(MAX_RATE + 1)]),
        refused(16, [change_rate(1), change_rate(599)]),
        accepted([change_share(5, STATED, 1000), change_share(5, STATED, 600)]),
        accepted([change_rate(600), change_rate(1000), change_share(1, STATED, 400)]),
        accepted([change_share(5, FIXED, 5000), change_share(5, WEIGHTED, 10_000)]),
    ]
    .concat()
}

/// Of 1000 with a weight of 3: 300 and fixed 5000 beside it, and each in turn of another kind.
fn every_kind() -> Vec<Told> {
    let tree = accepted([
        open(1000, 100),
        client(1, 0, STATED, 300, 8),
        client(2, 0, FIXED, 5000, 8),
        client(3, 0, WEIGHTED, 3, 8),
    ]);
    let changed =
        |step: Step, after: [i64; 3]| [&tree[..], &accepted([step]), &rates(&after)].concat();
    [
        changed(change_share(1, FIXED, 1000), [100, 500, 400]),
        changed(change_share(1, WEIGHTED, 1), [125, 500, 375]),
        changed(change_share(1, STATED, 1000), [1000, 0, 0]),
        changed(change_share(2, STATED, 500), [300, 500, 200]),
        changed(change_share(2, WEIGHTED, 1), [300, 175, 525]),
        changed(change_share(3, STATED, 300), [300, 200, 300]),
        changed(change_share(3, FIXED, 5000), [300, 350, 350]),
        changed(client(4, 0, STATED, 200, 8), [300, 250, 250]),
    ]
    .concat()
}

/// A plan of five nodes has 64 bytes, of the second edition 78, and there is none of the first of a tree with a stated node.
fn writing() -> Vec<Told> {
    [
        deep(),
        refused(13, [plan_write(1, 0), plan_write(1, 63)]),
        refused(16, [plan_write(1, 64), plan_write(1, 702)]),
        refused(13, [plan_write(2, 0), plan_write(2, 77)]),
        vec![(plan_write(2, 78), Reply::Number(78))],
        accepted([change_share(5, WEIGHTED, 1)]),
        refused(13, [plan_write(1, 63), plan_write(2, 77)]),
        vec![(plan_write(1, 64), Reply::Number(64)), (plan_write(2, 78), Reply::Number(78))],
    ]
    .concat()
}

/// Stated rates one above the disk's, and a stated node under a class, with the rates that the rule gives.
fn broken() -> Vec<Told> {
    let mut told = deep();
    let above =
        [(5, 1001), (1, 0), (2, 0), (3, 0), (4, 0)].map(|(node, rate)| poke(node, RATE, rate));
    let above = [&above[..], &[poke(5, SHARE, 1001)]].concat();
    let elsewhere = vec![poke(4, KIND, STATED), poke(4, SHARE, 25)];
    for damage in [above, elsewhere] {
        for call in [
            client(9, 0, WEIGHTED, 1, 1),
            leave(5),
            change_share(5, WEIGHTED, 1),
            change_share(4, WEIGHTED, 1),
            change_rate(2000),
            request(4, 1, 1),
            tick(0),
            look(0),
            same(false),
            same(true),
            plan_write(1, 64),
            plan_write(2, 78),
        ] {
            told.extend(refused(1, episode(&damage, &[call])));
        }
    }
    told
}

/// Shares of every kind at and about what the disk has left to be stated, and at the limits.
fn shares_at_limits(table: &[i64]) -> Vec<(i64, i64)> {
    let rate = get(table, ROOT, RATE);
    let left = rate - shares_under(table, ROOT, STATED) as i64;
    let shares = [i64::MIN, -1, 0, 1, 2, 9999, MAX_SHARE, MAX_SHARE + 1, left - 1, left, left + 1];
    let more = [rate - 1, rate, rate + 1, MAX_RATE, MAX_RATE + 1, i64::MAX];
    let shares = [&shares[..], &more].concat();
    [FIXED, WEIGHTED, STATED, STATED + 1]
        .into_iter()
        .flat_map(|kind| shares.iter().map(move |&share| (kind, share)))
        .collect()
}

/// Under every class and under a client a class and a client of every kind and share, which leave again.
fn joins(table: &[i64]) -> Vec<Step> {
    let mut steps = made(table);
    let under_client = trees::last_client(table);
    let parents = classes(table).map(|class| class as i64).chain([under_client]);
    for (parent, sort) in parents.flat_map(|parent| [(parent, CLIENT), (parent, CLASS)]) {
        for (kind, share) in shares_at_limits(table) {
            steps.push(join(62, parent, sort, kind, share, 1));
            steps.extend([look(0), look(parent), look(62), leave(62)]);
        }
        // Too deep as well.
        steps.push(join(62, parent, sort, STATED, 1, MAX_DEPTH));
        steps.push(join(62, parent, sort, STATED, MAX_RATE, MAX_DEPTH));
    }
    steps
}

/// Every node of every kind and share, and back.
fn changes_of_share(table: &[i64]) -> Vec<Step> {
    let mut steps = made(table);
    let looks = looks_at(table);
    for node in used_nodes(table).chain([61]) {
        let [kind, share, parent] = [KIND, SHARE, PARENT].map(|place| get(table, node, place));
        let own = share - shares_under(table, ROOT, STATED) as i64 + get(table, ROOT, RATE);
        let about_own = [own - 1, own, own + 1].map(|share| (STATED, share));
        for (kind, share) in shares_at_limits(table).into_iter().chain(about_own) {
            steps.push(change_share(node as i64, kind, share));
            steps.extend([look(0), look(parent), look(node as i64)]);
        }
        steps.extend(looks.iter().cloned());
        steps.push(change_share(node as i64, kind, share));
    }
    steps
}

/// Disk rates at and about the stated rates together, each after the first stated node has changed its own.
fn changes_of_rate(table: &[i64]) -> Vec<Step> {
    let mut steps = made(table);
    let looks = looks_at(table);
    let stated = shares_under(table, ROOT, STATED) as i64;
    let rates = [0, -1, i64::MIN, 1, stated - 1, stated, stated + 1, 2 * stated, stated - 2];
    let rates = [&rates[..], &[MAX_RATE, MAX_RATE + 1, i64::MAX, get(table, ROOT, RATE)]].concat();
    let first = children(table, ROOT).find(|&child| get(table, child, KIND) == STATED);
    let first = first.unwrap_or(ROOT) as i64;
    for less in [0, 1] {
        let own = get(table, first as usize, SHARE);
        steps.push(change_share(first, STATED, (own - less).max(1)));
        for &rate in &rates {
            steps.push(change_rate(rate));
            steps.extend(looks.iter().cloned());
        }
    }
    steps
}

/// Every node with kinds and shares written, and each disk rate about the stated ones, once with the rates that follow and
/// once with the old ones; on each a few calls, the next ones each time.
fn written(table: &[i64]) -> Vec<Step> {
    let calls = calls_on(table);
    let mut turns = calls.iter().cycle();
    let mut steps = [made(table), vec![Step::Keep]].concat();
    for writes in writes_of(table) {
        let mut changed = table.to_vec();
        writes.iter().for_each(|&(node, place, value)| changed[at(node, place)] = value);
        let before = changed.clone();
        renew_all(&mut changed);
        for changed in [before, changed] {
            let pokes: Vec<Step> = (0..TABLE_LEN)
                .filter(|&place| table[place] != changed[place])
                .map(|place| Step::Poke { place, value: changed[place] })
                .collect();
            for call in turns.by_ref().take(2) {
                steps.extend(episode(&pokes, &[look(0), call.clone()]));
            }
        }
    }
    steps
}

/// Writes of a node, a place and a value.
type Writes = Vec<(usize, usize, i64)>;

fn writes_of(table: &[i64]) -> Vec<Writes> {
    let stated = shares_under(table, ROOT, STATED) as i64;
    let rates = [stated - 1, stated, stated + 1, 1, MAX_RATE];
    let mut all: Vec<Writes> = rates.iter().map(|&rate| vec![(ROOT, RATE, rate)]).collect();
    for node in used_nodes(table) {
        for kind in [-1, FIXED, WEIGHTED, STATED, STATED + 1] {
            all.push(vec![(node, KIND, kind)]);
            for share in [0, 1, MAX_SHARE, MAX_SHARE + 1, get(table, node, RATE)] {
                all.push(vec![(node, KIND, kind), (node, SHARE, share)]);
            }
        }
        let own = share_of_kind(table, node, STATED);
        let left = get(table, ROOT, RATE) - stated + own;
        for share in [left - 1, left, left + 1, MAX_RATE, MAX_RATE + 1] {
            all.push(vec![(node, KIND, STATED), (node, SHARE, share)]);
        }
    }
    all
}

/// Every client asks, and the ticks go on while the disk's rate falls to the stated ones.
fn ticks_of(table: &[i64]) -> Vec<Step> {
    let clients = trees::clients(table);
    let stated = shares_under(table, ROOT, STATED) as i64;
    let list_len = 4 * QUEUE_LEN * clients.len();
    let mut steps = made(table);
    for (turn, rate) in (1..).zip([MAX_RATE, 100_000, 4 * stated, stated, stated - 1, stated + 1]) {
        steps.push(change_rate(rate));
        for &client in &clients {
            steps.push(request(client, 100 * client + turn, 1 + (7 * client + turn) % 20));
        }
        steps.extend(vec![tick(list_len); 3]);
        steps.extend(looks_at(table));
    }
    steps
}
