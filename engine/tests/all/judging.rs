//! Demand 3's judge: its bounds, and all pairs against running extremes.

use std::collections::BTreeMap;

use crate::faults::{scenario, LOUD};
use crate::support::*;
use hds_engine::faulty::{Fault, Faulty};
use hds_engine::judge::{watch, Judge, Promise, Violation};
use hds_engine::plan::Plan;
use hds_engine::random::{run, Profile, Rng};
use hds_engine::refusal::{BUFFER_SHORT, QUEUE_FULL};
use hds_engine::steps::{Call, Reply, Step, World};
use hds_engine::table::*;
use hds_engine::{Controller, Counts, Engine, NewNode};

/// A judge that is told calls, accepted or not, and lists.
struct Told(Judge);

impl Told {
    fn new(rate: i64, depth: i64) -> Told {
        let mut told = Told(Judge::default());
        told.accepted(open(rate, depth));
        told
    }

    fn accepted(&mut self, call: Call) {
        self.0.observe(&call, Reply::Number(0), [&[], &[]]);
    }

    fn tick(&mut self, entries: &[Entry]) {
        self.tick_on_ports([entries, &[]]);
    }

    fn tick_on_ports(&mut self, entries: [&[Entry]; 2]) {
        let lists = entries.map(|entries| entries.concat());
        let counts = entries.map(|entries| entries.len() as i64);
        self.tick_answers(counts, lists.each_ref().map(Vec::as_slice));
    }

    fn tick_answers(&mut self, counts: Counts, lists: [&[i64]; 2]) {
        self.0.observe(&tick(), Reply::Counts(counts), lists);
    }

    fn found(&self) -> Vec<(Promise, usize, std::ops::Range<usize>)> {
        let violations = self.0.violations().iter();
        violations.map(|found| (found.promise, found.node, found.stretch.clone())).collect()
    }
}

#[test]
fn a_waiting_client_gets_more_than_its_rates_less_its_depth() {
    // After three ticks of 2666 the client lags 7998 grains of a depth of 8000.
    let mut told = Told::new(2666, 80);
    told.accepted(Call::Join(client(5, 0, WEIGHTED, 1, 8)));
    told.accepted(request(5, 1));
    (0..3).for_each(|_| told.tick(&[]));
    assert_eq!(told.found(), []);
    told.tick(&[]);
    assert_eq!(told.found(), [(Promise::Client, 5, 2..6)]);
    // Lagging by just the depth is too much.
    let mut told = Told::new(4000, 80);
    told.accepted(Call::Join(client(5, 0, WEIGHTED, 1, 8)));
    told.accepted(request(5, 1));
    told.tick(&[]);
    assert_eq!(told.found(), []);
    told.tick(&[]);
    assert_eq!(told.found(), [(Promise::Client, 5, 2..4)]);
}

#[test]
fn a_client_counts_only_while_it_waits() {
    let mut told = Told::new(7200, 80);
    told.accepted(Call::Join(client(5, 0, WEIGHTED, 1, 8)));
    for _ in 0..5 {
        told.tick(&[]);
        told.accepted(request(5, 1));
        told.tick(&[]);
        told.tick(&[[5, 7, 1, 5]]);
    }
    assert_eq!(told.found(), []);
    // Refused requests do not make it wait.
    for _ in 0..5 {
        told.0.observe(&request(5, 1), Reply::Refused(QUEUE_FULL), [&[], &[]]);
        told.tick(&[]);
    }
    assert_eq!(told.found(), []);
    // Refused ticks bring no rate.
    told.accepted(request(5, 1));
    (0..5).for_each(|_| told.0.observe(&tick(), Reply::Refused(BUFFER_SHORT), [&[], &[]]));
    assert_eq!(told.found(), []);
}

#[test]
fn a_client_starts_anew_when_it_comes_back() {
    let mut told = Told::new(7200, 80);
    for _ in 0..5 {
        told.accepted(Call::Join(client(5, 0, WEIGHTED, 1, 8)));
        told.accepted(request(5, 1));
        told.tick(&[]);
        told.accepted(Call::Leave { node: 5 });
    }
    assert_eq!(told.found(), []);
}

#[test]
fn the_disk_may_exceed_its_rate_by_five_depths() {
    // Seven of 8 tokens in two ticks: 56,000 grains, 40,000 above two rates of
    // 8000.
    for (rate, found) in [(8000, vec![]), (7999, vec![(Promise::Disk, 0, 2..4)])] {
        let mut told = Told::new(rate, 8);
        told.accepted(Call::Join(client(5, 0, WEIGHTED, 1, 8)));
        told.tick(&[]);
        told.tick(&[[5, 0, 1, 0]; 4]);
        told.tick(&[[5, 0, 1, 5]; 3]);
        assert_eq!(told.found(), found);
    }
}

/// Numbers that name no joined node where only 0 and 5 are joined.
const NOBODY: [i64; 7] = [i64::MIN, -1, 1, 6, 63, 64, i64::MAX];

/// The disk at its boundary, with one tick that may dispatch 48 tokens: a depth
/// of 8 gives 40,000 grains beside a rate of 8000. With a rate of 7999 it is one
/// grain too much.
const FORTY_EIGHT_TOKENS: [(i64, usize); 2] = [(8000, 0), (7999, 1)];

#[test]
fn every_entry_counts_for_the_disk_whatever_supplier_it_names() {
    for supplier in [0, 5].into_iter().chain(NOBODY) {
        for (rate, broken) in FORTY_EIGHT_TOKENS {
            let mut told = Told::new(rate, 8);
            told.accepted(Call::Join(client(5, 0, WEIGHTED, 1, 8)));
            told.tick(&[[5, 0, 1, supplier]; 6]);
            let found = [(Promise::Disk, 0, 1..2)];
            assert_eq!(told.found(), found[..broken], "{supplier}");
        }
    }
}

#[test]
fn every_entry_counts_for_the_disk_whatever_client_it_names() {
    for client in [0].into_iter().chain(NOBODY) {
        for (rate, broken) in FORTY_EIGHT_TOKENS {
            let mut told = Told::new(rate, 8);
            // 8 tokens, 8 and 32.
            told.tick(&[[client, 0, 1, 0], [client, 0, 7, client], [client, 0, 28, 6]]);
            let found = [(Promise::Disk, 0, 0..1)];
            assert_eq!(told.found(), found[..broken], "{client}");
        }
    }
}

#[test]
fn entries_without_a_supplier_count_in_every_stretch() {
    // The sizes cost 0, 24, 8, 32 and 16. From the second tick on, 24, 8 and 32
    // tokens are three rates and five depths. With 16 more they are 80,000
    // grains where 72,000 may be; all five ticks may have 80,000.
    let mut told = Told::new(8000, 8);
    for size in [0, 20, 1, 28, 12] {
        assert_eq!(told.found(), []);
        told.tick(&[[5, 0, size, 64]]);
    }
    assert_eq!(told.found(), [(Promise::Disk, 0, 1..5)]);
}

#[test]
fn a_supplier_that_left_counts_for_the_disk() {
    for (rate, broken) in FORTY_EIGHT_TOKENS {
        let mut told = Told::new(rate, 8);
        told.accepted(Call::Join(class(1, 0, WEIGHTED, 1, 8)));
        told.accepted(Call::Leave { node: 1 });
        told.tick(&[[5, 0, 44, 1]]);
        assert_eq!(told.found().len(), broken);
    }
}

#[test]
fn the_disk_counts_once_and_classes_by_the_way_up() {
    // The root and classes 1 and 2 have the disk's rate and depth 10. Seven
    // entries of 8 tokens are 56,000 grains: five depths and a rate of 6000.
    for (supplier, payers) in [
        (5, vec![0, 1, 2]),
        (2, vec![0, 1, 2]),
        (1, vec![0, 1]),
        (0, vec![0]),
        (6, vec![0]),
        (64, vec![0]),
        (-1, vec![0]),
    ] {
        for (rate, broken) in [(6000, vec![]), (5999, payers)] {
            let mut told = Told::new(rate, 10);
            told.accepted(Call::Join(class(1, 0, WEIGHTED, 1, 10)));
            told.accepted(Call::Join(class(2, 1, WEIGHTED, 1, 10)));
            told.accepted(Call::Join(client(5, 2, WEIGHTED, 1, 10)));
            told.tick(&[[5, 0, 3, supplier]; 7]);
            let found: Vec<usize> = told.found().into_iter().map(|(_, node, _)| node).collect();
            assert_eq!(found, broken, "supplier {supplier}");
        }
    }
}

#[test]
fn as_many_entries_count_as_the_tick_answers_and_the_list_has() {
    // Six of 8 tokens pass. The list has seven, and half an entry behind them.
    let list = [[[5, 0, 1, 64]; 7].concat(), vec![5, 0]].concat();
    for (answer, length, broken) in [
        (6, 30, 0),
        (7, 28, 1),
        (7, 27, 0),
        (i64::MAX, 27, 0),
        (i64::MAX, 30, 1),
        (0, 30, 0),
        (-7, 30, 0),
    ] {
        // Whichever list it is.
        let list = &list[..length];
        for (counts, lists) in [([answer, 0], [list, &[]]), ([0, answer], [&[], list])] {
            let mut told = Told::new(8000, 8);
            told.tick_answers(counts, lists);
            assert_eq!(told.found().len(), broken, "{answer} of {length} numbers");
        }
    }
}

#[test]
fn the_entries_of_both_lists_count_together() {
    // Six of 8 tokens, of which so many stand on the second list.
    for second in 0..=6 {
        for (rate, broken) in FORTY_EIGHT_TOKENS {
            let mut told = Told::new(rate, 8);
            told.accepted(Call::Join(on_port(1, client(5, 0, WEIGHTED, 1, 8))));
            let entries = [[5, 0, 1, 5]; 6];
            told.tick_on_ports([&entries[second..], &entries[..second]]);
            let found = [(Promise::Disk, 0, 1..2)];
            assert_eq!(told.found(), found[..broken], "{second}");
        }
    }
    // Class 1 has depth 8 and the rate 8000: 24 tokens on each list.
    for (share, broken) in [(5000, 0), (4999, 1)] {
        let mut told = Told::new(16_000, 72);
        told.accepted(Call::Join(class(1, 0, FIXED, share, 8)));
        told.tick_on_ports([&[[5, 0, 20, 1]], &[[6, 0, 20, 1]]]);
        let found = [(Promise::Class, 1, 1..2)];
        assert_eq!(told.found(), found[..broken]);
    }
}

#[test]
fn an_entry_counts_for_its_client_on_either_list() {
    // A client of depth 8 and rate 4000 lags 4000 grains, then 0, then 4000, and then just
    // its depth, whatever its port is.
    for port in [0, 1] {
        for list in [0, 1] {
            let mut told = Told::new(4000, 8);
            told.accepted(Call::Join(on_port(port, client(5, 0, WEIGHTED, 1, 8))));
            (0..3).for_each(|_| told.accepted(request(5, 1)));
            told.tick(&[]);
            let mut lists: [&[Entry]; 2] = [&[], &[]];
            lists[list] = &[[5, 7, 1, 5]];
            told.tick_on_ports(lists);
            told.tick(&[]);
            assert_eq!(told.found(), []);
            told.tick(&[]);
            assert_eq!(told.found(), [(Promise::Client, 5, 6..8)], "{port} {list}");
        }
    }
}

#[test]
fn a_size_below_one_counts_nothing() {
    // 44 costs 48 tokens, which may be, and 45 costs 49.
    for (size, broken) in [(44, 0), (45, 1)] {
        let mut told = Told::new(8000, 8);
        told.accepted(Call::Join(client(5, 0, WEIGHTED, 1, 8)));
        told.tick(&[[5, 0, -1, 5], [5, 0, size, 64], [5, 0, 0, 5], [5, 0, i64::MIN, 0]]);
        assert_eq!(told.found().len(), broken);
    }
    // A client of depth 8 may lag 4000 grains, and not 8000.
    let mut told = Told::new(4000, 8);
    told.accepted(Call::Join(client(5, 0, WEIGHTED, 1, 8)));
    (0..3).for_each(|_| told.accepted(request(5, 1)));
    told.tick(&[[5, 0, -1, 5]]);
    assert_eq!(told.found(), []);
    told.tick(&[[5, 0, 0, 5]]);
    assert_eq!(told.found(), [(Promise::Client, 5, 4..6)]);
}

#[test]
fn a_join_of_the_root_leaves_the_disk_its_promise() {
    let mut told = Told::new(8000, 8);
    told.accepted(Call::Join(client(0, 0, WEIGHTED, 1, 1000)));
    told.accepted(Call::Join(class(0, 0, FIXED, 10_000, 1000)));
    told.tick(&[[5, 0, 45, 0]]);
    assert_eq!(told.found(), [(Promise::Disk, 0, 2..3)]);
}

#[test]
fn a_class_may_exceed_its_rate_by_five_depths() {
    // A size of 20 costs 24: 48,000 grains, five depths and a rate of 8000.
    for (share, found) in [(5000, vec![]), (4999, vec![(Promise::Class, 1, 2..3)])] {
        let mut told = Told::new(16_000, 72);
        told.accepted(Call::Join(class(1, 0, FIXED, share, 8)));
        told.accepted(Call::Join(client(5, 1, WEIGHTED, 1, 8)));
        // What the root supplies does not count for the class.
        told.tick(&[[5, 0, 20, 5], [5, 0, 20, 1], [5, 0, 20, 0]]);
        assert_eq!(told.found(), found);
    }
}

#[test]
fn a_class_starts_anew_when_it_comes_back() {
    // The class's rate is 0, and a size of 36 costs its five depths.
    let mut told = Told::new(1, 1000);
    for _ in 0..4 {
        told.accepted(Call::Join(class(1, 0, FIXED, 1, 8)));
        told.tick(&[[5, 0, 36, 1]]);
        told.accepted(Call::Leave { node: 1 });
    }
    assert_eq!(told.found(), []);
    told.accepted(Call::Join(class(1, 0, FIXED, 1, 8)));
    told.tick(&[[5, 0, 36, 1]]);
    told.tick(&[[5, 0, 1, 1]]);
    assert_eq!(told.found(), [(Promise::Class, 1, 13..15)]);
}

#[test]
fn rates_are_those_of_the_tree_before_the_tick() {
    let mut told = Told::new(8000, 100);
    told.accepted(Call::Join(client(5, 0, WEIGHTED, 1, 8)));
    told.accepted(Call::Join(client(6, 0, FIXED, 9000, 8)));
    told.accepted(request(5, 1));
    (0..9).for_each(|_| told.tick(&[]));
    assert_eq!(told.found(), []);
    told.accepted(Call::ChangeShare { node: 6, kind: FIXED, share: 9001 });
    told.tick(&[]);
    assert_eq!(told.found(), []);
    told.accepted(Call::ChangeRate { rate: 10 });
    told.tick(&[]);
    assert_eq!(told.found(), [], "7200 and 799 and 0 grains");
    told.accepted(Call::Leave { node: 6 });
    told.tick(&[]);
    assert_eq!(told.found(), [(Promise::Client, 5, 3..18)]);
}

#[test]
fn a_list_starts_at_open_and_ends_at_a_write_from_outside() {
    let mut told = Told::new(1000, 10);
    told.accepted(Call::Join(client(5, 0, WEIGHTED, 1, 10)));
    told.accepted(request(5, 1));
    (0..9).for_each(|_| told.tick(&[]));
    told.accepted(open(1000, 10));
    (0..9).for_each(|_| told.tick(&[]));
    assert_eq!(told.found(), []);
    let waits = [open(1000, 10), Call::Join(client(5, 0, WEIGHTED, 1, 8)), request(5, 1)];
    let mut list = steps(&waits);
    list.push(Step::Poke { place: at(5, WAITING), value: 1 });
    list.extend(steps(&vec![tick(); 20]));
    let silent = &mut Faulty::new(Fault::ListsNothing);
    assert_eq!(watch(silent, &list), []);
    list.remove(3);
    assert_eq!(watch(silent, &list).len(), 1);
}

#[test]
fn an_entry_counts_its_cost_for_the_disk_and_the_class() {
    // Six entries are five depths and a rate, where the depth is the cost.
    for (size, cost) in COSTS {
        for (rate, broken) in [(1000 * cost, vec![]), (1000 * cost - 1, vec![0, 1])] {
            let mut told = Told::new(rate, cost);
            told.accepted(Call::Join(class(1, 0, FIXED, 10_000, cost)));
            told.tick(&[[5, 0, size, 1]; 6]);
            let found: Vec<usize> = told.found().into_iter().map(|(_, node, _)| node).collect();
            assert_eq!(found, broken, "{size}");
        }
    }
}

#[test]
fn an_entry_counts_its_cost_for_the_client() {
    // The depth is the cost. Twice three quarters of it less one entry is half
    // of it, and the last tick brings the other half, or a grain less.
    for (size, cost) in COSTS {
        for (last, broken) in [(500 * cost, 1), (500 * cost - 1, 0)] {
            let mut told = Told::new(750 * cost, cost);
            told.accepted(Call::Join(client(5, 0, WEIGHTED, 1, cost)));
            (0..2).for_each(|_| told.accepted(request(5, size)));
            told.tick(&[]);
            told.tick(&[[5, 0, size, 5]]);
            told.accepted(Call::ChangeRate { rate: last });
            assert_eq!(told.found(), [], "{size}");
            told.tick(&[]);
            let found = [(Promise::Client, 5, 3..7)];
            assert_eq!(told.found(), found[..broken], "{size}");
        }
    }
}

#[test]
fn an_entry_of_the_largest_size_counts() {
    let mut told = Told::new(MAX_RATE, MAX_DEPTH);
    told.tick(&[[5, 0, i64::MAX, 5], [0, 0, i64::MAX, 0]]);
    assert_eq!(told.found(), [(Promise::Disk, 0, 0..1)]);
}

#[test]
fn counting_sizes_raises_a_false_alarm() {
    // The right engine dispatches seven of size 1 in two ticks of 28 tokens. By
    // their sizes they are 7 tokens, and the client would lag by far more than
    // its depth of 8.
    let steps = scenario(Fault::ChargesSize);
    assert_eq!(watch(&mut Engine, &steps), []);
    assert_eq!(all_pairs(&mut Engine, &steps, BOTH, cost_of), Ends::new());
    assert!(all_pairs(&mut Engine, &steps, BOTH, |size| size).contains_key(&1));
}

#[test]
fn counting_sizes_misses_a_broken_promise() {
    // Eight of size 1 at each tick cost 64 tokens, where 28 may be, and by their
    // sizes they are 8.
    let steps = scenario(Fault::ChargesSize);
    let charges_size = &mut Faulty::new(Fault::ChargesSize);
    assert!(watch(charges_size, &steps).iter().any(|found| found.promise == Promise::Disk));
    assert!(all_pairs(charges_size, &steps, BOTH, cost_of).contains_key(&0));
    assert!(!all_pairs(charges_size, &steps, BOTH, |size| size).contains_key(&0));
}

#[test]
fn the_judge_is_quiet_on_the_engine() {
    for (seeds, profile) in
        [(0..120, Profile::Clean), (0..60, Profile::Family), (0..60, Profile::Tree)]
    {
        for seed in seeds {
            let steps = run(seed, 400, profile);
            assert_eq!(watch(&mut Engine, &steps), [], "{profile:?}, seed {seed}");
        }
    }
}

#[test]
fn the_judge_is_quiet_where_a_family_takes_all_spare() {
    // Classes 1 and 4 get 16 of 32 tokens at each tick. Client 5 has all of class 4's
    // rate and takes it in step 2; the root has 16 left. Clients 2 and 3 have next to no
    // rate, and class 1 pays 8 for each. Client 6 in class 4 has no rate: it asks first,
    // has the root at 2 steps, and waits all the time.
    let mut calls = vec![open(32_000, 400)];
    calls.extend([1, 4].map(|node| Call::Join(class(node, 0, FIXED, 5000, 200))));
    calls.extend([2, 3].map(|node| Call::Join(client(node, 1, FIXED, 1, 20))));
    calls.push(Call::Join(client(5, 4, FIXED, 10_000, 20)));
    calls.push(Call::Join(client(6, 4, WEIGHTED, 1, 20)));
    calls.push(request(6, 1));
    for _ in 0..40 {
        calls.extend([request(5, 12), request(2, 1), request(3, 1), tick()]);
    }
    let steps = steps(&calls);
    assert_eq!(watch(&mut Engine, &steps), []);
    let mut world = World::default();
    for step in &steps {
        world.run(&mut Engine, step);
        if matches!(step, Step::Call(Call::Tick { .. })) {
            let list = entries(world.lists()[0], 3);
            assert_eq!(list, [[5, 7, 12, 5], [2, 7, 1, 1], [3, 7, 1, 1]]);
            assert_eq!(waiting_in_all(world.table.inner()), 1);
        }
    }
}

#[test]
fn the_judge_takes_any_nonsense() {
    let mut rng = Rng::new(5);
    for seed in 0..20 {
        let mut judge = Judge::default();
        judge.observe(&open(1000, 40), Reply::Number(0), [&[], &[]]);
        for step in run(seed, 300, Profile::Wild) {
            let Step::Call(mut call) = step else { continue };
            if let Call::Join(new) = &mut call {
                let ring = rng.between(0, 8);
                *new = NewNode {
                    node: rng.between(0, 8),
                    parent: rng.pick(&[ring, new.parent]),
                    ..*new
                };
            }
            let list: Vec<i64> = (0..80).map(|_| rng.edge(0, 8)).collect();
            let counts = [(); 2].map(|()| rng.edge(0, 10));
            let reply = match call {
                Call::Tick { .. } => Reply::Counts(counts),
                _ => Reply::Number(counts[0]),
            };
            let (first, second) = list.split_at(rng.below(80));
            judge.observe(&call, reply, [first, second]);
        }
    }
}

/// Earliest end of a violation, for each node that has one.
pub type Ends = BTreeMap<usize, usize>;

#[test]
fn running_extremes_find_what_all_pairs_find() {
    let mut loud = 0;
    let faults = LOUD.map(|(fault, _)| fault).into_iter().chain([Fault::None]);
    for (seed, fault) in (0..).step_by(4).zip(faults) {
        let seeds = seed..seed + 4;
        let mut runs: Vec<Vec<Step>> = seeds.map(|seed| run(seed, 110, Profile::Clean)).collect();
        runs.push(scenario(fault));
        for mut steps in runs {
            steps.truncate(150);
            let quick = earliest(&watch(&mut Faulty::new(fault), &steps));
            let all = all_pairs(&mut Faulty::new(fault), &steps, BOTH, cost_of);
            assert_eq!(quick, all, "{fault:?}");
            loud += quick.len();
        }
    }
    assert!(loud > 15, "{loud}");
}

fn earliest(violations: &[Violation]) -> Ends {
    let mut ends = Ends::new();
    for found in violations {
        ends.entry(found.node).or_insert(found.stretch.end);
    }
    ends
}

/// What one call of the list did, and the tree and the waiting after it.
#[derive(Clone, Default)]
struct Moment {
    tree: BTreeMap<usize, NewNode>,
    disk_rate: i64,
    open_requests: BTreeMap<usize, i64>,
    rates: BTreeMap<usize, i64>,
    dispatched: BTreeMap<usize, i64>,
    charged: BTreeMap<usize, i64>,
    left: Option<usize>,
}

/// What an entry of that size counts, in tokens.
type Count = fn(i64) -> i64;

/// The lists that count.
type Counted = [bool; 2];
pub const BOTH: Counted = [true, true];

/// The promises over all pairs of a start and an end, straight from the words
/// of document 01.
pub fn all_pairs(
    controller: &mut dyn Controller,
    steps: &[Step],
    counted: Counted,
    count: Count,
) -> Ends {
    let moments = history(controller, steps, counted, count);
    let mut ends = Ends::new();
    for end in 0..moments.len() {
        for start in 0..=end {
            let calls = &moments[start + 1..=end];
            for (&node, new) in &moments[end].tree {
                if is_broken(&moments[start], calls, node, new) {
                    ends.entry(node).or_insert(end);
                }
            }
        }
    }
    ends
}

fn is_broken(before: &Moment, calls: &[Moment], node: usize, new: &NewNode) -> bool {
    let sum = |of: fn(&Moment) -> &BTreeMap<usize, i64>| -> i64 {
        calls.iter().map(|call| of(call).get(&node).copied().unwrap_or(0)).sum()
    };
    let rates = sum(|call| &call.rates);
    if new.sort == CLIENT {
        let waits = calls.iter().all(|call| call.open_requests.get(&node).is_some_and(|&n| n > 0));
        waits && sum(|call| &call.dispatched) <= rates - new.depth * 1000
    } else {
        let throughout =
            before.tree.contains_key(&node) && calls.iter().all(|call| call.left != Some(node));
        throughout && sum(|call| &call.charged) > rates + 5 * new.depth * 1000
    }
}

fn history(
    controller: &mut dyn Controller,
    steps: &[Step],
    counted: Counted,
    count: Count,
) -> Vec<Moment> {
    let mut world = World::default();
    let mut moments: Vec<Moment> = Vec::new();
    controller.start();
    for step in steps {
        let reply = world.run(controller, step);
        let Step::Call(call) = step else { continue };
        if let Call::Open { rate, depth } = *call {
            if matches!(reply, Some(Reply::Number(_))) {
                let tree = BTreeMap::from([(0, class(0, 0, FIXED, 10_000, depth))]);
                moments = vec![Moment { tree, disk_rate: rate, ..Moment::default() }];
            }
        } else if let Some(last) = moments.last() {
            let entries = match reply {
                Some(Reply::Counts(counts)) => entries_of(world.lists(), counts),
                _ => Default::default(),
            };
            let counted = [0, 1].into_iter().filter(|&list| counted[list]);
            let entries: Vec<Entry> = counted.flat_map(|list| entries[list].clone()).collect();
            moments.push(next_moment(last, call, reply, &entries, count));
        }
    }
    moments
}

fn next_moment(
    last: &Moment,
    call: &Call,
    reply: Option<Reply>,
    entries: &[Entry],
    count: Count,
) -> Moment {
    let mut next = Moment {
        tree: last.tree.clone(),
        disk_rate: last.disk_rate,
        open_requests: last.open_requests.clone(),
        ..Moment::default()
    };
    if !matches!(reply, Some(Reply::Number(_) | Reply::Counts(_))) {
        return next;
    }
    match *call {
        Call::Join(new) => {
            next.tree.insert(new.node as usize, new);
            next.open_requests.insert(new.node as usize, 0);
        }
        Call::Leave { node } => {
            next.tree.remove(&(node as usize));
            next.open_requests.remove(&(node as usize));
            next.left = Some(node as usize);
        }
        Call::ChangeShare { node, kind, share } => {
            let new = next.tree.get_mut(&(node as usize)).unwrap();
            (new.kind, new.share) = (kind, share);
        }
        Call::ChangeRate { rate } => next.disk_rate = rate,
        Call::SetMinute { ref plan, ref windows, minute } => {
            for planned in Plan::decode(plan).unwrap().nodes {
                let new = next.tree.get_mut(&(planned.node as usize)).unwrap();
                (new.kind, new.share) = (planned.kind, planned.share);
                for window in windows.chunks(4).filter(|window| window[0] == planned.node) {
                    if window[1] <= minute && minute < window[2] {
                        new.share = window[3];
                    }
                }
            }
        }
        Call::Request { client, .. } => {
            *next.open_requests.get_mut(&(client as usize)).unwrap() += 1
        }
        Call::Tick { .. } => {
            next.rates = last.tree.keys().map(|&node| (node, rate_of(last, node))).collect();
            for entry in entries {
                let (client, grains) = (entry[0] as usize, count(entry[2]) * 1000);
                *next.dispatched.entry(client).or_insert(0) += grains;
                *next.open_requests.get_mut(&client).unwrap() -= 1;
                *next.charged.entry(0).or_insert(0) += grains;
                let mut payer = entry[3] as usize;
                while let Some(new) = last.tree.get(&payer).filter(|_| payer != 0) {
                    *next.charged.entry(payer).or_insert(0) += grains;
                    payer = new.parent as usize;
                }
            }
        }
        _ => {}
    }
    next
}

/// The section on rates, for one node.
fn rate_of(moment: &Moment, node: usize) -> i64 {
    if node == 0 {
        return moment.disk_rate;
    }
    let new = moment.tree[&node];
    let class_rate = rate_of(moment, new.parent as usize);
    let siblings =
        moment.tree.iter().filter(|(&number, other)| number != 0 && other.parent == new.parent);
    let siblings: Vec<&NewNode> = siblings.map(|(_, other)| other).collect();
    let shares = |kind: i64| -> i64 {
        siblings.iter().filter(|other| other.kind == kind).map(|other| other.share).sum()
    };
    let divided = class_rate - shares(STATED);
    match new.kind {
        STATED => new.share,
        FIXED => divided * new.share / 10_000,
        _ => divided * (10_000 - shares(FIXED)) / 10_000 * new.share / shares(WEIGHTED),
    }
}
