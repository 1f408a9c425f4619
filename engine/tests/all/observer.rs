//! Ticks of random runs, followed dispatch by dispatch by an observer of its own:
//! it goes down from every node, and compares all requests that might go.

use std::collections::{BTreeMap, VecDeque};

use crate::support::*;
use hds_engine::faulty::{Fault, Faulty, Pick};
use hds_engine::random::{run, Profile, Rng};
use hds_engine::steps::{Reply, World};
use hds_engine::{Controller, Engine};

/// What the observer keeps of the nodes of a table, by number.
#[derive(Clone, Debug, PartialEq)]
struct Observer {
    balances: BTreeMap<i64, i64>,
    rates: BTreeMap<i64, i64>,
    /// In grains.
    depths: BTreeMap<i64, i64>,
    /// For each client its requests, oldest first: tag, size, arrival number.
    queues: BTreeMap<i64, VecDeque<[i64; 3]>>,
    ports: BTreeMap<i64, i64>,
    /// Every node together with each node below it, and with itself.
    lines: Vec<Line>,
}

/// A node, one that stands below it, and how many steps below.
#[derive(Clone, Copy, Debug, PartialEq)]
struct Line {
    top: i64,
    node: i64,
    steps: i64,
}

/// An oldest request and the nearest node that has enough for it.
#[derive(Clone, Copy, Debug, PartialEq)]
struct Candidate {
    steps: i64,
    arrival: i64,
    client: i64,
    supplier: i64,
}

/// How often each situation was met, by its name.
type Met = BTreeMap<&'static str, usize>;

impl Observer {
    fn new(table: &[i64]) -> Observer {
        let record = |node: i64| &table[8 + 40 * node as usize..][..40];
        let used: Vec<i64> = (0..64).filter(|&node| record(node)[0] != 0).collect();
        let of_place = |place: usize| used.iter().map(move |&node| (node, record(node)[place]));
        let mut queues = BTreeMap::new();
        for &client in used.iter().filter(|&&node| record(node)[0] == 2) {
            let places = record(client)[16..].chunks(3).take(record(client)[8] as usize);
            queues.insert(client, places.map(|place| place.try_into().unwrap()).collect());
        }
        let mut children: BTreeMap<i64, Vec<i64>> = BTreeMap::new();
        for (node, parent) in of_place(1).filter(|&(node, _)| node != 0) {
            children.entry(parent).or_default().push(node);
        }
        let mut lines = Vec::new();
        for &top in &used {
            go_down(&children, &mut lines, Line { top, node: top, steps: 0 });
        }
        Observer {
            balances: of_place(7).collect(),
            rates: of_place(6).collect(),
            depths: of_place(5).map(|(node, depth)| (node, 1000 * depth)).collect(),
            queues,
            ports: of_place(9).collect(),
            lines,
        }
    }

    /// Of some entries, those of each port's clients.
    fn by_port(&self, entries: &[Entry]) -> [Vec<Entry>; 2] {
        [0, 1].map(|port| {
            entries.iter().copied().filter(|entry| self.ports[&entry[0]] == port).collect()
        })
    }

    /// What the oldest request of a client needs, in grains.
    fn needed(&self, client: i64) -> Option<i64> {
        let [_, size, _] = self.queues.get(&client)?.front()?;
        Some(1000 * cost_of(*size))
    }

    fn has(&self, node: i64, needed: i64) -> bool {
        self.balances[&node] >= needed
    }

    /// Takes the oldest request of a client out, and charges it to every node that
    /// the supplier is or stands below.
    fn dispatch(&mut self, client: i64, supplier: i64) -> Entry {
        let needed = self.needed(client).unwrap();
        for line in self.lines.iter().filter(|line| line.node == supplier) {
            *self.balances.get_mut(&line.top).unwrap() -= needed;
        }
        let [tag, size, _] = self.queues.get_mut(&client).unwrap().pop_front().unwrap();
        [client, tag, size, supplier]
    }

    /// Steps 1 to 3, with what step 2 dispatches.
    fn first_three_steps(&mut self) -> Vec<Entry> {
        let mut list = Vec::new();
        for (node, balance) in &mut self.balances {
            *balance += self.rates[node];
        }
        let clients: Vec<i64> = self.queues.keys().copied().collect();
        for client in clients {
            while self.needed(client).is_some_and(|needed| self.has(client, needed)) {
                list.push(self.dispatch(client, client));
            }
        }
        for (node, balance) in &mut self.balances {
            *balance = self.depths[node].min(*balance);
        }
        list
    }

    /// The oldest requests that have a supplier. Every node with enough is found, and
    /// the nearest kept.
    fn candidates(&self) -> Vec<Candidate> {
        let mut nearest: BTreeMap<i64, Candidate> = BTreeMap::new();
        for &Line { top, node, steps } in &self.lines {
            if self.needed(node).is_some_and(|needed| self.has(top, needed)) {
                let arrival = self.queues[&node][0][2];
                let found = Candidate { steps, arrival, client: node, supplier: top };
                let kept = nearest.entry(node).or_insert(found);
                if steps < kept.steps {
                    *kept = found;
                }
            }
        }
        nearest.into_values().collect()
    }

    /// Follows a tick's lists. In step 4 the next entry of one of them must be the
    /// candidate that has fewer steps than any other, or as many and a lower arrival
    /// number; it is the list of the candidate's port. At the end there is no candidate,
    /// and no entry either.
    fn follow(&mut self, lists: &[Vec<Entry>; 2], met: &mut Met) -> Result<(), String> {
        let own = self.first_three_steps();
        let own = self.by_port(&own);
        for (list, own) in lists.iter().zip(&own) {
            if !list.starts_with(own) {
                return Err(format!("{list:?} does not start with step 2's {own:?}"));
            }
        }
        let mut rest = [0, 1].map(|port| lists[port][own[port].len()..].iter());
        let first = self.candidates();
        let mut gone: Vec<Candidate> = Vec::new();
        loop {
            let candidates = self.candidates();
            let goes_before = |one: &Candidate, other: &Candidate| {
                one.steps < other.steps || one.steps == other.steps && one.arrival < other.arrival
            };
            let is_next =
                |one: &&Candidate| !candidates.iter().any(|other| goes_before(other, one));
            let Some(&chosen) = candidates.iter().find(is_next) else { break };
            let port = self.ports[&chosen.client];
            let Some(&entry) = rest[port as usize].next() else {
                return Err(format!("{chosen:?} has a supplier and waits"));
            };
            count(met, &first, &gone, &candidates, chosen);
            gone.push(chosen);
            if self.dispatch(chosen.client, chosen.supplier) != entry {
                return Err(format!("{entry:?} is not the oldest of {chosen:?}, which is next"));
            }
        }
        if let Some(entry) = rest.iter_mut().find_map(Iterator::next) {
            return Err(format!("{entry:?} has no supplier"));
        }
        let waiting = self.queues.values().any(|queue| !queue.is_empty());
        *met.entry("others wait without a supplier").or_default() +=
            usize::from(waiting && !gone.is_empty());
        Ok(())
    }
}

/// Puts a line and all that lead further down with it.
fn go_down(children: &BTreeMap<i64, Vec<i64>>, lines: &mut Vec<Line>, line: Line) {
    lines.push(line);
    for &node in children.get(&line.node).into_iter().flatten() {
        go_down(children, lines, Line { node, steps: line.steps + 1, ..line });
    }
}

/// Counts the situations of one dispatch: the candidates at the start of step 4, those
/// that went, those that might go, and the one that does.
fn count(
    met: &mut Met,
    first: &[Candidate],
    gone: &[Candidate],
    candidates: &[Candidate],
    chosen: Candidate,
) {
    let mut count = |name, holds| *met.entry(name).or_default() += usize::from(holds);
    let any = |holds: &dyn Fn(&Candidate) -> bool| candidates.iter().any(holds);
    let ties = |one: &Candidate| one.steps == chosen.steps && *one != chosen;
    for (steps, name) in (0..).zip(["0 steps", "1 step", "2 steps", "3 steps", "4 steps"]) {
        count(name, chosen.steps == steps);
    }
    count("others have more steps", any(&|one| one.steps > chosen.steps));
    count(
        "an earlier one has more steps",
        any(&|one| one.steps > chosen.steps && one.arrival < chosen.arrival),
    );
    count("a lower number has as many steps", any(&|one| ties(one) && one.client < chosen.client));
    count("a higher number has as many steps", any(&|one| ties(one) && one.client > chosen.client));
    count(
        "a lower supplier has as many steps",
        any(&|one| ties(one) && one.supplier < chosen.supplier),
    );
    count(
        "its steps rose",
        first.iter().any(|one| one.arrival == chosen.arrival && one.steps < chosen.steps),
    );
    count(
        "as many steps, but not at the start",
        any(&|one| {
            let was = first.iter().find(|was| was.arrival == one.arrival);
            ties(one) && was.is_some_and(|was| was.steps < one.steps)
        }),
    );
    let last = gone.last();
    count("more steps than the one before", last.is_some_and(|last| last.steps < chosen.steps));
    count("fewer steps than the one before", last.is_some_and(|last| last.steps > chosen.steps));
    count(
        "its client went with more steps",
        gone.iter().any(|one| one.client == chosen.client && one.steps > chosen.steps),
    );
}

/// How many situations are counted.
const SITUATIONS: usize = 16;

/// Goes through runs of that profile under a controller. What is done after an
/// accepted tick gets the table before it and after it, and its lists.
fn after_ticks(
    controller: &mut dyn Controller,
    profile: Profile,
    seeds: u64,
    mut after: impl FnMut(&[i64], &[i64], &[Vec<Entry>; 2]),
) {
    for seed in 0..seeds {
        let mut world = World::default();
        controller.start();
        for step in run(seed, 400, profile) {
            let before = world.table.inner().to_vec();
            let reply = world.run(controller, &step);
            if let Some(Reply::Counts(counts)) = reply {
                after(&before, world.table.inner(), &entries_of(world.lists(), counts));
            }
        }
    }
}

#[test]
fn every_dispatch_of_step_four_is_the_right_one() {
    for (profile, seeds, least) in
        [(Profile::Clean, 200, 5), (Profile::Family, 100, 200), (Profile::Wild, 400, 1)]
    {
        let mut met = Met::new();
        after_ticks(&mut Engine, profile, seeds, |before, after, lists| {
            let mut observer = Observer::new(before);
            if let Err(what) = observer.follow(lists, &mut met) {
                panic!("{what}");
            }
            assert_eq!(observer, Observer::new(after));
        });
        assert_eq!(met.len(), SITUATIONS);
        assert!(met.values().all(|&count| count >= least), "{profile:?}: {met:?}");
    }
}

#[test]
fn the_observer_objects_to_wrong_picks() {
    for pick in [
        Pick::ArrivalAlone,
        Pick::TiesByNumber,
        Pick::TiesByHighestNumber,
        Pick::StepsOfRequest,
        Pick::NeverBack,
        Pick::FewestOnly,
        Pick::AnyOfQueue,
        Pick::SkipsMiddle,
        Pick::StepTwoByArrival,
    ] {
        let mut objections = 0;
        let faulty = &mut Faulty::new(Fault::WrongPick(pick));
        after_ticks(faulty, Profile::Family, 4, |before, _, lists| {
            let answer = Observer::new(before).follow(lists, &mut Met::new());
            objections += usize::from(answer.is_err());
        });
        assert!(objections > 0, "{pick:?}");
    }
}

/// The table with every node under another number, and the root under its own.
fn renumbered(table: &[i64], numbers: &[i64; 64]) -> Vec<i64> {
    let mut other = table.to_vec();
    for (node, &number) in numbers.iter().enumerate() {
        let record = &table[8 + 40 * node..][..40];
        let place = 8 + 40 * number as usize;
        other[place..place + 40].copy_from_slice(record);
        other[place + 1] = numbers[record[1] as usize];
    }
    other
}

/// The numbers 1 to 63 in any order behind 0.
fn any_numbers(rng: &mut Rng) -> [i64; 64] {
    let mut numbers: [i64; 64] = std::array::from_fn(|node| node as i64);
    for last in (2..64).rev() {
        numbers.swap(last, 1 + rng.below(last));
    }
    numbers
}

#[test]
fn the_numbers_of_the_nodes_do_not_matter_to_step_four() {
    // Nor does the order in which clients are looked at, which is that of the numbers.
    // Step 2 dispatches the same by rising number, which is another order.
    let mut rng = Rng::new(3);
    let mut in_step_four = 0;
    for profile in [Profile::Clean, Profile::Family, Profile::Wild] {
        after_ticks(&mut Engine, profile, 40, |before, after, lists| {
            let mut observer = Observer::new(before);
            let own = observer.first_three_steps();
            let own = observer.by_port(&own);
            let numbers = any_numbers(&mut rng);
            let rename = |entry: &Entry| {
                let [client, tag, size, supplier] = *entry;
                [numbers[client as usize], tag, size, numbers[supplier as usize]]
            };
            let expected = [0, 1].map(|port| {
                let mut expected: Vec<Entry> = lists[port].iter().map(rename).collect();
                expected[..own[port].len()].sort_by_key(|entry| entry[0]);
                expected
            });
            let mut table = renumbered(before, &numbers);
            assert_eq!(dispatches(&mut Engine, &mut table), expected);
            assert_eq!(table, renumbered(after, &numbers));
            in_step_four += lists.concat().len() - own.concat().len();
        });
    }
    assert!(in_step_four > 2000, "{in_step_four}");
}
