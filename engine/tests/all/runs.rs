//! Random runs: the engine against itself, and what the runs reach.

use std::collections::{BTreeMap, BTreeSet};

use crate::support::*;
use hds_engine::differential::{differential, differential_runs, first_difference, shorten};
use hds_engine::random::{run, Profile, Rng};
use hds_engine::steps::{Call, Reply, Step, World};
use hds_engine::table::*;
use hds_engine::{plans, Answer, Controller, Counts, Engine, Lists, NewNode, Seen};

#[test]
fn two_hundred_thousand_calls_against_itself() {
    let mut calls = 0;
    let mut seed = 1;
    while calls < 200_000 {
        let steps = run(seed, 1000, Profile::Wild);
        if let Err(difference) = differential(&mut Engine, &mut Engine, seed, &steps) {
            panic!("{difference}");
        }
        calls += steps.iter().filter(|step| matches!(step, Step::Call(_))).count();
        seed += 1;
    }
}

#[test]
fn refusals_leave_all_and_accepted_calls_leave_order() {
    // A panic of the watched engine is a difference too.
    let watched = &mut Watched(Engine);
    for (seeds, profile) in [
        (500..540, Profile::Wild),
        (540..580, Profile::Clean),
        (580..600, Profile::Family),
        (600..620, Profile::Tree),
    ] {
        if let Err(difference) = differential_runs(watched, &mut Engine, seeds, 500, profile) {
            panic!("{difference}");
        }
    }
}

#[test]
fn runs_are_made_by_the_seed_alone() {
    for profile in [Profile::Clean, Profile::Family, Profile::Tree, Profile::Wild] {
        assert_eq!(run(7, 300, profile), run(7, 300, profile));
        assert_ne!(run(7, 300, profile), run(8, 300, profile));
    }
}

#[test]
fn wild_runs_reach_every_refusal_of_every_call() {
    let mut seen = BTreeSet::new();
    for seed in 0..100 {
        let mut world = World::default();
        for step in run(seed, 700, Profile::Wild) {
            let reply = world.run(&mut Engine, &step);
            if let (Step::Call(call), Some(reply)) = (&step, reply) {
                seen.insert((name(call), refusal(call, reply)));
            }
        }
    }
    let expected: [(&str, &[i64]); 13] = [
        ("open", &[0, 1, 2]),
        ("join", &[0, 1, 2, 3, 4, 5, 6, 7, 8, 16]),
        ("leave", &[0, 1, 2, 3, 5, 9, 10]),
        ("change share", &[0, 1, 2, 3, 5, 7, 16]),
        ("change rate", &[0, 1, 2, 16]),
        ("request", &[0, 1, 2, 3, 5, 8, 11, 12]),
        ("tick", &[0, 1, 13]),
        ("look", &[0, 1, 2, 3]),
        ("same", &[0, 1]),
        ("plan read", &[0, 1, 2, 3, 4, 5, 6, 7, 8, 14, 15, 16]),
        ("plan write", &[0, 1, 2, 13, 16]),
        ("plan check", &[0, 2, 3, 4, 5, 6, 7, 8, 14, 15, 16]),
        ("set minute", &[0, 1, 2, 3, 4, 5, 6, 7, 8, 14, 15, 16, 17]),
    ];
    let expected: BTreeSet<(&str, i64)> = expected
        .iter()
        .flat_map(|(name, numbers)| numbers.iter().map(move |number| (*name, *number)))
        .collect();
    assert_eq!(seen, expected);
}

fn name(call: &Call) -> &'static str {
    match call {
        Call::Open { .. } => "open",
        Call::Join(_) => "join",
        Call::Leave { .. } => "leave",
        Call::ChangeShare { .. } => "change share",
        Call::ChangeRate { .. } => "change rate",
        Call::Request { .. } => "request",
        Call::Tick { .. } => "tick",
        Call::Look { .. } => "look",
        Call::Same { .. } => "same",
        Call::PlanRead { .. } => "plan read",
        Call::PlanWrite { .. } => "plan write",
        Call::PlanCheck { .. } => "plan check",
        Call::SetMinute { .. } => "set minute",
    }
}

#[test]
fn clean_runs_reach_deep_trees_and_every_supplier() {
    let mut supplier_levels = BTreeSet::new();
    let mut client_levels = BTreeSet::new();
    let (mut most_nodes, mut most_waiting, mut lowest) = (0, 0, 0);
    for seed in 0..60 {
        let mut world = World::default();
        for step in run(seed, 500, Profile::Clean) {
            let before = world.table.inner().to_vec();
            let reply = world.run(&mut Engine, &step);
            let table = world.table.inner();
            if let Some(Reply::Counts(counts)) = reply {
                for entry in entries_of(world.lists(), counts).concat() {
                    supplier_levels.insert(get(&before, entry[3] as usize, LEVEL));
                    client_levels.insert(get(&before, entry[0] as usize, LEVEL));
                }
            }
            most_nodes = most_nodes.max(used_nodes(table).count());
            most_waiting = most_waiting.max(waiting_in_all(table));
            lowest = lowest.min((0..NODES).map(|node| get(table, node, BALANCE)).min().unwrap());
        }
    }
    assert_eq!(supplier_levels, BTreeSet::from([0, 1, 2, 3, 4]));
    assert_eq!(client_levels, BTreeSet::from([1, 2, 3, 4]));
    assert!(
        most_nodes > 55 && most_waiting > 100 && lowest < -1000,
        "{most_nodes} {most_waiting} {lowest}"
    );
}

/// How often something happened to requests of a size.
type Sizes = BTreeMap<i64, usize>;

/// What the requests of some runs met.
#[derive(Debug, Default)]
struct Met {
    accepted: Sizes,
    dispatched: Sizes,
    /// Accepted with a cost of just the depth, and refused with 8: with a cost
    /// one above it, the size itself being the depth, and at the largest size.
    just_fits: usize,
    one_above: usize,
    size_is_depth: usize,
    largest: usize,
}

impl Met {
    fn request(&mut self, depth: i64, size: i64, answer: i64) {
        let cost = if size > MAX_DEPTH { size } else { cost_of(size) };
        match answer {
            0 => {
                *self.accepted.entry(size).or_default() += 1;
                self.just_fits += usize::from(cost == depth);
            }
            8 => {
                self.one_above += usize::from(cost == depth + 1);
                self.size_is_depth += usize::from(size == depth);
                self.largest += usize::from(size == i64::MAX);
            }
            _ => {}
        }
    }

    fn tick(&mut self, entries: &[Entry]) {
        for entry in entries {
            *self.dispatched.entry(entry[2]).or_default() += 1;
        }
    }
}

fn met_in_runs(profile: Profile) -> Met {
    let mut met = Met::default();
    for seed in 0..40 {
        let mut world = World::default();
        for step in run(seed, 500, profile) {
            let before = world.table.inner().to_vec();
            let reply = world.run(&mut Engine, &step);
            match (&step, reply) {
                (Step::Call(call @ Call::Request { client, size, .. }), Some(reply)) => {
                    let answer = refusal(call, reply);
                    if answer == 0 || answer == 8 {
                        met.request(get(&before, *client as usize, DEPTH), *size, answer);
                    }
                }
                (_, Some(Reply::Counts(counts))) => {
                    met.tick(&entries_of(world.lists(), counts).concat());
                }
                _ => {}
            }
        }
    }
    met
}

#[test]
fn runs_meet_every_end_of_the_ranges_of_cost() {
    for (profile, least) in [(Profile::Clean, 15), (Profile::Wild, 5)] {
        let met = met_in_runs(profile);
        for end in [1, 7, 8, 63, 64, 511, 512] {
            let counts = [&met.accepted, &met.dispatched].map(|counts| counts.get(&end));
            assert!(counts.into_iter().all(|count| count >= Some(&least)), "{end}: {counts:?}");
        }
        assert!(met.just_fits > 10 * least && met.one_above > least, "{met:?}");
        assert!(met.size_is_depth > least && met.largest > least, "{met:?}");
    }
}

#[test]
fn same_says_yes_and_no() {
    let mut seen = BTreeSet::new();
    for seed in 0..20 {
        let mut world = World::default();
        for step in run(seed, 500, Profile::Wild) {
            if let Some(Reply::Same(same)) = world.run(&mut Engine, &step) {
                seen.insert(same);
            }
        }
    }
    assert_eq!(seen.len(), 2);
}

#[test]
fn random_plans_never_panic() {
    let mut rng = Rng::new(9);
    let mut world = World::default();
    for step in run(3, 200, Profile::Clean) {
        world.run(&mut Engine, &step);
    }
    let right = hds_engine::plan::Plan::of_table(world.table.inner());
    for _ in 0..5000 {
        let plan = plans::any(&mut rng, &right);
        let mut table = vec![0; TABLE_LEN];
        let answer = Watched(Engine).plan_read(&plan, &mut table);
        let text = hds_engine::print::rates_of_plan(&plan);
        match answer {
            Ok(_) => assert!(text.starts_with("0 class ")),
            Err(number) => assert_eq!(text, format!("refused {number}\n")),
        }
    }
}

#[test]
fn a_list_of_steps_is_shortened_to_what_matters() {
    let steps: Vec<Step> = (0..300).map(|len| Step::Resize { len }).collect();
    let needed = [Step::Resize { len: 17 }, Step::Resize { len: 18 }, Step::Resize { len: 250 }];
    let short = shorten(&steps, |some| needed.iter().all(|step| some.contains(step)));
    assert_eq!(short, needed);
}

/// Panics at a tick with a second list for two.
struct Panicking;

impl Controller for Panicking {
    fn open(&mut self, table: &mut [i64], rate: i64, depth: i64) -> Answer<i64> {
        Engine.open(table, rate, depth)
    }
    fn join(&mut self, table: &mut [i64], new: &NewNode) -> Answer<i64> {
        Engine.join(table, new)
    }
    fn leave(&mut self, table: &mut [i64], node: i64) -> Answer<i64> {
        Engine.leave(table, node)
    }
    fn change_share(&mut self, table: &mut [i64], node: i64, kind: i64, share: i64) -> Answer<i64> {
        Engine.change_share(table, node, kind, share)
    }
    fn change_rate(&mut self, table: &mut [i64], rate: i64) -> Answer<i64> {
        Engine.change_rate(table, rate)
    }
    fn request(&mut self, table: &mut [i64], client: i64, tag: i64, size: i64) -> Answer<i64> {
        Engine.request(table, client, tag, size)
    }
    fn tick(&mut self, table: &mut [i64], lists: Lists) -> Answer<Counts> {
        if lists[1].len() == 8 {
            std::panic::resume_unwind(Box::new("a panic without a message"));
        }
        Engine.tick(table, lists)
    }
    fn look(&mut self, table: &[i64], node: i64) -> Answer<Seen> {
        Engine.look(table, node)
    }
    fn same(&mut self, first: &[i64], second: &[i64]) -> Answer<bool> {
        Engine.same(first, second)
    }
    fn plan_read(&mut self, plan: &[u8], table: &mut [i64]) -> Answer<i64> {
        Engine.plan_read(plan, table)
    }
    fn plan_write(&mut self, table: &[i64], edition: i64, buffer: &mut [u8]) -> Answer<i64> {
        Engine.plan_write(table, edition, buffer)
    }
    fn plan_check(&mut self, plan: &[u8]) -> i64 {
        Engine.plan_check(plan)
    }
    fn set_minute(
        &mut self,
        table: &mut [i64],
        plan: &[u8],
        windows: &[i64],
        minute: i64,
    ) -> Answer<i64> {
        Engine.set_minute(table, plan, windows, minute)
    }
}

#[test]
fn a_panic_is_a_difference() {
    let ticks = [[8, 4], [0, 8]].map(|list_lens| Call::Tick { list_lens });
    let calls = [steps(&[open(1000, 40)]), steps(&ticks)].concat();
    let found = first_difference(&mut Engine, &mut Panicking, &calls);
    assert_eq!(found.map(|(position, _)| position), Some(2));
    assert!(first_difference(&mut Panicking, &mut Panicking, &calls).is_some());
    let difference = differential(&mut Engine, &mut Panicking, 11, &calls).unwrap_err();
    assert_eq!(difference.steps, [Step::Call(Call::Tick { list_lens: [0, 8] })]);
    assert!(difference.to_string().contains("seed 11"));
}
