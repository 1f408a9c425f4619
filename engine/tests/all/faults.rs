//! Controllers with faults: the judge or the differential objects to each.

use crate::support::*;
use hds_engine::differential::{differential, differential_runs, first_difference};
use hds_engine::faulty::{Fault, Faulty, Hours, Pick, Ports, Stated, FAULTS};
use hds_engine::judge::{watch, Promise, Violation};
use hds_engine::order::CLAUSES;
use hds_engine::plan::{Edition, Plan};
use hds_engine::random::{run, Profile};
use hds_engine::steps::{Call, Step};
use hds_engine::table::*;
use hds_engine::{Controller, Engine};

/// Faults that the judge must object to, with the promise that is broken.
pub const LOUD: [(Fault, Promise); 35] = [
    (Fault::CutsFirst, Promise::Client),
    (Fault::ChargesClient, Promise::Client),
    (Fault::SparesRoot, Promise::Disk),
    (Fault::TakesLarger, Promise::Disk),
    (Fault::WeighsWholeRate, Promise::Disk),
    (Fault::WeighsWholeRate, Promise::Class),
    (Fault::FullBucket, Promise::Disk),
    (Fault::ForgivesDebt, Promise::Disk),
    (Fault::ListsNothing, Promise::Client),
    (Fault::AllAtOnce, Promise::Disk),
    (Fault::NamesNobody, Promise::Disk),
    (Fault::OwnOnce, Promise::Client),
    // A cost too high starves the client, one too low lets the disk exceed.
    (Fault::WrongCost(7, 11), Promise::Client),
    (Fault::WrongCost(7, 12), Promise::Client),
    (Fault::WrongCost(8, 8), Promise::Disk),
    (Fault::WrongCost(63, 71), Promise::Client),
    (Fault::WrongCost(64, 68), Promise::Disk),
    (Fault::WrongCost(511, 527), Promise::Client),
    (Fault::WrongCost(512, 520), Promise::Disk),
    (Fault::WithoutFour, Promise::Disk),
    (Fault::ChargesSize, Promise::Disk),
    (Fault::ComparesSizeInStepTwo, Promise::Client),
    (Fault::ComparesSizeInStepFour, Promise::Client),
    (Fault::ListsCost, Promise::Disk),
    (Fault::RefusesBySize, Promise::Client),
    (Fault::CostWraps, Promise::Client),
    // Balances are cut before a client pays itself.
    (Fault::WrongPick(Pick::WithoutStepTwo), Promise::Client),
    // What nobody has left is given once more, or nobody gets what is stated.
    (Fault::WrongStated(Stated::NotTakenOff), Promise::Disk),
    (Fault::WrongStated(Stated::Kept), Promise::Client),
    // The second list has nothing, or has all twice, or nobody above the client pays for it.
    (Fault::WrongPorts(Ports::SecondZero), Promise::Client),
    (Fault::WrongPorts(Ports::SecondTwice), Promise::Disk),
    (Fault::WrongPorts(Ports::OwnBalances), Promise::Disk),
    // A client has not the rate that the call gives it, or another one keeps what it had.
    (Fault::WrongHours(Hours::RatesKept), Promise::Client),
    (Fault::WrongHours(Hours::StartExcluded), Promise::Client),
    (Fault::WrongHours(Hours::ShareKept), Promise::Disk),
];

/// A list of calls that brings a fault out.
pub fn scenario(fault: Fault) -> Vec<Step> {
    steps(&match fault {
        Fault::ChargesClient => sleeper_wakes(),
        Fault::WeighsWholeRate => weight_beside_the_whole(),
        Fault::FullBucket => comes_and_goes(),
        Fault::ForgivesDebt => class_in_debt_leaves(),
        Fault::SparesRoot | Fault::TakesLarger | Fault::AllAtOnce | Fault::NamesNobody => {
            one_client(1000, 12, 8, 14)
        }
        Fault::WrongCost(size, wrong) => wrong_cost(size, wrong),
        Fault::WithoutFour => wrong_cost(8, 8),
        Fault::ComparesSizeInStepTwo | Fault::ComparesSizeInStepFour => one_then_seven(),
        // They cost more than the depth.
        Fault::RefusesBySize => one_client(1000, 8, 8, 12),
        Fault::CostWraps => one_client(1000, 8, i64::MAX, 12),
        Fault::WrongStated(_) => weight_beside_a_stated_rate(),
        Fault::WrongPorts(_) => one_client_on(1, 28_000, 8, 1, 30),
        Fault::WrongHours(_) => almost_all_in_a_window(),
        _ => one_client(28_000, 8, 1, 12),
    })
}

/// One client that always asks for that size.
fn one_client(rate: i64, depth: i64, size: i64, ticks: usize) -> Vec<Call> {
    one_client_on(0, rate, depth, size, ticks)
}

fn one_client_on(port: i64, rate: i64, depth: i64, size: i64, ticks: usize) -> Vec<Call> {
    let join = Call::Join(on_port(port, client(1, 0, WEIGHTED, 1, depth)));
    let mut calls = vec![open(rate, depth), join];
    for _ in 0..ticks {
        calls.extend(vec![request(1, size); 8]);
        calls.push(tick());
    }
    calls
}

/// One client that always asks for that size, at a rate of seven at each tick
/// and a depth that either cost fits.
fn wrong_cost(size: i64, wrong: i64) -> Vec<Call> {
    let right = cost_of(size);
    one_client(7000 * right, right.max(wrong), size, 60)
}

/// A client of depth 8 asks for 1 and 7, which go at ticks 8 and 16. By its size
/// the first would go at tick 1, and leave the client with −7000 grains; it
/// would then wait eight ticks and more for the second.
fn one_then_seven() -> Vec<Call> {
    let mut calls = vec![open(1000, 8), Call::Join(client(1, 0, WEIGHTED, 1, 8))];
    calls.extend([request(1, 1), request(1, 7)]);
    calls.extend(vec![tick(); 16]);
    calls
}

/// Client 5 wakes and takes its own and the root's balance at once; then it
/// waits while 6 asks all the time.
fn sleeper_wakes() -> Vec<Call> {
    let mut calls = vec![open(1000, 40)];
    calls.extend([5, 6].map(|node| Call::Join(client(node, 0, WEIGHTED, 1, 16))));
    calls.extend(vec![tick(); 40]);
    // They cost 16, 16 and 8.
    calls.extend([12, 12, 1].map(|size| request(5, size)));
    calls.push(tick());
    calls.push(request(5, 12));
    for _ in 0..33 {
        calls.extend([request(6, 1), request(6, 1), tick()]);
    }
    calls
}

/// In a class, a weight beside a fixed share of 10,000; all ask all the time.
fn weight_beside_the_whole() -> Vec<Call> {
    let mut calls = vec![
        open(8000, 16),
        Call::Join(class(1, 0, FIXED, 10_000, 16)),
        Call::Join(client(2, 1, FIXED, 10_000, 8)),
        Call::Join(client(3, 1, WEIGHTED, 1, 8)),
    ];
    for _ in 0..15 {
        calls.extend([request(2, 1), request(3, 1), tick()]);
    }
    calls
}

/// Client 1 has the disk's whole rate stated, and client 2 a weight beside it; both ask
/// all the time, client 2 first.
fn weight_beside_a_stated_rate() -> Vec<Call> {
    let mut calls = vec![
        open(8000, 16),
        Call::Join(client(1, 0, STATED, 8000, 8)),
        Call::Join(client(2, 0, WEIGHTED, 1, 8)),
    ];
    for _ in 0..15 {
        calls.extend([request(2, 1), request(1, 1), tick()]);
    }
    calls
}

/// Client 1 has a weight beside client 2 with almost all, and then almost all in a window,
/// with client 2 next to nothing by the plan; both ask all the time, client 2 first.
fn almost_all_in_a_window() -> Vec<Call> {
    let nodes = vec![client(1, 0, FIXED, 1, 8), client(2, 0, FIXED, 1, 8)];
    let plan = Plan { rate: 8000, depth: 16, nodes }.encode(Edition::First);
    let mut calls = vec![
        open(8000, 16),
        Call::Join(client(1, 0, WEIGHTED, 1, 8)),
        Call::Join(client(2, 0, FIXED, 9999, 8)),
        Call::SetMinute { plan, windows: vec![1, 5, 9, 9999], minute: 5 },
    ];
    for _ in 0..15 {
        calls.extend([request(2, 1), request(1, 1), tick()]);
    }
    calls
}

/// A client comes, takes its depth and leaves, again and again.
fn comes_and_goes() -> Vec<Call> {
    let mut calls = vec![open(1, 12)];
    for _ in 0..8 {
        let join = Call::Join(client(1, 0, WEIGHTED, 1, 12));
        calls.extend([join, request(1, 8), tick(), Call::Leave { node: 1 }]);
    }
    calls
}

/// Clients 2 and 3 bring their class into debt, and all leave and come back.
fn class_in_debt_leaves() -> Vec<Call> {
    let mut calls = vec![open(8000, 16)];
    for _ in 0..12 {
        calls.push(Call::Join(class(1, 0, WEIGHTED, 1, 16)));
        calls.extend([2, 3].map(|node| Call::Join(client(node, 1, WEIGHTED, 1, 8))));
        calls.extend([request(3, 1), tick(), request(3, 1), tick(), request(3, 1), tick()]);
        calls.extend([request(2, 1), request(3, 1), tick()]);
        calls.extend([2, 3, 1].map(|node| Call::Leave { node }));
    }
    calls
}

#[test]
fn the_judge_is_loud_on_faults() {
    for (fault, promise) in LOUD {
        let steps = scenario(fault);
        let found = watch(&mut Faulty::new(fault), &steps);
        assert!(found.iter().any(|found| found.promise == promise), "{fault:?}: {found:?}");
        for found in found {
            assert!(found.stretch.end < steps.len());
            assert!(found.to_string().contains("in calls"));
        }
        assert_eq!(watch(&mut Engine, &steps), [], "{fault:?}");
        assert_eq!(watch(&mut Faulty::new(Fault::None), &steps), []);
    }
}

#[test]
fn all_at_once_breaks_the_other_promise_later() {
    let found = watch(&mut Faulty::new(Fault::AllAtOnce), &scenario(Fault::AllAtOnce));
    assert!(found.iter().any(|found| found.promise == Promise::Client));
}

#[test]
fn naming_nobody_breaks_the_disks_promise_alone() {
    // Eight requests of 12 tokens go at the tick after them, and the rate is
    // 1000: 95,000 grains above it, where five depths are 60,000.
    let found = watch(&mut Faulty::new(Fault::NamesNobody), &scenario(Fault::NamesNobody));
    let (promise, stretch) = (Promise::Disk, 9..10);
    assert_eq!(found, [Violation { promise, node: 0, stretch, grains: 95_000, bound: 60_000 }]);
    // No client waits after a tick and no class is ever charged, so it is the
    // disk in random runs too.
    let mut loud = 0;
    for seed in 0..20 {
        let found = watch(&mut Faulty::new(Fault::NamesNobody), &run(seed, 400, Profile::Clean));
        assert!(found.iter().all(|found| found.promise == Promise::Disk));
        loud += found.len();
    }
    assert!(loud > 0);
}

#[test]
fn the_differential_finds_every_fault() {
    let mut runs = [Profile::Wild, Profile::Clean].map(Runs::new);
    for fault in FAULTS {
        let runs = &mut runs[usize::from(!fault.needs_wild_runs())];
        assert!(runs.shows(fault, 60).is_some(), "{fault:?}");
    }
}

#[test]
fn few_runs_tell_every_wrong_pick_by_a_tick() {
    let mut runs = Runs::new(Profile::Family);
    for fault in FAULTS.into_iter().filter(|fault| matches!(fault, Fault::WrongPick(_))) {
        let found = runs.shows(fault, 12);
        assert!(matches!(found, Some(Step::Call(Call::Tick { .. }))), "{fault:?}: {found:?}");
    }
}

#[test]
fn every_loud_fault_differs_in_its_scenario() {
    for (fault, _) in LOUD {
        let steps = scenario(fault);
        let differs =
            |fault| first_difference(&mut Engine, &mut Faulty::new(fault), &steps).is_some();
        assert!(differs(fault), "{fault:?}");
        assert!(!differs(Fault::None), "{fault:?}");
    }
}

#[test]
fn a_waiting_size_of_the_depth_is_out_of_order() {
    // Client 5 has depth 16. A size of 12 costs 16, and 13 costs 17.
    let mut disk = Disk::open(1, 40);
    disk.join(client(5, 0, WEIGHTED, 1, 16)).unwrap();
    disk.request(5, 0, 12).unwrap();
    let mut by_size = Faulty::new(Fault::OrdersBySize);
    for (size, right, wrong) in [
        (12, Ok([1, 0, 1, 0]), Ok([1, 0, 1, 0])),
        (13, Err(1), Ok([1, 0, 1, 0])),
        (16, Err(1), Ok([1, 0, 1, 0])),
        (17, Err(1), Err(1)),
    ] {
        disk.poke(5, QUEUE + 1, size);
        assert_eq!(Engine.look(&disk.table, 5), right, "{size}");
        assert_eq!(by_size.look(&disk.table, 5), wrong, "{size}");
        assert_eq!(Faulty::new(Fault::None).look(&disk.table, 5), right, "{size}");
    }
}

#[test]
fn the_differential_finds_every_lacking_clause() {
    let mut runs = Runs::new(Profile::Wild);
    for (clause, (name, _)) in CLAUSES.iter().enumerate() {
        assert!(runs.shows(Fault::LacksClause(clause), 200).is_some(), "{name}");
    }
}

#[test]
fn without_a_fault_there_is_no_difference() {
    let faultless = &mut Faulty::new(Fault::None);
    for (profile, seeds) in [
        (Profile::Clean, 0..40),
        (Profile::Family, 0..20),
        (Profile::Tree, 0..20),
        (Profile::Wild, 0..20),
    ] {
        if let Err(difference) = differential_runs(&mut Engine, faultless, seeds, 400, profile) {
            panic!("{difference}");
        }
    }
}

#[test]
fn a_difference_comes_with_a_short_list_of_calls() {
    for (fault, most) in [
        (Fault::FullBucket, 2),
        (Fault::CutsFirst, 8),
        (Fault::KeepsRecord, 5),
        (Fault::InventsCount, 2),
        (Fault::WrongPorts(Ports::NotStored), 5),
        (Fault::WrongPorts(Ports::AllOnFirst), 10),
        (Fault::WrongHours(Hours::PlanIsSeventeen), 2),
    ] {
        let mut seeds = (0..60).map(|seed| (seed, run(seed, 400, Profile::Clean)));
        let difference = seeds.find_map(|(seed, steps)| {
            differential(&mut Engine, &mut Faulty::new(fault), seed, &steps).err()
        });
        let difference = difference.expect("a difference");
        assert!(difference.steps.len() <= most, "{fault:?}: {difference}");
        assert!(matches!(difference.steps[0], Step::Call(Call::Open { .. })));
        let again = first_difference(&mut Engine, &mut Faulty::new(fault), &difference.steps);
        assert_eq!(again.unwrap().0, difference.steps.len() - 1);
    }
}
