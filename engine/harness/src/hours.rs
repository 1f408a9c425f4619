//! Scenes of document 02's request (h): what a window covers, every cause of set minute by itself and in every set of causes,
//! every clause of 17, limits, shares that fit at all minutes but one, tables that differ from the plan where they may, plans
//! of both editions, lists and tables of every length, long timetables, damaged tables, and random timetables for trees of
//! a known shape. All but the last have answers worked by hand.

use hds_engine::damage;
use hds_engine::order::CLAUSES;
use hds_engine::plan::{Edition, Plan};
use hds_engine::random::Rng;
use hds_engine::steps::{Call, Reply, Step, World};
use hds_engine::table::*;
use hds_engine::timetables::{self, Taste};
use hds_engine::{Engine, NewNode};

use crate::editions::{answered, ONE_CLIENT, ONE_CLIENT_SECOND};
use crate::renewals::made;
use crate::scenes::*;
use crate::stated::{accepted, checked, refused, Told};
use crate::trees;

/// A window: node, start, end, share.
type Window = [i64; 4];

/// All scenes of timetables.
pub(crate) fn all() -> Vec<Scene> {
    let by_hand = [
        ("what a window covers", covered()),
        ("windows that touch", touching()),
        ("the ends of the week", ends_of_week()),
        ("kinds and shares of the plan", of_the_plan()),
        ("every set of causes", sets_of_causes()),
        ("causes of the plan", causes_of_plan()),
        ("tables that differ from the plan", differing()),
        ("lists that are not whole windows", not_whole()),
        ("bad minutes", bad_minutes()),
        ("nodes of windows", nodes()),
        ("overlaps", overlaps()),
        ("limits of the minute", limits_of_minute()),
        ("limits of shares", limits_of_shares()),
        ("limits by the plan's kinds", limits_by_plan()),
        ("fixed shares through the week", fixed_through_the_week()),
        ("stated rates through the week", stated_through_the_week()),
        ("7 before 16 whatever the minutes", seven_before_sixteen()),
        ("what may differ from the plan", may_differ()),
        ("what stays", what_stays()),
        ("editions", editions()),
        ("lengths of tables", lengths_of_tables()),
        ("damaged tables", damaged()),
        ("long timetables", long()),
    ];
    let by_hand = by_hand.map(|(name, told)| (format!("timetables, {name}"), checked(name, told)));
    let mut scenes = by_hand.to_vec();
    scenes.push(("timetables, every argument at every limit".into(), arguments()));
    scenes.extend(random());
    scenes
}

/// A set minute with a plan of the second edition.
fn set(plan: &Plan, windows: &[Window], minute: i64) -> Step {
    set_minute(&plan.encode(Edition::Second), &windows.concat(), minute)
}

/// Looks at nodes without balances: their numbers, rates and lost grains.
fn rates<const N: usize>(seen: [(i64, i64, i64); N]) -> Vec<Told> {
    let look_at = |(node, rate, lost)| (look(node), Reply::Look([rate, 0, 0, lost]));
    seen.map(look_at).to_vec()
}

fn new(node: i64, parent: i64, sort: i64, kind: i64, share: i64, depth: i64) -> NewNode {
    NewNode { node, parent, sort, kind, share, depth, port: 0 }
}

/// A disk of 1000 with 500 stated by clients 4 and 5. Of the other 500 class 1 has 200, client 6 has 250, and 50 are left for
/// class 7. Of class 1's 200 client 2 has 120, and 80 are left for client 3. So class 1 may have up to 5000, client 6 up to
/// 6000, client 2 up to 10,000, client 4 up to 800 and client 5 up to 700.
fn suites() -> Plan {
    let nodes = vec![
        new(1, 0, CLASS, FIXED, 4000, 50),
        new(4, 0, CLIENT, STATED, 300, 10),
        new(5, 0, CLIENT, STATED, 200, 10),
        new(6, 0, CLIENT, FIXED, 5000, 10),
        new(7, 0, CLASS, WEIGHTED, 2, 10),
        new(2, 1, CLIENT, FIXED, 6000, 20),
        new(3, 1, CLIENT, WEIGHTED, 3, 10),
    ];
    Plan { rate: 1000, depth: 100, nodes }
}

/// The rates of that plan.
fn planned_rates() -> Vec<Told> {
    rates([
        (0, 1000, 0),
        (1, 200, 0),
        (2, 120, 0),
        (3, 80, 0),
        (4, 300, 0),
        (5, 200, 0),
        (6, 250, 0),
        (7, 50, 50),
    ])
}

/// An open and joins that make the tree of a plan.
fn joined(plan: &Plan) -> Vec<Told> {
    let joins = plan.nodes.iter().map(|new| Step::Call(Call::Join(*new)));
    accepted(std::iter::once(open(plan.rate, plan.depth)).chain(joins))
}

/// The plan with a node changed by the function.
fn with(plan: &Plan, node: i64, change: impl Fn(&mut NewNode)) -> Plan {
    let mut plan = plan.clone();
    plan.nodes.iter_mut().filter(|new| new.node == node).for_each(change);
    plan
}

/// Each step with the answer of a number, 0 for an accepted one.
fn told(number: i64, step: Step) -> Vec<Told> {
    match number {
        0 => accepted([step]),
        number => refused(number, [step]),
    }
}

/// Client 6 has 6000 from minute 100 up to but not at 200: 300, and nothing is left for class 7.
fn covered() -> Vec<Told> {
    let plan = suites();
    let mut all = joined(&plan);
    all.extend(planned_rates());
    for minute in [0, 99, 100, 101, 150, 198, 199, 200, 201, 10_079, 100, 0] {
        all.extend(accepted([set(&plan, &[[6, 100, 200, 6000]], minute)]));
        all.extend(match (100..200).contains(&minute) {
            true => rates([(0, 1000, 0), (1, 200, 0), (6, 300, 0), (7, 0, 0)]),
            false => planned_rates(),
        });
    }
    all
}

/// Client 6 has 1 up to minute 100, 6000 up to 200 and 1000 up to 300. Of 500 it has 0, 300 and 50; what the fixed shares leave
/// is 299, 0 and 250. The windows stand in any order, and there are others of other nodes at the same minutes.
fn touching() -> Vec<Told> {
    let plan = suites();
    let own = [[6, 0, 100, 1], [6, 100, 200, 6000], [6, 200, 300, 1000]];
    let beside = [[3, 0, 100, 7], [3, 100, 200, 8], [2, 50, 250, 6000]];
    let mut all = joined(&plan);
    for order in [[0, 1, 2], [2, 1, 0], [1, 0, 2], [2, 0, 1]] {
        let mut windows = order.map(|index| own[index]).to_vec();
        windows.extend(beside);
        windows.rotate_left(order[0]);
        for (minute, six, seven) in [
            (0, 0, 299),
            (99, 0, 299),
            (100, 300, 0),
            (199, 300, 0),
            (200, 50, 250),
            (299, 50, 250),
            (300, 250, 50),
        ] {
            all.extend(accepted([set(&plan, &windows, minute)]));
            let lost = 1000 - 500 - 200 - six - seven;
            all.extend(rates([(0, 1000, lost), (6, six, 0), (7, seven, seven), (3, 80, 0)]));
        }
    }
    all
}

/// A window of the first minute, of the last one, of all of the week, and none at all.
fn ends_of_week() -> Vec<Told> {
    let plan = suites();
    let mut all = joined(&plan);
    for (window, minutes) in [
        ([6, 0, 1, 1000], [(0, true), (1, false), (10_079, false)]),
        ([6, 10_079, 10_080, 1000], [(10_079, true), (10_078, false), (0, false)]),
        ([6, 0, 10_080, 1000], [(0, true), (5000, true), (10_079, true)]),
        ([6, 0, 10_079, 1000], [(10_079, false), (10_078, true), (0, true)]),
        ([6, 1, 10_080, 1000], [(0, false), (1, true), (10_079, true)]),
    ] {
        for (minute, is_inside) in minutes {
            all.extend(accepted([set(&plan, &[window], minute)]));
            let (six, seven) = if is_inside { (50, 250) } else { (250, 50) };
            all.extend(rates([(6, six, 0), (7, seven, seven)]));
            all.extend(accepted([set(&plan, &[], minute)]));
            all.extend(planned_rates());
        }
    }
    all
}

/// Kinds are the plan's inside and outside of windows: client 4 has a weight of 2 in this plan, and class 7 states 100. Of 700
/// class 1 has 280 and client 6 350, and 70 are left for client 4. In its window it has a weight of 9, which is all the
/// same, and class 7 states 300 in its own: of 500 200 and 250, and 50 are left.
fn of_the_plan() -> Vec<Told> {
    let plan = with(&suites(), 4, |new| (new.kind, new.share) = (WEIGHTED, 2));
    let plan = with(&plan, 7, |new| (new.kind, new.share) = (STATED, 100));
    let outside = rates([(1, 280, 0), (2, 168, 0), (3, 112, 0), (4, 70, 0), (6, 350, 0)]);
    let inside = rates([(1, 200, 0), (2, 120, 0), (3, 80, 0), (4, 50, 0), (6, 250, 0)]);
    let windows = [[4, 0, 50, 9], [7, 10, 20, 300]];
    let mut all = joined(&suites());
    for (minute, seen, seven) in [
        (0, &outside, 100),
        (10, &inside, 300),
        (19, &inside, 300),
        (20, &outside, 100),
        (50, &outside, 100),
        (15, &inside, 300),
    ] {
        all.extend(accepted([set(&plan, &windows, minute)]));
        all.extend(seen.iter().cloned());
        all.extend(rates([(7, seven, seven)]));
    }
    // And back to the other plan.
    all.extend(accepted([set(&suites(), &[], 7)]));
    all.extend(planned_rates());
    all
}

/// The causes of a set minute in their order, each by itself and in every set with others: the first one is answered. The
/// windows that bring them about stand from the last cause to the first.
fn sets_of_causes() -> Vec<Told> {
    let numbers = [1, 2, 14, 17, 2, 7, 16];
    let plan = suites();
    let right = plan.encode(Edition::Second);
    let wrong = &right[..right.len() - 1];
    let mut all = joined(&plan);
    for set in 0..1 << numbers.len() {
        let holds = |cause: usize| set >> cause & 1 == 1;
        let mut windows: Vec<Window> = vec![[6, 0, 10, 6000]];
        for (cause, window) in
            [(6, [4, 50, 51, 801]), (5, [1, 100, 101, 5001]), (4, [3, 0, 9, 0]), (3, [8, 0, 9, 1])]
        {
            windows.extend(holds(cause).then_some(window));
        }
        let minute = if holds(1) { 10_080 } else { 5 };
        let bytes = if holds(2) { wrong } else { &right };
        let damage: &[Step] = if holds(0) { &[poke(3, BALANCE, -1)] } else { &[] };
        let first = numbers.iter().enumerate().find(|&(cause, _)| holds(cause));
        let number = first.map_or(0, |(_, &number)| number);
        let call = set_minute(bytes, &windows.concat(), minute);
        all.extend(answered_in(damage, told(number, call)));
    }
    all
}

/// Calls with their answers on a table that was written from outside, which is put back afterwards.
fn answered_in(damage: &[Step], calls: Vec<Told>) -> Vec<Told> {
    // Of these steps only the calls have answers.
    let around = |step: &Step| (step.clone(), Reply::Number(0));
    let mut all = vec![around(&Step::Keep)];
    all.extend(damage.iter().map(around));
    all.extend(calls);
    all.push(around(&Step::Restore));
    all
}

/// The plan's own causes, each with a bad minute, which comes before it, and with bad windows, a bad share, and shares that are
/// too much, which come behind it. A plan of another tree that is refused gets its own cause too.
fn causes_of_plan() -> Vec<Told> {
    let right = suites();
    let bytes = right.encode(Edition::Second);
    let mut wrong_kind = bytes.clone();
    wrong_kind[13 + 4 * 7] = 6;
    let mut wrong_offset = bytes.clone();
    wrong_offset[15] += 1;
    let mut plans = vec![
        (14, Vec::new()),
        (14, bytes[1..].to_vec()),
        (14, bytes[4..].to_vec()),
        (14, [&bytes[..], &[0]].concat()),
        (14, wrong_kind),
        (14, wrong_offset),
        (14, right.encode(Edition::First)),
    ];
    let swapped = |one: usize, other: usize| {
        let mut plan = right.clone();
        plan.nodes.swap(one, other);
        plan
    };
    for (number, plan) in [
        (2, Plan { rate: 0, ..right.clone() }),
        (2, Plan { rate: MAX_RATE + 1, ..right.clone() }),
        (2, Plan { depth: 0, ..right.clone() }),
        (2, with(&right, 3, |new| new.share = 0)),
        (2, with(&right, 6, |new| new.share = 10_001)),
        (2, with(&right, 2, |new| new.node = 64)),
        (3, with(&right, 2, |new| new.parent = 9)),
        (4, with(&right, 3, |new| new.node = 2)),
        (5, with(&right, 3, |new| new.parent = 4)),
        (7, with(&right, 6, |new| new.share = 6001)),
        (8, with(&right, 3, |new| new.depth = 31)),
        (16, with(&right, 4, |new| new.share = 801)),
        (16, with(&right, 3, |new| (new.kind, new.share) = (STATED, 1))),
        (15, swapped(0, 1)),
        (15, swapped(5, 6)),
        // Out of order, and another disk.
        (15, Plan { rate: 1001, ..swapped(2, 3) }),
        (15, Plan { depth: 101, ..swapped(2, 3) }),
        (7, Plan { rate: 999, ..with(&right, 6, |new| new.share = 6001) }),
    ] {
        plans.push((number, plan.encode(Edition::Second)));
    }
    let mut all = joined(&right);
    let lists: [&[i64]; 7] = [
        &[],
        &[1, 2, 3],
        &[8, 0, 1, 1],
        &[6, 5, 5, 1],
        &[3, 0, 1, 0],
        &[1, 0, 1, 5001],
        &[4, 0, 1, 801],
    ];
    for (number, plan) in plans {
        for list in lists {
            all.extend(refused(number, [set_minute(&plan, list, 5)]));
            all.extend(refused(2, [-1, 10_080].map(|minute| set_minute(&plan, list, minute))));
        }
    }
    all.extend(planned_rates());
    all
}

/// The plan in one way after the other another tree's, also with no window at all, and with windows that would be refused.
fn differing() -> Vec<Told> {
    let right = suites();
    let without = |node: i64| {
        let mut plan = right.clone();
        plan.nodes.retain(|new| new.node != node);
        plan
    };
    let also = |new: NewNode| {
        let mut plan = right.clone();
        plan.nodes.push(new);
        plan
    };
    let plans = [
        Plan { rate: 1001, ..right.clone() },
        Plan { rate: 999, ..right.clone() },
        Plan { rate: MAX_RATE, ..right.clone() },
        Plan { depth: 101, ..right.clone() },
        Plan { depth: 99, ..right.clone() },
        with(&right, 3, |new| new.depth = 21),
        with(&right, 6, |new| new.depth = 9),
        with(&right, 1, |new| new.depth = 49),
        with(&right, 7, |new| new.sort = CLIENT),
        with(&right, 6, |new| new.sort = CLASS),
        with(&right, 3, |new| new.parent = 7),
        without(7),
        without(3),
        without(6),
        also(new(8, 1, CLIENT, WEIGHTED, 1, 1)),
        also(new(63, 7, CLASS, WEIGHTED, 1, 1)),
        // Client 8 in the place of client 3.
        with(&right, 3, |new| new.node = 8),
        Plan { nodes: Vec::new(), ..right.clone() },
    ];
    let moved = with(&right, 2, |new| new.parent = 7);
    let mut all = joined(&right);
    for plan in &plans {
        for windows in [&[][..], &[[6, 0, 9, 1]], &[[3, 0, 9, 0]], &[[1, 0, 9, 5001]]] {
            all.extend(refused(17, [set(plan, windows, 5)]));
        }
    }
    // Too deep for class 7: the plan's own.
    all.extend(refused(8, [set(&moved, &[], 5)]));
    all.extend(planned_rates());
    // The other way round: the plan stays, and the table is another.
    let table = |change: Step| answered_in(&[], [accepted([change]), seventeen()].concat());
    for change in [
        change_rate(1001),
        change_rate(999),
        client(8, 7, WEIGHTED, 1, 1),
        leave(7),
        leave(3),
        leave(2),
    ] {
        all.extend(table(change));
    }
    for change in [poke(3, DEPTH, 19), poke(6, DEPTH, 9), poke(0, DEPTH, 99)] {
        all.extend(answered_in(&[change], seventeen()));
    }
    for (node, depth) in [(7, 10), (6, 10)] {
        let back = if node == 7 {
            client(7, 0, WEIGHTED, 2, depth)
        } else {
            class(6, 0, FIXED, 5000, depth)
        };
        all.extend(answered_in(&[], [accepted([leave(node), back]), seventeen()].concat()));
    }
    let elsewhere = client(3, 0, WEIGHTED, 3, 10);
    all.extend(answered_in(&[], [accepted([leave(3), elsewhere]), seventeen()].concat()));
    all.extend(accepted([set(&right, &[], 5)]));
    all
}

/// The plan and no windows are refused, at any minute.
fn seventeen() -> Vec<Told> {
    refused(17, [0, 5, 10_079].map(|minute| set(&suites(), &[], minute)))
}

/// Every length of a list of three windows, which are good, and of ones of which the last is cut where it is bad.
fn not_whole() -> Vec<Told> {
    let plan = suites().encode(Edition::Second);
    let mut all = joined(&suites());
    for last in [[3, 0, 9, 5], [3, 0, 9, 0], [8, 0, 9, 1], [3, 9, 9, 1]] {
        let list = [[6, 100, 200, 6000], [6, 0, 100, 1], last].concat();
        for len in 0..=12 {
            let number = match (len, last) {
                (0 | 4 | 8, _) | (12, [3, 0, 9, 5]) => 0,
                (12, [3, 0, 9, 0]) => 2,
                _ => 17,
            };
            all.extend(told(number, set_minute(&plan, &list[..len], 150)));
        }
    }
    // A bad share in a list that is not whole windows.
    all.extend(refused(17, [set_minute(&plan, &[3, 0, 9, 0, 6], 5)]));
    all.extend(refused(17, [1, 2, 3, 5, 6, 7].map(|len| set_minute(&plan, &vec![0; len], 5))));
    all
}

/// Minutes of a window that are not 0 ≤ start < end ≤ 10,080, alone and behind or before good windows and bad shares.
fn bad_minutes() -> Vec<Told> {
    let plan = suites();
    let mut all = joined(&plan);
    for (start, end) in [
        (5, 5),
        (0, 0),
        (10_080, 10_080),
        (10_079, 10_079),
        (6, 5),
        (10_080, 0),
        (1, 0),
        (-1, 5),
        (-1, 0),
        (-1, -1),
        (-2, -1),
        (0, 10_081),
        (10_079, 10_081),
        (10_080, 10_081),
        (10_081, 10_082),
        (-1, 10_081),
        (i64::MIN, 5),
        (0, i64::MAX),
        (i64::MIN, i64::MAX),
        (i64::MAX, i64::MIN),
        (i64::MIN, i64::MIN),
        (i64::MAX, i64::MAX),
        (5, i64::MIN),
        (i64::MAX, 5),
        (0, 1 << 32),
        (1 << 32, (1 << 32) + 5),
    ] {
        let bad = [6, start, end, 1];
        let (good, wrong_share) = ([3, 0, 9, 5], [3, 9, 18, 0]);
        for windows in [
            &[bad][..],
            &[good, bad],
            &[bad, good],
            &[bad, wrong_share],
            &[wrong_share, good, bad],
            &[[6, start, end, 0]],
        ] {
            all.extend(refused(17, [set(&plan, windows, 5)]));
        }
    }
    for (start, end) in [(0, 1), (10_079, 10_080), (0, 10_080), (5, 6), (4999, 5000)] {
        all.extend(accepted([set(&plan, &[[6, start, end, 1]], 5)]));
    }
    all
}

/// Windows of every number: those of 1 to 7 are good, and that of the root and all others are not.
fn nodes() -> Vec<Told> {
    let plan = suites();
    let mut all = joined(&plan);
    for node in -2..=66 {
        let number = if (1..=7).contains(&node) { 0 } else { 17 };
        all.extend(told(number, set(&plan, &[[node, 0, 9, 1]], 5)));
        all.extend(told(number, set(&plan, &[[3, 0, 9, 5], [node, 9, 18, 1]], 5)));
        let number = if number == 0 { 2 } else { 17 };
        all.extend(told(number, set(&plan, &[[node, 0, 9, 0]], 5)));
    }
    for node in [i64::MIN, i64::MIN + 6, -7, 256 + 6, (1 << 32) + 6, (1 << 40) + 6, i64::MAX] {
        all.extend(refused(17, [set(&plan, &[[node, 0, 9, 1]], 5)]));
    }
    // The share that the root has.
    all.extend(refused(17, [set(&plan, &[[0, 0, 9, 10_000]], 5)]));
    all
}

/// Pairs of windows of one node, in both orders, next to each other and with others between them.
fn overlaps() -> Vec<Told> {
    let plan = suites();
    let mut all = joined(&plan);
    for (one, other, number) in [
        ((0, 10), (0, 10), 17),
        ((0, 10), (9, 20), 17),
        ((0, 10), (10, 20), 0),
        ((0, 10), (11, 20), 0),
        ((0, 10_080), (5000, 5001), 17),
        ((0, 10_080), (10_079, 10_080), 17),
        ((0, 10_080), (0, 1), 17),
        ((0, 10_079), (10_079, 10_080), 0),
        ((1, 10_080), (0, 1), 0),
        ((5, 8), (6, 7), 17),
        ((5, 8), (5, 6), 17),
        ((5, 8), (7, 8), 17),
        ((5, 6), (5, 6), 17),
        ((5, 6), (6, 7), 0),
    ] {
        let [one, other] = [one, other].map(|(start, end)| [6, start, end, 5000]);
        let between: [Window; 3] = [[3, 0, 10_080, 5], [2, 0, 7, 5], [2, 7, 9, 5]];
        for [one, other] in [[one, other], [other, one]] {
            let apart = [&[one][..], &between, &[other]].concat();
            let behind = [&between[..], &[one, other]].concat();
            for windows in [&[one, other][..], &apart, &behind] {
                all.extend(told(number, set(&plan, windows, 6)));
                // With a share that is refused, which comes behind it.
                let windows = [windows, &[[7, 0, 9, 0]]].concat();
                all.extend(told(if number == 0 { 2 } else { 17 }, set(&plan, &windows, 6)));
            }
        }
        // Of different nodes they may overlap.
        let of_another = [3, other[1], other[2], 5];
        all.extend(accepted([set(&plan, &[one, of_another], 6)]));
    }
    // Three, of which the first and the last overlap.
    let three = [[6, 0, 10, 1], [6, 20, 30, 1], [6, 5, 15, 1]];
    all.extend(refused(17, [set(&plan, &three, 6)]));
    all.extend(accepted([set(&plan, &[three[0], three[1], [6, 10, 20, 1]], 6)]));
    all
}

fn limits_of_minute() -> Vec<Told> {
    let plan = suites();
    let mut all = joined(&plan);
    for minute in [0, 1, 5039, 10_078, 10_079] {
        all.extend(accepted([set(&plan, &[[6, 0, 10_080, 1]], minute), set(&plan, &[], minute)]));
    }
    for minute in [-1, -10_080, 10_080, 10_081, 20_160, 1 << 32, (1 << 32) + 5, i64::MIN, i64::MAX]
    {
        all.extend(refused(2, [set(&plan, &[], minute), set(&plan, &[[6, 0, 9, 1]], minute)]));
    }
    all
}

/// The shares of a window of every node: 2 beyond the limits of its kind, 7 and 16 within them, at a minute far away.
fn limits_of_shares() -> Vec<Told> {
    let plan = suites();
    let mut all = joined(&plan);
    let outside = [i64::MIN, -1, 0];
    let fixed_or_weighted = [10_001, 65_537, MAX_RATE, MAX_RATE + 1, 1 << 32, i64::MAX];
    for (node, good, above, number) in [
        (1, &[1, 4999, 5000][..], &[5001, 9999, 10_000][..], 7),
        (2, &[1, 9999, 10_000], &[], 7),
        (3, &[1, 9999, 10_000], &[], 7),
        (4, &[1, 799, 800], &[801, 1000, 10_000, 10_001, MAX_RATE], 16),
        (5, &[1, 699, 700], &[701, 1000, 10_000, 10_001, MAX_RATE], 16),
        (6, &[1, 5999, 6000], &[6001, 9999, 10_000], 7),
        (7, &[1, 9999, 10_000], &[], 7),
    ] {
        let with = |share: i64| set(&plan, &[[node, 9000, 9001, share]], 5);
        all.extend(refused(2, outside.map(with)));
        all.extend(refused(number, above.iter().map(|&share| with(share))));
        all.extend(accepted(good.iter().map(|&share| with(share))));
        all.extend(match number {
            16 => refused(2, [MAX_RATE + 1, 1 << 32, i64::MAX].map(with)),
            _ => refused(2, fixed_or_weighted.map(with)),
        });
    }
    // On a larger disk a stated rate may be above 10,000.
    let plan = Plan { rate: 100_000, ..plan };
    all.extend(joined(&plan));
    all.extend(accepted([set(&plan, &[[4, 0, 9, 99_800]], 5)]));
    all.extend(rates([(4, 99_800, 0), (6, 0, 0), (0, 100_000, 0)]));
    all.extend(refused(16, [set(&plan, &[[4, 9, 18, 99_801]], 5)]));
    all.extend(accepted([set(&plan, &[[4, 0, 9, 10_001]], 9)]));
    all.extend(rates([(4, 300, 0)]));
    all
}

/// Where plan and table have different kinds for a node, the plan's has the limits.
fn limits_by_plan() -> Vec<Told> {
    let plan = Plan { rate: 100_000, ..suites() };
    let weighted = with(&plan, 4, |new| (new.kind, new.share) = (WEIGHTED, 1));
    let mut all = joined(&plan);
    let window = |share: i64| [[4, 0, 9, share]];
    all.extend(refused(
        2,
        [set(&weighted, &window(10_001), 5), set(&weighted, &window(99_800), 5)],
    ));
    all.extend(accepted([set(&weighted, &window(10_000), 5)]));
    // Client 4 of the table is weighted.
    all.extend(refused(16, [set(&plan, &window(99_801), 5)]));
    all.extend(accepted([set(&plan, &window(99_800), 5)]));
    all.extend(refused(2, [set(&weighted, &window(10_001), 50)]));
    all.extend(accepted([set(&weighted, &window(10_000), 50)]));
    all
}

/// A pair of windows of two nodes, the first of which has less. The second has all that this leaves, and fits at the first one's
/// minutes only.
fn relay(first: [i64; 2], second: [i64; 2], number: i64) -> Vec<Told> {
    let plan = with(&suites(), 3, |new| (new.kind, new.share) = (FIXED, 3000));
    let mut all = Vec::new();
    for (from, to, fits) in [
        (100, 200, true),
        (101, 199, true),
        (150, 151, true),
        (99, 200, false),
        (100, 201, false),
        (199, 201, false),
        (99, 101, false),
        (200, 300, false),
        (0, 100, false),
        (0, 10_080, false),
        (10_079, 10_080, false),
        (0, 1, false),
    ] {
        let less = [first[0], 100, 200, first[1]];
        let more = [second[0], from, to, second[1]];
        // Neither at the minute, nor at the start of a window, need it be too much.
        for minute in [0, 99, 100, 150, 199, 200, 5000, 10_079] {
            for windows in [[less, more], [more, less]] {
                let number = if fits { 0 } else { number };
                all.extend(told(number, set(&plan, &windows, minute)));
            }
        }
    }
    all
}

/// Client 6 has 1000 for a while, and class 1 may have 9000 then. In class 1 client 2 has 1, and client 3, with a fixed share
/// of 3000 in this plan, may have 9999.
fn fixed_through_the_week() -> Vec<Told> {
    let mut all = joined(&suites());
    all.extend(relay([6, 1000], [1, 9000], 7));
    all.extend(relay([2, 1], [3, 9999], 7));
    // Just too much inside.
    let plan = suites();
    all.extend(refused(7, [set(&plan, &[[6, 100, 200, 1000], [1, 100, 200, 9001]], 0)]));
    // Each alone would be too much or not, and together the other way.
    let both = [[6, 100, 200, 5500], [1, 150, 160, 4600]];
    all.extend(refused(7, [set(&plan, &both, 0), set(&plan, &both, 155)]));
    all.extend(accepted([set(&plan, &both[..1], 0), set(&plan, &both[1..], 0)]));
    // Two windows end where the plan's shares come back while another one's has risen.
    let handed = [[6, 0, 100, 1000], [1, 50, 150, 6000]];
    all.extend(refused(7, [set(&plan, &handed, 0), set(&plan, &handed, 75)]));
    all.extend(accepted([set(&plan, &[[6, 0, 150, 1000], [1, 50, 150, 6000]], 75)]));
    all.extend(rates([(1, 300, 0), (6, 50, 0), (7, 150, 150)]));
    all
}

/// Client 4 has 100 for a while, and client 5 may have 900 then.
fn stated_through_the_week() -> Vec<Told> {
    let mut all = joined(&suites());
    all.extend(relay([4, 100], [5, 900], 16));
    let plan = suites();
    let inside = |share: i64| [[4, 100, 200, 100], [5, 100, 200, share]];
    all.extend(refused(16, [set(&plan, &inside(901), 0)]));
    all.extend(accepted([set(&plan, &inside(900), 150)]));
    // All of the disk's rate is stated.
    all.extend(rates([(4, 100, 0), (5, 900, 0), (1, 0, 0), (6, 0, 0), (7, 0, 0)]));
    all.extend(accepted([set(&plan, &inside(899), 150)]));
    all.extend(rates([(5, 899, 0), (1, 0, 0), (6, 0, 0), (7, 0, 0), (0, 1000, 1)]));
    all
}

/// 7 and 16 at minutes in every order, and bad shares before both.
fn seven_before_sixteen() -> Vec<Told> {
    let plan = suites();
    let mut all = joined(&plan);
    for (fixed, stated) in [((100, 200), (0, 50)), ((0, 50), (100, 200)), ((0, 50), (0, 50))] {
        let fixed = [1, fixed.0, fixed.1, 5001];
        let stated = [4, stated.0, stated.1, 801];
        for minute in [0, 75, 150, 10_079] {
            for windows in [[fixed, stated], [stated, fixed]] {
                all.extend(refused(7, [set(&plan, &windows, minute)]));
                let with_share = [&windows[..], &[[3, 0, 9, 0]]].concat();
                all.extend(refused(2, [set(&plan, &with_share, minute)]));
                let with_node = [&with_share[..], &[[8, 0, 9, 1]]].concat();
                all.extend(refused(17, [set(&plan, &with_node, minute)]));
            }
            all.extend(refused(16, [set(&plan, &[stated], minute)]));
            all.extend(refused(7, [set(&plan, &[fixed], minute)]));
        }
    }
    all
}

/// Kinds, shares, ports, balances and requests that wait differ from what the plan makes, and the calls are accepted.
fn may_differ() -> Vec<Told> {
    let plan = suites();
    let mut all = joined(&plan);
    for change in [
        change_share(1, WEIGHTED, 9),
        change_share(4, FIXED, 1),
        change_share(5, WEIGHTED, 10_000),
        change_share(7, STATED, 500),
        change_share(2, WEIGHTED, 1),
        change_share(3, FIXED, 4000),
    ] {
        all.extend(accepted([change, set(&plan, &[], 5)]));
        all.extend(planned_rates());
    }
    let on_second = [
        leave(6),
        on_port(1, client(6, 0, FIXED, 1, 10)),
        leave(2),
        on_port(1, client(2, 1, FIXED, 1, 20)),
    ];
    all.extend(accepted(on_second));
    all.extend(accepted([set(&plan, &[[6, 0, 9, 6000]], 5), set(&plan, &[], 5)]));
    all.extend(planned_rates());
    all
}

/// Balances, requests and ports stay: after two ticks with requests that are too large for them, which go to both lists later.
fn what_stays() -> Vec<Told> {
    let plan = suites();
    let mut all = joined(&plan);
    let counts = |first, second, lens: (usize, usize)| {
        vec![(tick_of(lens.0, lens.1), Reply::Counts([first, second]))]
    };
    all.extend(accepted([leave(6), on_port(1, client(6, 0, FIXED, 5000, 10))]));
    all.extend(answered(1, [request(2, 70, 1)]));
    all.extend(answered(2, [request(6, 71, 1)]));
    all.extend([counts(0, 0, (4, 4)), counts(0, 0, (4, 4))].concat());
    // Two ticks of 1000, 120 and 250 grains.
    let seen = |two: i64, six: i64| {
        vec![
            (look(0), Reply::Look([1000, 2000, 0, 0])),
            (look(2), Reply::Look([two, 240, 1, 0])),
            (look(6), Reply::Look([six, 500, 1, 0])),
        ]
    };
    all.extend(seen(120, 250));
    all.extend(accepted([set(&plan, &[[6, 10, 20, 6000], [2, 10, 20, 10_000]], 15)]));
    all.extend(seen(200, 300));
    all.extend(refused(13, [tick_of(4, 0), tick_of(0, 4)]));
    all.extend(refused(7, [set(&plan, &[[6, 10, 20, 6001]], 5)]));
    all.extend(seen(200, 300));
    all.extend(accepted([set(&plan, &[[6, 10, 20, 6000], [2, 10, 20, 10_000]], 20)]));
    all.extend(seen(120, 250));
    // The root has 8000 after six ticks more, and pays for client 6, which is one step below it. Client 2 is two.
    for _ in 0..5 {
        all.extend(counts(0, 0, (4, 4)));
        all.extend(accepted([set(&plan, &[], 0)]));
    }
    all.extend(counts(0, 1, (4, 4)));
    all
}

/// A tree without stated nodes in both editions, and document 01's plan.
fn editions() -> Vec<Told> {
    let plan = with(&suites(), 4, |new| (new.kind, new.share) = (WEIGHTED, 1));
    let plan = with(&plan, 5, |new| (new.kind, new.share) = (WEIGHTED, 7));
    let mut all = joined(&suites());
    for edition in [Edition::First, Edition::Second, Edition::First] {
        let bytes = plan.encode(edition);
        let list = [6, 0, 9, 6000];
        all.extend(accepted([set_minute(&bytes, &[], 5), set_minute(&bytes, &list, 5)]));
        // 400, 600 and nothing is left; then 400, 500 and 100, of which a tenth, 7 tenths and 2 tenths.
        all.extend(rates([(1, 400, 0), (6, 600, 0), (4, 0, 0), (5, 0, 0), (7, 0, 0)]));
        all.extend(accepted([set_minute(&bytes, &list, 9)]));
        all.extend(rates([(1, 400, 0), (6, 500, 0), (4, 10, 0), (5, 70, 0), (7, 20, 20)]));
        all.extend(refused(2, [set_minute(&bytes, &[4, 0, 9, 10_001], 5)]));
        all.extend(refused(7, [set_minute(&bytes, &[6, 0, 9, 6001], 5)]));
        all.extend(refused(14, [set_minute(&bytes[..bytes.len() - 1], &[], 5)]));
    }
    for bytes in [&ONE_CLIENT[..], &ONE_CLIENT_SECOND] {
        all.extend(accepted([open(1000, 40), client(5, 0, FIXED, 1, 16)]));
        all.extend(rates([(5, 0, 0)]));
        all.extend(accepted([set_minute(bytes, &[5, 0, 9, 10_000], 5)]));
        all.extend(rates([(5, 1000, 0)]));
    }
    all
}

/// Tables of other lengths are refused with 1, whatever else holds.
fn lengths_of_tables() -> Vec<Told> {
    let plan = suites().encode(Edition::Second);
    let mut all = joined(&suites());
    for len in [0, 1, 7, 8, 48, TABLE_LEN - 1, TABLE_LEN + 1, TABLE_LEN + RECORD_LEN, 2 * TABLE_LEN]
    {
        let calls = [
            set_minute(&plan, &[6, 0, 9, 1], 5),
            set_minute(&plan, &[], 10_080),
            set_minute(&[], &[], 5),
            set_minute(&plan, &[1, 2, 3], 5),
            set_minute(&plan, &[3, 0, 9, 0], 5),
            set_minute(&plan, &[1, 0, 9, 5001], 5),
            set_minute(&[], &[0; 5], i64::MIN),
        ];
        all.extend(answered_in(&[Step::Resize { len }], refused(1, calls)));
    }
    all
}

/// Each clause of "in order" broken alone: 1, whatever else holds.
fn damaged() -> Vec<Told> {
    let plan = suites();
    let mut all = joined(&plan);
    all.extend(answered(1, [request(2, 7, 16)]));
    all.extend(answered(2, [request(3, 7, 1)]));
    all.extend(answered(3, [request(2, 7, 9)]));
    let mut world = World::default();
    for (step, _) in &all {
        world.run(&mut Engine, step);
    }
    let mut rng = Rng::new(17);
    let mut reached = 0;
    for clause in 0..CLAUSES.len() {
        for _ in 0..4 {
            if let Some(damage) = damage::isolated(&mut rng, world.table.inner(), clause) {
                let calls = [
                    set(&plan, &[[6, 0, 9, 1]], 5),
                    set(&plan, &[], 10_080),
                    set_minute(&[], &[], 5),
                    set(&plan, &[[8, 0, 9, 1]], 5),
                    set(&plan, &[[3, 0, 9, 0]], 5),
                    set(&plan, &[[1, 0, 9, 5001]], 5),
                    set(&plan, &[[4, 0, 9, 801]], 5),
                ];
                all.extend(answered_in(&damage, refused(1, calls)));
                reached |= 1_u64 << clause;
            }
        }
    }
    // No node stands on level 4, where a class would be too low.
    assert_eq!(reached.count_ones() as usize, CLAUSES.len() - 1, "{reached:b}");
    all.extend(accepted([set(&plan, &[[6, 0, 9, 1]], 5)]));
    all
}

/// A window for each minute of the week, of one node and of two by turns; one of them is too much, or two of them overlap.
fn long() -> Vec<Told> {
    let plan = suites();
    let mut all = joined(&plan);
    let every: Vec<Window> =
        (0..10_080).map(|start| [6, start, start + 1, 1 + start % 6000]).collect();
    // Ten thousandths of 500, and what they leave.
    for (minute, six, seven) in [(0, 0, 299), (5999, 300, 0), (6000, 0, 299), (10_079, 204, 96)] {
        all.extend(accepted([set(&plan, &every, minute)]));
        all.extend(rates([(6, six, 0), (7, seven, seven)]));
    }
    for (place, window, number) in [
        (7777, [6, 7777, 7778, 6001], 7),
        (7777, [6, 7777, 7779, 1], 17),
        (0, [6, 10_079, 10_080, 1], 17),
        (10_079, [6, 0, 1, 1], 17),
        (7777, [6, 7777, 7778, 0], 2),
        (7777, [7, 7777, 7778, 1], 0),
        (7777, [1, 7777, 7778, 5000], 0),
    ] {
        let mut windows = every.clone();
        windows[place] = window;
        all.extend(told(number, set(&plan, &windows, 5)));
    }
    let turns: Vec<Window> = (0..5040)
        .flat_map(|pair| [[6, 2 * pair, 2 * pair + 1, 1000], [1, 2 * pair, 2 * pair + 1, 9000]])
        .collect();
    all.extend(accepted([set(&plan, &turns, 10_078)]));
    all.extend(rates([(1, 450, 0), (6, 50, 0), (7, 0, 0)]));
    let mut later = turns.clone();
    later[5041] = [1, 5041, 5042, 9000];
    all.extend(refused(7, [set(&plan, &later, 10_078)]));
    let mut reversed = turns;
    reversed.reverse();
    all.extend(accepted([set(&plan, &reversed, 10_079)]));
    all.extend(planned_rates());
    all
}

/// Each number of a window and the minute at and beyond many limits, the others sound.
fn arguments() -> Vec<Step> {
    let plan = suites();
    let mut steps: Vec<Step> = joined(&plan).into_iter().map(|(step, _)| step).collect();
    for low in [0, 1, 8, 63, 64, 256, 5000, 6000, 10_000, 10_080, 65_536, 1 << 32, MAX_RATE] {
        for value in [low - 1, low, low + 1, -low, i64::MIN + low, i64::MAX - low] {
            for node in [1, 3, 4, 6] {
                steps.extend([
                    set(&plan, &[[node, 0, 9, 1]], value),
                    set(&plan, &[[value, 0, 9, 1]], 5),
                    set(&plan, &[[node, value, 10_080, 1]], 9999),
                    set(&plan, &[[node, 0, value, 1]], 5),
                    set(&plan, &[[node, 0, 9, value]], 5),
                    set(&plan, &[[node, value, value, 1]], 5),
                    set(&plan, &[[node, value, value.wrapping_add(1), 1]], 5),
                    look(node),
                ]);
            }
        }
    }
    steps
}

/// Trees of a known shape, each with random timetables for it, right ones and wrong ones, one behind the other.
fn random() -> Vec<Scene> {
    let taste = Taste {
        most: MAX_SHARE,
        parts: 1,
        wrong: 50,
        other_minutes: 0,
        any_windows: 3,
        any_plans: 3,
    };
    let mut scenes = Vec::new();
    for rate in [7, 1000, 999_983, MAX_RATE] {
        for (name, table) in [
            ("a deep tree", trees::deep(rate)),
            ("desks", trees::desks(rate)),
            ("all stated", trees::all_stated(rate)),
            ("63 nodes", trees::large(rate)),
            ("63 weights", trees::heavy(rate, 63)),
            ("fixed 10,000", trees::whole(rate)),
        ] {
            let mut rng = Rng::new(rate as u64);
            let table = trees::with_ports(&table, |client| client % 2);
            let mut steps = made(&table);
            steps.extend([tick_of(0, 0), tick_of(0, 0)]);
            for turn in 0..60 {
                steps.push(Step::Call(timetables::any(&mut rng, &table, &taste)));
                steps.push(look(turn % 8));
            }
            scenes.push((format!("timetables, at random, {name} at {rate}"), steps));
        }
    }
    scenes
}
