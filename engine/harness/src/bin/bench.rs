//! How long the archive's calls take, over the second engine's and over one plain pass through the table: ratios of
//! medians, both engines on copies of the same tables. The last row is the program `load` of the repository's target/bin over
//! the second engine's, the ratio of the least times; above 1 or not measured, the bench fails. Then the archive's set minute
//! with so many windows over its own plan read; above its bounds, the bench fails too. `bench [rounds]`.

use std::fs;
use std::hint::black_box;
use std::io::Write;
use std::path::Path;
use std::process::{Command, ExitCode, Stdio};
use std::time::Instant;

use harness::{trees, Cabinet};
use hds_engine::hours::WEEK;
use hds_engine::loads;
use hds_engine::plan::{Edition, Plan};
use hds_engine::random::Rng;
use hds_engine::table::{
    at, classes, get, waiting_in_all, BALANCE, CLIENT, DEPTH, NODES, PARENT, ROOT, WEIGHTED,
};
use hds_engine::{Controller, Engine, Lists, NewNode};

/// Copies of a table that are used in turn within a round; they fit into the second cache together.
const COPIES: usize = 16;
/// Calls of a round.
const CALLS: usize = 64;
/// Ticks of the load.
const LOAD_TICKS: u32 = 1_000_000;
/// How often each of the two programs runs the load.
const LOAD_TURNS: usize = 15;
/// The load's ratio at most.
const LOAD_BOUND: f64 = 1.00;
/// Windows of the set minutes that are timed beside plan read, and the calls of each in a round.
const WINDOWS: [(usize, usize); 4] = [(0, 16), (100, 16), (1000, 4), (10_000, 1)];

/// A call to be measured, on a table and the lists of a tick.
type Call = Box<dyn Fn(&mut dyn Controller, &mut [i64], Lists)>;

/// What is measured: its name, the table before it, the call.
type Case = (&'static str, Vec<i64>, Call);

fn main() -> ExitCode {
    let rounds = std::env::args().nth(1).and_then(|text| text.parse().ok()).unwrap_or(101);
    let plain = pass(rounds, one_by_one);
    println!("| call | ours / second engine | ours / plain pass |");
    println!("|---|---|---|");
    for (name, table, call) in cases() {
        let [ours, theirs] = measure(rounds, &table, &call);
        println!("| {name} | {:.2} | {:.1} |", ours / theirs, ours / plain);
    }
    let load = load_ratio();
    if let Ok(ratio) = load {
        println!("| program load, {LOAD_TICKS} ticks of examples/studio.plan | {ratio:.2} | |");
    }
    println!();
    println!("| set minute, 63 nodes | ours / our plan read | at most |");
    println!("|---|---|---|");
    let minutes = minute_ratios(rounds);
    for &(name, ratio, bound) in &minutes {
        let bound = bound.map_or(String::new(), |bound| format!("{bound:.0} "));
        println!("| {name} | {ratio:.2} | {bound}|");
    }
    let quick = pass(rounds, all_at_once);
    println!();
    println!("A plain pass adds the 2,568 numbers one by one; added several at a time it takes {:.2} of that.", quick / plain);
    let mut code = ExitCode::SUCCESS;
    match load {
        Ok(ratio) if ratio <= LOAD_BOUND => {}
        Ok(ratio) => {
            println!("The load is ABOVE its bound of {LOAD_BOUND:.2}: {ratio:.3}.");
            code = ExitCode::FAILURE;
        }
        Err(what) => {
            println!("The load was NOT measured: {what}.");
            code = ExitCode::FAILURE;
        }
    }
    for (name, ratio, bound) in minutes {
        if let Some(bound) = bound.filter(|&bound| ratio > bound) {
            println!("Set minute, {name}, is ABOVE its bound of {bound:.0}: {ratio:.3}.");
            code = ExitCode::FAILURE;
        }
    }
    code
}

fn cases() -> Vec<Case> {
    let mut cases: Vec<Case> = Vec::new();
    for (nodes, table) in
        [("three nodes", trees::small(1000)), ("63 nodes", trees::large(1_000_000))]
    {
        let name = |call: &str| -> &'static str { format!("{call}, {nodes}").leak() };
        let (client, class) = (trees::last_client(&table), trees::last_class(&table));
        cases.push((name("look at a client"), table.clone(), look_at(client)));
        cases.push((name("look at a class"), table.clone(), look_at(class)));
        cases.push((name("request"), table.clone(), Box::new(request)));
        let lowest =
            trees::lowest_class(&table).map(|class| ("a class of the lowest level", class));
        assert!(lowest.is_some() || nodes == "three nodes", "no class of the lowest level");
        for (place, class) in [("the root", 0)].into_iter().chain(lowest) {
            let join = join_and_leave(class);
            cases.push((name(&format!("join and leave under {place}")), table.clone(), join));
            let change = change_share(trees::last_client_of(&table, class));
            cases.push((name(&format!("change share under {place}")), table.clone(), change));
        }
        cases.push((name("tick, idle"), table.clone(), Box::new(tick)));
        for (waiting, each, most) in [("8 waiting", 8, 8), ("every queue full", 8, usize::MAX)] {
            for (what, size, balances) in [
                ("none may go", 300, empty as fn(&mut [i64])),
                ("all go", 1, full as fn(&mut [i64])),
                ("the root supplies all", 1, root_only as fn(&mut [i64])),
                ("each class supplies its own", 1, classes_only as fn(&mut [i64])),
            ] {
                let mut table = table.clone();
                if size == 300 {
                    assert!(Engine.change_rate(&mut table, 1).is_ok());
                }
                trees::fill(&mut table, each, most, size);
                balances(&mut table);
                check(what, &table);
                let both = trees::with_ports(&table, |client| client % 2);
                cases.push((name(&format!("tick, {waiting}, {what}")), table, Box::new(tick)));
                if waiting == "every queue full" {
                    let row = name(&format!("tick, {waiting}, {what}, on both ports"));
                    cases.push((row, both, Box::new(tick)));
                }
            }
        }
        let mut waiting = table.clone();
        trees::fill(&mut waiting, 8, usize::MAX, 300);
        cases.push((name("look, every queue full"), waiting.clone(), look_at(1)));
        for (numbers, number) in [
            ("numbers scattered", scattered as fn(i64) -> i64),
            ("numbers in steps of 4,093", stepped as fn(i64) -> i64),
        ] {
            let mut waiting = waiting.clone();
            trees::renumber(&mut waiting, number);
            cases.push((name(&format!("look, every queue full, {numbers}")), waiting, look_at(1)));
        }
        for (what, edition) in [("first", Edition::First), ("second", Edition::Second)] {
            let read = plan_read(&table, edition);
            cases.push((name(&format!("plan read, {what} edition")), table.clone(), read));
        }
        for (windows, count) in [("no windows", 0), ("100 windows", 100)] {
            let set = set_minute(&table, count);
            cases.push((name(&format!("set minute, {windows}")), table.clone(), set));
        }
    }
    cases
}

/// Sees that a tick of this table, whose clients are on port 0, does what the case says.
fn check(what: &str, table: &[i64]) {
    let waiting = waiting_in_all(table);
    let mut list = vec![-1; 4 * waiting];
    let counts = Engine.tick(&mut table.to_vec(), [&mut list, &mut []]).expect("a tick");
    let gone = counts[0] as usize;
    let from_root = list.chunks(4).filter(|entry| entry[3] == 0).count();
    let from_class = list.chunks(4).take(gone).filter(|entry| is_parent(table, entry)).count();
    let right = match what {
        "none may go" => gone == 0,
        "all go" => gone == waiting && from_root == 0,
        "each class supplies its own" => from_class == waiting,
        _ => from_root == waiting,
    };
    assert!(
        right,
        "{what}: {gone} of {waiting}, {from_root} from the root, {from_class} from the class"
    );
}

/// Whether the supplier of an entry is the parent of its client.
fn is_parent(table: &[i64], entry: &[i64]) -> bool {
    get(table, entry[0] as usize, PARENT) == entry[3]
}

fn look_at(node: i64) -> Call {
    Box::new(move |controller, table, _| assert!(controller.look(table, node).is_ok()))
}

fn request(controller: &mut dyn Controller, table: &mut [i64], _: Lists) {
    let client = trees::last_client(table);
    assert!(controller.request(table, client, 7, 1).is_ok());
}

fn join_and_leave(parent: i64) -> Call {
    let (node, sort, kind) = (63, CLIENT, WEIGHTED);
    let new = NewNode { node, parent, sort, kind, share: 5, depth: 1, port: 0 };
    Box::new(move |controller, table, _| {
        assert!(controller.join(table, &new).is_ok());
        assert!(controller.leave(table, 63).is_ok());
    })
}

fn change_share(node: i64) -> Call {
    Box::new(move |controller, table, _| {
        assert!(controller.change_share(table, node, WEIGHTED, 7).is_ok());
    })
}

fn tick(controller: &mut dyn Controller, table: &mut [i64], lists: Lists) {
    assert!(controller.tick(table, lists).is_ok());
}

/// Reads the plan of a table in an edition.
fn plan_read(table: &[i64], edition: Edition) -> Call {
    let plan = Plan::of_table(table).encode(edition);
    Box::new(move |controller, table, _| assert!(controller.plan_read(&plan, table).is_ok()))
}

/// Sets a minute with the plan of a table in the second edition and so many windows.
fn set_minute(table: &[i64], count: usize) -> Call {
    let plan = Plan::of_table(table).encode(Edition::Second);
    let windows = timetable(table, count);
    Box::new(move |controller, table, _| {
        assert!(controller.set_minute(table, &plan, &windows, WEEK / 2).is_ok());
    })
}

/// So many windows of all nodes by turns, in no order. Their shares are no more than the plan's.
fn timetable(table: &[i64], count: usize) -> Vec<i64> {
    let nodes = Plan::of_table(table).nodes;
    let slot = WEEK / count.div_ceil(nodes.len()).max(1) as i64;
    let half = (slot / 2).max(1);
    let turns = (0..).flat_map(|turn| nodes.iter().map(move |new| (turn, new)));
    let mut windows: Vec<[i64; 4]> = turns
        .take(count)
        .map(|(turn, new)| {
            let start = slot * turn + 7 * new.node % half;
            [new.node, start, start + half, 1 + turn % new.share]
        })
        .collect();
    let mut rng = Rng::new(1);
    for place in (1..count).rev() {
        windows.swap(place, rng.below(place + 1));
    }
    let windows = windows.concat();
    let plan = Plan::of_table(table).encode(Edition::Second);
    assert_eq!(
        Engine.set_minute(&mut table.to_vec(), &plan, &windows, 0),
        Ok(0),
        "{count} windows"
    );
    windows
}

fn empty(_: &mut [i64]) {}

/// Every balance at its depth.
fn full(table: &mut [i64]) {
    for node in 0..NODES {
        table[at(node, BALANCE)] = 1000 * get(table, node, DEPTH);
    }
}

/// The root's balance at its depth, and rates that give the others too little.
fn root_only(table: &mut [i64]) {
    assert!(Engine.change_rate(table, 1).is_ok());
    table[at(ROOT, BALANCE)] = 1000 * get(table, ROOT, DEPTH);
}

/// Every class's balance at its depth, and rates that give the clients too little.
fn classes_only(table: &mut [i64]) {
    assert!(Engine.change_rate(table, 1).is_ok());
    let classes: Vec<usize> = classes(table).collect();
    for class in classes {
        table[at(class, BALANCE)] = 1000 * get(table, class, DEPTH);
    }
}

/// Arrival numbers up to a million apart.
fn scattered(number: i64) -> i64 {
    1_000_000 * number + 7919 * number * number % 1_000_000
}

/// Arrival numbers that have one mark in the archive's test that all are different.
fn stepped(number: i64) -> i64 {
    4093 * number
}

/// The medians of the time of a call, the archive's and the second engine's, from rounds that take turns.
fn measure(rounds: usize, table: &[i64], call: &Call) -> [f64; 2] {
    let mut times = [Vec::new(), Vec::new()];
    let mut copies = vec![table.to_vec(); COPIES];
    let mut lists = [vec![0; 4 * 8 * 63], vec![0; 4 * 8 * 63]];
    for _ in 0..rounds {
        for which in [0, 1] {
            let controller: &mut dyn Controller =
                if which == 0 { &mut Cabinet } else { &mut Engine };
            let mut nanoseconds = 0;
            for _ in 0..CALLS / COPIES {
                for copy in &mut copies {
                    copy.copy_from_slice(table);
                }
                let began = Instant::now();
                for copy in &mut copies {
                    let lists = lists.each_mut().map(Vec::as_mut_slice);
                    call(controller, black_box(copy), black_box(lists));
                }
                nanoseconds += began.elapsed().as_nanos();
            }
            times[which].push(nanoseconds as f64 / CALLS as f64);
        }
    }
    times.map(median)
}

/// Names and ratios of the archive's set minutes on 63 nodes, the ratio at most where there is one.
fn minute_ratios(rounds: usize) -> [(&'static str, f64, Option<f64>); 5] {
    let table = trees::large(1_000_000);
    let read = plan_read(&table, Edition::Second);
    let calls = WINDOWS.map(|(count, calls)| (set_minute(&table, count), calls));
    let mut times = [(); 1 + WINDOWS.len()].map(|()| Vec::new());
    let mut copies = vec![table; COPIES];
    for _ in 0..rounds {
        times[0].push(time_of(&read, &mut copies));
        for (times, (call, count)) in times[1..].iter_mut().zip(&calls) {
            times.push(time_of(call, &mut copies[..*count]));
        }
    }
    let [read, none, hundred, thousand, most] = times.map(median);
    [
        ("no windows", none / read, None),
        ("100 windows", hundred / read, Some(10.0)),
        ("1,000 windows", thousand / read, None),
        ("10,000 windows", most / read, Some(150.0)),
        ("10,000 windows over 1,000", most / thousand, Some(10.0)),
    ]
}

/// The time of the archive's call on each of some tables, one after the other.
fn time_of(call: &Call, tables: &mut [Vec<i64>]) -> f64 {
    let began = Instant::now();
    for table in &mut *tables {
        call(&mut Cabinet, black_box(table), [&mut [], &mut []]);
    }
    began.elapsed().as_nanos() as f64 / tables.len() as f64
}

/// The least time of the program `load` over that of the second engine's, from turns, on seed 1 and the sample plan. Both
/// must print the same.
fn load_ratio() -> Result<f64, String> {
    let root = Path::new(env!("CARGO_MANIFEST_DIR")).join("../..");
    let names = ["target/bin/load", "engine/target/timed/load"];
    if let Some(name) = names.iter().find(|name| !root.join(name).is_file()) {
        return Err(format!("{name} is not there"));
    }
    let plan = fs::read(root.join("examples/studio.plan"))
        .map_err(|error| format!("examples/studio.plan: {error}"))?;
    let input = loads::input(1, LOAD_TICKS, &plan);
    let mut least = [f64::INFINITY; 2];
    let mut texts = [Vec::new(), Vec::new()];
    for _ in 0..LOAD_TURNS {
        for which in [0, 1] {
            let began = Instant::now();
            let text = output(&root.join(names[which]), &input)
                .map_err(|error| format!("{}: {error}", names[which]))?;
            least[which] = least[which].min(began.elapsed().as_secs_f64());
            texts[which] = text;
        }
    }
    if texts[0] != texts[1] {
        return Err("the two programs print different texts".into());
    }
    Ok(least[0] / least[1])
}

/// What a program prints of an input, read whole from a pipe.
fn output(program: &Path, input: &[u8]) -> std::io::Result<Vec<u8>> {
    let mut child = Command::new(program).stdin(Stdio::piped()).stdout(Stdio::piped()).spawn()?;
    if let Some(mut stdin) = child.stdin.take() {
        stdin.write_all(input)?;
    }
    let output = child.wait_with_output()?;
    if output.status.success() {
        Ok(output.stdout)
    } else {
        Err(std::io::Error::other("it failed"))
    }
}

/// The median of the time of one pass through a table.
fn pass(rounds: usize, sum: fn(&[i64]) -> i64) -> f64 {
    let copies = vec![trees::large(1_000_000); COPIES];
    let mut times = Vec::new();
    for _ in 0..rounds {
        let began = Instant::now();
        for copy in &copies {
            black_box(sum(black_box(copy)));
        }
        times.push(began.elapsed().as_nanos() as f64 / COPIES as f64);
    }
    median(times)
}

/// Looks for overflow at each number, so that the numbers are added in turn.
fn one_by_one(table: &[i64]) -> i64 {
    table.iter().sum()
}

fn all_at_once(table: &[i64]) -> i64 {
    table.iter().fold(0, |sum, number| sum.wrapping_add(*number))
}

fn median(mut times: Vec<f64>) -> f64 {
    times.sort_by(f64::total_cmp);
    times[times.len() / 2]
}
