//! Scenes of document 02's request (e): changes of the tree under every class of a deep one, without stated nodes and with
//! them, and tables whose rates alone are wrong, which every call refuses. Where another rate is right by chance the calls
//! are accepted.

use hds_engine::plan::{Edition, Plan};
use hds_engine::rates::{renew_all, renew_below};
use hds_engine::steps::{Call, Step};
use hds_engine::table::*;
use hds_engine::NewNode;

use crate::scenes::*;
use crate::trees;

/// Changes of the tree, at some disk rates.
pub(crate) fn changes() -> Vec<Scene> {
    let mut scenes = Vec::new();
    for rate in [7, 1000, 999_983, MAX_RATE] {
        for (name, tree) in [("a deep tree", trees::deep(rate)), ("desks", trees::desks(rate))] {
            let name = format!("renewals, changes under every class of {name} at {rate}");
            scenes.push((name, changes_of(&tree)));
        }
    }
    scenes
}

/// Tables whose rates alone are wrong.
pub(crate) fn wrong_rates() -> Vec<Scene> {
    let mut scenes = Vec::new();
    for (name, tree) in shapes() {
        let lists = [
            ("one at a time", one_wrong(&tree), 2),
            ("below a class", subtrees(&tree), usize::MAX),
            ("another disk", other_disks(&tree), usize::MAX),
            ("other rules", other_rules(&tree), usize::MAX),
        ];
        for (what, lists, calls) in lists.into_iter().filter(|(_, lists, _)| !lists.is_empty()) {
            scenes.push((format!("wrong rates, {what}, {name}"), damaged(&tree, lists, calls)));
        }
    }
    scenes
}

/// The tables whose rates are made wrong.
fn shapes() -> Vec<(String, Vec<i64>)> {
    let mut tables = Vec::new();
    for rate in [1, 7, 1000, 999_983, MAX_RATE] {
        tables.push((format!("a deep tree at {rate}"), trees::deep(rate)));
    }
    for rate in [7, 1000, 999_983, MAX_RATE] {
        tables.push((format!("desks at {rate}"), trees::desks(rate)));
        tables.push((format!("all stated at {rate}"), trees::all_stated(rate)));
    }
    for rate in [1, 62, 1000, MAX_RATE] {
        tables.push((format!("62 weights of 10,000 in a class at {rate}"), trees::heavy(rate, 62)));
        tables.push((format!("63 weights of 10,000 at {rate}"), trees::heavy(rate, 63)));
        tables.push((format!("weights beside fixed 10,000 at {rate}"), trees::whole(rate)));
    }
    tables
}

/// An open and joins, which make the table from any other.
pub(crate) fn made(table: &[i64]) -> Vec<Step> {
    let Plan { rate, depth, nodes } = Plan::of_table(table);
    let on_its_port = |new: NewNode| NewNode { port: get(table, new.node as usize, PORT), ..new };
    let joins = nodes.into_iter().map(|new| Step::Call(Call::Join(on_its_port(new))));
    std::iter::once(open(rate, depth)).chain(joins).collect()
}

/// Looks at every node of the table and at the nodes that the scenes join.
pub(crate) fn looks_at(table: &[i64]) -> Vec<Step> {
    used_nodes(table).chain([61, 62, 63]).map(|node| look(node as i64)).collect()
}

/// Under every class: joins of both sorts and all kinds, every child with other shares of all kinds, and every child that
/// may leave, which comes back. After each change all nodes are looked at.
fn changes_of(table: &[i64]) -> Vec<Step> {
    let rate = get(table, ROOT, RATE);
    let stated = shares_under(table, ROOT, STATED) as i64;
    let looks = looks_at(table);
    let mut steps = [made(table), vec![tick(0), tick(0)]].concat();
    let mut change = |step: Step| {
        steps.push(step);
        steps.extend(looks.iter().cloned());
    };
    for class in classes(table) {
        for (kind, share) in [
            (WEIGHTED, 7),
            (FIXED, 1),
            (FIXED, 2000),
            (WEIGHTED, MAX_SHARE),
            (STATED, 1),
            (STATED, (rate - stated).max(1)),
        ] {
            change(join(62, class as i64, CLASS, kind, share, 50));
            change(client(61, 62, kind, share, 10));
            change(client(63, class as i64, kind, share, 10));
            for node in [61, 62, 63] {
                change(leave(node));
            }
        }
        for child in children(table, class) {
            let [sort, kind, share, depth] =
                [SORT, KIND, SHARE, DEPTH].map(|place| get(table, child, place));
            let child = child as i64;
            for (kind, share) in [
                (WEIGHTED, 1),
                (FIXED, 1),
                (STATED, 1),
                (WEIGHTED, 9999),
                (STATED, (rate / 7).max(1)),
                (FIXED, 1234),
                (kind, share),
            ] {
                change(change_share(child, kind, share));
            }
            change(leave(child));
            change(join(child, class as i64, sort, kind, share, depth));
        }
    }
    for rate in [1, 2, 999, MAX_RATE, rate] {
        change(change_rate(rate));
    }
    steps
}

/// Writes of rates, each a node and its rate.
type Rates = Vec<(usize, i64)>;

/// The table with these rates written, each list for itself. On each of them so many of the calls, the next ones each
/// time, and no more than all.
fn damaged(table: &[i64], wrong: Vec<Rates>, most: usize) -> Vec<Step> {
    let calls = calls_on(table);
    let mut turns = calls.iter().cycle();
    let mut steps = [made(table), vec![Step::Keep]].concat();
    for rates in wrong {
        let write = |(node, rate)| poke(node, RATE, rate);
        let writes: Vec<Step> = rates.into_iter().map(write).collect();
        for call in turns.by_ref().take(most.min(calls.len())) {
            steps.extend(episode(&writes, &[look(0), call.clone()]));
        }
    }
    steps
}

/// Every call that a table out of order makes refuse, with arguments that the sound table accepts where it has room.
pub(crate) fn calls_on(table: &[i64]) -> Vec<Step> {
    let (some_client, class) = (trees::last_client(table), trees::last_class(table));
    vec![
        client(61, class, WEIGHTED, 1, 1),
        change_share(some_client, WEIGHTED, 3),
        leave(some_client),
        change_rate(77),
        request(some_client, 1, 1),
        tick(0),
        look(0),
        same(false),
        same(true),
        plan_write(1, 1000),
        plan_write(2, 1000),
        client(61, 0, FIXED, 1, 1),
        client(61, 0, STATED, 1, 1),
        set_minute(&Plan::of_table(table).encode(Edition::Second), &[], 0),
    ]
}

/// For every node each of the values, alone.
fn one_wrong(table: &[i64]) -> Vec<Rates> {
    let mut wrong = Vec::new();
    for node in used_nodes(table) {
        for value in wrong_values(table, node) {
            wrong.push(vec![(node, value)]);
        }
    }
    wrong
}

/// Rates that a node has not: next to its own, at and beyond the limits, its own in all but the high bits, those of its
/// neighbours and of its class, and its parts by other rules.
fn wrong_values(table: &[i64], node: usize) -> Vec<i64> {
    let rate = get(table, node, RATE);
    let mut values = vec![rate + 1, rate - 1, rate + 2, -rate, 0, 1, -1];
    values.extend([MAX_RATE, MAX_RATE + 1, MAX_SHARE, i64::MAX, i64::MIN, i64::MAX - 1]);
    values.extend([31, 32, 33, 48, 58, 59, 60, 61, 62, 63].map(|bit| rate.wrapping_add(1 << bit)));
    values.extend([32, 60, 62].map(|bit| rate.wrapping_sub(1 << bit)));
    let class = parent(table, node).unwrap_or(ROOT);
    values.push(get(table, class, RATE));
    let others = children(table, class).filter(|&child| child != node);
    values.extend(others.take(2).map(|child| get(table, child, RATE)));
    values.extend(by_rules(&Class::of(table, class), table, node));
    values.retain(|&value| value != rate);
    values.sort_unstable();
    values.dedup();
    values
}

/// For every class below the root each of some rates, with all that stands below it derived from that.
fn subtrees(table: &[i64]) -> Vec<Rates> {
    let mut wrong = Vec::new();
    for class in classes(table).filter(|&class| class != ROOT) {
        let rate = get(table, class, RATE);
        let above = get(table, parent(table, class).unwrap_or(ROOT), RATE);
        let far = [0, 1, 10_000, MAX_RATE, MAX_RATE + 1, -1, 1 << 40, i64::MAX, i64::MIN];
        for value in [rate + 1, rate - 1, 2 * rate, above].into_iter().chain(far) {
            let mut changed = table.to_vec();
            changed[at(class, RATE)] = value;
            renew_below(&mut changed, class);
            wrong.push(other_rates(table, &changed));
        }
    }
    wrong
}

/// All rates from another disk's rate than the root's, and from that of each level the rates above being right.
fn other_disks(table: &[i64]) -> Vec<Rates> {
    let right = get(table, ROOT, RATE);
    let mut wrong = Vec::new();
    for rate in [right - 1, right + 1, 2 * right, right / 2, 0, 1, MAX_RATE, MAX_RATE + 1, -right] {
        let mut changed = table.to_vec();
        changed[at(ROOT, RATE)] = rate;
        renew_all(&mut changed);
        let all = other_rates(table, &changed);
        let below = |level: i64| -> Rates {
            all.iter().copied().filter(|&(node, _)| get(table, node, LEVEL) >= level).collect()
        };
        wrong.extend((0..=MAX_CLASS_LEVEL + 1).map(below));
    }
    wrong
}

/// All rates by another rule, from the root's own.
fn other_rules(table: &[i64]) -> Vec<Rates> {
    let mut wrong = Vec::new();
    for rule in 0..RULES.len() + STATED_RULES.len() {
        let mut changed = table.to_vec();
        for level in 1..=MAX_CLASS_LEVEL + 1 {
            for node in (0..NODES).filter(|&node| get(table, node, LEVEL) == level) {
                let class = Class::of(&changed, parent(table, node).unwrap_or(ROOT));
                changed[at(node, RATE)] = by_rules(&class, table, node)[rule];
            }
        }
        wrong.push(other_rates(table, &changed));
    }
    wrong
}

/// The rates in which the second table differs.
fn other_rates(table: &[i64], changed: &[i64]) -> Rates {
    (0..NODES)
        .map(|node| (node, get(changed, node, RATE)))
        .filter(|&(node, rate)| rate != get(table, node, RATE))
        .collect()
}

/// A class's rate, what of it fixed shares and weights divide, its children's shares, and what the fixed ones get.
struct Class {
    whole: i64,
    rate: i64,
    stated: i64,
    fixed: i64,
    weights: i64,
    fixed_rates: i64,
}

impl Class {
    fn of(table: &[i64], class: usize) -> Class {
        let whole = get(table, class, RATE);
        let [fixed, weights, stated] = KINDS.map(|kind| shares_under(table, class, kind) as i64);
        let rate = whole - stated;
        let fixed_rates = children(table, class)
            .map(|child| rate * share_of_kind(table, child, FIXED) / MAX_SHARE)
            .sum();
        Class { whole, rate, stated, fixed, weights, fixed_rates }
    }

    /// What the fixed shares leave.
    fn left(&self) -> i64 {
        self.rate * (MAX_SHARE - self.fixed) / MAX_SHARE
    }

    /// What the fixed shares leave of the class's whole rate.
    fn left_of_whole(&self) -> i64 {
        self.whole * (MAX_SHARE - self.fixed) / MAX_SHARE
    }
}

/// The rate of a node by a rule, given its class. The root, which has none, is taken for a child.
type Rule = fn(&Class, &[i64], usize) -> i64;

/// The rate of a node by each of the rules. Those that are not about stated nodes leave these their shares.
fn by_rules(class: &Class, table: &[i64], node: usize) -> Vec<i64> {
    let is_stated = get(table, node, KIND) == STATED;
    let by_rule = |(_, rule): (&str, Rule)| match is_stated {
        true => get(table, node, SHARE),
        false => rule(class, table, node),
    };
    let by_stated_rule = |(_, rule): (&str, Rule)| rule(class, table, node);
    RULES.into_iter().map(by_rule).chain(STATED_RULES.into_iter().map(by_stated_rule)).collect()
}

/// Rules for stated nodes and those beside them.
const STATED_RULES: [(&str, Rule); 7] = [
    ("nothing taken off", |class, table, node| match get(table, node, KIND) {
        STATED => get(table, node, SHARE),
        FIXED => down(class.whole * get(table, node, SHARE), MAX_SHARE),
        _ => down(class.left_of_whole() * get(table, node, SHARE), class.weights),
    }),
    ("taken off what the fixed shares leave", |class, table, node| match get(table, node, KIND) {
        STATED => get(table, node, SHARE),
        FIXED => down(class.whole * get(table, node, SHARE), MAX_SHARE),
        _ => {
            let left = (class.left_of_whole() - class.stated).max(0);
            down(left * get(table, node, SHARE), class.weights)
        }
    }),
    ("fixed shares of the whole", |class, table, node| match get(table, node, KIND) {
        STATED => get(table, node, SHARE),
        FIXED => down(class.whole * get(table, node, SHARE), MAX_SHARE),
        _ => down(class.left() * get(table, node, SHARE), class.weights),
    }),
    ("weights of the whole", |class, table, node| match get(table, node, KIND) {
        STATED => get(table, node, SHARE),
        FIXED => down(class.rate * get(table, node, SHARE), MAX_SHARE),
        _ => down(class.left_of_whole() * get(table, node, SHARE), class.weights),
    }),
    ("stated as fixed", |class, table, node| match get(table, node, KIND) {
        STATED | FIXED => down(class.whole * get(table, node, SHARE), MAX_SHARE),
        _ => down(class.left_of_whole() * get(table, node, SHARE), class.weights),
    }),
    ("stated as weights", |class, table, node| match get(table, node, KIND) {
        FIXED => down(class.whole * get(table, node, SHARE), MAX_SHARE),
        _ => {
            let weights = class.weights + class.stated;
            down(class.left_of_whole() * get(table, node, SHARE), weights)
        }
    }),
    ("stated nodes empty", |class, table, node| match get(table, node, KIND) {
        STATED => 0,
        FIXED => down(class.rate * get(table, node, SHARE), MAX_SHARE),
        _ => down(class.left() * get(table, node, SHARE), class.weights),
    }),
];

/// Rules beside that of the section on rates. Most give the right rate to some nodes.
const RULES: [(&str, Rule); 8] = [
    ("rounded up", |class, table, node| match is_fixed(table, node) {
        true => up(class.rate * get(table, node, SHARE), MAX_SHARE),
        false => up(class.left() * get(table, node, SHARE), class.weights),
    }),
    ("rounded up twice", |class, table, node| match is_fixed(table, node) {
        true => up(class.rate * get(table, node, SHARE), MAX_SHARE),
        false => {
            let left = up(class.rate * (MAX_SHARE - class.fixed), MAX_SHARE);
            up(left * get(table, node, SHARE), class.weights)
        }
    }),
    ("what is left rounded up", |class, table, node| match is_fixed(table, node) {
        true => down(class.rate * get(table, node, SHARE), MAX_SHARE),
        false => {
            let left = up(class.rate * (MAX_SHARE - class.fixed), MAX_SHARE);
            down(left * get(table, node, SHARE), class.weights)
        }
    }),
    ("rounded to the nearest", |class, table, node| match is_fixed(table, node) {
        true => down(2 * class.rate * get(table, node, SHARE) + MAX_SHARE, 2 * MAX_SHARE),
        false => {
            down(2 * class.left() * get(table, node, SHARE) + class.weights, 2 * class.weights)
        }
    }),
    ("rounded once", |class, table, node| match is_fixed(table, node) {
        true => down(class.rate * get(table, node, SHARE), MAX_SHARE),
        false => {
            let left = i128::from(class.rate * (MAX_SHARE - class.fixed));
            let whole = i128::from(MAX_SHARE * class.weights);
            (left * i128::from(get(table, node, SHARE))).checked_div(whole).unwrap_or(0) as i64
        }
    }),
    ("less the fixed rates", |class, table, node| match is_fixed(table, node) {
        true => down(class.rate * get(table, node, SHARE), MAX_SHARE),
        false => down((class.rate - class.fixed_rates) * get(table, node, SHARE), class.weights),
    }),
    ("weights of the whole rate", |class, table, node| match is_fixed(table, node) {
        true => down(class.rate * get(table, node, SHARE), MAX_SHARE),
        false => down(class.rate * get(table, node, SHARE), class.weights),
    }),
    ("fixed shares of what is left", |class, table, node| match is_fixed(table, node) {
        true => down(class.left() * get(table, node, SHARE), MAX_SHARE),
        false => down(class.left() * get(table, node, SHARE), class.weights),
    }),
];

fn is_fixed(table: &[i64], node: usize) -> bool {
    get(table, node, KIND) == FIXED
}

/// Rounded down; by 0 it is 0.
fn down(number: i64, by: i64) -> i64 {
    number.checked_div(by).unwrap_or(0)
}

/// Rounded up; by 0 it is 0.
fn up(number: i64, by: i64) -> i64 {
    number.checked_add(by - 1).map_or(0, |number| down(number, by))
}
