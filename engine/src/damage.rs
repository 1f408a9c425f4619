//! Damage to the table: every clause of the in-order test broken alone, rates that
//! are wrong at one node or below a whole class, stated nodes and ports where there may be
//! none, places written at random, wrong lengths, and lawful changes.

use crate::cost::{cost, largest_size, RANGE_ENDS};
use crate::order::{self, *};
use crate::random::Rng;
use crate::rates;
use crate::steps::Step;
use crate::table::*;

/// Steps that write a table in order from outside, in some way or other.
pub fn any(rng: &mut Rng, table: &[i64]) -> Vec<Step> {
    let clause = rng.below(CLAUSES.len());
    let of_shares = rng.pick(&[LIMITS_CLAUSE, STATED_PLACES_CLAUSE, STATED_RATES_CLAUSE]);
    match rng.below(17) {
        0..=4 => isolated(rng, table, clause).unwrap_or_default(),
        5 | 6 => random_pokes(rng, table),
        7 => near_pokes(rng, table),
        8 => extreme(rng, table),
        9 => other_size(rng, table),
        10 => other_depth(rng, table),
        11 | 12 => isolated(rng, table, RATES_CLAUSE).unwrap_or_default(),
        13 => isolated(rng, table, of_shares).unwrap_or_default(),
        14 => other_port(rng, table),
        15 => spare_place(rng, table),
        _ => vec![Step::Resize { len: wrong_length(rng) }],
    }
}

/// Steps after which exactly that clause fails, if the table has what it takes.
pub fn isolated(rng: &mut Rng, table: &[i64], clause: usize) -> Option<Vec<Step>> {
    for _ in 0..8 {
        let mut broken = table.to_vec();
        if break_clause(rng, &mut broken, clause).is_some() && failing(&broken) == [clause] {
            return Some(pokes(table, &broken));
        }
    }
    None
}

/// Steps that change one number of the tree, and the rates with it, or a port, so that
/// the table stays in order. There are none if no try succeeds.
pub fn other_tree(rng: &mut Rng, table: &[i64]) -> Vec<Step> {
    for _ in 0..20 {
        let mut changed = table.to_vec();
        let node = some(rng, used_nodes(table)).unwrap_or(ROOT);
        let place = rng.pick(&[SORT, PARENT, KIND, SHARE, DEPTH, RATE, PORT]);
        let old = get(table, node, place);
        let value = match place {
            SORT => CLASS + CLIENT - old,
            PARENT => rng.between(0, 63),
            KIND => rng.pick(&KINDS),
            PORT => 1 - old,
            _ => old + rng.pick(&[-1, 1]),
        };
        set(&mut changed, node, place, value);
        rates::renew_all(&mut changed);
        if changed != table && order::in_order(&changed) {
            return pokes(table, &changed);
        }
    }
    Vec::new()
}

/// The numbers of the clauses that a table of right length fails.
pub fn failing(table: &[i64]) -> Vec<usize> {
    (0..CLAUSES.len()).filter(|&clause| !CLAUSES[clause].1(table)).collect()
}

/// The steps that make one table into the other, of equal length.
fn pokes(from: &[i64], to: &[i64]) -> Vec<Step> {
    (0..from.len())
        .filter(|&place| from[place] != to[place])
        .map(|place| Step::Poke { place, value: to[place] })
        .collect()
}

fn wrong_length(rng: &mut Rng) -> usize {
    let any = rng.below(2 * TABLE_LEN);
    rng.pick(&[0, 1, HEADER_LEN, TABLE_LEN - 1, TABLE_LEN + 1, TABLE_LEN + RECORD_LEN, any])
}

/// Writes a few places anywhere, or in the fields of nodes that are there.
fn random_pokes(rng: &mut Rng, table: &[i64]) -> Vec<Step> {
    (0..1 + rng.below(3))
        .map(|_| {
            let anywhere = rng.below(TABLE_LEN);
            let node = some(rng, used_nodes(table)).unwrap_or(ROOT);
            let field = at(node, rng.below(SPARE));
            let high = rng.pick(&[STATED, MAX_SHARE, MAX_RATE]);
            Step::Poke { place: rng.pick(&[anywhere, field]), value: rng.edge(0, high) }
        })
        .collect()
}

/// Writes a place of a node that is there, with a value close to the old one.
fn near_pokes(rng: &mut Rng, table: &[i64]) -> Vec<Step> {
    let Some(node) = some(rng, used_nodes(table)) else {
        return Vec::new();
    };
    let place = at(node, rng.below(RECORD_LEN));
    let value = table[place].saturating_add(rng.pick(&[-2, -1, 1, 2]));
    vec![Step::Poke { place, value }]
}

/// Takes the header's count to its end, or a balance to one of its ends. Where
/// other balances stand in the way the table falls out of order.
fn extreme(rng: &mut Rng, table: &[i64]) -> Vec<Step> {
    let mut changed = table.to_vec();
    let node = some(rng, used_nodes(table)).unwrap_or(ROOT);
    let full = get(table, node, DEPTH) * GRAINS;
    match rng.below(4) {
        0 => changed[ACCEPTED] = MAX_ACCEPTED - rng.between(0, 2),
        1 => set(&mut changed, node, BALANCE, full),
        2 if is_class(table, node) => {
            let lowest = lowest_balance(table, node);
            set(&mut changed, node, BALANCE, lowest);
        }
        2 => set(&mut changed, node, BALANCE, 0),
        _ => {
            let balance = rng.between(lowest_balance(table, node), full);
            set(&mut changed, node, BALANCE, balance);
        }
    }
    pokes(table, &changed)
}

/// Gives a waiting request a size at or about what its client's depth allows,
/// at the end of a range, or one that no request has.
fn other_size(rng: &mut Rng, table: &[i64]) -> Vec<Step> {
    let Some(client) = some_waiting(rng, table, 1) else {
        return Vec::new();
    };
    let depth = get(table, client, DEPTH);
    let largest = largest_size(depth).unwrap_or(0);
    let end = rng.pick(&RANGE_ENDS);
    let value = match rng.below(4) {
        0 => rng.pick(&[largest - 1, largest, largest]),
        1 => end,
        2 => end.min(largest),
        _ => size_to_refuse(rng, depth),
    };
    vec![Step::Poke { place: at(client, size_place(rng, table, client)), value }]
}

/// Gives a client the depth that its largest waiting cost just fits, or one
/// below it.
fn other_depth(rng: &mut Rng, table: &[i64]) -> Vec<Step> {
    let Some(client) = some_waiting(rng, table, 1) else {
        return Vec::new();
    };
    let mut changed = table.to_vec();
    tighten(&mut changed, client, rng.between(0, 1));
    pokes(table, &changed)
}

/// Puts a client on the other port, or gives it, a class or an unused record a port that
/// none has.
fn other_port(rng: &mut Rng, table: &[i64]) -> Vec<Step> {
    let client = some(rng, clients(table)).unwrap_or(ROOT);
    let value = if rng.chance(50) { 1 - get(table, client, PORT) } else { wrong_port(rng) };
    let unused = some(rng, (0..NODES).filter(|&node| !is_used(table, node))).unwrap_or(ROOT);
    let class = some(rng, classes(table)).unwrap_or(ROOT);
    let node = rng.pick(&[client, client, client, class, unused]);
    vec![Step::Poke { place: at(node, PORT), value }]
}

/// A port that no client has.
fn wrong_port(rng: &mut Rng) -> i64 {
    let any = rng.number() | 2;
    rng.pick(&[2, 2, -1, -1, 3, 255, 256, 1 << 32, (1 << 32) + 1, i64::MIN, i64::MAX, any])
}

/// Writes a place of a record beside its port, the first or the last of those that are
/// always zero, or that of an unused record's port.
fn spare_place(rng: &mut Rng, table: &[i64]) -> Vec<Step> {
    let node = rng.below(NODES);
    let used = some(rng, used_nodes(table)).unwrap_or(ROOT);
    let value = rng.pick(&[1, 1, -1, 2, i64::MAX]);
    let (node, place) = match rng.below(3) {
        0 if !is_used(table, node) => (node, PORT),
        1 => (node, rng.pick(&[SPARE, QUEUE - 1])),
        _ => (used, rng.pick(&[SPARE, QUEUE - 1])),
    };
    vec![Step::Poke { place: at(node, place), value }]
}

/// Makes a client's depth so many tokens less than its largest waiting cost, and
/// its balance no more than that.
fn tighten(table: &mut [i64], client: usize, missing: i64) {
    let largest = waiting(table, client).map(|request| cost(request.size)).max().unwrap_or(0);
    let depth = largest - missing;
    let balance = get(table, client, BALANCE).min(depth * GRAINS);
    set(table, client, DEPTH, depth);
    set(table, client, BALANCE, balance);
}

/// A size that a client of that depth cannot have waiting.
fn size_to_refuse(rng: &mut Rng, depth: i64) -> i64 {
    let above = largest_size(depth).unwrap_or(0) + 1;
    rng.pick(&[i64::MIN, -1, 0, above, above, depth, depth + 1, i64::MAX - 15, i64::MAX])
}

/// The place of one of a client's waiting sizes.
fn size_place(rng: &mut Rng, table: &[i64], client: usize) -> usize {
    QUEUE + QUEUE_STEP * rng.below(waiting_count(table, client)) + 1
}

/// The lowest balance that a node may have.
fn lowest_balance(table: &[i64], node: usize) -> i64 {
    if is_client(table, node) {
        return 0;
    }
    let sum: i64 = children(table, node).map(|child| get(table, child, BALANCE)).sum();
    sum - get(table, node, DEPTH) * GRAINS
}

/// One of some nodes, if there are any.
fn some(rng: &mut Rng, nodes: impl Iterator<Item = usize>) -> Option<usize> {
    let nodes: Vec<usize> = nodes.collect();
    (!nodes.is_empty()).then(|| rng.pick(&nodes))
}

/// A client that has at least so many waiting.
fn some_waiting(rng: &mut Rng, table: &[i64], least: usize) -> Option<usize> {
    some(rng, clients(table).filter(|&client| waiting_count(table, client) >= least))
}

/// Tries to break one clause of a table in order and no other.
fn break_clause(rng: &mut Rng, table: &mut [i64], clause: usize) -> Option<()> {
    match clause {
        0 => table[ACCEPTED] = rng.pick(&[i64::MIN, -1, MAX_ACCEPTED + 1, i64::MAX]),
        1 => table[1 + rng.below(HEADER_LEN - 1)] = rng.pick(&[i64::MIN, -1, 1, i64::MAX]),
        ROOT_CLAUSE => break_root(rng, table),
        3 => {
            let node = some(rng, used_nodes(table))?;
            set(table, node, SORT, rng.pick(&[i64::MIN, -1, 3, i64::MAX]));
        }
        ZEROS_CLAUSE => break_zeros(rng, table)?,
        LIMITS_CLAUSE => break_limits(rng, table)?,
        6 => break_parent(rng, table)?,
        7 => break_class_level(rng, table)?,
        8 => break_waiting_count(rng, table)?,
        9 => {
            let class = some(rng, classes(table))?;
            set(table, class, WAITING, 1);
            set(table, class, QUEUE, rng.pick(&[0, 1]));
        }
        10 => break_fixed_sum(rng, table)?,
        11 => break_depth_sum(rng, table)?,
        RATES_CLAUSE => break_rates(rng, table)?,
        13 => {
            let node = some(rng, used_nodes(table))?;
            let above = get(table, node, DEPTH) * GRAINS + 1;
            set(table, node, BALANCE, rng.pick(&[above, above, i64::MAX]));
        }
        14 => {
            let client = some(rng, clients(table))?;
            set(table, client, BALANCE, rng.pick(&[i64::MIN, -1]));
        }
        15 => {
            let class = some(rng, classes(table))?;
            let below = lowest_balance(table, class) - 1;
            set(table, class, BALANCE, rng.pick(&[below, below, i64::MIN]));
        }
        SIZES_CLAUSE => {
            let client = some_waiting(rng, table, 1)?;
            if rng.chance(30) {
                tighten(table, client, 1);
            } else {
                let place = size_place(rng, table, client);
                let size = size_to_refuse(rng, get(table, client, DEPTH));
                set(table, client, place, size);
            }
        }
        17 => break_arrivals(rng, table)?,
        STATED_PLACES_CLAUSE => break_stated_places(rng, table)?,
        STATED_RATES_CLAUSE => break_stated_rates(rng, table)?,
        PORTS_CLAUSE => break_ports(rng, table)?,
        _ => return None,
    }
    Some(())
}

fn break_root(rng: &mut Rng, table: &mut [i64]) {
    match rng.below(5) {
        0 => set(table, ROOT, KIND, rng.pick(&[WEIGHTED, STATED])),
        1 => set(table, ROOT, SHARE, rng.pick(&[1, MAX_SHARE - 1])),
        2 => set(table, ROOT, PARENT, rng.pick(&[-1, 1, 63, 64])),
        // Only where the root is alone, else its children's clauses fail too.
        3 => set(table, ROOT, LEVEL, rng.pick(&[1, 3])),
        _ => {
            set(table, ROOT, RATE, rng.pick(&[-1, 0, MAX_RATE + 1]));
            rates::renew_all(table);
        }
    }
}

/// Writes a place that has to be zero.
fn break_zeros(rng: &mut Rng, table: &mut [i64]) -> Option<()> {
    let node = rng.below(NODES);
    let place = if !is_used(table, node) {
        let any = 1 + rng.below(RECORD_LEN - 1);
        rng.pick(&[any, any, PORT])
    } else if rng.chance(40) {
        SPARE + rng.below(QUEUE - SPARE)
    } else {
        let filled = QUEUE + QUEUE_STEP * waiting_count(table, node);
        if filled == RECORD_LEN {
            return None;
        }
        filled + rng.below(RECORD_LEN - filled)
    };
    set(table, node, place, rng.pick(&[i64::MIN, -1, 1, i64::MAX]));
    Some(())
}

fn break_limits(rng: &mut Rng, table: &mut [i64]) -> Option<()> {
    let node = some(rng, used_nodes(table))?;
    match rng.below(4) {
        0 => set(table, node, KIND, rng.pick(&[i64::MIN, -1, STATED + 1, i64::MAX])),
        1 => {
            let largest = largest_share(get(table, node, KIND)).unwrap_or(MAX_SHARE);
            set(table, node, SHARE, rng.pick(&[-1, 0, largest + 1]));
        }
        2 => set(table, node, DEPTH, rng.pick(&[-1, 0, MAX_DEPTH + 1])),
        _ => {
            // A weight that only a stated rate may be.
            let rate = rng.between(MAX_SHARE + 1, MAX_RATE);
            set(table, node, KIND, WEIGHTED);
            set(table, node, SHARE, rng.pick(&[MAX_SHARE + 1, rate, MAX_RATE]));
        }
    }
    rates::renew_all(table);
    Some(())
}

/// Makes a node that stands under another class than the root stated: with its own
/// rate, with its class's, or with a small one.
fn break_stated_places(rng: &mut Rng, table: &mut [i64]) -> Option<()> {
    let is_lower = |&node: &usize| parent(table, node).is_some_and(|class| class != ROOT);
    let node = some(rng, used_nodes(table).filter(is_lower))?;
    let class = parent(table, node)?;
    let [own, whole] = [node, class].map(|node| get(table, node, RATE));
    set(table, node, KIND, STATED);
    set(table, node, SHARE, rng.pick(&[1, own.max(1), whole.max(1)]));
    rates::renew_all(table);
    Some(())
}

/// Makes the stated rates one above the disk's, by one of them or by the disk's rate.
fn break_stated_rates(rng: &mut Rng, table: &mut [i64]) -> Option<()> {
    let node = some(rng, children(table, ROOT))?;
    let stated = shares_under(table, ROOT, STATED) as i64;
    let rate = get(table, ROOT, RATE);
    if stated > 1 && rng.chance(50) {
        set(table, ROOT, RATE, stated - 1);
    } else {
        let others = stated - share_of_kind(table, node, STATED);
        set(table, node, KIND, STATED);
        set(table, node, SHARE, rate + 1 - others);
    }
    rates::renew_all(table);
    Some(())
}

/// Gives a client a port that none has, or a class one other than 0.
fn break_ports(rng: &mut Rng, table: &mut [i64]) -> Option<()> {
    let client = some(rng, clients(table));
    match client.filter(|_| rng.chance(60)) {
        Some(client) => set(table, client, PORT, wrong_port(rng)),
        None => {
            let class = some(rng, classes(table))?;
            let port = wrong_port(rng);
            set(table, class, PORT, rng.pick(&[1, 1, port]));
        }
    }
    Some(())
}

fn break_parent(rng: &mut Rng, table: &mut [i64]) -> Option<()> {
    let node = some(rng, used_nodes(table).filter(|&node| node != ROOT))?;
    if rng.chance(50) {
        let level = get(table, node, LEVEL);
        set(table, node, LEVEL, rng.pick(&[level - 1, level + 1, i64::MIN, i64::MAX]));
    } else {
        let other = rng.between(0, 63);
        set(table, node, PARENT, rng.pick(&[other, other, -1, 64, i64::MIN, i64::MAX]));
        rates::renew_all(table);
    }
    Some(())
}

/// Makes a class of a client on level 4, or of one on a level that no class has.
fn break_class_level(rng: &mut Rng, table: &mut [i64]) -> Option<()> {
    let deepest = clients(table).filter(|&client| get(table, client, LEVEL) == MAX_CLASS_LEVEL + 1);
    let client = some(rng, deepest)?;
    set(table, client, SORT, CLASS);
    set(table, client, WAITING, 0);
    set(table, client, PORT, 0);
    table[at(client, QUEUE)..at(client, RECORD_LEN)].fill(0);
    Some(())
}

fn break_waiting_count(rng: &mut Rng, table: &mut [i64]) -> Option<()> {
    let full = clients(table).filter(|&client| waiting_count(table, client) == QUEUE_LEN);
    if let Some(client) = some(rng, full) {
        set(table, client, WAITING, rng.pick(&[QUEUE_LEN as i64 + 1, i64::MAX]));
        return Some(());
    }
    let idle = used_nodes(table).filter(|&node| waiting_count(table, node) == 0);
    let node = some(rng, idle)?;
    set(table, node, WAITING, rng.pick(&[-1, i64::MIN]));
    Some(())
}

/// Gives two children of a class fixed shares of 10,001 together.
fn break_fixed_sum(rng: &mut Rng, table: &mut [i64]) -> Option<()> {
    let several = classes(table).filter(|&class| children(table, class).count() >= 2);
    let class = some(rng, several)?;
    let pair: Vec<usize> = children(table, class).take(2).collect();
    let share = rng.between(1, MAX_SHARE);
    for (child, share) in [(pair[0], share), (pair[1], MAX_SHARE + 1 - share)] {
        set(table, child, KIND, FIXED);
        set(table, child, SHARE, share);
    }
    rates::renew_all(table);
    Some(())
}

/// Makes a child's depth so large that the sum is one above the class's.
fn break_depth_sum(rng: &mut Rng, table: &mut [i64]) -> Option<()> {
    let node = some(rng, used_nodes(table).filter(|&node| node != ROOT))?;
    let class = parent(table, node)?;
    let sum: i64 = children(table, class).map(|child| get(table, child, DEPTH)).sum();
    let missing = get(table, class, DEPTH) - sum + 1;
    let depth = get(table, node, DEPTH);
    set(table, node, DEPTH, depth + missing);
    Some(())
}

/// Makes the rate of one node wrong; or that of a class, with all below it derived from
/// that; or all of them, derived from another disk's rate.
fn break_rates(rng: &mut Rng, table: &mut [i64]) -> Option<()> {
    match rng.below(8) {
        0..=4 => {
            let node = some_on_a_level(rng, table)?;
            let rate = wrong_rate(rng, table, node);
            set(table, node, RATE, rate);
        }
        5 | 6 => {
            let class = some(rng, classes(table).filter(|&class| class != ROOT))?;
            let rate = wrong_class_rate(rng, get(table, class, RATE));
            set(table, class, RATE, rate);
            rates::renew_below(table, class);
        }
        _ => {
            let right = get(table, ROOT, RATE);
            let stated = shares_under(table, ROOT, STATED) as i64;
            set(table, ROOT, RATE, wrong_class_rate(rng, right).max(stated));
            rates::renew_below(table, ROOT);
            set(table, ROOT, RATE, right);
        }
    }
    Some(())
}

/// A node below the root, from any of the levels that has one.
fn some_on_a_level(rng: &mut Rng, table: &[i64]) -> Option<usize> {
    let on = |level: usize| {
        used_nodes(table).filter(move |&node| get(table, node, LEVEL) == level as i64)
    };
    let lowest = MAX_CLASS_LEVEL as usize + 1;
    let level = some(rng, (1..=lowest).filter(|&level| on(level).next().is_some()))?;
    some(rng, on(level))
}

/// A rate that a node has not, save by chance: next to its own, at or beyond the limits,
/// its own in all but some high bits, another node's, or its part of its class's whole
/// rate.
fn wrong_rate(rng: &mut Rng, table: &[i64], node: usize) -> i64 {
    let rate = get(table, node, RATE);
    let near = rng.pick(&[rate - 1, rate + 1]);
    let limit = rng.pick(&[i64::MIN, -1, 0, MAX_RATE, MAX_RATE + 1, i64::MAX]);
    let high = rate.wrapping_add(1 << rng.between(32, 63));
    let other = some(rng, used_nodes(table)).map_or(0, |other| get(table, other, RATE));
    rng.pick(&[near, near, near, limit, high, other, part_of_whole(table, node)])
}

/// A weighted node's part of its class's whole rate, a fixed node's, and that of a
/// stated node as if it were a fixed one.
fn part_of_whole(table: &[i64], node: usize) -> i64 {
    let class = parent(table, node).unwrap_or(ROOT);
    let whole = match get(table, node, KIND) {
        WEIGHTED => shares_under(table, class, WEIGHTED) as i64,
        _ => MAX_SHARE,
    };
    get(table, class, RATE) * get(table, node, SHARE) / whole
}

/// A rate within the limits of a class's, from which all below it may be derived.
fn wrong_class_rate(rng: &mut Rng, rate: i64) -> i64 {
    let any = rng.between(0, MAX_RATE);
    let rate = rng.pick(&[rate - 1, rate + 1, rate + 1, 2 * rate, 0, any, MAX_RATE]);
    rate.clamp(0, MAX_RATE)
}

fn break_arrivals(rng: &mut Rng, table: &mut [i64]) -> Option<()> {
    let first = some_waiting(rng, table, 1)?;
    let index = rng.below(waiting_count(table, first));
    let arrival = QUEUE + 2 + QUEUE_STEP * index;
    match rng.below(4) {
        0 => set(table, first, arrival, rng.pick(&[i64::MIN, -1, 0])),
        1 => {
            let above = table[ACCEPTED] + 1;
            set(table, first, arrival, rng.pick(&[above, i64::MAX]));
        }
        2 => {
            let client = some_waiting(rng, table, 2)?;
            table.swap(at(client, QUEUE + 2), at(client, QUEUE + 2 + QUEUE_STEP));
        }
        _ => {
            let second = some_waiting(rng, table, 1)?;
            let copied = waiting_at(table, second, 0).arrival;
            set(table, first, arrival, copied);
        }
    }
    Some(())
}
