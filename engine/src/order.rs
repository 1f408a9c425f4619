//! "A table is in order when": one function for each clause.
//!
//! Every clause stands on its own: it takes any contents of a table of right
//! length and neither panics nor overflows. What another clause forbids, a
//! clause passes over.

use crate::cost::cost;
use crate::rates;
use crate::refusal::{require, Answer, NOT_IN_ORDER};
use crate::table::*;

/// One clause of the in-order test, over a table of right length.
pub type Clause = fn(&[i64]) -> bool;

/// All clauses, with their names.
pub const CLAUSES: [(&str, Clause); 21] = [
    ("header count within limits", header_count),
    ("other header places zero", header_zeros),
    ("root is the root", root),
    ("sorts known", sorts),
    ("unused records and places zero", unused_zero),
    ("kinds, shares and depths within limits", limits),
    ("parent a class one level above", parents),
    ("classes on levels 0 to 3", class_levels),
    ("waiting counts 0 to 8", waiting_counts),
    ("classes have nothing waiting", classes_wait_for_nothing),
    ("fixed shares at most 10,000", fixed_shares),
    ("children's depths at most the class's", child_depths),
    ("rates as the section on rates says", rates::are_obeyed),
    ("no balance above the depth", balances_below_depth),
    ("client balances at least 0", client_balances),
    ("class balances not too low", class_balances),
    ("waiting sizes from 1, their costs to the depth", waiting_sizes),
    ("arrival numbers", arrivals),
    ("stated under the root only", stated_places),
    ("stated rates at most the disk's", stated_rates),
    ("ports 0 or 1, of classes 0", ports),
];

/// The number of the clause on the root.
pub const ROOT_CLAUSE: usize = 2;
/// The number of the clause on unused records and places.
pub const ZEROS_CLAUSE: usize = 4;
/// The number of the clause on kinds, shares and depths.
pub const LIMITS_CLAUSE: usize = 5;
/// The number of the clause on rates.
pub const RATES_CLAUSE: usize = 12;
/// The number of the clause on waiting sizes.
pub const SIZES_CLAUSE: usize = 16;
/// The number of the clause on where stated nodes stand.
pub const STATED_PLACES_CLAUSE: usize = 18;
/// The number of the clause on the sum of stated rates.
pub const STATED_RATES_CLAUSE: usize = 19;
/// The number of the clause on ports.
pub const PORTS_CLAUSE: usize = 20;

/// Whether a slice is a table of right length that is in order.
pub fn in_order(table: &[i64]) -> bool {
    table.len() == TABLE_LEN && CLAUSES.iter().all(|(_, clause)| clause(table))
}

/// Refusal 1 for a table that is not in order.
pub fn check(table: &[i64]) -> Answer<()> {
    require(in_order(table), NOT_IN_ORDER)
}

/// Refusal 1 for a table that has not the right length, whatever it holds.
pub fn check_length(table: &[i64]) -> Answer<()> {
    require(table.len() == TABLE_LEN, NOT_IN_ORDER)
}

fn header_count(table: &[i64]) -> bool {
    (0..=MAX_ACCEPTED).contains(&table[ACCEPTED])
}

fn header_zeros(table: &[i64]) -> bool {
    all_zero(&table[ACCEPTED + 1..HEADER_LEN])
}

/// "Node 0 is the root: a class, its own parent, fixed, share 10,000, rate 1
/// to 1,000,000,000", and "level (root 0)".
fn root(table: &[i64]) -> bool {
    is_class(table, ROOT)
        && get(table, ROOT, PARENT) == ROOT as i64
        && get(table, ROOT, LEVEL) == 0
        && get(table, ROOT, KIND) == FIXED
        && get(table, ROOT, SHARE) == MAX_SHARE
        && (1..=MAX_RATE).contains(&get(table, ROOT, RATE))
}

fn sorts(table: &[i64]) -> bool {
    (0..NODES).all(|node| [UNUSED, CLASS, CLIENT].contains(&get(table, node, SORT)))
}

fn unused_zero(table: &[i64]) -> bool {
    (0..NODES).all(|node| {
        let record = record(table, node);
        if is_used(table, node) {
            let first_empty = QUEUE + QUEUE_STEP * waiting_count(table, node);
            all_zero(&record[SPARE..QUEUE]) && all_zero(&record[first_empty..])
        } else {
            all_zero(record)
        }
    })
}

fn limits(table: &[i64]) -> bool {
    limits_hold(table, share_is_lawful)
}

/// Whether all depths are within their limits, and all kinds and shares by that
/// function.
pub(crate) fn limits_hold(table: &[i64], share_is_lawful: impl Fn(i64, i64) -> bool) -> bool {
    used_nodes(table).all(|node| {
        share_is_lawful(get(table, node, KIND), get(table, node, SHARE))
            && (1..=MAX_DEPTH).contains(&get(table, node, DEPTH))
    })
}

fn parents(table: &[i64]) -> bool {
    used_nodes(table).filter(|&node| node != ROOT).all(|node| match parent(table, node) {
        Some(parent) => {
            let level = get(table, parent, LEVEL).checked_add(1);
            is_class(table, parent) && level == Some(get(table, node, LEVEL))
        }
        None => false,
    })
}

fn class_levels(table: &[i64]) -> bool {
    classes(table).all(|class| (0..=MAX_CLASS_LEVEL).contains(&get(table, class, LEVEL)))
}

fn waiting_counts(table: &[i64]) -> bool {
    used_nodes(table).all(|node| (0..=QUEUE_LEN as i64).contains(&get(table, node, WAITING)))
}

fn classes_wait_for_nothing(table: &[i64]) -> bool {
    classes(table).all(|class| waiting_count(table, class) == 0)
}

fn fixed_shares(table: &[i64]) -> bool {
    let sums = sums_over_children(table, |node| share_of_kind(table, node, FIXED));
    classes(table).all(|class| sums[class] <= i128::from(MAX_SHARE))
}

fn child_depths(table: &[i64]) -> bool {
    let sums = sums_over_children(table, |node| get(table, node, DEPTH));
    classes(table).all(|class| sums[class] <= i128::from(get(table, class, DEPTH)))
}

fn balances_below_depth(table: &[i64]) -> bool {
    used_nodes(table).all(|node| i128::from(get(table, node, BALANCE)) <= depth_grains(table, node))
}

fn client_balances(table: &[i64]) -> bool {
    clients(table).all(|client| get(table, client, BALANCE) >= 0)
}

fn class_balances(table: &[i64]) -> bool {
    let sums = sums_over_children(table, |node| get(table, node, BALANCE));
    classes(table).all(|class| {
        i128::from(get(table, class, BALANCE)) >= sums[class] - depth_grains(table, class)
    })
}

fn waiting_sizes(table: &[i64]) -> bool {
    sizes_fit(table, cost)
}

/// Whether every waiting size is 1 or more, and its cost, found by that
/// function, no more than its client's depth.
pub(crate) fn sizes_fit(table: &[i64], cost: impl Fn(i64) -> i64) -> bool {
    clients(table).all(|client| {
        let depth = get(table, client, DEPTH);
        waiting(table, client).all(|request| request.size >= 1 && cost(request.size) <= depth)
    })
}

/// "Arrival numbers are 1 to the header's count, rising within a client and
/// different everywhere."
fn arrivals(table: &[i64]) -> bool {
    let mut all = Vec::new();
    for client in clients(table) {
        let own: Vec<i64> = waiting(table, client).map(|request| request.arrival).collect();
        if !is_rising(&own) {
            return false;
        }
        all.extend(own);
    }
    all.sort_unstable();
    is_rising(&all) && all.iter().all(|arrival| (1..=table[ACCEPTED]).contains(arrival))
}

/// A stated node is a child of the root.
fn stated_places(table: &[i64]) -> bool {
    let is_stated = |&node: &usize| get(table, node, KIND) == STATED;
    used_nodes(table)
        .filter(is_stated)
        .all(|node| parent(table, node).is_none_or(|parent| parent == ROOT))
}

fn stated_rates(table: &[i64]) -> bool {
    shares_under(table, ROOT, STATED) <= i128::from(get(table, ROOT, RATE))
}

/// "Place 9 of a client's record becomes its port, 0 or 1"; "for classes it stays zero".
/// That of an unused record is left to the clause on these.
fn ports(table: &[i64]) -> bool {
    ports_hold(table, port_is_lawful)
}

/// Whether the ports of all classes and clients are lawful by that function of sort and
/// port.
pub(crate) fn ports_hold(table: &[i64], is_lawful: impl Fn(i64, i64) -> bool) -> bool {
    used_nodes(table).all(|node| match get(table, node, SORT) {
        sort @ (CLASS | CLIENT) => is_lawful(sort, get(table, node, PORT)),
        _ => true,
    })
}

/// A node's depth in grains, wide enough for any contents.
fn depth_grains(table: &[i64], node: usize) -> i128 {
    i128::from(get(table, node, DEPTH)) * i128::from(GRAINS)
}

fn all_zero(numbers: &[i64]) -> bool {
    numbers.iter().fold(0, |bits, number| bits | number) == 0
}

/// Each number is above the one before it.
fn is_rising(numbers: &[i64]) -> bool {
    numbers.windows(2).all(|pair| pair[0] < pair[1])
}
