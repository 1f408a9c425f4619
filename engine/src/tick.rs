//! Tick, in its four steps. The table is in order.

use crate::controller::{Counts, Lists};
use crate::cost::grains;
use crate::refusal::{require, Answer, BUFFER_SHORT};
use crate::table::*;

/// Numbers that a list gets for each dispatch.
pub const ENTRY_LEN: usize = 4;

/// The callers' dispatch lists, one for each port, filled from the front.
struct DispatchLists<'a> {
    lists: Lists<'a>,
    counts: [usize; PORTS],
}

impl<'a> DispatchLists<'a> {
    fn new(lists: Lists<'a>) -> Self {
        DispatchLists { lists, counts: [0; PORTS] }
    }

    /// Adds an entry to the list of a port.
    fn add(&mut self, port: usize, entry: [i64; ENTRY_LEN]) {
        let start = ENTRY_LEN * self.counts[port];
        self.lists[port][start..start + ENTRY_LEN].copy_from_slice(&entry);
        self.counts[port] += 1;
    }

    fn counts(&self) -> Counts {
        self.counts.map(|count| count as i64)
    }
}

/// What the list gets of a dispatch: client, tag, size, supplier.
pub(crate) fn entry(client: usize, request: Waiting, supplier: usize) -> [i64; ENTRY_LEN] {
    [client as i64, request.tag, request.size, supplier as i64]
}

/// What the search for a supplier reports.
#[derive(Clone, Copy, Debug, PartialEq, Eq)]
pub(crate) struct Supply {
    /// The first node with enough balance on the way up.
    pub(crate) supplier: usize,
    /// How many steps it is above the client: 0 for the client itself, 1 for its
    /// class, at most 4 for the root.
    pub(crate) steps: usize,
}

/// Tick: returns how many dispatches each list received. A list is long enough for all
/// that waits at its own port's clients. The steps know no ports: a port is only the list
/// on which a client's dispatches stand.
pub(crate) fn tick(table: &mut [i64], lists: Lists) -> Answer<Counts> {
    let waiting = waiting_by_port(table);
    let is_long_enough = |port: usize| lists[port].len() >= ENTRY_LEN * waiting[port];
    require((0..PORTS).all(is_long_enough), BUFFER_SHORT)?;
    let mut lists = DispatchLists::new(lists);
    grow(table);
    serve_from_own_balance(table, &mut lists);
    cut(table);
    serve_nearest_first(table, &mut lists);
    Ok(lists.counts())
}

/// Step 1: every node's balance grows by its rate. Unused records have rate 0.
pub(crate) fn grow(table: &mut [i64]) {
    for node in 0..NODES {
        table[at(node, BALANCE)] += get(table, node, RATE);
    }
}

/// Step 2: clients in rising number dispatch what their own balance covers.
fn serve_from_own_balance(table: &mut [i64], lists: &mut DispatchLists) {
    for client in 0..NODES {
        while oldest(table, client)
            .is_some_and(|request| has_enough(table, client, grains(request.size)))
        {
            dispatch(table, lists, client, client);
        }
    }
}

/// Step 3: every balance above depth × 1000 is cut to that. Unused records have
/// depth and balance 0.
pub(crate) fn cut(table: &mut [i64]) {
    for node in 0..NODES {
        let full = in_grains(get(table, node, DEPTH));
        let balance = get(table, node, BALANCE);
        set(table, node, BALANCE, balance.min(full));
    }
}

/// Step 4: again and again the request whose supplier is the fewest steps above
/// its client goes, until no request has a supplier.
fn serve_nearest_first(table: &mut [i64], lists: &mut DispatchLists) {
    while let Some((client, supplier)) = next_supplied(table) {
        dispatch(table, lists, client, supplier);
    }
}

/// Of the clients whose oldest request has a supplier, the one with the fewest
/// steps and among those with the lowest arrival number, with that supplier.
fn next_supplied(table: &[i64]) -> Option<(usize, usize)> {
    clients(table)
        .filter_map(|client| {
            let request = oldest(table, client)?;
            let Supply { supplier, steps } = find_supply(table, client, grains(request.size))?;
            Some((steps, request.arrival, client, supplier))
        })
        .min()
        .map(|(_, _, client, supplier)| (client, supplier))
}

/// The first node with enough balance from the client up to the root, and its
/// steps above the client.
pub(crate) fn find_supply(table: &[i64], client: usize, needed: i64) -> Option<Supply> {
    path_to_root(table, client)
        .enumerate()
        .find(|&(_, node)| has_enough(table, node, needed))
        .map(|(steps, supplier)| Supply { supplier, steps })
}

/// The nodes from one up to the root, both included.
pub(crate) fn path_to_root(table: &[i64], node: usize) -> impl Iterator<Item = usize> + '_ {
    std::iter::successors(Some(node), |&node| parent(table, node))
}

/// Takes the client's oldest request out, puts it on the list of the client's port, and
/// charges its cost to the supplier and every node above it.
fn dispatch(table: &mut [i64], lists: &mut DispatchLists, client: usize, supplier: usize) {
    let request = take_oldest(table, client);
    lists.add(port(table, client), entry(client, request, supplier));
    let mut payer = Some(supplier);
    while let Some(node) = payer {
        table[at(node, BALANCE)] -= grains(request.size);
        payer = parent(table, node);
    }
}

/// A client's oldest waiting request. Nodes of other sorts have none.
pub(crate) fn oldest(table: &[i64], client: usize) -> Option<Waiting> {
    waiting(table, client).next()
}

pub(crate) fn has_enough(table: &[i64], node: usize, needed: i64) -> bool {
    get(table, node, BALANCE) >= needed
}
