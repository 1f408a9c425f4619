//! The account table: its layout, its limits, and plain access to its places.
//!
//! The functions here take a slice of [`TABLE_LEN`] numbers with any contents.

/// Numbers in the header.
pub const HEADER_LEN: usize = 8;
/// Numbers in one record.
pub const RECORD_LEN: usize = 40;
/// Records, one for each node number.
pub const NODES: usize = 64;
/// Numbers in the whole table.
pub const TABLE_LEN: usize = HEADER_LEN + RECORD_LEN * NODES;

/// Header place of the count of accepted requests.
pub const ACCEPTED: usize = 0;

/// Record place: 0 unused, 1 class, 2 client.
pub const SORT: usize = 0;
/// Record place: parent's node number.
pub const PARENT: usize = 1;
/// Record place: level, the root's being 0.
pub const LEVEL: usize = 2;
/// Record place: share kind.
pub const KIND: usize = 3;
/// Record place: share.
pub const SHARE: usize = 4;
/// Record place: depth in tokens.
pub const DEPTH: usize = 5;
/// Record place: rate in grains per tick.
pub const RATE: usize = 6;
/// Record place: balance in grains.
pub const BALANCE: usize = 7;
/// Record place: how many requests wait.
pub const WAITING: usize = 8;
/// Record place: port of a client.
pub const PORT: usize = 9;
/// First of the record places that are always zero.
pub const SPARE: usize = 10;
/// First place of the waiting requests.
pub const QUEUE: usize = 16;
/// Waiting requests that a record has room for.
pub const QUEUE_LEN: usize = 8;
/// Numbers in one waiting place: tag, size, arrival number.
pub const QUEUE_STEP: usize = 3;

/// Sort of an unused record.
pub const UNUSED: i64 = 0;
/// Sort of a class.
pub const CLASS: i64 = 1;
/// Sort of a client.
pub const CLIENT: i64 = 2;

/// Share kind: a part of 10,000 of the class's rate.
pub const FIXED: i64 = 0;
/// Share kind: a weight on what the fixed shares leave.
pub const WEIGHTED: i64 = 1;
/// Share kind: a rate in grains per tick, stated in the share's place.
pub const STATED: i64 = 2;
/// All share kinds.
pub const KINDS: [i64; 3] = [FIXED, WEIGHTED, STATED];

/// Ports of the cabinet, numbered from 0. Each has a dispatch list of its own.
pub const PORTS: usize = 2;

/// The root's node number.
pub const ROOT: usize = 0;
/// Largest fixed share or weight, and the whole that fixed shares are parts of.
pub const MAX_SHARE: i64 = 10_000;
/// Largest depth in tokens.
pub const MAX_DEPTH: i64 = 1_000_000;
/// Largest disk rate and largest stated rate, in grains per tick.
pub const MAX_RATE: i64 = 1_000_000_000;
/// Largest count of accepted requests.
pub const MAX_ACCEPTED: i64 = 9_000_000_000_000_000_000;
/// Lowest level that a class may stand on.
pub const MAX_CLASS_LEVEL: i64 = 3;
/// Grains in a token.
pub const GRAINS: i64 = 1000;

/// A waiting request.
#[derive(Clone, Copy, Debug, PartialEq, Eq)]
pub struct Waiting {
    /// The caller's tag, any number.
    pub tag: i64,
    /// Size in tokens.
    pub size: i64,
    /// Arrival number.
    pub arrival: i64,
}

/// The largest share of a kind, if the kind is known.
pub fn largest_share(kind: i64) -> Option<i64> {
    match kind {
        FIXED | WEIGHTED => Some(MAX_SHARE),
        STATED => Some(MAX_RATE),
        _ => None,
    }
}

/// Whether a kind is known and a share is within the limits of that kind.
pub fn share_is_lawful(kind: i64, share: i64) -> bool {
    largest_share(kind).is_some_and(|largest| (1..=largest).contains(&share))
}

/// Whether a node of that sort may have that port: "0 or 1", and of a class 0.
pub fn port_is_lawful(sort: i64, port: i64) -> bool {
    match sort {
        CLIENT => (0..PORTS as i64).contains(&port),
        _ => port == 0,
    }
}

/// Tokens in grains. They are no more than a depth may be.
pub fn in_grains(tokens: i64) -> i64 {
    tokens * GRAINS
}

/// Index of a record's place in the table.
pub fn at(node: usize, place: usize) -> usize {
    HEADER_LEN + RECORD_LEN * node + place
}

/// Reads a record's place.
pub fn get(table: &[i64], node: usize, place: usize) -> i64 {
    table[at(node, place)]
}

/// Writes a record's place.
pub(crate) fn set(table: &mut [i64], node: usize, place: usize, value: i64) {
    table[at(node, place)] = value;
}

/// The whole record of a node.
pub fn record(table: &[i64], node: usize) -> &[i64] {
    &table[at(node, 0)..at(node + 1, 0)]
}

/// An argument or a stored number as a node number, if it is 0 to 63.
pub fn node_number(number: i64) -> Option<usize> {
    usize::try_from(number).ok().filter(|&node| node < NODES)
}

/// Whether a node is there.
pub fn is_used(table: &[i64], node: usize) -> bool {
    get(table, node, SORT) != UNUSED
}

/// Whether a node is a class.
pub fn is_class(table: &[i64], node: usize) -> bool {
    get(table, node, SORT) == CLASS
}

/// Whether a node is a client.
pub fn is_client(table: &[i64], node: usize) -> bool {
    get(table, node, SORT) == CLIENT
}

/// The nodes that are there, in rising number.
pub fn used_nodes(table: &[i64]) -> impl Iterator<Item = usize> + '_ {
    (0..NODES).filter(|&node| is_used(table, node))
}

/// The classes, in rising number.
pub fn classes(table: &[i64]) -> impl Iterator<Item = usize> + '_ {
    (0..NODES).filter(|&node| is_class(table, node))
}

/// The clients, in rising number.
pub fn clients(table: &[i64]) -> impl Iterator<Item = usize> + '_ {
    (0..NODES).filter(|&node| is_client(table, node))
}

/// The parent of a node. The root, its own parent in the table, has none here:
/// it is nobody's child. A stored parent outside 0 to 63 gives none as well.
pub fn parent(table: &[i64], node: usize) -> Option<usize> {
    if node == ROOT {
        return None;
    }
    node_number(get(table, node, PARENT))
}

/// The children of a class, in rising number.
pub fn children(table: &[i64], class: usize) -> impl Iterator<Item = usize> + '_ {
    used_nodes(table).filter(move |&node| parent(table, node) == Some(class))
}

/// For every node number the sum of a number over the children of that node.
/// The sums are wide enough for any contents.
pub fn sums_over_children(table: &[i64], number: impl Fn(usize) -> i64) -> [i128; NODES] {
    let mut sums = [0; NODES];
    for node in used_nodes(table) {
        if let Some(parent) = parent(table, node) {
            sums[parent] += i128::from(number(node));
        }
    }
    sums
}

/// A node's share if it is of that kind, else 0.
pub fn share_of_kind(table: &[i64], node: usize, kind: i64) -> i64 {
    if get(table, node, KIND) == kind {
        get(table, node, SHARE)
    } else {
        0
    }
}

/// The shares of a kind of a class's children together, wide enough for any contents.
pub fn shares_under(table: &[i64], class: usize, kind: i64) -> i128 {
    children(table, class).map(|child| i128::from(share_of_kind(table, child, kind))).sum()
}

/// How many waiting places of a record are filled, 0 to 8 on any contents.
pub fn waiting_count(table: &[i64], node: usize) -> usize {
    get(table, node, WAITING).clamp(0, QUEUE_LEN as i64) as usize
}

/// One waiting place of a record.
pub fn waiting_at(table: &[i64], node: usize, index: usize) -> Waiting {
    let place = QUEUE + QUEUE_STEP * index;
    Waiting {
        tag: get(table, node, place),
        size: get(table, node, place + 1),
        arrival: get(table, node, place + 2),
    }
}

/// The filled waiting places of a record, oldest first.
pub fn waiting(table: &[i64], node: usize) -> impl Iterator<Item = Waiting> + '_ {
    (0..waiting_count(table, node)).map(move |index| waiting_at(table, node, index))
}

/// All waiting requests together.
pub fn waiting_in_all(table: &[i64]) -> usize {
    clients(table).map(|client| waiting_count(table, client)).sum()
}

/// The port of a node, 0 or 1 on any contents.
pub fn port(table: &[i64], node: usize) -> usize {
    get(table, node, PORT).clamp(0, PORTS as i64 - 1) as usize
}

/// For each port the waiting requests of its clients together.
pub fn waiting_by_port(table: &[i64]) -> [usize; PORTS] {
    let mut waiting = [0; PORTS];
    for client in clients(table) {
        waiting[port(table, client)] += waiting_count(table, client);
    }
    waiting
}

/// Puts a request behind the others of a client that has room.
pub(crate) fn append_waiting(table: &mut [i64], client: usize, request: Waiting) {
    let count = waiting_count(table, client);
    let place = at(client, QUEUE + QUEUE_STEP * count);
    table[place..place + QUEUE_STEP].copy_from_slice(&[request.tag, request.size, request.arrival]);
    set(table, client, WAITING, count as i64 + 1);
}

/// Takes a client's oldest request out; those behind it move up.
pub(crate) fn take_oldest(table: &mut [i64], client: usize) -> Waiting {
    let oldest = waiting_at(table, client, 0);
    let end = at(client, RECORD_LEN);
    table.copy_within(at(client, QUEUE + QUEUE_STEP)..end, at(client, QUEUE));
    table[end - QUEUE_STEP..end].fill(0);
    let count = get(table, client, WAITING);
    set(table, client, WAITING, count - 1);
    oldest
}
