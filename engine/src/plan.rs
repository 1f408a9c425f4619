//! Plan files of both editions: reading, writing and checking.

use crate::calls;
use crate::controller::NewNode;
use crate::refusal::*;
use crate::table::*;

/// Bytes in a plan's head.
pub const HEAD_LEN: usize = 9;
/// Bytes in one entry of the contents.
pub const ENTRY_LEN: usize = 4;
/// Largest count of entries.
pub const MAX_COUNT: usize = NODES - 1;
/// The bytes before the head of a plan of the second edition.
pub const MARK: [u8; 4] = [0xFF; 4];

/// Bytes of a body beside its share: kind 1, depth 4.
const BODY_WITHOUT_SHARE: usize = 5;

/// The editions of plans.
#[derive(Clone, Copy, Debug, PartialEq, Eq)]
pub enum Edition {
    /// Without a mark; shares have 2 bytes, and no node is stated.
    First,
    /// With four bytes FF before the head; shares have 4 bytes.
    Second,
}

impl Edition {
    /// Both, in order.
    pub const ALL: [Edition; 2] = [Edition::First, Edition::Second];

    /// The edition of some bytes: those that begin with the mark are of the second, and
    /// all others of the first.
    pub fn of(bytes: &[u8]) -> Edition {
        if bytes.starts_with(&MARK) {
            Edition::Second
        } else {
            Edition::First
        }
    }

    /// The edition of that number, if there is one.
    pub fn of_number(number: i64) -> Option<Edition> {
        Edition::ALL.into_iter().find(|edition| edition.number() == number)
    }

    /// 1 or 2.
    pub fn number(self) -> i64 {
        match self {
            Edition::First => 1,
            Edition::Second => 2,
        }
    }

    /// Bytes in a plan of `count` nodes.
    pub fn plan_len(self, count: usize) -> usize {
        self.form().plan_len(count)
    }

    /// How its bytes stand.
    pub(crate) fn form(self) -> Form {
        match self {
            Edition::First => {
                Form { mark_len: 0, share_len: 2, offsets_from: Some(0), has_stated: false }
            }
            Edition::Second => {
                Form { mark_len: 4, share_len: 4, offsets_from: Some(0), has_stated: true }
            }
        }
    }
}

/// What a plan says: the disk and its nodes, in the plan's order.
#[derive(Clone, Debug, PartialEq, Eq)]
pub struct Plan {
    /// Disk rate.
    pub rate: i64,
    /// Root depth.
    pub depth: i64,
    /// The nodes below the root.
    pub nodes: Vec<NewNode>,
}

impl Plan {
    /// Decodes a plan of right form, whatever its numbers are. All of cause
    /// 14 is judged here: length, count, offsets and kinds.
    pub fn decode(bytes: &[u8]) -> Answer<Plan> {
        Edition::of(bytes).form().decode(bytes)
    }

    /// Encodes the plan in an edition. Numbers too wide for their bytes lose their high
    /// ones, and the first edition has kinds for stated nodes that no reader knows.
    pub fn encode(&self, edition: Edition) -> Vec<u8> {
        edition.form().encode(self)
    }

    /// Whether a node is stated, for which the first edition has no kind.
    pub fn has_stated(&self) -> bool {
        self.nodes.iter().any(|new| new.kind == STATED)
    }

    /// The plan of a table in order, by level and then by number.
    pub fn of_table(table: &[i64]) -> Plan {
        let mut numbers: Vec<usize> = used_nodes(table).filter(|&node| node != ROOT).collect();
        numbers.sort_by_key(|&node| (get(table, node, LEVEL), node));
        Plan {
            rate: get(table, ROOT, RATE),
            depth: get(table, ROOT, DEPTH),
            nodes: numbers.into_iter().map(|node| node_of_table(table, node)).collect(),
        }
    }

    /// The table that the plan opens and its entries join in turn.
    pub(crate) fn joined(&self) -> Answer<[i64; TABLE_LEN]> {
        let mut table = [0; TABLE_LEN];
        calls::open(&mut table, self.rate, self.depth)?;
        for new in &self.nodes {
            calls::join(&mut table, new)?;
        }
        require(self.stands_in_order(&table), PLAN_OUT_OF_ORDER)?;
        Ok(table)
    }

    /// Whether the entries, all joined in `table`, stand by level, then number.
    fn stands_in_order(&self, table: &[i64]) -> bool {
        let keys: Vec<(i64, i64)> =
            self.nodes.iter().map(|new| (get(table, new.node as usize, LEVEL), new.node)).collect();
        keys.windows(2).all(|pair| pair[0] < pair[1])
    }
}

/// Plan read: opens a table and joins the entries in turn; answers the edition's
/// number. The table has the right length; a refused plan leaves it as it was.
pub(crate) fn read(bytes: &[u8], table: &mut [i64]) -> Answer<i64> {
    let fresh = Plan::decode(bytes)?.joined()?;
    table.copy_from_slice(&fresh);
    Ok(Edition::of(bytes).number())
}

/// Plan write, in the edition of that number: returns the plan's length. The table is
/// in order.
pub(crate) fn write(table: &[i64], edition: i64, buffer: &mut [u8]) -> Answer<i64> {
    let edition = Edition::of_number(edition).ok_or(OUTSIDE_LIMITS)?;
    let plan = Plan::of_table(table);
    let bytes = plan.encode(edition);
    require(buffer.len() >= bytes.len(), BUFFER_SHORT)?;
    require(edition == Edition::Second || !plan.has_stated(), STATED_WRONG)?;
    buffer[..bytes.len()].copy_from_slice(&bytes);
    Ok(bytes.len() as i64)
}

/// Plan check: 0, or the number that reading into a table of right length
/// gives.
pub fn check(plan: &[u8]) -> i64 {
    let mut table = [0; TABLE_LEN];
    match read(plan, &mut table) {
        Ok(_) => 0,
        Err(number) => number,
    }
}

/// How the bytes of a plan stand. That of an edition is the right one; others are for
/// bytes that no reader takes, and for readers and writers with faults.
#[derive(Clone, Copy, Debug, PartialEq, Eq)]
pub(crate) struct Form {
    /// Bytes FF before the head.
    pub(crate) mark_len: usize,
    /// Bytes of a share.
    pub(crate) share_len: usize,
    /// The place that offsets count from; without one they are not looked at.
    pub(crate) offsets_from: Option<usize>,
    /// Whether it has the kinds of stated nodes.
    pub(crate) has_stated: bool,
}

impl Form {
    fn body_len(self) -> usize {
        BODY_WITHOUT_SHARE + self.share_len
    }

    /// Bytes in a plan of `count` nodes.
    pub(crate) fn plan_len(self, count: usize) -> usize {
        self.mark_len + HEAD_LEN + (ENTRY_LEN + self.body_len()) * count
    }

    /// The place of an entry.
    pub(crate) fn entry_at(self, index: usize) -> usize {
        self.mark_len + HEAD_LEN + ENTRY_LEN * index
    }

    /// The place of a body in a plan of `count` nodes.
    pub(crate) fn body_at(self, count: usize, index: usize) -> usize {
        self.entry_at(count) + self.body_len() * index
    }

    /// The count of entries, any byte, if the bytes have a whole head.
    pub(crate) fn count(self, bytes: &[u8]) -> Option<usize> {
        bytes.get(self.mark_len + HEAD_LEN - 1).map(|&count| usize::from(count))
    }

    /// Decodes a plan, whatever stands in the mark's place.
    pub(crate) fn decode(self, bytes: &[u8]) -> Answer<Plan> {
        let count = self.count(bytes).ok_or(PLAN_WRONG)?;
        require(count <= MAX_COUNT, PLAN_WRONG)?;
        require(bytes.len() == self.plan_len(count), PLAN_WRONG)?;
        let nodes: Answer<Vec<NewNode>> =
            (0..count).map(|index| self.decode_node(bytes, count, index)).collect();
        let head = &bytes[self.mark_len..];
        Ok(Plan { rate: unsigned(&head[0..4]), depth: unsigned(&head[4..8]), nodes: nodes? })
    }

    fn decode_node(self, bytes: &[u8], count: usize, index: usize) -> Answer<NewNode> {
        let entry = &bytes[self.entry_at(index)..][..ENTRY_LEN];
        let place = self.body_at(count, index);
        let is_there = |from: usize| unsigned(&entry[2..4]) == place as i64 - from as i64;
        require(self.offsets_from.is_none_or(is_there), PLAN_WRONG)?;
        let body = &bytes[place..place + self.body_len()];
        let (share, depth) = body[1..].split_at(self.share_len);
        let (sort, kind) = sort_and_kind(body[0]).ok_or(PLAN_WRONG)?;
        require(self.has_stated || kind != STATED, PLAN_WRONG)?;
        Ok(NewNode {
            node: i64::from(entry[0]),
            parent: i64::from(entry[1]),
            sort,
            kind,
            share: unsigned(share),
            depth: unsigned(depth),
            port: 0,
        })
    }

    /// Encodes a plan.
    pub(crate) fn encode(self, plan: &Plan) -> Vec<u8> {
        let count = plan.nodes.len();
        let mut bytes = vec![0xFF; self.mark_len];
        push_low_first(&mut bytes, plan.rate, 4);
        push_low_first(&mut bytes, plan.depth, 4);
        push_low_first(&mut bytes, count as i64, 1);
        for (index, new) in plan.nodes.iter().enumerate() {
            let place = self.body_at(count, index) as i64;
            push_low_first(&mut bytes, new.node, 1);
            push_low_first(&mut bytes, new.parent, 1);
            push_low_first(&mut bytes, place - self.offsets_from.unwrap_or(0) as i64, 2);
        }
        for new in &plan.nodes {
            push_low_first(&mut bytes, plan_kind(new.sort, new.kind), 1);
            push_low_first(&mut bytes, new.share, self.share_len);
            push_low_first(&mut bytes, new.depth, 4);
        }
        bytes
    }
}

/// What a plan says of a node: all but its port, for which 0 stands, since "plans put every
/// client on port 0".
fn node_of_table(table: &[i64], node: usize) -> NewNode {
    NewNode {
        node: node as i64,
        parent: get(table, node, PARENT),
        sort: get(table, node, SORT),
        kind: get(table, node, KIND),
        share: get(table, node, SHARE),
        depth: get(table, node, DEPTH),
        port: 0,
    }
}

/// "Kind 0 class fixed, 1 class weighted, 2 client fixed, 3 client weighted", and "4
/// (class stated) and 5 (client stated)".
fn sort_and_kind(plan_kind: u8) -> Option<(i64, i64)> {
    match plan_kind {
        0 => Some((CLASS, FIXED)),
        1 => Some((CLASS, WEIGHTED)),
        2 => Some((CLIENT, FIXED)),
        3 => Some((CLIENT, WEIGHTED)),
        4 => Some((CLASS, STATED)),
        5 => Some((CLIENT, STATED)),
        _ => None,
    }
}

fn plan_kind(sort: i64, kind: i64) -> i64 {
    let is_client = i64::from(sort == CLIENT);
    match kind {
        STATED => 4 + is_client,
        _ => kind + 2 * is_client,
    }
}

/// An unsigned integer of at most 4 bytes, low byte first.
fn unsigned(bytes: &[u8]) -> i64 {
    bytes.iter().rev().fold(0, |value, &byte| value * 256 + i64::from(byte))
}

fn push_low_first(bytes: &mut Vec<u8>, value: i64, width: usize) {
    bytes.extend_from_slice(&value.to_le_bytes()[..width]);
}
