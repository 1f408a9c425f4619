//! Random plans of both editions: right ones, and ones that are wrong in every way.

use crate::controller::NewNode;
use crate::plan::{Edition, Form, Plan, HEAD_LEN};
use crate::random::Rng;
use crate::table::*;

/// Disk rates whose low bytes are FF, in one byte up to four. The last one is no rate,
/// and makes a plan begin as those of the second edition do.
const MARKED_RATES: [i64; 7] =
    [0xFF, 0xFFFF, 0xFF_FFFF, 0x1FF_FFFF, 0x3AFF_FFFF, 0x3BFF_FFFF, 0xFFFF_FFFF];

/// A plan made from a right one (or from that of a zeroed table), as it is or
/// with something changed.
pub fn any(rng: &mut Rng, right: &Plan) -> Vec<u8> {
    let edition = edition_for(rng, right);
    let form = edition.form();
    match rng.below(14) {
        0 | 1 => right.encode(edition),
        2 => {
            let plan = random_tree(rng);
            plan.encode(edition_for(rng, &plan))
        }
        3 | 4 => change_number(rng, right).encode(edition),
        5 => shuffle(rng, right).encode(edition),
        6 | 7 => change_form(rng, form, right),
        8 => change_length(rng, form.encode(right)),
        9 => change_bytes(rng, form.encode(right)),
        10 | 11 => other_form(rng, right),
        12 => {
            let changed =
                if rng.chance(50) { state_more(rng, right) } else { change_number(rng, right) };
            shuffle(rng, &changed).encode(edition)
        }
        _ => random_bytes(rng),
    }
}

/// An edition for a plan: mostly one that has kinds for all its nodes.
pub fn edition_for(rng: &mut Rng, plan: &Plan) -> Edition {
    if plan.has_stated() && rng.chance(85) {
        Edition::Second
    } else {
        rng.pick(&Edition::ALL)
    }
}

/// A tree made without regard to the rules on sums; often in order of joining
/// but not of level.
fn random_tree(rng: &mut Rng) -> Plan {
    let rate = rng.between(1, 1_000_000);
    let mut nodes: Vec<NewNode> = Vec::new();
    let mut parents = vec![0];
    for _ in 0..rng.below(12) {
        let node = rng.between(1, 63);
        let sort = rng.pick(&[CLASS, CLASS, CLIENT]);
        let parent = rng.pick(&parents);
        let kind = match parent {
            0 => rng.pick(&KINDS),
            _ if rng.chance(5) => STATED,
            _ => rng.pick(&[FIXED, WEIGHTED]),
        };
        let most = if kind == STATED { rate / 2 } else { 3000 };
        let share = rng.between(1, most);
        nodes.push(NewNode { node, parent, sort, kind, share, depth: 1, port: 0 });
        if sort == CLASS || rng.chance(5) {
            parents.push(node);
        }
    }
    // Most depths are what the children need, so that deep trees pass.
    for index in (0..nodes.len()).rev() {
        let children = nodes.iter().filter(|child| child.parent == nodes[index].node);
        let needed: i64 = children.map(|child| child.depth).sum();
        nodes[index].depth = needed.max(1);
    }
    if rng.chance(60) {
        let levels: Vec<usize> = nodes.iter().map(|new| level(&nodes, new)).collect();
        let mut keyed: Vec<(usize, NewNode)> = levels.into_iter().zip(nodes).collect();
        keyed.sort_by_key(|(level, new)| (*level, new.node));
        nodes = keyed.into_iter().map(|(_, new)| new).collect();
    }
    Plan { rate, depth: rng.between(5, 1000), nodes }
}

/// How many steps a node is below the root, counted no further than 64.
pub(crate) fn level(nodes: &[NewNode], new: &NewNode) -> usize {
    let mut parent = new.parent;
    for level in 1..NODES {
        match nodes.iter().find(|other| other.node == parent) {
            Some(above) => parent = above.parent,
            None => return level,
        }
    }
    NODES
}

/// Changes one number of a plan to one at or beyond its limits.
fn change_number(rng: &mut Rng, right: &Plan) -> Plan {
    let mut plan = right.clone();
    if plan.nodes.is_empty() || rng.chance(20) {
        let marked = rng.pick(&MARKED_RATES);
        let value =
            rng.pick(&[0, 1, MAX_DEPTH, MAX_DEPTH + 1, MAX_RATE, MAX_RATE + 1, 0xFFFF_FFFF]);
        if rng.chance(60) {
            plan.rate = rng.pick(&[value, marked]);
        } else {
            plan.depth = value;
        }
        return plan;
    }
    let rate = plan.rate;
    let index = rng.below(plan.nodes.len());
    let other = rng.pick(&plan.nodes).node;
    let any = rng.between(0, 63);
    let new = &mut plan.nodes[index];
    match rng.below(8) {
        0 => new.node = rng.pick(&[0, 1, 63, 64, 255, any, other]),
        1 => new.parent = rng.pick(&[0, 1, 63, 64, 255, any, other]),
        2 => new.sort = CLASS + CLIENT - new.sort,
        3 => new.kind = rng.pick(&KINDS),
        4 => new.share = any_share(rng, rate, new.share),
        5 => {
            new.kind = STATED;
            new.share = any_share(rng, rate, new.share);
        }
        6 => {
            // Too much beside another fixed share.
            new.kind = FIXED;
            new.share = MAX_SHARE;
        }
        _ => new.depth = rng.pick(&[0, 1, new.depth + 1, MAX_DEPTH, MAX_DEPTH + 1, 0xFFFF_FFFF]),
    }
    plan
}

/// Makes a node stated, with more than the disk has.
fn state_more(rng: &mut Rng, right: &Plan) -> Plan {
    let mut plan = right.clone();
    if !plan.nodes.is_empty() {
        let index = rng.below(plan.nodes.len());
        plan.nodes[index].kind = STATED;
        plan.nodes[index].share = (plan.rate + 1).min(MAX_RATE);
    }
    plan
}

/// A share at or beyond the limits of any kind, about the disk's rate, or the one that it
/// is in its low two bytes.
fn any_share(rng: &mut Rng, rate: i64, share: i64) -> i64 {
    let limit = rng.pick(&[0, 1, MAX_SHARE, MAX_SHARE + 1, MAX_RATE, MAX_RATE + 1]);
    let wide = rng.pick(&[0xFFFF, 0xFFFF_FFFF, share % 0x1_0000 + 0x1_0000]);
    rng.pick(&[limit, limit, wide, rate, rate + 1])
}

/// Puts two entries, with their bodies, in each other's place.
fn shuffle(rng: &mut Rng, right: &Plan) -> Plan {
    let mut plan = right.clone();
    if plan.nodes.len() >= 2 {
        let first = rng.below(plan.nodes.len() - 1);
        let far = rng.below(plan.nodes.len());
        let second = rng.pick(&[first + 1, far]);
        plan.nodes.swap(first, second);
    }
    plan
}

/// Changes the mark, the count, an offset or a kind.
fn change_form(rng: &mut Rng, form: Form, right: &Plan) -> Vec<u8> {
    let mut bytes = form.encode(right);
    let count = right.nodes.len();
    let any = rng.bits() as u8;
    let place = match rng.below(4) {
        0 if form.mark_len > 0 => rng.below(form.mark_len),
        1 if count > 0 => form.entry_at(rng.below(count)) + 2 + rng.below(2),
        2 | 3 if count > 0 => form.body_at(count, rng.below(count)),
        _ => form.mark_len + HEAD_LEN - 1,
    };
    let byte = bytes[place];
    bytes[place] = rng.pick(&[
        byte.wrapping_add(1),
        byte.wrapping_sub(1),
        byte.wrapping_add(4),
        byte.wrapping_sub(4),
        0,
        3,
        4,
        5,
        6,
        63,
        64,
        255,
        any,
    ]);
    bytes
}

/// A form between the editions: some bytes FF before the head, a share of some bytes,
/// offsets that count from the first byte, from the head, or as in the other edition.
fn other_form(rng: &mut Rng, right: &Plan) -> Vec<u8> {
    let mark_len = rng.pick(&[0, 0, 1, 2, 3, 4, 4, 4, 5, 8]);
    let share_len = rng.pick(&[2, 2, 4, 4, 3]);
    let offsets_from = Some(rng.pick(&[0, 0, mark_len]));
    let form = Form { mark_len, share_len, offsets_from, has_stated: true };
    let bytes = form.encode(right);
    if rng.chance(80) {
        return bytes;
    }
    // A plan of the other edition behind a mark, or without its own.
    match Edition::of(&bytes) {
        Edition::First => [&[0xFF; 4], &bytes[..]].concat(),
        Edition::Second => bytes[4..].to_vec(),
    }
}

/// Cuts the plan short or adds bytes behind it.
fn change_length(rng: &mut Rng, mut bytes: Vec<u8>) -> Vec<u8> {
    let len = bytes.len();
    let any = rng.below(2 * len);
    let short = rng.pick(&[0, 3, 4, 8, 9, 12, 13]);
    bytes.resize(rng.pick(&[short, len - 1, len + 1, len + 11, len + 13, any]), 0);
    bytes
}

/// Changes a few bytes anywhere.
fn change_bytes(rng: &mut Rng, mut bytes: Vec<u8>) -> Vec<u8> {
    for _ in 0..1 + rng.below(3) {
        let place = rng.below(bytes.len());
        bytes[place] = rng.bits() as u8;
    }
    bytes
}

/// Random bytes, at times of a length that fits the count, behind a mark or without one.
fn random_bytes(rng: &mut Rng) -> Vec<u8> {
    let count = rng.below(64);
    let form = rng.pick(&Edition::ALL).form();
    let len = rng.pick(&[0, 1, 4, 8, 9, 13, form.plan_len(count), 5 * count]);
    let mut bytes: Vec<u8> = (0..len).map(|_| rng.bits() as u8).collect();
    if len >= form.plan_len(0) && rng.chance(70) {
        bytes[..form.mark_len].fill(0xFF);
        bytes[form.mark_len + HEAD_LEN - 1] = count as u8;
    }
    bytes
}
