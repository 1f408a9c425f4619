//! Ports misread: which of them a join takes, which tables are in order, when a list is too
//! short, which dispatches stand on which list, what is counted, and what plans do with
//! ports. Without a fault the lists and their counts are the documents' once more.

use crate::calls;
use crate::controller::{Counts, Lists, NewNode};
use crate::faulty::{Fault, Ports};
use crate::faulty_parts::{self, Dispatched};
use crate::order::*;
use crate::refusal::*;
use crate::table::*;
use crate::tick::{entry, ENTRY_LEN};

/// A join with that misreading. `left` is the port of the last client that left from the
/// number.
pub(crate) fn join(
    wrong: Ports,
    table: &mut [i64],
    new: &NewNode,
    left: Option<i64>,
) -> Answer<i64> {
    // The call with a port that is never refused, and whether its own port is.
    let lawful = NewNode { port: 0, ..*new };
    let is_refused = !port_is_lawful(new.sort, new.port);
    let is_class = new.sort == CLASS;
    let before = table.to_vec();
    let otherwise = || calls::join(&mut before.clone(), &lawful);
    let taken = match wrong {
        Ports::TwoAccepted if !is_class && new.port == 2 => Some(2),
        Ports::MinusOneAccepted if !is_class && new.port == -1 => Some(-1),
        Ports::LowBitsAccepted if port_is_lawful(new.sort, low_bits(new.port)) => {
            Some(low_bits(new.port))
        }
        Ports::ClassOnOne if is_class && new.port == 1 => Some(1),
        Ports::ClassIgnored if is_class => Some(0),
        Ports::NotStored if !is_refused => Some(0),
        Ports::KeptForNext if !is_refused && !is_class => left,
        _ => None,
    };
    if let Some(port) = taken {
        let answer = calls::join(table, &lawful)?;
        set(table, new.node as usize, PORT, port);
        return Ok(answer);
    }
    match (wrong, is_refused) {
        (Ports::ClassIsFive, true) if is_class && new.port == 1 => match otherwise() {
            Err(number @ ..WRONG_NODE) => Err(number),
            _ => Err(WRONG_NODE),
        },
        (Ports::BehindFive, true) => match otherwise() {
            Err(number @ ..=WRONG_NODE) => Err(number),
            _ => Err(OUTSIDE_LIMITS),
        },
        (Ports::BehindEight, true) => match otherwise() {
            Err(number @ ..=DEPTH_ABOVE) => Err(number),
            _ => Err(OUTSIDE_LIMITS),
        },
        (Ports::BehindAll, true) => otherwise().and(Err(OUTSIDE_LIMITS)),
        _ => calls::join(table, new),
    }
}

/// The low 32 bits of a number, with their sign.
fn low_bits(number: i64) -> i64 {
    i64::from(number as i32)
}

/// A change of share with that misreading.
pub(crate) fn change_share(
    wrong: Ports,
    table: &mut [i64],
    node: i64,
    kind: i64,
    share: i64,
) -> Answer<i64> {
    let is_on_second = node_number(node).is_some_and(|node| port(table, node) == 1);
    if wrong == Ports::ShareRefuses && is_on_second {
        return Err(OUTSIDE_LIMITS);
    }
    let answer = calls::change_share(table, node, kind, share)?;
    if wrong == Ports::ShareResets {
        set(table, node as usize, PORT, 0);
    }
    Ok(answer)
}

/// Whether a clause of the in-order test holds by that misreading.
pub(crate) fn holds(wrong: Ports, clause: usize, table: &[i64]) -> bool {
    match (wrong, clause) {
        (Ports::OrderAny, PORTS_CLAUSE) => true,
        (Ports::OrderClassOne, PORTS_CLAUSE) => {
            ports_hold(table, |_, port| port_is_lawful(CLIENT, port))
        }
        (Ports::OrderUpToTwo, PORTS_CLAUSE) => ports_hold(table, |sort, port| {
            port_is_lawful(sort, port) || sort == CLIENT && port == 2
        }),
        (Ports::OrderStillZero, PORTS_CLAUSE) => ports_hold(table, |_, port| port == 0),
        (Ports::OrderLowBits, PORTS_CLAUSE) => {
            ports_hold(table, |sort, port| port_is_lawful(sort, low_bits(port)))
        }
        (Ports::OrderSpareFree, ZEROS_CLAUSE) => {
            let used = |node: usize| is_used(table, node).then_some(SPARE..QUEUE);
            CLAUSES[clause].1(&zeroed(table, used))
        }
        (Ports::OrderUnusedFree, ZEROS_CLAUSE) => {
            let unused = |node: usize| (!is_used(table, node)).then_some(PORT..SPARE);
            CLAUSES[clause].1(&zeroed(table, unused))
        }
        _ => CLAUSES[clause].1(table),
    }
}

/// The table with zeros in these places of the records.
fn zeroed(table: &[i64], places: impl Fn(usize) -> Option<std::ops::Range<usize>>) -> Vec<i64> {
    let mut table = table.to_vec();
    for node in 0..NODES {
        if let Some(places) = places(node) {
            table[at(node, places.start)..at(node, places.end)].fill(0);
        }
    }
    table
}

/// Judges 13.
pub(crate) fn room_judged(fault: Fault, table: &[i64], lists: &Lists) -> Answer<()> {
    let lens = lists.each_ref().map(|list| list.len());
    let is_enough = |needed: [usize; PORTS]| (0..PORTS).all(|port| lens[port] >= needed[port]);
    let own = waiting_by_port(table).map(|count| ENTRY_LEN * count);
    let all: usize = own.iter().sum();
    let Fault::WrongPorts(wrong) = fault else {
        let more = usize::from(fault == Fault::ShortTooEarly);
        return require(is_enough(own.map(|len| len + more * len.min(1))), BUFFER_SHORT);
    };
    let holds = match wrong {
        Ports::ShortByAll => is_enough([all, all]),
        Ports::ShortFirstOnly => is_enough([own[0], 0]),
        Ports::ShortSecondOnly => is_enough([0, own[1]]),
        Ports::ShortBySum => lens.iter().sum::<usize>() >= all,
        Ports::ShortByOther | Ports::Exchanged => is_enough([own[1], own[0]]),
        Ports::ShortIfBoth => (0..PORTS).any(|port| lens[port] >= own[port]),
        Ports::ShortByGone => is_enough(gone_by_port(table).map(|count| ENTRY_LEN * count)),
        Ports::ShortIfEmpty => is_enough(own) && !lens.contains(&0),
        Ports::AllOnFirst => is_enough([all, 0]),
        _ => is_enough(own),
    };
    require(holds, BUFFER_SHORT)
}

/// Writes the first list, if it is long enough, as a tick of the table would, which stays.
pub(crate) fn write_first(table: &[i64], [first, _]: Lists) {
    if first.len() >= ENTRY_LEN * waiting_by_port(table)[0] {
        let gone = faulty_parts::tick(Fault::None, &mut table.to_vec());
        listed(Fault::None, table, gone, [first, &mut []]);
    }
}

/// How many requests of each port's clients a tick of the table dispatches.
fn gone_by_port(table: &[i64]) -> [usize; PORTS] {
    let mut counts = [0; PORTS];
    for one in faulty_parts::tick(Fault::None, &mut table.to_vec()) {
        counts[port(table, one.client)] += 1;
    }
    counts
}

/// Puts the dispatches of a tick on the lists and counts them. What has no room is left out.
pub(crate) fn listed(
    fault: Fault,
    table: &[i64],
    mut gone: Vec<Dispatched>,
    mut lists: Lists,
) -> Counts {
    let has = |wrong: Ports| fault == Fault::WrongPorts(wrong);
    if has(Ports::ByClient) {
        gone.sort_by_key(|one| one.client);
    }
    if has(Ports::ByArrival) {
        gone.sort_by_key(|one| one.request.arrival);
    }
    let mut counts = [0; PORTS];
    for (place, one) in gone.iter().enumerate() {
        let list = match port(table, one.client) {
            _ if has(Ports::AllOnFirst) => 0,
            _ if has(Ports::BySupplier) => port(table, one.supplier),
            port if has(Ports::Exchanged) => 1 - port,
            port => port,
        };
        let place = if has(Ports::Gaps) { place } else { counts[list] };
        put(lists[list], place, one);
        counts[list] += 1;
    }
    if has(Ports::SecondTwice) {
        let room = lists[1].len() / ENTRY_LEN;
        let again: Vec<&Dispatched> =
            gone.iter().filter(|one| port(table, one.client) == 1).collect();
        for one in again.into_iter().take(room - counts[1]) {
            put(lists[1], counts[1], one);
            counts[1] += 1;
        }
    }
    if has(Ports::ClearsRest) {
        for (list, count) in lists.iter_mut().zip(counts) {
            list[ENTRY_LEN * count..].fill(0);
        }
    }
    let [first, second] = counts.map(|count| count as i64);
    match fault {
        Fault::WrongPorts(Ports::CountsExchanged) => [second, first],
        Fault::WrongPorts(Ports::FirstTotal) => [first + second, second],
        Fault::WrongPorts(Ports::SecondTotal) => [first, first + second],
        Fault::WrongPorts(Ports::SecondZero) => [first, 0],
        _ => [first, second],
    }
}

/// Puts a dispatch at a place of a list, if there is room.
fn put(list: &mut [i64], place: usize, one: &Dispatched) {
    if let Some(room) = list.chunks_exact_mut(ENTRY_LEN).nth(place) {
        room.copy_from_slice(&entry(one.client, one.request, one.supplier));
    }
}

/// Does something with the table as if nothing waited at the clients of other ports.
pub(crate) fn with_port_alone(table: &mut [i64], alone: usize, act: impl FnOnce(&mut [i64])) {
    let others: Vec<(usize, i64)> = clients(table)
        .filter(|&client| port(table, client) != alone)
        .map(|client| (client, get(table, client, WAITING)))
        .collect();
    others.iter().for_each(|&(client, _)| set(table, client, WAITING, 0));
    act(table);
    others.iter().for_each(|&(client, count)| set(table, client, WAITING, count));
}

/// A tick for each port by itself, from the same balances. The classes keep those that the
/// first leaves, and every client those of its own port's.
pub(crate) fn tick_of_each(table: &mut [i64]) -> Vec<Dispatched> {
    let mut second = table.to_vec();
    let mut gone = Vec::new();
    for (port, table) in [&mut *table, &mut second[..]].into_iter().enumerate() {
        with_port_alone(table, port, |table| {
            gone.extend(faulty_parts::tick(Fault::None, table));
        });
    }
    for client in (0..NODES).filter(|&node| is_client(&second, node)) {
        if port(&second, client) == 1 {
            table[at(client, 0)..at(client + 1, 0)].copy_from_slice(record(&second, client));
        }
    }
    gone
}

/// What a plan's reading does with the ports of the table that it makes, given the table
/// before it, of any contents.
pub(crate) fn put_after_read(wrong: Ports, before: &[i64], table: &mut [i64]) {
    let all: Vec<usize> = clients(table).collect();
    for client in all {
        match (wrong, get(before, client, PORT)) {
            (Ports::ReadPutsOne, _) => set(table, client, PORT, 1),
            (Ports::ReadKeeps, old @ 0..=1) => set(table, client, PORT, old),
            _ => {}
        }
    }
}
