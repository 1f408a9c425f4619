//! Parts of the controllers with faults: wrong rates, costs and lost grains, and
//! a request and a tick that can go wrong. Without a fault these are the
//! documents' once more. What a tick dispatches is kept as one sequence; `faulty_ports`
//! puts it on the lists.

use crate::cost::cost;
use crate::faulty::{Fault, Lost, Pick, Ports};
use crate::faulty_picks::StepFour;
use crate::order::{sizes_fit, CLAUSES, SIZES_CLAUSE};
use crate::rates::Division;
use crate::refusal::*;
use crate::table::*;
use crate::tick::{cut, grow, has_enough, oldest, path_to_root};
use crate::{arguments, calls, faulty_ports, faulty_stated, rates};

/// A dispatch, in the sequence of a tick's.
#[derive(Clone, Copy, Debug)]
pub(crate) struct Dispatched {
    pub(crate) client: usize,
    pub(crate) request: Waiting,
    pub(crate) supplier: usize,
}

/// The cost of a size, wherever a cost counts.
fn cost_with(fault: Fault, size: i64) -> i64 {
    match fault {
        Fault::WrongCost(wrong, cost) if size == wrong => cost,
        Fault::WithoutFour if (8..=63).contains(&size) => size,
        _ => cost(size),
    }
}

/// The grains of a request of that size, in a place where the fault `by_size`
/// takes the size for the cost.
fn grains_with(fault: Fault, by_size: Fault, size: i64) -> i64 {
    let tokens = if fault == by_size { size } else { cost_with(fault, size) };
    tokens.saturating_mul(GRAINS)
}

/// The tokens that are compared with a depth, in a place where the fault
/// `by_size` takes the size for the cost.
fn tokens_to_fit(fault: Fault, by_size: Fault, size: i64) -> i64 {
    match fault {
        Fault::CostWraps if size > 511 => size.wrapping_add(16),
        _ if fault == by_size => size,
        _ => cost_with(fault, size),
    }
}

/// The in-order test with that fault.
pub(crate) fn in_order(fault: Fault, table: &[i64]) -> bool {
    let holds = |clause: usize| match fault {
        _ if clause == SIZES_CLAUSE => {
            sizes_fit(table, |size| tokens_to_fit(fault, Fault::OrdersBySize, size))
        }
        Fault::WrongStated(wrong) => faulty_stated::holds(wrong, clause, table),
        Fault::WrongPorts(wrong) => faulty_ports::holds(wrong, clause, table),
        _ => CLAUSES[clause].1(table),
    };
    (0..CLAUSES.len()).all(holds)
}

/// A request with that fault.
pub(crate) fn request(
    fault: Fault,
    table: &mut [i64],
    client: i64,
    tag: i64,
    size: i64,
) -> Answer<i64> {
    let Some(node) = node_number(client).filter(|&node| size >= 1 && is_client(table, node)) else {
        return calls::request(table, client, tag, size);
    };
    let tokens = tokens_to_fit(fault, Fault::RefusesBySize, size);
    require(tokens <= get(table, node, DEPTH), DEPTH_ABOVE)?;
    require(waiting_count(table, node) < QUEUE_LEN, QUEUE_FULL)?;
    require(table[ACCEPTED] < MAX_ACCEPTED, COUNT_AT_END)?;
    table[ACCEPTED] += 1;
    let arrival = table[ACCEPTED];
    append_waiting(table, node, Waiting { tag, size, arrival });
    Ok(arrival)
}

/// A tick with that fault: all dispatches, as they come.
pub(crate) fn tick(fault: Fault, table: &mut [i64]) -> Vec<Dispatched> {
    let mut gone = Vec::new();
    grow(table);
    match fault {
        Fault::WrongPorts(Ports::PortByPort) => {
            for port in 0..PORTS {
                faulty_ports::with_port_alone(table, port, |table| {
                    serve(fault, table, &mut gone);
                });
            }
        }
        _ => serve(fault, table, &mut gone),
    }
    gone
}

/// Steps 2 to 4.
fn serve(fault: Fault, table: &mut [i64], gone: &mut Vec<Dispatched>) {
    if fault == Fault::CutsFirst {
        cut(table);
    }
    if fault != Fault::ListsNothing {
        serve_own(fault, table, gone);
    }
    match fault {
        Fault::TakesLarger => take_larger(table),
        Fault::CutsLast => {}
        _ => cut(table),
    }
    if fault != Fault::ListsNothing {
        serve_rest(fault, table, gone);
    }
    if fault == Fault::CutsLast {
        cut(table);
    }
}

/// Dispatches all that waits, and charges it to the root.
pub(crate) fn dispatch_all(table: &mut [i64]) -> Vec<Dispatched> {
    let mut gone = Vec::new();
    for client in 0..NODES {
        while oldest(table, client).is_some() {
            dispatch(Fault::AllAtOnce, table, &mut gone, client, ROOT);
        }
    }
    gone
}

/// Dispatches all that waits, with a supplier that is not there: the lowest
/// unused number, or 64 if there is none. Balances grow and are cut, and nobody
/// is charged, so the table stays in order.
pub(crate) fn dispatch_all_from_nobody(table: &mut [i64]) -> Vec<Dispatched> {
    let mut gone = Vec::new();
    let nobody = (0..NODES).find(|&node| !is_used(table, node)).unwrap_or(NODES);
    grow(table);
    cut(table);
    for client in 0..NODES {
        while oldest(table, client).is_some() {
            let request = take_oldest(table, client);
            gone.push(Dispatched { client, request, supplier: nobody });
        }
    }
    gone
}

/// Step 2.
fn serve_own(fault: Fault, table: &mut [i64], gone: &mut Vec<Dispatched>) {
    match fault {
        Fault::WrongPick(Pick::WithoutStepTwo) => return,
        Fault::WrongPick(Pick::StepTwoByArrival) => {
            return serve_own_by_arrival(fault, table, gone)
        }
        _ => {}
    }
    for client in 0..NODES {
        while pays_itself(fault, table, client) {
            dispatch(fault, table, gone, client, client);
            if fault == Fault::OwnOnce {
                break;
            }
        }
    }
}

/// Step 2 by arrival number.
fn serve_own_by_arrival(fault: Fault, table: &mut [i64], gone: &mut Vec<Dispatched>) {
    let next = |table: &[i64]| {
        let paying = clients(table).filter(|&client| pays_itself(fault, table, client));
        paying.min_by_key(|&client| oldest(table, client).map(|request| request.arrival))
    };
    while let Some(client) = next(table) {
        dispatch(fault, table, gone, client, client);
    }
}

/// Whether a node has a request, and the balance for the oldest.
fn pays_itself(fault: Fault, table: &[i64], node: usize) -> bool {
    oldest(table, node).is_some_and(|request| {
        let needed = grains_with(fault, Fault::ComparesSizeInStepTwo, request.size);
        has_enough(table, node, needed)
    })
}

fn take_larger(table: &mut [i64]) {
    for node in 0..NODES {
        let full = in_grains(get(table, node, DEPTH));
        let balance = get(table, node, BALANCE);
        set(table, node, BALANCE, balance.max(full));
    }
}

/// Step 4.
fn serve_rest(fault: Fault, table: &mut [i64], gone: &mut Vec<Dispatched>) {
    let grains = |size| grains_with(fault, Fault::ComparesSizeInStepFour, size);
    let mut step_four = StepFour::new(fault, &grains);
    while let Some(next) = step_four.next(table) {
        bring_forward(table, next.client, next.place);
        dispatch(fault, table, gone, next.client, next.supply.supplier);
    }
}

/// Puts the request at that place of a client's queue before the others.
fn bring_forward(table: &mut [i64], client: usize, place: usize) {
    let end = at(client, QUEUE + QUEUE_STEP * (place + 1));
    table[at(client, QUEUE)..end].rotate_right(QUEUE_STEP);
}

fn dispatch(
    fault: Fault,
    table: &mut [i64],
    gone: &mut Vec<Dispatched>,
    client: usize,
    supplier: usize,
) {
    let request = take_oldest(table, client);
    let grains = grains_with(fault, Fault::ChargesSize, request.size);
    let listed = match fault {
        Fault::ListsCost => Waiting { size: cost(request.size), ..request },
        _ => request,
    };
    gone.push(Dispatched { client, request: listed, supplier });
    let lowest = if fault == Fault::ChargesClient { client } else { supplier };
    let payers: Vec<usize> = path_to_root(table, lowest).collect();
    for payer in payers {
        if payer != ROOT || fault != Fault::SparesRoot {
            table[at(payer, BALANCE)] -= grains;
        }
    }
}

/// Gives weighted children their part of all that their class divides, as if no share
/// were fixed.
pub(crate) fn renew_on_whole_rate(table: &mut [i64]) {
    for level in 0..=MAX_CLASS_LEVEL {
        let classes: Vec<usize> =
            classes(table).filter(|&class| get(table, class, LEVEL) == level).collect();
        for class in classes {
            let children: Vec<usize> = children(table, class).collect();
            let division = Division { fixed_sum: 0, ..Division::of(table, class) };
            for child in children {
                let rate = division.child_rate(get(table, child, KIND), get(table, child, SHARE));
                set(table, child, RATE, rate as i64);
            }
        }
    }
}

/// Gives the lowest child of the root what rounding lost among weights.
pub(crate) fn give_remainder(table: &mut [i64]) {
    rates::renew_all(table);
    let weighted = children(table, ROOT).all(|child| get(table, child, KIND) == WEIGHTED);
    let sum: i64 = children(table, ROOT).map(|child| get(table, child, RATE)).sum();
    let first = children(table, ROOT).next();
    if let (true, Some(child)) = (weighted, first) {
        table[at(child, RATE)] += get(table, ROOT, RATE) - sum;
    }
}

/// The grains nobody gets, misread. Where the misreading does not touch the node
/// it is the right number.
pub(crate) fn lost_grains(misread: Lost, table: &[i64], node: usize) -> i64 {
    let right = rates::lost_grains(table, node);
    let rate = get(table, node, RATE);
    if is_client(table, node) {
        return if misread == Lost::RateForClient { rate } else { right };
    }
    let sum_of = |place: usize, counts: &dyn Fn(usize) -> bool| -> i64 {
        let counted = children(table, node).filter(|&child| counts(child));
        counted.map(|child| get(table, child, place)).sum()
    };
    let is_of = |child: usize, kind: i64| get(table, child, KIND) == kind;
    let rates_without = |kind: i64| sum_of(RATE, &|child| !is_of(child, kind));
    let shares = |kind: i64| sum_of(SHARE, &|child| is_of(child, kind));
    let left = (rate - shares(STATED)) * (MAX_SHARE - shares(FIXED)) / MAX_SHARE;
    match misread {
        Lost::AllBelow => {
            let below = arguments::family(table, node).into_iter().skip(1);
            rate - below.map(|node| get(table, node, RATE)).sum::<i64>()
        }
        Lost::WithoutWeighted => rate - rates_without(WEIGHTED),
        Lost::WithoutFixed => rate - rates_without(FIXED),
        Lost::WithoutStated => rate - rates_without(STATED),
        Lost::StatedTwice => right - shares(STATED),
        Lost::WithoutClasses => rate - sum_of(RATE, &|child| is_client(table, child)),
        Lost::OfShares => rate - sum_of(SHARE, &|_| true),
        Lost::OfBalances => rate - sum_of(BALANCE, &|_| true),
        Lost::ZeroForClass => 0,
        Lost::ZeroForChildless if children(table, node).next().is_none() => 0,
        Lost::RootAmongChildren if node == ROOT => right - rate,
        Lost::WithoutUnclaimed if shares(WEIGHTED) == 0 => right - left,
        Lost::WithoutFixedRounding => left - sum_of(RATE, &|child| is_of(child, WEIGHTED)),
        _ => right,
    }
}
