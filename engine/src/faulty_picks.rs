//! Step 4 with a fault: which requests may go, which of them goes next, and who
//! supplies it. Without a fault it is the documents' once more.

use crate::faulty::{Fault, Pick, Ports};
use crate::table::*;
use crate::tick::{find_supply, has_enough, oldest, path_to_root, Supply};

/// A waiting request that has a supplier.
#[derive(Clone, Copy, Debug)]
pub(crate) struct Candidate {
    pub(crate) client: usize,
    /// Its place among the client's requests, 0 for the oldest.
    pub(crate) place: usize,
    pub(crate) supply: Supply,
    arrival: i64,
}

/// Step 4 on its way, with what a faulty one remembers.
pub(crate) struct StepFour<'a> {
    fault: Fault,
    /// The grains that a request of a size needs.
    grains: &'a dyn Fn(i64) -> i64,
    /// Every candidate as it first was.
    met: Vec<Candidate>,
    /// Every request that went, as it was then.
    gone: Vec<Candidate>,
    /// For [`Pick::InRounds`]: what is left of the round.
    round: Vec<Candidate>,
}

impl<'a> StepFour<'a> {
    pub(crate) fn new(fault: Fault, grains: &'a dyn Fn(i64) -> i64) -> StepFour<'a> {
        StepFour { fault, grains, met: Vec::new(), gone: Vec::new(), round: Vec::new() }
    }

    fn misreads(&self, pick: Pick) -> bool {
        self.fault == Fault::WrongPick(pick)
    }

    /// The request that goes next.
    pub(crate) fn next(&mut self, table: &[i64]) -> Option<Candidate> {
        let candidates = self.candidates(table);
        for candidate in &candidates {
            if !self.met.iter().any(|met| met.arrival == candidate.arrival) {
                self.met.push(*candidate);
            }
        }
        let next = if self.misreads(Pick::InRounds) {
            self.next_of_round(&candidates)
        } else {
            self.best(table, &candidates)
        };
        self.gone.extend(next);
        next
    }

    /// Of each client the oldest request, if it has a supplier.
    fn candidates(&self, table: &[i64]) -> Vec<Candidate> {
        let places = if self.misreads(Pick::AnyOfQueue) { QUEUE_LEN } else { 1 };
        let mut candidates = Vec::new();
        for client in clients(table) {
            for (place, request) in waiting(table, client).enumerate().take(places) {
                let needed = (self.grains)(request.size);
                if let Some(supply) = self.find_supply(table, client, needed) {
                    let arrival = request.arrival;
                    candidates.push(Candidate { client, place, supply, arrival });
                }
            }
        }
        candidates
    }

    /// The search for a supplier.
    fn find_supply(&self, table: &[i64], client: usize, needed: i64) -> Option<Supply> {
        let mut way = path_to_root(table, client).enumerate();
        let enough = |&(_, node): &(usize, usize)| has_enough(table, node, needed);
        let found = match self.fault {
            Fault::FromRootDown => way.filter(enough).last(),
            Fault::WrongPick(Pick::OwnNever) => way.skip(1).find(enough),
            Fault::WrongPick(Pick::SkipsMiddle) => {
                way.filter(|&(steps, node)| steps < 2 || node == ROOT).find(enough)
            }
            Fault::WrongPick(Pick::ThreeLevels) => way.take(4).find(enough),
            Fault::WrongPick(Pick::SpareOnly) => {
                way.find(|&(_, node)| unclaimed(table, node) >= needed)
            }
            _ => return find_supply(table, client, needed),
        };
        found.map(|(steps, supplier)| Supply { supplier, steps })
    }

    /// The candidate that goes before all others.
    fn best(&self, table: &[i64], candidates: &[Candidate]) -> Option<Candidate> {
        let is_oldest = |one: &Candidate| is_oldest(table, one, clients(table));
        if self.fault == Fault::StopsAtOldest && !candidates.iter().any(is_oldest) {
            return None;
        }
        let may_go = |one: &Candidate| self.may_go(table, one);
        candidates.iter().copied().filter(may_go).reduce(|best, one| {
            if self.goes_before(table, &one, &best) {
                one
            } else {
                best
            }
        })
    }

    /// Whether a candidate is not passed over.
    fn may_go(&self, table: &[i64], one: &Candidate) -> bool {
        let steps = one.supply.steps;
        match self.fault {
            Fault::WrongPick(Pick::OwnSkipped) => steps > 0,
            Fault::WrongPick(Pick::NeverBack) => {
                self.gone.last().is_none_or(|last| steps >= last.supply.steps)
            }
            Fault::WrongPick(Pick::FewestOnly) => {
                self.gone.first().is_none_or(|first| steps <= first.supply.steps)
            }
            Fault::WrongPick(Pick::OldestOfFamily) => {
                let class = parent(table, one.client).unwrap_or(ROOT);
                is_oldest(table, one, children(table, class))
            }
            _ => true,
        }
    }

    /// Whether a candidate takes the place of the best of those before it in
    /// number.
    fn goes_before(&self, table: &[i64], one: &Candidate, best: &Candidate) -> bool {
        let (steps, best_steps) = (one.supply.steps, best.supply.steps);
        match self.fault {
            Fault::WrongPick(Pick::EitherLess) => steps < best_steps || one.arrival < best.arrival,
            Fault::WrongPick(Pick::BothLess) => steps <= best_steps && one.arrival < best.arrival,
            _ => self.rank(table, one) < self.rank(table, best),
        }
    }

    /// The numbers by which candidates are compared, the first that differs
    /// deciding: the lower goes before.
    fn rank(&self, table: &[i64], one: &Candidate) -> [i64; 3] {
        let Candidate { client, arrival, supply, .. } = *one;
        let level = |node: usize| get(table, node, LEVEL);
        let (number, supplier) = (client as i64, supply.supplier as i64);
        let steps = supply.steps as i64;
        let own_port = port(table, client);
        let pick = match self.fault {
            Fault::WrongPick(pick) => pick,
            Fault::ByNumber => return [number, 0, 0],
            Fault::WrongPorts(Ports::FirstPicks) => return [own_port as i64, steps, arrival],
            Fault::WrongPorts(Ports::FirstAmongEqual) => return [steps, own_port as i64, arrival],
            Fault::WrongPorts(Ports::TakesTurns) => {
                let unlike = self.unlike_last(|last| port(table, last.client) == own_port);
                return [-unlike, steps, arrival];
            }
            _ => return [steps, arrival, 0],
        };
        match pick {
            Pick::ArrivalAlone => [arrival, 0, 0],
            Pick::MostSteps => [-steps, arrival, 0],
            Pick::TiesByNumber => [steps, number, 0],
            Pick::TiesByHighestNumber => [steps, -number, 0],
            Pick::TiesBySupplier => [steps, supplier, arrival],
            Pick::TiesByLatest => [steps, -arrival, 0],
            Pick::SupplierNearRoot => [level(supply.supplier), arrival, 0],
            Pick::SupplierFarFromRoot => [-level(supply.supplier), arrival, 0],
            Pick::ClientNearRoot => [level(client), arrival, 0],
            Pick::OwnOrOther => [i64::from(steps > 0), arrival, 0],
            Pick::ClassOrOther => [i64::from(steps > 1), arrival, 0],
            Pick::RootOrOther => [i64::from(supply.supplier == ROOT), arrival, 0],
            Pick::OwnLast => [i64::from(steps == 0), steps, arrival],
            Pick::StepsOfClient => [self.first_steps(|met| met.client == client), arrival, 0],
            Pick::StepsOfRequest => [self.first_steps(|met| met.arrival == arrival), arrival, 0],
            Pick::StepsSoFar => [steps.max(self.most_steps()), arrival, 0],
            Pick::WholeClient => [self.unlike_last(|last| last.client == client), steps, arrival],
            Pick::WholeFamily => {
                let same = |last: &Candidate| last.supply.supplier == supply.supplier;
                [self.unlike_last(same), steps, arrival]
            }
            _ => [steps, arrival, 0],
        }
    }

    /// The steps of the first candidate met that is such a one.
    fn first_steps(&self, is_such: impl Fn(&Candidate) -> bool) -> i64 {
        self.met.iter().find(|met| is_such(met)).map_or(0, |met| met.supply.steps as i64)
    }

    /// The most steps of a request that went.
    fn most_steps(&self) -> i64 {
        self.gone.iter().map(|gone| gone.supply.steps as i64).max().unwrap_or(0)
    }

    /// 0 if the request that went last is such a one, else 1.
    fn unlike_last(&self, is_such: impl Fn(&Candidate) -> bool) -> i64 {
        i64::from(!self.gone.last().is_some_and(is_such))
    }

    /// The next of the round that still has a supplier. After the last one all
    /// candidates are a round, in the right order.
    fn next_of_round(&mut self, candidates: &[Candidate]) -> Option<Candidate> {
        self.round.retain(|one| candidates.iter().any(|other| other.arrival == one.arrival));
        if self.round.is_empty() {
            self.round = candidates.to_vec();
            self.round.sort_by_key(|one| (one.supply.steps, one.arrival));
        }
        let arrival = self.round.first()?.arrival;
        self.round.remove(0);
        candidates.iter().copied().find(|one| one.arrival == arrival)
    }
}

/// What a node has beside the balances of its children.
fn unclaimed(table: &[i64], node: usize) -> i64 {
    let held: i64 = children(table, node).map(|child| get(table, child, BALANCE)).sum();
    get(table, node, BALANCE) - held
}

/// Whether none of these nodes has an older request.
fn is_oldest(table: &[i64], one: &Candidate, mut nodes: impl Iterator<Item = usize>) -> bool {
    nodes.all(|node| oldest(table, node).is_none_or(|request| request.arrival >= one.arrival))
}
