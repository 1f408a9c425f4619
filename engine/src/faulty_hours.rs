//! Timetables misread: which windows are good and what they cover, which tables differ from
//! the plan, what is judged when, and what is written. Without a misreading a set minute is
//! the documents' once more.

use crate::controller::NewNode;
use crate::faulty::Hours;
use crate::hours::{Window, WEEK, WINDOW_LEN};
use crate::plan::{Edition, Plan};
use crate::plans;
use crate::rates;
use crate::refusal::*;
use crate::table::*;

/// The causes behind 1.
#[derive(Clone, Copy, Debug)]
enum Cause {
    Minute,
    Plan,
    Timetable,
    Share,
    Fixed,
    Stated,
}

/// The shares of all node numbers.
type Shares = [i64; NODES];

/// A set minute with that misreading, or without one. 1 was judged before.
pub(crate) fn set_minute(
    wrong: Option<Hours>,
    table: &mut [i64],
    plan: &[u8],
    list: &[i64],
    minute: i64,
) -> Answer<i64> {
    let before = table.to_vec();
    let case = Case::new(wrong, &before, plan, list, minute);
    let refusal = case.refusal();
    let is_late = refusal == Some(SHARES_ABOVE) || refusal == Some(STATED_WRONG);
    if refusal.is_none() || is_late && case.has(Hours::WrittenFirst) {
        case.write(table);
    }
    match refusal {
        Some(number) => Err(number),
        None if case.has(Hours::AnswersMinute) => Ok(minute),
        None => Ok(0),
    }
}

/// A set minute.
struct Case<'a> {
    wrong: Option<Hours>,
    /// The table before it.
    table: &'a [i64],
    /// What the plan says, and the table that it makes.
    plan: Answer<Plan>,
    planned: Answer<[i64; TABLE_LEN]>,
    windows: Vec<Window>,
    /// Whether the list has nothing but whole windows.
    is_whole: bool,
    minute: i64,
}

impl Case<'_> {
    fn new<'a>(
        wrong: Option<Hours>,
        table: &'a [i64],
        plan: &[u8],
        list: &[i64],
        minute: i64,
    ) -> Case<'a> {
        let plan = match wrong {
            Some(Hours::FirstEditionOnly) if Edition::of(plan) == Edition::Second => {
                Err(PLAN_WRONG)
            }
            _ => Plan::decode(plan),
        };
        let planned =
            plan.as_ref().map_err(|&number| number).and_then(|plan| match (wrong, plan.joined()) {
                (Some(Hours::AnyOrder), Err(PLAN_OUT_OF_ORDER)) => in_order(plan).joined(),
                (_, joined) => joined,
            });
        let windows = Window::whole_ones(list);
        let is_whole = list.len() == WINDOW_LEN * windows.len();
        Case { wrong, table, plan, planned, windows, is_whole, minute }
    }

    fn has(&self, wrong: Hours) -> bool {
        self.wrong == Some(wrong)
    }

    /// The table of the plan, or where there is none the table itself.
    fn tree(&self) -> &[i64] {
        match &self.planned {
            Ok(planned) => planned,
            Err(_) => self.table,
        }
    }

    /// The node below the root that a window is of, if it is there.
    fn node_of(&self, window: &Window) -> Option<usize> {
        node_number(window.node).filter(|&node| node != ROOT && is_used(self.tree(), node))
    }
}

/// The plan with its entries by level, then number.
fn in_order(plan: &Plan) -> Plan {
    let mut sorted = plan.clone();
    sorted.nodes.sort_by_key(|new| (plans::level(&plan.nodes, new), new.node));
    sorted
}

/// The causes.
impl Case<'_> {
    /// The number of the first cause, if there is one.
    fn refusal(&self) -> Option<i64> {
        self.order().into_iter().find_map(|cause| self.refused(cause))
    }

    fn order(&self) -> [Cause; 6] {
        let mut order = [
            Cause::Minute,
            Cause::Plan,
            Cause::Timetable,
            Cause::Share,
            Cause::Fixed,
            Cause::Stated,
        ];
        let earlier = match self.wrong {
            Some(Hours::PlanBeforeMinute) => 1,
            Some(Hours::TimetableBeforePlan) => 2,
            Some(Hours::ShareBeforeTimetable) => 3,
            Some(Hours::FixedBeforeShare) => 4,
            Some(Hours::StatedBeforeFixed) => 5,
            _ => return order,
        };
        order.swap(earlier - 1, earlier);
        order
    }

    fn refused(&self, cause: Cause) -> Option<i64> {
        match cause {
            Cause::Minute => {
                let last = WEEK - i64::from(!self.has(Hours::LastMinuteAccepted));
                (!(0..=last).contains(&self.minute)).then_some(OUTSIDE_LIMITS)
            }
            Cause::Plan => self.plan_refused(),
            Cause::Timetable => self.timetable_refused(),
            Cause::Share => self.windows.iter().find_map(|window| self.share_refused(window)),
            Cause::Fixed if self.has(Hours::EarlierMinute) => self.earlier_refused(),
            Cause::Fixed => {
                let weekly = self.weekly(self.has(Hours::FixedHereOnly));
                weekly.iter().any(|shares| self.is_fixed_above(shares)).then_some(SHARES_ABOVE)
            }
            Cause::Stated => {
                let weekly = self.weekly(self.has(Hours::StatedHereOnly));
                weekly.iter().any(|shares| self.is_stated_above(shares)).then_some(STATED_WRONG)
            }
        }
    }

    fn plan_refused(&self) -> Option<i64> {
        if self.has(Hours::WindowsBeforePlan) {
            if let Some(number) = self.windows_refused() {
                return Some(number);
            }
        }
        match self.planned {
            Err(_) if self.has(Hours::PlanIsSeventeen) => Some(TIMETABLE_WRONG),
            Err(number) => Some(number),
            Ok(_) => None,
        }
    }

    /// 17. A plan that cannot be decoded has none.
    fn timetable_refused(&self) -> Option<i64> {
        let plan = self.plan.as_ref().ok()?;
        if self.differs(plan) {
            return Some(TIMETABLE_WRONG);
        }
        self.windows_refused()
    }

    /// What of 17 is about windows.
    fn windows_refused(&self) -> Option<i64> {
        if !self.is_whole && !self.has(Hours::NotWholeAccepted) {
            return Some(TIMETABLE_WRONG);
        }
        if self.has(Hours::FirstWindow) {
            return (0..self.windows.len()).find_map(|index| self.refused_in_turn(index));
        }
        let of_one = self.windows.iter().find_map(|window| self.window_refused(window));
        of_one.or_else(|| {
            let overlaps = (0..self.windows.len()).any(|index| self.meets_an_earlier_one(index));
            overlaps.then_some(TIMETABLE_WRONG)
        })
    }

    /// All causes of one window, its share's too.
    fn refused_in_turn(&self, index: usize) -> Option<i64> {
        let window = &self.windows[index];
        let of_one = self.window_refused(window);
        let overlaps = || self.meets_an_earlier_one(index).then_some(TIMETABLE_WRONG);
        of_one.or_else(overlaps).or_else(|| self.share_refused(window))
    }

    fn window_refused(&self, window: &Window) -> Option<i64> {
        let Window { start, end, .. } = *window;
        let is_good = match self.wrong {
            Some(Hours::EndOfWeekRefused) if end == WEEK => false,
            Some(Hours::EmptyAccepted) if start == end => (0..=WEEK).contains(&start),
            Some(Hours::WrapsAround) if end < start => 0 <= end && start < WEEK,
            _ => window.has_good_minutes(),
        };
        match is_good {
            false if self.has(Hours::MinutesAreTwo) => Some(OUTSIDE_LIMITS),
            false => Some(TIMETABLE_WRONG),
            true => self.node_refused(window),
        }
    }

    fn node_refused(&self, window: &Window) -> Option<i64> {
        if self.node_of(window).is_some() {
            return None;
        }
        match (self.wrong, node_number(window.node)) {
            (Some(Hours::RootAccepted), Some(ROOT)) => None,
            (Some(Hours::RootIsFive), Some(ROOT)) => Some(WRONG_NODE),
            (_, Some(ROOT)) => Some(TIMETABLE_WRONG),
            (Some(Hours::OutsideIsTwo), None) => Some(OUTSIDE_LIMITS),
            (Some(Hours::AbsentAccepted), _) => None,
            (Some(Hours::AbsentIsThree), _) => Some(NOT_THERE),
            _ => Some(TIMETABLE_WRONG),
        }
    }

    /// Whether a window overlaps one before it in the list.
    fn meets_an_earlier_one(&self, index: usize) -> bool {
        if self.has(Hours::OverlapAllowed) {
            return false;
        }
        let first = if self.has(Hours::NeighboursOnly) { index.saturating_sub(1) } else { 0 };
        self.windows[first..index].iter().any(|other| self.overlap(&self.windows[index], other))
    }

    fn overlap(&self, one: &Window, other: &Window) -> bool {
        let at_ends = self.has(Hours::TouchingOverlap);
        let meet = |(start, end): (i64, i64), (from, to): (i64, i64)| {
            let are_filled = start < end && from < to;
            are_filled && (start < to && from < end || at_ends && (start == to || from == end))
        };
        let are_looked_at = one.node == other.node || self.has(Hours::OverlapAcross);
        let [ones, others] = [one, other].map(|window| self.pieces(window));
        are_looked_at && ones.iter().any(|&piece| others.iter().any(|&part| meet(piece, part)))
    }

    /// The pieces of the week that a window has, of which one may be empty.
    fn pieces(&self, window: &Window) -> [(i64, i64); 2] {
        match *window {
            Window { start, end, .. } if end < start => [(start, WEEK), (0, end)],
            Window { start, end, .. } => [(start, end), (0, 0)],
        }
    }

    fn share_refused(&self, window: &Window) -> Option<i64> {
        let node = self.node_of(window)?;
        let tree = if self.has(Hours::LimitsByTable) { self.table } else { self.tree() };
        let is_lawful = match self.wrong {
            Some(Hours::NarrowShares) => (1..=MAX_SHARE).contains(&window.share),
            Some(Hours::WideShares) => (1..=MAX_RATE).contains(&window.share),
            Some(Hours::ZeroShare) if window.share == 0 => true,
            _ => share_is_lawful(get(tree, node, KIND), window.share),
        };
        match is_lawful {
            true => None,
            false if self.has(Hours::ShareIsSeventeen) => Some(TIMETABLE_WRONG),
            false => Some(OUTSIDE_LIMITS),
        }
    }
}

/// The comparison of the table with the plan.
impl Case<'_> {
    fn differs(&self, plan: &Plan) -> bool {
        let has_node = |new: &&NewNode| {
            node_number(new.node).is_some_and(|node| node != ROOT && is_used(self.table, node))
        };
        let is_in_plan = |node: usize| plan.nodes.iter().any(|new| new.node == node as i64);
        let more_in_plan = plan.nodes.iter().any(|new| !has_node(&new));
        let more_in_table = used_nodes(self.table).any(|node| node != ROOT && !is_in_plan(node));
        let [rate, depth] = [RATE, DEPTH].map(|place| get(self.table, ROOT, place));
        rate != plan.rate && !self.has(Hours::DiskRateIgnored)
            || depth != plan.depth && !self.has(Hours::RootDepthIgnored)
            || more_in_plan && !self.has(Hours::MoreInPlan)
            || more_in_table && !self.has(Hours::MoreInTable)
            || plan.nodes.iter().filter(has_node).any(|new| self.node_differs(new))
    }

    fn node_differs(&self, new: &NewNode) -> bool {
        let own = |place: usize| get(self.table, new.node as usize, place);
        let is_compared = match self.wrong {
            Some(Hours::PortsCompared) => own(PORT) != 0,
            Some(Hours::KindsCompared) => own(KIND) != new.kind,
            Some(Hours::SharesCompared) => own(SHARE) != new.share,
            Some(Hours::BalancesCompared) => own(BALANCE) != 0,
            Some(Hours::WaitingCompared) => own(WAITING) != 0,
            _ => false,
        };
        is_compared
            || own(SORT) != new.sort && !self.has(Hours::SortsIgnored)
            || own(PARENT) != new.parent && !self.has(Hours::ParentsIgnored)
            || own(DEPTH) != new.depth && !self.has(Hours::DepthsIgnored)
    }
}

/// The shares of the week.
impl Case<'_> {
    fn covers(&self, window: &Window, minute: i64) -> bool {
        let Window { start, end, .. } = *window;
        match self.wrong {
            Some(Hours::EndIncluded) => start <= minute && minute <= end,
            Some(Hours::StartExcluded) => start < minute && minute < end,
            Some(Hours::WrapsAround) if end < start => start <= minute || minute < end,
            _ => start <= minute && minute < end,
        }
    }

    /// The shares at a minute, of the windows that the function lets count. Of several windows
    /// the first one counts.
    fn shares_with(&self, minute: i64, counts: impl Fn(&Window) -> bool) -> Shares {
        let planned: Shares = std::array::from_fn(|node| get(self.tree(), node, SHARE));
        let mut shares = planned;
        for window in self.windows.iter().rev().filter(|window| counts(window)) {
            if let Some(node) = self.node_of(window).filter(|_| self.covers(window, minute)) {
                let more = if self.has(Hours::PlanCounted) { planned[node] } else { 0 };
                shares[node] = window.share.saturating_add(more);
            }
        }
        shares
    }

    /// The minutes at which the shares may change, by any misreading.
    fn changes(&self) -> Vec<i64> {
        let mut minutes = vec![0];
        for window in &self.windows {
            minutes.push(window.start);
            if !self.has(Hours::StartsOnly) {
                let behind = [window.start, window.end].map(|minute| minute.saturating_add(1));
                minutes.extend([window.end, behind[0], behind[1]]);
            }
        }
        minutes.retain(|minute| (0..WEEK).contains(minute));
        minutes.sort_unstable();
        minutes.dedup();
        minutes
    }

    /// The shares that are judged, one after the other.
    fn weekly(&self, is_here_only: bool) -> Vec<Shares> {
        if is_here_only {
            return vec![self.shares_with(self.minute, |_| true)];
        }
        if self.has(Hours::OneAtATime) {
            let alone = |one: &Window| self.shares_with(one.start, |window| window == one);
            return self.windows.iter().map(alone).collect();
        }
        self.changes().into_iter().map(|minute| self.shares_with(minute, |_| true)).collect()
    }

    /// The sum for every class of what the function gives its children.
    fn sums(&self, of: impl Fn(usize) -> i64) -> [i128; NODES] {
        let mut sums = [0; NODES];
        for node in used_nodes(self.tree()).filter(|&node| node != ROOT) {
            let class = get(self.tree(), node, PARENT) as usize;
            sums[class] += i128::from(of(node));
        }
        sums
    }

    fn is_fixed_above(&self, shares: &Shares) -> bool {
        let counts =
            |kind: i64| kind == FIXED || kind == WEIGHTED && self.has(Hours::WeightsCounted);
        let sums = self.sums(|node| match counts(get(self.tree(), node, KIND)) {
            true => shares[node],
            false => 0,
        });
        let most = i128::from(MAX_SHARE) - i128::from(self.has(Hours::FixedAtLeast));
        match self.has(Hours::FixedUnderRoot) {
            true => sums[ROOT] > most,
            false => sums.iter().any(|&sum| sum > most),
        }
    }

    fn is_stated_above(&self, shares: &Shares) -> bool {
        let is_stated = |node: usize| get(self.tree(), node, KIND) == STATED;
        let sums = self.sums(|node| if is_stated(node) { shares[node] } else { 0 });
        let rate = i128::from(get(self.tree(), ROOT, RATE));
        sums[ROOT] > rate || sums[ROOT] == rate && self.has(Hours::StatedAtLeast)
    }

    /// 7 or 16, whichever holds at the earliest minute.
    fn earlier_refused(&self) -> Option<i64> {
        self.weekly(false).iter().find_map(|shares| {
            let fixed = self.is_fixed_above(shares).then_some(SHARES_ABOVE);
            fixed.or_else(|| self.is_stated_above(shares).then_some(STATED_WRONG))
        })
    }
}

/// What is written.
impl Case<'_> {
    fn write(&self, table: &mut [i64]) {
        for node in used_nodes(self.tree()).filter(|&node| node != ROOT) {
            if is_used(self.table, node) {
                self.write_node(table, node);
            }
        }
        if self.has(Hours::BalancesEmptied) {
            (0..NODES).for_each(|node| set(table, node, BALANCE, 0));
        }
        let mut renewed = table.to_vec();
        rates::renew_below(&mut renewed, ROOT);
        match self.wrong {
            Some(Hours::RatesKept) => {}
            Some(Hours::ChildrenOnly) => {
                for child in children(&renewed, ROOT) {
                    set(table, child, RATE, get(&renewed, child, RATE));
                }
            }
            _ => table.copy_from_slice(&renewed),
        }
    }

    fn write_node(&self, table: &mut [i64], node: usize) {
        let window = self
            .windows
            .iter()
            .find(|window| self.node_of(window) == Some(node) && self.covers(window, self.minute));
        let [kind, planned] = [KIND, SHARE].map(|place| get(self.tree(), node, place));
        let keeps =
            |wrong: &[Hours]| wrong.iter().any(|&wrong| self.has(wrong)) && window.is_none();
        if !self.has(Hours::KindKept) && !keeps(&[Hours::OutsideKept]) {
            set(table, node, KIND, kind);
        }
        if !keeps(&[Hours::ShareKept, Hours::OutsideKept]) {
            set(table, node, SHARE, window.map_or(planned, |window| window.share));
        }
        if self.has(Hours::PortsReset) {
            set(table, node, PORT, 0);
        }
        if self.has(Hours::RequestsDropped) {
            set(table, node, WAITING, 0);
            table[at(node, QUEUE)..at(node, RECORD_LEN)].fill(0);
        }
    }
}
