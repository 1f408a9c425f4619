//! Random timetables with their plans: right ones, and ones that are wrong in every way.

use crate::controller::NewNode;
use crate::hours::{Window, WEEK};
use crate::plan::Plan;
use crate::plans;
use crate::random::Rng;
use crate::steps::Call;
use crate::table::*;

/// What the arguments of set minutes are like.
#[derive(Clone, Copy, Debug)]
pub struct Taste {
    /// The largest fixed share and weight that a right timetable and its plan are given anew.
    pub most: i64,
    /// A stated rate that they are given anew is at most one of so many parts of the disk's.
    pub parts: i64,
    /// Percentage of calls that are wrong in one way or two.
    pub wrong: usize,
    /// Percentage of calls whose minute is outside its limits, beside the wrong ones.
    pub other_minutes: usize,
    /// Percentage of calls whose windows are any numbers.
    pub any_windows: usize,
    /// Percentage of calls whose plan is any, beside the wrong ones.
    pub any_plans: usize,
}

/// How many causes a timetable and its plan are spoilt by, those of 17 counted three times.
const CAUSES: usize = 8;

/// A set minute on a table in order, or on a zeroed one: mostly with the plan of its tree, of
/// which some kinds and shares are others, with a right timetable, and with a minute at or
/// about an end of a window.
pub fn any(rng: &mut Rng, table: &[i64], taste: &Taste) -> Call {
    let mut draft = Draft::new(Plan::of_table(table));
    for _ in 0..rng.pick(&[0, 0, 1, 2, 5]) {
        draft.give_other_share(rng, taste);
    }
    if rng.chance(30) {
        draft.add_relay(rng, false);
    }
    for _ in 0..rng.pick(&[0, 1, 1, 2, 3, 5, 8]) {
        draft.add_window(rng, taste);
    }
    if rng.chance(4) {
        draft.add_days(rng, taste);
    }
    if rng.chance(taste.wrong) {
        let cause = rng.below(CAUSES);
        draft.spoil(rng, taste, cause);
        if rng.chance(50) {
            let next = (cause + 1) % CAUSES;
            let any = rng.below(CAUSES);
            let other = rng.pick(&[next, next, any]);
            draft.spoil(rng, taste, other);
        }
    }
    if rng.chance(30) {
        for place in (1..draft.windows.len()).rev() {
            draft.windows.swap(place, rng.below(place + 1));
        }
    }
    draft.finish(rng, taste)
}

/// A set minute in the making.
struct Draft {
    plan: Plan,
    windows: Vec<Window>,
    /// Whether the plan's bytes are to be those of one that is mostly wrong.
    has_other_plan: bool,
    /// Whether the minute is to be outside its limits.
    has_other_minute: bool,
    /// Numbers behind the windows, and how many of all are left out then.
    behind: Vec<i64>,
    left_out: usize,
}

impl Draft {
    fn new(plan: Plan) -> Draft {
        Draft {
            plan,
            windows: Vec::new(),
            has_other_plan: false,
            has_other_minute: false,
            behind: Vec::new(),
            left_out: 0,
        }
    }

    fn finish(self, rng: &mut Rng, taste: &Taste) -> Call {
        let plan = match self.has_other_plan || rng.chance(taste.any_plans) {
            true => plans::any(rng, &self.plan),
            false => self.plan.encode(plans::edition_for(rng, &self.plan)),
        };
        let minute = match self.has_other_minute || rng.chance(taste.other_minutes) {
            true => rng.pick(&[-1, WEEK, WEEK, WEEK + 1, i64::MIN, i64::MAX]),
            false => self.minute(rng),
        };
        let mut windows: Vec<i64> = self.windows.iter().flat_map(Window::numbers).collect();
        windows.extend(self.behind);
        windows.truncate(windows.len().saturating_sub(self.left_out));
        if rng.chance(taste.any_windows) {
            windows = (0..rng.below(17)).map(|_| rng.edge(1, WEEK)).collect();
        }
        Call::SetMinute { plan, windows, minute }
    }

    /// A minute at or about an end of a window, an end of the week, or any.
    fn minute(&self, rng: &mut Rng) -> i64 {
        let any = rng.between(0, WEEK - 1);
        let minute = match self.windows.is_empty() {
            true => rng.pick(&[0, WEEK - 1, any]),
            false => {
                let Window { start, end, .. } = rng.pick(&self.windows);
                let inside = rng.between(start.clamp(0, WEEK), end.clamp(0, WEEK));
                let about = [start, start, end, end].map(i128::from);
                let about = rng.pick(&about) - i128::from(rng.between(0, 1));
                let about = about.clamp(0, i128::from(WEEK)) as i64;
                rng.pick(&[about, about, about, about, inside, 0, WEEK - 1, any])
            }
        };
        minute.clamp(0, WEEK - 1)
    }

    /// A place of a node in the plan, if it has one.
    fn index(&self, rng: &mut Rng) -> Option<usize> {
        (!self.plan.nodes.is_empty()).then(|| rng.below(self.plan.nodes.len()))
    }

    /// The nodes of that kind beside a node, under the same class.
    fn beside(&self, index: usize, kind: i64) -> impl Iterator<Item = &NewNode> {
        let own = &self.plan.nodes[index];
        let is_beside = move |other: &&NewNode| {
            other.parent == own.parent && other.node != own.node && other.kind == kind
        };
        self.plan.nodes.iter().filter(is_beside)
    }

    /// What the shares of a kind under one class are together at most.
    fn limit(&self, kind: i64) -> i64 {
        match kind {
            STATED => self.plan.rate,
            _ => MAX_SHARE,
        }
    }

    /// The most that a node of that kind may have whatever the minute, if each of the nodes
    /// beside it has the most that it ever has.
    fn room(&self, index: usize, kind: i64) -> i64 {
        if kind == WEIGHTED {
            return MAX_SHARE;
        }
        let most = |new: &NewNode| {
            let own = self.windows.iter().filter(|window| window.node == new.node);
            own.map(|window| window.share).fold(new.share, i64::max)
        };
        let taken: i64 = self.beside(index, kind).map(|new| most(new).min(MAX_RATE)).sum();
        self.limit(kind) - taken
    }

    /// Gives a node of the plan another kind and share, if there is room.
    fn give_other_share(&mut self, rng: &mut Rng, taste: &Taste) {
        let Some(index) = self.index(rng) else { return };
        let is_stated = self.plan.nodes[index].parent == ROOT as i64 && rng.chance(30);
        let kind = if is_stated { STATED } else { rng.pick(&[FIXED, WEIGHTED]) };
        if let Some(share) = self.share(rng, taste, index, kind) {
            self.plan.nodes[index].kind = kind;
            self.plan.nodes[index].share = share;
        }
    }

    /// A share that a node of that kind may have: mostly small, at times all that is left.
    fn share(&self, rng: &mut Rng, taste: &Taste, index: usize, kind: i64) -> Option<i64> {
        let room = self.room(index, kind);
        let most = if kind == STATED { self.plan.rate / taste.parts } else { taste.most };
        let most = room.min(most.max(1));
        let part = rng.between(1, most / 3);
        let any = rng.between(1, most);
        let small = rng.between(1, most.min(10));
        (room >= 1).then(|| rng.pick(&[1, small, part, part, part, any, most]))
    }

    /// Adds a window that leaves a right timetable right, if there is room for it. Often it
    /// is of the node of the last one.
    fn add_window(&mut self, rng: &mut Rng, taste: &Taste) {
        let Some(any) = self.index(rng) else { return };
        let last = self.windows.last().map(|window| window.node);
        let of_last = self.plan.nodes.iter().position(|new| Some(new.node) == last);
        let index = of_last.filter(|_| rng.chance(40)).unwrap_or(any);
        let NewNode { node, kind, .. } = self.plan.nodes[index];
        if let Some(share) = self.share(rng, taste, index, kind) {
            self.add_in_a_slot(rng, node, share);
        }
    }

    /// Adds many short windows of a few nodes without others, one behind the other, of which
    /// many touch.
    fn add_days(&mut self, rng: &mut Rng, taste: &Taste) {
        for _ in 0..1 + rng.below(4) {
            let Some(index) = self.index(rng) else { return };
            let NewNode { node, kind, .. } = self.plan.nodes[index];
            if self.windows.iter().any(|window| window.node == node) {
                continue;
            }
            let mut start = rng.pick(&[0, 1, 7000]);
            for _ in 0..rng.pick(&[10, 30, 60]) {
                let end = start + rng.between(1, 50);
                let share = self.share(rng, taste, index, kind);
                if let (Some(share), ..=WEEK) = (share, end) {
                    self.windows.push(Window { node, start, end, share });
                }
                start = end + rng.pick(&[0, 0, 0, 1, 20]);
            }
        }
    }

    /// Adds a window of that node and share, if one of a few slots does not overlap others.
    fn add_in_a_slot(&mut self, rng: &mut Rng, node: i64, share: i64) {
        for _ in 0..3 {
            let (start, end) = self.slot(rng);
            let meets =
                |other: &Window| other.node == node && other.start < end && start < other.end;
            if !self.windows.iter().any(meets) {
                return self.windows.push(Window { node, start, end, share });
            }
        }
    }

    /// The whole week, a part at either end of it, one that touches the last window, is the
    /// same, or is a minute earlier or later, or any.
    fn slot(&self, rng: &mut Rng) -> (i64, i64) {
        let any = rng.between(0, WEEK - 1);
        let len = rng.pick(&[1, 1, 2, 60, 480, 1440, 5000]);
        let (first, behind) = match self.windows.last() {
            Some(last) if last.has_good_minutes() => (last.start, last.end),
            _ => (any, any + len),
        };
        let moved = rng.pick(&[-1, 1]);
        let (start, end) = rng.pick(&[
            (0, WEEK),
            (0, len),
            (WEEK - len, WEEK),
            (behind, behind + len),
            (behind, behind + len),
            (first - len, first),
            (first, behind),
            (first + moved, behind + moved),
            (any, any + len),
            (any, any + len),
        ]);
        let start = start.clamp(0, WEEK - 1);
        (start, end.clamp(start + 1, WEEK))
    }

    /// Adds two windows to an empty timetable, of two nodes of one class: the second has all
    /// that the first leaves in its own. It does so up to the ends of the first one's window,
    /// or a minute longer, which is too much.
    fn add_relay(&mut self, rng: &mut Rng, is_outside: bool) {
        if !self.windows.is_empty() {
            return;
        }
        let nodes = &self.plan.nodes;
        let may_have_less = |&index: &usize| {
            let new = &nodes[index];
            new.kind != WEIGHTED && new.share >= 2 && self.beside(index, new.kind).next().is_some()
        };
        let all: Vec<usize> = (0..nodes.len()).filter(may_have_less).collect();
        if all.is_empty() {
            return;
        }
        let index = rng.pick(&all);
        let NewNode { node, kind, share, .. } = nodes[index];
        let others: Vec<NewNode> = self.beside(index, kind).copied().collect();
        let other = rng.pick(&others);
        let less = rng.between(1, share - 1);
        let taken: i64 = others.iter().map(|new| new.share).sum::<i64>() - other.share;
        let more = self.limit(kind) - taken - less;
        let start = rng.between(1, WEEK - 4);
        let end = rng.between(start + 3, WEEK - 1);
        let inside = rng.pick(&[(0, 0), (0, 0), (0, 1), (1, 0), (1, 1)]);
        let outside = rng.pick(&[(-1, 0), (0, -1), (-1, 1)]);
        let (later, earlier) = if is_outside { outside } else { inside };
        let (from, to) = (start + later, end - earlier);
        let mut both = [
            Window { node, start, end, share: less },
            Window { node: other.node, start: from, end: to, share: more.min(MAX_RATE) },
        ];
        if rng.chance(50) {
            both.reverse();
        }
        self.windows.extend(both);
    }

    /// Brings a cause about, if the plan has what it takes. They are numbered in their order,
    /// and those of 17 come three times.
    fn spoil(&mut self, rng: &mut Rng, taste: &Taste, cause: usize) {
        match cause {
            0 => self.has_other_minute = true,
            1 if rng.chance(50) => self.has_other_plan = true,
            1 => self.refuse_entry(rng),
            2 => self.change_tree(rng),
            3 if rng.chance(30) => match rng.chance(50) {
                true => self.behind = (0..1 + rng.below(3)).map(|_| rng.edge(1, WEEK)).collect(),
                false => self.left_out = 1 + rng.below(3),
            },
            3 | 4 => self.spoil_window(rng),
            5 => self.spoil_share(rng),
            6 | 7 if rng.chance(30) => {
                self.windows.clear();
                self.add_relay(rng, true);
            }
            6 => self.exceed(rng, taste, FIXED),
            _ => self.exceed(rng, taste, STATED),
        }
    }

    /// Makes a window wrong, or two of them.
    fn spoil_window(&mut self, rng: &mut Rng) {
        match rng.below(3) {
            0 => self.spoil_minutes(rng),
            1 => self.spoil_node(rng),
            _ => self.overlap(rng),
        }
    }

    /// One of the windows, which are made one where there is none.
    fn some_window(&mut self, rng: &mut Rng) -> &mut Window {
        if self.windows.is_empty() {
            let node = self.index(rng).map_or(1, |index| self.plan.nodes[index].node);
            let (start, end) = self.slot(rng);
            self.windows.push(Window { node, start, end, share: 1 });
        }
        let index = rng.below(self.windows.len());
        &mut self.windows[index]
    }

    fn spoil_minutes(&mut self, rng: &mut Rng) {
        let any = rng.edge(0, WEEK);
        let window = self.some_window(rng);
        let Window { start, end, .. } = *window;
        (window.start, window.end) = rng.pick(&[
            (start, start),
            (start, start),
            (end, start),
            (end, start),
            (end, start),
            (end, start),
            (-1, end),
            (start, WEEK + 1),
            (WEEK, WEEK),
            (WEEK, WEEK + 1),
            (any, end),
            (start, any),
        ]);
    }

    fn spoil_node(&mut self, rng: &mut Rng) {
        let any = rng.edge(0, 63);
        let node = rng.pick(&[0, 0, 64, -1, any]);
        let absent: Vec<i64> = (1..NODES as i64)
            .filter(|node| self.plan.nodes.iter().all(|new| new.node != *node))
            .collect();
        let node = if rng.chance(50) || absent.is_empty() { node } else { rng.pick(&absent) };
        self.some_window(rng).node = node;
    }

    /// A window of the same node that has a minute or more in common with another, somewhere
    /// in the list.
    fn overlap(&mut self, rng: &mut Rng) {
        let Window { node, start, end, share } = *self.some_window(rng);
        let (start, end) = (start.clamp(0, WEEK), end.clamp(0, WEEK));
        let (start, end) = rng.pick(&[
            (start, end),
            (end - 1, end + 1),
            (end - 1, end + 1),
            (start - 1, start + 1),
            (start - 1, start + 1),
            (start, start + 1),
            (0, WEEK),
        ]);
        let (start, end) = (start.clamp(0, WEEK - 1), end.clamp(1, WEEK));
        let place = rng.below(self.windows.len() + 1);
        self.windows.insert(place, Window { node, start, end, share });
    }

    fn spoil_share(&mut self, rng: &mut Rng) {
        let rate = self.plan.rate;
        let any = rng.edge(1, MAX_RATE);
        let share = rng.pick(&[0, 0, 0, -1, MAX_SHARE + 1, MAX_SHARE + 1, rate, MAX_RATE + 1, any]);
        self.some_window(rng).share = share;
    }

    /// Adds a window by which the shares of a kind under a class are above their limit, mostly
    /// by one.
    fn exceed(&mut self, rng: &mut Rng, taste: &Taste, kind: i64) {
        let is_of_kind = |draft: &Draft, index: usize| {
            let needs_others = kind == FIXED && draft.beside(index, kind).next().is_none();
            draft.plan.nodes[index].kind == kind && !needs_others
        };
        let count = self.plan.nodes.len();
        if !(0..count).any(|index| is_of_kind(self, index)) {
            self.make_two(rng, taste, kind);
        }
        let all: Vec<usize> = (0..count).filter(|&index| is_of_kind(self, index)).collect();
        if all.is_empty() {
            return;
        }
        let index = rng.pick(&all);
        let taken: i64 = self.beside(index, kind).map(|new| new.share).sum();
        let above = self.limit(kind) - taken + rng.pick(&[1, 1, 1, 2, 100]);
        let largest = largest_share(kind).unwrap_or(MAX_SHARE);
        self.add_in_a_slot(rng, self.plan.nodes[index].node, above.clamp(1, largest));
    }

    /// Gives a node of the plan and one beside it that kind, where there is room: children of
    /// the root for stated rates.
    fn make_two(&mut self, rng: &mut Rng, taste: &Taste, kind: i64) {
        let is_candidate = |new: &NewNode| kind == FIXED || new.parent == ROOT as i64;
        let nodes = &self.plan.nodes;
        let all: Vec<usize> =
            (0..nodes.len()).filter(|&index| is_candidate(&nodes[index])).collect();
        if all.is_empty() {
            return;
        }
        let first = rng.pick(&all);
        let parent = nodes[first].parent;
        let is_other = |&index: &usize| index != first && nodes[index].parent == parent;
        let second = all.iter().copied().find(is_other);
        for index in [Some(first), second].into_iter().flatten() {
            if let Some(share) = self.share(rng, taste, index, kind) {
                self.plan.nodes[index].kind = kind;
                self.plan.nodes[index].share = share;
            }
        }
    }

    /// Makes an entry of the plan one that mostly cannot join: its number is another's, its
    /// parent is not there or a client, or it is a class where none may be. Or it puts two
    /// entries in each other's place.
    fn refuse_entry(&mut self, rng: &mut Rng) {
        let Some(index) = self.index(rng) else { return };
        let other = rng.pick(&self.plan.nodes);
        let any = rng.between(0, 64);
        let next = (index + 1) % self.plan.nodes.len();
        let new = &mut self.plan.nodes[index];
        match rng.below(6) {
            0 => new.node = other.node,
            1 => new.parent = any,
            2 => new.parent = other.node,
            3 => new.sort = CLASS,
            _ => self.plan.nodes.swap(index, next),
        }
    }

    /// Changes the plan's tree in one of the places that it shares with the table.
    fn change_tree(&mut self, rng: &mut Rng) {
        let by = rng.pick(&[-1, 1]);
        let Some(index) = self.index(rng) else {
            self.plan.depth += by;
            return;
        };
        let is_leaf = |new: &NewNode| self.plan.nodes.iter().all(|other| other.parent != new.node);
        let leaves: Vec<usize> =
            (0..self.plan.nodes.len()).filter(|&index| is_leaf(&self.plan.nodes[index])).collect();
        let leaf = leaves.get(rng.below(leaves.len().max(1))).copied().unwrap_or(index);
        match rng.below(8) {
            0 => self.plan.rate += by,
            1 => self.plan.depth += by,
            2 => self.plan.nodes[index].depth += by,
            3 => {
                let sort = &mut self.plan.nodes[leaf].sort;
                *sort = CLASS + CLIENT - *sort;
            }
            4 | 5 => self.move_node(rng, leaf),
            6 => {
                self.plan.nodes.remove(leaf);
            }
            _ => self.add_node(rng),
        }
        self.sort();
    }

    /// Puts a node under another class, or under the root, mostly where there is depth for it.
    fn move_node(&mut self, rng: &mut Rng, index: usize) {
        let own = self.plan.nodes[index];
        let classes = self.plan.nodes.iter().filter(|new| new.sort == CLASS);
        let all = classes.map(|new| (new.node, new.depth)).chain([(ROOT as i64, self.plan.depth)]);
        let others: Vec<(i64, i64)> =
            all.filter(|&(class, _)| class != own.node && class != own.parent).collect();
        let has_room = |&(class, depth): &(i64, i64)| {
            let children = self.plan.nodes.iter().filter(|new| new.parent == class);
            children.map(|new| new.depth).sum::<i64>() + own.depth <= depth
        };
        let roomy: Vec<(i64, i64)> = others.iter().copied().filter(has_room).collect();
        let candidates = if roomy.is_empty() { others } else { roomy };
        if candidates.is_empty() {
            return;
        }
        let new = &mut self.plan.nodes[index];
        new.parent = rng.pick(&candidates).0;
        if rng.chance(80) {
            (new.kind, new.share) = (WEIGHTED, 1);
        }
    }

    /// Adds a client of depth 1 under the root or a class.
    fn add_node(&mut self, rng: &mut Rng) {
        let is_free = |node: &i64| self.plan.nodes.iter().all(|new| new.node != *node);
        let free: Vec<i64> = (1..NODES as i64).filter(is_free).collect();
        let classes = self.plan.nodes.iter().filter(|new| new.sort == CLASS);
        let parents: Vec<i64> =
            std::iter::once(ROOT as i64).chain(classes.map(|new| new.node)).collect();
        if !free.is_empty() {
            let (node, parent) = (rng.pick(&free), rng.pick(&parents));
            let (sort, kind) = (CLIENT, WEIGHTED);
            self.plan.nodes.push(NewNode { node, parent, sort, kind, share: 1, depth: 1, port: 0 });
        }
    }

    /// Puts the entries in their order again.
    fn sort(&mut self) {
        let nodes = self.plan.nodes.clone();
        self.plan.nodes.sort_by_key(|new| (plans::level(&nodes, new), new.node));
    }
}
