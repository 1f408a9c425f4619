//! The load with one known fault: misreadings of document 02's request (d), each of
//! which a comparison of texts must find. Without a fault it is the document's once
//! more.

use crate::cost::{cost, largest_size};
use crate::load::{Request, HEAD_LEN};
use crate::plan::{self, Edition};
use crate::refusal::*;
use crate::table::*;
use crate::{calls, tick};

/// Ticks that a load with a fault makes at most: one that misreads the head would
/// go on for long.
const MOST_TICKS: u32 = 70_000;
const FACTOR: u128 = 1_664_525;
const ADDED: u128 = 1_013_904_223;
const TWO_TO_32: u128 = 1 << 32;

/// A fault of the load.
#[derive(Clone, Copy, Debug, PartialEq, Eq)]
pub enum LoadFault {
    /// No fault at all: the measure for the others.
    None,

    /// The head is read high byte first.
    HighByteFirst,
    /// The number of ticks stands before the seed.
    TicksBeforeSeed,
    /// The head stands behind the plan.
    HeadLast,
    /// The upper half of the seed is dropped.
    ShortSeed,
    /// The upper half of the number of ticks is dropped.
    ShortTicks,
    /// An input below 8 bytes prints nothing.
    ShortInputSilent,
    /// An input below 8 bytes is refused with 13.
    ShortInputOther,
    /// With zero ticks the plan is not looked at.
    ZeroTicksFirst,
    /// Bytes behind the plan are not looked at.
    IgnoresRest,
    /// Plans of the second edition are refused with 14.
    FirstEditionOnly,
    /// A refused plan prints nothing.
    RefusedPlanSilent,
    /// Every refused plan is refused with 14.
    RefusedPlanAlike,
    /// A tree without clients is refused with 3.
    NoClientsRefused,

    /// The lower 16 bits are drawn.
    LowerBits,
    /// All 32 bits are drawn.
    AllBits,
    /// The 16 bits drawn have a sign.
    SignedDraw,
    /// The old state is drawn from.
    OldState,
    /// What was drawn is the new state.
    DrawnIsState,
    /// The sum comes before the product.
    AddsFirst,
    /// The two constants in each other's place.
    ConstantsExchanged,
    /// The state wraps at 31 bits.
    WrapsAt31,
    /// The state wraps at 64 bits, and all but the lower 16 are drawn.
    WrapsAt64,
    /// The remainder is by 2^32 − 1.
    WrongRemainder,
    /// A product or a sum above 32 bits gives the largest number.
    Saturates,
    /// The first draw is thrown away.
    SkipsFirst,
    /// The state is the seed again for each request.
    SeedEachTime,

    /// The third draw is the size, the second the tag.
    TagBeforeSize,
    /// The second draw picks the client, the first is the size.
    SizeBeforeClient,
    /// The client is picked by falling number.
    FallingNumber,
    /// The client is picked by its place in the plan.
    PlanOrder,
    /// Clients are counted from 1, and 0 is the last of them.
    CountsFromOne,
    /// The draw modulo 64 is the client's node number.
    NodeNumber,
    /// The draw is modulo the number of nodes, of which one is picked.
    AllNodes,
    /// Only clients of depth 8 or more are counted.
    AbleClients,
    /// Only clients with room for a request are counted.
    ClientsWithRoom,
    /// The client is picked by the draw's part of 65,536.
    ScaledClient,
    /// The size is the draw modulo the depth.
    NoPlusOne,
    /// The size is the draw modulo the depth plus 1.
    DepthPlusOne,
    /// The size is the draw's part of 65,536 of the depth, plus 1.
    ScaledSize,
    /// The modulus is the largest size whose cost fits the depth.
    ModuloFitting,
    /// The modulus is the root's depth.
    ModuloRootDepth,
    /// The modulus is the depth of the client's class.
    ModuloClassDepth,
    /// The modulus is the depth in grains.
    ModuloGrains,
    /// The tag is the state behind the third draw.
    StateForTag,
    /// The tag is the tick's number.
    TickForTag,

    /// After a refused request none is made any more.
    StopsAsking,
    /// For a refused request another is drawn before the tick, three times at most.
    DrawsAgain,
    /// A refused request is made again before the next tick.
    KeepsRefused,
    /// One draw only where the client's queue is full.
    OneDrawWhenFull,
    /// Two draws only where the cost is above the depth.
    TwoDrawsWhenAbove,
    /// Where the queue is full, the next client that has room and depth is asked for.
    NextClientWhenFull,
    /// Where the queue is full, its oldest request makes room.
    DropsOldest,
    /// Where the cost is above the depth, the largest size that fits is asked for.
    FitsSize,
    /// A refused request takes its tick with it.
    RefusedSkipsTick,
    /// A refused request ends the program with its number.
    RefusedEnds,

    /// The tick comes before its request.
    TickFirst,
    /// One request for each client before each tick.
    AsksForEach,
    /// A request at every second tick.
    EverySecondTick,
    /// Ticks count from 0.
    FromZero,
    /// A request counts as a tick.
    CountsRequests,
    /// The tick's number is that of the line.
    CountsLines,
    /// One tick more.
    TickMore,
    /// One tick less.
    TickLess,

    /// A tick without a dispatch has a line too.
    IdleLine,
    /// A tick has a line for its first dispatch alone.
    FirstDispatchOnly,
    /// The lines of a tick stand by client number.
    LinesByClient,
    /// The line gives the cost.
    CostForSize,
    /// Client and supplier in each other's place.
    SupplierBeforeClient,
    /// Size and tag in each other's place.
    SizeBeforeTag,
    /// The line has no tick.
    WithoutTick,
    /// The last line has no line feed.
    NoLastFeed,
}

/// All faults.
pub const LOAD_FAULTS: [LoadFault; 71] = {
    use LoadFault::*;
    [
        HighByteFirst,
        TicksBeforeSeed,
        HeadLast,
        ShortSeed,
        ShortTicks,
        ShortInputSilent,
        ShortInputOther,
        ZeroTicksFirst,
        IgnoresRest,
        FirstEditionOnly,
        RefusedPlanSilent,
        RefusedPlanAlike,
        NoClientsRefused,
        LowerBits,
        AllBits,
        SignedDraw,
        OldState,
        DrawnIsState,
        AddsFirst,
        ConstantsExchanged,
        WrapsAt31,
        WrapsAt64,
        WrongRemainder,
        Saturates,
        SkipsFirst,
        SeedEachTime,
        TagBeforeSize,
        SizeBeforeClient,
        FallingNumber,
        PlanOrder,
        CountsFromOne,
        NodeNumber,
        AllNodes,
        AbleClients,
        ClientsWithRoom,
        ScaledClient,
        NoPlusOne,
        DepthPlusOne,
        ScaledSize,
        ModuloFitting,
        ModuloRootDepth,
        ModuloClassDepth,
        ModuloGrains,
        StateForTag,
        TickForTag,
        StopsAsking,
        DrawsAgain,
        KeepsRefused,
        OneDrawWhenFull,
        TwoDrawsWhenAbove,
        NextClientWhenFull,
        DropsOldest,
        FitsSize,
        RefusedSkipsTick,
        RefusedEnds,
        TickFirst,
        AsksForEach,
        EverySecondTick,
        FromZero,
        CountsRequests,
        CountsLines,
        TickMore,
        TickLess,
        IdleLine,
        FirstDispatchOnly,
        LinesByClient,
        CostForSize,
        SupplierBeforeClient,
        SizeBeforeTag,
        WithoutTick,
        NoLastFeed,
    ]
};

/// The whole text that the program with that fault prints of an input.
pub fn text(fault: LoadFault, input: &[u8]) -> Vec<u8> {
    let Some((seed, ticks, plan)) = split(fault, input) else {
        return match fault {
            LoadFault::ShortInputSilent => Vec::new(),
            LoadFault::ShortInputOther => refused(BUFFER_SHORT),
            _ => refused(PLAN_WRONG),
        };
    };
    if fault == LoadFault::ZeroTicksFirst && ticks == 0 {
        return Vec::new();
    }
    if fault == LoadFault::FirstEditionOnly && Edition::of(plan) == Edition::Second {
        return refused(PLAN_WRONG);
    }
    let mut table = vec![0; TABLE_LEN];
    match plan::read(plan, &mut table) {
        Ok(_) if fault == LoadFault::NoClientsRefused && clients(&table).next().is_none() => {
            refused(NOT_THERE)
        }
        Ok(_) => FaultyLoad::new(fault, seed, table).run(ticks),
        Err(_) if fault == LoadFault::RefusedPlanSilent => Vec::new(),
        Err(_) if fault == LoadFault::RefusedPlanAlike => refused(PLAN_WRONG),
        Err(number) => refused(number),
    }
}

fn refused(number: i64) -> Vec<u8> {
    format!("refused {number}\n").into_bytes()
}

/// Seed, number of ticks and plan of an input that has a head.
fn split(fault: LoadFault, input: &[u8]) -> Option<(u32, u32, &[u8])> {
    let (head, plan) = match fault {
        LoadFault::HeadLast => {
            let (plan, head) = input.split_last_chunk::<HEAD_LEN>()?;
            (head, plan)
        }
        _ => input.split_first_chunk::<HEAD_LEN>()?,
    };
    let number = |at: usize| {
        let bytes = [head[at], head[at + 1], head[at + 2], head[at + 3]];
        match fault {
            LoadFault::HighByteFirst => u32::from_be_bytes(bytes),
            _ => u32::from_le_bytes(bytes),
        }
    };
    let length = match fault {
        LoadFault::IgnoresRest => {
            let form = Edition::of(plan).form();
            let whole = form.count(plan).map_or(plan.len(), |count| form.plan_len(count));
            plan.len().min(whole)
        }
        _ => plan.len(),
    };
    let (seed, ticks) = match fault {
        LoadFault::TicksBeforeSeed => (number(4), number(0)),
        LoadFault::ShortSeed => (number(0) & 0xFFFF, number(4)),
        LoadFault::ShortTicks => (number(0), number(4) & 0xFFFF),
        _ => (number(0), number(4)),
    };
    Some((seed, ticks, &plan[..length]))
}

/// A load with a fault on its way.
struct FaultyLoad {
    fault: LoadFault,
    seed: u64,
    state: u64,
    /// The states behind the three draws of the last request.
    states: [u64; 3],
    tick: i64,
    table: Vec<i64>,
    /// What the first draw picks from.
    clients: Vec<usize>,
    /// For [`LoadFault::KeepsRefused`]: the refused request.
    kept: Option<Request>,
    /// The last request's refusal, and how many there were.
    refusal: Option<i64>,
    refusals: usize,
    lines: i64,
    text: Vec<u8>,
}

impl FaultyLoad {
    fn new(fault: LoadFault, seed: u32, table: Vec<i64>) -> FaultyLoad {
        let mut load = FaultyLoad {
            fault,
            seed: u64::from(seed),
            state: u64::from(seed),
            states: [0; 3],
            tick: 0,
            clients: counted_clients(fault, &table),
            table,
            kept: None,
            refusal: None,
            refusals: 0,
            lines: 0,
            text: Vec::new(),
        };
        if load.has(LoadFault::SkipsFirst) {
            load.draw();
        }
        load
    }

    fn has(&self, fault: LoadFault) -> bool {
        self.fault == fault
    }

    fn run(mut self, ticks: u32) -> Vec<u8> {
        let ticks = match self.fault {
            LoadFault::TickMore => ticks.saturating_add(1),
            LoadFault::TickLess => ticks.saturating_sub(1),
            _ => ticks,
        };
        for _ in 0..ticks.min(MOST_TICKS) {
            self.go_on();
            if let (LoadFault::RefusedEnds, Some(number)) = (self.fault, self.refusal) {
                self.text.extend(refused(number));
                break;
            }
        }
        if self.has(LoadFault::NoLastFeed) {
            self.text.pop();
        }
        self.text
    }

    /// One tick with its request.
    fn go_on(&mut self) {
        self.tick += 1;
        self.refusal = None;
        if self.has(LoadFault::TickFirst) {
            self.make_tick();
        }
        for _ in 0..self.requests() {
            self.ask();
        }
        let left_out = match self.fault {
            LoadFault::TickFirst => true,
            LoadFault::RefusedSkipsTick | LoadFault::RefusedEnds => self.refusal.is_some(),
            _ => false,
        };
        if !left_out {
            self.make_tick();
        }
    }

    /// How many requests are made at this tick.
    fn requests(&self) -> usize {
        match self.fault {
            LoadFault::AsksForEach => self.clients.len(),
            LoadFault::EverySecondTick => (self.tick % 2) as usize,
            LoadFault::StopsAsking if self.refusals > 0 => 0,
            _ => 1,
        }
    }
}

/// What the first draw picks from: "the client by rising number".
fn counted_clients(fault: LoadFault, table: &[i64]) -> Vec<usize> {
    let mut all: Vec<usize> = clients(table).collect();
    if all.is_empty() {
        return all;
    }
    match fault {
        LoadFault::FallingNumber => all.reverse(),
        LoadFault::PlanOrder => all.sort_by_key(|&client| (get(table, client, LEVEL), client)),
        LoadFault::CountsFromOne => all.rotate_right(1),
        LoadFault::NodeNumber => all = (0..NODES).collect(),
        LoadFault::AllNodes => all = used_nodes(table).collect(),
        LoadFault::AbleClients => {
            all.retain(|&client| largest_size(get(table, client, DEPTH)).is_some())
        }
        _ => {}
    }
    all
}

/// The draws and the request that they give.
impl FaultyLoad {
    fn draw(&mut self) -> i64 {
        let old = self.state;
        self.state = self.next_state();
        let upper = (self.state >> 16) as i64;
        match self.fault {
            LoadFault::LowerBits => (self.state & 0xFFFF) as i64,
            LoadFault::AllBits => self.state as i64,
            LoadFault::SignedDraw => i64::from(upper as i16),
            LoadFault::OldState => (old >> 16) as i64,
            LoadFault::DrawnIsState => {
                self.state = upper as u64;
                upper
            }
            _ => upper,
        }
    }

    fn next_state(&self) -> u64 {
        let state = u128::from(self.state);
        let sum = state * FACTOR + ADDED;
        let next = match self.fault {
            LoadFault::AddsFirst => (state + ADDED) * FACTOR % TWO_TO_32,
            LoadFault::ConstantsExchanged => (state * ADDED + FACTOR) % TWO_TO_32,
            LoadFault::WrapsAt31 => sum % (1 << 31),
            LoadFault::WrapsAt64 => sum % (1 << 64),
            LoadFault::WrongRemainder => sum % (TWO_TO_32 - 1),
            LoadFault::Saturates => sum.min(TWO_TO_32 - 1),
            _ => sum % TWO_TO_32,
        };
        next as u64
    }

    fn drawn_request(&mut self) -> Option<Request> {
        let mut from = self.clients.clone();
        if self.has(LoadFault::ClientsWithRoom) {
            from.retain(|&client| waiting_count(&self.table, client) < QUEUE_LEN);
        }
        if from.is_empty() {
            return None;
        }
        if self.has(LoadFault::SeedEachTime) {
            self.state = self.seed;
        }
        let mut draws = [0; 3];
        for (index, drawn) in draws.iter_mut().enumerate() {
            *drawn = self.draw();
            self.states[index] = self.state;
        }
        match self.fault {
            LoadFault::TagBeforeSize => draws.swap(1, 2),
            LoadFault::SizeBeforeClient => draws.swap(0, 1),
            _ => {}
        }
        let client = self.client(&from, draws[0]);
        Some(Request { client, size: self.size(client, draws[1]), tag: self.tag(draws[2]) })
    }

    fn client(&self, from: &[usize], drawn: i64) -> usize {
        let count = from.len() as i64;
        let index = match self.fault {
            LoadFault::ScaledClient => (drawn * count) >> 16,
            _ => drawn.rem_euclid(count),
        };
        from[index as usize]
    }

    fn size(&self, client: usize, drawn: i64) -> i64 {
        let depth_of = |node: usize| get(&self.table, node, DEPTH);
        let depth = depth_of(client);
        let modulus = match self.fault {
            LoadFault::DepthPlusOne => depth + 1,
            LoadFault::ModuloFitting => largest_size(depth).unwrap_or(depth),
            LoadFault::ModuloRootDepth => depth_of(ROOT),
            LoadFault::ModuloClassDepth => parent(&self.table, client).map_or(depth, depth_of),
            LoadFault::ModuloGrains => in_grains(depth),
            _ => depth,
        };
        // A node that is not there has depth 0.
        let modulus = modulus.max(1);
        match self.fault {
            LoadFault::NoPlusOne | LoadFault::DepthPlusOne => drawn % modulus,
            LoadFault::ScaledSize => ((drawn * modulus) >> 16) + 1,
            _ => drawn.rem_euclid(modulus) + 1,
        }
    }

    fn tag(&self, drawn: i64) -> i64 {
        match self.fault {
            LoadFault::StateForTag => self.state as i64,
            LoadFault::TickForTag => self.tick,
            _ => drawn,
        }
    }
}

/// The calls, and what is done about a refusal.
impl FaultyLoad {
    fn ask(&mut self) {
        let Some(request) = self.kept.take().or_else(|| self.drawn_request()) else {
            return;
        };
        if let Err(number) = self.request(request) {
            self.refusal = Some(number);
            self.refusals += 1;
            self.after_refusal(request, number);
        }
    }

    fn request(&mut self, request: Request) -> Answer<i64> {
        calls::request(&mut self.table, request.client as i64, request.tag, request.size)
    }

    /// "A refused request is dropped": nothing is done.
    fn after_refusal(&mut self, request: Request, number: i64) {
        match (self.fault, number) {
            (LoadFault::KeepsRefused, _) => self.kept = Some(request),
            (LoadFault::OneDrawWhenFull, QUEUE_FULL) => self.state = self.states[0],
            (LoadFault::TwoDrawsWhenAbove, DEPTH_ABOVE) => self.state = self.states[1],
            (LoadFault::DrawsAgain, _) => self.draw_again(),
            (LoadFault::NextClientWhenFull, QUEUE_FULL) => self.ask_next(request),
            (LoadFault::DropsOldest, QUEUE_FULL) => {
                take_oldest(&mut self.table, request.client);
                let _ = self.request(request);
            }
            (LoadFault::FitsSize, DEPTH_ABOVE) => {
                let fitting = largest_size(get(&self.table, request.client, DEPTH));
                let size = fitting.unwrap_or(request.size);
                let _ = self.request(Request { size, ..request });
            }
            _ => {}
        }
    }

    fn draw_again(&mut self) {
        for _ in 0..3 {
            let accepted =
                self.drawn_request().is_some_and(|request| self.request(request).is_ok());
            if accepted {
                break;
            }
        }
    }

    /// The clients behind the request's in rising number, then the others.
    fn ask_next(&mut self, request: Request) {
        let (before, behind): (Vec<usize>, Vec<usize>) =
            clients(&self.table).partition(|&client| client <= request.client);
        for client in behind.into_iter().chain(before) {
            if self.request(Request { client, ..request }).is_ok() {
                break;
            }
        }
    }

    fn make_tick(&mut self) {
        let mut list = vec![0; tick::ENTRY_LEN * waiting_in_all(&self.table)];
        let counts = tick::tick(&mut self.table, [&mut list, &mut []]);
        let count = counts.map_or(0, |counts| counts[0]) as usize;
        let mut entries: Vec<[i64; 4]> = list
            .chunks_exact(tick::ENTRY_LEN)
            .take(count)
            .map(|entry| [entry[0], entry[1], entry[2], entry[3]])
            .collect();
        match self.fault {
            LoadFault::FirstDispatchOnly => entries.truncate(1),
            LoadFault::LinesByClient => entries.sort_by_key(|entry| entry[0]),
            LoadFault::IdleLine if entries.is_empty() => self.print(&[self.tick]),
            _ => {}
        }
        for entry in entries {
            self.line(entry);
        }
    }
}

/// The lines.
impl FaultyLoad {
    fn line(&mut self, [client, tag, size, supplier]: [i64; 4]) {
        self.lines += 1;
        let tick = match self.fault {
            LoadFault::FromZero => self.tick - 1,
            LoadFault::CountsRequests => 2 * self.tick,
            LoadFault::CountsLines => self.lines,
            _ => self.tick,
        };
        match self.fault {
            LoadFault::CostForSize => self.print(&[tick, client, tag, cost(size), supplier]),
            LoadFault::SupplierBeforeClient => self.print(&[tick, supplier, tag, size, client]),
            LoadFault::SizeBeforeTag => self.print(&[tick, client, size, tag, supplier]),
            LoadFault::WithoutTick => self.print(&[client, tag, size, supplier]),
            _ => self.print(&[tick, client, tag, size, supplier]),
        }
    }

    fn print(&mut self, numbers: &[i64]) {
        let words: Vec<String> = numbers.iter().map(i64::to_string).collect();
        self.text.extend(words.join(" ").bytes());
        self.text.push(b'\n');
    }
}
