//! Retiming and quotes, written in Rust from documents 01 and 02, as one would for production.
//!
//! The least lags come by rounds (Leiserson and Saxe), from the least legal lags on. The choice comes by a search through the
//! values that hang on it, in an order found once; it goes from choice to choice as the proved one does, so that the two can be
//! timed against each other. The other new start values are what the original shows.

use crate::reference::{
    bit_of, put_netlist, read, read_with_order, truth, Answer, Engine, Lists, Netlist, Refusal, OUTPUT,
};
use std::cmp::{Ordering, Reverse};
use std::collections::BinaryHeap;

const LONGEST_PERIOD: u32 = 65_535;
const WIDEST: i32 = 32;
const MOST_CHOSEN: u32 = 24;

/// As many as a u16 can name, so that no name needs a check. There are 24 chosen values and 24 times 512 cells at most.
const SIGNALS: usize = 1 << 16;

// --- The least lags -------------------------------------------------------------------------------

/// "Delay times derate, divided by 100, rounded to the nearest whole", "a half to the even neighbour".
pub fn working_delays(net: &Netlist) -> Vec<u32> {
    net.nodes.iter().map(|node| rounded(u32::from(node.delay) * u32::from(net.derate))).collect()
}

/// Hundredths, rounded so.
fn rounded(hundredths: u32) -> u32 {
    let (whole, rest) = (hundredths / 100, hundredths % 100);
    match rest.cmp(&50) {
        Ordering::Less => whole,
        Ordering::Equal => whole + whole % 2,
        Ordering::Greater => whole + 1,
    }
}

/// The edges by the node that they leave: where they lead, and how many registers they hold.
type Leaving = Lists<(u16, i32)>;

/// The least lags that are legal, whatever the period: minus the fewest registers on any way from a pin (Dijkstra's way).
fn least_legal(net: &Netlist, leaving: &Leaving) -> Vec<i32> {
    let mut fewest = vec![i32::MAX; net.nodes.len()];
    let mut waiting = BinaryHeap::new();
    for (v, node) in net.nodes.iter().enumerate() {
        if node.kind <= OUTPUT {
            fewest[v] = 0;
            waiting.push(Reverse((0, v as u16)));
        }
    }
    while let Some(Reverse((registers, v))) = waiting.pop() {
        if registers > fewest[usize::from(v)] {
            continue;
        }
        for &(to, count) in leaving.of(usize::from(v)) {
            let there = &mut fewest[usize::from(to)];
            if registers + count < *there {
                *there = registers + count;
                waiting.push(Reverse((registers + count, to)));
            }
        }
    }
    fewest.iter().map(|&registers| -registers).collect()
}

/// The chains of a moved netlist: its nodes in evaluation order, and how long the longest chain is that ends at each.
struct Chains {
    order: Vec<u16>,
    length: Vec<u32>,
    waits: Vec<u16>,
}

impl Chains {
    fn new(nodes: usize) -> Self {
        Chains { order: Vec::with_capacity(nodes), length: vec![0; nodes], waits: vec![0; nodes] }
    }

    /// .. under these lags, in the room that was used before.
    fn follow(&mut self, leaving: &Leaving, delays: &[u32], lags: &[i32]) {
        let Chains { order, length, waits } = self;
        order.clear();
        length.copy_from_slice(delays);
        waits.fill(0);
        for (u, &lag) in lags.iter().enumerate() {
            for &(to, count) in leaving.of(u) {
                waits[usize::from(to)] += u16::from(count + lags[usize::from(to)] == lag);
            }
        }
        order.extend((0..lags.len() as u16).filter(|&v| waits[usize::from(v)] == 0));
        let mut done = 0;
        while let Some(&u) = order.get(done) {
            let u = usize::from(u);
            for &(to, count) in leaving.of(u) {
                let v = usize::from(to);
                if count + lags[v] == lags[u] {
                    length[v] = length[v].max(length[u] + delays[v]);
                    waits[v] -= 1;
                    if waits[v] == 0 {
                        order.push(to);
                    }
                }
            }
            done += 1;
        }
    }
}

/// Rounds over a netlist at any period: what does not depend on the period is made once.
struct Rounds<'a> {
    net: &'a Netlist,
    delays: Vec<u32>,
    leaving: Leaving,
    chains: Chains,
}

impl<'a> Rounds<'a> {
    fn new(net: &'a Netlist, delays: Vec<u32>) -> Self {
        let leaving = Lists::gather(delays.len(), net.edges.iter().map(|e| (e.from, (e.to, i32::from(e.count)))));
        let chains = Chains::new(delays.len());
        Rounds { net, delays, leaving, chains }
    }

    /// "The legal one meeting the period whose lag is smallest at every node at once", or none; its chains are followed. The
    /// rounds begin at lags that are legal and at no node above it: the least legal ones, or the least at a longer period.
    ///
    /// A node at the end of a chain that is too long needs one more than it has, whatever the others have: its chain holds no
    /// register, and no lag before it can fall. After as many rounds as nodes every demand has come through.
    fn least_at(&mut self, period: u32, mut lags: Vec<i32>) -> Option<Vec<i32>> {
        let Rounds { net, delays, leaving, chains } = self;
        for _ in 0..=net.nodes.len() {
            chains.follow(leaving, delays, &lags);
            let mut late = false;
            for (v, lag) in lags.iter_mut().enumerate() {
                if chains.length[v] > period {
                    if net.nodes[v].kind <= OUTPUT {
                        return None;
                    }
                    *lag += 1;
                    late = true;
                }
            }
            if !late {
                return Some(lags);
            }
        }
        None
    }
}

fn longest(lengths: &[u32]) -> u32 {
    lengths.iter().copied().max().unwrap_or(0)
}

/// The least lags at the netlist's own period, with an evaluation order of what they make of it; or none.
fn least_lags(net: &Netlist) -> Option<(Vec<i32>, Vec<u16>)> {
    let (period, delays) = (u32::from(net.period), working_delays(net));
    if longest(&delays) > period {
        return None;
    }
    let mut rounds = Rounds::new(net, delays);
    let first = least_legal(net, &rounds.leaving);
    let lags = rounds.least_at(period, first)?;
    Some((lags, rounds.chains.order))
}

// --- The choice -----------------------------------------------------------------------------------

/// Nothing is wanted of a value; nothing is what it should be.
const FREE: u8 = 2;
const NEVER: u8 = 3;

/// The value of a node of the new netlist at a clock below its lag: what it sees (a range of `sees`), its truth table, what is
/// wanted of it, and how many leading values of the choice it hangs on.
#[derive(Clone, Copy)]
struct Cell {
    first: u32,
    end: u32,
    truth: u16,
    wanted: u8,
    hangs_on: u8,
}

/// A netlist and its least retiming: lags, new counts, and the numbers of the chosen values.
struct Move<'a> {
    net: &'a Netlist,
    lags: Vec<i32>,
    counts: Vec<i32>,
    first_chosen: Vec<u32>, // on each edge
    chosen: u32,
}

impl<'a> Move<'a> {
    fn new(net: &'a Netlist, lags: Vec<i32>) -> Self {
        let lag = |v: u16| lags[usize::from(v)];
        let counts: Vec<i32> = net.edges.iter().map(|e| i32::from(e.count) + lag(e.to) - lag(e.from)).collect();
        let mut chosen = 0;
        let mut first_chosen = Vec::with_capacity(counts.len());
        for (edge, &count) in net.edges.iter().zip(&counts) {
            first_chosen.push(chosen);
            chosen += count.min(lag(edge.to)).max(0) as u32;
        }
        Move { net, lags, counts, first_chosen, chosen }
    }
}

/// All values that hang on a choice. Signals: the chosen values, then the cells. Each cell comes after those that it sees, and
/// those that hang on fewer leading values come first: the ones that hang on value x or a later one begin at `from[x]`.
struct Search {
    chosen: u32,
    cells: Vec<Cell>,
    sees: Vec<u16>,
    from: Vec<usize>,
}

impl Search {
    /// The nodes of the new netlist come in evaluation order.
    fn new(by: &Move, order: &[u16]) -> Self {
        let Move { net, lags, counts, first_chosen, chosen } = by;
        let chosen = *chosen;
        let clocks = lags.iter().copied().max().unwrap_or(0).max(0);
        let into = Lists::gather(net.nodes.len(), net.edges.iter().enumerate().map(|(e, edge)| (edge.to, e as u16)));

        // in evaluation order, clock by clock, with the signals that this order would give
        let mut start = vec![0; net.nodes.len()]; // of each node: the place of its first cell in `places`
        let mut all = 0;
        for (v, &lag) in lags.iter().enumerate() {
            start[v] = all;
            all += lag.max(0) as usize;
        }
        let mut places = vec![0u32; all];
        let mut cells: Vec<Cell> = Vec::with_capacity(all);
        let mut sees: Vec<u32> = Vec::with_capacity(2 * all);
        for clock in 0..clocks {
            for v in order.iter().map(|&v| usize::from(v)).filter(|&v| clock < lags[v]) {
                let (first, mut hangs_on) = (sees.len() as u32, 0);
                for e in into.of(v).iter().map(|&e| usize::from(e)) {
                    if clock < counts[e] {
                        let x = first_chosen[e] + clock as u32;
                        sees.push(x);
                        hangs_on = hangs_on.max(x as u8 + 1);
                    } else {
                        let cell = places[start[usize::from(net.edges[e].from)] + (clock - counts[e]) as usize];
                        sees.push(chosen + cell);
                        hangs_on = hangs_on.max(cells[cell as usize].hangs_on);
                    }
                }
                let end = sees.len() as u32;
                let truth = truth(net.nodes[v].kind, (end - first) as usize);
                places[start[v] + clock as usize] = cells.len() as u32;
                cells.push(Cell { first, end, truth, wanted: FREE, hangs_on });
            }
        }

        // "for each edge leaving a node v with positive lag and each old value s of that edge with s at least w - r(v)"
        for edge in &net.edges {
            let (v, count) = (usize::from(edge.from), i32::from(edge.count));
            for s in (count - lags[v]).max(0)..if lags[v] > 0 { count } else { 0 } {
                let value = (edge.start >> s & 1) as u8;
                let wanted = &mut cells[places[start[v] + (s - count + lags[v]) as usize] as usize].wanted;
                *wanted = if *wanted == FREE || *wanted == value { value } else { NEVER };
            }
        }

        // once more, by what they hang on
        let mut order: Vec<u32> = (0..all as u32).collect();
        order.sort_by_key(|&cell| cells[cell as usize].hangs_on);
        let mut number = vec![0u16; all];
        for (new, &old) in order.iter().enumerate() {
            number[old as usize] = new as u16;
        }
        let signal = |s: u32| if s < chosen { s as u16 } else { chosen as u16 + number[(s - chosen) as usize] };
        let mut sorted_sees = Vec::with_capacity(sees.len());
        let mut sorted = Vec::with_capacity(all);
        for &old in &order {
            let cell = cells[old as usize];
            let first = sorted_sees.len() as u32;
            sorted_sees.extend(sees[cell.first as usize..cell.end as usize].iter().map(|&s| signal(s)));
            sorted.push(Cell { first, end: sorted_sees.len() as u32, ..cell });
        }
        let from = (0..=chosen).map(|x| sorted.partition_point(|cell| u32::from(cell.hangs_on) <= x)).collect();
        Search { chosen, cells: sorted, sees: sorted_sees, from }
    }

    /// The smallest choice that carries the start. "A choice is dropped at its first register value that disagrees": and with
    /// it all choices that agree with it on the leading values which that one hangs on.
    fn smallest(&self) -> Option<u32> {
        let k = self.chosen;
        let mut signals = [0u8; SIGNALS];
        let mut choice = 0u32;
        let mut at = 0;
        'choices: loop {
            for (cell, signal) in self.cells[at..].iter().zip(k as usize + at..) {
                let shown = |s: u16| u32::from(signals[usize::from(s)]);
                let bit = match self.sees[cell.first as usize..cell.end as usize] {
                    [one] => shown(one),
                    [one, other] => shown(one) + shown(other),
                    ref all => bit_of(cell.truth, all.iter().map(|&s| shown(s))),
                };
                let value = (cell.truth >> bit & 1) as u8;
                signals[signal % SIGNALS] = value;
                if cell.wanted != FREE && cell.wanted != value {
                    let below = k - u32::from(cell.hangs_on);
                    let next = ((choice >> below) + 1) << below;
                    if next >> k != 0 {
                        return None;
                    }
                    let same = k - (choice ^ next).ilog2() - 1; // so many leading values stay
                    for x in same..k {
                        signals[x as usize] = (next >> (k - 1 - x) & 1) as u8;
                    }
                    choice = next;
                    at = self.from[same as usize];
                    continue 'choices;
                }
            }
            return Some(choice);
        }
    }
}

// --- New start values -----------------------------------------------------------------------------

/// The new start values of all edges: the chosen ones, then what the edge shows in the original from clock -r(v) or 0 on. That
/// is old value s at clock s, and u's value at clock s - w after that. No input bears on it, so they are all 0 here.
fn new_starts(by: &Move, order: &[u16], choice: u32) -> Vec<u32> {
    let Move { net, lags, counts, first_chosen, chosen } = by;
    let mut starts: Vec<u32> = Vec::with_capacity(net.edges.len());
    let mut from_clock: Vec<(i32, u16)> = Vec::with_capacity(net.edges.len());
    for (e, edge) in net.edges.iter().enumerate() {
        let lag = lags[usize::from(edge.to)];
        let end = counts[e].min(lag).max(0);
        starts.push((0..end).map(|t| (choice >> (chosen - 1 - first_chosen[e] - t as u32) & 1) << t).sum());
        if end < counts[e] {
            from_clock.push((end - lag, e as u16));
        }
    }
    from_clock.sort_unstable();

    let mut engine = Engine::new(net, order);
    let mut words: Vec<u32> = net.edges.iter().map(|edge| edge.start).collect();
    let zeros = vec![0; net.nodes.len()];
    let mut waiting = from_clock.into_iter().peekable();
    let mut taking: Vec<u16> = Vec::new();
    let mut clock = 0;
    while waiting.peek().is_some() || !taking.is_empty() {
        engine.clock(&mut words, &zeros, &mut []);
        while let Some((_, e)) = waiting.next_if(|&(first, _)| first == clock) {
            taking.push(e);
        }
        taking.retain(|&e| {
            let e = usize::from(e);
            let t = clock + lags[usize::from(net.edges[e].to)];
            starts[e] |= u32::from(engine.signals[usize::from(engine.shown[e])]) << t;
            t + 1 < counts[e]
        });
        clock += 1;
    }
    starts
}

// --- Retiming -------------------------------------------------------------------------------------

/// A text retimed: the new text, at the front of `out`, each node's lag, at the front of `lags`, and how many values were
/// chosen. "Retiming goes on with 12, 8, 9, 10, 11."
pub fn retime(text: &[u8], out: &mut [u8], lags: &mut [i32]) -> Answer<usize> {
    let (mut net, order) = read_with_order(text)?;
    let (Some(out), Some(lag_table)) = (out.get_mut(..text.len()), lags.get_mut(..net.nodes.len())) else {
        return Err(Refusal::whole(12));
    };
    let Some((lags, new_order)) = least_lags(&net) else {
        return Err(Refusal::whole(8));
    };
    let moved = Move::new(&net, lags);
    if let Some(e) = moved.counts.iter().position(|&count| count > WIDEST) {
        return Err(Refusal::edge(9, e));
    }
    if moved.chosen > MOST_CHOSEN {
        return Err(Refusal::whole(10));
    }
    let Some(choice) = Search::new(&moved, &new_order).smallest() else {
        return Err(Refusal::whole(11));
    };
    let starts = new_starts(&moved, &order, choice);
    let Move { lags, counts, chosen, .. } = moved;
    for ((edge, &count), &start) in net.edges.iter_mut().zip(&counts).zip(&starts) {
        (edge.count, edge.start) = (count as u8, start);
    }
    put_netlist(&net, out);
    lag_table.copy_from_slice(&lags);
    Ok(chosen as usize)
}

// --- Quotes ---------------------------------------------------------------------------------------

/// What the least retiming at the period of a quote comes to. Laid out as in include/retimer.h.
#[repr(C)]
#[derive(Clone, Copy, Debug, PartialEq, Eq)]
pub struct Figures {
    pub registers: u32,
    pub largest: u32,
    pub number: u32,
}

/// The smallest period that is not refused 8, by halving, and the least lags at that period; none where the longest is
/// refused 8.
///
/// No period below the slowest gate is met. Lags that meet a period meet that of their longest chain too, and are the least
/// there; and they are at no node above the least at a smaller period, where the rounds go on from them.
fn smallest_period(net: &Netlist) -> Option<(u32, Vec<i32>)> {
    let delays = working_delays(net);
    let mut refused = longest(&delays).max(1) - 1;
    let mut rounds = Rounds::new(net, delays);
    let first = least_legal(net, &rounds.leaving);
    let mut lags = rounds.least_at(LONGEST_PERIOD, first)?;
    let mut met = longest(&rounds.chains.length).max(1);
    while refused + 1 < met {
        let middle = (refused + met) / 2;
        match rounds.least_at(middle, lags.clone()) {
            Some(least) => (met, lags) = (longest(&rounds.chains.length), least),
            None => refused = middle,
        }
    }
    Some((met, lags))
}

/// A text's quote: the period, and in `figures` what the least retiming comes to there. "The text must read; beyond that, the
/// period in its own head plays no part."
pub fn quote(text: &[u8], figures: &mut Figures) -> Answer<usize> {
    let net = read(text)?;
    let Some((period, lags)) = smallest_period(&net) else {
        return Err(Refusal::whole(8));
    };
    let Move { counts, chosen, .. } = Move::new(&net, lags);
    let registers = counts.iter().sum::<i32>() as u32;
    let largest = counts.iter().copied().max().unwrap_or(0) as u32;
    *figures = Figures { registers, largest, number: chosen };
    Ok(period as usize)
}
