//! Netlists, texts and vectors to try: sound ones of any size, and damaged ones. The same on every machine.

use crate::reference::{bit_of, evaluation_order, truth, write, Edge, Netlist, Node, INPUT, OUTPUT, SELECTOR};
use crate::retiming::working_delays;
use std::ops::Range;

const BUFFER: u8 = 2;
const INVERTER: u8 = 3;
const XOR: u8 = 6;

/// Random numbers (xorshift64*).
pub struct Random(u64);

impl Random {
    pub fn new(seed: u64) -> Self {
        Random(seed.wrapping_mul(0x9E37_79B9_7F4A_7C15) | 1)
    }

    pub fn draw(&mut self) -> u64 {
        self.0 ^= self.0 >> 12;
        self.0 ^= self.0 << 25;
        self.0 ^= self.0 >> 27;
        self.0.wrapping_mul(0x2545_F491_4F6C_DD1D) >> 16
    }

    /// A number below n.
    pub fn below(&mut self, n: usize) -> usize {
        (self.draw() % n as u64) as usize
    }

    pub fn among(&mut self, low: usize, high: usize) -> usize {
        low + self.below(high - low + 1)
    }

    pub fn one_in(&mut self, n: usize) -> bool {
        self.below(n) == 0
    }

    pub fn pick<T: Copy>(&mut self, from: &[T]) -> T {
        from[self.below(from.len())]
    }

    pub fn shuffle<T>(&mut self, list: &mut [T]) {
        for i in (1..list.len()).rev() {
            list.swap(i, self.below(i + 1));
        }
    }

    pub fn bits(&mut self, n: usize) -> Vec<u8> {
        (0..n).map(|_| self.below(2) as u8).collect()
    }
}

/// A gate kind for so many in-edges: half of the gates with three are selectors.
fn kind_with(rng: &mut Random, inputs: usize) -> u8 {
    match inputs {
        1 => rng.pick(&[BUFFER, INVERTER]),
        3 if rng.one_in(2) => SELECTOR,
        _ => rng.among(4, 9) as u8,
    }
}

/// Registers on an edge: often none, seldom many; bits below the count.
fn registers(rng: &mut Random, least: u8) -> (u8, u32) {
    let count = match rng.below(8) {
        0..=3 => 0,
        4 | 5 => 1,
        6 => rng.among(2, 4) as u8,
        _ => rng.pick(&[5, 16, 31, 32]),
    };
    let count = count.max(least);
    (count, (rng.draw() & ((1u64 << count) - 1)) as u32)
}

/// A sound netlist with so many inputs, gates, outputs (no fewer than inputs) and edges.
///
/// Gates stand in a row after the inputs. Each gate takes first the oldest node that feeds nothing yet, so inputs reach all
/// and all reach an output; its other edges come from anywhere, those from itself or a later one through a register. Then
/// all is numbered anew.
pub fn sound(rng: &mut Random, inputs: usize, gates: usize, outputs: usize, edges: usize) -> Netlist {
    assert!(outputs >= inputs && (gates + outputs..=8 * gates + outputs).contains(&edges));
    let mut fan_in = vec![1; gates];
    for _ in gates + outputs..edges {
        let mut i = rng.below(gates);
        while fan_in[i] == 8 {
            i = (i + 1) % gates;
        }
        fan_in[i] += 1;
    }
    let mut kinds = vec![INPUT; inputs];
    let mut wires = Vec::with_capacity(edges);
    let mut idle: std::collections::VecDeque<usize> = (0..inputs).collect();
    for (i, &n) in fan_in.iter().enumerate() {
        let gate = inputs + i;
        kinds.push(kind_with(rng, n));
        let first = idle.pop_front().expect("no more outputs than idle nodes");
        wires.push((first, gate, registers(rng, 0)));
        for _ in 1..n {
            let from = if rng.one_in(4) { rng.below(inputs + gates) } else { rng.below(gate) };
            wires.push((from, gate, registers(rng, u8::from(from >= gate))));
        }
        idle.push_back(gate);
    }
    while wires.len() < edges {
        let from = idle.pop_front().unwrap_or_else(|| rng.below(inputs + gates));
        wires.push((from, kinds.len(), registers(rng, 0)));
        kinds.push(OUTPUT);
    }
    let mut number: Vec<usize> = (0..kinds.len()).collect();
    rng.shuffle(&mut number);
    rng.shuffle(&mut wires);
    let mut nodes = vec![Node { kind: INPUT, delay: 0 }; kinds.len()];
    for (&v, kind) in number.iter().zip(kinds) {
        let delay = if kind <= OUTPUT { 0 } else { rng.among(1, 255) as u8 };
        nodes[v] = Node { kind, delay };
    }
    let edges = wires
        .into_iter()
        .map(|(from, to, (count, start))| Edge { from: number[from] as u16, to: number[to] as u16, count, start })
        .collect();
    Netlist { period: rng.among(1, 65535) as u16, derate: rng.among(50, 250) as u8, nodes, edges }
}

/// A sound netlist of any size, small ones more often.
pub fn any_sound(rng: &mut Random) -> Netlist {
    let most = rng.pick(&[0, 1, 3, 8, 20, 60, 450]);
    let inputs = rng.among(1, 1 + most / 16);
    let gates = rng.among(0, most);
    let outputs = inputs + rng.below(3);
    let fewest = gates + outputs;
    let edges = (fewest + rng.below(2 * gates + 1)).min(8 * gates + outputs).min(1024);
    sound(rng, inputs, gates, outputs, edges)
}

/// 512 nodes and 1,024 edges, or so many parts of it: 20 inputs and outputs of 512 nodes.
pub fn largest(rng: &mut Random, part: usize) -> Netlist {
    sound(rng, 20 / part, 472 / part, 20 / part, 1024 / part)
}

/// The text of a sound netlist.
pub fn text_of(net: &Netlist) -> Vec<u8> {
    let mut text = vec![0; 25_105];
    let n = write(net, &mut text).expect("a sound netlist");
    text.truncate(n);
    text
}

/// Some bytes changed, left out or put in, lines swapped, or the text cut.
pub fn damage_text(rng: &mut Random, text: &mut Vec<u8>) {
    let usual = b"0123456789ABCDEF0123456789ABCDEF\n\r aG/:@`g\0\xFF";
    for _ in 0..rng.pick(&[1, 1, 1, 2, 3]) {
        if text.is_empty() {
            return;
        }
        let at = rng.below(text.len());
        match rng.below(8) {
            0..=3 => text[at] = rng.pick(usual),
            4 => drop(text.remove(at)),
            5 => text.insert(at, rng.pick(usual)),
            6 => text.truncate(at),
            _ => {
                let mut lines: Vec<&[u8]> = text.split_inclusive(|&byte| byte == b'\n').collect();
                let (i, j) = (rng.below(lines.len()), rng.below(lines.len()));
                lines.swap(i, j);
                *text = lines.concat();
            }
        }
    }
}

/// Some numbers of a netlist changed, so that its lines stay frames and mostly break a rule of 2 to 7.
pub fn damage_netlist(rng: &mut Random, net: &mut Netlist) {
    let (n, e) = (net.nodes.len(), net.edges.len());
    for _ in 0..rng.pick(&[1, 1, 1, 2, 3]) {
        let (v, some) = (rng.below(n), rng.below(n) as u16);
        let edge = rng.below(e);
        match rng.below(14) {
            0 => net.period = rng.pick(&[0, 1, 65535]),
            1 => net.derate = rng.pick(&[0, 49, 50, 250, 251, 255]),
            2 => net.nodes[v].kind = rng.below(13) as u8,
            3 => net.nodes[v].delay = rng.pick(&[0, 1, 255]),
            4..=6 => net.edges[edge].from = some,
            7 | 8 => net.edges[edge].to = some,
            9 => net.edges[edge].from = rng.pick(&[n as u16 - 1, n as u16, 511, 512, 65535]),
            10 => net.edges[edge].to = rng.pick(&[n as u16 - 1, n as u16, 511, 512, 65535]),
            11 => net.edges[edge].count = rng.pick(&[0, 1, 31, 32, 33, 255]),
            12 => net.edges[edge].start = rng.draw() as u32,
            _ => {
                let part = rng.among(1, 4);
                for edge in net.edges.iter_mut().step_by(part) {
                    (edge.count, edge.start) = (0, 0);
                }
            }
        }
    }
}

// --- For rails ------------------------------------------------------------------------------------

/// The same netlist, the branches of a node with start values that begin alike: each as the node's own row, or from some place
/// on not.
pub fn alike_starts(rng: &mut Random, mut net: Netlist) -> Netlist {
    let rows: Vec<u32> = net.nodes.iter().map(|_| rng.draw() as u32).collect();
    let apart = rng.pick(&[2, 2, 10]);
    for edge in &mut net.edges {
        let mut row = rows[usize::from(edge.from)];
        if rng.one_in(apart) {
            row ^= (rng.draw() as u32) >> rng.below(32);
        }
        edge.start = row.checked_shr(32 - u32::from(edge.count)).unwrap_or(0);
    }
    net
}

/// The most branches that one node can have: a gate takes eight at most, and one more edge must leave it.
pub const MOST_BRANCHES: usize = 950;

/// An input with all these branches (count and start values): outputs, then gates in a row, of which each sees the one before
/// it.
pub fn broad(branches: &[(u8, u32)]) -> Netlist {
    const AND: u8 = 4;
    let gates = branches.len().saturating_sub(437).div_ceil(7); // the first takes eight
    let (to_outputs, mut left) = branches.split_at(branches.len().min(if gates > 0 { 436 } else { 511 }));
    let mut kinds = vec![OUTPUT; 1 + to_outputs.len()];
    kinds[0] = INPUT;
    let branch = |to: usize, &(count, start): &(u8, u32)| Edge { start, ..edge(0, to, count) };
    let mut edges: Vec<Edge> = to_outputs.iter().enumerate().map(|(i, one)| branch(1 + i, one)).collect();
    for gate in 0..gates {
        let here = kinds.len();
        let (seen, rest) = left.split_at(left.len().min(if gate == 0 { 8 } else { 7 }));
        edges.extend(seen.iter().map(|one| branch(here, one)));
        edges.push(edge(here, here + 1, 0));
        kinds.push(AND);
        left = rest;
    }
    if gates > 0 {
        kinds.push(OUTPUT);
    }
    drawn(1, &kinds, edges)
}

/// So many branches of 32 registers on one node, with random start values or with such as agree up to their last places.
pub fn any_broad(rng: &mut Random, branches: usize) -> Netlist {
    let (word, places) = (rng.draw() as u32, rng.pick(&[0, 1, 5, 12, 32]));
    let all: Vec<(u8, u32)> = (0..branches).map(|_| (32, word ^ (rng.draw() & ((1 << places) - 1)) as u32)).collect();
    let mut net = broad(&all);
    rng.shuffle(&mut net.edges);
    net
}

// --- For retiming ---------------------------------------------------------------------------------
//
// The shapes of tests/retiming_cases.py: random netlists as they come seldom choose a value.

fn edge(from: usize, to: usize, count: u8) -> Edge {
    Edge { from: from as u16, to: to as u16, count, start: 0 }
}

/// "The derate is 100, each gate has delay 1."
fn drawn(period: u16, kinds: &[u8], edges: Vec<Edge>) -> Netlist {
    let nodes = kinds.iter().map(|&kind| Node { kind, delay: u8::from(kind > OUTPUT) }).collect();
    Netlist { period, derate: 100, nodes, edges }
}

/// .. with the first gates slow: those that nodes 1 to `slow` are. The period leaves room for no gate after one of them.
fn behind_slow(slow: usize, kinds: &[u8], edges: Vec<Edge>) -> Netlist {
    let mut net = drawn(200, kinds, edges);
    for node in &mut net.nodes[1..=slow] {
        node.delay = 200;
    }
    net
}

/// Random start values.
fn with_starts(rng: &mut Random, mut net: Netlist) -> Netlist {
    for edge in &mut net.edges {
        edge.start = (rng.draw() & ((1u64 << edge.count) - 1)) as u32;
    }
    net
}

/// The same netlist with its nodes and edges in another order; those that enter one selector stay in theirs.
pub fn mixed(rng: &mut Random, net: &Netlist) -> Netlist {
    let mut number: Vec<u16> = (0..net.nodes.len() as u16).collect();
    rng.shuffle(&mut number);
    let mut order: Vec<usize> = (0..net.edges.len()).collect();
    rng.shuffle(&mut order);
    let mut new = net.clone();
    for (v, &node) in net.nodes.iter().enumerate() {
        new.nodes[usize::from(number[v])] = node;
        if node.kind == SELECTOR {
            let places: Vec<usize> = (0..order.len()).filter(|&at| usize::from(net.edges[order[at]].to) == v).collect();
            let mut entering: Vec<usize> = places.iter().map(|&at| order[at]).collect();
            entering.sort_unstable();
            places.into_iter().zip(entering).for_each(|(at, e)| order[at] = e);
        }
    }
    for (edge, e) in new.edges.iter_mut().zip(order) {
        let Edge { from, to, .. } = net.edges[e];
        *edge = Edge { from: number[usize::from(from)], to: number[usize::from(to)], ..net.edges[e] };
    }
    new
}

/// Some gates with two in-edges made selectors: one of the two twice, and the three in any order.
pub fn selecting(rng: &mut Random, mut net: Netlist) -> Netlist {
    for v in 0..net.nodes.len() {
        let entering: Vec<Edge> = net.edges.iter().filter(|e| usize::from(e.to) == v).copied().collect();
        if entering.len() == 2 && net.edges.len() < 1024 && rng.one_in(2) {
            net.nodes[v].kind = SELECTOR;
            net.edges.push(rng.pick(&entering));
        }
    }
    rng.shuffle(&mut net.edges);
    net
}

/// Two netlists next to each other, with the head of the first.
fn beside(mut one: Netlist, other: Netlist) -> Netlist {
    let first = one.nodes.len() as u16;
    one.edges.extend(other.edges.into_iter().map(|e| Edge { from: e.from + first, to: e.to + first, ..e }));
    one.nodes.extend(other.nodes);
    one
}

/// How long the longest chain without a register is.
pub fn longest_chain(net: &Netlist) -> u32 {
    let delays = working_delays(net);
    let mut ends = delays.clone();
    let mut leaving = vec![Vec::new(); net.nodes.len()];
    for edge in net.edges.iter().filter(|edge| edge.count == 0) {
        leaving[usize::from(edge.from)].push(usize::from(edge.to));
    }
    for u in evaluation_order(net).expect("a sound netlist") {
        for &v in &leaving[usize::from(u)] {
            ends[v] = ends[v].max(ends[usize::from(u)] + delays[v]);
        }
    }
    ends.into_iter().max().unwrap_or(0)
}

/// The same wiring with fewer registers, small delays, and a period between the slowest gate and the longest chain.
pub fn thinned(rng: &mut Random, mut net: Netlist, counts: &[u8]) -> Netlist {
    for edge in net.edges.iter_mut().filter(|edge| edge.count > 0) {
        edge.count = rng.pick(counts);
    }
    for node in net.nodes.iter_mut().filter(|node| node.delay > 0) {
        node.delay = rng.pick(&[1, 1, 2, 3]);
    }
    net.derate = rng.pick(&[50, 100, 100, 149, 150, 250]);
    let slowest = working_delays(&net).into_iter().max().unwrap_or(0);
    net.period = rng.among(slowest as usize, longest_chain(&net) as usize + 1).max(1) as u16;
    with_starts(rng, net)
}

/// An input, gates in a row, the last one feeding outputs through registers (count and start values); period 1.
pub fn fork(kinds: &[u8], branches: &[(u8, u32)]) -> Netlist {
    let last = kinds.len();
    let mut all = vec![INPUT];
    all.extend_from_slice(kinds);
    all.resize(1 + last + branches.len(), OUTPUT);
    let mut edges: Vec<Edge> = (0..last).map(|v| edge(v, v + 1, 0)).collect();
    for (i, &(count, start)) in branches.iter().enumerate() {
        edges.push(Edge { start, ..edge(last, last + 1 + i, count) });
    }
    drawn(1, &all, edges)
}

/// A fork of some gates whose branches mostly agree on the values that are moved.
pub fn any_fork(rng: &mut Random) -> Netlist {
    let moved = rng.pick(&[0, 1, 2, 3, 8, 15, 23, 24, 25]);
    let word = rng.draw() & ((1 << moved) - 1);
    let branches: Vec<(u8, u32)> = (0..rng.among(1, 4))
        .map(|_| {
            let more = rng.pick(&[0, 0, 1, 3, 7]);
            let other = if moved > 0 && rng.one_in(8) { 1 << rng.below(moved) } else { 0 };
            let start = (word ^ other) << more | (rng.draw() & ((1 << more) - 1));
            ((moved + more) as u8, start as u32)
        })
        .collect();
    let kinds: Vec<u8> = (0..=moved).map(|_| kind_with(rng, 1)).collect();
    fork(&kinds, &branches)
}

/// So many buffers that are slow, then layers of quick gates, then a register before each output: each edge from a buffer to a
/// gate takes a register, and its value is chosen. Every buffer feeds one gate; every gate sees nodes of the layer before it,
/// and further ones from any earlier layer of gates.
pub fn cone(rng: &mut Random, chosen: usize, levels: &[usize]) -> Netlist {
    let mut kinds = vec![BUFFER; 1 + chosen];
    kinds[0] = INPUT;
    let mut edges: Vec<Edge> = (1..=chosen).map(|v| edge(0, v, 0)).collect();
    let mut before: Vec<usize> = (1..=chosen).collect();
    let mut earlier: Vec<usize> = Vec::new();
    for &width in levels {
        let layer: Vec<usize> = (kinds.len()..kinds.len() + width).collect();
        let mut sees = vec![Vec::new(); width];
        rng.shuffle(&mut before);
        for (i, &v) in before.iter().enumerate() {
            sees[i % width].push(v);
        }
        for (&v, seen) in layer.iter().zip(&mut sees) {
            while !earlier.is_empty() && (seen.len() < 2 || seen.len() < 8 && rng.below(5) < 2) {
                seen.push(rng.pick(&earlier));
            }
            kinds.push(kind_with(rng, seen.len()));
            edges.extend(seen.iter().map(|&u| edge(u, v, 0)));
        }
        earlier.extend_from_slice(&layer);
        before = layer;
    }
    for v in before {
        edges.push(edge(v, kinds.len(), 1));
        kinds.push(OUTPUT);
    }
    behind_slow(chosen, &kinds, edges)
}

/// A cone whose registers hold what random values behind its slow buffers give: some choice carries the start.
pub fn carried(rng: &mut Random, mut net: Netlist) -> Netlist {
    let order = evaluation_order(&net).expect("a sound netlist");
    let mut values = vec![0; net.nodes.len()];
    for v in order {
        let node = net.nodes[usize::from(v)];
        if node.delay == 200 {
            values[usize::from(v)] = rng.below(2) as u32; // what stands behind it, before the one gate that it feeds
        } else if node.kind > OUTPUT {
            let seen: Vec<u32> = net.edges.iter().filter(|e| e.to == v).map(|e| values[usize::from(e.from)]).collect();
            let truth = truth(node.kind, seen.len());
            values[usize::from(v)] = u32::from(truth) >> bit_of(truth, seen.into_iter()) & 1;
        }
    }
    for edge in net.edges.iter_mut().filter(|edge| edge.count == 1) {
        edge.start = values[usize::from(edge.from)];
    }
    net
}

/// A cone of up to so many chosen values, mostly with a start that some choice carries.
pub fn any_cone(rng: &mut Random, most: usize) -> Netlist {
    let chosen = rng.among(2, most);
    let levels = match rng.below(3) {
        0 => vec![chosen.div_ceil(3)],
        1 => vec![chosen.div_ceil(2), 3],
        _ => vec![chosen.div_ceil(3), chosen, 5],
    };
    let net = cone(rng, chosen, &levels);
    let net = if chosen <= 12 && rng.one_in(3) { with_starts(rng, net) } else { carried(rng, net) };
    if rng.one_in(2) {
        mixed(rng, &net)
    } else {
        net
    }
}

/// Two rows of XOR over the same chosen values, in two orders, each with a register: with unequal values no choice carries the
/// start. The rows see some of the values, a range of two or more; each of the others is seen by an output.
pub fn parities(chosen: usize, seen: Range<usize>, values: [u32; 2]) -> Netlist {
    let mut kinds = vec![BUFFER; 1 + 2 * chosen];
    kinds[0] = INPUT;
    let value = |x: usize| 1 + chosen + x; // a quick buffer behind a slow one
    let mut edges: Vec<Edge> = (0..chosen).map(|x| edge(0, 1 + x, 0)).collect();
    edges.extend((0..chosen).map(|x| edge(1 + x, value(x), 0)));
    let upward: Vec<usize> = seen.clone().collect();
    let downward: Vec<usize> = seen.clone().rev().collect();
    for (order, start) in [upward, downward].iter().zip(values) {
        let mut row = value(order[0]);
        for &x in &order[1..] {
            edges.extend([edge(row, kinds.len(), 0), edge(value(x), kinds.len(), 0)]);
            row = kinds.len();
            kinds.push(XOR);
        }
        edges.push(Edge { start, ..edge(row, kinds.len(), 1) });
        kinds.push(OUTPUT);
    }
    for x in (0..chosen).filter(|x| !seen.contains(x)) {
        edges.push(edge(value(x), kinds.len(), 1));
        kinds.push(OUTPUT);
    }
    behind_slow(chosen, &kinds, edges)
}

/// Rows of gates, each as deep, into one gate with several registers behind it: several clocks of chosen values.
pub fn deep(rng: &mut Random, inputs: usize, depth: usize) -> Netlist {
    let gate = 1 + inputs * depth;
    let mut kinds = vec![INPUT];
    let mut edges = Vec::new();
    for row in 0..inputs {
        let first = 1 + row * depth;
        edges.push(edge(0, first, 0));
        edges.extend((first..first + depth).map(|v| edge(v, if v + 1 < first + depth { v + 1 } else { gate }, 0)));
        kinds.extend((0..depth).map(|_| kind_with(rng, 1)));
    }
    kinds.extend([kind_with(rng, inputs), OUTPUT]);
    edges.push(edge(gate, gate + 1, (depth + rng.below(3)) as u8));
    with_starts(rng, drawn(1, &kinds, edges))
}

/// A loop of gates with registers on its edges; an XOR lets the input in, a further edge leads out.
pub fn ring(rng: &mut Random, registers: &[u8], period: u16) -> Netlist {
    let gates = registers.len();
    let mut kinds = vec![INPUT, XOR];
    kinds.extend((1..gates).map(|_| kind_with(rng, 1)));
    kinds.push(OUTPUT);
    let mut edges = vec![edge(0, 1, 0)];
    edges.extend(registers.iter().enumerate().map(|(i, &count)| edge(1 + i, 1 + (i + 1) % gates, count)));
    edges.push(edge(1 + rng.below(gates), gates + 1, rng.pick(&[0, 0, 1, 2])));
    let net = drawn(period, &kinds, edges);
    let net = with_starts(rng, net);
    mixed(rng, &net)
}

/// A ring with some registers, in one place or spread, and a period around what they make possible.
pub fn any_ring(rng: &mut Random) -> Netlist {
    let gates = rng.pick(&[1, 2, 3, 5, 8, 30]);
    let count = rng.among(1, gates.min(32));
    let mut registers = vec![0; gates];
    if rng.one_in(2) {
        registers[0] = count as u8;
    } else {
        (0..count).for_each(|i| registers[i] = 1);
        rng.shuffle(&mut registers);
    }
    let period = rng.among(1, gates.div_ceil(count) + 1) as u16;
    let net = ring(rng, &registers, period);
    selecting(rng, net)
}

/// A trunk of buffers with so many registers before each, and a row of gates that it feeds backward: a buffer's lag falls by
/// about the spacing from one to the next, the gates come up again by as much.
pub fn trunk(rng: &mut Random, length: usize, spacing: u8, period: u16) -> Netlist {
    let mut kinds = vec![BUFFER; 1 + length];
    kinds[0] = INPUT;
    kinds.extend((1..length).map(|_| kind_with(rng, 2)));
    kinds.push(OUTPUT);
    let mut edges: Vec<Edge> = (0..length).map(|v| edge(v, v + 1, spacing)).collect();
    let mut before = length;
    for m in 1..length {
        edges.extend([edge(before, length + m, 0), edge(length - m, length + m, 0)]);
        before = length + m;
    }
    edges.push(edge(before, kinds.len() - 1, 0));
    let net = drawn(period, &kinds, edges);
    with_starts(rng, net)
}

/// A row of slow gates with few registers: the shortest that its longest chain can be is around the longest period.
pub fn long_row(rng: &mut Random) -> Netlist {
    let gates = rng.among(90, 510);
    let mut kinds = vec![INPUT];
    kinds.extend((0..gates).map(|_| kind_with(rng, 1)));
    kinds.push(OUTPUT);
    let mut edges: Vec<Edge> = (0..=gates).map(|v| edge(v, v + 1, 0)).collect();
    for _ in 0..rng.below(5) {
        edges[rng.below(gates + 1)].count += 1;
    }
    let mut net = drawn(1, &kinds, edges);
    net.derate = rng.among(200, 250) as u8;
    for node in &mut net.nodes[1..=gates] {
        node.delay = rng.among(200, 255) as u8;
    }
    with_starts(rng, net)
}

/// Buffers in a row, nodes and edges in reverse order: the output is node 0 and the input the last, and each edge stands before
/// the one that leads up to it.
pub fn reversed_row(gates: usize) -> Netlist {
    let mut kinds = vec![BUFFER; gates + 2];
    kinds[0] = OUTPUT;
    kinds[gates + 1] = INPUT;
    let edges = (0..=gates).map(|v| edge(v + 1, v, 0)).collect();
    drawn(1, &kinds, edges)
}

/// A loop in which every gate sees the one before it twice, with registers on its last edges and 1,024 edges at most. The edges
/// stand in the worst order for whoever sweeps over them back and forth: every second one of the loop, then the others, so
/// that a sweep gets along a chain by one gate.
fn zigzag(delays: &[u8], registers: u8, period: u16) -> Netlist {
    const OR: u8 = 5;
    let gates = delays.len();
    let mut kinds = vec![OR; 1 + gates];
    kinds[0] = INPUT;
    kinds.push(OUTPUT);
    let mut edges = vec![edge(0, 1, 0)];
    for half in [0, 1] {
        edges.extend((half..gates - 1).step_by(2).flat_map(|i| [edge(1 + i, 2 + i, 0); 2]));
    }
    edges.push(edge(1 + gates / 2, 1 + gates, 32));
    let last = (1024 - edges.len()).min(7);
    edges.extend([edge(gates, 1, registers); 7].into_iter().take(last));
    let mut net = drawn(period, &kinds, edges);
    for (node, &delay) in net.nodes[1..].iter_mut().zip(delays) {
        node.delay = delay;
    }
    net
}

/// The slowest netlist found that no legal retiming makes meet its period: 512 nodes, 1,024 edges. The loop is too long by one
/// gate, so the register goes back by one gate in each of 512 rounds, and the chains stay as long as they can be.
pub fn slowest_infeasible() -> Netlist {
    zigzag(&[1; 510], 1, 509)
}

/// The slowest netlist found that is retimed: 511 nodes, 1,024 edges. Its loop has two registers and is as long as two
/// periods. It takes hundreds of rounds until they stand where both halves are a period long: two gates of delay 1 leave few
/// such places.
pub fn slowest_accepted() -> Netlist {
    let mut delays = [2; 509];
    (delays[2], delays[264]) = (1, 1);
    zigzag(&delays, 2, 508)
}

/// A sound netlist for retiming, small or of middle size: of all the shapes, some of them next to each other. Cones have up to
/// so many chosen values.
pub fn any_retimable(rng: &mut Random, most: usize) -> Netlist {
    let net = match rng.below(16) {
        0..=5 => {
            let counts: &[u8] = rng.pick(&[&[1u8][..], &[1, 1, 1, 2, 3], &[1, 2, 8, 30]]);
            let net = any_sound(rng);
            let mut net = thinned(rng, net, counts);
            if rng.one_in(3) {
                net.period = working_delays(&net).into_iter().max().unwrap_or(0).max(1) as u16;
            }
            net
        }
        6 | 7 => any_fork(rng),
        8..=10 => any_cone(rng, most),
        11 => {
            let chosen = rng.among(2, most.min(12));
            let first = rng.below(chosen - 1);
            let seen = first..rng.among(first + 2, chosen);
            parities(chosen, seen, [rng.below(2) as u32, rng.below(2) as u32])
        }
        12 => {
            let (inputs, depth) =
                rng.pick(&[(2, 1), (2, 5), (2, 7), (3, 1), (3, 3), (3, 5), (4, 3), (8, 1), (2, 13), (5, 5)]);
            deep(rng, inputs, depth)
        }
        13 | 14 => any_ring(rng),
        _ => {
            let length = rng.among(2, 20);
            let (spacing, period) = (rng.pick(&[1, 2, 8, 31, 32]), rng.among(1, length + 2));
            let net = trunk(rng, length, spacing, period as u16);
            selecting(rng, net)
        }
    };
    if rng.one_in(10) && net.nodes.len() < 60 {
        let other = any_fork(rng);
        let net = beside(net, other);
        return mixed(rng, &net);
    }
    net
}
