//! The calls of the proved static library `retimer` (crates/retimer, include/retimer.h), behind safe functions, and a reference to
//! compare them with.
//!
//! A slice passes as a pointer and then a length. An answer comes as one number: n itself where nothing is refused, else
//! 2^63 + number * 2^32 + place kind * 2^16 + place.

pub mod generate;
pub mod rails;
pub mod reference;
pub mod retiming;

use reference::{Answer, Edge, Netlist, Node, Place, Refusal};
use retiming::Figures;

unsafe extern "C" {
    fn retimer_read(text: *const u8, text_len: usize, net: *mut Record) -> u64;
    fn retimer_check(net: *const Record) -> u64;
    fn retimer_write(net: *const Record, out: *mut u8, out_len: usize) -> u64;
    fn retimer_step(
        net: *const Record,
        machine: *mut Machine,
        vector: *const u8,
        vector_len: usize,
        out: *mut u8,
        out_len: usize,
    ) -> u64;
    fn retimer_run(
        text: *const u8,
        text_len: usize,
        vectors: *const u8,
        vectors_len: usize,
        out: *mut u8,
        out_len: usize,
    ) -> u64;
    fn retimer_retime(
        text: *const u8,
        text_len: usize,
        out: *mut u8,
        out_len: usize,
        lags: *mut i32,
        lags_len: usize,
    ) -> u64;
    fn retimer_quote(text: *const u8, text_len: usize, figures: *mut Figures) -> u64;
    fn retimer_rails(text: *const u8, text_len: usize, table: *mut u32, table_len: usize) -> u64;
    fn retimer_reread(text: *const u8, text_len: usize, out: *mut u8, out_len: usize) -> u64;
}

/// The answer that a number stands for; no other number is one.
fn answer(code: u64) -> Answer<usize> {
    if code >> 63 == 0 {
        return Ok(code as usize);
    }
    let place = code as u16;
    let place = match (code >> 16) as u16 {
        0 if place == 0 => Place::Whole,
        1 => Place::Line(place),
        2 => Place::Node(place),
        3 => Place::Edge(place),
        _ => panic!("no place: {code:016X}"),
    };
    let number = u8::try_from((code << 1 >> 1) >> 32).expect("a number of one byte");
    Err(Refusal { number, place })
}

/// A text read and written again.
pub fn reread(text: &[u8], out: &mut [u8]) -> Answer<usize> {
    answer(unsafe { retimer_reread(text.as_ptr(), text.len(), out.as_mut_ptr(), out.len()) })
}

pub fn run(text: &[u8], vectors: &[u8], out: &mut [u8]) -> Answer<usize> {
    answer(unsafe {
        retimer_run(text.as_ptr(), text.len(), vectors.as_ptr(), vectors.len(), out.as_mut_ptr(), out.len())
    })
}

/// A text retimed: the new text, each node's lag, and how many start values were chosen.
pub fn retime(text: &[u8], out: &mut [u8], lags: &mut [i32]) -> Answer<usize> {
    answer(unsafe {
        retimer_retime(text.as_ptr(), text.len(), out.as_mut_ptr(), out.len(), lags.as_mut_ptr(), lags.len())
    })
}

/// A text's quote: the smallest period that is not refused 8, and what the least retiming comes to there.
pub fn quote(text: &[u8], figures: &mut Figures) -> Answer<usize> {
    answer(unsafe { retimer_quote(text.as_ptr(), text.len(), figures) })
}

/// A text's rails: each node's in the table, the total as the answer.
pub fn rails(text: &[u8], table: &mut [u32]) -> Answer<usize> {
    answer(unsafe { retimer_rails(text.as_ptr(), text.len(), table.as_mut_ptr(), table.len()) })
}

// --- Records --------------------------------------------------------------------------------------

pub const NODES: usize = 512;
pub const EDGES: usize = 1024;

/// The netlist record, laid out as in include/retimer.h.
#[repr(C)]
#[derive(Clone, PartialEq, Eq)]
pub struct Record {
    pub period: u16,
    pub derate: u8,
    pub nodes: u16,
    pub edges: u16,
    pub kind: [u8; NODES],
    pub delay: [u8; NODES],
    pub from: [u16; EDGES],
    pub to: [u16; EDGES],
    pub count: [u8; EDGES],
    pub start: [u32; EDGES],
}

impl Record {
    /// A record with no node and no edge: all numbers are 0.
    pub fn empty() -> Self {
        Record {
            period: 0,
            derate: 0,
            nodes: 0,
            edges: 0,
            kind: [0; NODES],
            delay: [0; NODES],
            from: [0; EDGES],
            to: [0; EDGES],
            count: [0; EDGES],
            start: [0; EDGES],
        }
    }

    /// The record of a netlist of at most 512 nodes and 1,024 edges; rows past them are 0.
    pub fn of(net: &Netlist) -> Self {
        let mut record = Self::empty();
        (record.period, record.derate) = (net.period, net.derate);
        (record.nodes, record.edges) = (net.nodes.len() as u16, net.edges.len() as u16);
        for (v, &Node { kind, delay }) in net.nodes.iter().enumerate() {
            (record.kind[v], record.delay[v]) = (kind, delay);
        }
        for (e, &Edge { from, to, count, start }) in net.edges.iter().enumerate() {
            (record.from[e], record.to[e]) = (from, to);
            (record.count[e], record.start[e]) = (count, start);
        }
        record
    }
}

/// The machine record: one word per edge.
#[repr(C)]
#[derive(Clone, PartialEq, Eq)]
pub struct Machine {
    pub words: [u32; EDGES],
}

pub fn read(text: &[u8], record: &mut Record) -> Answer<usize> {
    answer(unsafe { retimer_read(text.as_ptr(), text.len(), record) })
}

pub fn check(record: &Record) -> Answer<usize> {
    answer(unsafe { retimer_check(record) })
}

pub fn write(record: &Record, out: &mut [u8]) -> Answer<usize> {
    answer(unsafe { retimer_write(record, out.as_mut_ptr(), out.len()) })
}

/// One clock.
pub fn step(record: &Record, machine: &mut Machine, vector: &[u8], out: &mut [u8]) -> Answer<usize> {
    answer(unsafe { retimer_step(record, machine, vector.as_ptr(), vector.len(), out.as_mut_ptr(), out.len()) })
}
