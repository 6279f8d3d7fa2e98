//! The Rust implementation on the gate's own vectors: crates/batch, made by tests/make_vectors.py. Retiming, quotes
//! and rails also through the exported calls.

use bench::rails;
use bench::reference::{read, read_lines, run, write, Answer, INPUT};
use bench::retiming::{self, Figures};
use std::path::Path;

/// What the gate's program is given, or must print.
fn file(name: &str) -> Vec<u8> {
    let dir = Path::new(env!("CARGO_MANIFEST_DIR")).join("../crates/batch");
    std::fs::read(dir.join(name)).expect("run python3 tests/make_vectors.py first")
}

/// What is asked for, on what.
struct Job<'a> {
    kind: &'a str,
    text: &'a [u8],
    vectors: &'a [u8],
    room: usize,
}

/// The first job, and the rest of the input. Its frame: kind (1), text length (2), number of vector bytes (2), room (2).
fn first(given: &[u8]) -> (Job<'_>, &[u8]) {
    let (line, rest) = given.split_at(15);
    let line = std::str::from_utf8(line).unwrap().strip_suffix('\n').unwrap();
    let (kind, digits) = line.split_at(2);
    let number = |i: usize| usize::from_str_radix(&digits[4 * i..4 * i + 4], 16).unwrap();
    let (text, rest) = rest.split_at(number(0));
    let (vectors, rest) = rest.split_at(number(1));
    (Job { kind, text, vectors, room: number(2) }, rest)
}

type Retime = fn(&[u8], &mut [u8], &mut [i32]) -> Answer<usize>;
type Quote = fn(&[u8], &mut Figures) -> Answer<usize>;
type Rails = fn(&[u8], &mut [u32]) -> Answer<usize>;

fn reread(text: &[u8]) -> Answer<Vec<u8>> {
    let mut out = vec![0; text.len()];
    let n = write(&read(text)?, &mut out)?;
    Ok(out[..n].to_vec())
}

/// "It prints the new text, then per node a frame `04`: node (2), lag (2, two's complement)."
fn listing(text: &[u8], retime: Retime) -> Answer<Vec<u8>> {
    let mut out = vec![0; text.len()];
    let mut lags = vec![0; 512];
    retime(text, &mut out, &mut lags)?;
    let nodes = read(text).expect("a text that was retimed").nodes.len();
    for (v, lag) in lags[..nodes].iter().enumerate() {
        out.extend_from_slice(format!("04{v:04X}{:04X}\n", *lag as i16).as_bytes());
    }
    Ok(out)
}

/// The outputs, a digit each, and a line feed.
fn outputs(text: &[u8], vectors: &[u8], room: usize) -> Answer<Vec<u8>> {
    let mut out = vec![0; room];
    let n = run(text, vectors, &mut out)?;
    let digits = out[..n].iter().map(|&bit| b'0' + bit);
    Ok(digits.chain([b'\n']).collect())
}

/// A frame `09`: period (2), register total (4), largest count (4), number of values to choose (4).
fn quoted(text: &[u8], quote: Quote) -> Answer<Vec<u8>> {
    let mut figures = Figures { registers: 0, largest: 0, number: 0 };
    let period = quote(text, &mut figures)?;
    let Figures { registers, largest, number } = figures;
    Ok(format!("09{period:04X}{registers:08X}{largest:08X}{number:08X}\n").into_bytes())
}

/// A frame `0A`: total (4); then for each node a frame `0B`: node (2), its rails (4).
fn counted(text: &[u8], words: usize, rails: Rails) -> Answer<Vec<u8>> {
    let mut table = vec![0; words];
    let mut lines = format!("0A{:08X}\n", rails(text, &mut table)?);
    let nodes = read(text).expect("a text that was counted").nodes.len();
    for (v, count) in table[..nodes].iter().enumerate() {
        lines += &format!("0B{v:04X}{count:08X}\n");
    }
    Ok(lines.into_bytes())
}

/// The walk from the inputs: a line of marks before the first pass, and after each up to one that marks nothing.
fn walked(text: &[u8]) -> Answer<Vec<u8>> {
    let net = read_lines(text)?;
    let mut before = vec![false; net.nodes.len()];
    let mut marked: Vec<bool> = net.nodes.iter().map(|node| node.kind == INPUT).collect();
    let mut out = Vec::new();
    loop {
        out.extend(marked.iter().map(|&mark| b'0' + u8::from(mark)).chain([b'\n']));
        if before == marked {
            return Ok(out);
        }
        before.clone_from(&marked);
        net.edges.iter().filter(|e| before[usize::from(e.from)]).for_each(|e| marked[usize::from(e.to)] = true);
    }
}

/// All jobs in turn, those that retime by `retime`, those that quote by `quote`, and those that count rails by `rails`.
fn batch(retime: Retime, quote: Quote, rails: Rails) {
    let (given, wanted) = (file("stdin"), file("stdout"));
    let (mut given, mut wanted, mut jobs) = (&given[..], &wanted[..], 0);
    while !given.is_empty() {
        let (job, rest) = first(given);
        let answer = match job.kind {
            "00" => reread(job.text),
            "07" => listing(job.text, retime),
            "08" => outputs(job.text, job.vectors, job.room),
            "09" => quoted(job.text, quote),
            "0A" => counted(job.text, job.room, rails),
            "0C" => walked(job.text),
            kind => panic!("job {jobs} is of kind {kind}"),
        };
        let printed = answer.unwrap_or_else(|refusal| format!("{refusal}\n").into_bytes());
        let shown = String::from_utf8_lossy(job.text);
        assert!(wanted.starts_with(&printed), "job {jobs}, {}:\n{shown}", String::from_utf8_lossy(&printed));
        (given, wanted, jobs) = (rest, &wanted[printed.len()..], jobs + 1);
    }
    assert!(wanted.is_empty());
    println!("batch: {jobs} jobs");
}

#[test]
fn batch_by_the_export() {
    batch(bench::retime, bench::quote, bench::rails);
}

#[test]
fn batch_by_rust() {
    batch(retiming::retime, retiming::quote, rails::rails);
}
