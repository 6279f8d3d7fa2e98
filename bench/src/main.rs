//! Times the proved calls and the Rust ones side by side, in one run.

use bench::generate::{
    alike_starts, any_broad, any_retimable, broad, largest, longest_chain, parities, reversed_row, slowest_accepted,
    slowest_infeasible, text_of, thinned, trunk, Random, MOST_BRANCHES,
};
use bench::rails;
use bench::reference::{self, Answer, Netlist, Place, Refusal};
use bench::retiming::{self, Figures};
use bench::NODES;
use std::time::{Duration, Instant};

const CLOCKS: usize = 100_000;
const REREADS: u32 = 100;
const TEXTS: usize = 1000;
const ROUNDS: u32 = 5;
const LEAST: Duration = Duration::from_secs(1);

/// The shortest of some rounds of each, in turn, more where they are short: what else the machine does can only lengthen a round.
fn shortest(mut ours: impl FnMut(), mut rust: impl FnMut()) -> (Duration, Duration) {
    let time = |call: &mut dyn FnMut()| {
        let start = Instant::now();
        call();
        start.elapsed()
    };
    let (start, mut rounds) = (Instant::now(), 0);
    let mut best = (Duration::MAX, Duration::MAX);
    while rounds < ROUNDS || start.elapsed() < LEAST {
        best.0 = best.0.min(time(&mut ours));
        best.1 = best.1.min(time(&mut rust));
        rounds += 1;
    }
    best
}

fn row(job: &str, size: &str, (ours, rust): (Duration, Duration), parts: usize) {
    let each = |whole: Duration| whole.as_secs_f64() * 1e6 / parts as f64;
    let ratio = ours.as_secs_f64() / rust.as_secs_f64();
    println!("{job:<44} {size:>11} {:>13.3} {:>13.3} {ratio:>8.2}", each(ours), each(rust));
}

fn size_of(net: &Netlist) -> String {
    format!("{}, {}", net.nodes.len(), net.edges.len())
}

fn main() {
    println!("{:<44} {:>11} {:>13} {:>13} {:>8}", "job", "nodes,edges", "ours, µs", "Rust, µs", "ratio");
    reading_and_running();
    retiming_and_quoting();
    counting_rails();
}

fn reading_and_running() {
    let mut rng = Random::new(1);
    for part in [1, 2] {
        let net = largest(&mut rng, part);
        let text = text_of(&net);
        reread("read and write, a text", &net);

        let inputs = net.nodes.iter().filter(|node| node.kind == reference::INPUT).count();
        let outputs = net.nodes.iter().filter(|node| node.kind == reference::OUTPUT).count();
        let vectors = rng.bits(CLOCKS * inputs);
        let mut out = vec![0; CLOCKS * outputs];
        let mut rust_out = out.clone();
        let times = shortest(
            || assert_eq!(bench::run(&text, &vectors, &mut out), Ok(CLOCKS * outputs)),
            || assert_eq!(reference::run(&text, &vectors, &mut rust_out), Ok(CLOCKS * outputs)),
        );
        assert!(out == rust_out);
        row("run 100,000 clocks, each", &size_of(&net), times, CLOCKS);
    }
    reread("read and write, a chain in reverse order", &reversed_row(510));
}

/// One text read and written by both.
fn reread(job: &str, net: &Netlist) {
    let text = text_of(net);
    let mut out = vec![0; text.len()];
    let mut rust_out = out.clone();
    let rust_reread = |out: &mut [u8]| -> Answer<usize> { reference::write(&reference::read(&text)?, out) };
    let times = shortest(
        || (0..REREADS).for_each(|_| assert_eq!(bench::reread(&text, &mut out), Ok(text.len()))),
        || (0..REREADS).for_each(|_| assert_eq!(rust_reread(&mut rust_out), Ok(text.len()))),
    );
    assert!(out == text && rust_out == text);
    row(job, &size_of(net), times, REREADS as usize);
}

fn retiming_and_quoting() {
    let mut rng = Random::new(2);
    let texts: Vec<Vec<u8>> = std::iter::repeat_with(|| any_retimable(&mut rng, 8))
        .filter(|net| net.nodes.len() <= 60)
        .map(|net| text_of(&net))
        .take(TEXTS)
        .collect();
    let mut room = (vec![0; 25_105], [0; NODES]);
    let mut rust_room = room.clone();
    let (mut retimed, mut rust_retimed) = (0, 0);
    let times = shortest(
        || retimed = texts.iter().filter(|text| bench::retime(text, &mut room.0, &mut room.1).is_ok()).count(),
        || {
            let rust = |text: &&Vec<u8>| retiming::retime(text, &mut rust_room.0, &mut rust_room.1).is_ok();
            rust_retimed = texts.iter().filter(rust).count();
        },
    );
    assert_eq!(retimed, rust_retimed);
    assert!(room == rust_room);
    row("retime 1,000 small texts, each", "2 to 60", times, TEXTS);

    let accepted = accepted_largest(&mut rng);
    retime("retime, the largest", &accepted, |given| given.is_ok_and(|chosen| chosen > 0));
    retime("retime, lags down to -8,160", &trunk(&mut rng, 255, 32, 256), |given| given == Ok(0));
    retime("retime, the slowest found that is retimed", &slowest_accepted(), |given| given.is_ok());
    retime("retime, the slowest found that gives 8", &slowest_infeasible(), |given| given == Err(whole(8)));
    retime("search 24 values, conflict on all: 11", &parities(24, 0..24, [0, 1]), |given| given == Err(whole(11)));
    retime("search 24 values, conflict on the first 4: 11", &parities(24, 0..4, [0, 1]), |given| {
        given == Err(whole(11))
    });
    quote("quote, the largest", &accepted);
    quote("quote, the slowest found (retiming gives 8)", &slowest_infeasible());
}

fn whole(number: u8) -> Refusal {
    Refusal { number, place: Place::Whole }
}

/// 512 nodes and 1,024 edges, with a period below its longest chain that it is retimed for.
fn accepted_largest(rng: &mut Random) -> Netlist {
    loop {
        let net = largest(rng, 1);
        let mut net = thinned(rng, net, &[1, 1, 1, 2, 3]);
        net.period = (longest_chain(&net) * 7 / 10) as u16;
        let text = text_of(&net);
        if retiming::retime(&text, &mut vec![0; text.len()], &mut [0; NODES]).is_ok_and(|chosen| chosen > 0) {
            return net;
        }
    }
}

/// One text retimed by both: the answer that is expected, and equal buffers and lags.
fn retime(job: &str, net: &Netlist, expected: impl Fn(Answer<usize>) -> bool) {
    let text = text_of(net);
    let mut room = (vec![0; text.len()], [0; NODES]);
    let mut rust_room = room.clone();
    let times = shortest(
        || assert!(expected(bench::retime(&text, &mut room.0, &mut room.1))),
        || assert!(expected(retiming::retime(&text, &mut rust_room.0, &mut rust_room.1))),
    );
    assert!(room == rust_room);
    row(job, &size_of(net), times, 1);
}

/// One text quoted by both: a period, and equal figures.
fn quote(job: &str, net: &Netlist) {
    let text = text_of(net);
    let mut figures = Figures { registers: 0, largest: 0, number: 0 };
    let mut rust_figures = figures;
    let (mut given, mut rust_given) = (Ok(0), Ok(0));
    let times = shortest(
        || given = bench::quote(&text, &mut figures),
        || rust_given = retiming::quote(&text, &mut rust_figures),
    );
    assert!(given.is_ok() && given == rust_given && figures == rust_figures);
    row(job, &size_of(net), times, 1);
}

fn counting_rails() {
    let mut rng = Random::new(3);
    let net = largest(&mut rng, 1);
    count("rails, the largest", &alike_starts(&mut rng, net));
    // each shares the nearest 31 registers with all others, so each is compared to the last register
    let last_apart: Vec<(u8, u32)> = (0..MOST_BRANCHES as u32).map(|i| (32, 0x1234_5678 ^ i % 2)).collect();
    count("rails, 950 branches of 32 that end apart", &broad(&last_apart));
    count("rails, 950 branches of 32, random", &any_broad(&mut rng, MOST_BRANCHES));
}

/// The rails of one text counted by both: a total, and equal tables.
fn count(job: &str, net: &Netlist) {
    let text = text_of(net);
    let mut table = [0; NODES];
    let mut rust_table = table;
    let (mut given, mut rust_given) = (Ok(0), Ok(0));
    let times =
        shortest(|| given = bench::rails(&text, &mut table), || rust_given = rails::rails(&text, &mut rust_table));
    assert!(given.is_ok() && given == rust_given && table == rust_table);
    row(job, &size_of(net), times, 1);
}
