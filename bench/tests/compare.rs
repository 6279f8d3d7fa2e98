//! The proved calls against the Rust ones, on many inputs, sound and damaged: equal answers, equal buffers in whole (also the
//! bytes and words that must stay), equal machine words.

use bench::generate::{
    alike_starts, any_broad, any_cone, any_retimable, any_sound, damage_netlist, damage_text, largest, long_row,
    longest_chain, mixed, parities, ring, selecting, slowest_accepted, slowest_infeasible, text_of, thinned, trunk,
    Random, MOST_BRANCHES,
};
use bench::rails;
use bench::reference::{self, Answer, Netlist, INPUT, OUTPUT};
use bench::retiming::{self, Figures};
use bench::{Machine, Record, EDGES, NODES};

fn pins(net: &Netlist, kind: u8) -> usize {
    net.nodes.iter().filter(|node| node.kind == kind).count()
}

/// A buffer length around what is needed.
fn room(rng: &mut Random, needed: usize) -> usize {
    match rng.below(6) {
        0 => 0,
        1 => needed.saturating_sub(1),
        2 => needed + 1,
        3 => needed + rng.below(300),
        4 => rng.below(needed + 1),
        _ => needed,
    }
}

fn filled(rng: &mut Random, len: usize) -> Vec<u8> {
    (0..len).map(|_| rng.draw() as u8).collect()
}

/// A text: mostly damaged, sometimes sound, sometimes a damaged netlist written as it is.
fn any_text(rng: &mut Random) -> (Netlist, Vec<u8>) {
    let mut net = any_sound(rng);
    let mut text = text_of(&net);
    match rng.below(4) {
        0 => {}
        1 => damage_text(rng, &mut text),
        _ => {
            damage_netlist(rng, &mut net);
            text = lines_of(&net);
        }
    }
    (net, text)
}

/// The lines of any netlist, sound or not.
fn lines_of(net: &Netlist) -> Vec<u8> {
    let (n, e) = (net.nodes.len(), net.edges.len());
    let mut text = format!("01{:04X}{:02X}{n:04X}{e:04X}\n", net.period, net.derate);
    for node in &net.nodes {
        text += &format!("02{:02X}{:02X}\n", node.kind, node.delay);
    }
    for edge in &net.edges {
        text += &format!("03{:04X}{:04X}{:02X}{:08X}\n", edge.from, edge.to, edge.count, edge.start);
    }
    text.into_bytes()
}

/// How often each number was given; 0 where nothing is refused.
#[derive(Default)]
struct Seen([u32; 16]);

impl Seen {
    fn count(&mut self, answer: &Answer<usize>) {
        self.0[answer.as_ref().map_or_else(|refusal| usize::from(refusal.number), |_| 0)] += 1;
    }

    /// Prints the counts (with `--nocapture`), and asks that each of these numbers was given.
    fn show(&self, test: &str, wanted: &[usize]) {
        let counts: Vec<String> = (0..16).filter(|&n| self.0[n] > 0).map(|n| format!("{n}: {}", self.0[n])).collect();
        println!("{test}: {}", counts.join(", "));
        for &number in wanted {
            assert!(self.0[number] > 0, "{test}: {number} was never given");
        }
    }
}

#[test]
fn reading_and_writing() {
    let mut rng = Random::new(1);
    let mut seen = Seen::default();
    let large = text_of(&largest(&mut rng, 1));
    for turn in 0..6000 {
        let mut text = if turn % 100 == 0 { large.clone() } else { any_text(&mut rng).1 };
        if turn % 200 == 0 {
            damage_text(&mut rng, &mut text);
        }
        let room = room(&mut rng, text.len());
        let mut out = filled(&mut rng, room);
        let mut rust_out = out.clone();
        let given = bench::reread(&text, &mut out);
        let rust = reference::read(&text).and_then(|net| reference::write(&net, &mut rust_out));
        assert_eq!(given, rust, "{}", String::from_utf8_lossy(&text));
        assert!(out == rust_out);
        seen.count(&given);

        // a refusal leaves the record as it was
        let mut record = Record::empty();
        fill_past(&mut rng, &mut record);
        let (rust, rust_record) = match reference::read(&text) {
            Ok(net) => (Ok(0), Record::of(&net)),
            Err(refusal) => (Err(refusal), record.clone()),
        };
        assert_eq!(bench::read(&text, &mut record), rust);
        assert!(record == rust_record);
    }
    seen.show("reading and writing", &[0, 1, 2, 3, 4, 5, 6, 7, 12]);
}

#[test]
fn texts_of_every_length() {
    let mut rng = Random::new(2);
    let text = text_of(&reference::read(&text_of(&any_sound(&mut rng))).unwrap());
    for end in 0..=text.len() {
        let mut out = [7; 64];
        let rust = reference::read(&text[..end]).and_then(|net| reference::write(&net, &mut [7; 64]));
        assert_eq!(bench::reread(&text[..end], &mut out), rust);
        assert!(out == [7; 64] || rust.is_ok());
    }
}

/// Puts any numbers in the rows past the record's nodes and edges.
fn fill_past(rng: &mut Random, record: &mut Record) {
    let (n, e) = (usize::from(record.nodes), usize::from(record.edges));
    for v in n..NODES {
        (record.kind[v], record.delay[v]) = (rng.draw() as u8, rng.draw() as u8);
    }
    for e in e..EDGES {
        (record.from[e], record.to[e]) = (rng.draw() as u16, rng.draw() as u16);
        (record.count[e], record.start[e]) = (rng.draw() as u8, rng.draw() as u32);
    }
}

/// A record with any netlist in it, and any numbers in the rows past it.
fn any_record(rng: &mut Random) -> (Netlist, Record) {
    let mut net = if rng.one_in(60) { largest(rng, 1) } else { any_sound(rng) };
    if rng.one_in(2) {
        damage_netlist(rng, &mut net);
    }
    let mut record = Record::of(&net);
    fill_past(rng, &mut record);
    if rng.one_in(20) {
        // a head whose numbers no text's lines could keep: 2
        let (n, e) = rng.pick(&[(0, 1), (1, 1), (513, 1), (65535, 1), (2, 0), (2, 1025), (512, 65535), (0, 0)]);
        (record.nodes, record.edges) = (n as u16, e as u16);
        net.nodes.resize(n, net.nodes[0]);
        net.edges.resize(e, net.edges[0]);
    }
    (net, record)
}

#[test]
fn writing_records() {
    let mut rng = Random::new(3);
    let mut seen = Seen::default();
    for _ in 0..6000 {
        let (net, record) = any_record(&mut rng);
        let room = room(&mut rng, 17 + 7 * net.nodes.len().min(512) + 21 * net.edges.len().min(1024));
        let mut out = filled(&mut rng, room);
        let mut rust_out = out.clone();
        let given = bench::write(&record, &mut out);
        assert_eq!(given, reference::write(&net, &mut rust_out));
        assert!(out == rust_out);
        seen.count(&given);
        assert_eq!(bench::check(&record), net.check().map(|_| 0));
    }
    seen.show("writing records", &[0, 2, 3, 4, 5, 6, 7, 12]);
}

/// One vector, mostly right.
fn any_vector(rng: &mut Random, inputs: usize) -> Vec<u8> {
    let mut vector = rng.bits(inputs);
    match rng.below(12) {
        0 => drop(vector.pop()),
        1 => vector.push(0),
        2 if inputs > 0 => {
            let at = rng.below(inputs);
            vector[at] = rng.pick(&[2, 3, 128, 255]);
        }
        _ => {}
    }
    vector
}

/// Machine words, mostly below their edges' counts; anything in those past the E-th.
fn any_words(rng: &mut Random, net: &Netlist) -> [u32; EDGES] {
    let mut words = [0; EDGES];
    for word in &mut words {
        *word = rng.draw() as u32;
    }
    for (word, edge) in words.iter_mut().zip(&net.edges) {
        *word &= ((1u64 << edge.count.min(32)) - 1) as u32;
    }
    if rng.one_in(8) && !net.edges.is_empty() {
        let at = rng.below(net.edges.len().min(EDGES));
        let count = u32::from(net.edges[at].count);
        if count < 32 {
            words[at] |= 1 << rng.among(count as usize, 31);
        }
    }
    words
}

#[test]
fn stepping() {
    let mut rng = Random::new(4);
    let mut seen = Seen::default();
    for _ in 0..6000 {
        let (net, record) = any_record(&mut rng);
        let vector = any_vector(&mut rng, pins(&net, INPUT));
        let room = room(&mut rng, pins(&net, OUTPUT));
        let mut out = filled(&mut rng, room);
        let mut rust_out = out.clone();
        let mut machine = Machine { words: any_words(&mut rng, &net) };
        let mut rust_words = machine.words;
        let given = bench::step(&record, &mut machine, &vector, &mut out);
        assert_eq!(given, reference::step(&net, &mut rust_words, &vector, &mut rust_out));
        assert!(machine.words == rust_words);
        assert!(out == rust_out);
        seen.count(&given);
    }
    seen.show("stepping", &[0, 2, 3, 4, 5, 6, 7, 12, 13]);
}

#[test]
fn running() {
    let mut rng = Random::new(5);
    let mut seen = Seen::default();
    for turn in 0..6000 {
        let (net, text) = match turn % 100 {
            0 => {
                let net = largest(&mut rng, 1);
                let text = text_of(&net);
                (net, text)
            }
            1..=40 => any_text(&mut rng),
            _ => {
                let net = any_sound(&mut rng);
                let text = text_of(&net);
                (net, text)
            }
        };
        let clocks = rng.pick(&[0, 1, 2, 3, 7, 33, 70, 300]);
        let mut vectors = rng.bits(clocks * pins(&net, INPUT));
        if rng.one_in(8) {
            vectors = any_vector(&mut rng, vectors.len());
        }
        let room = room(&mut rng, clocks * pins(&net, OUTPUT));
        let mut out = filled(&mut rng, room);
        let mut rust_out = out.clone();
        let given = bench::run(&text, &vectors, &mut out);
        assert_eq!(given, reference::run(&text, &vectors, &mut rust_out));
        assert!(out == rust_out);
        seen.count(&given);
    }
    seen.show("running", &[0, 1, 2, 3, 4, 5, 6, 7, 12, 13]);
}

/// "Running is stepping from the start values, one clock per vector."
#[test]
fn running_is_stepping() {
    let mut rng = Random::new(6);
    for _ in 0..60 {
        let net = any_sound(&mut rng);
        let (text, record) = (text_of(&net), Record::of(&net));
        let (inputs, outputs) = (pins(&net, INPUT), pins(&net, OUTPUT));
        let clocks = 50;
        let vectors = rng.bits(clocks * inputs);
        let mut out = vec![9; clocks * outputs];
        assert_eq!(bench::run(&text, &vectors, &mut out), Ok(clocks * outputs));
        let mut machine = Machine { words: record.start };
        for (vector, row) in vectors.chunks(inputs).zip(out.chunks(outputs)) {
            let mut once = vec![9; outputs];
            assert_eq!(bench::step(&record, &mut machine, vector, &mut once), Ok(outputs));
            assert!(once == row);
        }
    }
}

// --- Retiming -------------------------------------------------------------------------------------

/// Both calls on one text, into equal buffers and lag tables: equal answers, buffers and tables in whole; a refusal touches
/// nothing, and else only what is written.
fn retimed_alike(rng: &mut Random, text: &[u8], room: usize, lag_room: usize) -> Answer<usize> {
    let mut out = filled(rng, room);
    let mut lags: Vec<i32> = (0..lag_room).map(|_| rng.draw() as i32).collect();
    let (old_out, old_lags) = (out.clone(), lags.clone());
    let (mut rust_out, mut rust_lags) = (out.clone(), lags.clone());
    let given = bench::retime(text, &mut out, &mut lags);
    let rust = retiming::retime(text, &mut rust_out, &mut rust_lags);
    let shown = String::from_utf8_lossy(text);
    assert_eq!(given, rust, "{shown}");
    assert!(out == rust_out, "{shown}");
    assert!(lags == rust_lags, "{shown}");
    match given {
        Ok(_) => assert!(out[text.len()..] == old_out[text.len()..]),
        Err(_) => assert!(out == old_out && lags == old_lags),
    }
    given
}

/// .. with room for all of it and for more.
fn retimed_with_room(rng: &mut Random, text: &[u8]) -> Answer<usize> {
    let (more, more_lags) = (rng.pick(&[0, 0, 1, 300]), rng.pick(&[0, 0, 1, 20]));
    retimed_alike(rng, text, text.len() + more, NODES + more_lags)
}

#[test]
fn retiming_sound_texts() {
    let mut rng = Random::new(7);
    let mut seen = Seen::default();
    let mut chosen = [0; 25];
    for _ in 0..20_000 {
        let net = any_retimable(&mut rng, 24);
        let text = text_of(&net);
        let given = retimed_with_room(&mut rng, &text);
        seen.count(&given);
        if let Ok(n) = given {
            chosen[n] += 1;
        }
    }
    println!("values chosen: {chosen:?}");
    assert!(chosen.iter().all(|&times| times > 0));
    seen.show("retiming sound texts", &[0, 8, 9, 10, 11]);
}

/// "Order: lines in turn, ...; then 5, 6, 7; retiming goes on with 12, 8, 9, 10, 11": buffers and lag tables of any length.
#[test]
fn retiming_damaged_texts_and_short_room() {
    let mut rng = Random::new(8);
    let mut seen = Seen::default();
    for _ in 0..10_000 {
        let mut net = any_retimable(&mut rng, 12);
        let mut text = text_of(&net);
        match rng.below(4) {
            0 => damage_text(&mut rng, &mut text),
            1 => {
                damage_netlist(&mut rng, &mut net);
                text = lines_of(&net);
            }
            _ => {}
        }
        let room = if rng.one_in(2) { text.len() } else { room(&mut rng, text.len()) };
        let lag_room = if rng.one_in(2) { NODES } else { self::room(&mut rng, net.nodes.len()) };
        seen.count(&retimed_alike(&mut rng, &text, room, lag_room));
    }
    seen.show("retiming damaged texts, short room", &[0, 1, 2, 3, 4, 5, 6, 7, 8, 9, 10, 11, 12]);
}

/// Each buffer and each lag table that is too short, up to one that is just enough.
#[test]
fn retiming_into_every_length() {
    let mut rng = Random::new(9);
    let (mut texts, mut calls) = (0, 0);
    while texts < 40 {
        let net = any_retimable(&mut rng, 24);
        let (text, nodes) = (text_of(&net), net.nodes.len());
        if text.len() > 600 {
            continue;
        }
        for room in 0..=text.len() {
            let given = retimed_alike(&mut rng, &text, room, nodes);
            assert_eq!(given == Err(whole(12)), room < text.len());
        }
        for lag_room in 0..=nodes {
            let given = retimed_alike(&mut rng, &text, text.len(), lag_room);
            assert_eq!(given == Err(whole(12)), lag_room < nodes);
        }
        texts += 1;
        calls += text.len() + nodes + 2;
    }
    println!("retiming into every length: {texts} texts, {calls} calls");
}

fn whole(number: u8) -> reference::Refusal {
    reference::Refusal { number, place: reference::Place::Whole }
}

/// A netlist of hundreds of nodes: a trunk, a ring or random, with a period around what it can meet.
fn any_large(rng: &mut Random) -> Netlist {
    let net = match rng.below(8) {
        0 => {
            let length = rng.among(100, 255);
            let (spacing, period) = (rng.pick(&[30, 31, 32]), rng.pick(&[1, 2, 7, length, 256]));
            trunk(rng, length, spacing, period as u16)
        }
        1 => {
            let mut registers = vec![0; rng.among(200, 500)];
            let step = rng.among(5, 60);
            registers.iter_mut().step_by(step).for_each(|count| *count = 1);
            let period = rng.among(step - 1, step + 4) as u16;
            ring(rng, &registers, period)
        }
        _ => {
            let counts: &[u8] = rng.pick(&[&[1u8][..], &[1, 1, 1, 2, 3], &[1, 2, 8, 30]]);
            let net = largest(rng, 1);
            let mut net = thinned(rng, net, counts);
            let parts = rng.pick(&[99, 95, 90, 80, 70, 60, 50]);
            net.period = (longest_chain(&net) * parts / 100).max(1) as u16;
            net
        }
    };
    let net = if rng.one_in(3) { selecting(rng, net) } else { net };
    if rng.one_in(2) {
        mixed(rng, &net)
    } else {
        net
    }
}

#[test]
fn retiming_large_texts() {
    let mut rng = Random::new(10);
    let mut seen = Seen::default();
    for _ in 0..400 {
        let net = any_large(&mut rng);
        seen.count(&retimed_with_room(&mut rng, &text_of(&net)));
    }
    for net in [slowest_accepted(), slowest_infeasible()] {
        seen.count(&retimed_with_room(&mut rng, &text_of(&net)));
    }
    seen.show("retiming large texts", &[0, 8, 9, 10, 11]);
}

/// Up to 24 chosen values: cones with a start that a choice carries, and conflicts that hang on the first or the last values.
#[test]
fn retiming_with_long_searches() {
    let mut rng = Random::new(11);
    let mut seen = Seen::default();
    for _ in 0..500 {
        let net = any_cone(&mut rng, 24);
        seen.count(&retimed_with_room(&mut rng, &text_of(&net)));
    }
    for (chosen, range) in [(24, 0..2), (24, 0..12), (24, 10..14), (24, 22..24), (24, 10..24), (20, 4..20), (18, 0..18)]
    {
        for values in [[0, 0], [0, 1], [1, 0], [1, 1]] {
            let text = text_of(&parities(chosen, range.clone(), values));
            let given = retimed_with_room(&mut rng, &text);
            assert_eq!(given, if values[0] == values[1] { Ok(chosen) } else { Err(whole(11)) });
            seen.count(&given);
        }
    }
    seen.show("retiming with long searches", &[0, 11]);
}

/// "The two runs give the same answer, a refusal included, and leave equal buffers": the retimed text runs as the text does.
#[test]
fn retimed_texts_run_alike() {
    let mut rng = Random::new(12);
    let mut moved = 0;
    while moved < 1000 {
        let net = any_retimable(&mut rng, 24);
        let text = text_of(&net);
        let mut new = vec![0; text.len()];
        if bench::retime(&text, &mut new, &mut [0; NODES]).is_err() || new == text {
            continue;
        }
        moved += 1;
        let mut vectors = rng.bits(60 * pins(&net, INPUT));
        if rng.one_in(8) {
            vectors = any_vector(&mut rng, vectors.len());
        }
        let room = room(&mut rng, 60 * pins(&net, OUTPUT));
        let mut out = filled(&mut rng, room);
        let mut new_out = out.clone();
        assert_eq!(bench::run(&text, &vectors, &mut out), bench::run(&new, &vectors, &mut new_out));
        assert!(out == new_out);
    }
}

// --- Quotes ---------------------------------------------------------------------------------------

/// Both calls on one text, with equal figures lent: equal answers and figures, and a refusal leaves them.
fn quoted_alike(rng: &mut Random, text: &[u8]) -> (Answer<usize>, Figures) {
    let mut draw = || rng.draw() as u32;
    let lent = Figures { registers: draw(), largest: draw(), number: draw() };
    let (mut figures, mut rust_figures) = (lent, lent);
    let given = bench::quote(text, &mut figures);
    let rust = retiming::quote(text, &mut rust_figures);
    let shown = String::from_utf8_lossy(text);
    assert_eq!((given, figures), (rust, rust_figures), "{shown}");
    assert!(given.is_ok() || figures == lent, "{shown}");
    (given, figures)
}

/// All shapes; delays up to 255 at any derate; rows around the longest period.
#[test]
fn quoting_sound_texts() {
    let mut rng = Random::new(13);
    let mut seen = Seen::default();
    for turn in 0..6000 {
        let net = match turn % 16 {
            0 => long_row(&mut rng),
            1..=4 => any_sound(&mut rng),
            _ => any_retimable(&mut rng, 24),
        };
        seen.count(&quoted_alike(&mut rng, &text_of(&net)).0);
    }
    seen.show("quoting sound texts", &[0, 8]);
}

#[test]
fn quoting_damaged_texts() {
    let mut rng = Random::new(14);
    let mut seen = Seen::default();
    for _ in 0..6000 {
        let text = any_text(&mut rng).1;
        seen.count(&quoted_alike(&mut rng, &text).0);
    }
    seen.show("quoting damaged texts", &[0, 1, 2, 3, 4, 5, 6, 7]);
}

#[test]
fn quoting_large_texts() {
    let mut rng = Random::new(15);
    let mut seen = Seen::default();
    for _ in 0..200 {
        let net = any_large(&mut rng);
        seen.count(&quoted_alike(&mut rng, &text_of(&net)).0);
    }
    for net in [slowest_accepted(), slowest_infeasible()] {
        seen.count(&quoted_alike(&mut rng, &text_of(&net)).0);
    }
    seen.show("quoting large texts", &[0]);
}

/// The text with this period in its head, and what the exported retiming gives and writes for it.
fn retimed_at(net: &mut Netlist, period: usize) -> (Vec<u8>, Answer<usize>, Vec<u8>) {
    net.period = period as u16;
    let text = text_of(net);
    let mut new = vec![0; text.len()];
    let given = bench::retime(&text, &mut new, &mut [0; NODES]);
    (text, given, new)
}

/// "Every smaller period is refused 8 ... The numbers equal what a retiming at that period has or would have had", whatever
/// the period in the head: the exported calls beside each other.
#[test]
fn a_quote_is_what_retiming_gives() {
    let mut rng = Random::new(16);
    let mut seen = Seen::default();
    for _ in 0..2000 {
        let mut net = any_retimable(&mut rng, 12);
        let (quoted, figures) = quoted_alike(&mut rng, &text_of(&net));
        let period = quoted.expect("chains far shorter than the longest period");
        for smaller in [1, period / 2, period - 1] {
            assert!(!(1..period).contains(&smaller) || retimed_at(&mut net, smaller).1 == Err(whole(8)));
        }
        for longer in [rng.among(period, 65_535), 65_535] {
            assert!(retimed_at(&mut net, longer).1 != Err(whole(8)));
        }
        let (text, given, new) = retimed_at(&mut net, period);
        assert_eq!(quoted_alike(&mut rng, &text), (Ok(period), figures));
        match given {
            Ok(chosen) => {
                let moved = reference::read(&new).expect("a retimed text");
                let counts = || moved.edges.iter().map(|edge| u32::from(edge.count));
                let (registers, largest) = (counts().sum(), counts().max().unwrap_or(0));
                assert_eq!(figures, Figures { registers, largest, number: chosen as u32 });
            }
            Err(refusal) => {
                let number = match figures {
                    Figures { largest: 33.., .. } => 9,
                    Figures { number: 25.., .. } => 10,
                    _ => 11,
                };
                assert_eq!(refusal.number, number);
            }
        }
        seen.count(&given);
    }
    seen.show("retiming at the period quoted", &[0, 9, 10, 11]);
}

// --- Rails ----------------------------------------------------------------------------------------

/// Both calls on one text, into equal tables of any words: equal answers and tables in whole; a refusal leaves the table, and
/// else only the nodes' words change.
fn counted_alike(rng: &mut Random, text: &[u8], words: usize) -> Answer<usize> {
    let mut table: Vec<u32> = (0..words).map(|_| rng.draw() as u32).collect();
    let old = table.clone();
    let mut rust_table = table.clone();
    let given = bench::rails(text, &mut table);
    let rust = rails::rails(text, &mut rust_table);
    let shown = String::from_utf8_lossy(text);
    assert_eq!(given, rust, "{shown}");
    assert!(table == rust_table, "{shown}");
    match given {
        Ok(total) => {
            let net = reference::read(text).expect("a text that was counted");
            let (counts, past) = table.split_at(net.nodes.len());
            assert!(past == &old[net.nodes.len()..]);
            assert_eq!(counts.iter().map(|&count| count as usize).sum::<usize>(), total);
            // "The total is at most the plain register total, and equals it when each node has at most one out-edge."
            let plain: usize = net.edges.iter().map(|edge| usize::from(edge.count)).sum();
            let mut from: Vec<u16> = net.edges.iter().map(|edge| edge.from).collect();
            from.sort_unstable();
            let alone = from.windows(2).all(|two| two[0] != two[1]);
            assert!(total <= plain && (!alone || total == plain));
        }
        Err(_) => assert!(table == old),
    }
    given
}

/// A length of table around what is needed.
fn words(rng: &mut Random, nodes: usize) -> usize {
    if rng.one_in(2) {
        nodes + rng.pick(&[0, 0, 1, 700])
    } else {
        room(rng, nodes)
    }
}

#[test]
fn rails_of_sound_texts() {
    let mut rng = Random::new(17);
    let mut seen = Seen::default();
    for turn in 0..10_000 {
        let net = match turn % 4 {
            0 => any_retimable(&mut rng, 24),
            1 => any_sound(&mut rng),
            _ => {
                let net = any_sound(&mut rng);
                alike_starts(&mut rng, net)
            }
        };
        let words = words(&mut rng, net.nodes.len());
        seen.count(&counted_alike(&mut rng, &text_of(&net), words));
    }
    seen.show("rails of sound texts", &[0, 12]);
}

/// 1 to 7, then 12.
#[test]
fn rails_of_damaged_texts() {
    let mut rng = Random::new(18);
    let mut seen = Seen::default();
    for _ in 0..6000 {
        let (net, text) = any_text(&mut rng);
        let words = words(&mut rng, net.nodes.len());
        seen.count(&counted_alike(&mut rng, &text, words));
    }
    seen.show("rails of damaged texts", &[0, 1, 2, 3, 4, 5, 6, 7, 12]);
}

/// Each table that is too short, up to one that is just enough, and some longer ones.
#[test]
fn rails_into_every_length() {
    let mut rng = Random::new(19);
    for _ in 0..60 {
        let net = any_sound(&mut rng);
        let net = alike_starts(&mut rng, net);
        let (text, nodes) = (text_of(&net), net.nodes.len());
        for words in 0..=nodes + 3 {
            let given = counted_alike(&mut rng, &text, words);
            assert_eq!(given == Err(whole(12)), words < nodes);
        }
    }
}

/// 512 nodes and 1,024 edges; one node with up to 950 branches of 32 registers.
#[test]
fn rails_of_large_texts() {
    let mut rng = Random::new(20);
    let mut seen = Seen::default();
    for turn in 0..400 {
        let net = match turn % 4 {
            0 => largest(&mut rng, 1),
            1 => {
                let net = largest(&mut rng, 1);
                alike_starts(&mut rng, net)
            }
            2 => any_large(&mut rng),
            _ => {
                let branches = rng.pick(&[1, 2, 437, 438, 511, 512, 600, MOST_BRANCHES]);
                any_broad(&mut rng, branches.min(MOST_BRANCHES))
            }
        };
        let words = rng.pick(&[0, net.nodes.len() - 1, net.nodes.len(), net.nodes.len() + 1, 512, 1024]);
        seen.count(&counted_alike(&mut rng, &text_of(&net), words));
    }
    seen.show("rails of large texts", &[0, 12]);
}

/// "A retimed text can be counted like any other."
#[test]
fn rails_of_retimed_texts() {
    let mut rng = Random::new(21);
    let mut moved = 0;
    while moved < 1000 {
        let net = any_retimable(&mut rng, 24);
        let text = text_of(&net);
        let mut new = vec![0; text.len()];
        if bench::retime(&text, &mut new, &mut [0; NODES]).is_ok() && new != text {
            moved += 1;
            assert!(counted_alike(&mut rng, &new, net.nodes.len()).is_ok());
        }
    }
}
