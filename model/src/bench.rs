//! How long the engine's calls take at k = 32, a = 4, τ = 2, b = 4 over bytes.

use crate::engine::{Engine, Record};
use crate::field::{Byte, Field};
use crate::random::Random;
use crate::store::{Bank, CardImage, Place, Store};
use std::hint::black_box;
use std::time::{Duration, Instant};

pub const K: usize = 32;
pub const A: usize = 4;
pub const TAU: usize = 2;
pub const B: usize = 4;
pub const NODES: usize = K + A + B;

/// An engine made with these parameters on a store, ready to be timed. Every
/// call it is given is one that must be accepted.
pub trait Subject {
    fn set(&mut self, data: &[u8]);
    fn put(&mut self, row: usize, node: usize, symbol: u8) -> usize;
    fn fetch(&mut self, row: usize, node: usize) -> u8;
    fn lose(&mut self, node: usize) -> usize;
    fn refresh(&mut self, node: usize) -> usize;
    fn mend(&mut self, node: usize) -> usize;
}

/// The model's own engine.
pub struct Model<S> {
    engine: Engine,
    store: S,
    memory: Vec<Record<Byte>>,
}

impl<S: Store<Byte>> Model<S> {
    pub fn new(mut store: S) -> Self {
        let (engine, _) = Engine::make(&mut store, [K, A, TAU, B]).expect("the parameters fit");
        Model { engine, store, memory: vec![Record::ZERO; K * K] }
    }
}

const ACCEPTED: &str = "a timed call is accepted";

impl<S: Store<Byte>> Subject for Model<S> {
    fn set(&mut self, data: &[u8]) {
        let symbols: Vec<Byte> = data.iter().map(|&byte| Byte(byte)).collect();
        self.engine.set(&mut self.store, &symbols).expect(ACCEPTED);
    }

    fn put(&mut self, row: usize, node: usize, symbol: u8) -> usize {
        self.engine.put(&mut self.store, Place { row, node }, Byte(symbol)).expect(ACCEPTED)
    }

    fn fetch(&mut self, row: usize, node: usize) -> u8 {
        let at = Place { row, node };
        let (_, symbol) = self.engine.fetch(&mut self.store, at, &mut self.memory).expect(ACCEPTED);
        symbol.number() as u8
    }

    fn lose(&mut self, node: usize) -> usize {
        self.engine.lose(&mut self.store, node).expect(ACCEPTED)
    }

    fn refresh(&mut self, node: usize) -> usize {
        self.engine.refresh(&mut self.store, node).expect(ACCEPTED)
    }

    fn mend(&mut self, node: usize) -> usize {
        self.engine.mend(&mut self.store, node, &mut self.memory).expect(ACCEPTED)
    }
}

/// One operation's time.
pub struct Timing {
    pub operation: &'static str,
    pub nanoseconds: f64,
}

/// Times every operation of a subject.
pub fn time(subject: &mut impl Subject) -> Vec<Timing> {
    let mut random = Random::new(1);
    let data: Vec<u8> = (0..K * K).map(|_| random.below(256) as u8).collect();
    subject.set(&data);
    vec![
        timing("set", || timed(1, || subject.set(&data))),
        timing("put", || puts(subject, &mut random)),
        timing("fetch of a held place", || held_fetches(subject)),
        timing("fetch by a Class B symbol", || blank_fetches(subject, TAU + 1..K)),
        timing("fetch by its row", || blank_fetches(subject, 0..TAU + 1)),
        timing("mend of a data node", || mend(subject, 5)),
        timing("mend of a plain Class A node", || mend(subject, K)),
        timing("mend of a piggybacked Class A node", || mend(subject, K + A - 1)),
        timing("mend of the first Class B node", || mend(subject, K + A)),
        timing("mend of the last Class B node", || mend(subject, NODES - 1)),
    ]
}

/// A number of calls, and how long they took together.
type Round = (usize, Duration);

fn timed<T>(calls: usize, run: impl FnOnce() -> T) -> Round {
    let start = Instant::now();
    black_box(run());
    (calls, start.elapsed())
}

/// The least mean time of a call over several spans of rounds, which is what
/// other work on the machine disturbs least.
fn timing(operation: &'static str, mut round: impl FnMut() -> Round) -> Timing {
    const SPANS: usize = 7;
    const SPAN: Duration = Duration::from_millis(30);
    let mut best = f64::INFINITY;
    for _ in 0..SPANS {
        let (mut calls, mut spent) = (0, Duration::ZERO);
        while spent < SPAN {
            let (more, time) = round();
            calls += more;
            spent += time;
        }
        best = best.min(spent.as_nanos() as f64 / calls as f64);
    }
    Timing { operation, nanoseconds: best }
}

fn refresh_all(subject: &mut impl Subject) {
    for node in 0..NODES {
        subject.refresh(node);
    }
}

fn puts(subject: &mut impl Subject, random: &mut Random) -> Round {
    let symbols: Vec<u8> = (0..K * K).map(|_| random.below(256) as u8).collect();
    let round = timed(K * K, || {
        for (index, &symbol) in symbols.iter().enumerate() {
            black_box(subject.put(index / K, index % K, symbol));
        }
    });
    refresh_all(subject);
    round
}

fn held_fetches(subject: &mut impl Subject) -> Round {
    let round = timed(K * K, || {
        for index in 0..K * K {
            black_box(subject.fetch(index / K, index % K));
        }
    });
    refresh_all(subject);
    round
}

/// Fetches the places of these offsets from a lost data node.
fn blank_fetches(subject: &mut impl Subject, offsets: std::ops::Range<usize>) -> Round {
    let node = 5;
    subject.lose(node);
    let round = timed(offsets.len(), || {
        for offset in offsets {
            black_box(subject.fetch((node + offset) % K, node));
        }
    });
    subject.mend(node);
    refresh_all(subject);
    round
}

fn mend(subject: &mut impl Subject, node: usize) -> Round {
    subject.lose(node);
    let round = timed(1, || subject.mend(node));
    refresh_all(subject);
    round
}

/// Prints nanoseconds per operation of the model on both stores.
pub fn print() {
    let bank = Bank::new(K, NODES).expect("within bounds");
    let image = CardImage::new(K, NODES).expect("within bounds");
    print_store("memory bank", time(&mut Model::new(bank)));
    print_store("card image", time(&mut Model::new(image)));
}

fn print_store(store: &str, timings: Vec<Timing>) {
    for Timing { operation, nanoseconds } in timings {
        println!("{store}\t{operation}\t{nanoseconds:.0}");
    }
}

/// Prints two subjects' nanoseconds per operation on a store and their ratio.
pub fn print_ratios(store: &str, model: &[Timing], other: &[Timing]) {
    for (Timing { operation, nanoseconds }, other) in model.iter().zip(other) {
        let ratio = other.nanoseconds / nanoseconds;
        println!("{store}\t{operation}\t{nanoseconds:.0}\t{:.0}\t{ratio:.2}", other.nanoseconds);
    }
}
