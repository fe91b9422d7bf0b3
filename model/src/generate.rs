//! Session files by seed: sound and damaged lines, all parameters, lost nodes,
//! worn places, and arguments at and just past their bounds.

use crate::random::Random;
use crate::session::{lines, Reply, Session};

type Words = Vec<Vec<u8>>;

/// The session file of this seed, for a session that knows `mend` or not.
pub fn session(seed: u64, mend: bool) -> Vec<u8> {
    let mut random = Random::new(seed);
    let damage = if random.chance(40) { random.within(2, 30) } else { 0 };
    let course = random.below(100);
    let mut writer = Writer::new(random, damage, mend);
    match course {
        0 => writer.scraps(),
        1..=5 => writer.calls_before_make(),
        6..=77 => writer.mixed(),
        78..=89 => writer.fetches_to_the_end(StoreKind::Card, 250),
        90..=92 => writer.fetches_to_the_end(StoreKind::Memory, 1000),
        93..=95 => writer.mends_to_the_end(),
        _ => writer.puts_to_the_end(),
    }
    ended(&mut writer.random, writer.text)
}

/// The text with its end as it is, without its line feed, or with something
/// more that has none.
fn ended(random: &mut Random, mut text: Vec<u8>) -> Vec<u8> {
    match random.below(20) {
        0..=5 => drop(text.pop()),
        6 => text.push(*random.pick(b"1\t\r\0")),
        7 => text.extend(b"fetch\t0\t0"),
        8 => text.extend(vec![b'1'; *random.pick(&[5000, 5001])]),
        9 => text.push(b'\n'),
        _ => (),
    }
    text
}

/// A session of this many lines, all accepted: fetches and puts, a node that is
/// lost and mended (or the array set again), and refreshes.
pub fn long_session(count: usize, mend: bool) -> Vec<u8> {
    let mut writer = Writer::new(Random::new(1), 0, mend);
    writer.made = Made { decimal: false, k: 8, a: 4, tau: 3, b: 2 };
    writer.make(StoreKind::Memory);
    writer.set_of(64, 0);
    for _ in 0..=count / Writer::LEAST_IN_ROUND {
        writer.accepted_round(mend);
    }
    let mut text = lines(&writer.text)[..count].join(&b'\n');
    text.push(b'\n');
    text
}

#[derive(Clone, Copy)]
enum StoreKind {
    Memory,
    Card,
}

#[derive(Clone, Copy)]
struct Made {
    decimal: bool,
    k: usize,
    a: usize,
    tau: usize,
    b: usize,
}

impl Made {
    fn n(&self) -> usize {
        self.k + self.a + self.b
    }
}

struct Writer {
    random: Random,
    /// How many of a hundred lines are damaged.
    damage: usize,
    made: Made,
    /// The lost nodes, and how many a mixed course lets there be before it
    /// restores some.
    lost: Vec<usize>,
    many: usize,
    /// Answers each line as it is written, to tell what was accepted.
    session: Session,
    text: Vec<u8>,
}

impl Writer {
    fn new(mut random: Random, damage: usize, mend: bool) -> Self {
        let made = parameters(&mut random);
        let many = *random.pick(&[1, 1, 1, 2, 2, 3, 6]);
        let session = Session::new(mend);
        Writer { random, damage, made, lost: Vec::new(), many, session, text: Vec::new() }
    }

    /// A course of all calls, after a make that may take several attempts.
    fn mixed(&mut self) {
        if self.random.chance(15) {
            self.bad_makes();
        }
        let store = if self.random.chance(50) { StoreKind::Memory } else { StoreKind::Card };
        self.make(store);
        if self.random.chance(92) {
            self.set();
        }
        for _ in 0..self.random.within(15, 90) {
            self.any_call();
        }
    }

    /// Hardly a line, or none.
    fn scraps(&mut self) {
        for _ in 0..self.random.below(4) {
            self.damaged(&["make", "d", "m", "4", "2", "1", "1"]);
        }
    }

    fn calls_before_make(&mut self) {
        for _ in 0..self.random.within(1, 15) {
            self.any_call();
        }
        self.bad_makes();
        self.any_call();
        if self.random.chance(60) {
            self.mixed();
        }
    }

    /// Makes with one parameter just past a bound, or any numbers, or a field
    /// that is too small.
    fn bad_makes(&mut self) {
        for _ in 0..self.random.within(1, 8) {
            let Made { mut k, mut a, mut tau, mut b, .. } = parameters(&mut self.random);
            let mut field = "b";
            match self.random.below(10) {
                0 => k = *self.random.pick(&[0, 1, 2, 33, 99999]),
                1 | 2 => a = *self.random.pick(&[0, 1, k, k + 1, 99999]),
                3 | 4 => tau = *self.random.pick(&[0, a, a + 1, 99999]),
                5 | 6 => b = *self.random.pick(&[k - tau, k - tau + 1, 99999]),
                7 => {
                    field = "d";
                    k = self.random.within(7, 32);
                    a = self.random.within(12usize.saturating_sub(k).max(2), k - 1);
                    tau = self.random.within(1, a - 1);
                    b = self.random.within(0, k - tau - 1);
                }
                _ => {
                    for number in [&mut k, &mut a, &mut tau, &mut b] {
                        *number = self.random.below(35);
                    }
                }
            }
            self.make_line(field, "m", [k, a, tau, b]);
        }
    }

    /// Fetches one place until it is worn, and goes on from there.
    fn fetches_to_the_end(&mut self, store: StoreKind, life: usize) {
        self.small();
        self.make(store);
        self.set();
        let (row, node) = (self.random.below(self.made.k), self.random.below(self.made.k));
        let times = life - self.random.within(1, 5);
        self.call2("fetch", row, node, times);
        for _ in 0..self.random.within(5, 12) {
            match self.random.below(5) {
                0 => self.any_call(),
                1 => self.put(row, node),
                _ => self.call2("fetch", row, node, 1),
            }
        }
        if self.random.chance(50) {
            let other = (node + self.random.within(1, self.made.k - 1)) % self.made.k;
            self.lose(other);
            self.call2("fetch", row, other, 2);
            self.mend(other);
        }
        if self.random.chance(50) {
            self.call1("refresh", node);
            self.call2("fetch", row, node, 3);
        }
        for _ in 0..self.random.within(0, 30) {
            self.any_call();
        }
    }

    /// Loses and mends one node of a card image until its sheet is worn.
    fn mends_to_the_end(&mut self) {
        self.small();
        self.make(StoreKind::Card);
        self.set();
        let node = self.random.below(self.made.n());
        for _ in 0..self.random.within(251, 256) {
            self.lose(node);
            self.mend(node);
        }
        for _ in 0..20 {
            self.any_call();
        }
        for node in 0..self.made.n() {
            self.call1("refresh", node);
        }
        self.mend(node);
    }

    /// Replaces symbols of one row of a card image until its parity is worn.
    fn puts_to_the_end(&mut self) {
        self.small();
        self.make(StoreKind::Card);
        self.set();
        let row = self.random.below(self.made.k);
        for _ in 0..self.random.within(251, 256) {
            let node = self.random.below(self.made.k);
            self.put(row, node);
        }
        let node = self.made.k + self.random.below(self.made.a);
        self.call1("refresh", node);
        for _ in 0..20 {
            self.any_call();
        }
    }

    const LEAST_IN_ROUND: usize = 80;

    /// At least so many lines, all accepted.
    fn accepted_round(&mut self, mend: bool) {
        let (k, n) = (self.made.k, self.made.n());
        for _ in 0..30 {
            let (row, node) = (self.random.below(k), self.random.below(k));
            self.call2("fetch", row, node, 1);
            let (row, node, symbol) = (self.random.below(k), self.random.below(k), self.symbol());
            self.line(&["put", &row.to_string(), &node.to_string(), &symbol]);
        }
        let node = self.random.below(k);
        self.lose(node);
        for row in 0..k {
            self.call2("fetch", row, node, 1);
        }
        if mend {
            self.mend(node);
        } else {
            self.set_of(k * k, 0);
        }
        for node in 0..n {
            self.call1("refresh", node);
        }
    }

    /// Small parameters, for long sessions.
    fn small(&mut self) {
        while self.made.k > 6 {
            self.made = parameters(&mut self.random);
        }
        self.damage /= 10;
    }

    fn any_call(&mut self) {
        match self.random.below(100) {
            0..=29 => {
                let (row, node) = (self.data_index(), self.data_node());
                let times = if self.random.chance(5) { self.random.within(2, 40) } else { 1 };
                self.call2("fetch", row, node, times);
            }
            30..=51 => {
                let (row, node) = (self.data_index(), self.data_node());
                self.put(row, node);
            }
            52..=63 if self.lost.len() < self.many => {
                let node = self.any_node();
                self.lose(node);
            }
            52..=63 => self.restore(),
            64..=71 => {
                let node = self.any_node();
                self.call1("refresh", node);
            }
            72..=91 => {
                let node = if !self.lost.is_empty() && self.random.chance(75) {
                    *self.random.pick(&self.lost)
                } else {
                    self.any_node()
                };
                self.mend(node);
            }
            92..=96 => self.set(),
            97 => self.short_or_long_set(),
            98 => self.make(StoreKind::Memory),
            _ => {
                self.damaged(&["set", "1"]);
            }
        }
    }

    fn make(&mut self, store: StoreKind) {
        let Made { decimal, k, a, tau, b } = self.made;
        let field = if decimal { "d" } else { "b" };
        let store = match store {
            StoreKind::Memory => "m",
            StoreKind::Card => "c",
        };
        self.make_line(field, store, [k, a, tau, b]);
    }

    fn make_line(&mut self, field: &str, store: &str, parameters: [usize; 4]) {
        let [k, a, tau, b] = parameters.map(|number| number.to_string());
        self.line(&["make", field, store, &k, &a, &tau, &b]);
    }

    /// Mends a lost node or, if none can be, sets the array again.
    fn restore(&mut self) {
        for node in self.lost.clone() {
            if self.mend(node) {
                return;
            }
        }
        self.set();
    }

    fn set(&mut self) {
        if self.set_of(self.made.k * self.made.k, 4) {
            self.lost.clear();
        }
    }

    fn short_or_long_set(&mut self) {
        let whole = self.made.k * self.made.k;
        let count = *self.random.pick(&[1, whole - 1, whole + 1]);
        self.set_of(count, 4);
    }

    /// A set of this many symbols; in `percent` of a hundred one is damaged.
    fn set_of(&mut self, count: usize, percent: usize) -> bool {
        let mut words = vec!["set".to_string()];
        for _ in 0..count {
            words.push(self.symbol());
        }
        if self.random.chance(percent) {
            let index = self.random.within(1, count);
            words[index] = self.random.pick(&NO_SYMBOLS).to_string();
        }
        let words: Vec<&str> = words.iter().map(String::as_str).collect();
        self.line(&words)
    }

    fn put(&mut self, row: usize, node: usize) {
        let symbol = if self.random.chance(3) {
            self.random.pick(&NO_SYMBOLS).to_string()
        } else {
            self.symbol()
        };
        self.line(&["put", &row.to_string(), &node.to_string(), &symbol]);
    }

    fn lose(&mut self, node: usize) {
        if self.call1("lose", node) && !self.lost.contains(&node) {
            self.lost.push(node);
        }
    }

    fn mend(&mut self, node: usize) -> bool {
        let accepted = self.call1("mend", node);
        if accepted {
            self.lost.retain(|&lost| lost != node);
        }
        accepted
    }

    fn call1(&mut self, word: &str, node: usize) -> bool {
        self.line(&[word, &node.to_string()])
    }

    fn call2(&mut self, word: &str, row: usize, node: usize, times: usize) {
        for _ in 0..times {
            self.line(&[word, &row.to_string(), &node.to_string()]);
        }
    }

    fn symbol(&mut self) -> String {
        if !self.made.decimal {
            return self.random.below(256).to_string();
        }
        match self.random.below(11) {
            10 => "X".to_string(),
            digit => digit.to_string(),
        }
    }

    /// A row, seldom at or past its bound.
    fn data_index(&mut self) -> usize {
        self.index(self.made.k)
    }

    /// A data node, often a lost one.
    fn data_node(&mut self) -> usize {
        let lost: Vec<usize> =
            self.lost.iter().copied().filter(|&node| node < self.made.k).collect();
        if !lost.is_empty() && self.random.chance(50) {
            return *self.random.pick(&lost);
        }
        self.data_index()
    }

    fn any_node(&mut self) -> usize {
        self.index(self.made.n())
    }

    fn index(&mut self, bound: usize) -> usize {
        match self.random.below(100) {
            0..=1 => bound,
            2 => *self.random.pick(&[bound + 1, 93, 32, 31, 99999, self.made.n(), self.made.k]),
            3..=8 => bound - 1,
            _ => self.random.below(bound),
        }
    }

    /// Writes a line, damaged or not; tells whether it was accepted.
    fn line(&mut self, words: &[&str]) -> bool {
        if self.random.chance(self.damage) {
            self.damaged(words)
        } else {
            self.finish(words.join("\t").into_bytes())
        }
    }

    fn damaged(&mut self, words: &[&str]) -> bool {
        let words: Words = words.iter().map(|word| word.as_bytes().to_vec()).collect();
        let line = damaged(&mut self.random, words);
        self.finish(line)
    }

    fn finish(&mut self, line: Vec<u8>) -> bool {
        let reply = self.session.answer(&line);
        self.text.extend(line);
        self.text.push(b'\n');
        !matches!(reply, Reply::No(_) | Reply::BadPlaces(_))
    }
}

/// Parameters within their bounds, mostly small, with a field that suffices.
fn parameters(random: &mut Random) -> Made {
    let k = match random.below(100) {
        0..=54 => random.within(3, 6),
        55..=82 => random.within(7, 12),
        83..=97 => random.within(13, 31),
        _ => 32,
    };
    let a = random.within(2, k - 1);
    let tau = random.within(1, a - 1);
    let b = if random.chance(25) { 0 } else { random.within(1, k - tau - 1) };
    let decimal = k + a <= 11 && random.chance(65);
    Made { decimal, k, a, tau, b }
}

/// Words that are no symbol of one field or of both.
const NO_SYMBOLS: [&str; 11] = ["10", "X", "x", "255", "256", "00", "007", "", "1\r", "-1", "1000"];

#[rustfmt::skip]
const JUNK: [&[u8]; 30] = [
    b"", b"0", b"1", b"2", b"00", b"01", b"007", b"10", b"255", b"256", b"9999", b"99999", b"100000",
    b"-1", b"+1", b"1 ", b" ", b"X", b"x", b"d", b"b", b"m", b"c", b"make", b"mend",
    b"\r", b"1\r", b"\0", b"\xFF", b"\xCF\x84",
];

/// A line that is no longer what it was, or only just still is.
fn damaged(random: &mut Random, words: Words) -> Vec<u8> {
    match random.below(14) {
        0 => random_bytes(random),
        1 => flipped_bit(random, words.join(&b'\t')),
        2 => {
            let mut line = words.join(&b'\t');
            line.resize(*random.pick(&[4999, 5000, 5001, 5002, 9000]), b'1');
            line
        }
        3 => {
            let length = *random.pick(&[4999, 5000, 5001, 5002, 70000]);
            b"set".iter().chain(b"\t1".iter().cycle()).copied().take(length).collect()
        }
        _ => damaged_words(random, words).join(&b'\t'),
    }
}

fn damaged_words(random: &mut Random, mut words: Words) -> Words {
    let index = random.below(words.len());
    match random.below(9) {
        0 | 1 => words[index] = random.pick(&JUNK).to_vec(),
        2 => drop(words.remove(index)),
        3 => words.insert(index, random.pick(&JUNK).to_vec()),
        4 => words[index].push(b'\r'),
        5 => words[index].insert(0, b'0'),
        6 => words.push(Vec::new()),
        7 => words[0].make_ascii_uppercase(),
        _ => words.clear(),
    }
    words
}

fn random_bytes(random: &mut Random) -> Vec<u8> {
    let bytes = (0..random.below(40)).map(|_| random.below(256) as u8);
    bytes.filter(|&byte| byte != b'\n').collect()
}

fn flipped_bit(random: &mut Random, mut line: Vec<u8>) -> Vec<u8> {
    let index = random.below(line.len());
    line[index] ^= 1 << random.below(8);
    line.retain(|&byte| byte != b'\n');
    line
}

#[cfg(test)]
mod tests {
    use super::*;

    #[test]
    fn a_seed_gives_one_session() {
        assert_eq!(session(7, true), session(7, true));
        assert_ne!(session(7, true), session(8, true));
    }

    #[test]
    fn sessions_are_short() {
        for seed in 0..300 {
            assert!(lines(&session(seed, true)).len() < 2000);
        }
    }
}
