//! Runs a built `cards` on generated sessions and compares it with the model.

use crate::generate;
use crate::session::{lines, Reply, Session};
use std::collections::BTreeMap;
use std::fmt;
use std::io::{self, Write};
use std::path::Path;
use std::process::{Command, Output, Stdio};
use std::thread;

/// The declines a session file can meet.
const DECLINES: [u8; 17] = [11, 12, 13, 14, 15, 17, 18, 20, 21, 22, 23, 24, 40, 41, 42, 43, 44];

const CALLS: [&str; 7] = ["make", "set", "put", "fetch", "lose", "refresh", "mend"];

/// What the compared sessions met.
#[derive(Default)]
pub struct Seen {
    sessions: usize,
    lines: usize,
    accepted: BTreeMap<String, usize>,
    declined: BTreeMap<u8, usize>,
}

impl Seen {
    fn count(&mut self, line: &[u8], reply: &Reply, answer: &[u8]) {
        self.lines += 1;
        match reply {
            Reply::No(number) => *self.declined.entry(*number).or_default() += 1,
            Reply::BadPlaces(_) => {
                let number = if answer.starts_with(b"no\t41") { 41 } else { 42 };
                *self.declined.entry(number).or_default() += 1;
            }
            _ => {
                let word = line.split(|&byte| byte == b'\t').next().unwrap_or_default();
                *self.accepted.entry(String::from_utf8_lossy(word).into_owned()).or_default() += 1;
            }
        }
    }

    /// The accepted calls and declines that no session met.
    pub fn lacking(&self, mend: bool) -> Vec<String> {
        let calls = CALLS.iter().filter(|&&call| mend || call != "mend");
        let calls = calls
            .filter(|&&call| !self.accepted.contains_key(call))
            .map(|call| format!("accepted {call}"));
        let declines = DECLINES.iter().filter(|&&number| mend || number != 40);
        let declines = declines
            .filter(|&number| !self.declined.contains_key(number))
            .map(|n| format!("decline {n}"));
        calls.chain(declines).collect()
    }
}

impl fmt::Display for Seen {
    fn fmt(&self, f: &mut fmt::Formatter) -> fmt::Result {
        write!(f, "{} sessions, {} lines; accepted", self.sessions, self.lines)?;
        for call in CALLS {
            if let Some(count) = self.accepted.get(call) {
                write!(f, " {call} {count}")?;
            }
        }
        write!(f, "; declined")?;
        for (number, count) in &self.declined {
            write!(f, " {number}: {count}")?;
        }
        Ok(())
    }
}

/// Where an answer is not the model's.
pub struct Miss {
    seed: u64,
    /// Counted from 1.
    line: usize,
    shown: String,
    model: String,
    cards: String,
}

impl fmt::Display for Miss {
    fn fmt(&self, f: &mut fmt::Formatter) -> fmt::Result {
        writeln!(f, "miss: seed {}, line {}: {}", self.seed, self.line, self.shown)?;
        writeln!(f, "  model: {}", self.model.trim_end())?;
        writeln!(f, "  cards: {}", self.cards)?;
        write!(f, "  the session file: model session {}", self.seed)
    }
}

/// Compares the sessions of `count` seeds from `seed` on.
pub fn compare(cards: &Path, count: u64, seed: u64, mend: bool) -> io::Result<Result<Seen, Miss>> {
    let mut seen = Seen::default();
    for seed in seed..seed + count {
        let text = generate::session(seed, mend);
        let output = run(cards, &text)?;
        if let Err(miss) = compare_session(seed, &text, &output, mend, &mut seen) {
            return Ok(Err(miss));
        }
        seen.sessions += 1;
    }
    Ok(Ok(seen))
}

fn compare_session(
    seed: u64,
    text: &[u8],
    output: &Output,
    mend: bool,
    seen: &mut Seen,
) -> Result<(), Miss> {
    let mut session = Session::new(mend);
    let mut answers = output.stdout.split_inclusive(|&byte| byte == b'\n');
    let lines = lines(text);
    let miss = |index: usize, model: String, cards: String| Miss {
        seed,
        line: index + 1,
        shown: lines.get(index).map_or("no line".to_string(), |line| shown(line)),
        model,
        cards,
    };
    for (index, line) in lines.iter().enumerate() {
        let reply = session.answer(line);
        match answers.next() {
            Some(answer) if reply.allows(answer) => seen.count(line, &reply, answer),
            Some(answer) => {
                return Err(miss(index, reply.line(), answer.escape_ascii().to_string()))
            }
            None => {
                return Err(miss(index, reply.line(), format!("no answer ({})", output.status)))
            }
        }
    }
    match answers.next() {
        Some(answer) => {
            Err(miss(lines.len(), "no answer".to_string(), answer.escape_ascii().to_string()))
        }
        None if output.status.success() => Ok(()),
        None => Err(miss(lines.len(), "success at the end".to_string(), output.status.to_string())),
    }
}

/// The start of a line, for a message.
fn shown(line: &[u8]) -> String {
    const START: usize = 200;
    if line.len() > START {
        format!("{}... ({} bytes)", line[..START].escape_ascii(), line.len())
    } else {
        line.escape_ascii().to_string()
    }
}

/// Runs a program on this input; it may answer before it has read all of it.
fn run(program: &Path, input: &[u8]) -> io::Result<Output> {
    let mut child = Command::new(program).stdin(Stdio::piped()).stdout(Stdio::piped()).spawn()?;
    let mut stdin = child.stdin.take().expect("standard input is piped");
    thread::scope(|scope| {
        // A program that ends early leaves its input unread; its answers tell.
        scope.spawn(move || stdin.write_all(input).unwrap_or(()));
        child.wait_with_output()
    })
}
