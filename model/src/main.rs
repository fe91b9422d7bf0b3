//! `model`: answers session files, compares itself with `cards`, prints read
//! sheets, and times its engine.

use model::{bench, compare, generate, session, session::Session, sheets};
use std::error::Error;
use std::io::{self, BufRead, Write};
use std::path::Path;
use std::process::ExitCode;

const USAGE: &str = "usage:
  model answer [--no-mend] < session    answers a session file
  model compare --cards PATH --sessions N --seed S [--no-mend]
                                        compares PATH with the model
  model session SEED [--no-mend]        prints the session file of a seed
  model long-session LINES [--no-mend]  prints a session of accepted lines
  model sheets < lines                  prints what a mend reads: k a tau b node
  model gen-sheets [SEED]               prints lines for sheets
  model bench                           prints nanoseconds per operation";

fn main() -> ExitCode {
    let arguments: Vec<String> = std::env::args().skip(1).collect();
    let arguments: Vec<&str> = arguments.iter().map(String::as_str).collect();
    match run(&arguments) {
        Ok(code) => code,
        Err(error) => {
            eprintln!("model: {error}");
            ExitCode::from(2)
        }
    }
}

fn run(arguments: &[&str]) -> Result<ExitCode, Box<dyn Error>> {
    match arguments {
        ["answer"] => answer_lines(answers(true))?,
        ["answer", "--no-mend"] => answer_lines(answers(false))?,
        ["compare", options @ ..] => return compared(options),
        ["session", seed] => io::stdout().write_all(&generate::session(seed.parse()?, true))?,
        ["session", seed, "--no-mend"] => {
            io::stdout().write_all(&generate::session(seed.parse()?, false))?
        }
        ["long-session", count] => {
            io::stdout().write_all(&generate::long_session(count.parse()?, true))?
        }
        ["long-session", count, "--no-mend"] => {
            io::stdout().write_all(&generate::long_session(count.parse()?, false))?
        }
        ["sheets"] => answer_lines(sheets::answer)?,
        ["gen-sheets"] => io::stdout().write_all(sheets::generate(1).as_bytes())?,
        ["gen-sheets", seed] => {
            io::stdout().write_all(sheets::generate(seed.parse()?).as_bytes())?
        }
        ["bench"] => bench::print(),
        _ => return Err(USAGE.into()),
    }
    Ok(ExitCode::SUCCESS)
}

fn answers(mend: bool) -> impl FnMut(&[u8]) -> String {
    let mut session = Session::new(mend);
    move |line| session.answer(line).line()
}

/// Answers standard input line by line to its end.
fn answer_lines(mut answer: impl FnMut(&[u8]) -> String) -> io::Result<()> {
    let mut input = io::stdin().lock();
    let mut output = io::BufWriter::new(io::stdout().lock());
    let mut line = Vec::new();
    while input.read_until(b'\n', &mut line)? > 0 {
        let text = session::lines(&line);
        output.write_all(answer(text[0]).as_bytes())?;
        line.clear();
    }
    output.flush()
}

fn compared(options: &[&str]) -> Result<ExitCode, Box<dyn Error>> {
    let (mut cards, mut sessions, mut seed, mut mend) = (None, 2000, 1, true);
    let mut options = options.iter();
    while let Some(&option) = options.next() {
        let mut value = || options.next().ok_or_else(|| format!("{option} lacks its value"));
        match option {
            "--cards" => cards = Some(*value()?),
            "--sessions" => sessions = value()?.parse()?,
            "--seed" => seed = value()?.parse()?,
            "--no-mend" => mend = false,
            _ => return Err(USAGE.into()),
        }
    }
    let cards = cards.ok_or(USAGE)?;
    match compare::compare(Path::new(cards), sessions, seed, mend)? {
        Err(miss) => {
            println!("{miss}");
            Ok(ExitCode::FAILURE)
        }
        Ok(seen) => {
            println!("{seen}");
            let lacking = seen.lacking(mend);
            if lacking.is_empty() || sessions < 2000 {
                return Ok(ExitCode::SUCCESS);
            }
            println!("never seen: {}", lacking.join(", "));
            Ok(ExitCode::FAILURE)
        }
    }
}
