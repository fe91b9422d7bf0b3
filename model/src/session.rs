//! Session files: lines, words, declines and answers.

use crate::code::Parameters;
use crate::engine::{Decline, Engine, Record};
use crate::field::{Byte, Decimal, Field};
use crate::store::{Bank, CardImage, Cause, Place, Store, StoreFault, MAX_NODES, MAX_ROWS};

const LONGEST_LINE: usize = 5000;

/// A line whose words have been read, its symbols still as words.
enum Line<'l> {
    Make { field: FieldLetter, store: StoreLetter, parameters: [usize; 4] },
    Set { symbols: &'l [&'l [u8]] },
    Put { at: Place, symbol: &'l [u8] },
    Fetch { at: Place },
    Lose { node: usize },
    Refresh { node: usize },
    Mend { node: usize },
}

enum FieldLetter {
    Decimal,
    Byte,
}

enum StoreLetter {
    Memory,
    Card,
}

/// The answer to a line.
#[derive(Clone, Debug, PartialEq, Eq)]
pub enum Reply {
    Made {
        nodes: usize,
    },
    Count(usize),
    Cleared(usize),
    Fetched {
        count: usize,
        symbol: String,
    },
    No(u8),
    /// 41 or 42 with any one of these places.
    BadPlaces(Vec<StoreFault>),
}

impl Reply {
    /// The answer line with its line feed. Of several bad places it names the
    /// sheet's first.
    pub fn line(&self) -> String {
        match self {
            Reply::Made { nodes: number } | Reply::Count(number) | Reply::Cleared(number) => {
                format!("ok\t{number}\n")
            }
            Reply::Fetched { count, symbol } => format!("ok\t{count}\t{symbol}\n"),
            Reply::No(number) => format!("no\t{number}\t-\t-\n"),
            Reply::BadPlaces(faults) => bad_place_line(&faults[0]),
        }
    }

    /// Whether an answer line, with its line feed, is right.
    pub fn allows(&self, line: &[u8]) -> bool {
        match self {
            Reply::BadPlaces(faults) => {
                faults.iter().any(|fault| bad_place_line(fault).as_bytes() == line)
            }
            _ => self.line().as_bytes() == line,
        }
    }
}

fn bad_place_line(fault: &StoreFault) -> String {
    let number = match fault.cause {
        Cause::Blank => 41,
        Cause::Worn => 42,
        Cause::OffStore => unreachable!("sheets stay on the store"),
    };
    format!("no\t{number}\t{}\t{}\n", fault.place.row, fault.place.node)
}

impl From<Decline> for Reply {
    fn from(decline: Decline) -> Self {
        match decline {
            Decline::Number(number) => Reply::No(number),
            Decline::Sheet(faults) => {
                Reply::BadPlaces(faults.into_iter().map(|fault| fault.store).collect())
            }
        }
    }
}

/// One session: nothing made yet, or an engine on its store.
pub struct Session {
    made: Option<Box<dyn Machine>>,
    /// Whether the word `mend` is known.
    mend: bool,
}

impl Session {
    pub fn new(mend: bool) -> Self {
        Session { made: None, mend }
    }

    /// Answers one line, given without its line feed.
    pub fn answer(&mut self, line: &[u8]) -> Reply {
        self.serve(line).unwrap_or_else(Reply::No)
    }

    fn serve(&mut self, line: &[u8]) -> Result<Reply, u8> {
        if line.len() > LONGEST_LINE {
            return Err(20);
        }
        let words: Vec<&[u8]> = line.split(|&byte| byte == b'\t').collect();
        let line = self.read(&words)?;
        match (&mut self.made, line) {
            (Some(_), Line::Make { .. }) => Err(43),
            (None, Line::Make { field, store, parameters }) => {
                let made = make(field, store, parameters);
                Ok(match made {
                    Ok((machine, nodes)) => {
                        self.made = Some(machine);
                        Reply::Made { nodes }
                    }
                    Err(decline) => decline.into(),
                })
            }
            (None, _) => Err(44),
            (Some(machine), line) => machine.serve(&line),
        }
    }

    /// Declines with 21, 22 and 23.
    fn read<'l>(&self, words: &'l [&'l [u8]]) -> Result<Line<'l>, u8> {
        let known: &[&[u8]] = &[b"make", b"set", b"put", b"fetch", b"lose", b"refresh"];
        let (first, rest) = (words[0], &words[1..]);
        if !(known.contains(&first) || (self.mend && first == b"mend")) {
            return Err(21);
        }
        match (first, rest) {
            (b"make", [field, store, numbers @ ..]) if numbers.len() == 4 => {
                let field = match *field {
                    b"d" => FieldLetter::Decimal,
                    b"b" => FieldLetter::Byte,
                    _ => return Err(23),
                };
                let store = match *store {
                    b"m" => StoreLetter::Memory,
                    b"c" => StoreLetter::Card,
                    _ => return Err(23),
                };
                let mut parameters = [0; 4];
                for (parameter, word) in parameters.iter_mut().zip(numbers) {
                    *parameter = number(word)?;
                }
                Ok(Line::Make { field, store, parameters })
            }
            (b"set", [_, ..]) => Ok(Line::Set { symbols: rest }),
            (b"put", [row, node, symbol]) => Ok(Line::Put { at: place(row, node)?, symbol }),
            (b"fetch", [row, node]) => Ok(Line::Fetch { at: place(row, node)? }),
            (b"lose", [node]) => Ok(Line::Lose { node: number(node)? }),
            (b"refresh", [node]) => Ok(Line::Refresh { node: number(node)? }),
            (b"mend", [node]) => Ok(Line::Mend { node: number(node)? }),
            _ => Err(22),
        }
    }
}

fn place(row: &[u8], node: &[u8]) -> Result<Place, u8> {
    Ok(Place { row: number(row)?, node: number(node)? })
}

/// A number of 1 to 5 digits without a leading zero; else 23.
pub fn number(word: &[u8]) -> Result<usize, u8> {
    let digits = (1..=5).contains(&word.len()) && word.iter().all(u8::is_ascii_digit);
    if !digits || (word.len() > 1 && word[0] == b'0') {
        return Err(23);
    }
    Ok(word.iter().fold(0, |number, digit| 10 * number + usize::from(digit - b'0')))
}

fn make(
    field: FieldLetter,
    store: StoreLetter,
    parameters: [usize; 4],
) -> Result<(Box<dyn Machine>, usize), Decline> {
    const FITS: &str = "the program's store is within the bounds";
    let (rows, nodes) = (MAX_ROWS, MAX_NODES);
    match (field, store) {
        (FieldLetter::Decimal, StoreLetter::Memory) => {
            made(Bank::<Decimal>::new(rows, nodes).expect(FITS), parameters)
        }
        (FieldLetter::Decimal, StoreLetter::Card) => {
            made(CardImage::<Decimal>::new(rows, nodes).expect(FITS), parameters)
        }
        (FieldLetter::Byte, StoreLetter::Memory) => {
            made(Bank::<Byte>::new(rows, nodes).expect(FITS), parameters)
        }
        (FieldLetter::Byte, StoreLetter::Card) => {
            made(CardImage::<Byte>::new(rows, nodes).expect(FITS), parameters)
        }
    }
}

fn made<F: Field, S: Store<F> + 'static>(
    mut store: S,
    parameters: [usize; 4],
) -> Result<(Box<dyn Machine>, usize), Decline> {
    let (engine, nodes) = Engine::make(&mut store, parameters)?;
    let Parameters { k, .. } = engine.parameters;
    let memory = vec![Record::<F>::ZERO; k * k];
    Ok((Box::new(MadeArray { engine, store, memory }), nodes))
}

/// What serves a session's lines after an accepted make.
trait Machine {
    /// Declines with 24 here; the engine's declines are replies.
    fn serve(&mut self, line: &Line) -> Result<Reply, u8>;
}

struct MadeArray<F, S> {
    engine: Engine,
    store: S,
    memory: Vec<Record<F>>,
}

impl<F: Field, S: Store<F>> Machine for MadeArray<F, S> {
    fn serve(&mut self, line: &Line) -> Result<Reply, u8> {
        let MadeArray { engine, store, memory } = self;
        let reply = match *line {
            Line::Make { .. } => unreachable!("a second make is declined before"),
            Line::Set { symbols } => {
                let symbols: Option<Vec<F>> =
                    symbols.iter().map(|word| F::from_word(word)).collect();
                engine.set(store, &symbols.ok_or(24)?).map(Reply::Count)
            }
            Line::Put { at, symbol } => {
                let symbol = F::from_word(symbol).ok_or(24)?;
                engine.put(store, at, symbol).map(Reply::Count)
            }
            Line::Fetch { at } => engine
                .fetch(store, at, memory)
                .map(|(count, symbol)| Reply::Fetched { count, symbol: symbol.to_word() }),
            Line::Lose { node } => engine.lose(store, node).map(Reply::Cleared),
            Line::Refresh { node } => engine.refresh(store, node).map(Reply::Cleared),
            Line::Mend { node } => engine.mend(store, node, memory).map(Reply::Count),
        };
        Ok(reply.unwrap_or_else(Reply::from))
    }
}

/// The lines of an input: each is ended by a line feed or the end, and where
/// nothing follows the last line feed there is no line.
pub fn lines(input: &[u8]) -> Vec<&[u8]> {
    let mut lines: Vec<&[u8]> = input.split(|&byte| byte == b'\n').collect();
    if lines.last().is_some_and(|last| last.is_empty()) {
        lines.pop();
    }
    lines
}

#[cfg(test)]
mod tests {
    use super::*;

    /// A session's answers, tabs as spaces, without the last line feed.
    fn answers(lines: &[&[u8]]) -> Vec<String> {
        let mut session = Session::new(true);
        lines
            .iter()
            .map(|line| session.answer(line).line().replace('\t', " ").trim_end().to_string())
            .collect()
    }

    /// The answer to one line after a make (none if empty) with tabs as spaces.
    fn after(make: &str, line: &[u8]) -> String {
        let make = make.replace(' ', "\t");
        answers(&[make.as_bytes(), line]).pop().unwrap()
    }

    #[test]
    fn lines_of_an_input() {
        assert!(lines(b"").is_empty());
        assert_eq!(lines(b"\n"), [b""]);
        assert_eq!(lines(b"a\n\nb"), [&b"a"[..], b"", b"b"]);
        assert_eq!(lines(b"a\nb\n"), [b"a", b"b"]);
    }

    #[test]
    fn long_lines() {
        let mut line = b"set\t".to_vec();
        line.resize(5000, b'1');
        assert_eq!(after("make d m 4 2 1 1", &line), "no 24 - -");
        line.push(b'1');
        assert_eq!(after("make d m 4 2 1 1", &line), "no 20 - -");
    }

    #[test]
    fn words_that_just_fail() {
        let made = "make d m 4 2 1 1";
        for line in ["", "Set\t1", "set ", "mend\r", "\tset", "\u{0}"] {
            assert_eq!(after(made, line.as_bytes()), "no 21 - -", "{line:?}");
        }
        for line in
            ["set", "put\t0\t0", "put\t0\t0\t1\t", "fetch\t0", "mend", "make\td\tm\t4\t2\t1"]
        {
            assert_eq!(after(made, line.as_bytes()), "no 22 - -", "{line:?}");
        }
        for word in ["", "00", "01", "100000", "+1", "1\r", "x", "1 ", "-0"] {
            let line = format!("lose\t{word}");
            assert_eq!(after(made, line.as_bytes()), "no 23 - -", "{line:?}");
        }
        assert_eq!(after(made, b"lose\t99999"), "no 17 - -");
        assert_eq!(after(made, b"lose\t0"), "ok 0");
        assert_eq!(after("", b"make\tx\tm\t4\t2\t1\t1"), "no 23 - -");
        assert_eq!(after("", b"make\td\td\t4\t2\t1\t1"), "no 23 - -");
        assert_eq!(after("", b"make\td\t\xFF\t4\t2\t1\t1"), "no 23 - -");
        for word in ["10", "x", "01", "", "\u{0}"] {
            let line = format!("put\t9\t9\t{word}");
            assert_eq!(after(made, line.as_bytes()), "no 24 - -", "{line:?}");
        }
        assert_eq!(after(made, b"put\t9\t9\tX"), "no 17 - -");
        for word in ["256", "007", "X"] {
            let line = format!("set\t{word}");
            assert_eq!(after("make b c 4 2 1 1", line.as_bytes()), "no 24 - -", "{line:?}");
        }
        assert_eq!(after("make b c 4 2 1 1", b"set\t255"), "no 18 - -");
    }

    #[test]
    fn the_order_of_declines() {
        assert_eq!(after("", b"put\t0\t00\tz"), "no 23 - -");
        assert_eq!(after("", b"put\t0\t0\tz"), "no 44 - -");
        assert_eq!(after("make d m 4 2 1 3", b"put\t0\t0\t1"), "no 44 - -");
        assert_eq!(after("make d m 4 2 1 1", b"make\td\tm\t9\t9\t9\t9"), "no 43 - -");
        assert_eq!(after("make d m 4 2 1 1", b"make\td\tm\t9\t9\t9\tx"), "no 23 - -");
        assert_eq!(after("make d m 4 2 1 1", b"put\t0\t0\t1"), "no 41 0 0");
        assert_eq!(after("", b"make\td\tm\t8\t4\t3\t2"), "no 15 - -");
    }

    #[test]
    fn without_the_word_mend() {
        let mut session = Session::new(false);
        assert_eq!(session.answer(b"mend\t1"), Reply::No(21));
        assert_eq!(Session::new(true).answer(b"mend\t1"), Reply::No(44));
    }

    /// The 250th read of an image place answers; the next is worn.
    #[test]
    fn an_image_place_wears_out() {
        let mut session = Session::new(true);
        session.answer(b"make\td\tc\t3\t2\t1\t1");
        session.answer(b"set\t1\t2\t3\t4\t5\t6\t7\t8\t9");
        for _ in 0..250 {
            assert_eq!(session.answer(b"fetch\t1\t2").line(), "ok\t1\t6\n");
        }
        assert_eq!(session.answer(b"fetch\t1\t2").line(), "no\t42\t1\t2\n");
        assert_eq!(session.answer(b"refresh\t2").line(), "ok\t250\n");
        assert_eq!(session.answer(b"fetch\t1\t2").line(), "ok\t1\t6\n");
    }

    /// Of several bad places any is right, with its own cause.
    #[test]
    fn any_bad_place_of_the_sheet() {
        let mut session = Session::new(true);
        session.answer(b"make\td\tc\t4\t2\t1\t1");
        session.answer(b"set\t3\t1\t4\t1\t5\t9\t2\t6\t5\t3\t5\t8\t9\t7\t9\t3");
        for _ in 0..250 {
            session.answer(b"fetch\t1\t3");
        }
        session.answer(b"lose\t1");
        session.answer(b"lose\t2");
        let reply = session.answer(b"mend\t1");
        assert!(reply.allows(b"no\t41\t1\t2\n"));
        assert!(reply.allows(b"no\t42\t1\t3\n"));
        for wrong in
            ["no\t42\t1\t2\n", "no\t41\t1\t3\n", "no\t41\t0\t2\n", "no\t41\t-\t-\n", "ok\t8\n"]
        {
            assert!(!reply.allows(wrong.as_bytes()), "{wrong:?}");
        }
    }
}
