//! What the program `sheets` prints, and lines to try it on.

use crate::code::{parameter_sets, Parameters};
use crate::random::Random;
use crate::session::number;
use std::fmt::Write;

/// The answer to one line: k, a, τ, b and node, parted by tabs.
pub fn answer(line: &[u8]) -> String {
    match read(line) {
        Ok((parameters, node)) => picture(&parameters, node),
        Err(number) => format!("no\t{number}\n"),
    }
}

/// Declines with 22, 23, 11 to 14, and 17.
fn read(line: &[u8]) -> Result<(Parameters, usize), u8> {
    let words: Vec<&[u8]> = line.split(|&byte| byte == b'\t').collect();
    let numbers: [&[u8]; 5] = words.try_into().map_err(|_| 22)?;
    let mut read = [0; 5];
    for (value, word) in read.iter_mut().zip(numbers) {
        *value = number(word)?;
    }
    let [k, a, tau, b, node] = read;
    let parameters = Parameters::check(k, a, tau, b)?;
    if node < parameters.n() {
        Ok((parameters, node))
    } else {
        Err(17)
    }
}

/// The sheet's places, then the array with the lost node and what is read.
fn picture(parameters: &Parameters, lost: usize) -> String {
    let sheet = parameters.mend_sheet(lost);
    let mut text = format!("places\t{}\n", sheet.places.len());
    for listed in &sheet.places {
        let place = listed.place;
        writeln!(text, "{}\t{}\t{}", listed.part, place.row, place.node).expect("a string grows");
    }
    for row in 0..parameters.k {
        for node in 0..parameters.n() {
            text.push(if node == lost {
                'x'
            } else if sheet.has(row, node) {
                'R'
            } else {
                '.'
            });
        }
        text.push('\n');
    }
    text.push('\n');
    text
}

/// Lines for `sheets`: every node of all small parameter sets and of some
/// with each larger k, and lines that just fail each check.
pub fn generate(seed: u64) -> String {
    let random = &mut Random::new(seed);
    let mut sets = parameter_sets(3, 6);
    for k in 7..=32 {
        sets.extend(larger_sets(k, random));
    }
    let mut text = String::new();
    for p in &sets {
        for node in 0..=p.n() {
            writeln!(text, "{}\t{}\t{}\t{}\t{node}", p.k, p.a, p.tau, p.b).expect("a string grows");
        }
    }
    text.push_str(DECLINED);
    text
}

/// Parameter sets with b = 0, with b ≥ 1 on both sides of 2(τ + b) < k, and
/// with the most nodes.
fn larger_sets(k: usize, random: &mut Random) -> Vec<Parameters> {
    let half = k.div_ceil(2);
    let tau = random.within(1, half - 2);
    let a = random.within(tau + 1, k - 1);
    let mut sets =
        vec![Parameters { k, a, tau, b: half - 1 - tau }, Parameters { k, a, tau, b: half - tau }];
    if k.is_multiple_of(4) {
        let tau = random.within(1, k - 2);
        sets.push(Parameters { k, a: tau + 1, tau, b: 0 });
        sets.push(Parameters { k, a: k - 1, tau: 1, b: k - 2 });
    }
    sets
}

const DECLINED: &str = "\
2\t2\t1\t1\t0
33\t2\t1\t1\t0
4\t1\t1\t1\t0
4\t4\t1\t1\t0
4\t2\t0\t1\t0
4\t2\t2\t1\t0
4\t2\t1\t3\t0
4\t2\t1\t1\t7
4\t2\t1\t1\t99999
99999\t99999\t99999\t99999\t99999
4\t2\t1\t1
4\t2\t1\t1\t0\t0
4\t2\t1\t1\t0\t

\t\t\t\t
4\t2\t1\t1\t
4\t2\t1\t1\t00
4\t2\t1\t1\t01
04\t2\t1\t1\t0
4\t2\t1\t1\t100000
4\t2\t1\t1\t1\r
4 2 1 1 0
4\t2\t1\t1\tx
4\t2\t-1\t1\t0
4\t2\t1\t1\t1";

#[cfg(test)]
mod tests {
    use super::*;
    use crate::session::lines;

    #[test]
    fn the_worked_mend() {
        let expected =
            "places\t8\n1\t1\t0\n1\t1\t2\n1\t1\t3\n1\t1\t4\n2\t1\t5\n3\t1\t6\n4\t0\t6\n4\t2\t0\n\
            .x....R\nRxRRRRR\nRx.....\n.x.....\n\n";
        assert_eq!(answer(b"4\t2\t1\t1\t1"), expected);
    }

    #[test]
    fn declined_lines() {
        let numbers = [
            11, 11, 12, 12, 13, 13, 14, 17, 17, 11, 22, 22, 22, 22, 23, 23, 23, 23, 23, 23, 23, 22,
            23, 23,
        ];
        let lines = lines(DECLINED.as_bytes());
        assert_eq!(lines.len(), numbers.len() + 1);
        for (line, number) in lines.iter().zip(numbers) {
            assert_eq!(answer(line), format!("no\t{number}\n"), "{line:?}");
        }
    }

    #[test]
    fn generated_lines_meet_every_case() {
        let text = generate(1);
        let (mut accepted, mut no_class_b, mut below_half, mut above_half) = (0, 0, 0, 0);
        for line in lines(text.as_bytes()) {
            if let Ok((p, _)) = read(line) {
                accepted += 1;
                match p.b {
                    0 => no_class_b += 1,
                    _ if 2 * p.last_step() < p.k => below_half += 1,
                    _ => above_half += 1,
                }
            }
        }
        assert!(accepted > 2000 && no_class_b > 100 && below_half > 100 && above_half > 100);
    }
}
