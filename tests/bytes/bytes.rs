// Compares the lines that byte_table writes with products and inverses computed here, bit by bit and with no table.
use std::io::Read;

/// The product of two polynomials over two elements, with nothing reduced.
fn carryless(a: u32, b: u32) -> u32 {
    (0..8).filter(|i| b >> i & 1 == 1).fold(0, |sum, i| sum ^ a << i)
}

/// The remainder by x^8 + x^4 + x^3 + x^2 + 1, by long division from the top.
fn remainder(mut p: u32) -> u32 {
    for i in (8..16).rev() {
        if p >> i & 1 == 1 {
            p ^= 0x11D << (i - 8);
        }
    }
    p
}

fn product(a: u32, b: u32) -> u32 {
    remainder(carryless(a, b))
}

/// The byte that gives 1 with a, found by trying them all; that of 0 is 0.
fn inverse(a: u32) -> u32 {
    (0..256).find(|&b| product(a, b) == 1).unwrap_or(0)
}

fn main() {
    let mut text = String::new();
    std::io::stdin().read_to_string(&mut text).expect("standard input is text");
    let lines: Vec<&str> = text.lines().collect();
    assert_eq!(lines.len(), 256, "a line for each byte");
    for (a, line) in (0..256).zip(&lines) {
        let numbers: Vec<u32> = line.split(' ').map(|word| word.parse().expect("a number")).collect();
        assert_eq!(numbers.len(), 258, "line {a}");
        assert_eq!(numbers[0], a);
        assert_eq!(numbers[1], inverse(a), "the inverse of {a}");
        for b in 0..256 {
            assert_eq!(numbers[2 + b as usize], product(a, b), "{a} times {b}");
        }
    }
    println!("bytes: 65536 products and 256 inverses agree");
}
