//! Fields of symbols: decimal symbols (modulo 11) and bytes (polynomials over
//! two elements reduced by 11D hexadecimal), and interpolation over either.

use std::fmt::Debug;
use std::ops::{Add, Mul, Sub};

/// A field whose symbols are numbered from 0 to `SIZE` − 1.
pub trait Field:
    Copy + Debug + PartialEq + Add<Output = Self> + Sub<Output = Self> + Mul<Output = Self> + 'static
{
    const SIZE: usize;
    const ZERO: Self;
    const ONE: Self;

    /// The inverse; that of zero is given as zero.
    fn inverse(self) -> Self;

    fn number(self) -> u16;

    /// The symbol of this number; a number of `SIZE` or more has none.
    fn symbol(number: u16) -> Option<Self>;

    /// The symbol a session file's word stands for, if any.
    fn from_word(word: &[u8]) -> Option<Self>;

    fn to_word(self) -> String;
}

/// A symbol of the decimal field: 0 to 10.
#[derive(Clone, Copy, Debug, PartialEq, Eq)]
pub struct Decimal(u8);

impl Add for Decimal {
    type Output = Self;
    fn add(self, other: Self) -> Self {
        Decimal((self.0 + other.0) % 11)
    }
}

impl Sub for Decimal {
    type Output = Self;
    fn sub(self, other: Self) -> Self {
        Decimal((self.0 + 11 - other.0) % 11)
    }
}

impl Mul for Decimal {
    type Output = Self;
    fn mul(self, other: Self) -> Self {
        Decimal((self.0 * other.0) % 11)
    }
}

impl Field for Decimal {
    const SIZE: usize = 11;
    const ZERO: Self = Decimal(0);
    const ONE: Self = Decimal(1);

    fn inverse(self) -> Self {
        const INVERSES: [u8; 11] = [0, 1, 6, 4, 3, 9, 2, 8, 7, 5, 10];
        Decimal(INVERSES[usize::from(self.0)])
    }

    fn number(self) -> u16 {
        u16::from(self.0)
    }

    fn symbol(number: u16) -> Option<Self> {
        (number < 11).then_some(Decimal(number as u8))
    }

    /// One digit, or X for ten.
    fn from_word(word: &[u8]) -> Option<Self> {
        match word {
            [digit @ b'0'..=b'9'] => Some(Decimal(digit - b'0')),
            b"X" => Some(Decimal(10)),
            _ => None,
        }
    }

    fn to_word(self) -> String {
        if self.0 == 10 {
            "X".to_string()
        } else {
            self.0.to_string()
        }
    }
}

/// A symbol of the byte field.
#[derive(Clone, Copy, Debug, PartialEq, Eq)]
pub struct Byte(pub u8);

/// Powers of 2 twice over, so that the sum of two logarithms needs no remainder.
const POWERS: [u8; 510] = powers();

/// The logarithm of each byte to the base 2; that of zero is not used.
const LOGS: [u8; 256] = logs();

const fn powers() -> [u8; 510] {
    let mut table = [0; 510];
    let mut power: u16 = 1;
    let mut exponent = 0;
    while exponent < 510 {
        table[exponent] = power as u8;
        power <<= 1;
        if power >= 256 {
            power ^= 0x11D;
        }
        exponent += 1;
    }
    table
}

const fn logs() -> [u8; 256] {
    let mut table = [0; 256];
    let mut exponent = 0;
    while exponent < 255 {
        table[POWERS[exponent] as usize] = exponent as u8;
        exponent += 1;
    }
    table
}

impl Add for Byte {
    type Output = Self;
    #[allow(clippy::suspicious_arithmetic_impl)] // the sum of bytes is exclusive or
    fn add(self, other: Self) -> Self {
        Byte(self.0 ^ other.0)
    }
}

impl Sub for Byte {
    type Output = Self;
    #[allow(clippy::suspicious_arithmetic_impl)] // a byte is its own negative
    fn sub(self, other: Self) -> Self {
        Byte(self.0 ^ other.0)
    }
}

impl Mul for Byte {
    type Output = Self;
    fn mul(self, other: Self) -> Self {
        if self.0 == 0 || other.0 == 0 {
            return Byte(0);
        }
        let log = usize::from(LOGS[usize::from(self.0)]) + usize::from(LOGS[usize::from(other.0)]);
        Byte(POWERS[log])
    }
}

impl Field for Byte {
    const SIZE: usize = 256;
    const ZERO: Self = Byte(0);
    const ONE: Self = Byte(1);

    fn inverse(self) -> Self {
        if self.0 == 0 {
            return Byte(0);
        }
        Byte(POWERS[255 - usize::from(LOGS[usize::from(self.0)])])
    }

    fn number(self) -> u16 {
        u16::from(self.0)
    }

    fn symbol(number: u16) -> Option<Self> {
        u8::try_from(number).ok().map(Byte)
    }

    /// 0 to 255 without a leading zero.
    fn from_word(word: &[u8]) -> Option<Self> {
        let plain = (1..=3).contains(&word.len())
            && word.iter().all(u8::is_ascii_digit)
            && (word.len() == 1 || word[0] != b'0');
        if !plain {
            return None;
        }
        let number = word.iter().fold(0, |n, digit| 10 * n + u16::from(digit - b'0'));
        Self::symbol(number)
    }

    fn to_word(self) -> String {
        self.0.to_string()
    }
}

/// The symbol at which node `node`'s value of a row's polynomial is taken.
pub fn point<F: Field>(node: usize) -> F {
    u16::try_from(node)
        .ok()
        .and_then(F::symbol)
        .expect("the field has a symbol for every Class A node")
}

/// What the value at `points[index]` counts for in the value at `at`, for
/// polynomials of degree below the number of points.
pub fn weight<F: Field>(points: &[F], index: usize, at: F) -> F {
    let here = points[index];
    let mut above = F::ONE;
    let mut below = F::ONE;
    for (other, &there) in points.iter().enumerate() {
        if other != index {
            above = above * (at - there);
            below = below * (here - there);
        }
    }
    above * below.inverse()
}

/// Every point's weight in the value at `at`.
pub fn weights<F: Field>(points: &[F], at: F) -> Vec<F> {
    (0..points.len()).map(|index| weight(points, index, at)).collect()
}

/// The sum of products of `weights` and `values`.
pub fn weighted<F: Field>(weights: &[F], values: impl Iterator<Item = F>) -> F {
    weights.iter().zip(values).fold(F::ZERO, |sum, (&weight, value)| sum + weight * value)
}

#[cfg(test)]
mod tests {
    use super::*;

    fn all<F: Field>() -> Vec<F> {
        (0..F::SIZE as u16).map(|number| F::symbol(number).unwrap()).collect()
    }

    fn numbering<F: Field>() {
        for symbol in all::<F>() {
            assert_eq!(F::symbol(symbol.number()), Some(symbol));
            assert_eq!(F::from_word(symbol.to_word().as_bytes()), Some(symbol));
        }
        assert_eq!(F::symbol(F::SIZE as u16), None);
    }

    fn inverses<F: Field>() {
        assert_eq!(F::ZERO.inverse(), F::ZERO);
        for symbol in all::<F>() {
            assert_eq!(symbol * F::ZERO, F::ZERO);
            assert_eq!(symbol * F::ONE, symbol);
            if symbol != F::ZERO {
                assert_eq!(symbol * symbol.inverse(), F::ONE);
            }
        }
    }

    /// Commutative, associative and distributive laws over the symbols given.
    fn laws<F: Field>(symbols: &[F]) {
        for &u in symbols {
            for &v in symbols {
                assert_eq!(u + v, v + u);
                assert_eq!(u * v, v * u);
                assert_eq!((u - v) + v, u);
                for &w in symbols {
                    assert_eq!((u + v) + w, u + (v + w));
                    assert_eq!((u * v) * w, u * (v * w));
                    assert_eq!(u * (v + w), u * v + u * w);
                }
            }
        }
    }

    #[test]
    fn decimals_are_a_numbered_field() {
        numbering::<Decimal>();
        inverses::<Decimal>();
        laws(&all::<Decimal>());
        assert_eq!(Decimal(4).inverse(), Decimal(3));
    }

    #[test]
    fn bytes_are_a_numbered_field() {
        numbering::<Byte>();
        inverses::<Byte>();
        let some: Vec<Byte> = all::<Byte>().into_iter().step_by(5).collect();
        laws(&some);
        assert_eq!(Byte(2) * Byte(128), Byte(29));
    }

    /// The product of bytes, bit by bit.
    #[test]
    fn tables_agree_with_long_multiplication() {
        for u in 0..=255u8 {
            for v in 0..=255u8 {
                let mut product: u16 = 0;
                for bit in (0..8).rev() {
                    product <<= 1;
                    if product & 0x100 != 0 {
                        product ^= 0x11D;
                    }
                    if v >> bit & 1 == 1 {
                        product ^= u16::from(u);
                    }
                }
                assert_eq!((Byte(u) * Byte(v)).number(), product);
            }
        }
    }

    #[test]
    fn symbol_words() {
        for word in ["10", "x", "00", "01", "", "-1", " 1", "11"] {
            assert_eq!(Decimal::from_word(word.as_bytes()), None, "{word}");
        }
        for word in ["256", "007", "00", "", "X", "1000", "+1", "2 "] {
            assert_eq!(Byte::from_word(word.as_bytes()), None, "{word}");
        }
        assert_eq!(Decimal::from_word(b"X"), Some(Decimal(10)));
        assert_eq!(Byte::from_word(b"255"), Some(Byte(255)));
    }

    /// The weights give a polynomial's value from any points of it.
    #[test]
    fn interpolation() {
        let value = |x: Decimal| Decimal(7) + x * (Decimal(2) + x * Decimal(5));
        for points in [[0, 1, 2], [4, 9, 10], [10, 0, 3]] {
            let points = points.map(Decimal);
            for at in all::<Decimal>() {
                let weights = weights(&points, at);
                assert_eq!(weighted(&weights, points.iter().map(|&x| value(x))), value(at));
            }
        }
    }
}
