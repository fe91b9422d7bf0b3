//! Times proved byte products and the row rule over them against plain Rust over the same tables, in one run.
use std::hint::black_box;
use std::time::Instant;

mod proved {
    unsafe extern "C" {
        fn byte_value_at(coefficients: *const u8, n: usize, x: u8) -> u8;
        fn byte_weigh(weights: *const u8, n: usize, values: *const u8, m: usize) -> u8;
        fn byte_weights(at: usize, out: *mut u8, n: usize);
    }

    pub fn value_at(coefficients: &[u8], x: u8) -> u8 {
        unsafe { byte_value_at(coefficients.as_ptr(), coefficients.len(), x) }
    }

    pub fn weigh(weights: &[u8], values: &[u8]) -> u8 {
        unsafe { byte_weigh(weights.as_ptr(), weights.len(), values.as_ptr(), values.len()) }
    }

    pub fn weights(at: usize, out: &mut [u8]) {
        unsafe { byte_weights(at, out.as_mut_ptr(), out.len()) }
    }
}

mod plain {
    /// x^n reduced by 11D hexadecimal, at n.
    static POWERS: [u8; 512] = powers();
    /// The exponent of each byte but 0, at the byte.
    static EXPONENTS: [u8; 256] = exponents();

    const fn powers() -> [u8; 512] {
        let mut table = [1; 512];
        let mut n = 1;
        while n < 512 {
            let twice = (table[n - 1] as u16) << 1;
            table[n] = if twice < 256 { twice } else { twice ^ 0x11D } as u8;
            n += 1;
        }
        table
    }

    const fn exponents() -> [u8; 256] {
        let powers = powers();
        let mut table = [0; 256];
        let mut n = 0;
        while n < 255 {
            table[powers[n] as usize] = n as u8;
            n += 1;
        }
        table
    }

    fn product(a: u8, b: u8) -> u8 {
        if a == 0 || b == 0 {
            return 0;
        }
        POWERS[EXPONENTS[a as usize] as usize + EXPONENTS[b as usize] as usize]
    }

    fn inverse(a: u8) -> u8 {
        if a == 0 { 0 } else { POWERS[255 - EXPONENTS[a as usize] as usize] }
    }

    #[inline(never)]
    pub fn value_at(coefficients: &[u8], x: u8) -> u8 {
        coefficients.iter().fold(0, |total, c| product(total, x) ^ c)
    }

    #[inline(never)]
    pub fn weigh(weights: &[u8], values: &[u8]) -> u8 {
        weights.iter().zip(values).fold(0, |total, (w, v)| total ^ product(*v, *w))
    }

    fn others(k: usize, skipped: usize, x: u8) -> u8 {
        (0..k).filter(|m| *m != skipped).fold(1, |result, m| product(result, x ^ m as u8))
    }

    #[inline(never)]
    pub fn weights(at: usize, out: &mut [u8]) {
        let k = out.len();
        for j in 0..k {
            out[j] = product(others(k, j, at as u8), inverse(others(k, j, j as u8)));
        }
    }
}

/// Runs both in turn, many times, and reports the least time of each.
fn compare(name: &str, runs: usize, mut proved: impl FnMut() -> Vec<u8>, mut plain: impl FnMut() -> Vec<u8>) {
    let mut best = [f64::INFINITY; 2];
    for _ in 0..runs {
        let start = Instant::now();
        let one = black_box(proved());
        let middle = Instant::now();
        let other = black_box(plain());
        let end = Instant::now();
        assert_eq!(one, other, "{name}: the two disagree");
        best[0] = best[0].min((middle - start).as_secs_f64() * 1e6);
        best[1] = best[1].min((end - middle).as_secs_f64() * 1e6);
    }
    println!("{name:44} proved {:8.1} us   plain {:8.1} us   ratio {:.2}", best[0], best[1], best[0] / best[1]);
}

/// Bytes in no order, from a small generator.
fn bytes(n: usize, mut seed: u32) -> Vec<u8> {
    let mut out = Vec::with_capacity(n);
    for _ in 0..n {
        seed = seed.wrapping_mul(1_664_525).wrapping_add(1_013_904_223);
        out.push((seed >> 24) as u8);
    }
    out
}

fn row_rule(k: usize, rows: &[u8], weights: fn(usize, &mut [u8]), weigh: fn(&[u8], &[u8]) -> u8) -> Vec<u8> {
    let mut table = vec![0; k];
    rows.chunks(k)
        .enumerate()
        .map(|(i, row)| {
            weights(black_box(k + i % 31), &mut table);
            weigh(&table, row)
        })
        .collect()
}

fn stored(rows: &[u8], table: &[u8], weigh: fn(&[u8], &[u8]) -> u8) -> Vec<u8> {
    rows.chunks(table.len()).map(|row| weigh(black_box(table), row)).collect()
}

fn main() {
    const MILLION: usize = 1_000_000;
    const K: usize = 32;
    let left = bytes(MILLION, 1);
    let right = bytes(MILLION, 2);
    compare(
        "1,000,000 products, each on the one before",
        100,
        || vec![proved::value_at(black_box(&left), black_box(87))],
        || vec![plain::value_at(black_box(&left), black_box(87))],
    );
    compare(
        "1,000,000 products, independent",
        100,
        || vec![proved::weigh(black_box(&left), black_box(&right))],
        || vec![plain::weigh(black_box(&left), black_box(&right))],
    );
    let rows = bytes(K * 1_000, 3);
    compare(
        "1,000 rows of k = 32, weights each time",
        100,
        || row_rule(K, black_box(&rows), proved::weights, proved::weigh),
        || row_rule(K, black_box(&rows), plain::weights, plain::weigh),
    );
    let mut table = vec![0; K];
    plain::weights(K, &mut table);
    compare(
        "1,000 rows of k = 32, weights stored",
        1_000,
        || stored(black_box(&rows), &table, proved::weigh),
        || stored(black_box(&rows), &table, plain::weigh),
    );
}
