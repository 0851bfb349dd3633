// Holds nalvezik_crc32 to Rust implementations of the check (01, The check) written from the paper, then times it against two of them.
use std::hint::black_box;
use std::time::Instant;

extern "C" {
    fn nalvezik_crc32(bytes: *const u8, length: usize) -> u32;
}

fn nalvezik(s: &[u8]) -> u32 {
    unsafe { nalvezik_crc32(s.as_ptr(), s.len()) }
}

const POLYNOMIAL: u32 = 0x04C1_1DB7;
const START: u32 = 0xFFFF_FFFF;

const fn shifted(c: u32) -> u32 {
    if c & 0x8000_0000 != 0 { (c << 1) ^ POLYNOMIAL } else { c << 1 }
}

/// tables()[k][x]: the byte x with k zero bytes after it.
const fn tables() -> [[u32; 256]; 4] {
    let mut t = [[0u32; 256]; 4];
    let mut x = 0;
    while x < 256 {
        let mut c = (x as u32) << 24;
        let mut k = 0;
        while k < 4 {
            let mut bit = 0;
            while bit < 8 {
                c = shifted(c);
                bit += 1;
            }
            t[k][x] = c;
            k += 1;
        }
        x += 1;
    }
    t
}

static TABLES: [[u32; 256]; 4] = tables();

/// A bit at a time over a padded copy.
fn bitwise(s: &[u8]) -> u32 {
    let mut padded = s.to_vec();
    while padded.len() % 4 != 0 {
        padded.push(0);
    }
    let mut c = START;
    for &b in &padded {
        for bit in (0..8).rev() {
            let leaves = (c >> 31) ^ (b as u32 >> bit & 1);
            c = (c << 1) ^ leaves * POLYNOMIAL;
        }
    }
    c
}

/// A byte at a time by a table.
#[inline(never)]
fn byte_table(s: &[u8]) -> u32 {
    let mut c = START;
    for &b in s {
        c = (c << 8) ^ TABLES[0][((c >> 24) ^ b as u32) as usize];
    }
    for _ in 0..(4 - s.len() % 4) % 4 {
        c = (c << 8) ^ TABLES[0][(c >> 24) as usize];
    }
    c
}

fn slice(c: u32, w: [u8; 4]) -> u32 {
    let x = c ^ u32::from_be_bytes(w);
    TABLES[3][(x >> 24) as usize]
        ^ TABLES[2][(x >> 16 & 255) as usize]
        ^ TABLES[1][(x >> 8 & 255) as usize]
        ^ TABLES[0][(x & 255) as usize]
}

/// Four bytes at a time by four tables (slicing-by-4).
#[inline(never)]
fn slicing(s: &[u8]) -> u32 {
    let mut c = START;
    let mut words = s.chunks_exact(4);
    for w in &mut words {
        c = slice(c, [w[0], w[1], w[2], w[3]]);
    }
    let rest = words.remainder();
    if !rest.is_empty() {
        let mut w = [0u8; 4];
        w[..rest.len()].copy_from_slice(rest);
        c = slice(c, w);
    }
    c
}

/// Fills the buffer with zeros, with ones, or from a seed.
fn fill(buffer: &mut [u8], round: usize, seed: &mut u64) {
    for b in buffer.iter_mut() {
        *seed ^= *seed << 13;
        *seed ^= *seed >> 7;
        *seed ^= *seed << 17;
        *b = match round {
            0 => 0x00,
            1 => 0xFF,
            _ => (*seed >> 32) as u8,
        };
    }
}

fn agree(buffer: &mut [u8]) -> usize {
    let mut seed = 0x1234_5678_9ABC_DEF0;
    let mut cases = 0;
    for round in 0..40 {
        fill(buffer, round, &mut seed);
        for n in (0..=300).chain(4090..=4100) {
            let s = &buffer[round..round + n];
            let c = nalvezik(s);
            assert_eq!(c, bitwise(s), "{n} bytes, bit at a time");
            assert_eq!(c, byte_table(s), "{n} bytes, byte table");
            assert_eq!(c, slicing(s), "{n} bytes, slicing-by-4");
            cases += 1;
        }
    }
    cases
}

/// The best time of each in nanoseconds, over rounds in which they take turns.
fn best(timed: &[fn(&[u8]) -> u32; 3], s: &[u8]) -> [f64; 3] {
    let calls = 1_000_000 / s.len();
    let mut best = [f64::MAX; 3];
    for _ in 0..60 {
        for (f, b) in timed.iter().zip(best.iter_mut()) {
            let begun = Instant::now();
            for _ in 0..calls {
                black_box(f(black_box(s)));
            }
            *b = b.min(begun.elapsed().as_secs_f64() * 1e9 / calls as f64);
        }
    }
    best
}

fn main() {
    let mut buffer = vec![0u8; 8192];
    println!("{} cases agree with three Rust implementations", agree(&mut buffer));
    println!("ns a call, best of 60 rounds; in brackets nalvezik_crc32 as a ratio of it");
    println!("{:>5}  {:>14}  {:>18}  {:>18}", "bytes", "nalvezik_crc32", "byte table", "slicing-by-4");
    for n in [18, 34, 55, 59, 63, 4096] {
        let [ours, table, sliced] = best(&[nalvezik, byte_table, slicing], &buffer[..n]);
        println!("{n:5}  {ours:14.1}  {table:11.1} ({:.2})  {sliced:11.1} ({:.2})", ours / table, ours / sliced);
    }
}
