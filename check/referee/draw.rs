// The generator that both sides have (crates/vectors/src/draw.rt): what the buffers of a case hold before the call, and checksums of what they hold after it.

/// xorshift64.
pub fn step(s: u64) -> u64 {
    let a = s ^ (s << 13);
    let b = a ^ (a >> 7);
    b ^ (b << 17)
}

fn seeded(seed: u64) -> u64 {
    step(seed.wrapping_add(88172645463325252))
}

/// The pixel after one of value `last`: noise, three levels, plateaus, a climb, a fall, one level, or white with a black pixel here and there.
fn pixel(kind: u64, last: u64, drawn: u64) -> u64 {
    match kind {
        0 => drawn % 256,
        1 => drawn % 3,
        2 if drawn % 4 == 0 => drawn / 256 % 256,
        3 => (last + drawn % 3) % 256,
        4 => (last + 256 - drawn % 3) % 256,
        2 | 5 => last,
        _ if drawn % 8 == 0 => 0,
        _ => 255,
    }
}

/// n pixels of a kind.
pub fn bytes(n: usize, kind: u64, seed: u64) -> Vec<u8> {
    let (mut s, mut last) = (seeded(seed), seed % 256);
    (0..n)
        .map(|_| {
            s = step(s);
            last = pixel(kind, last, s);
            last as u8
        })
        .collect()
}

/// Pixel i of n, by its place alone: a climb, a fall, a mountain, a valley, a comb, or a saw whose teeth start darker and darker, so that 4,096 pixels have 4,096 stretches.
fn shaped(kind: u64, i: u64, n: u64) -> u64 {
    match kind {
        7 => 256 * i / n,
        8 => 255 - 256 * i / n,
        9 => 511 * i.min(n - 1 - i) / n,
        10 => 255 - 511 * i.min(n - 1 - i) / n,
        11 => 255 * (i % 2),
        _ if i % 32 == 0 => 127 - i / 32 % 128,
        _ => 128 + i % 32,
    }
}

/// The line of a listing: n pixels of a kind, or from 7 on of a shape, which check/tables/tables.txt draws on the other side.
pub fn line(n: usize, kind: u64, seed: u64) -> Vec<u8> {
    if kind < 7 {
        return bytes(n, kind, seed);
    }
    (0..n as u64).map(|i| shaped(kind, i, n as u64) as u8).collect()
}

/// An entry of a sums slice: below a thousand, none, below 2^53, below 2^43, none or one, about 2^52, about a third of 2^53, any number at all, a power of ten, one less than a power of ten,
/// about 2^53, or about the largest.
fn sum(kind: u64, drawn: u64) -> u64 {
    match kind {
        0 => drawn % 1000,
        1 => 0,
        2 => drawn >> 11,
        3 => drawn >> 21,
        4 => drawn % 2,
        5 => (1 << 52) + drawn % 2,
        6 => (1 << 53) / 3 + drawn % 2,
        8 => 10u64.pow((drawn % 20) as u32),
        9 => 10u64.pow((drawn % 20) as u32) - 1,
        10 => (1 << 53) - 1 + drawn % 3,
        11 => u64::MAX - drawn % 2,
        _ => drawn,
    }
}

/// n sums of a kind.
pub fn sums(n: usize, kind: u64, seed: u64) -> Vec<u64> {
    let mut s = seeded(seed);
    (0..n)
        .map(|_| {
            s = step(s);
            sum(kind, s)
        })
        .collect()
}

/// n places of noise: any numbers of 16 bits.
pub fn places(n: usize, seed: u64) -> Vec<u64> {
    let mut s = seeded(seed);
    (0..n)
        .map(|_| {
            s = step(s);
            s % 65536
        })
        .collect()
}

/// A text of n bytes that starts as given, and then goes on as it ends: each byte is the one `period` before it.
pub fn text(given: &[u8], n: usize, period: usize) -> Vec<u8> {
    let mut text = given.to_vec();
    while text.len() < n {
        text.push(text[text.len() - period]);
    }
    text[..n].to_vec()
}

/// The checksum of more numbers, after that of others.
pub fn check(before: u64, numbers: impl Iterator<Item = u64>) -> u64 {
    numbers.fold(before, |check, x| step(check.wrapping_add(x)))
}

pub fn check_bytes(before: u64, bytes: &[u8]) -> u64 {
    check(before, bytes.iter().map(|&b| b as u64))
}

pub fn check_sums(before: u64, sums: &[u64]) -> u64 {
    check(before, sums.iter().copied())
}

/// Draws for whoever makes the cases up.
pub struct Draws(pub u64);

impl Draws {
    pub fn below(&mut self, n: u64) -> u64 {
        self.0 = step(self.0);
        (self.0 >> 8) % n
    }

    pub fn within(&mut self, least: u64, most: u64) -> u64 {
        least + self.below(most - least + 1)
    }
}
