// What the board computes, by the definitions of the specification taken literally: each function quotes the sentence that it renders.
// Nothing here is fast, and nothing here knows how the library works. `native.rs` and `referee.rs` share it.

/// A frame's width, height and stride.
#[derive(Clone, Copy)]
pub struct Shape {
    pub width: u64,
    pub height: u64,
    pub stride: u64,
}

/// A direction: a pair (p, q).
#[derive(Clone, Copy)]
pub struct Direction {
    pub p: i64,
    pub q: i64,
}

/// 'The sixteen numbered directions, 0 to 15'
pub const NUMBERED: [(i64, i64); 16] = [
    (1, 0), (4, 1), (2, 1), (4, 3), (1, 1), (3, 4), (1, 2), (1, 4),
    (0, 1), (-1, 4), (-1, 2), (-3, 4), (-1, 1), (-4, 3), (-2, 1), (-4, 1),
];

/// 'A number above 15 names the pair (0, 0), which every call refuses.'
pub fn numbered(n: u64) -> Direction {
    let (p, q) = if n < 16 { NUMBERED[n as usize] } else { (0, 0) };
    Direction { p, q }
}

impl Shape {
    /// 'W and H are 1 to 4,096; the stride is W to 65,535.'
    pub fn is_frame(self) -> bool {
        (1..=4096).contains(&self.width) && (1..=4096).contains(&self.height) && (self.width..=65535).contains(&self.stride)
    }

    /// 'The slice needs (H−1)·stride + W bytes'
    pub fn bytes(self) -> u64 {
        (self.height - 1) * self.stride + self.width
    }

    /// 'Pixel (x, y) is the byte at y·stride + x'
    pub fn place(self, x: u64, y: u64) -> usize {
        (y * self.stride + x) as usize
    }
}

impl Direction {
    /// 'A direction is a pair (p, q), each −255 to 255, not both 0.'
    pub fn is_direction(self) -> bool {
        self.in_range() && (self.p, self.q) != (0, 0)
    }

    fn in_range(self) -> bool {
        (-255..=255).contains(&self.p) && (-255..=255).contains(&self.q)
    }

    /// 'It is shallow when |q| ≤ |p|, else steep.'
    pub fn is_shallow(self) -> bool {
        self.q.unsigned_abs() <= self.p.unsigned_abs()
    }

    /// 'Its sign s is −1 when p and q have opposite signs, else +1.'
    fn sign(self) -> i64 {
        if (self.p < 0 && self.q > 0) || (self.p > 0 && self.q < 0) { -1 } else { 1 }
    }

    /// 'A direction turned by a quarter hands back (−q, p); a pair out of range comes back as it was.'
    pub fn turned(self) -> Direction {
        if self.in_range() { Direction { p: -self.q, q: self.p } } else { self }
    }

    /// 'k is the smallest count from 1 up with (k−1)²·(p²+q²) ≥ (L−1)²·m², m the greater of |p| and |q|.'
    /// The call hands back 0 where the pair is no direction, or the length is 0 or above 4,097.
    pub fn pixels_for(self, length: u64) -> u64 {
        if !self.is_direction() || !(1..=4097).contains(&length) {
            return 0;
        }
        let (p, q, length) = (self.p.unsigned_abs() as u128, self.q.unsigned_abs() as u128, length as u128);
        let m = p.max(q);
        let k = (1u128..).find(|k| (k - 1).pow(2) * (p.pow(2) + q.pow(2)) >= (length - 1).pow(2) * m.pow(2));
        k.unwrap() as u64
    }

    /// 'Shallow: r(x) = (2·x·|q| + |p|) / (2·|p|), rounded down. Pixel (x, y) is on line y − s·r(x).'
    /// 'Steep: r(y) = (2·y·|p| + |q|) / (2·|q|), rounded down. Pixel (x, y) is on line x − s·r(y).'
    pub fn line_of(self, x: u64, y: u64) -> i64 {
        let (p, q, x, y) = (self.p.abs(), self.q.abs(), x as i64, y as i64);
        if self.is_shallow() {
            y - self.sign() * ((2 * x * q + p) / (2 * p))
        } else {
            x - self.sign() * ((2 * y * p + q) / (2 * q))
        }
    }
}

/// Every line of a frame, by ascending number: 'Along a line x ascends', or y where the direction is steep.
pub fn lines(shape: Shape, d: Direction) -> std::collections::BTreeMap<i64, Vec<(u64, u64)>> {
    let mut lines = std::collections::BTreeMap::new();
    let (majors, minors) = if d.is_shallow() { (shape.width, shape.height) } else { (shape.height, shape.width) };
    for major in 0..majors {
        for minor in 0..minors {
            let (x, y) = if d.is_shallow() { (major, minor) } else { (minor, major) };
            lines.entry(d.line_of(x, y)).or_insert_with(Vec::new).push((x, y));
        }
    }
    lines
}

/// The pixels of a frame at the given places.
pub fn pixels(src: &[u8], shape: Shape, places: &[(u64, u64)]) -> Vec<u8> {
    places.iter().map(|&(x, y)| src[shape.place(x, y)]).collect()
}

/// 'Erosion has n − L + 1 values; value i is the least of pixels i to i+L−1. Where n < L it has none'
pub fn eroded(line: &[u8], length: u64) -> Vec<u8> {
    if (line.len() as u64) < length {
        return Vec::new();
    }
    line.windows(length as usize).map(|window| *window.iter().min().unwrap()).collect()
}

/// 'Dilation of m values has m + L − 1; value x is the greatest of those values i that exist with x−L+1 ≤ i ≤ x.'
pub fn dilated(values: &[u8], length: u64) -> Vec<u8> {
    let (m, length) = (values.len(), length as usize);
    (0..m + length - 1).map(|x| (0..m).filter(|&i| x < i + length && i <= x).map(|i| values[i]).max().unwrap()).collect()
}

/// 'Opening: at each pixel the greatest erosion value over the windows that hold it; 0 at every pixel where n < L.'
pub fn opened(line: &[u8], length: u64) -> Vec<u8> {
    let mut result = vec![0; line.len()];
    for (start, &darkest) in eroded(line, length).iter().enumerate() {
        for pixel in &mut result[start..start + length as usize] {
            *pixel = darkest.max(*pixel);
        }
    }
    result
}

/// 'A frame is opened line by line in one direction.' 'For a frame call, length L in direction (p, q) now means k pixels'. The destination's bytes that are no pixel stay.
pub fn open_frame(src: &[u8], shape: Shape, d: Direction, length: u64, dst: &mut [u8]) {
    let count = d.pixels_for(length);
    for places in lines(shape, d).values() {
        let values = opened(&pixels(src, shape, places), count);
        for (&(x, y), value) in places.iter().zip(values) {
            dst[shape.place(x, y)] = value;
        }
    }
}

/// 'The highest opening takes, at each pixel, the greatest over the sixteen; the direction frame holds the lowest number that reaches it.'
/// 'Make it one call with two destinations': the bytes of either that are no pixel stay.
pub fn sixteen(src: &[u8], shape: Shape, length: u64, dst: &mut [u8], directions: &mut [u8]) {
    let openings: Vec<Vec<u8>> = (0..16)
        .map(|n| {
            let mut opened = vec![0; shape.bytes() as usize];
            open_frame(src, shape, numbered(n), length, &mut opened);
            opened
        })
        .collect();
    for y in 0..shape.height {
        for x in 0..shape.width {
            let at = shape.place(x, y);
            dst[at] = openings.iter().map(|o| o[at]).max().unwrap();
            directions[at] = openings.iter().position(|o| o[at] == dst[at]).unwrap() as u8;
        }
    }
}

/// 'A stretch of a line is a start a and an end b .. Its level is its darkest pixel; each of pixels a−1 and b that exists is darker than the level.
/// Its base is the brighter of those two, and 0 for the whole line.' Start, end, level, base, 'ordered by end, and among equal ends by descending start'.
pub fn stretches(line: &[u8]) -> Vec<[u64; 4]> {
    let mut list = Vec::new();
    for end in 1..=line.len() {
        let mut level = 255;
        for start in (0..end).rev() {
            level = level.min(line[start]);
            let before = if start > 0 { Some(line[start - 1]) } else { None };
            let neighbours = [before, line.get(end).copied()];
            if neighbours.iter().flatten().all(|&pixel| pixel < level) {
                let base = neighbours.iter().flatten().copied().max().unwrap_or(0);
                list.push([start as u64, end as u64, level as u64, base as u64]);
            }
        }
    }
    list
}

/// A stretch encloses another where it starts no later and ends no earlier.
fn encloses(outer: &[u64; 4], inner: &[u64; 4]) -> bool {
    outer[0] <= inner[0] && inner[1] <= outer[1]
}

/// 'the place, from 0, in the list of the shortest other stretch that encloses it; the whole line carries its own place'
fn encloser(list: &[[u64; 4]], place: usize, pixels: usize) -> usize {
    if list[place][..2] == [0, pixels as u64] {
        return place;
    }
    let others = (0..list.len()).filter(|&other| other != place && encloses(&list[other], &list[place]));
    others.min_by_key(|&other| list[other][1] - list[other][0]).unwrap()
}

/// 'Add a fifth number to each stretch record': start, end, level, base, encloser.
pub fn nested(line: &[u8]) -> Vec<[u64; 5]> {
    let list = stretches(line);
    let record = |(place, &[start, end, level, base]): (usize, &[u64; 4])| [start, end, level, base, encloser(&list, place, line.len()) as u64];
    list.iter().enumerate().map(record).collect()
}

fn total(line: &[u8]) -> u64 {
    line.iter().map(|&pixel| pixel as u64).sum()
}

/// 'With K bins .. the bin for a length is the sum for that length less the sum for the next; the rest is the sum for length K+1': from the sums for 1 to K+1.
fn bins_and_rest(by_length: &[u64]) -> Vec<u64> {
    let bins = by_length.windows(2).map(|pair| pair[0] - pair[1]);
    bins.chain(by_length.last().copied()).collect()
}

/// 'The sum for a length is the total of the opened pixels.' 'Line calls still count pixels.'
pub fn sums_of_line(line: &[u8], bins: u64) -> Vec<u64> {
    let by_length: Vec<u64> = (1..=bins + 1).map(|length| total(&opened(line, length))).collect();
    bins_and_rest(&by_length)
}

/// The size sums of a frame in one direction 'take the sum for each length with that length's k', the rest with that of K+1 ('4,097 is meant here too').
pub fn sums_of_frame(src: &[u8], shape: Shape, d: Direction, bins: u64) -> Vec<u64> {
    let lines: Vec<Vec<u8>> = lines(shape, d).values().map(|places| pixels(src, shape, places)).collect();
    let sum_for = |count: u64| -> u64 { lines.iter().map(|line| total(&opened(line, count))).sum() };
    let by_length: Vec<u64> = (1..=bins + 1).map(|length| sum_for(d.pixels_for(length))).collect();
    bins_and_rest(&by_length)
}

/// 'The rose of a frame is sixteen rows of 33 sums .. row d has 32 bins and the rest of numbered direction d.'
pub fn rose(src: &[u8], shape: Shape) -> Vec<Vec<u64>> {
    (0..16).map(|n| sums_of_frame(src, shape, numbered(n), 32)).collect()
}

/// 'Let A be the total of the bins and B their total, each multiplied by its length .. the mean, B as a float divided by A as a float, and the share, A divided by A plus the rest.'
/// Number, mean, share: 'Each operand is exact, each quotient rounded once.'
pub fn summary(sums: &[u64]) -> (u64, f64, f64) {
    if sums.len() < 2 || sums.len() > 4097 {
        return (4, 0.0, 0.0);
    }
    let (rest, bins) = sums.split_last().unwrap();
    let a: u128 = bins.iter().map(|&bin| bin as u128).sum();
    let b: u128 = bins.iter().zip(1..).map(|(&bin, length)| bin as u128 * length).sum();
    let all = a + *rest as u128;
    if a == 0 {
        return (10, 0.0, 0.0);
    }
    if all > 1 << 53 || b > 1 << 53 {
        return (11, 0.0, 0.0);
    }
    (0, b as f64 / a as f64, a as f64 / all as f64)
}
