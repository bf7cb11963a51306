// The cases of lengths that mean fewer pixels than they count: the count itself in every direction, and the frame calls on frames whose lines have just as many pixels, one less or one more.

use crate::cases::{directions, Case, Cases, HIGHEST, OPEN_FRAME, PIXELS_FOR, REFUSED, ROSE, SUMS_OF_FRAME};
use crate::definitions::{lines, Direction, Shape};

/// Pairs whose p² + q² is a square, in every quarter: there a count can meet its length exactly, where it must not be one more.
const EXACT: [(i64, i64); 4] = [(5, 12), (-20, 21), (255, -136), (-24, -7)];

/// The kinds whose light outlasts long windows: one level, white with black pixels, a climb, plateaus.
const LASTING: [u64; 4] = [5, 6, 3, 2];

/// Every pair of these cases.
fn pairs() -> Vec<(i64, i64)> {
    directions().into_iter().chain(EXACT).collect()
}

/// Every length in every direction, the order's examples, lengths on and about the limits, and pairs that are no direction.
pub fn pixels_of_lengths(cases: &mut Cases) {
    let counted = |pair, length| Case { call: PIXELS_FOR, length, ..Case::default() }.at(pair);
    for pair in pairs() {
        cases.add(counted(pair, 4098));
    }
    for pair in [(1, 1), (4, 3), (1, 0)] {
        cases.add(counted(pair, 21));
    }
    for pair in [(1, 0), (1, 1), (-4, 3), (0, -7), (255, -254), (-255, 1)] {
        for length in [0, 1, 2, 4096, 4097, u64::MAX] {
            cases.add(counted(pair, length));
        }
    }
    for pair in REFUSED {
        for length in [1, 21] {
            cases.add(counted(pair, length));
        }
    }
}

/// A frame of 30 to 42 pixels a side in a direction.
fn frame(cases: &mut Cases, call: u64, kind: u64, pair: (i64, i64)) -> Case {
    let drawn = cases.frame_of(call, 30, 42);
    Case { kind, length: 0, ..drawn }.at(pair)
}

/// A length up to 60 that means fewer pixels, and no more than the frame's longest line has; any up to 60 where none does.
fn telling_length(cases: &mut Cases, case: &Case) -> u64 {
    let d = case.direction();
    let longest = lines(case.shape(), d).values().map(|places| places.len() as u64).max().unwrap();
    let lengths: Vec<u64> = (1..=60).filter(|&length| d.pixels_for(length) < length && d.pixels_for(length) <= longest).collect();
    let drawn = cases.draws.within(1, 60);
    if lengths.is_empty() { drawn } else { lengths[drawn as usize % lengths.len()] }
}

/// Frames opened in every direction; then the highest and its direction, of lengths that the shorter side has and of some that only slanted lines have.
pub fn openings_slanted(cases: &mut Cases) {
    for pair in pairs() {
        for kind in LASTING {
            let case = frame(cases, OPEN_FRAME, kind, pair);
            let length = telling_length(cases, &case);
            cases.add(Case { length, ..case });
        }
    }
    for i in 0..70 {
        let drawn = cases.frame_of(HIGHEST, 16, 40);
        let length = cases.draws.within(5, drawn.width.min(drawn.height) * 4 / 3);
        let more = if i % 2 == 1 { drawn.width * drawn.height } else { 0 };
        cases.add(Case { kind: i % 7, length, scratch: drawn.scratch + more, ..drawn });
    }
}

/// A frame of one level with no gap, and buffers that just fit.
fn level(call: u64, (width, height): (u64, u64), length: u64) -> Case {
    let bytes = width * height;
    Case { call, kind: 5, width, height, stride: width, length, src: bytes, dst: bytes, scratch: 8 * width.max(height), ..Case::default() }
}

/// Long windows, each with the length one shorter and one longer too: at (255, 11) no length below 1,078 means fewer pixels than it counts, and that one means 1,077.
pub fn openings_long(cases: &mut Cases) {
    for (pair, sides, length) in [((255, 11), (1077, 47), 1078), ((-11, 255), (47, 1077), 1078), ((1, 1), (256, 256), 361), ((-4, 3), (290, 218), 362), ((5, -12), (161, 385), 417)] {
        for length in [length - 1, length, length + 1] {
            cases.add(level(OPEN_FRAME, sides, length).at(pair));
        }
    }
}

/// The first and the last length up to 38 that shares its count with the next.
fn shared((p, q): (i64, i64)) -> Vec<u64> {
    let d = Direction { p, q };
    let lengths: Vec<u64> = (1..=38).filter(|&length| d.pixels_for(length) == d.pixels_for(length + 1)).collect();
    let mut ends: Vec<u64> = lengths.first().into_iter().chain(lengths.last()).copied().collect();
    ends.dedup();
    ends
}

/// The least side of a square that has a line of just so many pixels, and a longer one.
fn side_for(count: u64, (p, q): (i64, i64)) -> u64 {
    let fits = |&side: &u64| {
        let lines = lines(Shape { width: side, height: side, stride: side }, Direction { p, q });
        let counts: Vec<u64> = lines.values().map(|places| places.len() as u64).collect();
        counts.contains(&count) && counts.iter().any(|&other| other > count)
    };
    (count..).find(fits).unwrap()
}

/// Sums about two lengths that share a count, on a frame of one level that has a line of just that count: the last bin is the one before both, either of them, and the one behind.
pub fn sums_shared(cases: &mut Cases) {
    for (p, q) in pairs() {
        for length in shared((p, q)) {
            let side = side_for(Direction { p, q }.pixels_for(length), (p, q));
            for bins in length - 1..=length + 2 {
                cases.add(Case { dst: bins + 1, ..level(SUMS_OF_FRAME, (side, side), 0).at((p, q)) });
            }
        }
    }
}

/// Sums in every direction with up to 60 bins; one bin and 4,096 of them, for which the rest is that of 4,097; and lines of up to 160 pixels.
pub fn sums_slanted(cases: &mut Cases) {
    for pair in pairs() {
        let case = frame(cases, SUMS_OF_FRAME, 6, pair);
        let bins = telling_length(cases, &case);
        cases.add(Case { dst: bins + 1, ..case });
    }
    for pair in [(1, 0), (1, 1), (-3, 4), (0, 1), (255, -254), (-8, -5), (-20, 21)] {
        for bins in [1, 4096] {
            let case = frame(cases, SUMS_OF_FRAME, 2, pair);
            cases.add(Case { dst: bins + 1, ..case });
        }
    }
    for (pair, bins) in [((1, 1), 225), ((1, 1), 4096), ((-3, 4), 198), ((-3, 4), 4096)] {
        cases.add(Case { dst: bins + 1, ..level(SUMS_OF_FRAME, (160, 160), 0).at(pair) });
    }
}

/// Frames of at least 33 columns and rows, so that every direction has lines which reach the rest.
pub fn roses_wide(cases: &mut Cases) {
    for i in 0..21 {
        let drawn = cases.frame_of(ROSE, 33, 56);
        cases.add(Case { kind: i % 7, length: 0, ..drawn });
    }
}
