// The cases of crates/vectors: which calls are made, on buffers of which sizes, and with which arguments.
// A case is a line of fourteen numbers; what a call does not take is 0. An input has the bytes of its text behind them. See `families` for what is covered and why.

use crate::definitions::{lines, stretches as stretches_of, Direction, Shape, NUMBERED};
use crate::draw::{self, Draws};
use crate::highest_cases::{highest_destinations, highest_drawn, highest_limits, highest_refused, highest_rooms};
use crate::slanted_cases::{openings_long, openings_slanted, pixels_of_lengths, roses_wide, sums_shared, sums_slanted};
use crate::text_cases::{inputs_edited, inputs_large, inputs_numbers, inputs_refused, inputs_whole, sums_texts};

/// The calls by their numbers in the case file.
pub const ERODE: u64 = 1;
pub const DILATE: u64 = 2;
pub const OPEN_LINE: u64 = 3;
pub const STRETCHES: u64 = 4;
pub const COUNT: u64 = 5;
pub const LIST: u64 = 6;
pub const ENCLOSERS: u64 = 7;
pub const ROW: u64 = 10;
pub const LINES_OF: u64 = 11;
pub const DIRECTION: u64 = 12;
pub const NUMBER: u64 = 13;
pub const SHAPE: u64 = 14;
pub const PIXELS_FOR: u64 = 15;
pub const GATHER: u64 = 20;
pub const SCATTER: u64 = 21;
pub const OPEN_FRAME: u64 = 22;
pub const HIGHEST: u64 = 23;
pub const SUMS_OF_LINE: u64 = 30;
pub const SUMS_OF_FRAME: u64 = 31;
pub const ROSE: u64 = 32;
pub const SUMMARY: u64 = 33;
pub const SUMS_TEXT: u64 = 40;
pub const READ_INPUT: u64 = 41;

/// The numbers of the calls, with the names that the report gives them.
pub const CALLS: [(u64, &str); 22] = [
    (ERODE, "erosion"), (DILATE, "dilation"), (OPEN_LINE, "opening of a line"), (STRETCHES, "stretches"), (COUNT, "count of stretches"),
    (ENCLOSERS, "enclosers"), (ROW, "row"), (LINES_OF, "lines of a frame"), (DIRECTION, "direction: range, shallow, turned"), (NUMBER, "numbered direction"), (SHAPE, "shape"),
    (PIXELS_FOR, "pixels of a length"),
    (GATHER, "gathering"), (SCATTER, "scattering"), (OPEN_FRAME, "frame opening"), (HIGHEST, "highest and its direction"),
    (SUMS_OF_LINE, "sums of a line"), (SUMS_OF_FRAME, "sums of a frame"), (ROSE, "rose and its refusal"), (SUMMARY, "summary"),
    (SUMS_TEXT, "sums text"), (READ_INPUT, "input"),
];

/// Pairs that have no number: long and short ones in every quarter, on the diagonals and on the axes.
const ODD: [(i64, i64); 14] = [
    (255, -254), (0, -7), (-3, -3), (254, 255), (-255, 1), (1, -255), (5, 0), (-1, 0), (7, -3), (100, 99), (-254, -255), (255, 255), (-5, 8), (-8, -5),
];

/// Pairs that are no direction.
pub const REFUSED: [(i64, i64); 7] = [(0, 0), (256, 1), (1, -256), (-256, 0), (0, 256), (4096, -4096), (-300, 255)];

/// A case as the file has it; `given` is the text of an input, of which the case has `width` bytes, and each of the others is the one `height` before it.
#[derive(Clone, Default)]
pub struct Case {
    pub call: u64,
    pub kind: u64,
    pub seed: u64,
    pub width: u64,
    pub height: u64,
    pub stride: u64,
    pub p: i64,
    pub q: i64,
    pub line: i64,
    pub length: u64,
    pub src: u64,
    pub dst: u64,
    pub directions: u64,
    pub scratch: u64,
    pub given: Vec<u8>,
}

impl Case {
    pub fn shape(&self) -> Shape {
        Shape { width: self.width, height: self.height, stride: self.stride }
    }

    pub fn direction(&self) -> Direction {
        Direction { p: self.p, q: self.q }
    }

    /// The line of the file: sizes are written as signed numbers, so that the largest is -1.
    pub fn text(&self) -> String {
        let sizes = [self.length, self.src, self.dst, self.directions, self.scratch].map(|n| (n as i64).to_string()).join(" ");
        let shape = [self.width, self.height, self.stride].map(|n| (n as i64).to_string()).join(" ");
        let given: String = self.given.iter().map(|byte| format!(" {byte}")).collect();
        format!("{} {} {} {} {} {} {} {}{given}", self.call, self.kind, self.seed, shape, self.p, self.q, self.line, sizes)
    }

    pub fn at(mut self, (p, q): (i64, i64)) -> Case {
        (self.p, self.q) = (p, q);
        self
    }
}

/// The cases so far, and the draws that make them up.
pub struct Cases {
    pub list: Vec<Case>,
    pub draws: Draws,
}

impl Cases {
    pub fn add(&mut self, case: Case) {
        let seed = self.list.len() as u64 * 7 + 1;
        self.list.push(Case { seed, ..case });
    }

    /// A frame of at most `most` pixels a side.
    fn frame(&mut self, call: u64, most: u64) -> Case {
        self.frame_of(call, 1, most)
    }

    /// A frame of `least` to `most` pixels a side, its gap at most 3, source, destination and scratch that just fit or are a little longer; the directions just fit.
    pub fn frame_of(&mut self, call: u64, least: u64, most: u64) -> Case {
        let d = &mut self.draws;
        let (width, height) = (d.within(least, most), d.within(least, most));
        let stride = width + d.below(4);
        let bytes = (height - 1) * stride + width;
        let (src, dst, scratch) = (bytes + d.below(3), bytes + d.below(3), 8 * width.max(height) + d.below(2));
        Case { call, kind: d.below(7), width, height, stride, length: d.within(1, 9), src, dst, directions: directions_for(call, bytes), scratch, ..Case::default() }
    }
}

/// The size of the second destination: only the highest opening has one.
fn directions_for(call: u64, bytes: u64) -> u64 {
    if call == HIGHEST { bytes } else { 0 }
}

/// Every pair that is a direction, numbered or odd.
pub fn directions() -> Vec<(i64, i64)> {
    NUMBERED.iter().chain(&ODD).copied().collect()
}

/// The room that a line call's destination needs.
fn line_room(call: u64, n: u64, length: u64) -> u64 {
    match call {
        ERODE => (n + 1).saturating_sub(length),
        DILATE => (n + length).saturating_sub(1),
        _ => n,
    }
}

/// Every line of up to 10 pixels with every length up to two more, then longer ones by chance.
fn lines_small(cases: &mut Cases) {
    for call in [ERODE, DILATE, OPEN_LINE] {
        let small = (1..=10).flat_map(|n| (1..=n + 2).map(move |length| (n, length)));
        let drawn: Vec<(u64, u64)> = (0..100).map(|_| (cases.draws.within(1, 70), cases.draws.within(1, 30))).collect();
        for (n, length) in small.chain(drawn) {
            let dst = line_room(call, n, length) + cases.draws.below(3);
            let kind = cases.draws.below(7);
            cases.add(Case { call, kind, length, src: n, dst, scratch: 8 * n, ..Case::default() });
        }
    }
}

/// Every set of broken rules, so that the first of them is seen to answer; lengths and lines just outside their ranges, and buffers one short.
fn lines_refused(cases: &mut Cases) {
    for call in [ERODE, DILATE, OPEN_LINE] {
        for n in [0, 5, 4096, 4097] {
            for length in [0, 2, 4096, 4097, u64::MAX] {
                let room = if length > 4097 || n > 4096 { 8 } else { line_room(call, n, length).min(4100) };
                for (dst, scratch) in [(room, 8 * n), (room.saturating_sub(1), 8 * n), (room, (8 * n).saturating_sub(1)), (room.saturating_sub(1), 0)] {
                    cases.add(Case { call, length, src: n, dst, scratch, ..Case::default() });
                }
            }
        }
    }
}

/// The longest lines: 4,096 pixels with windows of 1 to 4,097, and 4,097 pixels.
fn lines_long(cases: &mut Cases) {
    for (n, length) in [(4096, 1), (4096, 2), (4096, 77), (4096, 2048), (4096, 4095), (4096, 4096), (4096, 4097), (4097, 4096), (4095, 4096)] {
        for call in [ERODE, OPEN_LINE] {
            cases.add(Case { call, kind: length % 7, length, src: n, dst: n, scratch: 8 * n, ..Case::default() });
        }
    }
    for (m, length) in [(1, 4096), (2, 4095), (2, 4096), (4096, 1), (4096, 2), (4095, 2), (2000, 2097), (2000, 2098), (4097, 1)] {
        cases.add(Case { call: DILATE, kind: m % 7, length, src: m, dst: 4097, ..Case::default() });
    }
}

/// Lines of every kind: 1 to 30 pixels, and 4,096.
fn stretches(cases: &mut Cases) {
    for call in [STRETCHES, COUNT] {
        for n in (1..=30).chain([100, 255, 256, 257, 4095, 4096]) {
            for kind in 0..7 {
                cases.add(Case { call, kind, src: n, scratch: 8 * n, ..Case::default() });
            }
        }
    }
}

/// Lines of every kind: none to 30 pixels, and on and about the limits; places and scratch just enough, and a little more; then each of them one short, both, and none at all.
fn enclosers(cases: &mut Cases) {
    for n in (0..=30u64).chain([100, 255, 256, 257, 4095, 4096, 4097]) {
        for kind in 0..7 {
            for more in [0, kind + 1] {
                cases.add(Case { call: ENCLOSERS, kind, src: n, dst: n + more, scratch: 4 * n + more, ..Case::default() });
            }
        }
        let (few, less) = (n.saturating_sub(1), (4 * n).saturating_sub(1));
        for (dst, scratch) in [(few, 4 * n), (n, less), (few, less), (0, 0)] {
            cases.add(Case { call: ENCLOSERS, kind: n % 7, src: n, dst, scratch, ..Case::default() });
        }
    }
}

/// Rows that are there and rows that are not, in frames that fit and frames that do not.
fn rows(cases: &mut Cases) {
    for i in 0..90 {
        let mut case = cases.frame(ROW, 6);
        case.length = cases.draws.below(case.height + 2);
        match i % 9 {
            0 => case.src = case.shape().bytes() - 1,
            1 => case.stride = case.width - 1,
            2 => case.width = 0,
            3 => case.length = u64::MAX,
            _ => {}
        }
        cases.add(case);
    }
}

/// The lines of a frame, directions and their turns, numbers of directions, shapes on and about their limits.
fn lookups(cases: &mut Cases) {
    for pair in directions().into_iter().chain(REFUSED) {
        cases.add(Case { call: DIRECTION, ..Case::default() }.at(pair));
        for _ in 0..4 {
            let case = cases.frame(LINES_OF, 9);
            cases.add(case.at(pair));
        }
    }
    for n in (0..18).chain([255, u64::MAX]) {
        cases.add(Case { call: NUMBER, length: n, ..Case::default() });
    }
    for width in [0, 1, 4096, 4097] {
        for height in [0, 1, 4096, 4097, u64::MAX] {
            for stride in [width.max(1) - 1, width, 65535, 65536] {
                cases.add(Case { call: SHAPE, width, height, stride, ..Case::default() });
            }
        }
    }
}

/// Lines of small frames in every direction, the numbers just outside them, and each buffer one short.
fn gathers(cases: &mut Cases) {
    for call in [GATHER, SCATTER] {
        for pair in directions().into_iter().chain(REFUSED) {
            for short in [0, 0, 0, 0, 0, 0, 1, 2, 3] {
                let mut case = cases.frame(call, 9).at(pair);
                gather_line(&mut case, &mut cases.draws);
                case.src -= if short & 1 == 1 { case.src.min(1) } else { 0 };
                case.dst -= if short & 2 == 2 { case.dst.min(1) } else { 0 };
                cases.add(case);
            }
        }
    }
}

/// Picks a line of the frame, or one next to its first or last, and lends just the bytes that it needs.
fn gather_line(case: &mut Case, draws: &mut Draws) {
    let bytes = case.shape().bytes();
    let mut count = 3;
    if case.direction().is_direction() {
        let lines = lines(case.shape(), case.direction());
        let (first, last) = (*lines.keys().next().unwrap(), *lines.keys().last().unwrap());
        case.line = first - 1 + draws.below((last - first + 3) as u64) as i64;
        count = lines.get(&case.line).map_or(2, |places| places.len() as u64);
    }
    (case.src, case.dst) = if case.call == GATHER { (bytes, count) } else { (count, bytes) };
}

/// Small frames in every direction, then the highest and its direction over frames of ties, plateaus and ramps.
fn openings(cases: &mut Cases) {
    for pair in directions() {
        for i in 0..10 {
            let case = cases.frame(OPEN_FRAME, if i < 5 { 8 } else { 24 });
            cases.add(case.at(pair));
        }
    }
    for i in 0..200 {
        let mut case = cases.frame(HIGHEST, if i < 140 { 7 } else { 16 });
        case.kind = i % 7;
        case.length = cases.draws.within(1, 6);
        case.directions += i % 3;
        case.scratch += if i % 2 == 1 { case.width * case.height } else { 0 };
        cases.add(case);
    }
}

/// How many sets of rules `broken` can break.
pub fn sets_of_rules(call: u64) -> u64 {
    if call == HIGHEST { 128 } else { 64 }
}

/// The case of a frame that fits with a set of its rules broken, a bit each: shape, direction, length or sums, source, destination, scratch, directions.
pub fn broken(fits: &Case, set: u64) -> Case {
    let is = |rule: u64| set >> rule & 1 == 1;
    let mut case = fits.clone();
    case.stride = if is(0) { case.width - 1 } else { case.stride };
    case.p *= if is(1) { 128 } else { 1 };
    case.length *= if is(2) { 0 } else { 1 };
    case.dst = if is(2) && case.call == SUMS_OF_FRAME { 1 } else { case.dst };
    case.src -= if is(3) { 1 } else { 0 };
    case.dst -= if is(4) { 1 } else { 0 };
    case.scratch = if is(5) { 8 * case.width.max(case.height) - 1 } else { case.scratch };
    case.directions -= if is(6) { 1 } else { 0 };
    case
}

/// A frame of 5 by 4 with every set of its rules broken.
fn frames_refused(cases: &mut Cases) {
    for call in [OPEN_FRAME, HIGHEST, SUMS_OF_FRAME, ROSE] {
        let dst = if call == SUMS_OF_FRAME { 4 } else { 23 };
        let fits = Case { call, width: 5, height: 4, stride: 6, p: 2, q: 1, length: 3, src: 23, dst, directions: directions_for(call, 23), scratch: 40, ..Case::default() };
        for set in 0..sets_of_rules(call) {
            cases.add(broken(&fits, set));
        }
    }
}

/// The sides of the large frames.
const LARGE: [(u64, u64); 7] = [(4096, 1), (4096, 2), (1, 4096), (2, 4096), (4097, 1), (1, 4097), (4096, 4096)];

/// A large frame with no gap and buffers that just fit, or of 8,192 bytes where the frame has more.
fn large(call: u64, (width, height): (u64, u64), length: u64) -> Case {
    let bytes = (width * height).min(8192);
    let scratch = 8 * width.max(height);
    let dst = if call == SUMS_OF_FRAME { 4 } else { bytes };
    Case { call, kind: length % 7, width, height, stride: width, length, src: bytes, dst, directions: directions_for(call, bytes), scratch, ..Case::default() }
}

/// Sides of 4,096 and 4,097, lengths of 4,096 and 4,097, and one byte too few in each buffer.
fn frames_large(cases: &mut Cases) {
    for call in [OPEN_FRAME, HIGHEST, SUMS_OF_FRAME, ROSE] {
        for sides in LARGE {
            for (length, pair) in [(4096, (1, 0)), (4097, (0, 1)), (9, (4, -1)), (4, (-255, 254))] {
                cases.add(large(call, sides, length).at(pair));
            }
            for short in 0..3 {
                let mut case = large(call, sides, 3).at((2, 1));
                let buffer = [&mut case.src, &mut case.dst, &mut case.scratch];
                *buffer[short] -= 1;
                cases.add(case);
            }
            if call == HIGHEST {
                destinations_large(cases, sides);
            }
        }
    }
}

/// The highest of a large frame with more scratch than it needs; its second destination one byte too short; either destination empty.
fn destinations_large(cases: &mut Cases, sides: (u64, u64)) {
    for length in [4096, 2048, 9, 4] {
        let case = large(HIGHEST, sides, length);
        cases.add(Case { scratch: case.scratch + case.src, ..case });
    }
    let fits = large(HIGHEST, sides, 3);
    for (dst, directions) in [(fits.dst, fits.directions - 1), (0, fits.directions), (fits.dst, 0)] {
        cases.add(Case { dst, directions, ..fits.clone() });
    }
}

/// The lines and rows of large frames, each buffer just long enough and one byte too short.
fn lines_of_large(cases: &mut Cases) {
    for sides in &LARGE[..6] {
        for (pair, line) in [((1, 0), 0), ((0, 1), 0), ((4, -1), 1024), ((4, 1), -1023), ((-255, 254), 4079), ((254, 255), -5), ((1, 0), 2)] {
            for call in [GATHER, SCATTER, LINES_OF] {
                let fits = Case { line, ..large(call, *sides, 0).at(pair) };
                for (less_src, less_dst) in [(0, 0), (1, 0), (0, 1)] {
                    cases.add(Case { src: fits.src - less_src, dst: fits.dst - less_dst, ..fits.clone() });
                }
            }
        }
        for y in [0, 1, 2, 4095, 4096] {
            cases.add(large(ROW, *sides, y));
        }
    }
}

/// Strides that are the widest, one more, and as wide as the frame; the second destination of the highest just fits and is one byte too short.
fn frames_strided(cases: &mut Cases) {
    let calls = [(OPEN_FRAME, 0), (HIGHEST, 0), (HIGHEST, 1), (SUMS_OF_FRAME, 0), (ROSE, 0), (ROW, 0)];
    for (stride, src) in [(65535, 8192), (65536, 8192), (4000, 8006), (4000, 8005), (7, 20), (6, 18), (5, 16)] {
        for (call, short) in calls {
            let (dst, directions) = (src.min(if call == SUMS_OF_FRAME { 5 } else { 9999 }), directions_for(call, src) - short);
            cases.add(Case { call, width: 6, height: 3, stride, length: 2, src, dst, directions, scratch: 66, ..Case::default() }.at((1, 1)));
        }
    }
    for (call, short) in calls {
        cases.add(Case { call, width: 6, height: 1, stride: 65535, length: 2, src: 6, dst: 6, directions: directions_for(call, 6) - short, scratch: 66, ..Case::default() }.at((1, 1)));
    }
}

/// Sums of lines and frames with fewer and more bins than pixels, the rose, and slices that are too short or too long.
fn sums(cases: &mut Cases) {
    for i in 0..150 {
        let (n, entries) = (cases.draws.within(1, 40), cases.draws.within(2, 45));
        cases.add(Case { call: SUMS_OF_LINE, kind: i % 7, src: n, dst: entries, scratch: 8 * n, ..Case::default() });
    }
    for n in [0u64, 6, 4096, 4097] {
        for entries in [0, 1, 2, 5, 4097, 4098] {
            for scratch in [8 * n, (8 * n).saturating_sub(1)] {
                let entries = if n > 4000 { entries.min(5) } else { entries };
                cases.add(Case { call: SUMS_OF_LINE, kind: entries % 7, src: n, dst: entries, scratch, ..Case::default() });
            }
        }
    }
    for pair in directions() {
        for _ in 0..5 {
            let mut case = cases.frame(SUMS_OF_FRAME, 12);
            case.dst = cases.draws.within(2, 15);
            cases.add(case.at(pair));
        }
    }
    for i in 0..70 {
        let case = cases.frame(ROSE, if i < 60 { 7 } else { 40 });
        cases.add(case);
    }
}

/// Sums of every kind: none, few, up to 2^53 and above, and slices of every length about the limits.
fn summaries(cases: &mut Cases) {
    for kind in 0..8 {
        for entries in [0, 1, 2, 3, 4, 5, 8, 20, 33, 500, 4096, 4097, 4098] {
            cases.add(Case { call: SUMMARY, kind, dst: entries, ..Case::default() });
        }
        for _ in 0..12 {
            let entries = cases.draws.within(2, 4);
            cases.add(Case { call: SUMMARY, kind, dst: entries, ..Case::default() });
        }
    }
}

/// The cases of check/listing: lines of every kind and shape, on and about the limits; tables that just fit, are longer, and are one entry short; scratch one byte short; every set of broken rules.
pub fn listings() -> Vec<Case> {
    let mut cases = Cases { list: Vec::new(), draws: Draws(7) };
    for n in (0..=40u64).chain([255, 256, 300, 4095, 4096, 4097]) {
        for kind in 0..13 {
            for (entries, scratch) in [(n, 8 * n), (n + 7, 8 * n + 1), (n / 2, 8 * n), (n, (8 * n).saturating_sub(1)), (0, 0)] {
                cases.add(Case { call: LIST, kind, src: n, dst: entries, scratch, ..Case::default() });
            }
            fit_table(&mut cases, n, kind);
        }
    }
    cases.list
}

/// A table with just as many entries as the line has stretches, and one with one less.
fn fit_table(cases: &mut Cases, n: u64, kind: u64) {
    for less in 0..2 {
        cases.add(Case { call: LIST, kind, src: n, scratch: 8 * n, ..Case::default() });
        let case = cases.list.last_mut().unwrap();
        let count = stretches_of(&draw::line(n as usize, kind, case.seed)).len() as u64;
        case.dst = count.saturating_sub(less);
    }
}

/// All cases, the small ones first, then those of the texts, then the enclosers, then those of lengths that mean fewer pixels, then those of the highest opening's two destinations.
pub fn families() -> Vec<Case> {
    let mut cases = Cases { list: Vec::new(), draws: Draws(20_250_607) };
    for family in [lines_small, stretches_and_rows, lookups, gathers, openings, sums, summaries, frames_refused, lines_refused, frames_strided, lines_long, lines_of_large, frames_large] {
        family(&mut cases);
    }
    for family in [sums_texts, inputs_whole, inputs_edited, inputs_numbers, inputs_refused, inputs_large, enclosers] {
        family(&mut cases);
    }
    for family in [pixels_of_lengths, openings_slanted, openings_long, sums_shared, sums_slanted, roses_wide] {
        family(&mut cases);
    }
    for family in [highest_rooms, highest_destinations, highest_refused, highest_limits, highest_drawn] {
        family(&mut cases);
    }
    cases.list
}

fn stretches_and_rows(cases: &mut Cases) {
    stretches(cases);
    rows(cases);
}
