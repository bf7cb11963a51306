// The cases of the one call that gives the highest opening and its direction: two destinations, each of its own size, and scratch of sizes about what rule 7 asks and about the frame's pixels.

use crate::cases::{broken, sets_of_rules, Case, Cases, HIGHEST};
use crate::definitions::Shape;

/// Width and height: sides of 1; pixels fewer than the bytes that rule 7 asks, just as many, and more; long sides on and about powers of two.
const SIDES: [(u64, u64); 34] = [
    (1, 1), (1, 2), (2, 1), (1, 9), (9, 1), (1, 40), (40, 1),
    (2, 2), (3, 5), (5, 3), (7, 8), (8, 7), (7, 40), (40, 7),
    (8, 8), (8, 13), (31, 8), (40, 8),
    (9, 9), (9, 10), (10, 9), (9, 40), (40, 9), (16, 16), (17, 23), (32, 12), (33, 39), (40, 40),
    (63, 10), (64, 9), (65, 11), (9, 129), (128, 10), (200, 12),
];

/// The bytes of scratch that rule 7 asks.
fn least((width, height): (u64, u64)) -> u64 {
    8 * width.max(height)
}

/// Scratch just as long as asked and as the frame has pixels, one byte less and one more of each, and both together; in ascending order.
fn rooms(sides: (u64, u64)) -> Vec<u64> {
    let (least, pixels) = (least(sides), sides.0 * sides.1);
    let mut rooms = vec![least - 1, least, least + 1, pixels - 1, pixels, pixels + 1, least + pixels];
    rooms.sort();
    rooms.dedup();
    rooms
}

/// A frame of these sides with buffers that just fit. Lengths take turns: 1, which every direction reaches; a few pixels; the longer side; one that no line of the frame has.
fn fitted(cases: &mut Cases, (width, height): (u64, u64), gap: u64) -> Case {
    let (longer, stride) = (width.max(height), width + gap);
    let length = [1, 2, 3, 5, 4, 8, longer, 2 * longer, 6][cases.list.len() % 9];
    let bytes = Shape { width, height, stride }.bytes();
    Case { call: HIGHEST, kind: cases.draws.below(7), width, height, stride, length, src: bytes, dst: bytes, directions: bytes, scratch: least((width, height)), ..Case::default() }
}

/// Frames with a gap and without, and scratch of every size about the two that count.
pub fn highest_rooms(cases: &mut Cases) {
    for sides in SIDES {
        for gap in [0, 3] {
            for scratch in rooms(sides) {
                let fits = fitted(cases, sides, gap);
                cases.add(Case { scratch, ..fits });
            }
        }
    }
}

/// Both destinations just fit, are one byte or a few longer, one byte too short, and empty, in every combination; with the least scratch, and with room for the frame's pixels.
pub fn highest_destinations(cases: &mut Cases) {
    for (sides, gap) in [((1, 1), 0), ((5, 4), 1), ((10, 12), 0), ((21, 15), 2)] {
        for pair in 0..25 {
            for scratch in [least(sides), least(sides).max(sides.0 * sides.1)] {
                let fits = fitted(cases, sides, gap);
                let sizes = [fits.dst, fits.dst + 1, fits.dst + 9, fits.dst - 1, 0];
                cases.add(Case { dst: sizes[pair / 5], directions: sizes[pair % 5], scratch, ..fits });
            }
        }
    }
}

/// A frame of 12 by 10, with scratch for its pixels, which are more than rule 7 asks, and every set of its rules broken.
pub fn highest_refused(cases: &mut Cases) {
    for set in 0..sets_of_rules(HIGHEST) {
        let fits = Case { length: 3, scratch: 12 * 10, ..fitted(cases, (12, 10), 1) }.at((2, 1));
        cases.add(broken(&fits, set));
    }
}

/// Shapes and lengths on and about their limits and far beyond.
pub fn highest_limits(cases: &mut Cases) {
    let far = u64::MAX;
    let shapes = [(3, 3, 3), (0, 3, 3), (3, 0, 3), (0, 0, 0), (far, 1, far), (1, far, 1), (far, far, far), (3, 3, 2), (3, 3, 65535), (3, 3, 65536), (3, 3, far), (1 << 32, 1 << 32, 1 << 32)];
    for (width, height, stride) in shapes {
        for length in [0, 1, 4096, 4097, far] {
            cases.add(Case { call: HIGHEST, width, height, stride, length, src: 9, dst: 9, directions: 9, scratch: 24, ..Case::default() });
        }
    }
}

/// Frames of 9 to 40 pixels a side, which always have more pixels than rule 7 asks bytes, with any scratch but the one that is too short.
pub fn highest_drawn(cases: &mut Cases) {
    for i in 0..140 {
        let drawn = cases.frame_of(HIGHEST, 9, 40);
        let rooms = rooms((drawn.width, drawn.height));
        let scratch = rooms[cases.draws.within(1, rooms.len() as u64 - 1) as usize];
        let directions = drawn.directions + cases.draws.below(3);
        cases.add(Case { kind: i % 7, directions, scratch, ..drawn });
    }
}
