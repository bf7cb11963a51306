// The refusal table: for each call the rules that apply to it, in the table's order, each with its number and figure.
// A call is refused by the first broken rule. All sizes are those of the buffers as lent.

use crate::definitions::{lines, Direction, Shape};

/// A refusal: the rule's number and the figure handed back.
pub type Refusal = (u64, u64);

type Rules<'a> = &'a [(bool, u64, u64)];

fn first_broken(rules: Rules) -> Option<Refusal> {
    rules.iter().find(|rule| rule.0).map(|&(_, number, figure)| (number, figure))
}

fn outside(n: u64, least: u64, most: u64) -> bool {
    n < least || n > most
}

pub fn erode(n: u64, length: u64, dst: u64) -> Option<Refusal> {
    let count = (n + 1).saturating_sub(length);
    first_broken(&[(outside(n, 1, 4096), 1, 0), (outside(length, 1, 4096), 3, 0), (dst < count, 6, count)])
}

/// 'It needs m at least 1 and m + L − 1 at most 4,096.'
pub fn dilate(m: u64, length: u64, dst: u64) -> Option<Refusal> {
    let count = m as u128 + length as u128;
    let too_many = outside(m, 1, 4096) || count > 4097;
    first_broken(&[(too_many, 1, 0), (outside(length, 1, 4096), 3, 0), ((dst as u128) + 1 < count, 6, (count as u64).saturating_sub(1))])
}

pub fn open_line(n: u64, length: u64, dst: u64, scratch: u64) -> Option<Refusal> {
    first_broken(&[(outside(n, 1, 4096), 1, 0), (outside(length, 1, 4096), 3, 0), (dst < n, 6, n), (scratch < 8 * n, 7, 8 * n)])
}

pub fn sums_of_line(n: u64, sums: u64, scratch: u64) -> Option<Refusal> {
    first_broken(&[(outside(n, 1, 4096), 1, 0), (outside(sums, 2, 4097), 4, 0), (scratch < 8 * n, 7, 8 * n)])
}

/// 'table has fewer entries than the line has stretches'
pub fn list(n: u64, stretches: u64, entries: u64, scratch: u64) -> Option<Refusal> {
    first_broken(&[(outside(n, 1, 4096), 1, 0), (scratch < 8 * n, 7, 8 * n), (entries < stretches, 8, stretches)])
}

/// 'With more than 4,096 pixels, fewer places than pixels, or fewer than 4 bytes of scratch a pixel': this call has no number.
pub fn enclosers(n: u64, places: u64, scratch: u64) -> bool {
    n > 4096 || places < n || scratch < 4 * n
}

/// What a frame's scratch needs: 'scratch shorter than 8·max(W, H) bytes'.
fn scratch_for(shape: Shape) -> u64 {
    8 * shape.width.max(shape.height)
}

/// The number of pixels of a line; 0 where 'the frame has no such line'.
fn pixels_on(shape: Shape, d: Direction, line: i64) -> u64 {
    lines(shape, d).get(&line).map_or(0, |places| places.len() as u64)
}

fn no_shape_or_direction(shape: Shape, d: Direction) -> Option<Refusal> {
    first_broken(&[(!shape.is_frame(), 1, 0), (!d.is_direction(), 2, 0)])
}

pub fn gather(shape: Shape, d: Direction, line: i64, src: u64, dst: u64) -> Option<Refusal> {
    no_shape_or_direction(shape, d).or_else(|| {
        let count = pixels_on(shape, d, line);
        first_broken(&[(count == 0, 2, 0), (src < shape.bytes(), 5, shape.bytes()), (dst < count, 6, count)])
    })
}

/// Gathering's rules with the buffers exchanged.
pub fn scatter(shape: Shape, d: Direction, line: i64, src: u64, dst: u64) -> Option<Refusal> {
    no_shape_or_direction(shape, d).or_else(|| {
        let count = pixels_on(shape, d, line);
        first_broken(&[(count == 0, 2, 0), (src < count, 5, count), (dst < shape.bytes(), 6, shape.bytes())])
    })
}

/// Rules 5, 6 and 7 of a frame that rule 1 accepts: one rule 6 for each destination, in their order.
fn buffers(shape: Shape, src: u64, destinations: &[u64], scratch: u64) -> Option<Refusal> {
    let (bytes, room) = (shape.bytes(), scratch_for(shape));
    let mut rules = vec![(src < bytes, 5, bytes)];
    rules.extend(destinations.iter().map(|&dst| (dst < bytes, 6, bytes)));
    rules.push((scratch < room, 7, room));
    first_broken(&rules)
}

pub fn open_frame(shape: Shape, d: Direction, length: u64, src: u64, dst: u64, scratch: u64) -> Option<Refusal> {
    no_shape_or_direction(shape, d)
        .or_else(|| first_broken(&[(outside(length, 1, 4096), 3, 0)]))
        .or_else(|| buffers(shape, src, &[dst], scratch))
}

/// 'one call with two destinations': '6 is given when either destination is short, the brightness one first; the bytes needed are the same.'
/// 'The W·H bytes of scratch that the direction frame needed are no longer asked.'
pub fn highest(shape: Shape, length: u64, src: u64, dst: u64, directions: u64, scratch: u64) -> Option<Refusal> {
    first_broken(&[(!shape.is_frame(), 1, 0), (outside(length, 1, 4096), 3, 0)]).or_else(|| buffers(shape, src, &[dst, directions], scratch))
}

pub fn sums_of_frame(shape: Shape, d: Direction, sums: u64, src: u64, scratch: u64) -> Option<Refusal> {
    no_shape_or_direction(shape, d)
        .or_else(|| first_broken(&[(outside(sums, 2, 4097), 4, 0)]))
        .or_else(|| buffers(shape, src, &[], scratch))
}

/// 'direction number above 15'; 'a destination too short, or the sums text's'
pub fn sums_text(direction: u64, sums: u64, bytes: u64, dst: u64) -> Option<Refusal> {
    first_broken(&[(direction > 15, 2, 0), (outside(sums, 2, 4097), 4, 0), (dst < bytes, 6, bytes)])
}

pub fn rose(shape: Shape, src: u64, scratch: u64) -> Option<Refusal> {
    first_broken(&[(!shape.is_frame(), 1, 0)]).or_else(|| buffers(shape, src, &[], scratch))
}
