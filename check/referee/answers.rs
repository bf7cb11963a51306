// What the library must hand back and leave in each case: the numbers that crates/vectors prints, computed from the definitions and the refusal table.

use crate::cases::*;
use crate::definitions::*;
use crate::draw::{self, check, check_bytes, check_sums};
use crate::refusals::{self, Refusal};
use crate::texts::{read, sums_text};

/// The sizes of the arrays in crates/vectors, which no case outgrows but by its guard.
const BYTES: usize = 131072;
const DIRECTIONS: usize = 16384;
const SUMS: usize = 4224;
const SCRATCH: usize = 49152;

/// The bytes, sums, places or records behind a lent buffer: none of those may change.
const GUARD: u64 = 8;

/// What a call hands back, in four numbers.
#[derive(Default)]
struct Got {
    number: u64,
    figure: u64,
    first: u64,
    second: u64,
}

/// The buffers of a case as they are lent, each with its guard behind.
struct Lent {
    src: Vec<u8>,
    dst: Vec<u8>,
    directions: Vec<u8>,
    sums: Vec<u64>,
    scratch: Vec<u8>,
}

fn guarded(n: u64, room: usize) -> usize {
    ((n + GUARD) as usize).min(room)
}

/// An input is the text that the case brings along; any other source is of the case's kind, and a listing's may be a shape.
fn source(c: &Case) -> Vec<u8> {
    match c.call {
        READ_INPUT => draw::text(&c.given, c.src as usize, c.height as usize),
        LIST => draw::line(c.src as usize, c.kind, c.seed),
        _ => draw::bytes(c.src as usize, c.kind, c.seed),
    }
}

fn lend(c: &Case) -> Lent {
    let entries = if c.call == SUMS_TEXT { c.src } else { c.dst };
    Lent {
        src: source(c),
        dst: draw::bytes(guarded(c.dst, BYTES), 0, c.seed + 1),
        directions: draw::bytes(guarded(c.directions, DIRECTIONS), 0, c.seed + 4),
        sums: draw::sums(guarded(entries, SUMS), c.kind, c.seed + 2),
        scratch: draw::bytes(guarded(c.scratch, SCRATCH), 0, c.seed + 3),
    }
}

fn done(figure: usize) -> Got {
    Got { figure: figure as u64, ..Got::default() }
}

fn refused((number, figure): Refusal) -> Got {
    Got { number, figure, ..Got::default() }
}

/// Writes the values to the front of the destination: 'what follows is unchanged'.
fn write(values: &[u8], dst: &mut [u8]) {
    dst[..values.len()].copy_from_slice(values);
}

fn on_line(c: &Case, lent: &mut Lent) -> Got {
    let refusal = match c.call {
        ERODE => refusals::erode(c.src, c.length, c.dst),
        DILATE => refusals::dilate(c.src, c.length, c.dst),
        _ => refusals::open_line(c.src, c.length, c.dst, c.scratch),
    };
    if let Some(refusal) = refusal {
        return refused(refusal);
    }
    let values = match c.call {
        ERODE => eroded(&lent.src, c.length),
        DILATE => dilated(&lent.src, c.length),
        _ => opened(&lent.src, c.length),
    };
    write(&values, &mut lent.dst);
    done(if c.call == OPEN_LINE { 0 } else { values.len() })
}

fn listed(c: &Case, lent: &Lent) -> Got {
    let list = stretches(&lent.src);
    let first = if c.call == COUNT { 0 } else { check(1, list.iter().flatten().copied()) };
    Got { first, ..done(list.len()) }
}

/// 'The stretches are stored as records .. in a table the caller lends. Entries past the list do not change.' A record has its encloser's place as a fifth number.
fn listed_in_table(c: &Case, lent: &Lent) -> Got {
    let list = nested(&lent.src);
    let mut table = vec![[1, 2, 3, 4, 5]; (c.dst.min(4104) + GUARD) as usize];
    let refusal = refusals::list(c.src, list.len() as u64, c.dst, c.scratch);
    if refusal.is_none() {
        table[..list.len()].copy_from_slice(&list);
    }
    let first = check(1, table.iter().flatten().copied());
    Got { first, ..refusal.map_or_else(|| done(list.len()), refused) }
}

/// The stretches' 'fifth numbers, in the same order', at the front of the places; refused, 'it hands back 0 and nothing changes'. The number is 1 where 0 is handed back.
fn enclosers(c: &Case, lent: &Lent) -> Got {
    let refused = refusals::enclosers(c.src, c.dst, c.scratch);
    let fifth: Vec<u64> = if refused { Vec::new() } else { nested(&lent.src).iter().map(|record| record[4]).collect() };
    let mut places = draw::places((c.dst + GUARD) as usize, c.seed + 4);
    places[..fifth.len()].copy_from_slice(&fifth);
    Got { number: fifth.is_empty() as u64, first: check(1, places.into_iter()), ..done(fifth.len()) }
}

/// 'A row number of H or more, or a frame that rule 1 or 5 refuses, gives the empty part.'
fn row(c: &Case, lent: &Lent) -> Got {
    let shape = c.shape();
    if !shape.is_frame() || c.src < shape.bytes() || c.length >= shape.height {
        return Got { first: 1, ..done(0) };
    }
    let from = shape.place(0, c.length);
    let row = &lent.src[from..from + shape.width as usize];
    Got { first: check_bytes(1, row), ..done(row.len()) }
}

/// The first line's number and how many there are; none where rule 1 or 2 refuses.
fn lines_of(c: &Case) -> Got {
    if !c.shape().is_frame() || !c.direction().is_direction() {
        return done(0);
    }
    let lines = lines(c.shape(), c.direction());
    Got { first: *lines.keys().next().unwrap() as u64, ..done(lines.len()) }
}

fn looked_up(c: &Case) -> Got {
    let (shape, d) = (c.shape(), c.direction());
    match c.call {
        LINES_OF => lines_of(c),
        NUMBER => Got { first: numbered(c.length).p as u64, second: numbered(c.length).q as u64, ..done(0) },
        SHAPE => Got { number: shape.is_frame() as u64, figure: if shape.is_frame() { shape.bytes() } else { 0 }, ..done(0) },
        _ => Got { number: d.is_direction() as u64, figure: d.is_shallow() as u64, first: d.turned().p as u64, second: d.turned().q as u64 },
    }
}

/// The longest length that `pixels_counted` asks for, one more than the call has an answer for.
const MOST_ASKED: u64 = 4098;

/// The count of pixels that the case's length means, and the checksum of the counts of every length from 0 up to it, or to the longest asked for.
fn pixels_counted(c: &Case) -> Got {
    let d = c.direction();
    let counts = (0..=c.length.min(MOST_ASKED)).map(|length| d.pixels_for(length));
    Got { figure: d.pixels_for(c.length), first: check(1, counts), ..Got::default() }
}

/// 'Gathering a line by its number writes its pixels, in line order, to the front of a destination and hands back their count'
fn gathered(c: &Case, lent: &mut Lent) -> Got {
    if let Some(refusal) = refusals::gather(c.shape(), c.direction(), c.line, c.src, c.dst) {
        return refused(refusal);
    }
    let values = pixels(&lent.src, c.shape(), &lines(c.shape(), c.direction())[&c.line]);
    write(&values, &mut lent.dst);
    done(values.len())
}

/// The way back: values to the pixels of a line.
fn scattered(c: &Case, lent: &mut Lent) -> Got {
    if let Some(refusal) = refusals::scatter(c.shape(), c.direction(), c.line, c.src, c.dst) {
        return refused(refusal);
    }
    let places = &lines(c.shape(), c.direction())[&c.line];
    for (&(x, y), &value) in places.iter().zip(&lent.src) {
        lent.dst[c.shape().place(x, y)] = value;
    }
    done(places.len())
}

fn frame_opened(c: &Case, lent: &mut Lent) -> Got {
    let (shape, d) = (c.shape(), c.direction());
    let refusal = match c.call {
        OPEN_FRAME => refusals::open_frame(shape, d, c.length, c.src, c.dst, c.scratch),
        _ => refusals::highest(shape, c.length, c.src, c.dst, c.directions, c.scratch),
    };
    if let Some(refusal) = refusal {
        return refused(refusal);
    }
    match c.call {
        OPEN_FRAME => open_frame(&lent.src, shape, d, c.length, &mut lent.dst),
        _ => sixteen(&lent.src, shape, c.length, &mut lent.dst, &mut lent.directions),
    }
    done(0)
}

fn summed(c: &Case, lent: &mut Lent) -> Got {
    let (shape, d) = (c.shape(), c.direction());
    let refusal = match c.call {
        SUMS_OF_LINE => refusals::sums_of_line(c.src, c.dst, c.scratch),
        _ => refusals::sums_of_frame(shape, d, c.dst, c.src, c.scratch),
    };
    if let Some(refusal) = refusal {
        return refused(refusal);
    }
    let sums = if c.call == SUMS_OF_LINE { sums_of_line(&lent.src, c.dst - 1) } else { sums_of_frame(&lent.src, shape, d, c.dst - 1) };
    lent.sums[..c.dst as usize].copy_from_slice(&sums);
    done(0)
}

/// 'A refused rose is a table of 64-bit largest numbers, which no sum reaches; a second call gives the refusal's number.'
fn rose_shown(c: &Case, lent: &Lent) -> Got {
    match refusals::rose(c.shape(), c.src, c.scratch) {
        Some(refusal) => Got { first: check_sums(1, &[u64::MAX; 16 * 33]), ..refused(refusal) },
        None => Got { first: check_sums(1, &rose(&lent.src, c.shape()).concat()), ..done(0) },
    }
}

fn summarized(c: &Case, lent: &Lent) -> Got {
    let (number, mean, share) = summary(&lent.sums[..c.dst as usize]);
    Got { number, first: mean.to_bits(), second: share.to_bits(), ..done(0) }
}

/// 'a call writes what the program sums prints, from a direction number and a sums slice, to a destination's front'; done, it hands back 'its bytes'.
fn sums_printed(c: &Case, lent: &mut Lent) -> Got {
    let sums = &lent.sums[..c.src as usize];
    let text = if sums.is_empty() { String::new() } else { sums_text(c.length, sums) };
    if let Some(refusal) = refusals::sums_text(c.length, c.src, text.len() as u64, c.dst) {
        return refused(refusal);
    }
    write(text.as_bytes(), &mut lent.dst);
    done(text.len())
}

/// The frame of an input: direction, the checksum of width and height, and its pixels at the destination's front, for which there must be room.
fn input_read(c: &Case, lent: &mut Lent) -> Got {
    let no_sides = check(1, [0, 0].into_iter());
    match read(&lent.src) {
        Err(number) => Got { second: no_sides, ..refused((number, 0)) },
        Ok(frame) if c.dst < frame.width * frame.height => Got { second: no_sides, ..refused((6, frame.width * frame.height)) },
        Ok(frame) => {
            write(&frame.pixels, &mut lent.dst);
            Got { first: frame.direction, second: check(1, [frame.width, frame.height].into_iter()), ..done(0) }
        }
    }
}

fn called(c: &Case, lent: &mut Lent) -> Got {
    match c.call {
        ERODE | DILATE | OPEN_LINE => on_line(c, lent),
        STRETCHES | COUNT => listed(c, lent),
        LIST => listed_in_table(c, lent),
        ENCLOSERS => enclosers(c, lent),
        ROW => row(c, lent),
        LINES_OF | NUMBER | SHAPE | DIRECTION => looked_up(c),
        PIXELS_FOR => pixels_counted(c),
        GATHER => gathered(c, lent),
        SCATTER => scattered(c, lent),
        OPEN_FRAME | HIGHEST => frame_opened(c, lent),
        SUMS_OF_LINE | SUMS_OF_FRAME => summed(c, lent),
        ROSE => rose_shown(c, lent),
        SUMS_TEXT => sums_printed(c, lent),
        READ_INPUT => input_read(c, lent),
        _ => summarized(c, lent),
    }
}

/// The line that crates/vectors prints: case, number, figure, two numbers more, and the checksum of all that was lent to be written.
/// What a done call leaves in its scratch is not settled: there only the bytes behind it count.
pub fn answer(number: usize, c: &Case) -> String {
    let mut lent = lend(c);
    let got = called(c, &mut lent);
    let from = if got.number == 0 { (c.scratch as usize).min(lent.scratch.len()) } else { 0 };
    let destinations = check_bytes(check_bytes(1, &lent.dst), &lent.directions);
    let left = check_bytes(check_sums(destinations, &lent.sums), &lent.scratch[from..]);
    format!("{number}\t{}\t{}\t{:x}\t{:x}\t{left:x}", got.number, got.figure, got.first, got.second)
}
