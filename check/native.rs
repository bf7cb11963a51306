// Calls fibre_open_frame as a host does, linked from the archive, and compares with the referee's definitions: random frames, directions and lengths, every refusal with its figure.
// Each block stands between guard bytes, which must not change; a refused call must leave every byte alone, a done one all but the pixels of its destination and its scratch.

#[path = "referee/definitions.rs"]
#[allow(dead_code)]
mod definitions;
#[path = "referee/draw.rs"]
#[allow(dead_code)]
mod draw;
#[path = "referee/refusals.rs"]
#[allow(dead_code)]
mod refusals;

use definitions::{Direction, Shape, NUMBERED};
use draw::Draws;

extern "C" {
    fn fibre_open_frame(
        src: *const u8, src_bytes: usize, width: usize, height: usize, stride: usize, p: i64, q: i64, length: usize,
        dst: *mut u8, dst_bytes: usize, scratch: *mut u8, scratch_bytes: usize,
    ) -> u64;
}

const CALLS: u64 = 100_000;
const GUARD: usize = 32;

/// The most bytes that a block has: calls that would need more are made with none, and refused.
const MOST: u64 = 1 << 16;

/// The arguments of a call; the last three are the sizes of its blocks.
#[derive(Clone, Copy, Debug)]
struct Job {
    kind: u64,
    width: u64,
    height: u64,
    stride: u64,
    p: i64,
    q: i64,
    length: u64,
    src: u64,
    dst: u64,
    scratch: u64,
}

impl Job {
    fn shape(&self) -> Shape {
        Shape { width: self.width, height: self.height, stride: self.stride }
    }

    fn direction(&self) -> Direction {
        Direction { p: self.p, q: self.q }
    }
}

/// A number on or about a limit.
fn near(draws: &mut Draws, limit: u64) -> u64 {
    limit - 1 + draws.below(3)
}

/// Puts one argument on or about the limit of its range, or far beyond it.
fn push(job: &mut Job, draws: &mut Draws) {
    let far = draws.below(2) == 1;
    match draws.below(9) {
        0 => job.width = if far { u64::MAX } else { near(draws, 4096) },
        1 => job.height = if far { 0 } else { near(draws, 4096) },
        2 => job.stride = if far { job.width - 1 } else { near(draws, 65535) },
        3 => job.p = if far { i64::MIN } else { near(draws, 255) as i64 },
        4 => job.q = if far { i64::MAX } else { -(near(draws, 255) as i64) },
        5 => (job.p, job.q) = (0, 0),
        6 => job.length = if far { 0 } else { near(draws, 4096) },
        7 => job.length = u64::MAX,
        _ => (job.width, job.height, job.stride) = if far { (4096, 1, 4096) } else { (1, 4096, 1 + draws.below(3)) },
    }
}

/// Lends just what the frame needs or a little more, now and then one byte less in one of the blocks.
fn size(job: &mut Job, draws: &mut Draws) {
    let need = if job.shape().is_frame() { job.shape().bytes() } else { 0 };
    let need = if need > MOST { 0 } else { need };
    let room = if need > 0 { 8 * job.width.max(job.height) } else { 0 };
    (job.src, job.dst, job.scratch) = (need + draws.below(3), need + draws.below(3), room + draws.below(3));
    if need > 0 {
        match draws.below(12) {
            0 => job.src = need - 1,
            1 => job.dst = need - 1,
            2 => job.scratch = room - 1,
            _ => {}
        }
    }
}

/// Small frames; one in seven has sides and lengths that reach the first length to mean fewer pixels in each slanted direction that has a number: at (4, 1) that is 35.
fn job(i: u64, draws: &mut Draws) -> Job {
    let (side, longest) = if i % 7 == 1 { (40, 60) } else { (24, 12) };
    let (width, height) = (draws.within(1, side), draws.within(1, side));
    let (p, q) = match i % 3 {
        0 => (draws.below(511) as i64 - 255, draws.below(511) as i64 - 255),
        _ => NUMBERED[(i % 16) as usize],
    };
    let stride = width + draws.below(4);
    let mut job = Job { kind: draws.below(7), width, height, stride, p, q, length: draws.within(1, longest), src: 0, dst: 0, scratch: 0 };
    if i % 5 == 0 {
        push(&mut job, draws);
    }
    size(&mut job, draws);
    job
}

/// A block of bytes of a kind between guards.
fn block(bytes: u64, kind: u64, seed: u64) -> Vec<u8> {
    [draw::bytes(GUARD, 0, seed), draw::bytes(bytes as usize, kind, seed), draw::bytes(GUARD, 0, seed + 1)].concat()
}

fn lent(block: &[u8]) -> &[u8] {
    &block[GUARD..block.len() - GUARD]
}

/// The call through the archive. The blocks are those of the job, so that the sizes are true.
fn call(job: &Job, src: &[u8], dst: &mut [u8], scratch: &mut [u8]) -> u64 {
    let (s, d, t) = (&src[GUARD..], &mut dst[GUARD..], &mut scratch[GUARD..]);
    let (width, height, stride, length) = (job.width as usize, job.height as usize, job.stride as usize, job.length as usize);
    unsafe {
        fibre_open_frame(
            s.as_ptr(), job.src as usize, width, height, stride, job.p, job.q, length,
            d.as_mut_ptr(), job.dst as usize, t.as_mut_ptr(), job.scratch as usize,
        )
    }
}

/// The refusal's number, 0 where the call is done; an error where anything is not as the definitions have it.
fn compare(job: &Job, seed: u64) -> Result<u64, String> {
    let (src, dst, scratch) = (block(job.src, job.kind, seed), block(job.dst, 0, seed + 2), block(job.scratch, 0, seed + 4));
    let (mut dst_after, mut scratch_after) = (dst.clone(), scratch.clone());
    let src_before = src.clone();
    let got = call(job, &src, &mut dst_after, &mut scratch_after);
    let refusal = refusals::open_frame(job.shape(), job.direction(), job.length, job.src, job.dst, job.scratch);
    let (number, figure) = refusal.unwrap_or((0, 0));
    let mut expected = dst;
    if refusal.is_none() {
        definitions::open_frame(lent(&src), job.shape(), job.direction(), job.length, &mut expected[GUARD..]);
        let end = GUARD + job.scratch as usize;
        scratch_after[GUARD..end].copy_from_slice(&scratch[GUARD..end]);
    }
    let wrong = [(got != number * (1 << 32) + figure, "its answer"), (src != src_before, "its source"), (dst_after != expected, "its destination"), (scratch_after != scratch, "its scratch")];
    match wrong.iter().find(|w| w.0) {
        Some((_, what)) => Err(format!("{what} differs; it answered {got:#x}: {job:?}")),
        None => Ok(number),
    }
}

fn main() {
    let mut draws = Draws(88_172_645_463_325_252);
    let (mut by_number, mut fewer) = ([0; 8], 0);
    for i in 0..CALLS {
        let job = job(i, &mut draws);
        match compare(&job, i) {
            Ok(number) => {
                by_number[number as usize] += 1;
                fewer += (number == 0 && job.direction().pixels_for(job.length) < job.length) as u64;
            }
            Err(what) => {
                println!("check/native: call {i}: {what}");
                std::process::exit(1);
            }
        }
    }
    let refused: Vec<String> = [1, 2, 3, 5, 6, 7].iter().map(|&n| format!("{n}: {}", by_number[n])).collect();
    println!("check/native: {CALLS} calls as the definitions have them: {} done, {fewer} of them with fewer pixels than the length; refused by rule {}", by_number[0], refused.join(", "));
}
